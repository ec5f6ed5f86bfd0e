//! How deep a call goes: it runs on a stack of its own that was painted before, and what is no longer paint was used.

use std::arch::asm;

const SIZE: usize = 1 << 20;
/// Two paints, since a call may happen to write one of them.
const PAINTS: [u8; 2] = [0xa5, 0x5a];

/// Bytes of stack that a call of `work` uses beyond a call that does nothing.
pub fn depth_of(mut work: impl FnMut()) -> usize {
    used_by(&mut work).saturating_sub(used_by(&mut || {}))
}

fn used_by(work: &mut dyn FnMut()) -> usize {
    PAINTS.iter().map(|&paint| used_with(paint, work)).max().unwrap_or(0)
}

fn used_with(paint: u8, work: &mut dyn FnMut()) -> usize {
    let mut stack = vec![paint; SIZE];
    let mut handed: &mut dyn FnMut() = work;
    let top = (stack.as_mut_ptr() as usize + SIZE) & !15;
    let call: extern "C" fn(&mut &mut dyn FnMut()) = call_work;
    // SAFETY: `top` is the aligned upper end of a megabyte that only this call uses. The old stack pointer is kept in
    // r12, which a C function gives back as it was; everything else that a call may change is declared. `call_work`
    // does not unwind: a panic there aborts.
    unsafe {
        asm!(
            "xchg rsp, r12",
            "call rax",
            "mov rsp, r12",
            inout("r12") top => _,
            inout("rax") call as usize => _,
            inout("rdi") &mut handed => _,
            clobber_abi("C"),
        );
    }
    SIZE - stack.iter().position(|&byte| byte != paint).unwrap_or(SIZE)
}

extern "C" fn call_work(work: &mut &mut dyn FnMut()) {
    work();
}
