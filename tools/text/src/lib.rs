//! Tables as text: an assembler and a disassembler, and what the two programs `likunjavo-asm` and
//! `likunjavo-disasm` share.
//!
//! The bytes of records, and the reading that tells the disassembler how far a table reads, are those
//! of the second implementation (`second::table`). Whether a table passes is not looked at.
//!
//! One line is one record; `;` starts a comment; brackets and commas read as
//! blanks; numbers are decimal or `0x` hexadecimal. Places need not be written:
//! the assembler fills in start places and the places that IF, ELSE, WHILE and
//! ENDWHILE name. The records, in the table's own order:
//!
//! ```text
//! sizes 2 1 1                         ; registers arrays functions
//! array 4                             ; words
//! signature unknown PT/S updated SS/S ; in, out: status, registers/arrays
//! const r0 5                          ; dest value
//! add r0 r1 r2                        ; dest left right; also sub mul xor and
//!                                     ; or less equal
//! select r0 r1 r2 r3                  ; dest cond yes no
//! load r0 a0[r1]                      ; dest array[index]
//! store a0[r1] r0                     ; array[index] source
//! load r0 a0[7]                       ; LOAD FIXED: the index is a number
//! store a0[7] r0                      ; STORE FIXED likewise
//! init
//! update r0 nonzero                   ; or zero
//! protect r0 r1                       ; dest source
//! call f0                             ; or: call f0 marked
//! if r0
//! else
//! endif
//! while r0 unknown PT/S               ; guard, loop environment
//! endwhile
//! return
//! ```
//!
//! Levels are the letters `P`, `T` and `S` (and `X` for the invalid 3); slots
//! without a letter are 0. The first instruction is function 0's first, and the
//! one after each `return` the next function's.
//!
//! For tables that are wrong on purpose: `@N` at the end of a `signature`, `if`,
//! `else`, `while` or `endwhile` names place N instead of the right one; a number
//! may stand for a status, sense or mark; `op N r0 r1 r2` has any op; registers,
//! arrays and functions may have any number up to 255; `hex 01 02 FF` puts raw
//! bytes anywhere, and `zeros 9` so many bytes 0 (they begin no function of their
//! own: if a function is to start with them, its signature needs an `@N`). A table
//! may be all `hex`.

#![forbid(unsafe_code)]

mod assemble;
mod disassemble;
pub mod program;

pub use assemble::assemble;
pub use disassemble::disassemble;

/// The operations in the order of their numbers.
const OPS: [&str; 8] = ["add", "sub", "mul", "xor", "and", "or", "less", "equal"];
/// The letters of the levels 0 to 3; 3 is none.
const LEVELS: [char; 4] = ['P', 'T', 'S', 'X'];
