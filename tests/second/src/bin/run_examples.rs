//! The cases of the Rattle program `crates/run_examples`, and what that program has
//! to write of them: `run_examples cases` writes its file `stdin`, `run_examples`
//! its file `stdout`.

use second::{run, Outcome};
use std::convert::TryFrom;
use std::env;
use std::io::{self, Write};

/// The code of 01's table B.
const CODE_B: [u8; 13] = [21, 19, 0, 0, 1, 23, 0, 0, 19, 1, 0, 0, 37];

/// A name and its numbers.
fn line<T: ToString>(out: &mut dyn Write, name: &str, numbers: &[T]) -> io::Result<()> {
    write!(out, "{}", name)?;
    for number in numbers {
        write!(out, " {}", number.to_string())?;
    }
    writeln!(out)
}

/// As `line`, but only the length of more than 200.
fn line_or_length(out: &mut dyn Write, name: &str, bytes: &[u8]) -> io::Result<()> {
    if bytes.len() <= 200 {
        line(out, name, bytes)
    } else {
        writeln!(out, "{} {} bytes", name, bytes.len())
    }
}

/// A table and a list of directives, and what is lent to their run.
struct Case<'a> {
    name: &'a str,
    table: &'a [u8],
    directives: &'a [u8],
    registers: &'a [u32],
    memory: &'a [u32],
    room: usize,
}

impl Case<'_> {
    /// The run, with room for so many observation bytes, each 255 before.
    fn show(&self, out: &mut dyn Write) -> io::Result<()> {
        let mut registers = self.registers.to_vec();
        let mut memory = self.memory.to_vec();
        let mut observations = vec![255; self.room];
        writeln!(out, "{}", self.name)?;
        line_or_length(out, "table", self.table)?;
        line_or_length(out, "directives", self.directives)?;
        line(out, "registers before", &registers)?;
        line(out, "memory before", &memory)?;
        line(out, "observations before", &observations)?;
        match run(self.table, &mut registers, &mut memory, self.directives, &mut observations) {
            Outcome::Refused { number, place } => writeln!(out, "refused {} at {}", number, place)?,
            Outcome::Stopped { number, place, steps, misspeculating, masked } => writeln!(
                out,
                "stop {} at {} after {} steps, misspeculating {}, masked {}",
                number,
                place,
                steps,
                u8::from(misspeculating),
                u8::from(masked)
            )?,
        }
        line(out, "registers after", &registers)?;
        line(out, "memory after", &memory)?;
        line(out, "observations after", &observations)?;
        writeln!(out)
    }

    /// The bytes that `crates/run_examples/src/main.rt` describes.
    fn encode(&self, out: &mut dyn Write) -> io::Result<()> {
        part(out, self.name.as_bytes())?;
        part(out, self.table)?;
        part(out, self.directives)?;
        part(out, &in_bytes(self.registers))?;
        part(out, &in_bytes(self.memory))?;
        out.write_all(&[u8::try_from(self.room).expect("a byte")])
    }
}

fn part(out: &mut dyn Write, bytes: &[u8]) -> io::Result<()> {
    let length = u16::try_from(bytes.len()).expect("two bytes");
    out.write_all(&length.to_le_bytes())?;
    out.write_all(bytes)
}

fn in_bytes(words: &[u32]) -> Vec<u8> {
    words.iter().flat_map(|word| word.to_le_bytes()).collect()
}

/// Where the cases are written, and in which form.
struct Cases<'a> {
    out: &'a mut dyn Write,
    encoded: bool,
    name: String,
}

impl Cases<'_> {
    /// The name of the next case.
    fn case(&mut self, name: &str) {
        self.name = name.to_string();
    }

    fn run_in(
        &mut self,
        table: &[u8],
        registers: &[u32],
        memory: &[u32],
        directives: &[u8],
        room: usize,
    ) -> io::Result<()> {
        let case = Case { name: &self.name, table, directives, registers, memory, room };
        if self.encoded {
            case.encode(self.out)
        } else {
            case.show(self.out)
        }
    }

    /// A whole table, over 2 registers and 4 words, with a plain directive.
    fn whole(&mut self, table: &[u8]) -> io::Result<()> {
        self.run_in(table, &[0, 1], &[3, 2, 9, 7], &[96], 4)
    }

    /// Code after the head of table A.
    fn one(&mut self, code: &[u8], r0: u32, r1: u32, list: &[u8], room: usize) -> io::Result<()> {
        self.run_in(&[&head(), code].concat(), &[r0, r1], &[3, 2, 9, 7], list, room)
    }

    /// Code after a head with 3 registers and arrays of 4 and 3 words; the
    /// function starts at 27.
    fn two(&mut self, code: &[u8], regs: [u32; 3], list: &[u8], room: usize) -> io::Result<()> {
        let table = [&[1, 3, 2, 1, 2, 4, 0, 2, 3, 0], &signature(27)[..], code].concat();
        self.run_in(&table, &regs, &[3, 2, 9, 7, 5, 6, 8], list, room)
    }

    /// Function 0, at 55: OP 0 := 0 + 1. Function 1, at 61: marked CALL 0,
    /// PROTECT 1 := 0. The entry, at 68: CALL 0, CALL 1, PROTECT 1 := 0. After the
    /// CALLs of 0 are the places 64 (marked) and 71, after the CALL of 1 is 74.
    fn calls(&mut self, list: &[u8], room: usize) -> io::Result<()> {
        let mut table = head_three([55, 61, 68]);
        table.extend_from_slice(&[17, 0, 0, 0, 1, 37]);
        table.extend_from_slice(&[24, 0, 1, 23, 1, 0, 37]);
        table.extend_from_slice(&[24, 0, 0, 24, 1, 0, 23, 1, 0, 37]);
        self.run_in(&table, &[3, 4], &[], list, room)
    }

    /// Function 0, at 55: nothing. Function 1, at 56: CALL 0, CALL 0. The entry,
    /// at 63: marked CALL 1, PROTECT 1 := 0. After the CALLs of 0 are the places
    /// 59 and 62, after the CALL of 1 is 66.
    fn calls_twice(&mut self, list: &[u8], room: usize) -> io::Result<()> {
        let mut table = head_three([55, 56, 63]);
        table.extend_from_slice(&[37]);
        table.extend_from_slice(&[24, 0, 0, 24, 0, 0, 37]);
        table.extend_from_slice(&[24, 1, 1, 23, 1, 0, 37]);
        self.run_in(&table, &[3, 4], &[], list, room)
    }
}

/// The head of tables A and B: 2 registers, an array of 4 words, a function that
/// starts at 24.
fn head() -> Vec<u8> {
    vec![1, 2, 1, 1, 2, 4, 0, 3, 24, 0, 0, 0, 0, 0, 0, 0, 0, 0, 10, 0, 0, 0, 0, 0]
}

/// A signature record: its start place and zeros.
fn signature(start: u16) -> Vec<u8> {
    let [low, high] = start.to_le_bytes();
    [&[3, low, high][..], &[0; 14]].concat()
}

/// A head with 2 registers, no array and three functions.
fn head_three(starts: [u16; 3]) -> Vec<u8> {
    let [a, b, c] = starts;
    [vec![1, 2, 0, 3], signature(a), signature(b), signature(c)].concat()
}

/// Table B of 01, case 4.
fn of_table_b(to: &mut Cases) -> io::Result<()> {
    let code = &CODE_B;
    to.case("table B, room 14");
    to.one(code, 0, 1, &[96, 96, 96, 96], 14)?;
    to.case("stop 26: table B, room 13");
    to.one(code, 0, 1, &[96, 96, 96, 96], 13)?;
    to.case("table B, room 20 and directives left over");
    to.one(code, 0, 1, &[96, 96, 96, 96, 96, 97, 1], 20)?;
    to.case("stop 20: table B, two directives");
    to.one(code, 0, 1, &[96, 96], 14)?;
    to.case("stop 20: table B, no directive and no room");
    to.one(code, 0, 1, &[], 0)?;
    to.case("stop 22: table B, a branch at INIT");
    to.one(code, 0, 1, &[97, 1], 14)?;
    to.case("stop 22: table B, a stray access in range");
    to.one(code, 0, 1, &[96, 98, 0, 1, 0], 14)?;
    to.case("stop 26: table B, no room at all");
    to.one(code, 0, 1, &[96], 0)?;
    to.case("stop 22: table B, a return and no room");
    to.one(code, 0, 1, &[99, 36, 0], 0)?;
    // only a RETURN: 21 before 20 and 22
    to.case("stop 21: no step");
    to.one(&[37], 0, 1, &[], 4)?;
    to.case("stop 21: no step, a directive left over");
    to.one(&[37], 0, 1, &[97, 0], 4)
}

/// On the right path.
fn of_indices(to: &mut Cases) -> io::Result<()> {
    // LOAD 0 := array 0 at register 1
    to.case("LOAD of index 3 in an array of 4");
    to.one(&[19, 0, 0, 1, 37], 5, 3, &[96], 8)?;
    to.case("stop 24: LOAD of index 4 in an array of 4");
    to.one(&[19, 0, 0, 1, 37], 5, 4, &[96], 8)?;
    // 24 before 22 and 26
    to.case("stop 24: a stray access on the right path, no room");
    to.one(&[19, 0, 0, 1, 37], 5, 4, &[98, 0, 2, 0], 0)?;
    // STORE array 0 at register 1 := 0
    to.case("STORE at index 3 in an array of 4");
    to.one(&[20, 0, 1, 0, 37], 5, 3, &[96], 8)?;
    to.case("stop 24: STORE at index 4 in an array of 4");
    to.one(&[20, 0, 1, 0, 37], 5, 4, &[96], 8)?;
    // arrays of 4 and 3 words
    to.case("STORE into array 1, array 0 unchanged");
    to.two(&[20, 1, 1, 2, 37], [0, 0, 77], &[96], 8)?;
    to.case("STORE at the last word of array 1");
    to.two(&[20, 1, 1, 2, 37], [0, 2, 77], &[96], 8)?;
    to.case("stop 24: STORE at index 3 in array 1 of 3");
    to.two(&[20, 1, 1, 2, 37], [0, 3, 77], &[96], 8)?;
    to.case("STORE into array 0, array 1 unchanged");
    to.two(&[20, 0, 1, 2, 37], [0, 3, 77], &[96], 8)?;
    to.case("LOAD from array 1");
    to.two(&[19, 0, 1, 1, 37], [0, 1, 77], &[96], 8)
}

/// IF 0, in its first block LOAD 1 := array 0 at register 1; register 0 is 0 and
/// the directive goes in.
fn of_stray_loads(to: &mut Cases) -> io::Result<()> {
    let code = &[32, 0, 32, 0, 19, 1, 0, 1, 33, 35, 0, 34, 37];
    to.case("stray LOAD of index 4");
    to.one(code, 0, 4, &[97, 1, 98, 0, 2, 0, 96], 12)?;
    to.case("misspeculating, LOAD of index 3");
    to.one(code, 0, 3, &[97, 1, 96, 96], 12)?;
    to.case("stop 22: a stray access of index 3");
    to.one(code, 0, 3, &[97, 1, 98, 0, 2, 0], 12)?;
    to.case("stop 22: a plain directive for index 4");
    to.one(code, 0, 4, &[97, 1, 96], 12)?;
    to.case("stop 25: no word 4 in array 0");
    to.one(code, 0, 4, &[97, 1, 98, 0, 4, 0], 12)?;
    to.case("stop 25: no array 1");
    to.one(code, 0, 4, &[97, 1, 98, 1, 0, 0], 12)?;
    // 25 before 26
    to.case("stop 25: no word 256 in array 0, no room");
    to.one(code, 0, 4, &[97, 1, 98, 0, 0, 1], 2)?;
    to.case("stop 26: room for 5 of 6 bytes");
    to.one(code, 0, 4, &[97, 1, 98, 0, 2, 0], 7)
}

/// IF 0, in its first block STORE array 0 at register 1 := 2; arrays of 4 and 3
/// words.
fn of_stray_stores(to: &mut Cases) -> io::Result<()> {
    let code = &[32, 0, 35, 0, 20, 0, 1, 2, 33, 38, 0, 34, 37];
    to.case("stray STORE into array 1");
    to.two(code, [0, 4294967295, 77], &[97, 1, 98, 1, 2, 0, 96], 12)?;
    to.case("stray STORE into array 0");
    to.two(code, [0, 4, 77], &[97, 1, 98, 0, 0, 0, 96], 12)?;
    to.case("stop 25: no word 3 in array 1");
    to.two(code, [0, 4, 77], &[97, 1, 98, 1, 3, 0, 96], 12)
}

/// IF 0, with PROTECT 1 := 0 in its first block and UPDATE (0, 0) in its second.
fn of_branches(to: &mut Cases) -> io::Result<()> {
    let code = &[32, 0, 31, 0, 23, 1, 0, 33, 37, 0, 22, 0, 0, 34, 37];
    to.case("IF on 2, the right way");
    to.one(code, 2, 5, &[97, 1, 96, 96], 6)?;
    to.case("IF on 0, the right way");
    to.one(code, 0, 5, &[97, 0, 96, 96], 6)?;
    to.case("IF on 0, the wrong way");
    to.one(code, 0, 5, &[97, 1, 96, 96], 6)?;
    to.case("IF on 2, the wrong way");
    to.one(code, 2, 5, &[97, 0, 96, 96], 6)?;
    to.case("stop 22: a plain directive at IF");
    to.one(code, 2, 5, &[96], 6)?;
    to.case("stop 26: room 1 for a branch");
    to.one(code, 0, 5, &[97, 1], 1)?;
    to.case("stop 22: a branch at ELSE");
    to.one(code, 2, 5, &[97, 1, 96, 97, 1], 6)
}

/// IF 0, with INIT in its first block: 20 before 23 before 22 and 26.
fn of_inits(to: &mut Cases) -> io::Result<()> {
    let code = &[32, 0, 29, 0, 21, 33, 32, 0, 34, 37];
    to.case("stop 23: INIT while misspeculating");
    to.one(code, 0, 0, &[97, 1, 96], 6)?;
    to.case("stop 23: INIT while misspeculating, a branch and no room");
    to.one(code, 0, 0, &[97, 1, 97, 1], 2)?;
    to.case("stop 20: before an INIT while misspeculating");
    to.one(code, 0, 0, &[97, 1], 6)?;
    to.case("INIT on the right path");
    to.one(code, 1, 0, &[97, 1, 96, 96], 6)
}

/// UPDATE, PROTECT and INIT.
fn of_the_flag(to: &mut Cases) -> io::Result<()> {
    // IF 0, in its first block UPDATE (0, 1) and PROTECT 1 := 1
    let code = &[32, 0, 34, 0, 22, 0, 1, 23, 1, 1, 33, 37, 0, 34, 37];
    to.case("UPDATE and PROTECT, the wrong way");
    to.one(code, 0, 8, &[97, 1, 96, 96, 96], 6)?;
    to.case("UPDATE and PROTECT, the right way");
    to.one(code, 3, 8, &[97, 1, 96, 96, 96], 6)?;
    // UPDATE (0, 1), UPDATE (0, 0), PROTECT 1 := 0
    let twice = &[22, 0, 1, 22, 0, 0, 23, 1, 0, 37];
    to.case("UPDATE leaves a masked flag masked");
    to.one(twice, 0, 8, &[96, 96, 96], 4)?;
    to.case("UPDATE (0, 0) masks");
    to.one(twice, 3, 8, &[96, 96, 96], 4)?;
    // UPDATE (0, 1), PROTECT 1 := 0, INIT, PROTECT 0 := 0
    let init = &[22, 0, 1, 23, 1, 0, 21, 23, 0, 0, 37];
    to.case("INIT clears the flag");
    to.one(init, 0, 8, &[96, 96, 96, 96], 4)
}

/// WHILE 1, with OP 1 := 1 - 0 as its body.
fn of_loops(to: &mut Cases) -> io::Result<()> {
    let code = &[35, 1, 40, 0, 0, 0, 0, 0, 0, 0, 0, 17, 1, 1, 1, 0, 36, 24, 0, 37];
    to.case("a loop run twice and left");
    let list = &[97, 1, 96, 96, 97, 1, 96, 96, 97, 0];
    to.one(code, 1, 2, list, 12)?;
    to.case("a loop left too late");
    to.one(code, 1, 1, list, 12)?;
    to.case("a loop left too early");
    to.one(code, 1, 2, &[97, 1, 96, 96, 97, 0], 12)?;
    to.case("a loop not entered");
    to.one(code, 1, 0, &[97, 0], 12)?;
    to.case("stop 22: a return at ENDWHILE");
    to.one(code, 1, 2, &[97, 1, 96, 99, 24, 0], 12)
}

/// Returns, right and wrong.
fn of_returns(to: &mut Cases) -> io::Result<()> {
    to.case("CALL and its right return");
    to.calls(&[96, 96, 99, 71, 0], 4)?;
    let right = &[96, 96, 99, 71, 0, 96, 96, 96, 99, 64, 0, 96, 99, 74, 0, 96];
    to.case("CALLs and their right returns, to the end");
    to.calls(right, 12)?;
    // from the CALL in the entry to the place after the marked one, then with an
    // empty stack to 74
    to.case("wrong return into another caller, marked");
    to.calls(&[96, 96, 99, 64, 0, 96, 99, 74, 0, 96], 12)?;
    // from the CALL in function 1 to the place after the one in the entry, then
    // on from there
    let wrong = [
        &[96, 96, 99, 71, 0, 96, 96, 96, 99, 71, 0][..],
        &[96, 96, 96, 99, 64, 0, 96, 99, 74, 0, 96],
    ];
    to.case("wrong return into another caller, unmarked");
    to.calls(&wrong.concat(), 16)?;
    to.case("right returns to a marked CALL");
    let right = &[96, 96, 99, 59, 0, 96, 99, 62, 0, 99, 66, 0, 96];
    to.calls_twice(right, 8)?;
    // 59 is on top, 62 follows another CALL: the stack is emptied, so that 66 is
    // no longer on it
    to.case("wrong return empties the stack");
    to.calls_twice(&[96, 96, 99, 62, 0, 99, 66, 0, 96], 8)
}

/// Stops at CALL and RETURN.
fn of_calls(to: &mut Cases) -> io::Result<()> {
    to.case("stop 25: after a CALL of another function");
    to.calls(&[96, 96, 99, 74, 0], 4)?;
    to.case("stop 25: after no CALL");
    to.calls(&[96, 96, 99, 55, 0], 4)?;
    to.case("stop 25: a place beyond the table, no room");
    to.calls(&[96, 96, 99, 255, 255], 2)?;
    to.case("stop 22: a plain directive at RETURN");
    to.calls(&[96, 96, 96], 4)?;
    to.case("stop 22: a return at CALL");
    to.calls(&[99, 71, 0], 4)?;
    to.case("stop 20: at RETURN");
    to.calls(&[96, 96], 4)?;
    to.case("stop 26: at RETURN");
    to.calls(&[96, 96, 99, 71, 0], 2)
}

/// Registers 2 to 9 get what ops 0 to 7 give of registers 0 and 1, register 10 a
/// SELECT of them by register 0, register 11 a CONST.
fn ops(to: &mut Cases, left: u32, right: u32) -> io::Result<()> {
    let mut table = [vec![1, 12, 0, 1], signature(21)].concat();
    for op in 0..8 {
        table.extend_from_slice(&[17, 2 + op, op, 0, 1]);
    }
    table.extend_from_slice(&[18, 10, 0, 0, 1]);
    table.extend_from_slice(&[16, 11, 1, 2, 3, 4, 37]);
    let registers = [left, right, 0, 0, 0, 0, 0, 0, 0, 0, 0, 0];
    to.run_in(&table, &registers, &[], &[96; 10], 10)
}

fn of_ops(to: &mut Cases) -> io::Result<()> {
    to.case("ops on 12 and 10");
    ops(to, 12, 10)?;
    to.case("ops on 10 and 12");
    ops(to, 10, 12)?;
    to.case("ops on 4294967295 and 2");
    ops(to, 4294967295, 2)?;
    to.case("ops on 0 and 0");
    ops(to, 0, 0)?;
    to.case("ops on 0 and 9");
    ops(to, 0, 9)?;
    to.case("ops on 65536 and 65537");
    ops(to, 65536, 65537)
}

/// The reading, 2 to 4.
fn of_tables(to: &mut Cases) -> io::Result<()> {
    to.case("refusal 2: the empty table");
    to.whole(&[])?;
    // table A without its RETURN
    to.case("refusal 2: a record is due");
    to.one(&[19, 0, 0, 1, 19, 1, 0, 0], 0, 1, &[96], 4)?;
    // a CONST of which the last byte is missing
    to.case("refusal 2: cut inside a record");
    to.one(&[16, 0, 7, 0, 0], 0, 1, &[96], 4)?;
    // kind 26 is none of the listed kinds
    to.case("refusal 3: unknown kind");
    to.one(&[38, 37], 0, 1, &[96], 4)?;
    // an ENDIF where no block is open
    to.case("refusal 3: kind not allowed here");
    to.one(&[34, 37], 0, 1, &[96], 4)?;
    // CONST into register 5, of two
    to.case("refusal 4: no such register");
    to.one(&[16, 5, 1, 0, 0, 0, 37], 0, 1, &[96], 4)
}

/// The reading, 5 and 7 to 9.
fn of_places(to: &mut Cases) -> io::Result<()> {
    // the signature says that the function starts at 25
    to.case("refusal 5: start place");
    signed(to, 25, 0)?;
    // the IF at 24 names 29, its ELSE is at 28
    to.case("refusal 5: ELSE place");
    to.one(&[32, 0, 29, 0, 33, 31, 0, 34, 37], 0, 1, &[97, 1], 4)?;
    // the only function calls itself
    to.case("refusal 7: CALL of itself");
    to.one(&[24, 0, 0, 37], 0, 1, &[96], 4)?;
    // the entry's in status is updated
    to.case("refusal 8: entry's in status");
    signed(to, 24, 1)?;
    // a byte after the RETURN
    to.case("refusal 9: bytes after the last RETURN");
    to.one(&[21, 37, 0], 0, 1, &[96], 4)
}

/// The head of table A with another start place or in status, and a RETURN.
fn signed(to: &mut Cases, start: u16, status: u8) -> io::Result<()> {
    let mut table = [vec![1, 2, 1, 1, 2, 4, 0], signature(start), vec![37]].concat();
    table[10] = status;
    to.whole(&table)
}

/// Table B over other lengths, 15.
fn lent(to: &mut Cases, registers: &[u32], memory: &[u32], list: &[u8]) -> io::Result<()> {
    to.run_in(&[&head()[..], &CODE_B].concat(), registers, memory, list, 14)
}

fn of_lengths(to: &mut Cases) -> io::Result<()> {
    to.case("refusal 15: 3 registers for 2");
    lent(to, &[0, 1, 2], &[3, 2, 9, 7], &[96, 96, 96, 96])?;
    to.case("refusal 15: 1 register for 2");
    lent(to, &[0], &[3, 2, 9, 7], &[96, 96, 96, 96])?;
    to.case("refusal 15: 5 words for 4");
    lent(to, &[0, 1], &[3, 2, 9, 7, 5], &[96, 96, 96, 96])?;
    to.case("refusal 15: 3 words for 4");
    lent(to, &[0, 1], &[3, 2, 9], &[96, 96, 96, 96])?;
    // 15 before 16
    to.case("refusal 15: 1 register for 2 and a bad list");
    lent(to, &[0], &[3, 2, 9, 7], &[100])?;
    // 2 before 15
    to.case("refusal 2: the empty table, no registers and a bad list");
    to.run_in(&[], &[], &[], &[100], 4)
}

/// The directive list, 16.
fn of_lists(to: &mut Cases) -> io::Result<()> {
    to.case("refusal 16: unknown kind");
    to.one(&[21, 37], 0, 1, &[96, 100], 4)?;
    to.case("refusal 16: a stray access cut short");
    to.one(&[21, 37], 0, 1, &[96, 98, 0, 1], 4)?;
    to.case("refusal 16: a return cut short");
    to.one(&[21, 37], 0, 1, &[96, 99, 24], 4)?;
    to.case("refusal 16: a branch cut short");
    to.one(&[21, 37], 0, 1, &[96, 97], 4)?;
    to.case("refusal 16: branch byte over 1");
    to.one(&[21, 37], 0, 1, &[96, 96, 97, 2], 4)?;
    // the run would end before it came to the bad directive
    to.case("refusal 16: after the end of the run");
    to.one(&[21, 37], 0, 1, &[96, 96, 95], 4)
}

/// The head of table A, 5,457 CONSTs, then the rest.
fn filled(to: &mut Cases, rest: &[u8]) -> io::Result<()> {
    let table = [head(), [16, 0, 7, 0, 0, 0].repeat(5457), rest.to_vec()].concat();
    to.run_in(&table, &[0, 1], &[3, 2, 9, 7], &[96, 96], 4)
}

/// Table B under so many plain directives.
fn listed(to: &mut Cases, n: usize) -> io::Result<()> {
    to.one(&CODE_B, 0, 1, &vec![96; n], 16)
}

/// IFs one inside the other; the run goes into each, and out.
fn nested(to: &mut Cases, depth: usize) -> io::Result<()> {
    let mut code = vec![37];
    // From the innermost outwards: an IF before, its ELSE and ENDIF after.
    for inside in 0..depth {
        let start = 24 + 4 * (depth - 1 - inside);
        let other = start + 4 + 8 * inside;
        code.pop();
        let opening = [32, 0, other as u8, 0];
        let closing = [33, other as u8 + 3, 0, 34, 37];
        code = [&opening[..], &code, &closing].concat();
    }
    let list = [[97, 1].repeat(depth), vec![96; depth]].concat();
    to.one(&code, 1, 1, &list, 56)
}

/// 32 functions over one register: function 0 is a RETURN at 548, the others
/// start 4 apart from 549. The list has 31 plain directives, then the 31 right
/// returns, 124 bytes; its first bytes are used.
fn chain(to: &mut Cases, length: usize) -> io::Result<()> {
    let mut table = vec![1, 1, 0, 32];
    table.extend_from_slice(&signature(548));
    for function in 1..32 {
        table.extend_from_slice(&signature(545 + 4 * function));
    }
    table.push(37);
    for function in 0..31 {
        table.extend_from_slice(&[24, function, 0, 37]);
    }
    let mut list = vec![96; 31];
    for function in 1..32u16 {
        let [low, high] = (548 + 4 * function).to_le_bytes();
        list.extend_from_slice(&[99, low, high]);
    }
    to.run_in(&table, &[6], &[], &list[..length], 64)
}

/// The largest tables, lists, nestings and stacks, and the ones just over them.
fn sizes(to: &mut Cases) -> io::Result<()> {
    to.case("length 32,768");
    filled(to, &[21, 37])?;
    to.case("refusal 1: length 32,769");
    filled(to, &[21, 21, 37])?;
    // 1 before 3
    to.case("refusal 1: length 32,769 and an unknown kind");
    filled(to, &[21, 21, 38])?;
    to.case("list of 16,384 bytes");
    listed(to, 16384)?;
    to.case("refusal 16: list of 16,385 bytes");
    listed(to, 16385)?;
    to.case("nesting 16");
    nested(to, 16)?;
    to.case("refusal 6: nesting 17");
    nested(to, 17)?;
    to.case("stop 20: 31 places on the stack");
    chain(to, 31)?;
    to.case("31 CALLs and their returns");
    chain(to, 124)
}

/// LOAD FIXED 0 := array 0 at an index in an array of 4, on the right path; kind 27.
fn of_fixed_loads(to: &mut Cases) -> io::Result<()> {
    to.case("LOAD FIXED of index 0");
    to.one(&[27, 0, 0, 0, 0, 37], 5, 6, &[96], 8)?;
    to.case("LOAD FIXED of index 3 in an array of 4, room 6");
    to.one(&[27, 0, 0, 3, 0, 37], 5, 6, &[96], 6)?;
    to.case("stop 26: LOAD FIXED, room 5");
    to.one(&[27, 0, 0, 3, 0, 37], 5, 6, &[96], 5)?;
    to.case("stop 20: LOAD FIXED, no directive and no room");
    to.one(&[27, 0, 0, 3, 0, 37], 5, 6, &[], 0)?;
    to.case("stop 22: a stray access at LOAD FIXED");
    to.one(&[27, 0, 0, 3, 0, 37], 5, 6, &[98, 0, 3, 0], 8)?;
    to.case("stop 22: a branch at LOAD FIXED");
    to.one(&[27, 0, 0, 3, 0, 37], 5, 6, &[97, 1], 8)?;
    // 22 before 26
    to.case("stop 22: a return at LOAD FIXED, no room");
    to.one(&[27, 0, 0, 3, 0, 37], 5, 6, &[99, 29, 0], 0)?;
    // arrays of 4 and 3 words
    to.case("LOAD FIXED from array 1");
    to.two(&[27, 2, 1, 2, 0, 37], [0, 1, 77], &[96], 8)?;
    // an array of 259 words: both bytes of the index
    let table = [&[1, 2, 1, 1, 2, 3, 1], &signature(24)[..], &[27, 1, 0, 2, 1, 37]].concat();
    let memory: Vec<u32> = (1000..1259).collect();
    to.case("LOAD FIXED of index 258 in an array of 259");
    to.run_in(&table, &[5, 6], &memory, &[96], 8)
}

/// STORE FIXED at an index := a register; kind 28.
fn of_fixed_stores(to: &mut Cases) -> io::Result<()> {
    to.case("STORE FIXED at index 3 in an array of 4, room 6");
    to.one(&[28, 0, 3, 0, 1, 37], 5, 6, &[96], 6)?;
    to.case("stop 26: STORE FIXED, room 5");
    to.one(&[28, 0, 3, 0, 1, 37], 5, 6, &[96], 5)?;
    to.case("stop 20: STORE FIXED, no directive");
    to.one(&[28, 0, 3, 0, 1, 37], 5, 6, &[], 8)?;
    to.case("stop 22: a stray access at STORE FIXED");
    to.one(&[28, 0, 3, 0, 1, 37], 5, 6, &[98, 0, 3, 0], 8)?;
    to.case("stop 22: a branch at STORE FIXED, no room");
    to.one(&[28, 0, 3, 0, 1, 37], 5, 6, &[97, 0], 0)?;
    to.case("stop 22: a return at STORE FIXED");
    to.one(&[28, 0, 3, 0, 1, 37], 5, 6, &[99, 29, 0], 8)?;
    // arrays of 4 and 3 words
    to.case("STORE FIXED at the last word of array 0, array 1 unchanged");
    to.two(&[28, 0, 3, 0, 2, 37], [0, 1, 77], &[96], 8)?;
    to.case("STORE FIXED at the first word of array 1, array 0 unchanged");
    to.two(&[28, 1, 0, 0, 2, 37], [0, 1, 77], &[96], 8)?;
    // STORE FIXED array 1 at 2 := 2, LOAD FIXED 0 := array 1 at 2
    to.case("STORE FIXED and LOAD FIXED of the same word");
    to.two(&[28, 1, 2, 0, 2, 27, 0, 1, 2, 0, 37], [0, 1, 77], &[96, 96], 12)
}

/// Both while misspeculating: register 0 is 0 and the directive goes into the
/// first block of IF 0.
fn of_fixed_astray(to: &mut Cases) -> io::Result<()> {
    // LOAD FIXED 1 := array 0 at 3
    let load = &[32, 0, 33, 0, 27, 1, 0, 3, 0, 33, 36, 0, 34, 37];
    to.case("misspeculating, LOAD FIXED");
    to.one(load, 0, 6, &[97, 1, 96, 96], 12)?;
    to.case("stop 22: misspeculating, a stray access at LOAD FIXED");
    to.one(load, 0, 6, &[97, 1, 98, 0, 2, 0, 96], 12)?;
    // 22 before 25 and 26
    to.case("stop 22: misspeculating, LOAD FIXED, no such word and no room");
    to.one(load, 0, 6, &[97, 1, 98, 0, 4, 0, 96], 2)?;
    to.case("stop 26: misspeculating, LOAD FIXED, room for 5 of 6 bytes");
    to.one(load, 0, 6, &[97, 1, 96, 96], 7)?;
    // STORE FIXED array 1 at 2 := 2; arrays of 4 and 3 words
    let store = &[32, 0, 36, 0, 28, 1, 2, 0, 2, 33, 39, 0, 34, 37];
    to.case("misspeculating, STORE FIXED");
    to.two(store, [0, 1, 77], &[97, 1, 96, 96], 12)?;
    to.case("stop 22: misspeculating, a stray access at STORE FIXED");
    to.two(store, [0, 1, 77], &[97, 1, 98, 0, 0, 0, 96], 12)?;
    // STORE array 0 at register 1 := 2, LOAD FIXED 1 := array 1 at 2
    let both = &[32, 0, 40, 0, 20, 0, 1, 2, 27, 1, 1, 2, 0, 33, 43, 0, 34, 37];
    to.case("a stray STORE, and LOAD FIXED of the word that it touched");
    to.two(both, [0, 4, 77], &[97, 1, 98, 1, 2, 0, 96, 96], 16)
}

/// Both in the reading: 3, 2, 4, 5.
fn of_fixed_tables(to: &mut Cases) -> io::Result<()> {
    to.case("refusal 4: LOAD FIXED of index 4 in an array of 4");
    to.one(&[27, 0, 0, 4, 0, 37], 5, 6, &[96], 8)?;
    to.case("refusal 4: LOAD FIXED of index 256 in an array of 4");
    to.one(&[27, 0, 0, 0, 1, 37], 5, 6, &[96], 8)?;
    to.case("refusal 4: LOAD FIXED of index 65,535");
    to.one(&[27, 0, 0, 255, 255, 37], 5, 6, &[96], 8)?;
    to.case("refusal 4: LOAD FIXED, no register 2");
    to.one(&[27, 2, 0, 0, 0, 37], 5, 6, &[96], 8)?;
    to.case("refusal 4: LOAD FIXED, no array 1");
    to.one(&[27, 0, 1, 0, 0, 37], 5, 6, &[96], 8)?;
    let none = [vec![1, 2, 0, 1], signature(21), vec![27, 0, 0, 0, 0, 37]].concat();
    to.case("refusal 4: LOAD FIXED, no array at all");
    to.run_in(&none, &[5, 6], &[], &[96], 8)?;
    // arrays of 4 and 3 words; a good record before it
    to.case("refusal 4: STORE FIXED at index 3 in array 1 of 3");
    to.two(&[28, 0, 3, 0, 2, 28, 1, 3, 0, 2, 37], [0, 1, 77], &[96, 96], 12)?;
    to.case("refusal 4: STORE FIXED at index 256 in array 1 of 3");
    to.two(&[28, 1, 0, 1, 2, 37], [0, 1, 77], &[96], 8)?;
    to.case("refusal 4: STORE FIXED, no array 2");
    to.two(&[28, 2, 0, 0, 2, 37], [0, 1, 77], &[96], 8)?;
    to.case("refusal 4: STORE FIXED, no register 3");
    to.two(&[28, 1, 0, 0, 3, 37], [0, 1, 77], &[96], 8)?;
    // the last byte is missing; 2 before 4
    to.case("refusal 2: LOAD FIXED cut short");
    to.one(&[27, 9, 9, 9], 5, 6, &[96], 8)?;
    to.case("refusal 2: STORE FIXED cut short");
    to.one(&[28, 9, 9, 9], 5, 6, &[96], 8)?;
    // the kinds before and after these two
    to.case("refusal 3: kind 1A");
    to.one(&[26, 0, 0, 0, 0, 37], 5, 6, &[96], 8)?;
    to.case("refusal 3: kind 1D");
    to.one(&[29, 0, 0, 0, 0, 37], 5, 6, &[96], 8)?;
    // the signature says that the function starts at 25; 4 before 5
    let start = [vec![1, 2, 1, 1, 2, 4, 0], signature(25)].concat();
    to.case("refusal 4: LOAD FIXED of index 4, and a wrong start place");
    to.whole(&[&start[..], &[27, 0, 0, 4, 0, 37]].concat())?;
    to.case("refusal 5: LOAD FIXED of index 3, and a wrong start place");
    to.whole(&[&start[..], &[27, 0, 0, 3, 0, 37]].concat())
}

fn main() -> io::Result<()> {
    let stdout = io::stdout();
    let mut out = io::BufWriter::new(stdout.lock());
    let encoded = match env::args().nth(1).as_deref() {
        None => false,
        Some("cases") => true,
        Some(_) => panic!("the only argument is: cases"),
    };
    let to = &mut Cases { out: &mut out, encoded, name: String::new() };
    of_table_b(to)?;
    of_indices(to)?;
    of_stray_loads(to)?;
    of_stray_stores(to)?;
    of_branches(to)?;
    of_inits(to)?;
    of_the_flag(to)?;
    of_loops(to)?;
    of_returns(to)?;
    of_calls(to)?;
    of_ops(to)?;
    of_tables(to)?;
    of_places(to)?;
    of_lengths(to)?;
    of_lists(to)?;
    sizes(to)?;
    of_fixed_loads(to)?;
    of_fixed_stores(to)?;
    of_fixed_astray(to)?;
    of_fixed_tables(to)?;
    out.flush()
}
