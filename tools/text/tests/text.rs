//! Text and back.

use likunjavo_text::{assemble, disassemble};
use second::gen;

/// Bytes from hexadecimal text.
fn hex(text: &str) -> Vec<u8> {
    let byte = |word| u8::from_str_radix(word, 16).expect("two digits");
    text.split_whitespace().map(byte).collect()
}

fn asm(text: &str) -> Vec<u8> {
    assemble(text).expect("the text assembles")
}

#[test]
fn tables_a_and_b_as_text() {
    let head = "sizes 2 1 1
                array 4
                signature unknown PP/P unknown SS/P\n";
    let a = "load r0 a0[r1]
             load r1 a0[r0]
             return";
    let b = "init
             load r0 a0[r1]
             protect r0 r0
             load r1 a0[r0]
             return";
    let head_bytes =
        hex("01 02 01 01  02 04 00  03 18 00  00 00 00 00 00 00 00  00 0A 00 00 00 00 00");
    let table = |code: &str| [&head_bytes[..], &hex(code)].concat();
    assert_eq!(asm(&format!("{}{}", head, a)), table("13 00 00 01  13 01 00 00  25"));
    assert_eq!(asm(&format!("{}{}", head, b)), table("15  13 00 00 01  17 00 00  13 01 00 00  25"));
}

#[test]
fn every_record() {
    let text = "
        sizes 3 2 2
        array 4
        array 0x400
        signature updated PTS/TS unknown SSS/SS
        signature unknown PPP/PT updated SSX/SP
        const r0 4294967295
        add r0 r1 r2
        sub r0 r1 r2
        mul r0 r1 r2
        xor r0 r1 r2
        and r0 r1 r2
        or r0 r1 r2
        less r0 r1 r2
        equal r0 r1 r2
        op 9 r0 r1 r2
        select r0 r1 r2 r0
        load r0 a1[r2]
        store a1[r2] r0
        load r1 a0[3]
        store a1[1023] r2
        load r0 a1[0x102]
        init
        update r2 zero
        update r2 nonzero
        protect r1 r2
        return
        call f0
        call f0 marked
        if r1
          const r1 7
        else
          init
        endif
        while r2 updated PTS/ST
          init
        endwhile
        hex AB 00 cd
        return";
    let bytes = hex("01 03 02 02  02 04 00  02 00 04
        03 2C 00  01 24 00 00 00 09 00  00 2A 00 00 00 0A 00
        03 86 00  00 00 00 00 00 04 00  01 3A 00 00 00 02 00
        10 00 FF FF FF FF
        11 00 00 01 02  11 00 01 01 02  11 00 02 01 02  11 00 03 01 02
        11 00 04 01 02  11 00 05 01 02  11 00 06 01 02  11 00 07 01 02
        11 00 09 01 02
        12 00 01 02 00
        13 00 01 02
        14 01 02 00
        1B 01 00 03 00
        1C 01 FF 03 02
        1B 00 01 02 01
        15
        16 02 00  16 02 01
        17 01 02
        25
        18 00 00  18 00 01
        20 01 96 00
          10 01 07 00 00 00
        21 9A 00
          15
        22
        23 02 A7 00  01 24 00 00 00 06 00
          15
        24 9B 00
        AB 00 CD
        25");
    assert_eq!(asm(text), bytes);
}

#[test]
fn wrong_places_on_purpose() {
    let table = asm("sizes 1 0 1
                     signature unknown P/ unknown P/ @513
                     if r0 @1027
                     else @3
                     endif
                     while r0 9 P/ @5
                     endwhile @6
                     return");
    let bytes = hex("01 01 00 01  03 01 02  00 00 00 00 00 00 00  00 00 00 00 00 00 00
                     20 00 03 04  21 03 00  22
                     23 00 05 00  09 00 00 00 00 00 00  24 06 00  25");
    assert_eq!(table, bytes);
}

#[test]
fn errors() {
    for text in &[
        "sizes 1 0",
        "sizes 1 0 1 1",
        "sizes 1 0 256",
        "else",
        "endif",
        "endwhile",
        "if r0",
        "load r0 r1",
        "load r0 a0",
        "load r0 a0[]",
        "load r0 a0[x1]",
        "load r0 a0[-1]",
        "load r0 a0[65536]",
        "load r0 a0[r256]",
        "load r0 a0[1] r1",
        "store a0[65536] r0",
        "store a0[1]",
        "store a0[1] 5",
        "jump r0",
        "const r0 4294967296",
        "hex 100",
        "zeros",
        "zeros 65536",
        "zeros 1 1",
        "signature unknown P/ unknown P/",
        "while r0 unknown Q/",
        "while r0 unknown PPPPPPPPPPPPPPPPP/",
    ] {
        assert!(assemble(text).is_err(), "{}", text);
    }
    assert_eq!(assemble("init\n nothing"), Err("line 2: `nothing` is no record".to_string()));
}

/// Bytes that are no record, also before a record and between two.
#[test]
fn raw_bytes() {
    assert_eq!(asm("zeros 3"), [0; 3]);
    assert_eq!(asm("zeros 0"), []);
    assert_eq!(asm("zeros 0x10"), [0; 16]);
    assert_eq!(asm("hex ff 1\ninit\nzeros 2\nreturn"), hex("FF 01 15 00 00 25"));
}

/// A number in the brackets is a fixed index, a register the other kind.
#[test]
fn fixed_and_other_indices() {
    let head = "sizes 2 1 1\narray 8\nsignature unknown PP/P unknown SS/S\n";
    let table = |code: &str| asm(&format!("{}{}\nreturn", head, code));
    for &(code, bytes) in &[
        ("load r1 a0[r1]", "13 01 00 01 25"),
        ("load r1 a0[7]", "1B 01 00 07 00 25"),
        ("store a0[r1] r0", "14 00 01 00 25"),
        ("store a0[7] r1", "1C 00 07 00 01 25"),
    ] {
        let table = table(code);
        assert_eq!(table[24..], hex(bytes)[..]);
        assert!(disassemble(&table).contains(&format!("  {} ", code)), "{}", disassemble(&table));
    }
    // Any index may be written; this one does not read.
    let table = table("load r1 a0[8]\nstore a0[65535] r1");
    assert_eq!(table[24..], hex("1B 01 00 08 00 1C 00 FF FF 01 25")[..]);
    round(&table);
}

fn round(table: &[u8]) {
    let text = disassemble(table);
    assert_eq!(assemble(&text).as_deref(), Ok(table), "{}", text);
}

#[test]
fn round_trips() {
    round(&[]);
    for seed in 0..500 {
        let table = gen::good(seed);
        round(&table);
        assert!(!disassemble(&table).contains("hex"));
        round(&gen::mutated(seed));
        for number in 1..=9 {
            round(&gen::damaged(number, seed).0);
        }
        for number in 10..=14 {
            round(&gen::spoiled(number, seed).0);
        }
    }
}
