//! Fee tables from text: rows, bounds, and what is said of a bad one.
use kixombu::fee_text::read;
use kixombu::instructions::ALL;
use kixombu::FeeRow;

fn rows(text: &str) -> Vec<(u64, u64, u32)> {
    read(text).unwrap().table().rows().map(|FeeRow { lowest, highest, fee }| (lowest, highest, fee)).collect()
}

#[test]
fn rows_of_a_text() {
    assert_eq!(
        rows("halt 0\npush..nop 1   # 1 to 8\n\n9..57 2; eq..read_io 3;; 74..18446744073709551615 4294967295"),
        [(0, 0, 0), (1, 8, 1), (9, 57, 2), (58, 73, 3), (74, u64::MAX, u32::MAX)]
    );
    // in any order, with what space there is, good or not
    assert_eq!(rows("\t88   7\r\n0..9 08"), [(88, 88, 7), (0, 9, 8)]);
    assert_eq!(rows("9..halt 1; 5 1; 5 1"), [(9, 0, 1), (5, 5, 1), (5, 5, 1)]);
    assert_eq!(rows("# nothing"), []);
    assert_eq!(rows(""), []);
    let text = read("halt 0; push 1\n# a remark\nskiz..100 2").unwrap();
    assert_eq!([text.line_of(0), text.line_of(1), text.line_of(2), text.line_of(3)], [Some(1), Some(1), Some(3), None]);
    assert_eq!(text.check(), Ok(()));
}

#[test]
fn every_name_is_a_bound() {
    let text: String = ALL.iter().map(|instruction| format!("{}..{} 7\n", instruction.name, instruction.opcode)).collect();
    let opcodes: Vec<u64> = ALL.iter().map(|instruction| instruction.opcode).collect();
    assert_eq!(rows(&text), opcodes.iter().map(|&opcode| (opcode, opcode, 7)).collect::<Vec<_>>());
    assert_eq!(read(&text).unwrap().check(), Ok(()));
}

#[test]
fn bad_texts() {
    let wanted = "a row is an opcode or LOWEST..HIGHEST, and a fee, found";
    let opcode = "an opcode is a number or an instruction's name";
    let fee = "a fee is a number from 0 to 4294967295";
    for (text, fault) in [
        ("halt", format!("line 1, `halt`: {wanted} 1 word")),
        ("halt 0\n0..8", format!("line 2, `0..8`: {wanted} 1 word")),
        ("halt 0\n\n0 8 5", format!("line 3, `0 8 5`: {wanted} 3 words")),
        ("0 .. 8 5", format!("line 1, `0 .. 8 5`: {wanted} 4 words")),
        ("halt 0; hlt 1", format!("line 1, `hlt`: {opcode}")),
        ("halt 0\npush..adi 1", format!("line 2, `adi`: {opcode}")),
        ("..8 1", format!("line 1, `..8`: {opcode}")),
        ("8.. 1", format!("line 1, `8..`: {opcode}")),
        ("1..2..3 1", format!("line 1, `2..3`: {opcode}")),
        ("-1..3 1", format!("line 1, `-1`: {opcode}")),
        ("+1 1", format!("line 1, `+1`: {opcode}")),
        ("18446744073709551616 1", "line 1, `18446744073709551616`: a number must fit in 64 bits".to_string()),
        ("halt 4294967296", format!("line 1, `4294967296`: {fee}")),
        ("halt -1", format!("line 1, `-1`: {fee}")),
        ("halt 1.5", format!("line 1, `1.5`: {fee}")),
        ("\u{feff}halt 0", format!("line 1, `\\u{{feff}}halt`: {opcode}")),
    ] {
        let found = read(text).map_err(|found| found.to_string());
        assert_eq!(found.map(|text| text.table().clone()), Err(fault), "{text}");
    }
}

/// What is wrong with a table, at its line and word.
#[test]
fn tables_that_are_refused() {
    let fault = |text: &str| read(text).unwrap().check().unwrap_err().to_string();
    assert_eq!(fault("0..88 1\n\n9..pop 1"), "line 3, `9..pop`: the row's lowest opcode, 9, is above its highest, 3");
    assert_eq!(fault("halt 1\npush..87 1\n"), "line 2: no row has opcode 88 (xb_dot_step)");
    assert_eq!(fault(""), "line 1: no row has opcode 0 (halt)");
    assert_eq!(fault("halt 1; 90 1\n1..100 1; push 1 # twice\n90 1"), "line 2, `push`: line 2 has opcode 1 (push) already");
    let many = format!("0..88 1\n{}", "90..91 1\n".repeat(65));
    assert_eq!(fault(&many), "line 65, `90..91`: a fee table has at most 64 rows, found 66");
}
