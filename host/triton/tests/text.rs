//! Texts: labels, numbers, warnings, and what is said of a bad one.
use kixombu::text::make;
use kixombu::{JobFile, Slot, P};

fn program(text: &str) -> Vec<Slot> {
    let made = make(&format!("digest 1 2 3 4 5\n{text}")).unwrap();
    assert_eq!(made.warnings, []);
    JobFile::read(&made.file).unwrap().opening.program
}

fn slots(pairs: &[(u64, u64)]) -> Vec<Slot> {
    pairs.iter().map(|&(opcode, argument)| Slot { opcode, argument }).collect()
}

#[test]
fn items() {
    let made = make(
        "digest 1 2 3 4 5 # a remark ; halt\n public 7 8;; secret 9\n\nsecret_digest 1 2 3 4 -1; ram 10 -2; budget 4294967295; slot 65535 6",
    );
    let file = JobFile::read(&made.unwrap().file).unwrap();
    let opening = file.opening;
    assert_eq!((file.budget, opening.digest), (u32::MAX, [1, 2, 3, 4, 5]));
    assert_eq!((opening.public_input, opening.secret_input), (vec![7, 8], vec![9]));
    assert_eq!((opening.secret_digests, opening.ram), (vec![[1, 2, 3, 4, P - 1]], vec![(10, P - 2)]));
    assert_eq!(opening.program, slots(&[(65535, 6)]));
    assert_eq!(program("push -0; addi -18446744069414584322"), slots(&[(1, 0), (1, 0), (65, P - 1), (65, P - 1)]));
    let none = make("digest 1 2 3 4 5").unwrap();
    assert_eq!(JobFile::read(&none.file).unwrap().budget, 16_000_000);
}

#[test]
fn labels_stand_for_the_next_slot() {
    let with_numbers = program("push 3; call 5; halt; addi -1; dup 0; skiz; recurse; return");
    assert_eq!(program("push 3; call loop; halt\nloop: addi -1; dup 0; skiz; recurse; return"), with_numbers);
    assert_eq!(program("push 3; call _2; halt\nother:; _2:\naddi -1; dup 0; skiz; recurse; return"), with_numbers);
    assert_eq!(
        program("here: there: call here; call there; call end; end:"),
        slots(&[(49, 0), (49, 0), (49, 0), (49, 0), (49, 6), (49, 6)])
    );
    // an instruction's name may be a label too
    assert_eq!(program("halt: call halt"), slots(&[(49, 0), (49, 0)]));
}

#[test]
fn every_instruction_is_known() {
    for instruction in &kixombu::instructions::ALL {
        let argument = if instruction.size() == 2 { " 1" } else { "" };
        let expected = (instruction.opcode, instruction.size() - 1);
        assert_eq!(program(&format!("{}{argument}", instruction.name)), slots(&vec![expected; instruction.size() as usize]));
    }
}

#[test]
fn bad_texts() {
    for (text, fault) in [
        ("", "line 1: the text has no item, a digest is needed"),
        ("\n# nothing\n", "line 1: the text has no item, a digest is needed"),
        ("\u{feff}digest 1 2 3 4 5", "line 1, `\\u{feff}digest`: the first item must be the digest"),
        ("push 1; digest 1 2 3 4 5", "line 1, `push`: the first item must be the digest"),
        ("digest 1 2 3 4", "line 1, `digest 1 2 3 4`: digest takes 5 words behind it, found 4"),
        ("digest 1 2 3 4 5\ndigest 1 2 3 4 5", "line 2, `digest`: there is one digest, the first item"),
        ("digest 1 2 3 x 5", "line 1, `x`: a number is needed"),
        ("digest 1 2 3 4 5\n\n  push 1; psh 2", "line 3, `psh`: no item or instruction has this name"),
        ("digest 1 2 3 4 5\npush", "line 2, `push`: push takes 1 word behind it, found 0"),
        ("digest 1 2 3 4 5\npush 1 2", "line 2, `push 1 2`: push takes 1 word behind it, found 2"),
        ("digest 1 2 3 4 5\nhalt 0", "line 2, `halt 0`: halt takes no word behind it, found 1"),
        ("digest 1 2 3 4 5\npush 0x10", "line 2, `0x10`: a number is needed"),
        ("digest 1 2 3 4 5\npush -", "line 2, `-`: a number is needed"),
        ("digest 1 2 3 4 5\npush +1", "line 2, `+1`: a number is needed"),
        ("digest 1 2 3 4 5\npush loop; loop:", "line 2, `loop`: a number is needed"),
        ("digest 1 2 3 4 5\npush 18446744073709551616", "line 2, `18446744073709551616`: a number must fit in 64 bits"),
        ("digest 1 2 3 4 5\ncall nowhere", "line 2, `nowhere`: no line has the label `nowhere:`"),
        ("digest 1 2 3 4 5\na:\na: halt", "line 3, `a:`: line 2 has this label already"),
        ("digest 1 2 3 4 5\n7: halt", "line 2, `7:`: a label is of letters, digits and _, and begins with no digit"),
        ("digest 1 2 3 4 5\n: halt", "line 2, `:`: a label is of letters, digits and _, and begins with no digit"),
        ("digest 1 2 3 4 5\nram 1", "line 2, `ram 1`: ram takes 2 words behind it, found 1"),
        ("digest 1 2 3 4 5\nsecret 1 2 three", "line 2, `three`: a number is needed"),
        ("digest 1 2 3 4 5; budget 1; budget 1", "line 1, `budget`: there is at most one budget"),
        ("digest 1 2 3 4 5; budget 4294967296", "line 1, `4294967296`: budget takes a number from 0 to 4294967295"),
        ("digest 1 2 3 4 5; budget -1", "line 1, `-1`: budget takes a number from 0 to 4294967295"),
        ("digest 1 2 3 4 5; byte 256", "line 1, `256`: byte takes a number from 0 to 255"),
        ("digest 1 2 3 4 5; slot 65536 1", "line 1, `65536`: slot takes a number from 0 to 65535"),
        ("digest 1 2 3 4 5; slot 1", "line 1, `slot 1`: slot takes 2 words behind it, found 1"),
    ] {
        assert_eq!(make(text).map_err(|found| found.to_string()), Err(fault.to_string()), "{text}");
    }
}

#[test]
fn warnings_say_what_open_will_refuse() {
    let warnings = |text: &str| {
        let made = make(&format!("digest 1 2 3 4 5\n{text}")).unwrap();
        made.warnings.iter().map(|warning| warning.to_string()).collect::<Vec<_>>()
    };
    assert_eq!(warnings("pop 9"), ["line 2, `9`: pop does not take this argument; open refuses it with 4"]);
    let large = format!("`{P}`: words are below {P}; open refuses it with 2");
    assert_eq!(warnings(&format!("push {P}")), [format!("line 2, {large}")]);
    assert_eq!(warnings(&format!("ram 1 {P}; pop 5")), [format!("line 2, {large}")]);
    assert_eq!(warnings("slot 5 1; slot 3 5"), ["line 2, `5`: no instruction has this opcode; open refuses it with 3"]);
    assert_eq!(warnings("slot 3 9"), ["line 2, `9`: pop does not take this argument; open refuses it with 4"]);
    assert_eq!(warnings("ram 3 1\nram 3 1"), ["line 3, `3`: line 2 has this address already; open refuses it with 5"]);
    assert_eq!(
        warnings("ram 3 1; ram 5 1\nhalt; ram 4 1; ram 6 1"),
        ["line 3, `4`: ram's addresses ascend, and line 2 has 5; open refuses it with 5"]
    );
    assert_eq!(
        warnings("ram -1 1; ram 0 1"),
        [format!("line 2, `0`: ram's addresses ascend, and line 2 has {}; open refuses it with 5", P - 1)]
    );
    assert_eq!(warnings("ram 0 1; ram 1 1; ram -1 1").len(), 0);
    let long = "a job file has at most 65536 bytes and 1024 slots; reading it is refused with 50";
    assert_eq!(warnings(&"nop\n".repeat(1026)), [format!("line 1026, `nop`: {long}")]);
    assert_eq!(warnings(&"nop\n".repeat(1024)).len(), 0);
    // 44 + 12 * 5,457 bytes are within the limit
    assert_eq!(warnings(&format!("public{}", " 1".repeat(5458))), [format!("line 2, `public`: {long}")]);
    assert_eq!(warnings(&format!("public{}", " 1".repeat(5457))).len(), 0);
}
