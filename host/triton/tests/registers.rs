//! The register record: what fits into one, and step over it beside step over the words.
use kixombu::exports::{self, answer, register, Code, Memory, Registers, STEP_BYTES};

/// Another word in each place.
fn words() -> [u64; register::ALL] {
    let mut words = std::array::from_fn(|i| u64::MAX - i as u64);
    words[register::CLOCK] = u32::MAX.into();
    words[register::HALTED] = 1;
    words[register::SPONGE_SET] = 0;
    words
}

#[test]
fn a_record_holds_the_words() {
    let words = words();
    let record = Registers::from_words(&words).unwrap();
    assert_eq!(record.to_words(), words);
    assert_eq!((record.clock, record.pointer), (u32::MAX, words[register::POINTER]));
    assert_eq!((record.depth as u64, record.digests as u64), (words[register::DEPTH], words[register::DIGESTS]));
    assert_eq!((record.halted, record.set, &record.words[..]), (true, false, &words[register::SPONGE..register::REVISION]));
    assert_eq!(record.revision, words[register::REVISION]);
}

#[test]
fn a_record_takes_no_other_words() {
    let with = |place: usize, word| {
        let mut words = words();
        words[place] = word;
        Registers::from_words(&words)
    };
    assert_eq!(with(register::CLOCK, 1 << 32), None);
    assert_eq!(with(register::HALTED, 2), None);
    assert_eq!(with(register::SPONGE_SET, u64::MAX), None);
    assert_eq!(Registers::from_words(&words()[1..]), None);
    assert_eq!(Registers::from_words(&[&words()[..], &[0]].concat()), None);
}

/// Everything lent but program, registers and answer. The lengths differ, but those that must be the same, and the values do not ascend.
#[derive(Clone, Debug, PartialEq, Eq)]
struct Lent {
    op_stack: [u64; 24],
    jumps: [[u64; 8]; 2],
    cells: [[u64; 4]; 2],
    output: [u64; 1],
    calls: [u8; STEP_BYTES],
}

impl Lent {
    fn new() -> Lent {
        let cells = [[10, 30, 0, 0], [99, 7, 0, 0]];
        Lent { op_stack: [0; 24], jumps: [[0; 8]; 2], cells, output: [0; 1], calls: [0; STEP_BYTES] }
    }

    fn parts(&mut self) -> (Memory<'_>, &mut [u8]) {
        let Lent { op_stack, jumps: [origins, destinations], cells: [addresses, values], output, calls } = self;
        (Memory { op_stack, origins, destinations, addresses, values, output }, calls)
    }
}

/// sponge_init; read_io 3; divine 2; push 20; write_mem 2; call 12; nop; 12: merkle_step; write_io 1; push 3; assert: the last is refused.
/// It uses every slice, so that two parameters of the record's call which are exchanged give something else.
#[test]
fn step_over_the_record_is_step_over_the_words() {
    let opcodes = [40, 73, 73, 9, 9, 1, 1, 11, 11, 49, 49, 8, 36, 19, 19, 1, 1, 10];
    let arguments = [0, 3, 3, 2, 2, 20, 20, 2, 2, 12, 12, 0, 0, 1, 1, 3, 3, 0];
    let (public, secret, digests) = ([101, 102, 103], [201, 202], [301, 302, 303, 304, 305]);
    let code = Code { opcodes: &opcodes, arguments: &arguments, public: &public, secret: &secret, digests: &digests };
    let (mut words, mut by_words) = ([0; register::ALL], Lent::new());
    let mut answer = [0; answer::ALL];
    assert_eq!(exports::open(&mut words, &mut answer, 1, &[1, 2, 3, 4, 5], 2, code, by_words.parts().0), 0);
    let (mut record, mut by_record) = (Registers::from_words(&words).unwrap(), by_words.clone());
    let mut numbers = vec![];
    for _ in 0..10 {
        let mut answers = [[0; answer::ALL]; 2];
        let (memory, calls) = by_words.parts();
        numbers.push(exports::step(&mut words, &mut answers[0], code, memory, calls));
        let (memory, calls) = by_record.parts();
        let number = exports::step_registers(&mut record, &mut answers[1], code, memory, calls);
        assert_eq!((number, answers[1], record.to_words()), (numbers[numbers.len() - 1], answers[0], words));
        assert_eq!(by_record, by_words);
    }
    assert_eq!((&numbers[..9], numbers[9] != 0), (&[0; 9][..], true));
    assert_eq!((record.clock, record.pointer, record.depth, record.outputs, record.set), (9, 17, 20, 1, true));
    assert_eq!((record.jumps, record.cells, record.publics, record.secrets, record.digests), (1, 4, 3, 2, 1));
}

#[test]
fn an_answer_of_another_length_is_refused() {
    let code = Code { opcodes: &[0], arguments: &[0], public: &[], secret: &[], digests: &[] };
    let mut lent = Lent::new();
    let mut record = Registers::from_words(&[0; register::ALL]).unwrap();
    record.depth = 16;
    let before = (record, lent.clone());
    for length in [answer::ALL - 1, answer::ALL + 1] {
        let mut answer = vec![9; length];
        let (memory, calls) = lent.parts();
        assert_eq!(exports::step_registers(&mut record, &mut answer, code, memory, calls), 1);
        assert_eq!((record, lent.clone(), answer), (before.0, before.1.clone(), vec![9; length]));
    }
}

/// All 216 bytes of the record are fields, the reserved ones too: nothing of the stack gets into it.
#[test]
fn every_byte_of_the_record_follows() {
    // clock and the first reserved field; pointer to digests; the marks and the others; the sponge's words; the revision
    assert_eq!(std::mem::size_of::<Registers>(), (4 + 4) + 8 * 8 + (1 + 1 + 2 + 4) + 16 * 8 + 8);
    let code = Code { opcodes: &[8], arguments: &[0], public: &[], secret: &[], digests: &[] };
    for (length, depth, number) in [(answer::ALL - 1, 16, 1), (answer::ALL, 15, 5), (answer::ALL, 16, 0)] {
        let mut record = Registers::from_words(&[0; register::ALL]).unwrap();
        (record.depth, record.revision) = (depth, 1);
        (record.reserved, record.reserved2, record.reserved4) = (0xaaaa_aaaa, 0xaaaa, 0x5555_5555);
        let mut expected = record;
        if number == 0 {
            (expected.clock, expected.pointer) = (1, 1);
        }
        let (mut lent, mut answer) = (Lent::new(), vec![0; length]);
        let (memory, calls) = lent.parts();
        assert_eq!((exports::step_registers(&mut record, &mut answer, code, memory, calls), record), (number, expected));
    }
}

/// The library has the fields at the offsets that src/registers.rs asserts of the mirror. Each count is all that its slice has, no two are
/// the same, and the pointer is above them: of two that are exchanged, one is too large and is refused. The clock and the marks change.
#[test]
fn no_two_fields_are_exchanged() {
    // sponge_init in each slot
    let (opcodes, arguments, words) = ([40; 41], [0; 41], [9; 17]);
    let code = Code { opcodes: &opcodes, arguments: &arguments, public: &words[..6], secret: &words[..7], digests: &words[..10] };
    let step = |record: &mut Registers| {
        let (mut jumps, mut cells) = ([[1; 3]; 2], [[1, 2, 3, 4]; 2]);
        let ([origins, destinations], [addresses, values]) = (&mut jumps, &mut cells);
        let memory = Memory { op_stack: &mut [8; 17], origins, destinations, addresses, values, output: &mut [7; 5] };
        exports::step_registers(record, &mut [0; answer::ALL], code, memory, &mut [0; STEP_BYTES])
    };
    let before = Registers {
        clock: 1000,
        reserved: 0xaaaa_aaaa,
        pointer: 40,
        depth: 17,
        jumps: 3,
        cells: 4,
        outputs: 5,
        publics: 6,
        secrets: 7,
        digests: 2,
        halted: false,
        set: false,
        reserved2: 0x5555,
        reserved4: 0x3333_3333,
        words: std::array::from_fn(|i| 100 + i as u64),
        revision: 2,
    };
    let mut record = before;
    let after = Registers { clock: 1001, pointer: 41, set: true, words: [0; 16], ..before };
    assert_eq!((step(&mut record), record), (0, after));
    // so a library that has two of them exchanged would have refused it
    for first in register::POINTER..=register::DIGESTS {
        for second in first + 1..=register::DIGESTS {
            let mut words = before.to_words();
            words.swap(first, second);
            assert_eq!(step(&mut Registers::from_words(&words).unwrap()), 5, "registers {first} and {second}");
        }
    }
}
