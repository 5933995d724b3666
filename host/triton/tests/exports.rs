//! The calls over slices where no safe call comes: lengths that do not fit, the clock's end, and unused cells.
use kixombu::exports::{self, answer, column, register, replayed, Code, Memory, Registers, STEP_BYTES};

const NO_CODE: Code = Code { opcodes: &[], arguments: &[], public: &[], secret: &[], digests: &[] };

fn memory(op_stack: &mut [u64]) -> Memory<'_> {
    Memory { op_stack, origins: &mut [], destinations: &mut [], addresses: &mut [], values: &mut [], output: &mut [] }
}

/// Nothing lent, and answers of another length: refused with 1, and the answers stay.
#[test]
fn lengths_that_do_not_fit() {
    let mut registers = [7; register::ALL];
    for length in [0, 5, answer::ALL + 1] {
        let mut answer = vec![9; length];
        assert_eq!(exports::open(&mut registers, &mut answer, 1, &[0; 5], 0, NO_CODE, memory(&mut [])), 1);
        assert_eq!(exports::step(&mut registers, &mut answer, NO_CODE, memory(&mut []), &mut [0; STEP_BYTES]), 1);
        assert_eq!(exports::run(&mut registers, &mut answer, 1, NO_CODE, memory(&mut [])), 1);
        assert_eq!(exports::trace_execution(&mut registers, &mut answer, 1, NO_CODE, memory(&mut []), &mut []), 1);
        assert_eq!(exports::trace_rows(&mut registers, &mut answer, 1, NO_CODE, memory(&mut []), &mut [], &mut []), 1);
        assert_eq!(exports::helper_variables(&registers, &mut answer, NO_CODE, memory(&mut []).view()), 1);
        assert_eq!(exports::processor_row(&registers, &mut answer, NO_CODE, memory(&mut []).view()), 1);
        assert_eq!(exports::replay(&mut answer, &[], 1, 0, 0, &mut [], &mut [], &mut []), 1);
        assert_eq!((registers, answer), ([7; register::ALL], vec![9; length]));
    }
    let mut answer = [9; answer::ALL];
    assert_eq!(exports::step(&mut [], &mut answer, NO_CODE, memory(&mut []), &mut []), 1);
    assert_eq!(answer, [exports::ending::REFUSED, 1, 0, 0, 0, 0, 0]);
    let mut answer = [9; replayed::ALL];
    assert_eq!(exports::replay(&mut answer, &[], 1, 0, 0, &mut [0], &mut [], &mut []), 1);
    assert_eq!(answer, [1, 0, 0]);
}

/// 34: the last clock has no further step, by either call, and what is lent stays.
#[test]
fn the_clock_has_an_end() {
    let code = Code { opcodes: &[8], arguments: &[0], ..NO_CODE };
    let mut words = [0; register::ALL];
    (words[register::CLOCK], words[register::DEPTH], words[register::REVISION]) = (u32::MAX.into(), 16, 1);
    let (mut registers, mut record) = (words, Registers::from_words(&words).unwrap());
    let mut answers = [[0; answer::ALL]; 2];
    let mut op_stack = [0; 16];
    let mut calls = [0; STEP_BYTES];
    assert_eq!(exports::step(&mut registers, &mut answers[0], code, memory(&mut op_stack), &mut calls), 34);
    assert_eq!(exports::step_registers(&mut record, &mut answers[1], code, memory(&mut op_stack), &mut calls), 34);
    assert_eq!((registers, record.to_words()), (words, words));
    assert_eq!(answers, [[exports::ending::REFUSED, 34, 0, 0, 0, 0, 0]; 2]);
    // one before it is taken
    registers[register::CLOCK] -= 1;
    assert_eq!(exports::run(&mut registers, &mut answers[0], 9, code, memory(&mut op_stack)), 11);
    assert_eq!((registers[register::CLOCK], answers[0][answer::STEPS]), (u32::MAX.into(), 1));
    let mut helpers = [9; 6];
    assert_eq!(exports::helper_variables(&registers, &mut helpers, code, memory(&mut op_stack).view()), 0);
    assert_eq!(helpers, [0; 6]);
}

/// write_mem 1 at an address, with three used cells of five: the number, and all that is lent of RAM.
fn written(address: u64, addresses: [u64; 5]) -> (u64, [u64; 5], [u64; 5]) {
    let code = Code { opcodes: &[11], arguments: &[1], ..NO_CODE };
    let (mut addresses, mut values) = (addresses, [30, 50, 90, u64::MAX - 1, u64::MAX - 2]);
    let mut registers = [0; register::ALL];
    (registers[register::DEPTH], registers[register::CELLS], registers[register::REVISION]) = (17, 3, 1);
    let mut op_stack = [0; 17];
    (op_stack[15], op_stack[16]) = (7, address);
    let memory = Memory { addresses: &mut addresses, values: &mut values, ..memory(&mut op_stack) };
    let number = exports::step(&mut registers, &mut [0; answer::ALL], code, memory, &mut [0; STEP_BYTES]);
    let used = if number == 0 && ![3, 5, 9].contains(&address) { 4 } else { 3 };
    assert_eq!((registers[register::CELLS], registers[register::CLOCK]), (used, (number == 0).into()));
    (number, addresses, values)
}

/// A new cell takes the first unused one, the cells above it move up, and what is not used stays, words or not.
#[test]
fn unused_cells_stay() {
    let (last, next) = (u64::MAX - 1, u64::MAX - 2);
    let opening = [3, 5, 9, last, next];
    assert_eq!(written(1, opening), (0, [1, 3, 5, 9, next], [7, 30, 50, 90, next]));
    assert_eq!(written(8, opening), (0, [3, 5, 8, 9, next], [30, 50, 7, 90, next]));
    assert_eq!(written(10, opening), (0, [3, 5, 9, 10, next], [30, 50, 90, 7, next]));
    assert_eq!(written(5, opening), (0, opening, [30, 7, 90, last, next]));
    for out_of_order in [[5, 3, 9, last, next], [3, 5, 5, last, next], [9, 5, 3, 10, 11]] {
        assert_eq!(written(1, out_of_order), (5, out_of_order, [30, 50, 90, last, next]));
    }
}

/// Another revision than 1 or 2 is 4 at each call that takes it, and a call buffer has 1,028 bytes in revision 2 alone.
#[test]
fn revisions_that_there_are_not() {
    let code = Code { opcodes: &[8], arguments: &[0], ..NO_CODE };
    for (revision, expected) in [(0, 4), (1, 0), (2, 0), (3, 4), (u64::MAX, 4)] {
        let (mut registers, mut answer, mut op_stack) = ([0; register::ALL], [0; answer::ALL], [0; 16]);
        assert_eq!(exports::open(&mut registers, &mut answer, revision, &[0; 5], 0, code, memory(&mut op_stack)), expected);
        (registers[register::DEPTH], registers[register::REVISION]) = (16, revision);
        let most = exports::step_bytes(revision);
        assert_eq!(most, if revision == 2 { 1028 } else { 1024 });
        let short = exports::step(&mut registers.clone(), &mut answer, code, memory(&mut op_stack), &mut vec![0; most - 1]);
        let stepped = exports::step(&mut registers.clone(), &mut answer, code, memory(&mut op_stack), &mut vec![0; most]);
        let mut record = Registers::from_words(&registers).unwrap();
        let by_record = exports::step_registers(&mut record, &mut answer, code, memory(&mut op_stack), &mut vec![0; most]);
        assert_eq!((short, stepped, by_record), (1, expected, expected), "{revision}");
        assert_eq!(exports::helper_variables(&registers, &mut [0; 6], code, memory(&mut op_stack).view()), expected);
        let mut log = vec![0; most];
        let run = exports::run(&mut registers.clone(), &mut answer, 1, code, memory(&mut op_stack));
        let traced = exports::trace_execution(&mut registers.clone(), &mut answer, 1, code, memory(&mut op_stack), &mut log);
        assert_eq!((run, traced), (expected, expected), "{revision}");
        let mut row = [9; column::ALL];
        let registers = &mut registers.clone();
        assert_eq!(exports::processor_row(registers, &mut row, code, memory(&mut op_stack).view()), expected);
        assert_eq!(row == [0; column::ALL], expected != 0, "{revision}");
        let with_rows = exports::trace_rows(registers, &mut answer, 1, code, memory(&mut op_stack), &mut log, &mut row);
        assert_eq!(with_rows, expected, "{revision}");
        assert_eq!(exports::replay(&mut [0; 3], &[], revision, 0, 0, &mut [], &mut [], &mut []), expected);
    }
}

#[test]
fn the_interface_is_the_one_that_is_needed() {
    assert_eq!((exports::interface_version(), exports::check_interface()), (exports::INTERFACE, Ok(())));
}
