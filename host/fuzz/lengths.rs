//! The longest slices: one of the limit's length is taken, one longer is refused with 1. And RAM of the limit's length, used up.
use crate::by_record::BY_RECORD;
use host::fees::Table;
use host::instructions::named;
use host::lent::{answer, column, ending, register, Fees, Machine, LIBRARY, LONGEST, STEP_BYTES};
use host::model::MODEL;

/// A fee table that is good.
const ONE_ROW: Fees = Fees { lowest: &[0], highest: &[u64::MAX], fees: &[7] };

/// Slices that have to be of one length go together; the digests are in fives.
const GROUPS: [(&[usize], usize, usize); 7] = [
    (&[1, 2], LONGEST, LONGEST + 1),
    (&[3], LONGEST, LONGEST + 1),
    (&[4], LONGEST, LONGEST + 1),
    (&[5], LONGEST / 5 * 5, LONGEST / 5 * 5 + 5),
    (&[6], LONGEST, LONGEST + 1),
    (&[7, 8], LONGEST, LONGEST + 1),
    (&[9, 10], LONGEST, LONGEST + 1),
];
const OUTPUT: usize = 11;

pub fn check() {
    for (group, longest, over) in GROUPS.into_iter().chain([(&[OUTPUT][..], LONGEST, LONGEST + 1)]) {
        for (length, expected) in [(longest, 0), (over, 1)] {
            let mut machine = small();
            let mut slices = machine.slices_mut();
            group.iter().for_each(|&place| slices[place].resize(length, 0));
            calls(&mut machine, STEP_BYTES, expected);
        }
    }
    calls(&mut small(), LONGEST, 0);
    buffers(&mut small(), LONGEST + 1, 1);
    tables();
    fee_tables();
    println!("slices of 16,777,216 elements are taken, longer ones refused");
    full_ram();
    println!("16,777,216 used cells are kept in order");
}

/// All cells used, or all but one. A model of so many would take long, and what a write must leave is plain.
fn full_ram() {
    let mut before = small();
    (before.opcodes[0], before.arguments[0]) = (named("write_mem").opcode, 1);
    before.op_stack.push(0);
    before.registers[register::DEPTH] = 17;
    before.registers[register::CELLS] = LONGEST as u64;
    before.addresses = (1..=LONGEST as u64).map(|i| 2 * i).collect();
    before.values = (1..=LONGEST as u64).collect();
    let last = 2 * LONGEST as u64;
    assert_eq!(write(&mut before, 1).0, 32);
    let (number, after) = write(&mut before, last);
    assert_eq!((number, after.values[LONGEST - 1]), (0, 7));
    assert!(after.addresses == before.addresses && after.values[..LONGEST - 1] == before.values[..LONGEST - 1]);

    // one cell left, for a new one in front, in the middle and behind
    before.registers[register::CELLS] -= 1;
    for place in [0, LONGEST / 2, LONGEST - 1] {
        let address = 2 * place as u64 + 1;
        let (number, after) = write(&mut before, address);
        assert_eq!((number, after.registers[register::CELLS]), (0, LONGEST as u64));
        for (now, then, new) in [(&after.addresses, &before.addresses, address), (&after.values, &before.values, 7)] {
            assert!(now[..place] == then[..place] && now[place] == new && now[place + 1..] == then[place..LONGEST - 1]);
        }
    }

    // neighbours that are equal or fall, at either end
    for (place, address) in [(0, 4), (1, 1), (LONGEST - 2, last - 4), (LONGEST - 2, last - 5)] {
        let then = std::mem::replace(&mut before.addresses[place], address);
        assert_eq!(write(&mut before, 1).0, 5);
        before.addresses[place] = then;
    }
}

/// 7 written to an address, by the library: the number, and what it leaves.
fn write(before: &mut Machine, address: u64) -> (u64, Machine) {
    before.op_stack[15..].copy_from_slice(&[7, address]);
    let mut machine = before.clone();
    let number = machine.step(&LIBRARY, &mut [0; STEP_BYTES])[answer::NUMBER];
    assert!(number == 0 || machine == *before, "refused with {number}, and something is changed");
    (number, machine)
}

/// halt, with nothing else.
fn small() -> Machine {
    let mut machine = Machine { registers: vec![0; register::ALL], op_stack: vec![0; 16], ..Machine::default() };
    machine.registers[register::DEPTH] = 16;
    machine.registers[register::REVISION] = 1;
    machine.opcodes = vec![0];
    machine.arguments = vec![0];
    machine
}

/// Each call on the machine; one step behind it is halted.
fn calls(machine: &mut Machine, buffer: usize, expected: u64) {
    for by in [&LIBRARY, &MODEL] {
        let ((number, _), (row_number, _)) = (machine.helper_variables(by), machine.processor_row(by));
        assert_eq!((number, row_number), (expected, expected));
        assert_eq!(machine.run(by, 0)[answer::NUMBER], expected);
        assert_eq!(machine.open(by, 1, &[0; 5], 0)[answer::NUMBER], expected);
        let fees = Some(ONE_ROW);
        assert_eq!(machine.run_priced(by, 0, fees).0[answer::NUMBER], expected);
        assert_eq!(machine.open_priced(by, 1, &[0; 5], 0, fees)[answer::NUMBER], expected);
    }
    buffers(machine, buffer, expected);
}

/// The calls that take a buffer.
fn buffers(machine: &mut Machine, length: usize, expected: u64) {
    let mut buffer = vec![0; length];
    for by in [&LIBRARY, &BY_RECORD, &MODEL] {
        let before = machine.registers.clone();
        assert_eq!(machine.step(by, &mut buffer)[answer::NUMBER], expected);
        machine.registers = before.clone();
        assert_eq!(machine.trace_execution(by, 1, &mut buffer)[answer::NUMBER], expected);
        machine.registers = before.clone();
        assert_eq!(machine.trace_rows(by, 1, &mut buffer, &mut [0; column::ALL])[answer::NUMBER], expected);
        let fees = Some(ONE_ROW);
        machine.registers = before.clone();
        assert_eq!(machine.step_priced(by, &mut buffer, fees).0[answer::NUMBER], expected);
        machine.registers = before.clone();
        assert_eq!(machine.trace_priced(by, 1, &mut buffer, fees).0[answer::NUMBER], expected);
        machine.registers = before.clone();
        assert_eq!(machine.rows_priced(by, 1, &mut buffer, &mut [0; column::ALL], fees).0[answer::NUMBER], expected);
        machine.registers = before;
    }
}

/// Fee tables of as many rows as a slice may have, which are too many, and of one more, which is no shape.
fn fee_tables() {
    for (rows, expected) in [(LONGEST, 64), (LONGEST + 1, 1)] {
        let table = Table { lowest: vec![0; rows], highest: vec![88; rows], fees: vec![7; rows] };
        let fees = Some(table.slices());
        for by in [&LIBRARY, &MODEL] {
            let (mut machine, mut buffer, mut rows) = (small(), [9; STEP_BYTES], [9; column::ALL]);
            let priced = [
                machine.step_priced(by, &mut buffer, fees),
                machine.run_priced(by, 1, fees),
                machine.trace_priced(by, 1, &mut buffer, fees),
                machine.rows_priced(by, 1, &mut buffer, &mut rows, fees),
            ];
            let answer = [ending::REFUSED, expected, 0, 0, 0, 0, 0];
            assert_eq!(priced, [(answer, Some(0)); 4]);
            assert_eq!(machine.open_priced(by, 1, &[0; 5], 0, fees), answer);
            assert_eq!((machine, buffer, rows), (small(), [9; STEP_BYTES], [9; column::ALL]));
        }
    }
}

/// Tables of the limit's length and longer; and the longest one filled by nops, which record nothing, so that the log never gets full.
fn tables() {
    for by in [&LIBRARY, &MODEL] {
        for (length, number) in [(LONGEST, 0), (LONGEST + 1, 1)] {
            let (mut machine, mut table) = (small(), vec![7; length]);
            assert_eq!(machine.trace_rows(by, 1, &mut [0; STEP_BYTES], &mut table)[answer::NUMBER], number);
            let written = if number == 0 { column::ALL } else { 0 };
            assert_eq!(table.iter().skip(written).find(|word| **word != 7), None);
        }
    }
    let mut machine = small();
    (machine.opcodes, machine.arguments) = (vec![named("nop").opcode; LONGEST], vec![0; LONGEST]);
    let (mut table, rows) = (vec![7; LONGEST], LONGEST / column::ALL);
    let answer = machine.trace_rows(&LIBRARY, u64::MAX, &mut [0; STEP_BYTES], &mut table);
    assert_eq!((answer[answer::ENDING], answer[answer::STEPS]), (ending::TABLE_FULL, rows as u64));
    let clocks = table.chunks_exact(column::ALL).map(|row| row[column::CLK]);
    assert!(clocks.eq(0..rows as u64) && table[rows * column::ALL..].iter().all(|word| *word == 7));
}
