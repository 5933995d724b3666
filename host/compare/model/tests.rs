//! The order of RAM's cells, the log's revision, rows and fees, on small machines; and replay.
use super::replay::{replay, replay_by_bytes, word};
use super::MODEL;
use crate::fees::Table;
use crate::field::P;
use crate::instructions::named;
use crate::lent::{answer, column, ending, register, Machine, Row, STEP_BYTES};
use crate::random::Random;
use kixombu::{bytes_of, FeeFault, FeeRow, FeeTable, Record};

/// What unused cells hold: no word, and it stays.
const UNUSED: u64 = u64::MAX;

/// A machine before one instruction, with these cells of so many, and these words on top of its stack, the top one last.
fn machine(name: &str, argument: u64, cells: &[(u64, u64)], lent: usize, top: &[u64]) -> Machine {
    let mut machine = Machine {
        registers: vec![0; register::ALL],
        opcodes: vec![named(name).opcode],
        arguments: vec![argument],
        op_stack: [&[0; 16], top].concat(),
        addresses: vec![UNUSED; lent],
        values: vec![UNUSED; lent],
        ..Machine::default()
    };
    machine.registers[register::DEPTH] = machine.op_stack.len() as u64;
    machine.registers[register::REVISION] = 1;
    machine.registers[register::CELLS] = cells.len() as u64;
    for (i, &(address, value)) in cells.iter().enumerate() {
        (machine.addresses[i], machine.values[i]) = (address, value);
    }
    machine
}

/// All cells that are lent, and how many are used.
fn cells(machine: &Machine) -> (Vec<(u64, u64)>, u64) {
    let all = machine.addresses.iter().copied().zip(machine.values.iter().copied());
    (all.collect(), machine.registers[register::CELLS])
}

fn step(machine: &mut Machine) -> u64 {
    machine.step(&MODEL, &mut [0; STEP_BYTES])[answer::NUMBER]
}

#[test]
fn a_new_cell_is_put_in_at_its_place() {
    let opening = [(3, 30), (5, 50), (9, 90)];
    for (address, place) in [(0, 0), (4, 1), (6, 2), (8, 2), (10, 3), (P - 1, 3)] {
        let mut machine = machine("write_mem", 1, &opening, 5, &[7, address]);
        assert_eq!(step(&mut machine), 0);
        let mut expected = opening.to_vec();
        expected.insert(place, (address, 7));
        expected.push((UNUSED, UNUSED));
        assert_eq!(cells(&machine), (expected, 4), "{address}");
    }
    let mut held = machine("write_mem", 1, &opening, 3, &[7, 5]);
    assert_eq!(step(&mut held), 0);
    assert_eq!(cells(&held), (vec![(3, 30), (5, 7), (9, 90)], 3));
}

#[test]
fn a_write_across_p_goes_to_the_front() {
    let mut machine = machine("write_mem", 3, &[(5, 50)], 5, &[13, 12, 11, P - 2]);
    assert_eq!(step(&mut machine), 0);
    assert_eq!(cells(&machine), (vec![(0, 13), (5, 50), (P - 2, 11), (P - 1, 12), (UNUSED, UNUSED)], 4));
}

#[test]
fn all_of_a_write_or_nothing() {
    let mut machine = machine("write_mem", 2, &[(5, 50), (7, 70)], 3, &[12, 11, 3]);
    let before = machine.clone();
    assert_eq!(step(&mut machine), 32);
    assert_eq!(machine, before);
    // of two addresses one is held
    machine.op_stack[18] = 7;
    assert_eq!(step(&mut machine), 0);
    assert_eq!(cells(&machine), (vec![(5, 50), (7, 11), (8, 12)], 3));
}

#[test]
fn reads_take_no_cell() {
    let opening = [(0, 10), (2, 12), (P - 1, 9)];
    let mut machine = machine("read_mem", 4, &opening, 3, &[2]);
    machine.op_stack.extend([0; 4]);
    assert_eq!(step(&mut machine), 0);
    assert_eq!(machine.op_stack[16..], [12, 0, 10, 9, P - 2]);
    assert_eq!(cells(&machine), (opening.to_vec(), 3));
}

#[test]
fn place_a_asks_for_ascending_cells() {
    let number = |addresses: &[u64], used: u64| {
        let given: Vec<(u64, u64)> = addresses.iter().map(|&address| (address, 1)).collect();
        let mut machine = machine("nop", 0, &given, addresses.len(), &[]);
        machine.registers[register::CELLS] = used;
        let before = machine.clone();
        let number = step(&mut machine);
        assert_eq!((machine.helper_variables(&MODEL).0, machine.processor_row(&MODEL).0), (number, number));
        let opened = before.clone().open(&MODEL, 1, &[0; 5], used)[answer::NUMBER];
        assert_eq!(opened, number);
        let replayed = replay(&mut [0; 3], &[], 1, 0, used, &mut addresses.to_vec(), &mut vec![1; addresses.len()], &mut []);
        assert_eq!(replayed, number);
        assert!(number == 0 || machine == before);
        number
    };
    for (addresses, used, expected) in [
        (&[][..], 0, 0),
        (&[], 1, 5),
        (&[4], 1, 0),
        (&[0, 1, P - 1], 3, 0),
        (&[4, 4], 2, 5),
        (&[4, 4], 1, 0),
        (&[5, 4], 2, 5),
        (&[P - 1, 0], 2, 5),
        (&[1, 2, 4, 3], 4, 5),
        (&[1, 2, 4, 3], 3, 0),
        (&[1, 3, 2, 4], 4, 5),
        (&[4, 4, P], 2, 5),
        // 2 is tried over all cells before 5, also where the count is too large
        (&[4, 4, P], 3, 2),
        (&[P, 4], 2, 2),
        (&[4, P], u64::MAX, 2),
        (&[4, 5], u64::MAX, 5),
    ] {
        assert_eq!(number(addresses, used), expected, "{addresses:?} {used}");
    }
}

/// The same cells, however their writes come.
#[test]
fn replay_gives_cells_in_order() {
    let write = |clock, address| Record::Ram { clock, address, value: address % 100, write: true };
    let orders = [[P - 1, 0, 7, 3], [0, 3, 7, P - 1], [7, P - 1, 3, 0]];
    for order in orders {
        let log = bytes_of(&[write(0, order[0]), write(1, order[1]), write(2, order[2]), write(3, order[3]), write(4, 5)]);
        let opening = ([5, 6, UNUSED, UNUSED, UNUSED, UNUSED, UNUSED], [50, 60, UNUSED, UNUSED, UNUSED, UNUSED, UNUSED]);
        let (mut addresses, mut values) = opening;
        let mut answer = [9; 3];
        assert_eq!(replay(&mut answer, &log, 1, u64::MAX, 2, &mut addresses, &mut values, &mut []), 0);
        assert_eq!(answer, [0, 16, 6]);
        assert_eq!(addresses, [0, 3, 5, 6, 7, P - 1, UNUSED]);
        assert_eq!(values, [0, 3, 5, 60, 7, (P - 1) % 100, UNUSED]);
        // a cell too few, and nothing is changed
        let (mut addresses, mut values) = opening;
        assert_eq!(replay(&mut answer, &log, 1, u64::MAX, 2, &mut addresses[..5], &mut values[..5], &mut []), 44);
        assert_eq!((answer, addresses, values), ([44, 0, 0], opening.0, opening.1));
    }
}

/// A number whose bytes are p's or next to them, or anything.
fn around_p(random: &mut Random) -> u64 {
    let mut bytes = P.to_le_bytes();
    for byte in &mut bytes {
        match random.below(8) {
            0 => *byte = byte.wrapping_add(1),
            1 => *byte = byte.wrapping_sub(1),
            2 => *byte = random.next() as u8,
            _ => {}
        }
    }
    u64::from_le_bytes(bytes)
}

#[test]
fn words_are_compared_whole_or_by_bytes() {
    let mut random = Random::new(1);
    let edges = [0, 1, P - 2, P - 1, P, P + 1, u64::MAX, P - (1 << 32), P ^ 1, u64::MAX << 32, P ^ 1 << 63];
    let all = edges.into_iter().chain((0..100_000).map(|_| around_p(&mut random)));
    let mut met = [0; 2];
    for number in all {
        let bytes = number.to_le_bytes();
        let expected = (number < P).then_some(number);
        assert_eq!((word::<false>(&bytes), word::<true>(&bytes)), (expected, expected), "{number:x}");
        met[usize::from(number < P)] += 1;
        let logs = [
            bytes_of(&[Record::Ram { clock: 0, address: number, value: 0, write: false }]),
            bytes_of(&[Record::Ram { clock: 0, address: 0, value: number, write: true }]),
            bytes_of(&[Record::Stack { clock: 0, pointer: 16, value: number, write: true }]),
        ];
        for log in logs {
            let expected = if number < P { 0 } else { 40 };
            for by in [replay, replay_by_bytes] {
                assert_eq!(by(&mut [0; 3], &log, 1, 1, 0, &mut [0], &mut [0], &mut [0]), expected, "{number:x}");
            }
        }
    }
    assert!(met[0] > 1_000 && met[1] > 1_000, "{met:?}");
}

const WRITE: bool = true;
const READ: bool = false;

fn stack_record(clock: u32, pointer: u64, write: bool, value: u64) -> Record {
    Record::Stack { clock, pointer, write, value }
}

fn ram_record(clock: u32, address: u64, write: bool, value: u64) -> Record {
    Record::Ram { clock, address, value, write }
}

/// With a clock, of kind 7.
fn u32_record(clock: Option<u32>) -> Record {
    Record::U32 { clock, opcode: 4, left: 0, right: 2 }
}

/// With a clock, of kind 6. Its states need be no words.
fn tip5_record(clock: Option<u32>) -> Record {
    Record::Tip5 { clock, opcode: 18, states: Box::new([[u64::MAX; 16]; 6]) }
}

/// So many stack writes at a clock, upward from a pointer, each of its pointer.
fn up(clock: u32, pointer: u64, count: u64) -> Vec<Record> {
    (pointer..pointer + count).map(|pointer| stack_record(clock, pointer, WRITE, pointer)).collect()
}

/// So many stack reads at a clock of what `up` wrote, downward to a pointer.
fn down(clock: u32, pointer: u64, count: u64) -> Vec<Record> {
    (pointer..pointer + count).rev().map(|pointer| stack_record(clock, pointer, READ, pointer)).collect()
}

/// So many reads, at a clock, of an address that is not held.
fn absent(clock: u32, count: usize) -> Vec<Record> {
    vec![ram_record(clock, 999, READ, 0); count]
}

/// So many RAM writes at a clock, from an address on.
fn new(clock: u32, address: u64, count: u64) -> Vec<Record> {
    (address..address + count).map(|address| ram_record(clock, address, WRITE, 7)).collect()
}

/// The number of a log of revision 1 with so many cells and words lent, read up to a clock.
fn replayed(parts: &[Vec<Record>], clock: u64, cells: usize, words: usize) -> u64 {
    replayed_in(1, parts, clock, cells, words)
}

fn replayed_in(revision: u64, parts: &[Vec<Record>], clock: u64, cells: usize, words: usize) -> u64 {
    let log = bytes_of(&parts.concat());
    let lent = (vec![UNUSED; cells], vec![UNUSED; cells], vec![0; words]);
    let mut left = lent.clone();
    let number = replay(&mut [9; 3], &log, revision, clock, 0, &mut left.0, &mut left.1, &mut left.2);
    assert!(number == 0 || left == lent, "refused with {number}, and something is changed");
    number
}

/// The request's log: a stack write and then the matching read within one clock. And the other way round.
#[test]
fn a_clock_has_one_direction() {
    let number = |parts: &[Vec<Record>]| replayed(parts, 100, 1, 100);
    assert_eq!(number(&[up(7, 16, 1), down(7, 16, 1)]), 45);
    assert_eq!(number(&[up(7, 16, 1), down(8, 16, 1)]), 0);
    assert_eq!(number(&[up(0, 16, 3), down(0, 18, 1)]), 45);
    assert_eq!(number(&[up(0, 16, 3), down(1, 17, 2), up(1, 17, 1)]), 45);
    assert_eq!(number(&[up(0, 16, 3), down(1, 17, 2), up(2, 17, 1)]), 0);
    // what stands between does not part them
    for between in [vec![], vec![Record::Reset], vec![u32_record(None)], absent(7, 1)] {
        assert_eq!(number(&[up(7, 16, 1), between, down(7, 16, 1)]), 45);
    }
    // RAM's have no direction
    assert_eq!(number(&[new(3, 5, 1), absent(3, 1), new(3, 5, 1), up(3, 16, 2)]), 0);
}

#[test]
fn a_clock_has_ten_of_each() {
    let number = |parts: &[Vec<Record>]| replayed(parts, 100, 100, 100);
    for (count, expected) in [(9, 0), (10, 0), (11, 45), (12, 45)] {
        assert_eq!(number(&[up(0, 16, count)]), expected, "{count}");
        assert_eq!(number(&[up(3, 16, 10), up(4, 26, 10), down(5, 36 - count, count)]), expected, "{count}");
        assert_eq!(number(&[new(0, 0, count)]), expected, "{count}");
        assert_eq!(number(&[absent(3, count as usize)]), expected, "{count}");
        assert_eq!(number(&[absent(3, 4), new(3, 0, count - 4)]), expected, "{count}");
        assert_eq!(number(&[new(3, 0, count - 4), absent(3, 4)]), expected, "{count}");
    }
    // the stack's and RAM's are counted apart
    assert_eq!(number(&[new(5, 0, 5), up(5, 16, 10), absent(5, 5)]), 0);
    assert_eq!(number(&[up(5, 16, 10), new(5, 0, 10), up(5, 26, 1)]), 45);
    assert_eq!(number(&[up(5, 16, 10), new(5, 0, 10), absent(5, 1)]), 45);
}

/// By the clock's value, at the first record of the stack or of RAM that has a higher one.
#[test]
fn each_clock_is_counted_anew() {
    let number = |parts: &[Vec<Record>]| replayed(parts, 100, 100, 100);
    assert_eq!(number(&[up(0, 16, 10), up(1, 26, 10), down(2, 26, 10), down(90, 16, 10)]), 0);
    assert_eq!(number(&[new(0, 0, 10), absent(1, 10), new(3, 0, 10)]), 0);
    assert_eq!(number(&[new(5, 0, 10), up(6, 16, 1), absent(6, 10)]), 0);
    assert_eq!(number(&[new(5, 0, 10), up(5, 16, 1), absent(5, 1)]), 45);
    assert_eq!(number(&[up(5, 16, 1), absent(6, 1), down(6, 16, 1)]), 0);
    assert_eq!(number(&[up(5, 16, 10), vec![Record::Reset], up(5, 26, 1)]), 45);
    // the stop comes first
    assert_eq!(replayed(&[up(6, 16, 10), up(7, 26, 11)], 7, 0, 99), 0);
    assert_eq!(replayed(&[up(6, 16, 10), up(7, 26, 11)], 8, 0, 99), 45);
    assert_eq!(replayed(&[up(7, 16, 1), absent(7, 10), absent(8, 11)], 8, 0, 1), 0);
}

/// 45 stands behind 43 and before 44.
#[test]
fn the_order_of_the_numbers() {
    let wrong = |clock| vec![ram_record(clock, 999, READ, 1)];
    let number = |parts: &[Vec<Record>]| replayed(parts, 100, 3, 10);
    // an eleventh RAM read
    assert_eq!(number(&[absent(0, 10), absent(0, 1)]), 45);
    assert_eq!(number(&[absent(0, 10), wrong(0)]), 43);
    // an eleventh RAM write to a new address with no cell left, and a tenth
    assert_eq!(number(&[new(0, 0, 3), absent(0, 7), new(0, 3, 1)]), 45);
    assert_eq!(number(&[new(0, 0, 3), absent(0, 6), new(0, 3, 1)]), 44);
    // an eleventh stack write with the slice full, and a tenth
    assert_eq!(replayed(&[up(0, 16, 11)], 100, 0, 10), 45);
    assert_eq!(replayed(&[up(0, 16, 10)], 100, 0, 9), 44);
    // stack records of the other direction, and an eleventh read
    assert_eq!(number(&[up(0, 16, 2), vec![stack_record(0, 17, READ, 1)]]), 43);
    assert_eq!(number(&[up(0, 16, 2), vec![stack_record(0, 18, READ, 17)]]), 42);
    assert_eq!(number(&[up(0, 16, 2), down(1, 17, 1), vec![stack_record(1, 18, WRITE, 1)]]), 42);
    let twenty = [up(0, 16, 10), up(1, 26, 10), down(2, 26, 10)];
    let eleventh = |record| replayed(&[&twenty[..], &[vec![record]]].concat(), 100, 0, 20);
    assert_eq!(eleventh(stack_record(2, 25, READ, 25)), 45);
    assert_eq!(eleventh(stack_record(2, 25, READ, 26)), 43);
    assert_eq!(eleventh(stack_record(2, 24, READ, 24)), 42);
    assert_eq!(eleventh(stack_record(2, 25, READ, P)), 40);
    assert_eq!(eleventh(stack_record(1, 25, READ, 25)), 41);
    // the first wrong record is refused, whatever its number
    assert_eq!(number(&[absent(0, 11), wrong(0)]), 45);
    assert_eq!(number(&[wrong(0), absent(0, 10)]), 43);
    assert_eq!(number(&[new(0, 0, 4), absent(0, 7)]), 44);
}

/// Document 02: a revision that is not 1 or 2 is 4, behind 3 and before 5; its call buffer is as in revision 1.
#[test]
fn other_revisions_are_refused() {
    for (revision, expected) in [(0, 4), (1, 0), (2, 0), (3, 4), (u64::MAX, 4)] {
        let mut machine = machine("nop", 0, &[], 0, &[]);
        machine.registers[register::REVISION] = revision;
        let least = if revision == 2 { 1028 } else { 1024 };
        let number = |machine: &Machine, room: usize| machine.clone().step(&MODEL, &mut vec![0; room])[answer::NUMBER];
        assert_eq!((number(&machine, least), number(&machine, least - 1)), (expected, 1), "{revision}");
        assert_eq!(machine.helper_variables(&MODEL).0, expected);
        assert_eq!(machine.clone().run(&MODEL, 1)[answer::NUMBER], expected);
        assert_eq!(machine.clone().open(&MODEL, revision, &[0; 5], 0)[answer::NUMBER], expected);
        assert_eq!(replay(&mut [0; 3], &[], revision, 0, 0, &mut [], &mut [], &mut []), expected);
        // replay's order: 1 and 2 come before it, 5 and the log behind it
        let replayed = |log: &[u8], addresses: &mut [u64], values: &mut [u64]| {
            replay(&mut [0; 3], log, revision, 9, addresses.len() as u64, addresses, values, &mut [])
        };
        assert_eq!(replayed(&[], &mut [P], &mut [0, 0]), 1);
        assert_eq!(replayed(&[], &mut [P], &mut [0]), 2);
        assert_eq!(replayed(&[], &mut [4, 3], &mut [0; 2]), if expected == 0 { 5 } else { 4 });
        assert_eq!(replayed(&[0], &mut [3, 4], &mut [0; 2]), if expected == 0 { 40 } else { 4 });
        // 3 comes before, and 5 behind
        machine.registers[register::CELLS] = 1;
        assert_eq!(number(&machine, least), if expected == 0 { 5 } else { expected });
        machine.opcodes[0] = 5;
        assert_eq!(number(&machine, least), 3);
    }
}

/// vm.rs, `to_processor_row`: every column, with another word in each.
#[test]
fn the_columns_of_a_row() {
    let top: Vec<u64> = (100..116).collect();
    let mut machine = machine("eq", 0, &[], 0, &top);
    (machine.opcodes, machine.arguments) = (vec![8, 8, 8, named("eq").opcode, 57], vec![0, 0, 0, 0, 2]);
    (machine.registers[register::CLOCK], machine.registers[register::POINTER], machine.registers[register::JUMPS]) = (9, 3, 2);
    (machine.origins, machine.destinations) = (vec![20, 21], vec![30, 31]);
    // eq is 58, and its helper variable the inverse of ST1 - ST0, which is -1
    let bits = [0, 1, 0, 1, 1, 1, 0];
    let stack = [115, 114, 113, 112, 111, 110, 109, 108, 107, 106, 105, 104, 103, 102, 101, 100];
    let expected: Vec<u64> = [&[9, 3, 58, 57][..], &bits, &[2, 21, 31], &stack, &[32], &[P - 1, 0, 0, 0, 0, 0]].concat();
    assert_eq!((machine.processor_row(&MODEL).0, machine.processor_row(&MODEL).1.to_vec()), (0, expected));
}

#[test]
fn rows_without_a_next_slot_and_outside() {
    let row = |name: &str, argument, pointer| -> Row {
        let mut machine = machine(name, argument, &[], 0, &[]);
        machine.registers[register::POINTER] = pointer;
        let (number, row) = machine.processor_row(&MODEL);
        assert_eq!(number, 0);
        row
    };
    let first = |row: Row| [row[column::IP], row[column::CI], row[column::NIA], row[column::IB + 3], row[column::HV]];
    assert_eq!(first(row("halt", 0, 0)), [0, 0, 1, 0, 0]);
    assert_eq!(first(row("push", 5, 0)), [0, 1, 5, 0, 0]);
    assert_eq!(first(row("swap", 5, 0)), [0, 41, 5, 1, 1]);
    for (pointer, cut) in [(1, 1), ((1 << 32) - 1, (1 << 32) - 1), (1 << 32, 0), ((5 << 32) + 6, 6), (P - 1, 0)] {
        assert_eq!(first(row("swap", 5, pointer)), [cut, 8, 0, 1, 0], "{pointer}");
        assert_eq!(row("swap", 5, pointer)[column::HV..], [0; 6]);
    }
}

/// Halted, spent, log full, table full; a refused step has no row, and what is behind the rows stays.
#[test]
fn what_ends_a_table() {
    let mut start = machine("push", 3, &[], 0, &[]);
    (start.opcodes, start.arguments) = (vec![1, 1, 8, 0], vec![3, 3, 0, 0]);
    start.op_stack.push(0);
    let trace = |machine: &Machine, budget, log: usize, table: usize| {
        let (mut machine, mut log, mut table) = (machine.clone(), vec![9; log], vec![9; table]);
        let answer = machine.trace_rows(&MODEL, budget, &mut log, &mut table);
        let steps = answer[answer::STEPS];
        assert!(table[steps as usize * column::ALL..].iter().all(|word| *word == 9));
        (answer[answer::ENDING], answer[answer::NUMBER], steps)
    };
    let words = column::ALL;
    assert_eq!(trace(&start, 9, 2000, 3 * words), (ending::DONE, 0, 3));
    assert_eq!(trace(&start, 2, 2000, 3 * words), (ending::SPENT, 0, 2));
    assert_eq!(trace(&start, 0, 0, 0), (ending::SPENT, 0, 0));
    assert_eq!(trace(&start, 9, 1023, 0), (ending::FULL, 0, 0));
    assert_eq!(trace(&start, 9, 1024, words - 1), (ending::TABLE_FULL, 0, 0));
    // the first step records 25 bytes
    assert_eq!(trace(&start, 9, 1048, words), (ending::FULL, 0, 1));
    assert_eq!(trace(&start, 9, 1049, words), (ending::TABLE_FULL, 0, 1));
    // without the halt
    start.opcodes.pop();
    start.arguments.pop();
    assert_eq!(trace(&start, 9, 2000, 3 * words), (ending::REFUSED, 11, 2));
    assert_eq!(trace(&start, 9, 2000, 3 * words - 1), (ending::TABLE_FULL, 0, 2));
}

/// The answer of each call with a table, from a machine that it is handed whole; a refused one leaves the machine as it was.
fn with_table(machine: &Machine, table: &Table) -> (u64, u64) {
    let fees = Some(table.slices());
    let called = |call: &dyn Fn(&mut Machine) -> (u64, u64)| {
        let mut after = machine.clone();
        let given = call(&mut after);
        assert!(given.0 == 0 || after == *machine, "refused with {}, and something is changed", given.0);
        given
    };
    let of = |answer: [u64; answer::ALL]| (answer[answer::NUMBER], answer[answer::WORDS]);
    let stepped = called(&|machine| of(machine.step_priced(&MODEL, &mut [0; STEP_BYTES], fees).0));
    assert_eq!(called(&|machine| of(machine.run_priced(&MODEL, 1, fees).0)), stepped);
    assert_eq!(called(&|machine| of(machine.trace_priced(&MODEL, 1, &mut [0; STEP_BYTES], fees).0)), stepped);
    let rows = called(&|machine| of(machine.rows_priced(&MODEL, 1, &mut [0; STEP_BYTES], &mut [0; column::ALL], fees).0));
    assert_eq!(rows, stepped);
    let cells = machine.registers[register::CELLS];
    assert_eq!(called(&|machine| of(machine.open_priced(&MODEL, 1, &[0; 5], cells, fees))), stepped);
    stepped
}

/// Document 02, R-9: 64, then 65, then 66, the lowest opcode of each. Numbers that are no opcode may be covered or not.
#[test]
fn what_is_wrong_with_a_fee_table() {
    let nop = machine("nop", 0, &[], 0, &[]);
    let number = |rows: &[[u64; 3]]| with_table(&nop, &Table::new(rows));
    let all = [0, 88, 7];
    assert_eq!(number(&[all]), (0, 0));
    assert_eq!(number(&[[0, u64::MAX, (1 << 32) - 1]]), (0, 0));
    assert_eq!(number(&[]), (65, 0));
    assert_eq!(number(&[[0, 87, 7]]), (65, 88));
    assert_eq!(number(&[[1, 88, 7]]), (65, 0));
    assert_eq!(number(&[[0, 17, 7], [19, 87, 7]]), (65, 18));
    assert_eq!(number(&[all, [88, 100, 7]]), (66, 88));
    assert_eq!(number(&[[88, 100, 7], [18, 18, 7], all, [18, 18, 7]]), (66, 18));
    // 5 and 7 are no opcodes
    assert_eq!(number(&[[8, 88, 7], [0, 4, 7], [6, 6, 7]]), (0, 0));
    assert_eq!(number(&[[5, 88, 7], [0, 5, 7], [7, 7, 7], [7, 7, 7], [89, u64::MAX, 7], [89, 89, 7]]), (0, 0));
    assert_eq!(number(&[[4, 88, 7], [0, 5, 7]]), (66, 4));
    // a turned row comes before a gap, and a gap before two
    assert_eq!(number(&[[0, 87, 7], [100, 99, 7]]), (64, 0));
    assert_eq!(number(&[all, [u64::MAX, 0, 7]]), (64, 0));
    assert_eq!(number(&[[0, 87, 7], [0, 0, 7]]), (65, 88));
    // 64 rows and 65
    let many = |count: usize| [&[all][..], &vec![[90, 90, 7]; count - 1]].concat();
    assert_eq!((number(&many(64)), number(&many(65))), ((0, 0), (64, 0)));
    let gaps: Vec<[u64; 3]> = many(66)[1..].to_vec();
    assert_eq!((number(&gaps[1..]), number(&gaps)), ((65, 0), (64, 0)));
}

/// 1 where it is no shape, before all of place A; 64 to 66 behind all of it.
#[test]
fn a_fee_table_among_the_numbers() {
    let sound = machine("nop", 0, &[(3, 1)], 1, &[]);
    let turned = Table::new(&[[1, 0, 7]]);
    let no_shape = [
        Table { fees: vec![1 << 32], ..turned.clone() },
        Table { fees: vec![7, 7], ..turned.clone() },
        Table { lowest: vec![], ..turned.clone() },
        Table { highest: vec![0, 0], ..turned.clone() },
    ];
    let damaged = |place: fn(&mut Machine)| {
        let mut machine = sound.clone();
        place(&mut machine);
        machine
    };
    for (machine, number) in [
        (sound.clone(), 64),
        (damaged(|machine| machine.arguments.push(0)), 1),
        (damaged(|machine| machine.values[0] = P), 2),
        (damaged(|machine| machine.opcodes[0] = 5), 3),
        (damaged(|machine| machine.arguments[0] = 1), 4),
        (damaged(|machine| machine.registers[register::CELLS] = 2), 5),
    ] {
        assert_eq!(with_table(&machine, &turned), (number, 0));
        no_shape.iter().for_each(|table| assert_eq!(with_table(&machine, table), (1, 0), "{table:?}"));
    }
    // before place B
    let mut halted = sound;
    halted.registers[register::HALTED] = 1;
    assert_eq!(halted.clone().step_priced(&MODEL, &mut [0; STEP_BYTES], Some(turned.slices())).0[answer::NUMBER], 64);
    assert_eq!(halted.run_priced(&MODEL, 1, Some(turned.slices())).0[answer::NUMBER], 64);
}

/// The crate's own check, which says in words what a call would refuse, comes to the same number and opcode.
#[test]
fn the_crate_checks_fee_tables_alike() {
    let nop = machine("nop", 0, &[], 0, &[]);
    let mut random = Random::new(2);
    for _ in 0..2000 {
        let table = crate::fees::any(&mut random);
        let has_shape = super::fees::has_shape(table.slices());
        let rows = table.lowest.iter().zip(&table.highest).map(|(&lowest, &highest)| FeeRow { lowest, highest, fee: 7 });
        let expected = match rows.collect::<FeeTable>().check() {
            _ if !has_shape => (1, 0),
            Ok(()) => (0, 0),
            Err(fault @ (FeeFault::InNone(opcode) | FeeFault::InTwo { opcode, .. })) => (fault.number(), opcode),
            Err(fault) => (fault.number(), 0),
        };
        assert_eq!(with_table(&nop, &table), expected, "{table:?}");
    }
}

/// The row of the slot at the pointer handed in; the sum over the steps that succeeded.
#[test]
fn rows_and_fees() {
    let table = Table::new(&[[3, 8, (1 << 32) - 1], [0, 0, 10_000], [1, 1, 1], [2, 2, 50], [9, 88, 100]]);
    let fees = Some(table.slices());
    // push 0; nop; skiz, which has no slot behind it
    let mut start = machine("push", 0, &[], 0, &[]);
    (start.opcodes, start.arguments) = (vec![1, 1, 8, 2], vec![0, 0, 0, 0]);
    start.op_stack.push(0);
    for (budget, expected) in [(0, (ending::SPENT, 0, 0)), (1, (ending::SPENT, 1, 1)), (9, (ending::REFUSED, 2, 1 << 32))] {
        let (answer, fee) = start.clone().run_priced(&MODEL, budget, fees);
        assert_eq!((answer[answer::ENDING], answer[answer::STEPS], fee.unwrap()), expected, "{budget}");
    }
    let mut step = || {
        let (answer, row) = start.step_priced(&MODEL, &mut [0; STEP_BYTES], fees);
        (answer[answer::NUMBER], row.unwrap())
    };
    assert_eq!([step(), step(), step()], [(0, 2), (0, 0), (11, 0)]);
    // an answer with a word too many or too few says nothing
    for length in [answer::ALL, answer::WITH_FEES + 1] {
        let mut answer = vec![9; length];
        let (registers, code, memory) = start.parts();
        assert_eq!((MODEL.run_with_fees)(registers, &mut answer, 1, code, memory, table.slices()), 1);
        assert_eq!(answer, vec![9; length]);
    }
}

/// The clock of kinds 6 and 7 is that before the step, and moves replay's last clock.
#[test]
fn revision_2_has_clocks() {
    let mut machine = machine("split", 0, &[], 0, &[1 << 33]);
    machine.op_stack.push(0);
    machine.registers[register::REVISION] = 2;
    machine.registers[register::CLOCK] = 7;
    let mut buffer = [0; STEP_BYTES];
    let bytes = machine.step(&MODEL, &mut buffer)[answer::BYTES] as usize;
    let records: Vec<Record> = kixombu::records(&buffer[..bytes]).collect::<Result<_, _>>().unwrap();
    assert_eq!(records[0], Record::U32 { clock: Some(7), opcode: 4, left: 0, right: 2 });
    assert_eq!((bytes, records.len()), (26 + 25, 2));

    for record in [u32_record, tip5_record] {
        let clocked = |clock| vec![record(Some(clock))];
        let number = |revision, parts: &[Vec<Record>], clock| replayed_in(revision, parts, clock, 0, 0);
        assert_eq!(number(2, &[clocked(4), absent(4, 1)], 9), 0);
        assert_eq!(number(2, &[clocked(4), absent(3, 1)], 9), 41);
        assert_eq!(number(2, &[absent(4, 1), clocked(3)], 9), 41);
        assert_eq!(number(2, &[clocked(4), clocked(3)], 9), 41);
        // the stop comes before the clock
        assert_eq!(number(2, &[clocked(4), absent(3, 1)], 4), 0);
        assert_eq!(number(2, &[absent(4, 1), clocked(5), clocked(3), absent(4, 11)], 5), 0);
        assert_eq!(number(2, &[absent(4, 1), clocked(3)], 3), 0);
        // the other revision's kinds, wherever they are read; without a clock also where nothing else would be
        assert_eq!(number(2, &[vec![record(None)]], 0), 40);
        assert_eq!(number(1, &[vec![record(None)]], 0), 0);
        assert_eq!(number(1, &[clocked(4)], 4), 40);
        assert_eq!(number(1, &[absent(4, 1), clocked(3)], 9), 40);
        assert_eq!(number(2, &[absent(4, 1), vec![record(None)], clocked(4)], 4), 0);
    }
}

/// Kinds 6 and 7 do not count, and do not part a clock's records; a clock that they name first is counted from its first record.
#[test]
fn clocks_of_revision_2_do_not_count() {
    for record in [u32_record, tip5_record] {
        let clocked = |clock| vec![record(Some(clock))];
        let number = |parts: &[Vec<Record>]| replayed_in(2, parts, 100, 100, 100);
        // as sponge_absorb_mem and then merkle_step_mem
        assert_eq!(number(&[absent(0, 10), clocked(1), absent(1, 1)]), 0);
        assert_eq!(number(&[absent(0, 10), clocked(1), new(1, 0, 10)]), 0);
        assert_eq!(number(&[absent(0, 10), clocked(1), absent(1, 11)]), 45);
        assert_eq!(number(&[up(0, 16, 10), clocked(1), down(1, 16, 10)]), 0);
        assert_eq!(number(&[up(0, 16, 10), clocked(5), clocked(7), down(7, 16, 10), clocked(7), up(8, 16, 1)]), 0);
        assert_eq!(number(&[clocked(3), up(3, 16, 10), clocked(3)]), 0);
        // at the same clock
        assert_eq!(number(&[up(0, 16, 10), clocked(0), up(0, 26, 1)]), 45);
        assert_eq!(number(&[absent(4, 10), clocked(4), absent(4, 1)]), 45);
        assert_eq!(number(&[up(4, 16, 1), clocked(4), down(4, 16, 1)]), 45);
        assert_eq!(number(&[absent(0, 10), clocked(1), absent(1, 10), clocked(1), absent(1, 1)]), 45);
        // as many of them as there are
        assert_eq!(number(&[vec![record(Some(6)); 30], absent(6, 10), vec![record(Some(6)); 30]]), 0);
        // behind a clock of theirs, one that falls to the counted clock
        assert_eq!(number(&[absent(0, 10), clocked(1), absent(0, 1)]), 41);
        // what stands at the stop or behind it is not counted
        assert_eq!(replayed_in(2, &[absent(0, 10), clocked(1), absent(0, 1)], 1, 0, 0), 0);
    }
    // the request's logs in revision 2
    assert_eq!(replayed_in(2, &[up(7, 16, 1), down(7, 16, 1)], 100, 0, 1), 45);
    assert_eq!(replayed_in(2, &[up(7, 16, 1), down(8, 16, 1)], 100, 0, 1), 0);
}
