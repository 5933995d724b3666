//! Fee tables: what is wrong with one, where its numbers stand among the others, which row prices a step, and what steps cost.
mod common;

use common::{names, open, read};
use kixombu::exports::{self, answer, ending, register, Code, Fees, Memory, STEP_BYTES};
use kixombu::instructions::{Argument, ALL};
use kixombu::listing::{rows_in_pieces_with_fees, trace_in_pieces_with_fees};
use kixombu::{Ending, FeeFault, FeeRow, FeeTable, Job, JobFile, Opening, Refusal, Row, Sizes, P};

/// Lowest, highest and fee of each row.
fn table(rows: &[(u64, u64, u32)]) -> FeeTable {
    rows.iter().map(|&(lowest, highest, fee)| FeeRow { lowest, highest, fee }).collect()
}

/// Another fee for each opcode, in rows that do not ascend.
fn by_opcode() -> FeeTable {
    let mut opcodes = ALL.map(|instruction| instruction.opcode);
    opcodes.reverse();
    opcodes.swap(3, 40);
    table(&opcodes.map(|opcode| (opcode, opcode, 1000 + opcode as u32)))
}

/// The same for the calls over slices, which need not be of one length.
#[derive(Clone, Debug)]
struct Columns {
    lowest: Vec<u64>,
    highest: Vec<u64>,
    fees: Vec<u64>,
}

impl Columns {
    fn of(table: &FeeTable) -> Columns {
        let lowest = table.rows().map(|row| row.lowest).collect();
        let highest = table.rows().map(|row| row.highest).collect();
        Columns { lowest, highest, fees: table.rows().map(|row| row.fee.into()).collect() }
    }

    fn fees(&self) -> Fees<'_> {
        Fees { lowest: &self.lowest, highest: &self.highest, fees: &self.fees }
    }
}

#[derive(Clone, Copy, Debug, PartialEq, Eq)]
enum Call {
    Open,
    Step,
    Run,
    Trace,
    Rows,
}

const CALLS: [Call; 5] = [Call::Open, Call::Step, Call::Run, Call::Trace, Call::Rows];

/// Everything that a call is lent but for the table and the answer.
#[derive(Clone, Debug, PartialEq, Eq)]
struct Lent {
    registers: Vec<u64>,
    slots: [Vec<u64>; 2],
    inputs: [Vec<u64>; 3],
    op_stack: Vec<u64>,
    jumps: [Vec<u64>; 2],
    cells: [Vec<u64>; 2],
    output: Vec<u64>,
    bytes: Vec<u8>,
    rows: Vec<u64>,
}

/// Before nop, with one cell.
fn lent() -> Lent {
    let mut registers = vec![0; register::ALL];
    (registers[register::DEPTH], registers[register::CELLS], registers[register::REVISION]) = (16, 1, 1);
    Lent {
        registers,
        slots: [vec![8], vec![0]],
        inputs: [vec![], vec![], vec![]],
        op_stack: vec![0; 16],
        jumps: [vec![0], vec![0]],
        cells: [vec![3], vec![4]],
        output: vec![9],
        bytes: vec![9; STEP_BYTES],
        rows: vec![9; Row::WORDS],
    }
}

impl Lent {
    /// With budget 1 and an answer of so many words: the number, and the answer.
    fn answer(&mut self, call: Call, fees: Fees, length: usize) -> (u64, Vec<u64>) {
        let Lent { registers, slots: [opcodes, arguments], inputs: [public, secret, digests], .. } = self;
        let code = Code { opcodes, arguments, public, secret, digests };
        let Lent { op_stack, jumps: [origins, destinations], cells: [addresses, values], output, bytes, rows, .. } = self;
        let memory = Memory { op_stack, origins, destinations, addresses, values, output };
        let (mut answer, revision, cells) = (vec![9; length], registers[register::REVISION], registers[register::CELLS]);
        let number = match call {
            Call::Open => exports::open_with_fees(registers, &mut answer, revision, &[1, 2, 3, 4, 5], cells, code, memory, fees),
            Call::Step => exports::step_with_fees(registers, &mut answer, code, memory, bytes, fees),
            Call::Run => exports::run_with_fees(registers, &mut answer, 1, code, memory, fees),
            Call::Trace => exports::trace_execution_with_fees(registers, &mut answer, 1, code, memory, bytes, fees),
            Call::Rows => exports::trace_rows_with_fees(registers, &mut answer, 1, code, memory, bytes, rows, fees),
        };
        (number, answer)
    }

    fn call(&mut self, call: Call, fees: Fees) -> (u64, Vec<u64>) {
        let length = if call == Call::Open { answer::ALL } else { answer::WITH_FEES };
        self.answer(call, fees, length)
    }

    /// Each call, which must be refused with this number and carry this word, and change nothing.
    #[track_caller]
    fn is_refused(&self, fees: Fees, number: u64, word: u64) {
        for call in CALLS {
            let mut after = self.clone();
            let (found, answer) = after.call(call, fees);
            let mut expected = vec![ending::REFUSED, number, word];
            expected.resize(answer.len(), 0);
            assert_eq!((found, answer), (number, expected), "{call:?}");
            assert_eq!(after, *self, "{call:?}: refused with {number}, and something is changed");
        }
    }
}

/// Each number by the smallest table that gives it, at each call.
#[test]
fn the_smallest_tables() {
    let refused = |rows: &[(u64, u64, u32)], number, word| lent().is_refused(Columns::of(&table(rows)).fees(), number, word);
    refused(&[(1, 0, 0)], 64, 0);
    refused(&[(0, 88, 0); 65], 64, 0);
    refused(&[], 65, 0);
    refused(&[(0, 0, 0)], 65, 1);
    refused(&[(0, 87, 0)], 65, 88);
    refused(&[(0, 88, 0), (0, 0, 0)], 66, 0);
    refused(&[(88, 88, 0), (0, 88, 0)], 66, 88);
    // a good one, of one row and of 64
    for rows in [&[(0, 88, 5)][..], &[&[(0, 88, 5)][..], &[(89, u64::MAX, 6); 63]].concat()] {
        for call in CALLS {
            let columns = Columns::of(&table(rows));
            let (number, answer) = lent().call(call, columns.fees());
            assert_eq!((number, answer[answer::ENDING] == ending::REFUSED, answer[answer::NUMBER]), (0, false, 0), "{call:?}");
            let fee = if call == Call::Step { 0 } else { 5 };
            assert_eq!(answer.get(answer::FEE), if call == Call::Open { None } else { Some(&fee) }, "{call:?}");
        }
    }
}

/// 64 over the whole table, then 65, then 66; and of each the lowest opcode.
#[test]
fn the_order_within_a_table() {
    let refused = |rows: &[(u64, u64, u32)], number, word| lent().is_refused(Columns::of(&table(rows)).fees(), number, word);
    // opcodes in none and in two, and a turned row that stands last
    refused(&[(0, 3, 0), (1, 1, 0), (9, 8, 0)], 64, 0);
    refused(&[(0, 3, 0), (1, 1, 0)], 65, 4);
    refused(&[(1, 17, 0), (2, 2, 0), (19, 88, 0)], 65, 0);
    // lower ones in two than in none
    refused(&[(0, 87, 0), (0, 0, 0)], 65, 88);
    refused(&[(0, 88, 0), (58, 58, 0), (57, 57, 0), (80, 88, 0)], 66, 57);
    refused(&[(0, 88, 0), (0, 88, 0), (0, 88, 0)], 66, 0);
    // with 65 rows a gap is not looked at
    refused(&[(5, 5, 0); 65], 64, 0);
    refused(&[(5, 5, 0); 64], 65, 0);
}

/// The table's shape is tried with the other lengths, and what is in it behind all of place A.
#[test]
fn the_order_among_the_numbers() {
    let turned = Columns::of(&table(&[(1, 0, 0)]));
    let damaged = |damage: fn(&mut Lent)| {
        let mut lent = lent();
        damage(&mut lent);
        lent
    };
    let machines = [
        (damaged(|lent| lent.slots[1].push(0)), 1),
        (damaged(|lent| lent.op_stack.truncate(15)), 1),
        (damaged(|lent| lent.cells[1][0] = P), 2),
        (damaged(|lent| lent.slots[0][0] = 5), 3),
        (damaged(|lent| lent.slots[1][0] = 1), 4),
        (damaged(|lent| lent.registers[register::REVISION] = 3), 4),
        (damaged(|lent| lent.registers[register::CELLS] = 2), 5),
        (lent(), 64),
    ];
    for (lent, number) in &machines {
        lent.is_refused(turned.fees(), *number, 0);
        lent.is_refused(Columns::of(&table(&[])).fees(), if *number == 64 { 65 } else { *number }, 0);
        // no shape, whatever the machine and whatever the rows
        for columns in [
            Columns { lowest: vec![], ..turned.clone() },
            Columns { highest: vec![0, 88], ..turned.clone() },
            Columns { fees: vec![0, 0], ..turned.clone() },
            Columns { fees: vec![1 << 32], ..turned.clone() },
            Columns { fees: vec![u64::MAX], ..turned.clone() },
            Columns { fees: vec![7], lowest: vec![], highest: vec![] },
        ] {
            lent.is_refused(columns.fees(), 1, 0);
        }
    }
    // a good one but for one of its fees
    let mut columns = Columns::of(&table(&[(0, 17, 0), (18, 88, u32::MAX)]));
    assert_eq!(lent().call(Call::Run, columns.fees()).0, 0);
    columns.fees[1] += 1;
    lent().is_refused(columns.fees(), 1, 0);
    // registers that cannot be read, which open does not read
    for (place, word) in [(register::CLOCK, 1 << 32), (register::HALTED, 2), (register::SPONGE_SET, 2)] {
        let mut lent = lent();
        lent.registers[place] = word;
        for call in &CALLS[1..] {
            let before = lent.clone();
            assert_eq!(lent.call(*call, turned.fees()), (1, vec![ending::REFUSED, 1, 0, 0, 0, 0, 0, 0]), "{call:?}");
            assert_eq!(lent, before);
        }
    }
}

/// The answer has seven words at an opening and eight at the others; one of another length gives 1, and stays.
#[test]
fn answers_of_another_length() {
    let good = Columns::of(&table(&[(0, 88, 5)]));
    for call in CALLS {
        for length in [0, answer::ALL, answer::WITH_FEES, answer::WITH_FEES + 1] {
            let mut after = lent();
            let (number, answer) = after.answer(call, good.fees(), length);
            let fits = length == if call == Call::Open { answer::ALL } else { answer::WITH_FEES };
            assert_eq!(number, if fits { 0 } else { 1 }, "{call:?} {length}");
            assert!(fits || (answer == vec![9; length] && after == lent()), "{call:?} {length}");
        }
    }
}

/// halt, from a halted machine: a bad table refuses it all the same; a good one does not, and 10 comes behind.
#[test]
fn a_halted_machine_and_a_table() {
    let mut lent = lent();
    lent.registers[register::HALTED] = 1;
    lent.is_refused(Columns::of(&table(&[(1, 0, 0)])).fees(), 64, 0);
    lent.is_refused(Columns::of(&table(&[])).fees(), 65, 0);
    lent.is_refused(Columns::of(&table(&[(0, 88, 0), (2, 2, 0)])).fees(), 66, 2);
    let good = Columns::of(&table(&[(0, 88, 5)]));
    assert_eq!(lent.clone().call(Call::Step, good.fees()), (10, vec![ending::REFUSED, 10, 0, 0, 0, 0, 0, 0]));
    assert_eq!(lent.call(Call::Run, good.fees()), (0, vec![0; answer::WITH_FEES]));

    let mut job = open("digest 1 2 3 4 5; halt");
    assert_eq!(job.run_with_fees(9, &by_opcode()).1, 1000);
    assert_eq!(job.run_with_fees(9, &by_opcode()).1, 0);
    let bad = table(&[(0, 88, 0), (2, 2, 0)]);
    assert_eq!(job.run_with_fees(9, &bad).0.ending, Ending::Refused(Refusal::OpcodeWithTwoFees(2)));
    assert_eq!(job.step_with_fees(&bad), Err(Refusal::OpcodeWithTwoFees(2)));
    assert_eq!(job.step_with_fees(&by_opcode()), Err(Refusal::MachineHalted));
    assert_eq!(job.run(9).ending, Ending::Halted);
}

/// Each instruction, taken with whatever it needs, by a row of its own: the slices are handed over in their order, none exchanged.
#[test]
fn every_opcode_has_its_row() {
    for instruction in &ALL {
        let argument = if instruction.argument == Argument::None { 0 } else { 1 };
        let mut ready = lent();
        ready.slots = [vec![8, instruction.opcode, instruction.opcode, 8], vec![0, argument, argument, 0]];
        ready.inputs = [vec![1], vec![1], vec![1; 5]];
        (ready.op_stack, ready.registers[register::DEPTH]) = (vec![1; 32], 32);
        ready.op_stack.resize(64, 0);
        (ready.jumps, ready.registers[register::JUMPS]) = ([vec![1, 0], vec![1, 0]], 1);
        ready.cells = [vec![3, 0, 0], vec![4, 0, 0]];
        (ready.registers[register::POINTER], ready.registers[register::SPONGE_SET]) = (1, 1);
        let tables = [by_opcode(), table(&ALL.map(|other| (other.opcode, other.opcode, other.opcode as u32)))];
        for fees in tables {
            let columns = Columns::of(&fees);
            let row = fees.rows().position(|row| row.lowest == instruction.opcode).unwrap();
            let fee = fees.rows().nth(row).unwrap().fee;
            for call in &CALLS[1..] {
                let (number, answer) = ready.clone().call(*call, columns.fees());
                let expected = if *call == Call::Step { row as u64 } else { fee.into() };
                assert_eq!((number, answer[answer::STEPS], answer[answer::FEE]), (0, 1, expected), "{}", instruction.name);
            }
        }
    }
}

/// The row is that of the opcode, wherever its bounds are.
#[test]
fn bounds_belong_to_their_row() {
    let fees = table(&[(73, u64::MAX, 3), (0, 0, 1), (2, 72, 2), (1, 1, 4)]);
    assert_eq!(fees.check(), Ok(()));
    // addi 5; split; skiz; nop; read_io 1; halt
    let mut job = open("digest 1 2 3 4 5; public 7; addi 5; split; skiz; nop; read_io 1; halt");
    let mut rows = || job.step_with_fees(&fees).map(|(_, row)| row);
    // skiz drops 5 and goes on
    assert_eq!([rows(), rows(), rows(), rows(), rows(), rows()], [Ok(2), Ok(2), Ok(2), Ok(2), Ok(0), Ok(1)]);
    assert_eq!(job.step_with_fees(&fees), Err(Refusal::MachineHalted));
    // the records are those of a step without a table
    let (mut with, mut without) = (open("digest 1 2 3 4 5; push 3; halt"), open("digest 1 2 3 4 5; push 3; halt"));
    assert_eq!(with.step_with_fees(&fees).unwrap().0, without.step().unwrap());
}

/// A refused step has no fee and names row 0, also skiz, which drops its word, and one that place D refuses.
#[test]
fn refused_steps_cost_nothing() {
    // every instruction for 7, and row 0 for none
    let fees = table(&[(89, 90, 9), (0, 88, 7)]);
    let columns = Columns::of(&fees);
    let mut skiz = lent();
    (skiz.slots[0][0], skiz.op_stack, skiz.registers[register::DEPTH]) = (2, vec![0; 17], 17);
    for call in &CALLS[1..] {
        let mut after = skiz.clone();
        let (number, answer) = after.call(*call, columns.fees());
        assert_eq!((number, answer), (11, vec![ending::REFUSED, 11, 0, 0, 0, 0, 0, 0]), "{call:?}");
        assert_eq!((after.registers[register::DEPTH], after.registers[register::CLOCK]), (16, 0), "{call:?}");
    }
    // with a bad table it drops nothing
    skiz.is_refused(Columns::of(&table(&[(0, 87, 7)])).fees(), 65, 88);
    let mut push = lent();
    push.slots = [vec![1, 1], vec![3, 3]];
    assert_eq!(push.call(Call::Step, columns.fees()), (30, vec![ending::REFUSED, 30, 0, 0, 0, 0, 0, 0]));

    for (program, refusal, steps) in [
        ("push 2; assert", Refusal::AssertionFailed { expected: 1, actual: 2 }, 1),
        ("push 0; nop; skiz", Refusal::InstructionPointerOverflow, 2),
        ("nop; nop; pop 1", Refusal::OpStackTooShallow, 2),
        ("f: call f", Refusal::JumpStackFull, 1024),
    ] {
        let mut job = open(&format!("digest 1 2 3 4 5; {program}"));
        let (ran, fee) = job.run_with_fees(u64::MAX, &fees);
        assert_eq!((ran.ending, ran.steps, fee), (Ending::Refused(refusal), steps, 7 * steps), "{program}");
        assert_eq!(job.clock(), steps, "{program}");
    }
}

/// Halted, spent, log full, table full: the fee is that of the steps that succeeded.
#[test]
fn what_ends_a_run_does_not_matter() {
    let fees = table(&[(0, 0, 1), (1, 1, 20), (2, 3, 300), (4, 88, 4000)]);
    let opened = open("digest 1 2 3 4 5; push 1; pop 1; push 2; pop 1; push 3; pop 1; halt");
    let run = |budget| {
        let (ran, fee) = opened.clone().run_with_fees(budget, &fees);
        (ran.ending, ran.steps, fee)
    };
    assert_eq!(run(0), (Ending::Spent, 0, 0));
    assert_eq!(run(1), (Ending::Spent, 1, 20));
    assert_eq!(run(4), (Ending::Spent, 4, 640));
    assert_eq!(run(7), (Ending::Halted, 7, 961));
    assert_eq!(run(u64::MAX), (Ending::Halted, 7, 961));

    let (mut traced, mut with_rows) = (opened.clone(), opened.clone());
    let (mut log, mut words) = (vec![0; 1024 + 25], vec![0; 3 * Row::WORDS]);
    let (ran, fee) = traced.trace_execution_with_fees(9, &mut log, &fees);
    assert_eq!((ran.ending, ran.steps, ran.bytes, fee), (Ending::LogFull, 2, 50, 320));
    let (ran, fee, rows) = with_rows.trace_rows_with_fees(9, &mut vec![0; 2000], &mut words, &fees);
    assert_eq!((ran.ending, ran.steps, fee, rows.len()), (Ending::TableFull, 3, 340, 3));
    let (ran, fee, rows) = with_rows.trace_rows_with_fees(9, &mut [], &mut words, &fees);
    assert_eq!((ran.ending, ran.steps, fee, rows.len()), (Ending::LogFull, 0, 0, 0));
}

/// Every job, however its steps are cut into calls, and by whatever call they are taken: the sum over the rows' current instructions.
#[test]
fn the_fee_does_not_depend_on_the_cuts() {
    let fees = by_opcode();
    let fee_of = |opcode: u64| u64::from(fees.rows().nth(fees.row_of(opcode).unwrap()).unwrap().fee);
    let mut met = [0; 2];
    for name in names().into_iter().filter(|name| name != "broken") {
        let file = JobFile::read(&read(&name, "job")).unwrap();
        let Ok(opened) = Job::open_with_fees(&file.opening, Sizes::RUNJOB, &fees) else {
            assert_eq!(Job::open(&file.opening, Sizes::RUNJOB).err().map(|refusal| refusal.number() < 6), Some(true), "{name}");
            continue;
        };
        const MOST: u64 = 300;
        let mut words = vec![0; MOST as usize * Row::WORDS];
        let mut log = vec![0; 1 << 19];
        let (ran, expected, rows) = opened.clone().trace_rows_with_fees(MOST, &mut log, &mut words, &fees);
        assert_eq!(expected, rows.map(|row| fee_of(row.ci)).sum::<u64>(), "{name}");
        let (plain, all) = (opened.clone().run(MOST), opened.clone().run_with_fees(MOST, &fees));
        assert_eq!((plain.ending, plain.steps, all.1), (all.0.ending, all.0.steps, expected), "{name}");
        assert_eq!((ran.ending, ran.steps), (plain.ending, plain.steps), "{name}");
        assert_eq!(opened.clone().trace_execution_with_fees(MOST, &mut log, &fees).1, expected, "{name}");
        met[usize::from(ran.ending == Ending::Halted)] += 1;

        let mut stepped = opened.clone();
        let mut sum = 0;
        while stepped.clock() < ran.steps {
            let (_, row) = stepped.step_with_fees(&fees).unwrap();
            sum += u64::from(fees.rows().nth(row).unwrap().fee);
        }
        assert_eq!(sum, expected, "{name}");
        for piece in [1, 2, 7] {
            let (mut cut, mut sum, mut turn) = (opened.clone(), 0, 0);
            while cut.clock() < ran.steps {
                let budget = (piece + turn % 3).min(ran.steps - cut.clock());
                let (found, fee) = match turn % 3 {
                    0 => cut.run_with_fees(budget, &fees),
                    1 => cut.trace_execution_with_fees(budget, &mut log, &fees),
                    _ => {
                        let (found, fee, _) = cut.trace_rows_with_fees(budget, &mut log, &mut words, &fees);
                        (found, fee)
                    }
                };
                assert_eq!(found.steps, budget, "{name}");
                (sum, turn) = (sum + fee, turn + 1);
            }
            assert_eq!(sum, expected, "{name} in pieces of {piece}");
            assert_eq!((cut.op_stack(), cut.output()), (stepped.op_stack(), stepped.output()), "{name}");
        }
    }
    assert!(met[0] > 2 && met[1] > 2, "{met:?}");
}

/// The sum is of 64 bits.
#[test]
fn fees_of_more_than_32_bits() {
    let fees = table(&[(0, 88, u32::MAX)]);
    let opened = open("digest 1 2 3 4 5; call f; f: push 1; pop 1; recurse");
    let steps = 100_001;
    let (ran, fee) = opened.clone().run_with_fees(steps, &fees);
    assert_eq!((ran.ending, fee), (Ending::Spent, steps * u64::from(u32::MAX)));
    // in pieces, each of which checks the table again
    let mut pieces = 0;
    let (ran, fee) = trace_in_pieces_with_fees(&mut opened.clone(), steps, &fees, |_, _| {
        pieces += 1;
        Ok(())
    })
    .unwrap();
    assert_eq!((ran.ending, ran.steps, fee, pieces > 2), (Ending::Spent, steps, steps * u64::from(u32::MAX), true));
    let mut counted = 0;
    let (ran, fee) = rows_in_pieces_with_fees(&mut opened.clone(), steps, &fees, |_, rows, _| {
        counted += rows.len() as u64;
        Ok(())
    })
    .unwrap();
    assert_eq!((ran.steps, fee, counted), (steps, steps * u64::from(u32::MAX), steps));
    let (ran, fee) = trace_in_pieces_with_fees(&mut opened.clone(), steps, &table(&[(0, 4, 9)]), |_, _| Ok(())).unwrap();
    assert_eq!((ran.ending, ran.steps, fee), (Ending::Refused(Refusal::OpcodeWithoutFee(6)), 0, 0));
}

/// An opening looks at the table last of all and keeps nothing of it: the job is the one that is opened without.
#[test]
fn an_opening_keeps_nothing_of_the_table() {
    let file = JobFile::read(&read("memory", "job")).unwrap();
    let (sizes, opening) = (Sizes::RUNJOB, &file.opening);
    let mut job = Job::open_with_fees(opening, sizes, &by_opcode()).unwrap();
    let mut plain = Job::open(opening, sizes).unwrap();
    let other = table(&[(0, 88, 3)]);
    let (ran, fee) = job.run_with_fees(u64::MAX, &other);
    assert_eq!((ran, fee), (plain.run(u64::MAX), 3 * ran.steps));

    let refused = |opening: &Opening, fees: &FeeTable| Job::open_with_fees(opening, sizes, fees).map(|_| ()).unwrap_err();
    assert_eq!(refused(opening, &table(&[(0, 88, 1), (7, 6, 1)])), Refusal::BadFeeTable);
    assert_eq!(refused(opening, &FeeTable::default()), Refusal::OpcodeWithoutFee(0));
    assert_eq!(refused(opening, &table(&[(0, 88, 1), (41, 41, 1)])), Refusal::OpcodeWithTwoFees(41));
    let unsorted = Opening { ram: vec![(4, 1), (3, 1)], ..opening.clone() };
    assert_eq!(refused(&unsorted, &FeeTable::default()), Refusal::BadState);
    assert_eq!(refused(&unsorted, &by_opcode()), Refusal::BadState);
    // what is lent to an opening that is refused stays, the registers too
    let mut any = lent();
    any.registers[..9].copy_from_slice(&[1 << 40, 8, 7, 6, 1, 5, 4, 3, 2]);
    (any.op_stack, any.jumps) = (vec![u64::MAX; 20], [vec![7; 3], vec![8; 3]]);
    let before = any.clone();
    assert_eq!(any.call(Call::Open, Columns::of(&table(&[(0, 87, 0)])).fees()).0, 65);
    assert_eq!(any, before);
    assert_eq!(any.call(Call::Open, Columns::of(&table(&[(0, 88, 0)])).fees()), (0, vec![0; answer::ALL]));
    assert_eq!((any.registers[register::DEPTH], &any.op_stack[..6]), (16, &[5, 4, 3, 2, 1, 0][..]));
}

#[test]
fn faults_in_words() {
    let fault = |rows: &[(u64, u64, u32)]| table(rows).check().unwrap_err();
    for (rows, number, found, text) in [
        (
            &[(0, 88, 1), (7, 6, 1), (9, 8, 1)][..],
            64,
            FeeFault::Turned { row: 1, lowest: 7, highest: 6 },
            "a row's lowest opcode must not be above its highest, found 7 above 6 in row 1, counted from 0",
        ),
        (&[(0, 88, 1); 70], 64, FeeFault::TooManyRows(70), "a fee table has at most 64 rows, found 70"),
        (&[], 65, FeeFault::InNone(0), "every opcode must lie in a row, found 0 (halt) in none"),
        (&[(0, 17, 1), (19, 88, 1)], 65, FeeFault::InNone(18), "every opcode must lie in a row, found 18 (hash) in none"),
        (
            &[(19, 88, 1), (0, 18, 1), (90, 91, 1), (42, 43, 1), (42, 42, 1)],
            66,
            FeeFault::InTwo { opcode: 42, rows: [0, 3] },
            "an opcode must lie in one row, found 42 (add) in rows 0 and 3, counted from 0",
        ),
    ] {
        assert_eq!((fault(rows), fault(rows).number(), fault(rows).to_string()), (found, number, text.to_string()));
    }
    let many = |count: usize| table(&[&[(0, 88, 1)][..], &vec![(90, 90, 1); count - 1]].concat());
    assert_eq!((many(1).check(), many(64).check(), many(65).check()), (Ok(()), Ok(()), Err(FeeFault::TooManyRows(65))));
}

/// `check` finds what the library refuses, and names the same opcode, over all tables of two rows whose bounds are near opcodes.
#[test]
fn check_is_what_the_library_refuses() {
    let bounds = [0, 1, 4, 5, 6, 7, 18, 19, 87, 88, 89, u64::MAX];
    let mut met = [0; 4];
    let mut lent = lent();
    lent.registers[register::HALTED] = 1;
    for first in bounds.iter().flat_map(|&lowest| bounds.map(|highest| (lowest, highest, 1))) {
        for second in bounds.iter().flat_map(|&lowest| bounds.map(|highest| (lowest, highest, 2))) {
            let rows = table(&[first, second]);
            let (number, answer) = lent.call(Call::Run, Columns::of(&rows).fees());
            let expected = match rows.check() {
                Ok(()) => (0, 0),
                Err(fault @ (FeeFault::InNone(opcode) | FeeFault::InTwo { opcode, .. })) => (fault.number(), opcode),
                Err(fault) => (fault.number(), 0),
            };
            assert_eq!((number, answer[answer::WORDS]), expected, "{first:?} {second:?}");
            met[[0, 64, 65, 66].iter().position(|known| *known == number).unwrap()] += 1;
        }
    }
    assert!(met.iter().all(|count| *count > 20), "{met:?}");
}
