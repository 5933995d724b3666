//! Inputs: any numbers in slices of any length, machines that place A accepts, and such machines damaged in one place.
use host::cells::disorder;
use host::check::least;
use host::fees::{self, Table};
use host::field::P;
use host::instructions::{named, ALL};
use host::job::{Before, Job, Room};
use host::lent::{answer, column, register, step_bytes, Machine, STEP_BYTES};
use host::programs::{program, remembering, wild};
use host::random::Random;
use host::states::{single, OF_RAM};

#[derive(Clone, Copy, Debug, PartialEq, Eq)]
pub enum Export {
    Open,
    Step,
    Run,
    Trace,
    Rows,
    Helpers,
    Row,
    OpenWithFees,
    StepWithFees,
    RunWithFees,
    TraceWithFees,
    RowsWithFees,
}

pub const EXPORTS: [Export; 12] = [
    Export::Open,
    Export::Step,
    Export::Run,
    Export::Trace,
    Export::Rows,
    Export::Helpers,
    Export::Row,
    Export::OpenWithFees,
    Export::StepWithFees,
    Export::RunWithFees,
    Export::TraceWithFees,
    Export::RowsWithFees,
];

impl Export {
    pub fn name(self) -> &'static str {
        match self {
            Export::Open => "triton_open",
            Export::Step => "triton_step",
            Export::Run => "triton_run",
            Export::Trace => "triton_trace_execution",
            Export::Rows => "triton_trace_rows",
            Export::Helpers => "triton_helper_variables",
            Export::Row => "triton_processor_row",
            Export::OpenWithFees => "triton_open_with_fees",
            Export::StepWithFees => "triton_step_with_fees",
            Export::RunWithFees => "triton_run_with_fees",
            Export::TraceWithFees => "triton_trace_execution_with_fees",
            Export::RowsWithFees => "triton_trace_rows_with_fees",
        }
    }

    /// The one that takes the same but for the fee table, and whether it takes one.
    fn without_fees(self) -> (Export, bool) {
        match self {
            Export::OpenWithFees => (Export::Open, true),
            Export::StepWithFees => (Export::Step, true),
            Export::RunWithFees => (Export::Run, true),
            Export::TraceWithFees => (Export::Trace, true),
            Export::RowsWithFees => (Export::Rows, true),
            other => (other, false),
        }
    }

    /// Whether it takes steps up to a budget.
    pub fn has_budget(self) -> bool {
        matches!(self.without_fees().0, Export::Run | Export::Trace | Export::Rows)
    }

    /// How long the answer has to be; the helper variables and the row have its place.
    fn answer_length(self) -> usize {
        match self.without_fees() {
            (Export::Helpers, _) => 6,
            (Export::Row, _) => column::ALL,
            (Export::Open, _) | (_, false) => answer::ALL,
            (_, true) => answer::WITH_FEES,
        }
    }
}

#[derive(Clone, Debug)]
pub struct Input {
    pub machine: Machine,
    /// The answer, or the helper variables, or the row.
    pub answer: Vec<u64>,
    /// Of the log, for open.
    pub revision: u64,
    pub digest: Vec<u64>,
    pub bytes: Vec<u8>,
    /// For rows.
    pub table: Vec<u64>,
    /// For the calls with fees.
    pub fees: Table,
    pub cells: u64,
    pub budget: u64,
}

/// Inputs made from one another: a few of any numbers, or one that fits and others damaged.
pub fn inputs(export: Export, random: &mut Random) -> Vec<Input> {
    if random.once_in(6) {
        return (0..8).map(|_| arbitrary(export, random)).collect();
    }
    let sound = sound(export, random);
    let mut inputs = vec![sound.clone()];
    for _ in 0..9 {
        let mut input = sound.clone();
        damage(export, &mut input, random);
        if random.once_in(5) {
            damage(export, &mut input, random);
        }
        inputs.push(input);
    }
    inputs
}

/// Any numbers; most of the lengths are ones that fit.
fn arbitrary(export: Export, random: &mut Random) -> Input {
    let shaped = random.once_in(2);
    let mut lengths = [0; 12].map(|_: usize| random.index(40));
    if shaped {
        lengths[0] = register::ALL;
        lengths[2] = lengths[1];
        lengths[5] -= lengths[5] % 5;
        lengths[6] += 16;
        lengths[8] = lengths[7];
        lengths[10] = lengths[9];
    }
    let mut machine = Machine::default();
    let small = random.once_in(2);
    for (slice, length) in machine.slices_mut().into_iter().zip(lengths) {
        *slice = (0..length).map(|_| number(random, small)).collect();
    }
    let mut length = |fitting: usize| if shaped || random.once_in(2) { fitting } else { random.index(2 * fitting) };
    let lengths = [length(export.answer_length()), length(5), length(STEP_BYTES), length(column::ALL)];
    Input {
        machine,
        answer: (0..lengths[0]).map(|_| random.next()).collect(),
        revision: any_revision(random),
        digest: (0..lengths[1]).map(|_| number(random, small)).collect(),
        bytes: vec![random.next() as u8; lengths[2]],
        table: vec![random.next(); lengths[3]],
        fees: any_fees(export, random),
        cells: random.below(40),
        budget: random.below(20),
    }
}

fn number(random: &mut Random, small: bool) -> u64 {
    match random.below(8) {
        0 if !small => random.next(),
        1 => random.word(),
        2 => random.below(100),
        _ => random.below(2),
    }
}

/// What place A accepts.
fn sound(export: Export, random: &mut Random) -> Input {
    let job = match random.below(12) {
        0 if export.has_budget() => {
            if random.once_in(2) {
                program(random)
            } else {
                remembering(random)
            }
        }
        0..3 => wild(random),
        3..6 => {
            let name = random.pick(&OF_RAM);
            single(random, named(name))
        }
        _ => {
            let instruction = random.pick(&ALL);
            single(random, &instruction)
        }
    };
    let budget = if random.once_in(8) { random.below(300) } else { random.below(8) };
    let steps = if export.has_budget() { budget as usize } else { 1 };
    let room = room(&job, steps, random);
    let machine = match job.start {
        None => opened(&job, room, random),
        Some(_) => {
            let before = Before::random(random);
            let revision = random.between(1, 2);
            job.started(room, &before, revision, random)
        }
    };
    let (shape, has_fees) = export.without_fees();
    let bytes = match shape {
        Export::Step => step_bytes(machine.registers[register::REVISION]) + random.index(2),
        Export::Trace | Export::Rows => {
            let most = random.pick(&[2_000, 4_000, 20_000]);
            random.index(most)
        }
        _ => 0,
    };
    let words = match shape {
        Export::Rows => {
            let most = random.pick(&[2, 8, 100]);
            random.index(most * column::ALL)
        }
        _ => 0,
    };
    Input {
        machine,
        answer: (0..export.answer_length()).map(|_| random.next()).collect(),
        revision: random.between(1, 2),
        digest: random.words(5),
        bytes: vec![random.next() as u8; bytes],
        table: vec![random.next(); words],
        fees: if has_fees { fees::good(random) } else { Table::default() },
        cells: random.below(job.ram.len() as u64 + 1),
        budget,
    }
}

/// Room for most of what comes.
fn room(job: &Job, steps: usize, random: &mut Random) -> Room {
    let least = least(job);
    let mut more = |most: usize| random.index(most + 1);
    Room {
        stack: least.stack + more(10 * steps.min(20)),
        jumps: least.jumps + more(2),
        cells: least.cells + more(steps.clamp(6, 40)),
        output: least.output + more(6),
    }
}

fn opened(job: &Job, room: Room, random: &mut Random) -> Machine {
    let mut machine = job.unopened(room, random);
    let revision = random.between(1, 2);
    let answer = machine.open(&host::model::MODEL, revision, &job.digest, job.ram.len() as u64);
    assert_eq!(answer[answer::NUMBER], 0);
    machine
}

/// 0 to 3, or any number.
fn any_revision(random: &mut Random) -> u64 {
    match random.below(6) {
        0 => random.next(),
        1 => random.pick(&[u64::MAX, 1 << 32, P]),
        _ => random.below(4),
    }
}

/// A table of any kind, or slices of any numbers.
fn any_fees(export: Export, random: &mut Random) -> Table {
    if !export.without_fees().1 {
        return Table::default();
    }
    if random.once_in(2) {
        return fees::any(random);
    }
    let small = random.once_in(2);
    let length = random.index(70);
    let mut slice = || -> Vec<u64> {
        let length = if random.once_in(12) { random.index(70) } else { length };
        (0..length).map(|_| number(random, small)).collect()
    };
    let (lowest, highest) = (slice(), slice());
    Table { lowest, highest, fees: slice().iter().map(|word| word % (1 << 32)).collect() }
}

/// One place changed, or the fee table.
fn damage(export: Export, input: &mut Input, random: &mut Random) {
    if export.without_fees().1 && random.once_in(3) {
        input.fees = any_fees(export, random);
        return;
    }
    let registers = &mut input.machine.registers;
    match random.below(23) {
        22 => resize(&mut input.table, random),
        20 => input.revision = any_revision(random),
        21 => registers.get_mut(register::REVISION).into_iter().for_each(|word| *word = any_revision(random)),
        0 => resize(&mut input.answer, random),
        1 => resize(&mut input.digest, random),
        2 => input.bytes.truncate(random.index(input.bytes.len() + 1)),
        3 => input.cells = count(random),
        4 | 5 => {
            let place = random.index(11);
            registers.get_mut(place).into_iter().for_each(|word| *word = count(random));
        }
        6 | 7 => {
            let place = random.index(11);
            registers.get_mut(place).into_iter().for_each(|word| *word = word.wrapping_add(random.pick(&[1, u64::MAX])));
        }
        8 => pick_mut(registers, random).into_iter().for_each(|word| *word = random.too_large()),
        9 | 10 => {
            let picked = random.index(12);
            resize(input.machine.slices_mut()[picked], random);
        }
        // both of a pair
        11 => {
            let pair = random.pick(&[1, 7, 9]);
            let length = random.index(20);
            let slices = input.machine.slices_mut();
            slices[pair].resize(length, 0);
            slices[pair + 1].resize(length, 0);
        }
        12 => {
            let count = if random.once_in(4) { input.cells } else { registers.get(register::CELLS).copied().unwrap_or(0) };
            let addresses = &mut input.machine.addresses;
            let used = addresses.len().min(count as usize);
            disorder(random, &mut addresses[..used]);
        }
        13 => {
            if let Some(opcode) = pick_mut(&mut input.machine.opcodes, random) {
                *opcode = random.pick(&[5, 89, 255, 1 << 32, u64::MAX, ALL[20].opcode, ALL[1].opcode]);
            }
        }
        14 => {
            if let Some(argument) = pick_mut(&mut input.machine.arguments, random) {
                *argument = random.pick(&[0, 1, 5, 6, 15, 16, P - 1, P]);
            }
        }
        _ => {
            let picked = 1 + random.index(11);
            let small = random.once_in(2);
            if let Some(word) = pick_mut(input.machine.slices_mut()[picked], random) {
                *word = if small { random.word() } else { random.too_large() };
            }
        }
    }
}

fn pick_mut<'a>(slice: &'a mut [u64], random: &mut Random) -> Option<&'a mut u64> {
    let length = slice.len();
    (length > 0).then(|| &mut slice[random.index(length)])
}

fn count(random: &mut Random) -> u64 {
    match random.below(4) {
        0 => random.below(3),
        1 => random.below(100),
        2 => random.pick(&[1 << 32, (1 << 32) - 1, P, P - 1, u64::MAX, 1 << 24, 1 << 63]),
        _ => random.next(),
    }
}

fn resize(slice: &mut Vec<u64>, random: &mut Random) {
    let length = match random.below(4) {
        0 => slice.len() + 1,
        1 => slice.len().saturating_sub(1),
        2 => 0,
        _ => random.index(64),
    };
    slice.resize(length, 0);
}
