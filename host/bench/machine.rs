//! The library's calls beside the original Rust (`oracle bench`, `oracle bench-rows`) on the same jobs, in one run: nanoseconds a step
//! and ratios (below 1: the library is faster); and beside those of an earlier library, where BEFORE names its folder. The best turn of
//! each counts. Opening and copying the state are not in the time. Running with a fee table, which the Rust has not, is measured beside
//! running without.
use host::fees::{good_of, Table};
use host::field::P;
use host::instructions::named;
use host::job::{Before, Job, Room, Start};
use host::lent::{answer, column, ending, Calls, Machine, LIBRARY, LONGEST, STEP_BYTES};
use host::oracle::Oracle;
use host::random::Random;
use kixombu::exports::{step_registers, Registers};
use std::hint::black_box;
use std::time::{Duration, Instant};

/// Short turns, and many, as on a busy machine a long one is never undisturbed. Of jobs with many cells a turn is long.
const TURNS: usize = 40;
const LONG_TURNS: usize = 8;
const TURN: Duration = Duration::from_millis(2);
/// As the oracle does, and fewer of states that are large.
const STATES_FOR_HELPERS: usize = 256;
const LARGE_STATES: usize = 16;
/// From so many cells on.
const MANY_CELLS: usize = 50_000;

/// What is aimed at: the ratio of trace_rows, on plain jobs and on memory jobs of up to 4,000 cells.
const PLAIN_ROWS: f64 = 0.4;
const MEMORY_ROWS: f64 = 0.7;

/// What is aimed at: run with a fee table to run without.
const WITH_FEES: f64 = 1.05;
/// The rows of the tables.
const FEE_ROWS: [usize; 2] = [8, 64];
/// What is compared is close together: shorter turns, and so many of them in each.
const FEE_TURNS: usize = 10;

struct Case {
    name: &'static str,
    job: Job,
    room: Room,
    rows_goal: Option<f64>,
}

impl Case {
    fn rows_within(self, goal: f64) -> Case {
        Case { rows_goal: Some(goal), ..self }
    }
}

fn main() {
    let oracle = Oracle::new("bench");
    print!("{:<38}{:<24}{:>12}{:>10}{:>10}", "job", "call", "library ns", "Rust ns", "ratio");
    println!("{}", if before().is_some() { format!("{:>12}{:>10}", "before ns", "ratio") } else { String::new() });
    let cases = cases();
    for case in &cases {
        report(case, &oracle);
    }
    checks(&cases[0]);
}

/// What a call spends on the table itself: runs with budget 0.
fn checks(case: &Case) {
    let start = case.job.started(case.room, &Before::default(), 1, &mut Random::new(1));
    let tables = FEE_ROWS.map(|rows| good_of(&mut Random::new(1), rows));
    let mut best = [f64::MAX; 1 + FEE_ROWS.len()];
    for _ in 0..TURNS * FEE_TURNS {
        best.iter_mut().zip(by_fees(&start, &tables, 0)).for_each(|(best, turn)| *best = best.min(turn));
    }
    for (rows, ours) in FEE_ROWS.into_iter().zip(&best[1..]) {
        println!(
            "a fee table of {rows} rows takes {:.0} ns a call: run with budget 0 takes {ours:.0}, and {:.0} without",
            ours - best[0],
            best[0]
        );
    }
}

/// An earlier library, which opens nothing here.
fn before() -> Option<Calls> {
    let before::Calls { step, run, trace_execution, helper_variables, .. } = before::CALLS?;
    Some(Calls { step, run, trace_execution, helper_variables, ..LIBRARY })
}

/// The calls in turns with the oracle's, so that a slow moment meets both.
fn report(case: &Case, oracle: &Oracle) {
    let start = case.job.started(case.room, &Before::default(), 1, &mut Random::new(1));
    let mut machine = start.clone();
    let ran = machine.run(&LIBRARY, u64::MAX);
    assert_eq!(ran[answer::ENDING], ending::DONE, "{}: {ran:?}", case.name);
    let steps = ran[answer::STEPS];
    let has_many = case.room.cells >= MANY_CELLS;
    let mut states = first_states(&start, if has_many { LARGE_STATES } else { STATES_FOR_HELPERS });
    // one table for all turns: its memory is new in the first alone
    let mut table = vec![0; ((steps as usize + 1) * column::ALL).min(LONGEST)];
    let tables = FEE_ROWS.map(|rows| good_of(&mut Random::new(1), rows));
    let mut best = [f64::MAX; 6];
    let mut earlier = [f64::MAX; 6];
    let mut theirs = [f64::MAX; 4];
    let mut priced = [f64::MAX; 1 + FEE_ROWS.len()];
    for _ in 0..if has_many { LONG_TURNS } else { TURNS } {
        for (best, by) in [(&mut best, Some(LIBRARY)), (&mut earlier, before())] {
            let Some(by) = by else { continue };
            let turns = [by_run(&start, &by), by_trace(&start, &by, steps), by_step(&start, &by), by_helpers(&mut states, &by)];
            best.iter_mut().zip(turns).for_each(|(best, turn)| *best = best.min(turn));
        }
        best[4] = best[4].min(by_record(&start));
        best[5] = best[5].min(by_rows(&start, steps, &mut table));
        for _ in 0..if has_many { 1 } else { FEE_TURNS } {
            priced.iter_mut().zip(by_fees(&start, &tables, u64::MAX)).for_each(|(best, turn)| *best = best.min(turn));
        }
        for (name, time) in oracle.bench(&case.job, steps) {
            let place = ["run", "step", "helpers", "rows"].iter().position(|known| *known == name).unwrap();
            theirs[place] = theirs[place].min(time);
        }
    }
    // running with records is the Rust's loop over step, and with rows over its row, which has the helper variables, and step
    let rows = [
        ("run", 0, theirs[0], None),
        ("trace_execution", 1, theirs[1], None),
        ("trace_rows", 5, theirs[3], case.rows_goal),
        ("step", 2, theirs[1], None),
        ("step_registers", 4, theirs[1], None),
        ("helper_variables", 3, theirs[2], None),
    ];
    for (call, place, theirs, goal) in rows {
        let (ours, earlier) = (best[place], earlier[place]);
        let ratio = ours / theirs;
        print!("{:<38}{call:<24}{ours:>12.1}{theirs:>10.1}{ratio:>10.2}", case.name);
        // not measured: no earlier library, or over its register record, which is another, or with rows, which it may not have
        print!("{}", if earlier < f64::MAX { format!("{earlier:>12.1}{:>10.2}", ours / earlier) } else { String::new() });
        println!("{}", goal.map_or(String::new(), |goal| aimed(ratio, goal)));
    }
    let [run, with_fees @ ..] = priced;
    for (rows, ours) in FEE_ROWS.into_iter().zip(with_fees) {
        let call = format!("run, fees of {rows} rows");
        let ratio = ours / run;
        println!("{:<38}{call:<24}{ours:>12.1}{:>10}{ratio:>10.3} to run, {run:.1}{}", case.name, "", aimed(ratio, WITH_FEES));
    }
}

fn aimed(ratio: f64, goal: f64) -> String {
    format!("   goal {goal}{}", if ratio > goal { ", missed" } else { "" })
}

/// Nanoseconds a step of a job taken again and again: `once` takes a turn, and gives its time and steps.
fn per_step(mut once: impl FnMut() -> (Duration, u64)) -> f64 {
    let (mut time, mut steps) = (Duration::ZERO, 0);
    while time < TURN {
        let (more, taken) = once();
        time += more;
        steps += taken;
    }
    time.as_nanos() as f64 / steps as f64
}

fn by_run(start: &Machine, by: &Calls) -> f64 {
    per_step(|| {
        let mut machine = start.clone();
        let began = Instant::now();
        let ran = machine.run(by, u64::MAX);
        (began.elapsed(), ran[answer::STEPS])
    })
}

/// Running without a fee table and with each of these, one run of the job after the other, so that a slow moment meets all:
/// nanoseconds a step, or a call where the budget is 0.
fn by_fees(start: &Machine, tables: &[Table; FEE_ROWS.len()], budget: u64) -> [f64; 1 + FEE_ROWS.len()] {
    let fees = [None, Some(tables[0].slices()), Some(tables[1].slices())];
    let (mut times, mut steps) = ([Duration::ZERO; 1 + FEE_ROWS.len()], 0);
    while times[0] < TURN / FEE_TURNS as u32 {
        let mut taken = [0; 1 + FEE_ROWS.len()];
        for ((time, taken), fees) in times.iter_mut().zip(&mut taken).zip(fees) {
            let mut machine = start.clone();
            let began = Instant::now();
            let (ran, fee) = machine.run_priced(&LIBRARY, budget, fees);
            *time += began.elapsed();
            assert_eq!((ran[answer::NUMBER], fee.is_some()), (0, fees.is_some()));
            *taken = ran[answer::STEPS].max(1);
        }
        assert_eq!(taken, [taken[0]; 1 + FEE_ROWS.len()]);
        steps += taken[0];
    }
    times.map(|time| time.as_nanos() as f64 / steps as f64)
}

fn by_trace(start: &Machine, by: &Calls, steps: u64) -> f64 {
    let mut log = log_of(steps);
    per_step(|| {
        let mut machine = start.clone();
        let began = Instant::now();
        let ran = machine.trace_execution(by, u64::MAX, &mut log);
        (began.elapsed(), ran[answer::STEPS])
    })
}

/// The rows of the whole job in one table, or as many as it takes.
fn by_rows(start: &Machine, steps: u64, table: &mut [u64]) -> f64 {
    let mut log = log_of(steps);
    per_step(|| {
        let mut machine = start.clone();
        let began = Instant::now();
        let ran = machine.trace_rows(&LIBRARY, u64::MAX, &mut log, table);
        (began.elapsed(), ran[answer::STEPS])
    })
}

/// For so many steps, or as long as one may be.
fn log_of(steps: u64) -> Vec<u8> {
    vec![0; ((steps as usize + 1) * STEP_BYTES).min(LONGEST)]
}

fn by_step(start: &Machine, by: &Calls) -> f64 {
    let mut buffer = [0; STEP_BYTES];
    per_step(|| {
        let mut machine = start.clone();
        in_a_turn(|| {
            let answer = machine.step(by, &mut buffer);
            black_box(&buffer);
            answer[answer::NUMBER]
        })
    })
}

/// The same over the register record, which is made once.
fn by_record(start: &Machine) -> f64 {
    let mut buffer = [0; STEP_BYTES];
    per_step(|| {
        let mut machine = start.clone();
        let mut registers = Registers::from_words(&machine.registers).expect("registers that fit");
        in_a_turn(|| {
            let mut answer = [u64::MAX; answer::ALL];
            let (_, code, memory) = machine.parts();
            let number = step_registers(&mut registers, &mut answer, code, memory, &mut buffer);
            black_box(&buffer);
            number
        })
    })
}

/// Single steps up to the end or as long as a turn: `step` takes one, and gives the number.
fn in_a_turn(mut step: impl FnMut() -> u64) -> (Duration, u64) {
    let mut taken = 0;
    let began = Instant::now();
    while taken % 16 != 0 || began.elapsed() < TURN {
        if step() != 0 {
            break;
        }
        taken += 1;
    }
    (began.elapsed(), taken)
}

fn by_helpers(states: &mut [Machine], by: &Calls) -> f64 {
    per_step(|| {
        let began = Instant::now();
        states.iter_mut().for_each(|state| {
            black_box(state.helper_variables(by));
        });
        (began.elapsed(), states.len() as u64)
    })
}

fn first_states(start: &Machine, most: usize) -> Vec<Machine> {
    let mut machine = start.clone();
    let mut states = vec![];
    while states.len() < most {
        states.push(machine.clone());
        if machine.run(&LIBRARY, 1)[answer::ENDING] == ending::DONE {
            break;
        }
    }
    states
}

// ---- jobs

fn cases() -> Vec<Case> {
    let plain = || loop_of(&["push 5", "push 7", "add", "pop 1", "nop", "swap 3", "swap 3"], 1000);
    vec![
        case("plain instructions, small", plain(), 30, 16, 64, 0, 16).rows_within(PLAIN_ROWS),
        case("plain instructions, middle", plain(), 300, 300, 512, 128, 256).rows_within(PLAIN_ROWS),
        case("plain instructions, large", plain(), 1024, 2000, 4096, 1000, 4096).rows_within(PLAIN_ROWS),
        case("plain, program of 1,024 slots", plain(), 1024, 16, 64, 0, 16).rows_within(PLAIN_ROWS),
        case("plain, stack of 4,096 words", plain(), 30, 2000, 4096, 0, 16).rows_within(PLAIN_ROWS),
        case("plain, 1,000 cells of 4,096", plain(), 30, 16, 64, 1000, 4096).rows_within(PLAIN_ROWS),
        case(
            "u32 instructions",
            loop_of(&["push 9", "push 7", "and", "push 3", "div_mod", "lt", "pop 1"], 1000),
            30,
            16,
            64,
            0,
            16,
        ),
        case("hashing", hashing(), 30, 16, 64, 0, 16),
        case("memory, 16 cells", memory(16), 30, 16, 64, 16, 16).rows_within(MEMORY_ROWS),
        case("memory, 1,000 cells", memory(1000), 30, 16, 64, 1000, 1000).rows_within(MEMORY_ROWS),
        case("memory, 4,000 cells", memory(4000), 30, 16, 64, 4000, 4096).rows_within(MEMORY_ROWS),
        case("memory, 100,000 cells", memory(100_000), 30, 16, 64, 100_000, 100_000),
        front("writes in front of 1,000 cells", 1000, 100),
        front("writes in front of 4,000 cells", 4000, 400),
        front("writes in front of 100,000 cells", 100_000, 1000),
    ]
}

/// The program at so many slots, with so deep a stack in a slice of that length, and so many cells of those lent.
fn case(
    name: &'static str,
    program: Vec<(u64, u64)>,
    slots: usize,
    depth: usize,
    stack: usize,
    cells: usize,
    lent: usize,
) -> Case {
    let mut slots_all = program;
    while slots_all.len() < slots {
        slots_all.push((named("nop").opcode, 0));
    }
    let ram = (1..=cells as u64).map(|address| (address, address)).collect();
    let start = Start { stack: vec![0; depth], ..Start::default() };
    let job = Job { slots: slots_all, ram, budget: 10_000_000, start: Some(start), ..Job::default() };
    Case { name, job, room: Room { stack, jumps: 16, cells: lent, output: 16 }, rows_goal: None }
}

/// A body that leaves the stack as it was, so many times.
fn loop_of(body: &[&str], times: u64) -> Vec<(u64, u64)> {
    let mut slots = slots_of(&[&format!("push {times}"), "call 5", "halt"]);
    slots.extend(slots_of(body));
    slots.extend(slots_of(&["addi -1", "dup 0", "skiz", "recurse", "return"]));
    slots
}

/// Four of eight instructions permute.
fn hashing() -> Vec<(u64, u64)> {
    let mut slots = slots_of(&["sponge_init", "push 100", "push 0", "push 0", "push 0", "push 0", "push 0", "push 0"]);
    let start = slots.len() as u64 + 3;
    slots.extend(slots_of(&[&format!("call {start}"), "halt"]));
    slots.extend(slots_of(&["sponge_squeeze", "sponge_absorb", "sponge_squeeze", "sponge_absorb"]));
    slots.extend(slots_of(&["pick 5", "addi 1", "place 5", "recurse_or_return"]));
    slots
}

/// Five words read and written again, from the highest address downward.
fn memory(cells: u64) -> Vec<(u64, u64)> {
    loop_of(&["dup 0", "addi 4", "read_mem 5", "addi 1", "write_mem 5", "pop 1"], cells - 4)
}

/// So many new cells in front of those that are there: each turn writes to an address below all others.
fn front(name: &'static str, cells: usize, new: u64) -> Case {
    let program = loop_of(&["dup 0", "dup 0", "write_mem 1", "pop 1"], new);
    let mut case = case(name, program, 30, 16, 64, cells, cells + new as usize);
    case.job.ram.iter_mut().for_each(|cell| cell.0 += new);
    case
}

/// Slots of instructions as text.
fn slots_of(text: &[&str]) -> Vec<(u64, u64)> {
    let mut slots = vec![];
    for line in text {
        let (name, argument) = line.split_once(' ').unwrap_or((line, "0"));
        let argument = if argument == "-1" { P - 1 } else { argument.parse().unwrap() };
        let instruction = named(name);
        slots.extend(vec![(instruction.opcode, argument); instruction.size() as usize]);
    }
    slots
}
