//! sample write FILE: a fixed list of single steps with the oracle's answers, for programs that have no oracle at hand.
//! sample damaged FILE: a fixed list of damaged machines with the model's answers.
//! sample check FILE: the first list read back, and each entry taken by the model and the library.
use host::check::{least, limited, ordered, used};
use host::damaged::{list, Damaged};
use host::entries::{decode_all, encode_all, fits, most, Entry, Full};
use host::field::P;
use host::instructions::{Instruction, ALL};
use host::job::{Before, Job, Room};
use host::lent::{answer, register, Calls, Machine, LIBRARY, STEP_BYTES};
use host::model::MODEL;
use host::oracle::{End, Oracle, Refused, Report, State};
use host::random::Random;
use host::states::{broken, single};
use kixombu::bytes_of;
use std::collections::BTreeMap;
use std::process::exit;

const SEED: u64 = 20;
/// How many single steps are tried of each instruction, and how many jobs that do not open.
const TRIED: usize = 400;
const BROKEN: usize = 400;

fn main() {
    let words: Vec<String> = std::env::args().skip(1).collect();
    match words.iter().map(String::as_str).collect::<Vec<_>>()[..] {
        ["write", file] => write(file),
        ["damaged", file] => damaged(file),
        ["check", file] => check(file),
        _ => {
            eprintln!("sample write FILE\nsample damaged FILE\nsample check FILE");
            exit(2)
        }
    }
}

fn write(file: &str) {
    let mut random = Random::new(SEED);
    let mut jobs: Vec<Job> = vec![];
    for instruction in &ALL {
        jobs.extend((0..TRIED).map(|_| trimmed(single(&mut random, instruction), instruction, &mut random)));
    }
    jobs.extend((0..BROKEN).map(|_| broken(&mut random)).filter(|job| job.start.is_some()));
    let mut entries = vec![];
    let mut chosen = Chosen::default();
    Oracle::new("sample").run(0, &jobs, |place, report| {
        let job = &jobs[place];
        let name = ALL.get(place / TRIED).map_or("broken", |instruction| instruction.name);
        let report = ordered(job, report);
        let room = room(job, &report, &mut random);
        let report = limited(report, room);
        let entry = entry(job, &report, room, &mut random);
        if fits(&entry.before) && entry.encode().len() <= most::ENTRY && chosen.takes(name, &entry) {
            entries.push(entry);
        }
    });
    chosen.print();
    save(file, &entries.iter().map(Entry::encode).collect::<Vec<_>>());
}

fn save(file: &str, entries: &[Vec<u8>]) {
    let bytes = encode_all(entries);
    std::fs::write(file, &bytes).unwrap();
    println!("{} entries, {} bytes", entries.len(), bytes.len());
    println!("the longest entry has {} bytes", entries.iter().map(Vec::len).max().unwrap());
}

/// Damaged machines, each with what the model answers.
fn damaged(file: &str) {
    let entries: Vec<Full> = list().iter().map(full).collect();
    let mut by_number = BTreeMap::<u64, usize>::new();
    entries.iter().for_each(|full| *by_number.entry(full.entry.number).or_default() += 1);
    by_number.iter().for_each(|(number, count)| println!("number {number:<4}{count:>5}"));
    let entries: Vec<Vec<u8>> = entries.iter().map(Full::encode).collect();
    assert!(entries.iter().all(|entry| entry.len() <= most::ENTRY));
    save(file, &entries);
}

fn full(damaged: &Damaged) -> Full {
    let before = damaged.machine.clone();
    let mut after = before.clone();
    let (helper_number, helpers) = after.helper_variables(&MODEL);
    let mut calls = vec![0; damaged.room];
    let answer = after.step(&MODEL, &mut calls);
    calls.truncate(answer[answer::BYTES] as usize);
    let words = answer[answer::WORDS..answer::STEPS].try_into().unwrap();
    let entry = Entry { before, number: answer[answer::NUMBER], words, after, helpers, calls };
    Full { entry, room: damaged.room, helper_number }
}

/// Without what the instruction has nothing to do with, most times.
fn trimmed(mut job: Job, instruction: &Instruction, random: &mut Random) -> Job {
    let name = instruction.name;
    let start = job.start.as_mut().expect("a single step has a start");
    if !(name.contains("mem") || name.contains("dot")) {
        job.ram.truncate(if random.once_in(10) { 2 } else { 0 });
    }
    if !name.contains("sponge") && !random.once_in(20) {
        start.sponge = None;
    }
    if name != "read_io" && !random.once_in(10) {
        job.public.clear();
    }
    if name != "divine" && !random.once_in(10) {
        job.secret.clear();
    }
    if name != "merkle_step" && !random.once_in(20) {
        job.digests.clear();
    }
    job
}

/// One more than is used, or just that, or one less.
fn room(job: &Job, report: &Report, random: &mut Random) -> Room {
    let (most, least) = (used(job, report), least(job));
    let mut near = |most: usize, least: usize| (most + random.index(8) / 3).max(least + 1) - 1;
    Room {
        stack: near(most.stack, least.stack).max(16),
        jumps: near(most.jumps, least.jumps),
        cells: near(most.cells, least.cells),
        output: near(most.output, least.output),
    }
}

/// What the oracle says of the job's one step, in the library's shape.
fn entry(job: &Job, report: &Report, room: Room, random: &mut Random) -> Entry {
    let mut before = Before::random(random);
    if !random.once_in(4) {
        before = Before { sponge: before.sponge.map(|_| 0), ..Before::default() };
    }
    let mut start = job.started(room, &before, 1, random);
    let [cells, outputs] = [register::CELLS, register::OUTPUTS].map(|place| start.registers[place] as usize);
    start.addresses[cells..].fill(0);
    start.values[cells..].fill(0);
    start.output[outputs..].fill(0);

    let Some(step) = report.tried.first() else {
        let End::Refused(number) = report.end else {
            panic!("the oracle refused no opening");
        };
        return Entry { after: start.clone(), before: start, number, words: [0; 3], helpers: [0; 6], calls: vec![] };
    };
    let (Refused { number, words }, records) = match &step.result {
        Ok(records) => (Refused { number: 0, words: [0; 3] }, &records[..]),
        Err(refused) => (refused.clone(), &[][..]),
    };
    let after = after(&start, &step.state, &before);
    Entry { before: start, number, words, after, helpers: step.helpers, calls: bytes_of(records) }
}

/// The machine in the oracle's state.
fn after(start: &Machine, state: &State, before: &Before) -> Machine {
    let mut machine = start.clone();
    let r = &mut machine.registers;
    r[register::CLOCK] = state.clock;
    r[register::POINTER] = state.pointer;
    r[register::DEPTH] = state.stack.len() as u64;
    r[register::JUMPS] = state.jumps.len() as u64;
    r[register::CELLS] = state.ram.len() as u64;
    r[register::OUTPUTS] = (before.output.len() + state.output.len()) as u64;
    r[register::PUBLICS] = before.public.len() as u64 + state.taken[0];
    r[register::SECRETS] = before.secret.len() as u64 + state.taken[1];
    r[register::DIGESTS] = before.digests.len() as u64 + state.taken[2];
    r[register::HALTED] = state.halted.into();
    if !state.sponge.is_empty() {
        r[register::SPONGE_SET] = 1;
        r[register::SPONGE..].copy_from_slice(&state.sponge);
    }
    machine.op_stack.fill(0);
    machine.op_stack[..state.stack.len()].copy_from_slice(&state.stack);
    machine.origins.fill(0);
    machine.destinations.fill(0);
    for (i, &(origin, destination)) in state.jumps.iter().enumerate() {
        machine.origins[i] = origin;
        machine.destinations[i] = destination;
    }
    for (i, &(address, value)) in state.ram.iter().enumerate() {
        machine.addresses[i] = address;
        machine.values[i] = value;
    }
    let put = before.output.len();
    machine.output[put..put + state.output.len()].copy_from_slice(&state.output);
    machine
}

/// How many entries there are of each instruction and number, and of write_mem by where its cells go.
#[derive(Default)]
struct Chosen(BTreeMap<(&'static str, u64, &'static str), usize>);

impl Chosen {
    /// Whether a further entry of its kind is wanted.
    fn takes(&mut self, name: &'static str, entry: &Entry) -> bool {
        let number = entry.number;
        // a number of place B, and the clock's end, have nothing to do with the instruction, save 12 and skiz's 11
        let plain = matches!(number, 2..=5 | 10 | 34) || number == 11 && name != "skiz";
        let goes = if number == 0 && name == "write_mem" { written(entry) } else { "" };
        let (kind, most) = match number {
            0 if name == "broken" => (name, 0),
            0 => (name, if goes.is_empty() { 7 } else { 4 }),
            _ if plain => ("any", if number == 2 { 16 } else { 6 }),
            12 | 30 => (name, 1),
            19 => (name, 8),
            _ => (name, 3),
        };
        let count = self.0.entry((kind, number, goes)).or_default();
        *count += 1;
        if *count > most {
            *count = most;
            return false;
        }
        true
    }

    fn print(&self) {
        let mut by_number = BTreeMap::<u64, usize>::new();
        self.0.iter().for_each(|((_, number, _), count)| *by_number.entry(*number).or_default() += count);
        for (number, count) in by_number {
            println!("number {number:<4}{count:>5}");
        }
        let taken =
            |name| self.0.iter().filter(|((kind, number, _), _)| (*kind, *number) == (name, 0)).map(|(_, count)| count).sum();
        let least: usize = ALL.iter().map(|instruction| taken(instruction.name)).min().unwrap();
        println!("each instruction taken at least {least} times");
        let writes = self.0.iter().filter(|((_, _, goes), _)| !goes.is_empty());
        writes.for_each(|((_, _, goes), count)| println!("write_mem, {goes:<28}{count:>5}"));
    }
}

/// Where the cells of a write_mem go: the first of these that holds.
fn written(entry: &Entry) -> &'static str {
    let cells = |machine: &Machine| machine.addresses[..machine.registers[register::CELLS] as usize].to_vec();
    let (before, after) = (cells(&entry.before), cells(&entry.after));
    let wraps = |cells: &[u64]| cells.first() == Some(&0) && cells.last() == Some(&(P - 1));
    match (before.first(), before.last()) {
        _ if before.len() == after.len() => "all held",
        _ if wraps(&after) && !wraps(&before) => "0 and p - 1",
        (None, _) | (_, None) => "the first ones",
        (Some(first), _) if after[0] < *first => "in front",
        (_, Some(last)) if after.last().is_some_and(|new| new > last) => "behind",
        _ => "between",
    }
}

fn check(file: &str) {
    let Some(entries) = decode_all(&std::fs::read(file).unwrap()) else {
        println!("{file}: not a list of entries");
        exit(1)
    };
    for (i, entry) in entries.iter().enumerate() {
        for (name, by) in [("model", MODEL), ("library", LIBRARY)] {
            let found = taken(entry, &by);
            if found != *entry {
                println!("entry {i}, {name}:\nwanted {entry:?}\nfound  {found:?}");
                exit(1)
            }
        }
    }
    println!("{} entries, taken alike by model and library", entries.len());
}

/// The entry as a step by this side would have it.
fn taken(entry: &Entry, by: &Calls) -> Entry {
    let mut machine = entry.before.clone();
    let (_, helpers) = machine.helper_variables(by);
    let mut buffer = vec![0; STEP_BYTES];
    let answer = machine.step(by, &mut buffer);
    buffer.truncate(answer[answer::BYTES] as usize);
    let words = answer[answer::WORDS..answer::STEPS].try_into().unwrap();
    Entry { before: entry.before.clone(), number: answer[answer::NUMBER], words, after: machine, helpers, calls: buffer }
}
