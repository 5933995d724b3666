//! Nanoseconds a record, on logs of 16 MiB, beside the plain Rust replay with a hash map (`compare/model/replay.rs`), which sorts
//! its cells at the end, in the same run; a ratio below 1 says that it is faster than that. The best turn of each counts. Measured
//! are the library, an earlier one where BEFORE names its folder, and plain Rust that compares words with p byte by byte.
use crate::lent::Lent;
use crate::splice::breaking;
use host::field::P;
use host::model::replay::{replay as plain, replay_by_bytes, Replay};
use host::random::Random;
use kixombu::exports::{replay, replayed, LONGEST};
use kixombu::Record;
use std::io::Write;
use std::time::{Duration, Instant};

/// How many records of stack and RAM a log of 16 MiB holds.
const MOST: u64 = LONGEST as u64 / 25;
/// Calls are repeated for so long, or so often: as on a busy machine many are disturbed.
const LONG: Duration = Duration::from_secs(4);
const TURNS: usize = 60;
/// What is aimed at: the library's ratio, where a case has one, and its longest call.
const STACK: f64 = 1.3;
const RAM: f64 = 2.0;
const WORST: Duration = Duration::from_secs(10);

struct Case {
    name: String,
    log: Vec<u8>,
    records: u64,
    ram: Vec<(u64, u64)>,
    /// What is lent.
    cells: usize,
    words: usize,
    goal: Option<f64>,
}

/// What is measured, the library first. The last is what the others are compared with.
fn forms() -> Vec<(&'static str, Replay)> {
    let before = before::CALLS.map(|calls| ("before", calls.replay));
    let plain: [(&str, Replay); 2] = [("by bytes", replay_by_bytes), ("Rust", plain)];
    [("library", replay as Replay)].into_iter().chain(before).chain(plain).collect()
}

pub fn run() {
    let forms = forms();
    let (times, ratios): (String, String) = forms.iter().map(|(name, _)| (format!("{name:>9} ns"), format!("{name:>9}"))).unzip();
    // without the last, which is 1
    let ratios = &ratios[..9 * (forms.len() - 1)];
    println!("{:<66}{:>9}{times}   ratio:{ratios}     goal", "log", "records");
    let mut worst = (Duration::ZERO, String::new());
    for make in cases() {
        let case = make();
        print!("{:<66}{:>9}", case.name, case.records);
        std::io::stdout().flush().unwrap();
        let best = best(&case, &forms);
        let each = |time: &Duration| time.as_nanos() as f64 / case.records as f64;
        let rust = each(best.last().unwrap());
        best.iter().for_each(|time| print!("{:>12.1}", each(time)));
        print!("{:9}", "");
        best[1..].iter().zip(&best).for_each(|(_, time)| print!("{:>9.2}", each(time) / rust));
        let missed = |goal| if each(&best[0]) / rust > goal { ", missed" } else { "" };
        println!("{}", case.goal.map_or(String::new(), |goal| format!("{goal:>9.1}{}", missed(goal))));
        worst = worst.max((best[0], case.name));
    }
    let (longest, name) = worst;
    let missed = if longest > WORST { ", missed" } else { "" };
    println!("the library's longest call took {:.3} s ({name}); goal {} s{missed}", longest.as_secs_f64(), WORST.as_secs());
}

/// The best time of each form, in turns of all.
fn best(case: &Case, forms: &[(&str, Replay)]) -> Vec<Duration> {
    let mut best = vec![Duration::MAX; forms.len()];
    let began = Instant::now();
    for _ in 0..TURNS {
        let turn: Vec<(Duration, Lent)> = forms.iter().map(|&(_, by)| time(case, by)).collect();
        for ((best, (time, left)), (name, _)) in best.iter_mut().zip(&turn).zip(forms) {
            assert!(*left == turn[0].1, "{name}: rebuilt something else than the library");
            *best = *time.min(best);
        }
        if began.elapsed() > LONG {
            break;
        }
    }
    best
}

/// One call, which must succeed: its time, without that of lending, and what it left.
fn time(case: &Case, by: Replay) -> (Duration, Lent) {
    let mut lent = Lent {
        answer: vec![0; replayed::ALL],
        revision: 1,
        clock: u64::MAX,
        cells: case.ram.len() as u64,
        addresses: vec![0; case.cells],
        values: vec![0; case.cells],
        words: vec![0; case.words],
    };
    for (i, &(address, value)) in case.ram.iter().enumerate() {
        lent.addresses[i] = address;
        lent.values[i] = value;
    }
    let began = Instant::now();
    let number = lent.replay(by, &case.log);
    let time = began.elapsed();
    assert_eq!(number, 0, "{}", case.name);
    (time, lent)
}

// ---- logs

/// The address of the n-th record, and whether it is written.
type Numbered = fn(u64) -> (u64, bool);

fn cases() -> Vec<Box<dyn Fn() -> Case>> {
    let mut cases: Vec<Box<dyn Fn() -> Case>> = vec![
        Box::new(|| stack("", 1, |word| word)),
        Box::new(|| stack(", ten for a clock", 10, |word| word)),
        // here each byte has to be compared
        Box::new(|| stack(", all of them p - 1", 1, |_| P - 1)),
        Box::new(hashing),
    ];
    for addresses in [16, 1_000, 4_000, 100_000] {
        cases.push(Box::new(move || memory(addresses)));
    }
    for cells in [4_000, 100_000] {
        cases.push(Box::new(move || opening(cells, 0)));
        cases.push(Box::new(move || opening(cells, 1_000)));
    }
    let half = MOST / 2;
    let writes: [(&str, u64, Numbered); 6] = [
        ("distinct writes, ascending", MOST, |i| (i, true)),
        ("distinct writes, descending", MOST, |i| (MOST - i, true)),
        ("distinct writes, scattered", MOST, |i| (scattered(i), true)),
        ("distinct writes, then rewrites of the last ones", half, |i| {
            (if i < MOST / 2 { i } else { MOST / 2 - 1 - i % 16 }, true)
        }),
        ("distinct writes, then reads of absent addresses", half, |i| (i, i < MOST / 2)),
        ("reads of absent addresses, nothing written", 0, |i| (i, false)),
    ];
    for (name, cells, record) in writes {
        cases.push(Box::new(move || records(name, cells as usize, record)));
    }
    cases.push(Box::new(|| behind(64_000)));
    cases.push(Box::new(|| among(1_000_000)));
    cases
}

/// A word for each number, no two alike: a multiplication that is odd, without the highest bit.
fn scattered(i: u64) -> u64 {
    i.wrapping_mul(0x9e37_79b9_7f4a_7c15) & (u64::MAX >> 1)
}

fn case(name: String, all: impl Iterator<Item = Record>, ram: Vec<(u64, u64)>, cells: usize, words: usize) -> Case {
    let (mut log, mut records) = (Vec::with_capacity(LONGEST), 0);
    for record in all {
        let before = log.len();
        record.put(&mut log);
        if log.len() > LONGEST {
            log.truncate(before);
            break;
        }
        records += 1;
    }
    assert!(breaking(&log).is_none(), "{name}: a clock has more than a step records");
    Case { name, log, records, ram, cells, words, goal: None }
}

/// RAM records by number: address, and whether it is written; reads find 0.
fn records(name: &str, cells: usize, record: Numbered) -> Case {
    let all = (0..MOST).map(|clock| {
        let (address, write) = record(clock);
        Record::Ram { clock: clock as u32, address, value: if write { clock } else { 0 }, write }
    });
    case(name.to_string(), all, vec![], cells, 0)
}

/// Distinct writes anywhere between so many cells of the opening.
fn among(cells: u64) -> Case {
    let all = (0..MOST).map(|clock| Record::Ram { clock: clock as u32, address: scattered(clock), value: clock, write: true });
    let ram = ordered((MOST..MOST + cells).map(|i| (scattered(i), 1)));
    case(format!("distinct writes among {cells} cells of the opening"), all, ram, (MOST + cells) as usize, 0)
}

/// Distinct writes, none to one of so many cells of the opening.
fn behind(cells: u64) -> Case {
    let all = (0..MOST).map(|clock| Record::Ram { clock: clock as u32, address: clock, value: clock, write: true });
    let ram = (MOST..MOST + cells).map(|address| (address, 1)).collect();
    case(format!("distinct writes behind {cells} cells of the opening"), all, ram, (MOST + cells) as usize, 0)
}

/// Waves of a thousand writes and a thousand reads, so many records for a clock.
fn stack(what: &str, for_a_clock: u64, value: fn(u64) -> u64) -> Case {
    let all = (0..MOST).map(|record| {
        let (wave, i) = (record / 2000, record % 2000);
        let (place, write) = if i < 1000 { (i, true) } else { (1999 - i, false) };
        let value = value(wave * 1000 + place);
        Record::Stack { clock: (record / for_a_clock) as u32, pointer: place + 16, write, value }
    });
    Case { goal: Some(STACK), ..case(format!("stack, waves of 1,000 words{what}"), all, vec![], 0, 1000) }
}

/// Ten words pushed, hashed and five taken off again.
fn hashing() -> Case {
    let states = Box::new(std::array::from_fn(|i| [i as u64; 16]));
    let all = (0..).flat_map(move |round: u32| {
        let record = move |i: u32, pointer: u32, write: bool| {
            let pointer = pointer.into();
            Record::Stack { clock: 16 * round + i, pointer, write, value: pointer }
        };
        let pushed = (0..10).map(move |i| record(i, 16 + i, true));
        let hashed = [Record::Tip5 { clock: None, opcode: 18, states: states.clone() }].into_iter();
        let taken = (0..10).map(move |i| record(10 + i / 2, 25 - i, false));
        pushed.chain(hashed).chain(taken)
    });
    case("hashing, a Tip5 record and 20 of the stack in turn".to_string(), all, vec![], 0, 10)
}

/// Writes and reads in turn at random ones of so many addresses.
fn memory(addresses: u64) -> Case {
    let mut random = Random::new(7);
    let mut held = vec![0; addresses as usize];
    let all = (0..MOST).map(move |clock| {
        let place = random.index(held.len());
        if clock % 2 == 0 {
            held[place] = clock;
        }
        Record::Ram { clock: clock as u32, address: scattered(place as u64), value: held[place], write: clock % 2 == 0 }
    });
    let made = case(format!("RAM, {addresses} addresses, writes and reads in turn"), all, vec![], addresses as usize, 0);
    Case { goal: (addresses <= 4_000).then_some(RAM), ..made }
}

/// Reads of so many cells of the opening, at random, behind so many writes to other addresses.
fn opening(cells: u64, writes: u64) -> Case {
    let mut random = Random::new(8);
    let ram = ordered((0..cells).map(|i| (scattered(i), i)));
    let all = (0..MOST).map(|clock| {
        let is_write = clock < writes;
        let (address, value) = if is_write { (scattered(cells + clock), clock) } else { ram[random.index(ram.len())] };
        Record::Ram { clock: clock as u32, address, value, write: is_write }
    });
    let built: Vec<Record> = all.collect();
    let name = match writes {
        0 => format!("RAM, reads of {cells} cells of the opening"),
        _ => format!("RAM, reads of {cells} cells of the opening behind {writes} writes"),
    };
    Case { goal: Some(RAM), ..case(name, built.into_iter(), ram, (cells + writes) as usize, 0) }
}

fn ordered(cells: impl Iterator<Item = (u64, u64)>) -> Vec<(u64, u64)> {
    let mut cells: Vec<(u64, u64)> = cells.collect();
    cells.sort_unstable();
    cells
}
