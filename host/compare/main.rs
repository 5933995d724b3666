//! compare [SEED [STEPS [SINGLES]]]: random jobs and single steps on the oracle, the model and the library.
//! compare SEED piece N: the N-th piece of work of that seed alone.
use host::check::{check, least, limited, ordered, used, Difference};
use host::counts::Counts;
use host::instructions::ALL;
use host::job::{Job, Room};
use host::oracle::{Oracle, Report};
use host::programs::{program, remembering, wild};
use host::random::Random;
use host::states::{broken, single};
use std::process::exit;
use std::sync::atomic::{AtomicBool, AtomicU64, Ordering::Relaxed};
use std::sync::Mutex;
use std::time::Instant;

/// The jobs of a piece: one of long jobs, and one of single steps, in turn.
fn jobs_of(piece: u64, random: &mut Random) -> Vec<Job> {
    if piece.is_multiple_of(2) {
        let job = |i: usize| match i % 6 {
            2 | 5 => wild(random),
            4 => remembering(random),
            _ => program(random),
        };
        (0..30).map(job).collect()
    } else {
        let singles = (0..23 * ALL.len()).map(|i| single(random, &ALL[i % ALL.len()]));
        let mut jobs: Vec<Job> = singles.collect();
        jobs.extend((0..40).map(|_| broken(random)));
        jobs
    }
}

fn compare_piece(seed: u64, piece: u64, oracle: &Oracle) -> Result<Counts, String> {
    let mut random = Random::for_piece(seed, piece);
    let jobs = jobs_of(piece, &mut random);
    let mut rows = oracle.rows(piece, &jobs);
    let mut counts = Counts::default();
    let mut found = None;
    oracle.run(piece, &jobs, |place, report| {
        if found.is_some() {
            return;
        }
        let job = &jobs[place];
        let rows = std::mem::take(&mut rows[place]);
        assert_eq!(rows.len() as u64, report.steps, "the oracle has a row for each step that succeeds");
        let report = ordered(job, Report { rows, ..report });
        let mut compare = |report: Report, room: Room, is_first: bool, random: &mut Random| {
            let report = limited(report, room);
            counts.count(job, &report, room, is_first);
            check(job, &report, room, random, &mut counts).err().map(|difference| (place, room, difference))
        };
        let most = used(job, &report);
        let mut spare = || random.index(3);
        let ample = Room {
            stack: most.stack + spare(),
            jumps: most.jumps + spare(),
            cells: most.cells + spare(),
            output: most.output + spare(),
        };
        found = compare(report.clone(), ample, true, &mut random);
        let tight = tight(most, least(job), &mut random);
        if found.is_none() && report.opened.is_some() && tight != most {
            found = compare(report, tight, false, &mut random);
        }
    });
    match found {
        None => Ok(counts),
        Some((place, room, difference)) => Err(explain(seed, piece, place, &jobs[place], room, difference, oracle)),
    }
}

/// Short of what the job would use in some of the slices.
fn tight(most: Room, least: Room, random: &mut Random) -> Room {
    let mut short = |most: usize, least: usize| match random.below(4) {
        0 => most.max(least + 1) - 1,
        1 => random.between(least as u64, most.max(least) as u64) as usize,
        _ => most,
    };
    Room {
        stack: short(most.stack, least.stack),
        jumps: short(most.jumps, least.jumps),
        cells: short(most.cells, least.cells),
        output: short(most.output, least.output),
    }
}

/// Everything needed to repeat a difference; the job's file is kept.
fn explain(seed: u64, piece: u64, place: usize, job: &Job, room: Room, difference: Difference, oracle: &Oracle) -> String {
    let file = std::env::temp_dir().join(format!("difference-{seed}-{piece}-{place}.job"));
    std::fs::write(&file, job.file()).unwrap();
    let mut text = format!("difference: {}\n", difference.what);
    for (name, side) in &difference.sides {
        text += &format!("{name}: {side}\n");
    }
    text += &format!("lent: {room:?}\njob: {job:?}\n");
    text += &format!("repeat: compare {seed} piece {piece}; it is job {place} of the piece\n");
    text += &format!("oracle: {} run {}", oracle.program().display(), file.display());
    text
}

fn main() {
    let words: Vec<String> = std::env::args().skip(1).collect();
    let number = |i: usize, default: u64| match words.get(i) {
        Some(word) => word.parse().unwrap_or_else(|_| usage()),
        None => default,
    };
    let seed = number(0, std::time::UNIX_EPOCH.elapsed().unwrap().as_secs());
    let oracle = Oracle::new("compare");
    if words.get(1).is_some_and(|word| word == "piece") {
        match compare_piece(seed, number(2, 0), &oracle) {
            Ok(counts) => counts.print(),
            Err(text) => fail(&text, oracle),
        }
        return;
    }
    let (steps, singles) = (number(1, 1_000_000), number(2, 100_000));
    println!("seed {seed}: at least {steps} steps and {singles} single steps");
    let start = Instant::now();
    let total = Mutex::new(Counts::default());
    let difference = Mutex::new(None);
    let stop = AtomicBool::new(false);
    let next = [AtomicU64::new(0), AtomicU64::new(0)];
    std::thread::scope(|scope| {
        for _ in 0..std::thread::available_parallelism().map_or(1, |n| n.get()) {
            scope.spawn(|| {
                while !stop.load(Relaxed) {
                    // the kind of work of which less is done
                    let kind = {
                        let total = total.lock().unwrap();
                        let left = [total.steps < steps, total.singles < singles];
                        match left {
                            [false, false] => break,
                            [true, false] => 0,
                            [false, true] => 1,
                            [true, true] => {
                                (total.steps as u128 * singles as u128 > total.singles as u128 * steps as u128) as usize
                            }
                        }
                    };
                    let piece = 2 * next[kind].fetch_add(1, Relaxed) + kind as u64;
                    match compare_piece(seed, piece, &oracle) {
                        Ok(counts) => total.lock().unwrap().add(&counts),
                        Err(text) => {
                            stop.store(true, Relaxed);
                            difference.lock().unwrap().get_or_insert(text);
                        }
                    }
                }
            });
        }
    });
    let counts = total.into_inner().unwrap();
    counts.print();
    println!("{} seconds", start.elapsed().as_secs());
    if let Some(text) = difference.into_inner().unwrap() {
        fail(&text, oracle);
    }
    let missing = counts.missing();
    if !missing.is_empty() {
        fail(&format!("never met: {}", missing.join(" ")), oracle);
    }
    println!("seed {seed}: no difference");
}

fn fail(text: &str, oracle: Oracle) -> ! {
    println!("{text}");
    drop(oracle);
    exit(1)
}

fn usage() -> ! {
    eprintln!("compare [SEED [STEPS [SINGLES]]]\ncompare SEED piece N");
    exit(2)
}
