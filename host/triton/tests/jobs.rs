//! Every job of the folder `jobs`: its file from its text, and its listing.
mod common;

use common::{folder, names, read};
use kixombu::text::make;
use kixombu::{bytes_of, records, replay, FeeRow, FeeTable, Job, JobFile, Opening, Record, Revision, Sizes};
use std::process::{Command, Stdio};

#[test]
fn texts_make_the_files() {
    for name in names() {
        let text = String::from_utf8(read(&name, "txt")).unwrap();
        let made = make(&text).unwrap_or_else(|fault| panic!("{name}: {fault}"));
        assert_eq!(made.file, read(&name, "job"), "{name}");
        let has_warning = ["not_a_word", "unsorted_ram"].contains(&name.as_str());
        assert_eq!(made.warnings.len(), usize::from(has_warning), "{name}: {:?}", made.warnings);
    }
}

#[test]
fn files_come_back() {
    for name in names().into_iter().filter(|name| name != "broken") {
        let file = JobFile::read(&read(&name, "job")).unwrap();
        assert_eq!(JobFile::read(&file.write().unwrap()), Ok(file), "{name}");
    }
}

#[test]
fn listings_are_those_kept() {
    for name in names() {
        let job = std::fs::File::open(folder().join(format!("{name}.job"))).unwrap();
        let mut run = Command::new(env!("CARGO_BIN_EXE_kixombu"));
        let output = run.args(["run", "-"]).stdin(job).output().unwrap();
        if folder().join(format!("{name}.out")).exists() {
            let kept = String::from_utf8(read(&name, "out")).unwrap();
            assert_eq!(String::from_utf8_lossy(&output.stdout), kept, "{name}");
        } else {
            assert_eq!(sum(&output.stdout).as_bytes(), read(&name, "sum"), "{name}");
        }
        let last = String::from_utf8(output.stdout).unwrap().lines().last().unwrap().to_string();
        let status = match last.split(' ').nth(1).unwrap() {
            "halted" => 0,
            "refused" => 1,
            _ => 3,
        };
        assert_eq!(output.status.code(), Some(status), "{name}: {last}");
    }
}

/// As `sha256sum` prints it.
fn sum(bytes: &[u8]) -> String {
    let mut sum = Command::new("sha256sum").stdin(Stdio::piped()).stdout(Stdio::piped()).spawn().expect("sha256sum");
    std::io::Write::write_all(&mut sum.stdin.take().unwrap(), bytes).unwrap();
    String::from_utf8(sum.wait_with_output().unwrap().stdout).unwrap()
}

/// Step by step, in one run and by traces of all lengths, a job comes to the same.
#[test]
fn steps_runs_and_traces_agree() {
    for name in ["add", "countdown", "memory", "sponge", "merkle", "assert", "skiz"] {
        let file = JobFile::read(&read(name, "job")).unwrap();
        let opened = Job::open(&file.opening, Sizes::RUNJOB).unwrap();
        let (mut stepped, mut log) = (opened.clone(), vec![]);
        let refused = loop {
            match stepped.step() {
                Ok(bytes) => log.extend_from_slice(bytes),
                Err(refusal) => break refusal,
            }
        };
        let steps = stepped.clock();
        for budget in [0, 1, steps / 2, steps, u64::MAX] {
            let (mut run, mut traced) = (opened.clone(), opened.clone());
            let ran = run.run(budget);
            let mut room = vec![0; log.len() + 1024];
            let trace = traced.trace_execution(budget, &mut room);
            assert_eq!((ran.ending, ran.steps, ran.bytes), (trace.ending, trace.steps, 0), "{name}");
            assert_eq!(ran.steps, budget.min(steps), "{name}");
            assert!(log.starts_with(&room[..trace.bytes]), "{name}");
            assert_eq!(state(&run), state(&traced), "{name}");
            if budget == u64::MAX {
                assert_eq!(trace.bytes, log.len(), "{name}");
                let expected = if run.is_halted() { kixombu::Ending::Halted } else { kixombu::Ending::Refused(refused) };
                assert_eq!(trace.ending, expected, "{name}");
            }
        }
    }
}

/// What the calls may take of a thread's stack.
const SMALL_STACK: usize = 224 << 10;

/// A job's calls in a thread with a small stack, most of which replay's table takes. Where it does not suffice the process ends.
#[test]
fn a_small_stack_suffices() {
    for name in ["memory", "sponge", "merkle"] {
        let file = JobFile::read(&read(name, "job")).unwrap();
        let (mut log, mut table) = (vec![0; 1 << 16], vec![0; 1 << 16]);
        let calls = move || {
            let mut stepped = Job::open(&file.opening, Sizes::RUNJOB).unwrap();
            let (mut run, mut traced) = (Box::new(stepped.clone()), Box::new(stepped.clone()));
            let mut with_rows = traced.clone();
            stepped.step().unwrap();
            let ran = run.run(u64::MAX);
            let trace = traced.trace_execution(u64::MAX, &mut log);
            let helpers = traced.helper_variables();
            let replayed = traced.replay(&log[..trace.bytes], u64::MAX);
            let rows = with_rows.trace_rows(u64::MAX, &mut log, &mut table).0;
            let row = with_rows.processor_row();
            let fees = FeeTable::new([FeeRow { lowest: 0, highest: 88, fee: 1 }]);
            let mut opened = Job::open_with_fees(&file.opening, Sizes::RUNJOB, &fees).unwrap();
            opened.step_with_fees(&fees).unwrap();
            let (mut priced, mut traced) = (Box::new(opened.clone()), Box::new(opened));
            let mut with_rows = traced.clone();
            let fees = [
                priced.run_with_fees(u64::MAX, &fees).1,
                traced.trace_execution_with_fees(u64::MAX, &mut log, &fees).1,
                with_rows.trace_rows_with_fees(u64::MAX, &mut log, &mut table, &fees).1,
            ];
            let agree = [ran.ending == trace.ending, rows == trace, fees == [ran.steps - 1; 3]];
            (agree, helpers.is_ok(), row.is_ok(), replayed.is_ok())
        };
        let small = std::thread::Builder::new().stack_size(SMALL_STACK);
        assert_eq!(small.spawn(calls).unwrap().join().unwrap(), ([true; 3], true, true, true), "{name}");
    }
    // more addresses than the table holds
    let write = |i: u64| Record::Ram { clock: i as u32, address: i * 0x9e37_79b9 % 0x7fff_ffff, value: i, write: true };
    let log = bytes_of(&(0..100_000).map(write).collect::<Vec<_>>());
    let small = std::thread::Builder::new().stack_size(SMALL_STACK);
    let replayed = small.spawn(move || replay(&log, Revision::One, u64::MAX, &[], 100_000, 0)).unwrap().join().unwrap();
    assert_eq!(replayed.unwrap().ram.len(), 100_000);
}

/// The log in revision 2 is the one in revision 1 with a clock in each Tip5 and U32 record, and both replay alike.
#[test]
fn revisions_differ_in_clocks_alone() {
    for name in names().into_iter().filter(|name| name != "broken") {
        let file = JobFile::read(&read(&name, "job")).unwrap();
        let logs = Revision::ALL.map(|revision| recorded(&Opening { revision, ..file.opening.clone() }));
        let [Some((one, old)), Some((two, new))] = logs else {
            continue;
        };
        assert_eq!(state(&one), state(&two), "{name}");
        let without = |log: &[u8]| records(log).map(|record| unclocked(record.unwrap())).collect::<Vec<_>>();
        assert_eq!(without(&old), without(&new), "{name}");
        let clocks: Vec<u32> = records(&new).filter_map(|record| clock(&record.unwrap())).collect();
        assert!(clocks.is_sorted() && !records(&new).any(|record| record.unwrap().revision() == Some(Revision::One)), "{name}");
        for clock in 0..one.clock() + 2 {
            assert_eq!(one.replay(&old, clock), two.replay(&new, clock), "{name} to {clock}");
        }
    }
}

/// A job after at most 200 steps, and their log; none where it does not open.
fn recorded(opening: &Opening) -> Option<(Job, Vec<u8>)> {
    let mut job = Job::open(opening, Sizes::RUNJOB).ok()?;
    let mut log = vec![0; 1 << 18];
    let ran = job.trace_execution(200, &mut log);
    log.truncate(ran.bytes);
    Some((job, log))
}

fn unclocked(mut record: Record) -> Record {
    if let Record::Tip5 { clock, .. } | Record::U32 { clock, .. } = &mut record {
        *clock = None;
    }
    record
}

fn clock(record: &Record) -> Option<u32> {
    match *record {
        Record::Tip5 { clock, .. } | Record::U32 { clock, .. } => clock,
        Record::Stack { clock, .. } | Record::Ram { clock, .. } => Some(clock),
        _ => None,
    }
}

type State = (u64, u64, Vec<u64>, Vec<(u64, u64)>, Vec<(u64, u64)>, Vec<u64>, Option<[u64; 16]>);

fn state(job: &Job) -> State {
    let words = (job.op_stack().to_vec(), job.jump_stack().collect(), job.ram().collect());
    (job.clock(), job.instruction_pointer(), words.0, words.1, words.2, job.output().to_vec(), job.sponge())
}
