//! The safe calls: what they give, what they refuse, and that a refusal leaves the job as it was.
mod common;

use common::open;
use kixombu::listing::trace_in_pieces;
use kixombu::text::make;
use kixombu::{records, Ending, Job, JobFile, Opening, OutOfOrder, Record, Refusal, Revision, Sizes, Slot, LONGEST, P};
use std::collections::BTreeMap;

fn opening(text: &str) -> Opening {
    JobFile::read(&make(text).unwrap().file).unwrap().opening
}

#[test]
fn open_refuses_by_number() {
    let sound = opening("digest 1 2 3 4 5; ram 7 8; halt");
    let small = Sizes { op_stack: 16, jump_stack: 0, ram: 1, output: 0 };
    assert!(Job::open(&sound, small).is_ok());
    let number = |opening: &Opening, sizes| Job::open(opening, sizes).map(|_| ()).unwrap_err();
    assert_eq!(number(&sound, Sizes { op_stack: 15, ..small }), Refusal::BadShape);
    assert_eq!(number(&sound, Sizes { output: usize::MAX, ..small }), Refusal::BadShape);
    assert_eq!(number(&sound, Sizes { jump_stack: LONGEST + 1, ..small }), Refusal::BadShape);
    assert_eq!(number(&Opening { digest: [0, 0, 0, 0, P], ..sound.clone() }, small), Refusal::NotAWord);
    let program = vec![Slot { opcode: 5, argument: 0 }];
    assert_eq!(number(&Opening { program, ..sound.clone() }, small), Refusal::InvalidOpcode);
    let program = vec![Slot { opcode: 0, argument: 1 }];
    assert_eq!(number(&Opening { program, ..sound.clone() }, small), Refusal::IllegalArgument);
    assert_eq!(number(&sound, Sizes { ram: 0, ..small }), Refusal::BadState);
    let ram = vec![(7, 8), (7, 8)];
    assert_eq!(number(&Opening { ram, ..sound }, Sizes { ram: 2, ..small }), Refusal::BadState);
}

/// RAM is handed over as it stands: cells that do not ascend are refused, and named.
#[test]
fn open_asks_for_ascending_cells() {
    let opened = |ram: &[(u64, u64)]| {
        let opening = Opening { ram: ram.to_vec(), ..Opening::default() };
        let opened = Job::open(&opening, Sizes::RUNJOB);
        let replayed = kixombu::replay(&[], Revision::One, 0, ram, 9, 0).map(|replayed| replayed.ram);
        assert_eq!(replayed, opened.as_ref().map(|_| ram.to_vec()).map_err(|refusal| *refusal));
        (opened.err(), OutOfOrder::first(ram).map(|found| (found.place, found.address, found.before)))
    };
    assert_eq!(opened(&[]), (None, None));
    assert_eq!(opened(&[(0, 3), (1, 2), (P - 1, 1)]), (None, None));
    assert_eq!(opened(&[(5, 1), (3, 1)]), (Some(Refusal::BadState), Some((1, 3, 5))));
    assert_eq!(opened(&[(3, 1), (3, 1)]), (Some(Refusal::BadState), Some((1, 3, 3))));
    assert_eq!(opened(&[(3, 1), (4, 1), (9, 1), (8, 1), (2, 1)]), (Some(Refusal::BadState), Some((3, 8, 9))));
    assert_eq!(opened(&[(P - 1, 1), (0, 1)]), (Some(Refusal::BadState), Some((1, 0, P - 1))));
    // 2 before 5
    assert_eq!(opened(&[(5, 1), (3, P)]), (Some(Refusal::NotAWord), Some((1, 3, 5))));
}

#[test]
fn cells_are_taken_in_any_order() {
    let text = "digest 1 2 3 4 5; ram 99 1; halt";
    let opened = |opening: Opening| Job::open(&opening, Sizes::RUNJOB).map(|job| job.ram().collect::<Vec<_>>());
    let unsorted = [(9, 1), (3, 2), (P - 1, 3), (0, 4)];
    let sorted = vec![(0, 4), (3, 2), (9, 1), (P - 1, 3)];
    assert_eq!(opened(opening(text).with_ram(unsorted)), Ok(sorted.clone()));
    assert_eq!(opened(opening(text).with_ram(BTreeMap::from(unsorted))), Ok(sorted));
    assert_eq!(opened(opening(text).with_ram([])), Ok(vec![]));
    let twice = opening(text).with_ram([(9, 1), (3, 2), (9, 7)]);
    assert_eq!(twice.ram, [(3, 2), (9, 1), (9, 7)]);
    assert_eq!(opened(twice), Err(Refusal::BadState));
}

/// New cells in front, between and behind, and across p - 1.
#[test]
fn cells_ascend_by_address() {
    let write = |address: u64, words: u64| {
        let pushed: String = (1..=words).rev().map(|word| format!("push {word}; ")).collect();
        format!("{pushed}push {address}; write_mem {words}; pop 1; ")
    };
    let program = [write(5, 1), write(3, 1), write(9, 1), write(4, 2), write(P - 2, 4)].concat();
    let text = format!("digest 1 2 3 4 5; ram 7 70; {program}halt");
    let (log, jobs) = recorded(&text);
    let job = jobs.last().unwrap();
    assert!(job.is_halted());
    let expected = [(0, 3), (1, 4), (3, 1), (4, 1), (5, 2), (7, 70), (9, 1), (P - 2, 1), (P - 1, 2)];
    assert_eq!(job.ram().collect::<Vec<_>>(), expected);
    assert_eq!(job.ram().collect::<BTreeMap<_, _>>(), BTreeMap::from(expected));
    expected.iter().for_each(|&(address, value)| assert_eq!(job.cell(address), Some(value)));
    [2, 6, 8, 10, P - 3, P, u64::MAX].iter().for_each(|&address| assert_eq!(job.cell(address), None));
    for (clock, job) in jobs.iter().enumerate() {
        let ram: Vec<(u64, u64)> = job.ram().collect();
        assert_eq!(OutOfOrder::first(&ram), None, "{clock}");
        assert_eq!(jobs[0].replay(&log, clock as u64).unwrap().ram, ram, "{clock}");
    }

    // nine cells suffice; with eight the last write is refused whole, though three of them are left
    let opening = opening(&text);
    let sizes = |ram| Sizes { ram, ..Sizes::RUNJOB };
    assert_eq!(Job::open(&opening, sizes(9)).unwrap().run(u64::MAX).ending, Ending::Halted);
    let mut short = Job::open(&opening, sizes(8)).unwrap();
    assert_eq!(short.run(u64::MAX).ending, Ending::Refused(Refusal::RamFull));
    assert_eq!(short.ram().collect::<Vec<_>>(), expected[2..7]);
    let replayed = |cells| kixombu::replay(&log, Revision::One, u64::MAX, &opening.ram, cells, 100).map(|replayed| replayed.ram);
    assert_eq!((replayed(9), replayed(8)), (Ok(expected.to_vec()), Err(Refusal::SliceFull)));
}

#[test]
fn an_opened_job_is_as_said() {
    let job = open("digest 1 2 3 4 5; ram 10 99; ram 11 98; halt");
    assert_eq!(job.op_stack(), [5, 4, 3, 2, 1, 0, 0, 0, 0, 0, 0, 0, 0, 0, 0, 0]);
    assert_eq!(job.ram().collect::<Vec<_>>(), [(10, 99), (11, 98)]);
    assert_eq!((job.clock(), job.instruction_pointer(), job.is_halted()), (0, 0, false));
    assert_eq!((job.output(), job.jump_stack().len(), job.taken(), job.sponge()), (&[][..], 0, [0; 3], None));
}

#[test]
fn the_state_is_as_said() {
    let inputs = "public 7; public 6; secret 8; secret_digest 1 2 3 4 5";
    let program = "push 2; merkle_step; sponge_init; read_io 2; divine 1; write_io 2; call f; f: halt";
    let mut job = open(&format!("digest 1 2 3 4 5; {inputs}; {program}"));
    assert_eq!(job.run(u64::MAX).ending, Ending::Halted);
    assert_eq!((job.output(), job.taken(), job.sponge()), (&[8, 6][..], [2, 1, 1], Some([0; 16])));
    assert_eq!(job.jump_stack().collect::<Vec<_>>(), [(12, 12)]);
    assert_eq!((job.clock(), job.instruction_pointer(), job.is_halted()), (8, 13, true));
    assert_eq!((job.run(1).ending, job.run(1).steps), (Ending::Halted, 0));
    assert_eq!(job.step(), Err(Refusal::MachineHalted));

    // the sponge is the last state of the permutation's record
    let mut job = open("digest 1 2 3 4 5; sponge_init; sponge_squeeze");
    assert!(job.step().is_ok());
    let Some(Ok(Record::Tip5 { states, .. })) = records(job.step().unwrap()).next() else {
        panic!("a permutation is recorded first")
    };
    assert_eq!(job.sponge(), Some(states[5]));
}

/// Each refusal of a step but those of the limits, and the words that it carries.
#[test]
fn refusals_carry_their_words() {
    let refused = |text: &str| {
        let mut job = open(&format!("digest 1 2 3 4 5; public 7; secret 8; secret 9; {text}"));
        match job.run(100).ending {
            Ending::Refused(refusal) => refusal,
            other => panic!("{text}: {other:?}"),
        }
    };
    assert_eq!(refused("push 4294967296; pop_count"), Refusal::FailedU32Conversion(1 << 32));
    assert_eq!(refused("read_io 2"), Refusal::EmptyPublicInput(1));
    assert_eq!(refused("divine 3"), Refusal::EmptySecretInput(2));
    assert_eq!(refused("push 2; assert"), Refusal::AssertionFailed { expected: 1, actual: 2 });
    let vectors = "push 5; push 4; push 3; push 12; push 1; push 5; push 4; push 3; push 2; push 1; assert_vector";
    assert_eq!(refused(vectors), Refusal::VectorAssertionFailed { index: 1, expected: 2, actual: 12 });
    assert_eq!(refused("return"), Refusal::JumpStackIsEmpty);
    assert_eq!(refused("merkle_step"), Refusal::EmptySecretDigestInput);
    assert_eq!(refused("push 0; invert"), Refusal::InverseOfZero);
    assert_eq!(refused("push 0; push 7; div_mod"), Refusal::DivisionByZero);
    assert_eq!(refused("push 0; log_2_floor"), Refusal::LogarithmOfZero);
    assert_eq!(refused("sponge_squeeze"), Refusal::SpongeNotInitialized);
    assert_eq!(refused("pop 1"), Refusal::OpStackTooShallow);
    assert_eq!(refused("nop"), Refusal::InstructionPointerOverflow);
}

#[test]
fn a_refused_step_changes_nothing_but_skiz_drops() {
    let mut job = open("digest 1 2 3 4 5; push 2; assert");
    assert!(job.step().is_ok());
    let before = (job.op_stack().to_vec(), job.clock());
    assert!(job.step().is_err());
    assert_eq!((job.op_stack().to_vec(), job.clock()), before);
    let mut job = open("digest 1 2 3 4 5; push 0; skiz");
    assert!(job.step().is_ok());
    assert_eq!(job.step(), Err(Refusal::InstructionPointerOverflow));
    assert_eq!((job.op_stack().len(), job.clock()), (16, 1));
}

#[test]
fn limits_are_those_lent() {
    let sizes = Sizes { op_stack: 17, jump_stack: 1, ram: 1, output: 1 };
    let refused = |text: &str| {
        let mut job = Job::open(&opening(&format!("digest 1 2 3 4 5; {text}")), sizes).unwrap();
        job.run(100).ending
    };
    assert_eq!(refused("push 1; push 1"), Ending::Refused(Refusal::OpStackFull));
    assert_eq!(refused("f: call f"), Ending::Refused(Refusal::JumpStackFull));
    assert_eq!(refused("push 1; write_mem 1; write_mem 1"), Ending::Refused(Refusal::OpStackTooShallow));
    assert_eq!(refused("write_io 1"), Ending::Refused(Refusal::OpStackTooShallow));
    assert_eq!(refused("push 1; write_io 1; push 1; write_io 1"), Ending::Refused(Refusal::OutputFull));
    assert_eq!(refused("push 1; write_mem 1; push 9; write_mem 1"), Ending::Refused(Refusal::RamFull));
}

#[test]
fn budget_and_log_end_a_run() {
    let mut job = open("digest 1 2 3 4 5; f: push 1; pop 1; call f");
    assert_eq!(job.run(7).ending, Ending::Spent);
    assert_eq!((job.run(0).steps, job.clock()), (0, 7));
    let ran = job.trace_execution(1_000, &mut [0; 1023]);
    assert_eq!((ran.ending, ran.steps, ran.bytes), (Ending::LogFull, 0, 0));
    let mut log = [0; 1024 + 25];
    let ran = job.trace_execution(1_000, &mut log);
    assert_eq!(ran.ending, Ending::LogFull);
    assert!(ran.steps > 1 && ran.bytes > 25, "{ran:?}");
    let mut long = vec![0; LONGEST + 1];
    assert_eq!(job.trace_execution(1, &mut long).ending, Ending::Refused(Refusal::BadShape));
}

/// A log of any length comes in pieces, here of over 60 MiB; an error ends the run.
#[test]
fn pieces_of_a_long_log() {
    let opened = open("digest 1 2 3 4 5; call f; f: push 1; push 2; push 3; pop 3; recurse");
    let mut pieces = 0;
    let ran = trace_in_pieces(&mut opened.clone(), 2_500_001, |_, _| {
        pieces += 1;
        Ok(())
    })
    .unwrap();
    // a turn of five steps has six records
    assert_eq!((ran.ending, ran.steps, ran.bytes), (Ending::Spent, 2_500_001, 75_000_000));
    assert!(pieces >= 70, "{pieces}");
    let mut taken = 0;
    let failed = trace_in_pieces(&mut opened.clone(), u64::MAX, |_, steps| {
        taken = steps;
        Err(std::io::Error::other("enough"))
    });
    assert_eq!(failed.unwrap_err().to_string(), "enough");
    assert!(taken > 0);
}

#[test]
fn helper_variables_follow_the_next_instruction() {
    let mut job = open("digest 1 2 3 4 5; push 6; split; halt");
    assert!(job.step().is_ok());
    // split's: the inverse of the high half less 2^32 - 1, here of 1 - 2^32
    let helpers = job.helper_variables().unwrap();
    let inverse = (helpers[0] as u128 * (P - 0xffff_ffff) as u128 % P as u128) as u64;
    assert_eq!((inverse, &helpers[1..]), (1, &[0; 5][..]));
}

const REPLAYED: &str = "digest 9 8 7 6 5; ram 10 99; ram 11 -1
    push 3; push 4; push 10; read_mem 2; pop 1; push 20; write_mem 3; pop 1; push 20; read_mem 1; pop 2; halt";

/// The log, and the job after each step, the opening first.
fn recorded(text: &str) -> (Vec<u8>, Vec<Job>) {
    recorded_in(Revision::One, text)
}

fn recorded_in(revision: Revision, text: &str) -> (Vec<u8>, Vec<Job>) {
    let opening = Opening { revision, ..opening(text) };
    let mut jobs = vec![Job::open(&opening, Sizes::RUNJOB).unwrap()];
    let mut log = vec![];
    loop {
        let mut job = jobs.last().unwrap().clone();
        match job.step() {
            Ok(bytes) => log.extend_from_slice(bytes),
            Err(_) => return (log, jobs),
        }
        jobs.push(job);
    }
}

#[test]
fn replay_rebuilds_every_clock() {
    let (log, jobs) = recorded(REPLAYED);
    assert!(jobs.len() > 10 && jobs.last().unwrap().is_halted());
    for (clock, job) in jobs.iter().enumerate() {
        let replayed = jobs[0].replay(&log, clock as u64).unwrap();
        let depth = job.op_stack().len();
        assert_eq!(replayed.depth, depth as u64, "{clock}");
        assert_eq!(replayed.stack, job.op_stack()[..depth - 16], "{clock}");
        assert_eq!(replayed.ram, job.ram().collect::<Vec<_>>(), "{clock}");
    }
    assert_eq!(jobs[0].replay(&log, u64::MAX), jobs[0].replay(&log, jobs.len() as u64));
}

#[test]
fn replay_refuses_an_altered_read() {
    let (log, jobs) = recorded(REPLAYED);
    let all: Vec<Record> = records(&log).map(Result::unwrap).collect();
    let mut reads = 0;
    for place in 0..all.len() {
        for (other, refusal) in [(12_345, Refusal::ReadDiffers), (P, Refusal::RecordBroken)] {
            let mut altered = all.clone();
            match &mut altered[place] {
                Record::Stack { write: false, value, .. } | Record::Ram { write: false, value, .. } => *value = other,
                _ => continue,
            }
            reads += 1;
            assert_eq!(jobs[0].replay(&kixombu::bytes_of(&altered), u64::MAX), Err(refusal), "{place}");
        }
    }
    assert!(reads >= 10, "{reads}");
}

/// Eleven records of RAM or of the stack for a clock, and stack records of both directions: 45, behind 43 and before 44.
#[test]
fn replay_refuses_what_no_step_records() {
    Revision::ALL.into_iter().for_each(refuses_what_no_step_records);
}

fn refuses_what_no_step_records(revision: Revision) {
    let stack = |clock, pointer, write| Record::Stack { clock, pointer, write, value: 1 };
    let ram = |address, write, value| Record::Ram { clock: 3, address, value, write };
    let replay = |records: &[Record], cells, words| {
        kixombu::replay(&kixombu::bytes_of(records), revision, 4, &[], cells, words).map(|replayed| replayed.depth)
    };
    let ten_reads = vec![ram(7, false, 0); 10];
    let behind_ten = |last: Record, cells| replay(&[&ten_reads[..], &[last]].concat(), cells, 0);
    assert_eq!(replay(&ten_reads, 0, 0), Ok(16));
    assert_eq!(behind_ten(ram(7, false, 1), 0), Err(Refusal::ReadDiffers));
    assert_eq!(behind_ten(ram(7, false, 0), 0), Err(Refusal::NotOneStep));
    assert_eq!(behind_ten(ram(7, true, 1), 0), Err(Refusal::NotOneStep));
    assert_eq!(behind_ten(ram(7, true, 1), 1), Err(Refusal::NotOneStep));
    assert_eq!(replay(&[&ten_reads[1..], &[ram(7, true, 1)]].concat(), 0, 0), Err(Refusal::SliceFull));
    let writes: Vec<Record> = (16..27).map(|pointer| stack(3, pointer, true)).collect();
    assert_eq!(replay(&writes, 0, 10), Err(Refusal::NotOneStep));
    assert_eq!(replay(&writes, 0, 11), Err(Refusal::NotOneStep));
    assert_eq!(replay(&writes[..10], 0, 9), Err(Refusal::SliceFull));
    assert_eq!(replay(&writes[..10], 0, 10), Ok(26));

    // a write and then the matching read; at the next clock it is good
    assert_eq!(replay(&[stack(0, 16, true), stack(0, 16, false)], 0, 1), Err(Refusal::NotOneStep));
    assert_eq!(replay(&[stack(0, 16, true), stack(1, 16, false)], 0, 1), Ok(16));
    assert_eq!(replay(&[stack(0, 16, true), stack(1, 16, false), stack(1, 16, true)], 0, 1), Err(Refusal::NotOneStep));
    // what stands at the clock or behind is not counted
    assert_eq!(replay(&[stack(4, 16, true), stack(4, 16, false)], 0, 1), Ok(16));
}

/// Kinds 6 and 7 do not count, and their clock is not the counted one.
#[test]
fn clocks_of_revision_2_do_not_count() {
    let clocked = |clock| {
        let states = Box::new([[7; 16]; 6]);
        let tip5 = Record::Tip5 { clock: Some(clock), opcode: 18, states };
        [tip5, Record::U32 { clock: Some(clock), opcode: 4, left: 0, right: 2 }].map(|record| vec![record])
    };
    let reads = |clock, count| vec![Record::Ram { clock, address: 7, value: 0, write: false }; count];
    let writes = |clock, from: u64, count| -> Vec<Record> {
        (from..from + count).map(|pointer| Record::Stack { clock, pointer, write: true, value: 1 }).collect()
    };
    let replay = |parts: &[Vec<Record>], clock| {
        let log = kixombu::bytes_of(&parts.concat());
        kixombu::replay(&log, Revision::Two, clock, &[], 0, 30).map(|replayed| replayed.depth)
    };
    let all = |parts: &[Vec<Record>]| replay(parts, 9);
    for clock in [0, 1] {
        for (own, next) in clocked(clock).into_iter().zip(clocked(clock + 1)) {
            assert_eq!(all(&[reads(clock, 10), next.clone(), reads(clock + 1, 1)]), Ok(16));
            assert_eq!(all(&[reads(clock, 10), next.clone(), reads(clock + 1, 11)]), Err(Refusal::NotOneStep));
            assert_eq!(all(&[writes(clock, 16, 10), next.clone(), writes(clock + 1, 26, 10)]), Ok(36));
            assert_eq!(all(&[writes(clock, 16, 10), own.clone(), writes(clock, 26, 1)]), Err(Refusal::NotOneStep));
            assert_eq!(all(&[reads(clock, 10), own.clone(), reads(clock, 1)]), Err(Refusal::NotOneStep));
            assert_eq!(all(&[reads(clock, 10), next.clone(), reads(clock, 1)]), Err(Refusal::ClockFalls));
            assert_eq!(all(&[next.clone(), own.clone()]), Err(Refusal::ClockFalls));
            assert_eq!(replay(&[reads(clock, 10), next.clone(), reads(clock, 1)], u64::from(clock) + 1), Ok(16));
        }
    }
}

/// Ten RAM records, and at the next clock a Tip5 record before five of RAM: all steps of a job in either revision.
#[test]
fn replay_takes_a_full_clock_before_another() {
    let text = "digest 1 2 3 4 5; sponge_init; push 90; sponge_absorb_mem; merkle_step_mem; halt";
    for (revision, clock) in [(Revision::One, None), (Revision::Two, Some(3))] {
        let (log, jobs) = recorded_in(revision, text);
        assert!(jobs.last().unwrap().is_halted());
        let all: Vec<Record> = records(&log).map(Result::unwrap).collect();
        let place = all.iter().rposition(|record| matches!(record, Record::Tip5 { clock: now, .. } if *now == clock)).unwrap();
        let is_ram_at = |record: &Record, at| matches!(record, Record::Ram { clock, .. } if *clock == at);
        assert_eq!(all[..place].iter().filter(|record| is_ram_at(record, 2)).count(), 10);
        assert_eq!(all[place..].iter().filter(|record| is_ram_at(record, 3)).count(), 5);
        for (clock, job) in jobs.iter().enumerate() {
            assert_eq!(jobs[0].replay(&log, clock as u64).unwrap().depth, job.op_stack().len() as u64, "{clock}");
        }
    }
}

/// The steps with the most records: ten of the stack either way, ten of RAM.
#[test]
fn replay_takes_the_ten_records_of_a_step() {
    let program = "sponge_init; sponge_squeeze; sponge_absorb; push 90; sponge_absorb_mem; halt";
    let (log, jobs) = recorded(&format!("digest 1 2 3 4 5; ram 91 7; {program}"));
    assert!(jobs.last().unwrap().is_halted());
    let mut of_a_clock = BTreeMap::new();
    for record in records(&log).map(Result::unwrap) {
        match record {
            Record::Stack { clock, write, .. } => *of_a_clock.entry((clock, "stack", write)).or_insert(0) += 1,
            Record::Ram { clock, write, .. } => *of_a_clock.entry((clock, "ram", write)).or_insert(0) += 1,
            _ => {}
        }
    }
    let tens: Vec<_> = of_a_clock.iter().filter(|(_, count)| **count == 10).map(|(of, _)| *of).collect();
    assert_eq!(tens, [(1, "stack", true), (2, "stack", false), (4, "ram", false)]);
    for (clock, job) in jobs.iter().enumerate() {
        assert_eq!(jobs[0].replay(&log, clock as u64).unwrap().depth, job.op_stack().len() as u64, "{clock}");
    }
}

#[test]
fn replay_refuses_by_number() {
    let write = |clock, pointer| Record::Stack { clock, pointer, write: true, value: 1 };
    let replay = |records: &[Record], ram: &[(u64, u64)], cells, words| {
        kixombu::replay(&kixombu::bytes_of(records), Revision::One, u64::MAX, ram, cells, words).map(|replayed| replayed.depth)
    };
    assert_eq!(replay(&[write(0, 16), write(0, 17)], &[], 0, 2), Ok(18));
    assert_eq!(replay(&[write(0, 16), write(0, 17)], &[], 0, 1), Err(Refusal::SliceFull));
    assert_eq!(replay(&[write(0, 17)], &[], 0, 2), Err(Refusal::PointerDiffers));
    assert_eq!(replay(&[write(1, 16), write(0, 17)], &[], 0, 2), Err(Refusal::ClockFalls));
    assert_eq!(replay(&[], &[(1, 2)], 0, 0), Err(Refusal::BadState));
    assert_eq!(replay(&[], &[(1, 2), (1, 2)], 2, 0), Err(Refusal::BadState));
    assert_eq!(replay(&[], &[(2, 2), (1, 2)], 2, 0), Err(Refusal::BadState));
    assert_eq!(replay(&[], &[(1, P)], 1, 0), Err(Refusal::NotAWord));
    assert_eq!(replay(&[], &[], LONGEST + 1, 0), Err(Refusal::BadShape));
    assert_eq!(kixombu::replay(&[0], Revision::One, 0, &[], 0, 0), Err(Refusal::RecordBroken));
}
