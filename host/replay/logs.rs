//! Logs of the original Rust (`oracle log`) for random jobs, in each revision, replayed to their clocks: depth, cells and stack are
//! the Rust's after so many steps; and with each read altered, which is refused. The library's own log in each revision is the same.
use crate::lent::{Arena, Lent};
use host::field::P;
use host::job::Job;
use host::model::put_clock;
use host::model::replay::replay as model;
use host::oracle::{Oracle, Report, State};
use host::programs::{program, remembering};
use host::random::Random;
use host::work::{Counts, Watched};
use kixombu::exports::{replay, replayed};
use kixombu::listing::trace_in_pieces;
use kixombu::{bytes_of, records_of, Opening, Record, Revision, Sizes};

/// How many jobs are one piece of work.
pub const PIECE: u64 = 10;
/// Jobs of so many steps are replayed to every clock, longer ones to some.
const SHORT: usize = 300;
const SOME: usize = 60;
/// Of a log with more reads, so many are altered.
const READS: usize = 500;

/// What a run has to meet.
pub const KINDS: [&str; 19] = [
    "jobs in revision 1",
    "jobs in revision 2",
    "jobs to every clock",
    "stack writes",
    "stack reads",
    "RAM writes, the first cell",
    "RAM writes, a new cell in front",
    "RAM writes, a new cell between",
    "RAM writes, a new cell behind",
    "RAM writes to held cells",
    "RAM reads",
    "RAM reads of absent addresses",
    "Tip5 records with a clock",
    "U32 records with a clock",
    "replays stopped at kind 6 or 7",
    "altered reads refused with 40",
    "altered reads refused with 43",
    "altered reads behind the stop",
    "a cell too few, refused with 44",
];

pub struct Logs {
    oracle: Oracle,
}

impl Logs {
    pub fn new() -> Logs {
        Logs { oracle: Oracle::new("replay") }
    }

    pub fn piece(&self, seed: u64, piece: u64, watched: &Watched) -> Result<Counts<&'static str>, String> {
        let mut random = Random::for_piece(seed, piece);
        let jobs: Vec<Job> =
            (0..PIECE).map(|i| if i % 2 == 0 { remembering(&mut random) } else { program(&mut random) }).collect();
        let mut counts = Counts::new();
        let mut found = Ok(());
        self.oracle.run(piece, &jobs, |place, report| {
            if found.is_ok() {
                let job = &jobs[place];
                let log = self.oracle.log(piece, job);
                found = Revision::ALL.into_iter().try_for_each(|revision| {
                    Checked::new(revision, job, &report, &log, &mut random)
                        .and_then(|mut checked| checked.check(&mut counts, &mut random, watched))
                        .map_err(|text| format!("job {place} of the piece, revision {revision}, {text}\njob: {job:?}"))
                });
            }
        });
        found.map(|()| counts)
    }
}

/// A log in revision 2, from that in revision 1 and the clock of each record, byte by byte: kinds 2 and 3 are 6 and 7, with the
/// clock put in first among the fields.
fn with_clocks(log: &[u8], clocks: &[u32]) -> Vec<u8> {
    let (mut left, mut made) = (log, vec![]);
    for clock in clocks {
        let (length, kind) = (u16::from_le_bytes([left[0], left[1]]), u16::from_le_bytes([left[2], left[3]]));
        let (record, behind) = left.split_at(2 + usize::from(length));
        if let 2 | 3 = kind {
            made.extend([length + 4, kind + 4].map(u16::to_le_bytes).as_flattened());
            made.extend(clock.to_le_bytes());
            made.extend(&record[4..]);
        } else {
            made.extend(record);
        }
        left = behind;
    }
    assert!(left.is_empty(), "a clock for each record");
    made
}

/// What the library writes for so many steps.
fn recorded(job: &Job, revision: Revision, steps: usize) -> Vec<u8> {
    const ROOM: usize = 1 << 16;
    let sizes = Sizes { op_stack: ROOM, jump_stack: ROOM, ram: ROOM, output: ROOM };
    let opening = Opening { revision, ..job.opening() };
    let mut opened = kixombu::Job::open(&opening, sizes).expect("a job of a random program opens");
    let mut log = vec![];
    let put = |bytes: &[u8], _| {
        log.extend_from_slice(bytes);
        Ok(())
    };
    let ran = trace_in_pieces(&mut opened, steps as u64, put).expect("nothing is written elsewhere");
    assert_eq!(ran.steps, steps as u64, "the library ends another way: {:?}", ran.ending);
    log
}

/// A job's log, and what each clock must give.
struct Checked {
    revision: Revision,
    log: Vec<u8>,
    records: Vec<Record>,
    /// The Rust's states: the opening, then what each step left. Their cells are by address.
    states: Vec<State>,
    /// As it is lent at each call.
    lent: Lent,
    arena: Arena,
    calls: u64,
}

impl Checked {
    /// From the Rust's log, which is of revision 1.
    fn new(revision: Revision, job: &Job, report: &Report, log: &[u8], random: &mut Random) -> Result<Checked, String> {
        let opened = report.opened.clone().expect("a job of a random program opens");
        let (mut states, mut steps, mut clocks) = (vec![opened], vec![], vec![]);
        for step in &report.tried {
            if let Ok(records) = &step.result {
                steps.extend(records.clone());
                clocks.resize(steps.len(), states.last().unwrap().clock as u32);
                states.push(step.state.clone());
            }
        }
        if bytes_of(&steps) != log {
            return Err("the oracle's log is not its calls' bytes".to_string());
        }
        let mut log = log.to_vec();
        if revision == Revision::Two {
            log = with_clocks(&log, &clocks);
            steps.iter_mut().zip(&clocks).for_each(|(record, &clock)| put_clock(record, clock));
        }
        if bytes_of(&steps) != log {
            return Err("the log with clocks is not its records' bytes".to_string());
        }
        if recorded(job, revision, states.len() - 1) != log {
            return Err("the library's log is not the oracle's".to_string());
        }
        let deepest = states.iter().map(|state| state.stack.len()).max().unwrap();
        let most = states.last().unwrap().ram.len();
        let lent = lent(&job.ram, most + random.index(3), deepest - 16 + random.pick(&[0, 1, 16]), random);
        let lent = Lent { revision: revision.number(), ..lent };
        let arena = Arena::new(random.next());
        Ok(Checked { revision, log, records: steps, states, lent, arena, calls: 0 })
    }

    fn check(&mut self, counts: &mut Counts<&'static str>, random: &mut Random, watched: &Watched) -> Result<(), String> {
        self.count(counts);
        let steps = self.states.len() - 1;
        let clocks: Vec<u64> = if steps <= SHORT {
            *counts.entry("jobs to every clock").or_default() += 1;
            (0..=steps as u64 + 1).chain([u64::MAX]).collect()
        } else {
            let some = (0..SOME).map(|_| random.below(steps as u64 + 1));
            [0, 1, steps as u64, steps as u64 + 1, u64::MAX].into_iter().chain(some).collect()
        };
        for clock in clocks {
            self.replay_to(clock, watched)?;
            *counts.entry("replays").or_default() += 1;
            if self.stops_at_clocked(clock) {
                *counts.entry("replays stopped at kind 6 or 7").or_default() += 1;
            }
        }
        self.one_cell_short(counts, watched)?;
        self.altered(counts, random, watched)
    }

    fn count(&self, counts: &mut Counts<&'static str>) {
        let mut add = |name, more: u64| *counts.entry(name).or_default() += more;
        add(if self.revision == Revision::Two { "jobs in revision 2" } else { "jobs in revision 1" }, 1);
        add("bytes of logs", self.log.len() as u64);
        let mut held: Vec<u64> = self.states[0].ram.iter().map(|cell| cell.0).collect();
        for record in &self.records {
            match *record {
                Record::Stack { write, .. } => add(if write { "stack writes" } else { "stack reads" }, 1),
                Record::Ram { address, write, .. } => match (write, held.binary_search(&address)) {
                    (true, Ok(_)) => add("RAM writes to held cells", 1),
                    (true, Err(place)) => {
                        let name = match (place, held.len()) {
                            (_, 0) => "RAM writes, the first cell",
                            (0, _) => "RAM writes, a new cell in front",
                            (place, end) if place == end => "RAM writes, a new cell behind",
                            _ => "RAM writes, a new cell between",
                        };
                        add(name, 1);
                        held.insert(place, address);
                    }
                    (false, Ok(_)) => add("RAM reads", 1),
                    (false, Err(_)) => add("RAM reads of absent addresses", 1),
                },
                Record::Tip5 { clock: Some(_), .. } => add("Tip5 records with a clock", 1),
                Record::U32 { clock: Some(_), .. } => add("U32 records with a clock", 1),
                _ => add("records only measured", 1),
            }
        }
    }

    /// Whether the first record at the clock or behind it is of kind 6 or 7.
    fn stops_at_clocked(&self, stop: u64) -> bool {
        let stops = |record: &Record| match *record {
            Record::Stack { clock, .. } | Record::Ram { clock, .. } => (u64::from(clock) >= stop).then_some(false),
            Record::Tip5 { clock: Some(clock), .. } | Record::U32 { clock: Some(clock), .. } => {
                (u64::from(clock) >= stop).then_some(true)
            }
            _ => None,
        };
        self.records.iter().find_map(stops) == Some(true)
    }

    /// What the Rust's state after so many steps, or after all, makes of what is lent.
    fn expected(&self, clock: u64) -> Lent {
        let place = usize::try_from(clock).unwrap_or(usize::MAX).min(self.states.len() - 1);
        let state = &self.states[place];
        let mut expected = self.lent.clone();
        expected.clock = clock;
        expected.answer = vec![0, state.stack.len() as u64, state.ram.len() as u64];
        let below = state.stack.len() - 16;
        expected.words[..below].copy_from_slice(&state.stack[..below]);
        for (i, &(address, value)) in state.ram.iter().enumerate() {
            expected.addresses[i] = address;
            expected.values[i] = value;
        }
        expected
    }

    /// The library's replay between guards, held to what is expected.
    fn call(&mut self, clock: u64, expected: (u64, &Lent), watched: &Watched) -> Result<(), String> {
        self.calls += 1;
        self.lent.clock = clock;
        watched.begins(self.calls);
        let found = self.arena.replay(replay, &self.log, &self.lent, expected);
        watched.ends();
        found.map_err(|text| format!("clock {clock}: {text}"))
    }

    fn replay_to(&mut self, clock: u64, watched: &Watched) -> Result<(), String> {
        let expected = self.expected(clock);
        let mut by_model = Lent { clock, ..self.lent.clone() };
        if by_model.replay(model, &self.log) != 0 || by_model != expected {
            return Err(format!("clock {clock}: the model differs from the Rust"));
        }
        self.call(clock, (0, &expected), watched)
    }

    /// The whole log where the last of its new cells has no room.
    fn one_cell_short(&mut self, counts: &mut Counts<&'static str>, watched: &Watched) -> Result<(), String> {
        let most = self.states.last().unwrap().ram.len();
        if most == self.states[0].ram.len() {
            return Ok(());
        }
        let mut short = self.lent.clone();
        short.addresses.truncate(most - 1);
        short.values.truncate(most - 1);
        let whole = std::mem::replace(&mut self.lent, short);
        let expected = Lent { answer: vec![44, 0, 0], ..self.lent.clone() };
        let found = self.call(u64::MAX, (44, &expected), watched).map_err(|text| format!("a cell too few, {text}"));
        self.lent = whole;
        *counts.entry("a cell too few, refused with 44").or_default() += 1;
        found
    }

    /// Each read altered in turn, or some: to another word and to no word, seen behind its clock and not seen before it.
    fn altered(&mut self, counts: &mut Counts<&'static str>, random: &mut Random, watched: &Watched) -> Result<(), String> {
        let mut reads = vec![];
        let mut at = 0;
        for record in &self.records {
            match *record {
                Record::Stack { clock, write: false, value, .. } => reads.push((at + 17, clock, value)),
                Record::Ram { clock, write: false, value, .. } => reads.push((at + 16, clock, value)),
                _ => {}
            }
            at += bytes_of(std::slice::from_ref(record)).len();
        }
        while reads.len() > READS {
            reads.swap_remove(random.index(reads.len()));
        }
        for (at, clock, value) in reads {
            self.altered_read(at, clock.into(), value, counts, random, watched)
                .map_err(|text| format!("the read at byte {at} altered, {text}"))?;
        }
        Ok(())
    }

    fn altered_read(
        &mut self,
        at: usize,
        clock: u64,
        value: u64,
        counts: &mut Counts<&'static str>,
        random: &mut Random,
        watched: &Watched,
    ) -> Result<(), String> {
        let steps = self.states.len() as u64 - 1;
        let another = match random.below(3) {
            0 => (value + 1) % P,
            1 => value ^ 1 << random.below(32),
            _ => random.word(),
        };
        let another = if another == value || another >= P { (value + P - 1) % P } else { another };
        for (altered, number) in [(another, 43), (random.too_large(), 40)] {
            self.log[at..at + 8].copy_from_slice(&altered.to_le_bytes());
            let later = if random.once_in(8) { u64::MAX } else { random.between(clock + 1, steps.max(clock) + 1) };
            let mut expected = Lent { clock: later, ..self.lent.clone() };
            expected.answer = vec![number, 0, 0];
            self.call(later, (number, &expected), watched)?;
            let name = if number == 43 { "altered reads refused with 43" } else { "altered reads refused with 40" };
            *counts.entry(name).or_default() += 1;
            if random.once_in(10) {
                let earlier = random.between(0, clock);
                let expected = self.expected(earlier);
                self.call(earlier, (0, &expected), watched)?;
                *counts.entry("altered reads behind the stop").or_default() += 1;
            }
        }
        self.log[at..at + 8].copy_from_slice(&value.to_le_bytes());
        debug_assert!(records_of(&self.log, self.revision).all(|record| record.is_ok()));
        Ok(())
    }
}

/// The opening's cells, and whatever behind them; an answer of anything.
fn lent(ram: &[(u64, u64)], cells: usize, words: usize, random: &mut Random) -> Lent {
    let mut any = |n: usize| -> Vec<u64> { (0..n).map(|_| random.next()).collect() };
    let mut lent = Lent {
        answer: any(replayed::ALL),
        revision: 1,
        clock: 0,
        cells: ram.len() as u64,
        addresses: any(cells),
        values: any(cells),
        words: vec![0; words],
    };
    for (i, &(address, value)) in ram.iter().enumerate() {
        lent.addresses[i] = address;
        lent.values[i] = value;
    }
    lent
}
