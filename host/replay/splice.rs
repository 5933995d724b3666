//! Spliced logs, which 45 is for: so many records of one clock as no step writes, or nearly, and logs stitched from two. Of either
//! revision, with records between that do not count.
use crate::damage::Base;
use crate::revisions::{measured, of_revision};
use host::cells::near;
use host::field::P;
use host::random::Random;
use kixombu::{bytes_of, records, Record, Revision};
use std::collections::BTreeMap;

/// Of a clock's records so many are of the stack, all in one direction, and so many of RAM, at most.
const MOST: u32 = 10;

/// The stack and RAM records of a clock; the others do not count.
#[derive(Clone, Copy, Debug, Default)]
pub struct Clock {
    pub clock: u32,
    stack: u32,
    /// The direction of the stack's.
    write: bool,
    ram: u32,
}

impl Clock {
    pub fn advance(&mut self, by: u32) {
        if by > 0 {
            *self = Clock { clock: self.clock + by, ..Clock::default() };
        }
    }

    fn has_room(&self, record: &Record) -> bool {
        match *record {
            Record::Stack { write, .. } => self.stack < MOST && (self.stack == 0 || self.write == write),
            Record::Ram { .. } => self.ram < MOST,
            _ => true,
        }
    }

    fn count(&mut self, record: &Record) {
        match *record {
            Record::Stack { write, .. } => (self.stack, self.write) = (self.stack + 1, write),
            Record::Ram { .. } => self.ram += 1,
            _ => {}
        }
    }

    /// Gives a record this clock, or the next one where this has no room for it.
    pub fn put(&mut self, record: Record) -> Record {
        if !self.has_room(&record) {
            self.advance(1);
        }
        self.count(&record);
        at(record, |_| self.clock)
    }
}

/// A record that breaks the rule for its clock.
pub struct Breaking {
    /// Where it begins.
    pub place: usize,
    pub record: Record,
    /// Whether it is of the stack and goes the other way than those before it; else it is the eleventh.
    pub turns: bool,
    /// Whether a record of kind 6 or 7 is at its clock, behind the first that counts there.
    pub has_between: bool,
}

/// The first.
pub fn breaking(log: &[u8]) -> Option<Breaking> {
    let (mut clock, mut place, mut has_between) = (Clock::default(), 0, false);
    for record in records(log).map_while(Result::ok) {
        match record {
            Record::Stack { clock: now, .. } | Record::Ram { clock: now, .. } if now > clock.clock => {
                clock.advance(now - clock.clock);
                has_between = false;
            }
            Record::Tip5 { clock: now, .. } | Record::U32 { clock: now, .. } if clock.stack + clock.ram > 0 => {
                has_between |= now == Some(clock.clock);
            }
            _ => {}
        }
        if !clock.has_room(&record) {
            let turns = matches!(record, Record::Stack { write, .. } if write != clock.write);
            return Some(Breaking { place, record, turns, has_between });
        }
        clock.count(&record);
        place += bytes_of(std::slice::from_ref(&record)).len();
    }
    None
}

fn clock_of(record: &Record) -> Option<u32> {
    match *record {
        Record::Stack { clock, .. } | Record::Ram { clock, .. } => Some(clock),
        Record::Tip5 { clock, .. } | Record::U32 { clock, .. } => clock,
        _ => None,
    }
}

/// The record at another clock.
fn at(mut record: Record, then: impl Fn(u32) -> u32) -> Record {
    match &mut record {
        Record::Stack { clock, .. } | Record::Ram { clock, .. } => *clock = then(*clock),
        Record::Tip5 { clock, .. } | Record::U32 { clock, .. } => *clock = clock.map(then),
        _ => {}
    }
    record
}

/// What a log's records leave, and the last clock.
#[derive(Clone)]
struct State {
    stack: Vec<u64>,
    held: BTreeMap<u64, u64>,
    clock: u32,
}

impl State {
    fn opened(ram: &[(u64, u64)]) -> State {
        State { stack: vec![], held: ram.iter().copied().collect(), clock: 0 }
    }

    fn take(&mut self, record: &Record) {
        self.clock = clock_of(record).unwrap_or(self.clock);
        match *record {
            Record::Stack { write: true, value, .. } => self.stack.push(value),
            Record::Stack { .. } => drop(self.stack.pop()),
            Record::Ram { address, value, write: true, .. } => drop(self.held.insert(address, value)),
            _ => {}
        }
    }
}

/// Records put into a log, all but the last few at one clock or two.
struct Crowd {
    made: Vec<Record>,
    revision: Revision,
    state: State,
    /// Cells and words in use before the last write to RAM, and to the stack.
    cells: usize,
    words: usize,
}

impl Crowd {
    fn put(&mut self, record: Record) {
        match record {
            Record::Stack { write: true, .. } => self.words = self.state.stack.len(),
            Record::Ram { write: true, .. } => self.cells = self.state.held.len(),
            _ => {}
        }
        self.state.take(&record);
        self.made.push(record);
    }

    fn write(&mut self, value: u64) {
        let (clock, pointer) = (self.state.clock, self.state.stack.len() as u64 + 16);
        self.put(Record::Stack { clock, pointer, write: true, value });
    }

    fn read(&mut self) {
        if let Some(&value) = self.state.stack.last() {
            let (clock, pointer) = (self.state.clock, self.state.stack.len() as u64 + 15);
            self.put(Record::Stack { clock, pointer, write: false, value });
        }
    }

    /// Leaves each address the value that it has.
    fn ram(&mut self, write: bool, random: &mut Random) {
        let known: Vec<u64> = self.state.held.keys().copied().collect();
        let address = if known.is_empty() || random.once_in(2) { near(random) } else { random.pick(&known) };
        let value = self.state.held.get(&address).copied().unwrap_or(0);
        self.put(Record::Ram { clock: self.state.clock, address, value, write });
    }

    /// One that does not count.
    fn between(&mut self, random: &mut Random) {
        let record = of_revision(self.revision, measured(random), self.state.clock);
        self.put(record);
    }

    /// Of one kind and direction, or two, and perhaps some between that do not count.
    fn fill(&mut self, random: &mut Random) {
        let count = random.pick(&[1, 2, 9, 10, 10, 11, 11, 12]);
        let (way, has_between) = (random.below(9), random.once_in(3));
        for i in 0..count {
            if has_between && random.once_in(6) {
                self.between(random);
            }
            match way {
                0 | 1 => self.write(random.word()),
                2 => self.read(),
                3 if i < count / 2 => self.write(random.word()),
                3 => self.read(),
                4 if i < count / 2 => self.read(),
                4 => self.write(random.word()),
                5 | 6 => self.ram(false, random),
                7 => self.ram(true, random),
                _ => {
                    let write = random.once_in(2);
                    self.ram(write, random);
                }
            }
        }
    }

    /// Another value at the last record, if that is a read.
    fn alter(&mut self) {
        if let Some(Record::Stack { value, write: false, .. } | Record::Ram { value, write: false, .. }) = self.made.last_mut() {
            *value = (*value + 1) % P;
        }
    }

    /// Brings the stack back to these words, ten at a clock.
    fn restore(&mut self, words: &[u64]) {
        let same = self.state.stack.iter().zip(words).take_while(|(one, other)| one == other).count();
        let mut reads = self.state.stack.len() - same;
        while reads > 0 {
            let ten = reads.min(MOST as usize);
            self.state.clock += 1;
            (0..ten).for_each(|_| self.read());
            reads -= ten;
        }
        for ten in words[same..].chunks(MOST as usize) {
            self.state.clock += 1;
            ten.iter().for_each(|&value| self.write(value));
        }
    }
}

impl Base {
    /// This log with a crowd in it, or up to some place, and from there on the other one.
    pub fn spliced(&self, other: &Base, random: &mut Random) -> Base {
        let mut front: Vec<Record> = self.records();
        let back = front.split_off(random.index(front.len() + 1));
        let mut state = State::opened(&self.ram);
        front.iter().for_each(|record| state.take(record));
        match random.below(5) {
            0 => self.stitched(front, &state, &other.records(), random),
            _ => self.crowded(front, state, back, random),
        }
    }

    fn records(&self) -> Vec<Record> {
        records(&self.log).map(Result::unwrap).collect()
    }

    /// The log goes on behind the crowd, at later clocks. Lent may be just what the crowd's last writes do not find.
    fn crowded(&self, front: Vec<Record>, state: State, back: Vec<Record>, random: &mut Random) -> Base {
        let (stack, clock) = (state.stack.clone(), state.clock);
        let mut crowd = Crowd { made: front, revision: self.revision, cells: state.held.len(), words: state.stack.len(), state };
        crowd.state.clock += random.below(2) as u32;
        crowd.fill(random);
        // another one at the next clock, which a record that does not count is the first to name
        if random.once_in(3) {
            crowd.state.clock += 1;
            crowd.between(random);
            crowd.fill(random);
        }
        let (cells, words) = (crowd.cells, crowd.words);
        if random.once_in(4) {
            crowd.alter();
        }
        crowd.restore(&stack);
        let later = crowd.state.clock - clock + random.below(2) as u32;
        crowd.made.extend(back.into_iter().map(|record| at(record, |clock| clock + later)));
        let mut made = Base::measured(bytes_of(&crowd.made), self.revision, self.ram.clone());
        if random.once_in(3) {
            (made.cells, made.words) = (cells, words);
        }
        made
    }

    /// From a place on at which the other one is as deep, if there is one, and at the same clock or a little later.
    fn stitched(&self, mut front: Vec<Record>, state: &State, other: &[Record], random: &mut Random) -> Base {
        let mut theirs = State::opened(&[]);
        let as_deep = |record: &Record| {
            theirs.take(record);
            theirs.stack.len() == state.stack.len()
        };
        let places: Vec<usize> = other.iter().map(as_deep).zip(1..).filter(|(is, _)| *is).map(|(_, place)| place).collect();
        let place = if places.is_empty() { random.index(other.len() + 1) } else { random.pick(&places) };
        let begins = other[place..].iter().find_map(clock_of).unwrap_or(0);
        let to = state.clock + random.pick(&[0, 0, 1, 2]);
        let mut now = to;
        for record in &other[place..] {
            let record = of_revision(self.revision, at(record.clone(), |clock| clock - begins + to), now);
            now = clock_of(&record).unwrap_or(now);
            front.push(record);
        }
        Base::measured(bytes_of(&front), self.revision, self.ram.clone())
    }
}
