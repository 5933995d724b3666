//! Sound logs, and logs and lent slices damaged in a place or a few.
use crate::lent::Lent;
use crate::revisions::{measured, mix, of_revision};
use crate::splice::Clock;
use host::cells::{cells, cells_at, disorder, near, spread};
use host::field::{add, sub, P};
use host::programs::{program, remembering};
use host::random::Random;
use kixombu::exports::replayed;
use kixombu::{bytes_of, records_of, Job, Opening, Record, Revision, Sizes};
use std::collections::{BTreeMap, BTreeSet};

/// A sound log, and what it needs.
pub struct Base {
    pub log: Vec<u8>,
    pub revision: Revision,
    pub ram: Vec<(u64, u64)>,
    /// Words below the top sixteen and cells, at most.
    pub words: usize,
    pub cells: usize,
    last_clock: u64,
}

impl Base {
    pub fn new(random: &mut Random) -> Base {
        if random.once_in(2) {
            Base::of_a_job(random)
        } else {
            Base::of_memory(random)
        }
    }

    /// The first steps of a random program, recorded by the library.
    fn of_a_job(random: &mut Random) -> Base {
        let job = if random.once_in(2) { program(random) } else { remembering(random) };
        let revision = random.pick(&Revision::ALL);
        let opening = Opening { revision, ..job.opening() };
        let mut opened = Job::open(&opening, Sizes::RUNJOB).expect("a random program opens");
        let mut log = vec![0; 20_000];
        let budget = random.between(1, 150);
        let ran = opened.trace_execution(budget, &mut log);
        log.truncate(ran.bytes);
        Base::measured(log, revision, job.ram)
    }

    /// Stack and RAM records, as a job might write them, and some that are only measured.
    fn of_memory(random: &mut Random) -> Base {
        // few cells and records, or many
        let is_long = random.once_in(20);
        let (most_cells, most_records) = if is_long { (300, 2_000) } else { (8, 120) };
        let ram = if is_long { cells_at(spread, random, most_cells) } else { cells(random, most_cells) };
        let mut held: BTreeMap<u64, u64> = ram.iter().copied().collect();
        let mut known: Vec<u64> = held.keys().copied().collect();
        let mut next_address = walk(random, is_long);
        let revision = random.pick(&Revision::ALL);
        // few records for a clock, or many
        let pace = random.pick(&[1, 1, 4, 30]);
        let (mut stack, mut all, mut at) = (vec![], vec![], Clock::default());
        for _ in 0..random.between(1, most_records) {
            if random.once_in(pace) {
                at.advance(random.below(3) as u32);
            }
            if random.once_in(10) {
                all.push(of_revision(revision, measured(random), at.clock));
            }
            let clock = at.clock;
            let pointer = stack.len() as u64 + 16;
            let again = !known.is_empty() && random.once_in(4);
            let address = if again { random.pick(&known) } else { next_address(random) };
            let value = random.word();
            let record = match (random.below(4), stack.last().copied()) {
                (0, Some(value)) => {
                    stack.pop();
                    Record::Stack { clock, pointer: pointer - 1, write: false, value }
                }
                (0 | 1, _) => {
                    stack.push(value);
                    Record::Stack { clock, pointer, write: true, value }
                }
                (2, _) => Record::Ram { clock, address, value: held.get(&address).copied().unwrap_or(0), write: false },
                _ => {
                    if held.insert(address, value).is_none() {
                        known.push(address);
                    }
                    Record::Ram { clock, address, value, write: true }
                }
            };
            all.push(at.put(record));
        }
        Base::measured(bytes_of(&all), revision, ram)
    }

    pub fn measured(log: Vec<u8>, revision: Revision, ram: Vec<(u64, u64)>) -> Base {
        let mut held: BTreeSet<u64> = ram.iter().map(|cell| cell.0).collect();
        let (mut words, mut last_clock) = (0, 0);
        for record in records_of(&log, revision) {
            match record.expect("the log is sound") {
                Record::Stack { clock, pointer, .. } => {
                    words = words.max(pointer as usize - 15);
                    last_clock = clock.into();
                }
                Record::Ram { clock, address, write, .. } => {
                    if write {
                        held.insert(address);
                    }
                    last_clock = clock.into();
                }
                Record::Tip5 { clock: Some(clock), .. } | Record::U32 { clock: Some(clock), .. } => last_clock = clock.into(),
                _ => {}
            }
        }
        Base { log, revision, ram, words, cells: held.len(), last_clock }
    }

    /// Just what the log needs, or a little more, or a cell too few, and the whole log or a part of it to be read.
    fn lent(&self, random: &mut Random) -> Lent {
        let (mut cells, words) = (self.cells + random.index(3), self.words + random.index(3));
        if self.cells > self.ram.len() && random.once_in(8) {
            cells = self.cells - 1;
        }
        // unused cells may hold anything, numbers that are no words too
        let any = |random: &mut Random| if random.once_in(4) { random.too_large() } else { random.next() };
        let mut some = |n: usize| -> Vec<u64> { (0..n).map(|_| any(random)).collect() };
        let (answer, mut addresses, mut values) = (some(replayed::ALL), some(cells), some(cells));
        for (i, &(address, value)) in self.ram.iter().enumerate() {
            addresses[i] = address;
            values[i] = value;
        }
        let clock = match random.below(8) {
            0 => random.pick(&[0, 1, 1 << 32, (1 << 32) - 1, self.last_clock]),
            1 | 2 => random.below(self.last_clock + 2),
            _ => random.pick(&[u64::MAX, self.last_clock + 1]),
        };
        let other = random.next();
        // those whose lower bytes are a revision too
        let any = [0, 1, 1, 2, 2, 3, (1 << 8) + 1, (1 << 32) + 2, (1 << 63) + 1, u64::MAX, other];
        let revision = if random.once_in(12) { random.pick(&any) } else { self.revision.number() };
        Lent { answer, revision, clock, cells: self.ram.len() as u64, addresses, values, words: vec![0; words] }
    }
}

/// A log's addresses: near one another, one above or below the other, around p too, or anywhere.
fn walk(random: &mut Random, is_long: bool) -> impl FnMut(&mut Random) -> u64 {
    let (way, stride) = (random.below(6), random.pick(&[1, 1, 2, 1 << 32]));
    let mut at = near(random);
    move |random| match way {
        0 => {
            at = add(at, stride);
            at
        }
        1 => {
            at = sub(at, stride);
            at
        }
        2 => random.below(P),
        _ if is_long => spread(random),
        _ => near(random),
    }
}

/// A log and what is lent for it: sound, or one of them damaged, or both. Some logs are spliced.
pub fn input(bases: &[Base], random: &mut Random) -> (Vec<u8>, Lent) {
    let base = &bases[random.index(bases.len())];
    let is_spliced = random.once_in(6);
    let spliced = is_spliced.then(|| base.spliced(&bases[random.index(bases.len())], random));
    let base = spliced.as_ref().unwrap_or(base);
    let (mut log, mut lent) = (base.log.clone(), base.lent(random));
    if random.once_in(6) {
        (0..random.pick(&[1, 1, 2, 3])).for_each(|_| damage_lent(&mut lent, random));
    }
    let is_damaged = if is_spliced { random.once_in(4) } else { !random.once_in(8) };
    if is_damaged {
        for _ in 0..random.pick(&[1, 1, 1, 2, 3]) {
            damage_log(&mut log, bases, random);
        }
    }
    (log, lent)
}

/// Where the records begin that have the length of their kind, by their lengths alone.
fn starts(log: &[u8]) -> Vec<usize> {
    let mut starts = vec![];
    let mut at = 0;
    while at + 4 <= log.len() {
        starts.push(at);
        at += 2 + u16::from_le_bytes([log[at], log[at + 1]]) as usize;
    }
    starts
}

/// One place changed, or a part moved.
fn damage_log(log: &mut Vec<u8>, bases: &[Base], random: &mut Random) {
    let all = starts(log);
    if all.is_empty() {
        log.extend((0..random.below(30)).map(|_| random.below(6) as u8));
        return;
    }
    let place = random.index(all.len());
    let at = all[place];
    let end = all.get(place + 1).copied().unwrap_or(log.len());
    match random.below(19) {
        0 => log.truncate(random.index(log.len())),
        1 => log.truncate(at),
        2 => {
            let byte = random.index(log.len());
            log[byte] ^= 1 << random.below(8);
        }
        3 => {
            let byte = random.index(log.len());
            log[byte] = random.next() as u8;
        }
        // a part of another log, at a record's start or anywhere
        4 | 5 => {
            let other = &bases[random.index(bases.len())].log;
            let from = random.index(other.len() + 1);
            let to = from + random.index((other.len() - from).min(200) + 1);
            let to_place = if random.once_in(3) { random.index(log.len()) } else { at };
            log.splice(to_place..to_place, other[from..to].iter().copied());
        }
        6 => {
            let length = random.pick(&[0, 1, 2, 20, 22, 23, 24, 25, 26, 772, 774, 776, 778, 0xffff]);
            set(log, at, 2, length);
        }
        7 => {
            let kind = random.pick(&[0, 1, 2, 3, 4, 4, 5, 5, 6, 7, 8, 11, 0x104, 0x107, 0xffff]);
            set(log, at + 2, 2, kind);
        }
        // two neighbours, or two any, swapped
        8 | 9 => {
            let other = if random.once_in(2) { place + 1 } else { random.index(all.len()) };
            swap(log, &all, place, other);
        }
        10 => {
            let clock = random.pick(&[0, 1, 7, 0xffff_ffff, 0x8000_0000]);
            set(log, at + 4, 4, clock);
        }
        11 => {
            let clock = get(log, at + 4, 4).wrapping_add(random.pick(&[1, 2, u64::MAX]));
            set(log, at + 4, 4, clock);
        }
        12 => drop(log.drain(at..end)),
        13 => {
            let record = log[at..end].to_vec();
            log.splice(at..at, record);
        }
        14..=16 => mix(log, &all, place, random),
        _ => damage_fields(log, at, random),
    }
}

/// Pointer or address, value, or direction of a record.
fn damage_fields(log: &mut [u8], at: usize, random: &mut Random) {
    let is_stack = get(log, at + 2, 2) == 4;
    let (value, way) = if is_stack { (at + 17, at + 16) } else { (at + 16, at + 24) };
    let word_at = match random.below(3) {
        0 => at + 8,
        1 => value,
        _ => {
            let direction = random.pick(&[0, 0, 1, 1, 2, 0xff]);
            return set(log, way, 1, direction);
        }
    };
    let word = match random.below(5) {
        0 => random.too_large(),
        1 => random.word(),
        2 => random.pick(&[0, 15, 16, 17, P - 1]),
        _ => get(log, word_at, 8).wrapping_add(random.pick(&[1, u64::MAX])),
    };
    set(log, word_at, 8, word);
}

fn get(log: &[u8], at: usize, bytes: usize) -> u64 {
    let bytes = log.get(at..at + bytes).unwrap_or_default();
    bytes.iter().rev().fold(0, |number, &byte| number << 8 | u64::from(byte))
}

/// As many of the bytes as the log has.
fn set(log: &mut [u8], at: usize, bytes: usize, number: u64) {
    let places = log.iter_mut().skip(at).take(bytes);
    places.zip(number.to_le_bytes()).for_each(|(place, byte)| *place = byte);
}

fn swap(log: &mut Vec<u8>, starts: &[usize], one: usize, other: usize) {
    let (first, second) = (one.min(other), one.max(other));
    if first == second || second >= starts.len() {
        return;
    }
    let end = |place: usize| starts.get(place + 1).copied().unwrap_or(log.len()).min(log.len());
    let parts = [&log[starts[second]..end(second)], &log[end(first)..starts[second]], &log[starts[first]..end(first)]];
    let swapped = parts.concat();
    let (from, to) = (starts[first], end(second));
    log.splice(from..to, swapped);
}

fn damage_lent(lent: &mut Lent, random: &mut Random) {
    let cells = lent.addresses.len();
    match random.below(12) {
        0 => lent.answer.resize(random.index(6), 7),
        1 => lent.cells = random.pick(&[0, lent.cells + 1, cells as u64, cells as u64 + 1, u64::MAX, 1 << 32]),
        2 | 3 => {
            let number = random.pick(&[1, P - 1, P, u64::MAX]);
            pick_mut(&mut lent.words, random).into_iter().for_each(|word| *word = number);
        }
        4 => pick_mut(&mut lent.addresses, random).into_iter().for_each(|word| *word = random.too_large()),
        5 => pick_mut(&mut lent.values, random).into_iter().for_each(|word| *word = random.too_large()),
        6 => {
            let used = cells.min(lent.cells as usize);
            disorder(random, &mut lent.addresses[..used]);
        }
        7 => lent.addresses.truncate(random.index(cells + 1)),
        8 => lent.values.push(0),
        9 => {
            let fewer = random.index(cells + 1);
            lent.addresses.truncate(fewer);
            lent.values.truncate(fewer);
        }
        10 => lent.words.truncate(random.index(lent.words.len() + 1)),
        _ => {
            pick_mut(&mut lent.values, random).into_iter().for_each(|word| *word = random.word());
        }
    }
}

fn pick_mut<'a>(slice: &'a mut [u64], random: &mut Random) -> Option<&'a mut u64> {
    let length = slice.len();
    (length > 0).then(|| &mut slice[random.index(length)])
}
