//! Logs that write to more addresses than the library's table of written cells holds, so that it reads them in groups of
//! addresses: a fixed list, each log whole, cut short and damaged, in each revision, held to the model between guards.
use crate::lent::{Arena, Lent};
use host::field::{add, sub, P};
use host::model::replay::replay as model;
use host::random::Random;
use host::work::{in_pieces, Counts, Watched};
use kixombu::exports::replay;
use kixombu::{bytes_of, Record};
use std::collections::BTreeMap;

/// The addresses in the order of their first writes. Those next to them stay free, but for some of the opening.
type Order = fn(u64) -> u64;
const ORDERS: [(&str, Order); 6] = [
    ("ascending", |i| 1_000 + 2 * i),
    ("descending", |i| 1_000_000_000 - 2 * i),
    ("scattered", |i| i.wrapping_mul(0x9e37_79b9_7f4a_7c15) >> 1),
    ("eight clusters", |i| ((i % 8) << 60) + 2 * (i / 8)),
    ("upward around p", |i| add(P - 20_001, 2 * i)),
    ("downward around p", |i| sub(20_001, 2 * i)),
];
const ADDRESSES: [u64; 3] = [20_000, 50_000, 100_000];
/// Whether the opening has the i-th of these addresses, and the one behind it.
const OPENINGS: [fn(u64) -> (bool, bool); 3] = [|_| (false, false), |i| (i % 20 == 0, i % 20 == 7), |i| (i % 2 == 0, true)];
/// What all of them together must meet.
const KINDS: [&str; 6] =
    ["replayed whole", "replayed to a clock", "refused with 40", "refused with 43", "refused with 44", "refused with 45"];

pub fn check() -> Result<(), String> {
    let pieces = (ORDERS.len() * ADDRESSES.len()) as u64;
    let repeat = |piece, call| format!("replay large; it is log {piece}, call {call}");
    let counts = in_pieces(pieces, piece, repeat)?;
    let missing: Vec<&str> = KINDS.iter().filter(|kind| !counts.contains_key(*kind)).copied().collect();
    if !missing.is_empty() {
        return Err(format!("logs of many addresses, never met: {}", missing.join(", ")));
    }
    let texts: Vec<String> = counts.iter().map(|(kind, count)| format!("{count} {kind}")).collect();
    println!("{pieces} logs of 20,000 to 100,000 addresses: {}", texts.join(", "));
    Ok(())
}

fn piece(piece: u64, watched: &Watched) -> Result<Counts<&'static str>, String> {
    let (order, size) = (piece as usize % ORDERS.len(), piece as usize / ORDERS.len());
    let (name, addresses) = (ORDERS[order].0, ADDRESSES[size]);
    let large = Large::new(ORDERS[order].1, addresses, OPENINGS[(order + size) % OPENINGS.len()]);
    let opening = large.ram.len();
    let mut checked = Checked { large, counts: Counts::new(), calls: 0 };
    let found = checked.check(watched);
    found.map_err(|text| {
        format!("{addresses} addresses, {name}, {opening} cells of the opening, call {}: {text}", checked.calls)
    })?;
    Ok(checked.counts)
}

/// Every record has as many bytes.
const BYTES: usize = 25;
/// Where a record of RAM has its value, and its direction.
const VALUE: usize = 16;
const DIRECTION: usize = 24;

struct Large {
    log: Vec<u8>,
    ram: Vec<(u64, u64)>,
    /// Just what the log needs.
    cells: usize,
    last_clock: u64,
    /// Record, address and clock of each read of RAM.
    reads: Vec<(usize, u64, u64)>,
}

impl Large {
    /// Writes to so many addresses, and between them reads of what is written, of the opening and of absent addresses, rewrites,
    /// and now and then a word on the stack and off again.
    fn new(order: Order, addresses: u64, opening: fn(u64) -> (bool, bool)) -> Large {
        let mut random = Random::new(addresses);
        let mut held = BTreeMap::new();
        for i in 0..addresses {
            let (itself, behind) = opening(i);
            if itself {
                held.insert(order(i), random.word());
            }
            if behind {
                held.insert(add(order(i), 1), random.word());
            }
        }
        let ram: Vec<(u64, u64)> = held.iter().map(|(&address, &value)| (address, value)).collect();
        let (mut records, mut reads) = (vec![], vec![]);
        for i in 0..addresses {
            let clock = 2 * i as u32;
            let value = random.word();
            held.insert(order(i), value);
            records.push(Record::Ram { clock, address: order(i), value, write: true });
            let written = order(random.below(i + 1));
            match i % 4 {
                0 => {
                    let value = random.word();
                    held.insert(written, value);
                    records.push(Record::Ram { clock, address: written, value, write: true });
                }
                1 if i % 16 == 1 => {
                    records.push(Record::Stack { clock, pointer: 16, write: true, value });
                    records.push(Record::Stack { clock: clock + 1, pointer: 16, write: false, value });
                }
                _ => {
                    let address = match i % 4 {
                        1 if !ram.is_empty() => random.pick(&ram).0,
                        2 => written,
                        _ => add(written, 1),
                    };
                    let value = held.get(&address).copied().unwrap_or(0);
                    reads.push((records.len(), address, clock.into()));
                    records.push(Record::Ram { clock, address, value, write: false });
                }
            }
        }
        Large { log: bytes_of(&records), ram, cells: held.len(), last_clock: 2 * (addresses - 1), reads }
    }

    /// Of the reads in a part of the log, counted in tenths, those at the lowest, the middle and the highest address.
    fn reads_at(&self, tenths: std::ops::Range<usize>) -> Vec<(usize, u64)> {
        let (from, to) = (self.reads.len() * tenths.start / 10, self.reads.len() * tenths.end / 10);
        let mut reads = self.reads[from..to].to_vec();
        reads.sort_unstable_by_key(|read| read.1);
        [0, reads.len() / 2, reads.len() - 1].map(|place| (reads[place].0, reads[place].2)).into()
    }

    /// Gives a record of RAM another value, and tells the one that it had.
    fn set(&mut self, record: usize, value: u64) -> u64 {
        let at = BYTES * record + VALUE;
        let then = u64::from_le_bytes(self.log[at..at + 8].try_into().unwrap());
        self.log[at..at + 8].copy_from_slice(&value.to_le_bytes());
        then
    }

    /// Repeats a read, which is its clock's second record of RAM, until there are eleven; gives the eleventh.
    fn crowd(&mut self, record: usize) -> usize {
        let (from, to) = (BYTES * record, BYTES * (record + 1));
        let more = self.log[from..to].repeat(9);
        self.log.splice(to..to, more);
        record + 9
    }

    /// The log without them.
    fn thin(&mut self, record: usize) {
        self.log.drain(BYTES * (record + 1)..BYTES * (record + 10));
    }

    /// Another word at a read; gives what was there.
    fn alter(&mut self, record: usize) -> u64 {
        let then = self.set(record, 0);
        self.set(record, (then + 1) % P);
        then
    }
}

struct Checked {
    large: Large,
    counts: Counts<&'static str>,
    calls: u64,
}

impl Checked {
    fn check(&mut self, watched: &Watched) -> Result<(), String> {
        let (needed, opening, last) = (self.large.cells, self.large.ram.len(), self.large.last_clock);
        for (cells, clock) in [(needed, u64::MAX), (needed + 5, last + 1), (needed, last), (needed, last / 2), (needed, 0)] {
            self.call(cells, clock, Some(0), watched)?;
        }
        // too few cells, found at the last new address or before
        for cells in [needed - 1, opening + (needed - opening) / 2, opening] {
            self.call(cells, u64::MAX, Some(44), watched)?;
        }

        let (early, late) = (self.large.reads_at(1..5), self.large.reads_at(9..10));
        for &(record, clock) in early.iter().chain(&late) {
            let then = self.large.alter(record);
            self.call(needed, u64::MAX, Some(43), watched)?;
            self.call(needed - 1, clock + 1, None, watched)?;
            // it is not seen
            self.call(needed, clock, Some(0), watched)?;
            self.large.set(record, then);
        }
        // a wrong read behind or before a cell too few, and two wrong reads
        for (&(first, _), &(second, _)) in early.iter().rev().zip(&late) {
            let of_second = self.large.alter(second);
            self.call(opening + (needed - opening) / 2, u64::MAX, Some(44), watched)?;
            let of_first = self.large.alter(first);
            self.call(needed - 1, u64::MAX, Some(43), watched)?;
            self.large.set(first, of_first);
            self.large.set(second, of_second);
        }

        self.crowded(&early, &late, watched)?;

        // the last record cut short, behind everything else
        self.large.log.pop();
        self.call(needed, u64::MAX, Some(40), watched)?;
        self.call(opening, u64::MAX, Some(44), watched)?;
        self.large.alter(early[0].0);
        self.call(needed, u64::MAX, Some(43), watched)
    }

    /// An eleventh record of RAM for a clock: a read, right or wrong, and a write; behind a cell too few, and behind the stop.
    fn crowded(&mut self, early: &[(usize, u64)], late: &[(usize, u64)], watched: &Watched) -> Result<(), String> {
        let (needed, opening) = (self.large.cells, self.large.ram.len());
        for &(record, clock) in early.iter().chain(late) {
            let eleventh = self.large.crowd(record);
            self.call(needed, u64::MAX, Some(45), watched)?;
            self.call(needed, clock, Some(0), watched)?;
            let then = self.large.alter(eleventh);
            self.call(needed, clock + 1, Some(43), watched)?;
            self.large.set(eleventh, then);
            self.large.log[BYTES * eleventh + DIRECTION] = 1;
            self.call(needed, clock + 1, Some(45), watched)?;
            self.call(opening, u64::MAX, None, watched)?;
            self.large.thin(record);
        }
        // a cell too few and a wrong read, before it
        self.large.crowd(late[0].0);
        self.call(opening, u64::MAX, Some(44), watched)?;
        let then = self.large.alter(early[0].0);
        self.call(needed, u64::MAX, Some(43), watched)?;
        self.large.set(early[0].0, then);
        self.large.thin(late[0].0);
        Ok(())
    }

    /// A call with so many cells in each revision, which must come to what the model does, and to this number.
    fn call(&mut self, cells: usize, clock: u64, number: Option<u64>, watched: &Watched) -> Result<(), String> {
        let log = self.large.log.clone();
        let by_model = self.call_in(1, &log, cells, clock, number, watched)?;
        let found = self.call_in(2, &clocked(&log), cells, clock, Some(by_model), watched);
        found.map(|_| ()).map_err(|text| format!("revision 2, {text}"))
    }

    /// Gives the model's number.
    fn call_in(
        &mut self,
        revision: u64,
        log: &[u8],
        cells: usize,
        clock: u64,
        number: Option<u64>,
        watched: &Watched,
    ) -> Result<u64, String> {
        let ram = &self.large.ram;
        self.calls += 1;
        let mut lent = Lent {
            answer: vec![9; 3],
            revision,
            clock,
            cells: ram.len() as u64,
            // no words, and they stay
            addresses: vec![u64::MAX; cells],
            values: vec![u64::MAX - 1; cells],
            words: vec![0; 1],
        };
        for (i, &(address, value)) in ram.iter().enumerate() {
            (lent.addresses[i], lent.values[i]) = (address, value);
        }
        let mut expected = lent.clone();
        let by_model = expected.replay(model, log);
        if number.is_some_and(|number| number != by_model) {
            return Err(format!("the model gives {by_model} instead of {number:?}"));
        }
        watched.begins(self.calls);
        let found = Arena::new(self.calls).replay(replay, log, &lent, (by_model, &expected));
        watched.ends();
        let kind = match by_model {
            0 if clock > self.large.last_clock => "replayed whole",
            0 => "replayed to a clock",
            40 => "refused with 40",
            43 => "refused with 43",
            44 => "refused with 44",
            45 => "refused with 45",
            _ => "refused with another number",
        };
        *self.counts.entry(kind).or_default() += 1;
        found.map_err(|text| format!("{cells} cells, clock {clock}: {text}"))?;
        Ok(by_model)
    }
}

/// The log in revision 2, with a U32 record before every eighth record, at its clock.
fn clocked(log: &[u8]) -> Vec<u8> {
    let mut made = vec![];
    for (i, record) in log.chunks(BYTES).enumerate() {
        if i % 8 == 0 {
            let clock = u32::from_le_bytes(record[4..8].try_into().unwrap());
            Record::U32 { clock: Some(clock), opcode: 4, left: i as u64, right: u64::MAX }.put(&mut made);
        }
        made.extend(record);
    }
    made
}
