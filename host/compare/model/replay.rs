//! Replay on a hash map and plain containers: the model to compare with, and what the benchmark measures against. The cells are
//! sorted once, at the end.
#![allow(clippy::too_many_arguments)]
use super::place_a::{ascend, is_revision};
use crate::field::P;
use kixombu::exports::{replayed, LONGEST};
use std::collections::HashMap;

/// A call in the shape of the library's: answer, log, revision, clock, cells, addresses, values, words.
pub type Replay = fn(&mut [u64], &[u8], u64, u64, u64, &mut [u64], &mut [u64], &mut [u64]) -> u64;

/// Gives the number, and fills the answer, if it has the length of one. A logged number is compared with p whole.
pub fn replay(
    answer: &mut [u64],
    log: &[u8],
    revision: u64,
    clock: u64,
    cells: u64,
    addresses: &mut [u64],
    values: &mut [u64],
    words: &mut [u64],
) -> u64 {
    replay_by::<false>(answer, log, revision, clock, cells, addresses, values, words)
}

/// The same, but that a logged number is compared with p byte by byte, which is how document 02 defines it.
pub fn replay_by_bytes(
    answer: &mut [u64],
    log: &[u8],
    revision: u64,
    clock: u64,
    cells: u64,
    addresses: &mut [u64],
    values: &mut [u64],
    words: &mut [u64],
) -> u64 {
    replay_by::<true>(answer, log, revision, clock, cells, addresses, values, words)
}

fn replay_by<const BYTES: bool>(
    answer: &mut [u64],
    log: &[u8],
    revision: u64,
    clock: u64,
    cells: u64,
    addresses: &mut [u64],
    values: &mut [u64],
    words: &mut [u64],
) -> u64 {
    if answer.len() != replayed::ALL {
        return 1;
    }
    let built = Built::opening(log, revision, cells, addresses, values, words)
        .and_then(|opening| opening.read::<BYTES>(log, revision, clock, addresses.len(), words.len()));
    let (number, depth, cells) = match built {
        Ok(built) => built.store(addresses, values, words),
        Err(number) => (number, 0, 0),
    };
    answer.copy_from_slice(&[number, depth, cells]);
    number
}

/// What is rebuilt so far.
struct Built {
    /// The words below the top sixteen.
    stack: Vec<u64>,
    ram: HashMap<u64, u64>,
}

/// How many stack and RAM records the last clock has that one of them names.
#[derive(Default)]
struct AtClock {
    stack_writes: u32,
    stack_reads: u32,
    ram: u32,
}

impl AtClock {
    /// So many stack records, all in one direction, and so many of RAM may a clock have.
    const MOST: u32 = 10;

    fn stack_write(&mut self) -> Result<(), u64> {
        if self.stack_reads > 0 || self.stack_writes == Self::MOST {
            return Err(45);
        }
        self.stack_writes += 1;
        Ok(())
    }

    fn stack_read(&mut self) -> Result<(), u64> {
        if self.stack_writes > 0 || self.stack_reads == Self::MOST {
            return Err(45);
        }
        self.stack_reads += 1;
        Ok(())
    }

    fn ram_record(&mut self) -> Result<(), u64> {
        if self.ram == Self::MOST {
            return Err(45);
        }
        self.ram += 1;
        Ok(())
    }
}

impl Built {
    /// Place A, and the opening's cells.
    fn opening(log: &[u8], revision: u64, cells: u64, addresses: &[u64], values: &[u64], words: &[u64]) -> Result<Built, u64> {
        let longest = log.len().max(addresses.len()).max(values.len()).max(words.len());
        if longest > LONGEST || addresses.len() != values.len() {
            return Err(1);
        }
        let used = usize::try_from(cells).unwrap_or(usize::MAX).min(addresses.len());
        if addresses[..used].iter().chain(&values[..used]).any(|&word| word >= P) {
            return Err(2);
        }
        if !is_revision(revision) {
            return Err(4);
        }
        if used as u64 != cells || !ascend(&addresses[..used]) || words.iter().any(|&word| word != 0) {
            return Err(5);
        }
        let ram = addresses[..used].iter().copied().zip(values.iter().copied()).collect();
        Ok(Built { stack: vec![], ram })
    }

    /// Place E, record by record.
    fn read<const BYTES: bool>(
        mut self,
        log: &[u8],
        revision: u64,
        clock: u64,
        most_cells: usize,
        most_words: usize,
    ) -> Result<Built, u64> {
        // the counts are no part of `self`, where they would be kept in memory: half as long again for a stack record
        let (mut left, mut at_clock) = (log, AtClock::default());
        // kinds 6 and 7 do not count, and so the last clock may be further than the counted one
        let (mut last, mut counted) = (0, 0);
        while !left.is_empty() {
            let (kind, fields) = record(left, revision).ok_or(40_u64)?;
            left = &left[4 + fields.len()..];
            if kind < 4 {
                continue;
            }
            let time = number(&fields[..4]);
            if time >= clock {
                break;
            }
            // document 02: kinds 6 and 7 have a clock, and their other fields are only measured
            if kind > 5 {
                last = not_before(last, time)?;
                continue;
            }
            // a stack record has its direction before the value
            let at = word::<BYTES>(&fields[4..12]);
            let (way, value) = match kind {
                4 => (fields[12], word::<BYTES>(&fields[13..21])),
                _ => (fields[20], word::<BYTES>(&fields[12..20])),
            };
            let (0 | 1, Some(at), Some(value)) = (way, at, value) else {
                return Err(40);
            };
            last = not_before(last, time)?;
            if time > counted {
                (counted, at_clock) = (time, AtClock::default());
            }
            match (kind, way) {
                (4, 1) => self.stack_write(at, value, most_words, &mut at_clock)?,
                (4, _) => self.stack_read(at, value, &mut at_clock)?,
                (_, 1) => self.ram_write(at, value, most_cells, &mut at_clock)?,
                _ => self.ram_read(at, value, &mut at_clock)?,
            }
        }
        Ok(self)
    }

    fn depth(&self) -> u64 {
        self.stack.len() as u64 + 16
    }

    fn stack_write(&mut self, pointer: u64, value: u64, most: usize, at_clock: &mut AtClock) -> Result<(), u64> {
        if pointer != self.depth() {
            return Err(42);
        }
        at_clock.stack_write()?;
        if self.stack.len() == most {
            return Err(44);
        }
        self.stack.push(value);
        Ok(())
    }

    fn stack_read(&mut self, pointer: u64, value: u64, at_clock: &mut AtClock) -> Result<(), u64> {
        if self.stack.is_empty() || pointer != self.depth() - 1 {
            return Err(42);
        }
        match self.stack.pop() {
            Some(held) if held == value => at_clock.stack_read(),
            _ => Err(43),
        }
    }

    fn ram_write(&mut self, address: u64, value: u64, most: usize, at_clock: &mut AtClock) -> Result<(), u64> {
        at_clock.ram_record()?;
        let is_full = self.ram.len() == most;
        match self.ram.get_mut(&address) {
            Some(held) => *held = value,
            None if is_full => return Err(44),
            None => {
                self.ram.insert(address, value);
            }
        }
        Ok(())
    }

    fn ram_read(&mut self, address: u64, value: u64, at_clock: &mut AtClock) -> Result<(), u64> {
        match self.ram.get(&address).copied().unwrap_or(0) == value {
            true => at_clock.ram_record(),
            false => Err(43),
        }
    }

    /// Into what is lent, ascending; the unused cells stay, and the words behind the stack are 0 as they were.
    fn store(self, addresses: &mut [u64], values: &mut [u64], words: &mut [u64]) -> (u64, u64, u64) {
        words[..self.stack.len()].copy_from_slice(&self.stack);
        let depth = self.depth();
        let mut cells: Vec<(u64, u64)> = self.ram.into_iter().collect();
        cells.sort_unstable();
        for (place, &(address, value)) in cells.iter().enumerate() {
            addresses[place] = address;
            values[place] = value;
        }
        (0, depth, cells.len() as u64)
    }
}

/// The clock of a record of kinds 4 to 7, which may not be below the last one.
fn not_before(last: u64, clock: u64) -> Result<u64, u64> {
    if clock < last {
        return Err(41);
    }
    Ok(clock)
}

/// Kind and fields of the record at the start; none if it is cut short, of a kind that the revision has not or of another length.
fn record(log: &[u8], revision: u64) -> Option<(u64, &[u8])> {
    let (length, kind) = (number(log.get(..2)?), number(log.get(2..4)?));
    let expected = match kind {
        1 => 2,
        2 if revision == 1 => 772,
        3 if revision == 1 => 20,
        4 | 5 => 23,
        6 if revision == 2 => 776,
        7 if revision == 2 => 24,
        _ => return None,
    };
    if length != expected {
        return None;
    }
    Some((kind, log.get(4..2 + expected as usize)?))
}

/// The number of eight bytes, if it is below p. By bytes, the first from the top that is not p's decides.
pub(super) fn word<const BYTES: bool>(bytes: &[u8]) -> Option<u64> {
    let is_below = if BYTES {
        let differing = bytes.iter().zip(P.to_le_bytes()).rev().find(|(&byte, of_p)| byte != *of_p);
        differing.is_some_and(|(&byte, of_p)| byte < of_p)
    } else {
        number(bytes) < P
    };
    is_below.then(|| number(bytes))
}

fn number(bytes: &[u8]) -> u64 {
    bytes.iter().rev().fold(0, |number, &byte| number << 8 | u64::from(byte))
}
