//! Damaged logs: each replayed twice between guards and held to the model.
use crate::damage::{input, Base};
use crate::lent::{Arena, Lent};
use crate::revisions::met;
use crate::splice::{breaking, Breaking};
use host::model::replay::replay_by_bytes as model;
use host::random::Random;
use host::work::{Counts, Watched};
use kixombu::exports::{replay, replayed};
use kixombu::Record;

/// How many calls are one piece of work, and from how many sound logs.
pub const PIECE: u64 = 20_000;
const BASES: usize = 40;

/// What a run has to meet.
pub const KINDS: [&str; 23] = [
    "replayed whole",
    "replayed to a clock",
    "refused with 1",
    "refused with 2",
    "refused with 4",
    "refused with 5",
    "refused with 5, an address twice",
    "refused with 5, addresses fall",
    "refused with 40",
    "refused with 41",
    "refused with 42",
    "refused with 43",
    "refused with 43, an eleventh RAM read",
    "refused with 44",
    "refused with 45, a stack read behind a write",
    "refused with 45, a stack write behind a read",
    "refused with 45, an eleventh stack read",
    "refused with 45, an eleventh stack write",
    "refused with 45, an eleventh stack write, no word left",
    "refused with 45, an eleventh RAM read",
    "refused with 45, an eleventh RAM write",
    "refused with 45, an eleventh RAM write, no cell left",
    "answers of another length",
];

pub fn piece(seed: u64, piece: u64, watched: &Watched) -> Result<Counts<&'static str>, String> {
    let mut random = Random::for_piece(seed, piece);
    let bases: Vec<Base> = (0..BASES).map(|_| Base::new(&mut random)).collect();
    let mut arenas = [Arena::new(0xa5a5_a5a5_a5a5_a5a5), Arena::new(0x0123_4567_89ab_cdef)];
    let mut counts = Counts::new();
    for call in 0..PIECE {
        let (log, lent) = input(&bases, &mut random);
        watched.begins(call);
        let (kind, of_revisions) =
            compare(&log, &lent, &mut arenas).map_err(|text| format!("call {call}: {text}\nlog: {log:?}\nlent: {lent:?}"))?;
        watched.ends();
        for kind in [kind].into_iter().chain(of_revisions) {
            *counts.entry(kind).or_default() += 1;
        }
    }
    Ok(counts)
}

/// What a call met: one of `KINDS`, and perhaps one of `revisions::KINDS`.
type Met = (&'static str, Option<&'static str>);

/// The library twice, with other guards the second time, beside the model.
fn compare(log: &[u8], lent: &Lent, arenas: &mut [Arena; 2]) -> Result<Met, String> {
    let mut expected = lent.clone();
    let number = expected.replay(model, log);
    let unchanged = Lent { answer: expected.answer.clone(), ..lent.clone() };
    if number != 0 && expected != unchanged {
        return Err(format!("the model refused with {number}, and changed something"));
    }
    for arena in arenas {
        arena.replay(replay, log, lent, (number, &expected))?;
    }
    Ok((kind(number, log, lent)?, met(number, log, lent)))
}

fn kind(number: u64, log: &[u8], lent: &Lent) -> Result<&'static str, String> {
    Ok(match number {
        _ if lent.answer.len() != 3 => "answers of another length",
        0 if lent.clock >= 1 << 32 => "replayed whole",
        0 => "replayed to a clock",
        1 => "refused with 1",
        2 => "refused with 2",
        4 => "refused with 4",
        5 => neighbours(lent),
        40 => "refused with 40",
        41 => "refused with 41",
        42 => "refused with 42",
        43 => crowded(43, log, lent).unwrap_or("refused with 43"),
        44 => "refused with 44",
        45 => crowded(45, log, lent).ok_or("the model refused with 45, which is for another record")?,
        _ => "refused with a number that is not replay's",
    })
}

/// What the first record is that breaks the rule for its clock, if that is the one refused.
fn crowded(number: u64, log: &[u8], lent: &Lent) -> Option<&'static str> {
    let Breaking { place, record, turns, .. } = breaking(log)?;
    let mut before = lent.clone();
    if before.replay(model, &log[..place]) != 0 || lent.clone().replay(model, &log[..place + 25]) != number {
        return None;
    }
    let (depth, cells) = (before.answer[replayed::DEPTH] as usize, before.answer[replayed::CELLS] as usize);
    let has_word = depth - 16 < before.words.len();
    let has_cell = |address| cells < before.addresses.len() || before.addresses[..cells].contains(&address);
    Some(match (number, record) {
        (43, Record::Ram { .. }) => "refused with 43, an eleventh RAM read",
        (45, Record::Stack { write: false, .. }) if turns => "refused with 45, a stack read behind a write",
        (45, Record::Stack { .. }) if turns => "refused with 45, a stack write behind a read",
        (45, Record::Stack { write: false, .. }) => "refused with 45, an eleventh stack read",
        (45, Record::Stack { .. }) if has_word => "refused with 45, an eleventh stack write",
        (45, Record::Stack { .. }) => "refused with 45, an eleventh stack write, no word left",
        (45, Record::Ram { write: false, .. }) => "refused with 45, an eleventh RAM read",
        (45, Record::Ram { address, .. }) if has_cell(address) => "refused with 45, an eleventh RAM write",
        (45, Record::Ram { .. }) => "refused with 45, an eleventh RAM write, no cell left",
        _ => return None,
    })
}

/// What is wrong with the used cells' order, if that is why.
fn neighbours(lent: &Lent) -> &'static str {
    let used = lent.addresses.len().min(lent.cells as usize);
    let pairs = || lent.addresses[..used].windows(2);
    match () {
        () if pairs().any(|pair| pair[0] > pair[1]) => "refused with 5, addresses fall",
        () if pairs().any(|pair| pair[0] == pair[1]) => "refused with 5, an address twice",
        () => "refused with 5",
    }
}
