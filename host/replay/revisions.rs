//! Logs of two revisions: records that are only measured, with a clock or without, kinds of the one in a log of the other, and
//! what of it a damaged log met.
use crate::lent::Lent;
use crate::splice::breaking;
use host::model::put_clock;
use host::model::replay::replay_by_bytes as model;
use host::random::Random;
use kixombu::exports::replayed;
use kixombu::{bytes_of, records, Record, Revision};

/// What a run of damaged logs has to meet besides `fuzz::KINDS`. A call is counted there, and perhaps here too.
pub const KINDS: [&str; 17] = [
    "revisions: 4 for 0",
    "revisions: 4 for 3",
    "revisions: 4 for a larger number",
    "revisions: 40, kind 2 in revision 2",
    "revisions: 40, kind 3 in revision 2",
    "revisions: 40, kind 6 in revision 1",
    "revisions: 40, kind 7 in revision 1",
    "revisions: 41, a clock of kind 6 falls",
    "revisions: 41, a clock of kind 7 falls",
    "revisions: 41, below a clock of kind 6 or 7 alone",
    "revisions: 45 in revision 1",
    "revisions: 45 in revision 2",
    "revisions: 45, kind 6 or 7 between",
    "revisions: taken, kind 6 or 7 first behind a full clock",
    "revisions: stopped at kind 6",
    "revisions: stopped at kind 7",
    "revisions: stopped at kind 6 or 7, before a wrong record",
];

/// A Tip5 or U32 record without a clock.
pub fn measured(random: &mut Random) -> Record {
    if random.once_in(4) {
        let state = std::array::from_fn(|_| random.next());
        return Record::Tip5 { clock: None, opcode: 18, states: Box::new([state; 6]) };
    }
    Record::U32 { clock: None, opcode: 4, left: random.next(), right: random.word() }
}

/// The record as this revision has it: in revision 2 with the clock that it has, or else with this one.
pub fn of_revision(revision: Revision, mut record: Record, now: u32) -> Record {
    match &mut record {
        Record::Tip5 { clock, .. } | Record::U32 { clock, .. } if revision == Revision::One => *clock = None,
        Record::Tip5 { clock: Some(_), .. } | Record::U32 { clock: Some(_), .. } => {}
        other => put_clock(other, now),
    }
    record
}

fn number(log: &[u8], at: usize, bytes: usize) -> u64 {
    log[at..at + bytes].iter().rev().fold(0, |number, &byte| number << 8 | u64::from(byte))
}

fn set(log: &mut [u8], at: usize, bytes: usize, number: u64) {
    log[at..at + bytes].copy_from_slice(&number.to_le_bytes()[..bytes]);
}

/// A record that is whole and has the length of its kind, in whichever revision.
struct Frame {
    at: usize,
    end: usize,
    kind: u64,
    clock: Option<u64>,
}

impl Frame {
    fn read(log: &[u8], at: usize) -> Option<Frame> {
        if at + 4 > log.len() {
            return None;
        }
        let (end, kind) = (at + 2 + number(log, at, 2) as usize, number(log, at + 2, 2));
        let bytes = [4, 774, 22, 25, 25, 778, 26].get((kind as usize).wrapping_sub(1))?;
        let is_whole = end <= log.len() && end - at == *bytes;
        is_whole.then(|| Frame { at, end, kind, clock: (kind > 3).then(|| number(log, at + 4, 4)) })
    }

    /// Up to the first record that is none.
    fn all(log: &[u8]) -> impl Iterator<Item = Frame> + '_ {
        std::iter::successors(Frame::read(log, 0), |frame| Frame::read(log, frame.end))
    }

    /// Whether it is of one revision alone, and of which.
    fn revision(&self) -> Option<u64> {
        match self.kind {
            2 | 3 => Some(1),
            6 | 7 => Some(2),
            _ => None,
        }
    }
}

/// A record of one revision made into the other's, or with another clock, or a new one put in at a place.
pub fn mix(log: &mut Vec<u8>, starts: &[usize], place: usize, random: &mut Random) {
    let at = starts[place];
    let near = Frame::read(log, at).and_then(|frame| frame.clock).unwrap_or(random.below(20)) as u32;
    let clock = near.wrapping_add(random.pick(&[0, 0, 0, 1, u32::MAX]));
    let from_here = starts[place..].iter().chain(&starts[..place]);
    let found = from_here.filter_map(|&at| Frame::read(log, at)).find(|frame| frame.revision().is_some());
    match (random.below(3), found) {
        (0, Some(Frame { at, end, kind, clock: None })) => {
            set(log, at, 2, (end - at + 2) as u64);
            set(log, at + 2, 2, kind + 4);
            log.splice(at + 4..at + 4, clock.to_le_bytes());
        }
        (0, Some(Frame { at, end, kind, .. })) => {
            set(log, at, 2, (end - at - 6) as u64);
            set(log, at + 2, 2, kind - 4);
            log.drain(at + 4..at + 8);
        }
        (1, Some(Frame { at, clock: Some(now), .. })) => {
            let clock = random.pick(&[0, 1, 0xffff_ffff, now.saturating_sub(1), now + 1, now + 3]);
            set(log, at + 4, 4, clock);
        }
        _ => {
            let record = of_revision(random.pick(&Revision::ALL), measured(random), clock);
            log.splice(at..at, bytes_of(&[record]));
        }
    }
}

/// Which of the kinds a call met that ended with this number.
pub fn met(ended: u64, log: &[u8], lent: &Lent) -> Option<&'static str> {
    if lent.answer.len() != replayed::ALL {
        return None;
    }
    match ended {
        0 => taken(log, lent),
        4 => Some(match lent.revision {
            0 => "revisions: 4 for 0",
            3 => "revisions: 4 for 3",
            _ => "revisions: 4 for a larger number",
        }),
        40 => other_kind(log, lent),
        41 => falling(log),
        45 if lent.revision == 1 => Some("revisions: 45 in revision 1"),
        45 if breaking(log)?.has_between => Some("revisions: 45, kind 6 or 7 between"),
        45 => Some("revisions: 45 in revision 2"),
        _ => None,
    }
}

/// Whether the record refused is of the other revision's kinds, and right but for that.
fn other_kind(log: &[u8], lent: &Lent) -> Option<&'static str> {
    let other = Frame::all(log).find(|frame| frame.revision().is_some_and(|revision| revision != lent.revision))?;
    let ends_with = |to: usize| lent.clone().replay(model, &log[..to]);
    if ends_with(other.at) != 0 || ends_with(other.end) != 40 {
        return None;
    }
    Some(match other.kind {
        2 => "revisions: 40, kind 2 in revision 2",
        3 => "revisions: 40, kind 3 in revision 2",
        6 => "revisions: 40, kind 6 in revision 1",
        _ => "revisions: 40, kind 7 in revision 1",
    })
}

/// Whether kinds 6 and 7 are part of why a clock is refused.
fn falling(log: &[u8]) -> Option<&'static str> {
    let (mut last, mut last_counted) = (0, 0);
    for frame in Frame::all(log) {
        let Some(clock) = frame.clock else {
            continue;
        };
        match frame.kind {
            6 if clock < last => return Some("revisions: 41, a clock of kind 6 falls"),
            7 if clock < last => return Some("revisions: 41, a clock of kind 7 falls"),
            4 | 5 if clock < last_counted => return None,
            4 | 5 if clock < last => return Some("revisions: 41, below a clock of kind 6 or 7 alone"),
            4 | 5 => last_counted = clock,
            _ => {}
        }
        last = clock;
    }
    None
}

/// Where kinds 6 and 7 stopped the reading, or moved the clock behind one that is full.
fn taken(log: &[u8], lent: &Lent) -> Option<&'static str> {
    if has_full_clock(log, lent.clock) {
        return Some("revisions: taken, kind 6 or 7 first behind a full clock");
    }
    let stop = Frame::all(log).find(|frame| frame.clock.is_some_and(|clock| clock >= lent.clock))?;
    stop.revision()?;
    let mut further = Lent { clock: u64::MAX, ..lent.clone() };
    if further.replay(model, log) != 0 {
        return Some("revisions: stopped at kind 6 or 7, before a wrong record");
    }
    Some(if stop.kind == 6 { "revisions: stopped at kind 6" } else { "revisions: stopped at kind 7" })
}

/// Whether ten stack or RAM records of a clock are followed by another such of a later one, which kind 6 or 7 names first.
fn has_full_clock(log: &[u8], stop: u64) -> bool {
    let (mut clock, mut counts, mut named) = (0, [0, 0], None);
    for record in records(log).map_while(Result::ok) {
        match record {
            Record::Stack { clock: now, .. } | Record::Ram { clock: now, .. } => {
                let sort = usize::from(matches!(record, Record::Ram { .. }));
                if u64::from(now) >= stop {
                    return false;
                }
                if now > clock {
                    if named == Some(now) && counts[sort] == 10 {
                        return true;
                    }
                    (clock, counts) = (now, [0, 0]);
                }
                counts[sort] += 1;
            }
            Record::Tip5 { clock: Some(now), .. } | Record::U32 { clock: Some(now), .. } => {
                if u64::from(now) >= stop {
                    return false;
                }
                named = Some(now).filter(|&now| now > clock);
            }
            _ => {}
        }
    }
    false
}
