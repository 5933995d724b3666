//! The calls of a step, and their bytes as documents 01 and 02 lay them out.
use crate::frame::{put, words, Fault, Fields, Frames};
use crate::instructions::decode;
use crate::{Revision, P};
use std::fmt::{Display, Formatter, Result as Formatted};

/// A record of a call log. `Display` gives it as a line.
#[derive(Clone, Debug, PartialEq, Eq)]
#[non_exhaustive]
pub enum Record {
    /// Kind 1: the sponge is set anew.
    Reset,
    /// Kind 2, in revision 2 kind 6: a permutation.
    Tip5 {
        /// The steps taken before; none in revision 1.
        clock: Option<u32>,
        /// Of the instruction under which it is recorded.
        opcode: u16,
        /// Before it and after each of its five rounds.
        states: Box<[[u64; 16]; 6]>,
    },
    /// Kind 3, in revision 2 kind 7: an operation on u32 words.
    U32 {
        /// The steps taken before; none in revision 1.
        clock: Option<u32>,
        /// Of the instruction under which it is recorded.
        opcode: u16,
        /// The left operand.
        left: u64,
        /// The right operand.
        right: u64,
    },
    /// Kind 4: a word that goes below the top sixteen of the stack, or comes up from there.
    Stack {
        /// The steps taken before.
        clock: u32,
        /// Of the stack's word at index `pointer` - 16, the lowest being 0.
        pointer: u64,
        /// Whether it goes below.
        write: bool,
        /// The word.
        value: u64,
    },
    /// Kind 5: a cell written or read.
    Ram {
        /// The steps taken before.
        clock: u32,
        /// Of the cell.
        address: u64,
        /// The word.
        value: u64,
        /// Whether it is written.
        write: bool,
    },
}

impl Record {
    /// Puts its bytes behind the others.
    pub fn put(&self, log: &mut Vec<u8>) {
        match self {
            Record::Reset => put(log, 1, &[]),
            Record::Tip5 { clock, opcode, states } => {
                put_clocked(log, 2, *clock, &[&opcode.to_le_bytes(), &words(states.as_flattened())])
            }
            Record::U32 { clock, opcode, left, right } => {
                put_clocked(log, 3, *clock, &[&opcode.to_le_bytes(), &words(&[*left, *right])])
            }
            &Record::Stack { clock, pointer, write, value } => {
                put(log, 4, &[&clock.to_le_bytes(), &pointer.to_le_bytes(), &[write.into()], &value.to_le_bytes()])
            }
            &Record::Ram { clock, address, value, write } => {
                put(log, 5, &[&clock.to_le_bytes(), &address.to_le_bytes(), &value.to_le_bytes(), &[write.into()]])
            }
        }
    }

    /// Of one revision alone; none where every revision has such a record.
    pub fn revision(&self) -> Option<Revision> {
        match self {
            Record::Tip5 { clock, .. } | Record::U32 { clock, .. } => {
                Some(if clock.is_some() { Revision::Two } else { Revision::One })
            }
            _ => None,
        }
    }

    fn read(mut fields: Fields) -> Result<Record, Fault> {
        let kind = fields.kind;
        // the clock stands first
        let clock = (kind > 5).then(|| fields.long());
        Ok(match kind {
            1 => Record::Reset,
            2 | 6 => Record::Tip5 { clock, opcode: fields.short(), states: Box::new(std::array::from_fn(|_| fields.words())) },
            3 | 7 => Record::U32 { clock, opcode: fields.short(), left: fields.word(), right: fields.word() },
            4 => {
                let (clock, pointer) = (fields.long(), word(&mut fields)?);
                let write = direction(&mut fields)?;
                Record::Stack { clock, pointer, write, value: word(&mut fields)? }
            }
            _ => {
                let (clock, address, value) = (fields.long(), word(&mut fields)?, word(&mut fields)?);
                Record::Ram { clock, address, value, write: direction(&mut fields)? }
            }
        })
    }
}

/// A record of kind 2 or 3; with a clock, which then stands first, its kind is larger by 4.
fn put_clocked(log: &mut Vec<u8>, kind: u16, clock: Option<u32>, fields: &[&[u8]]) {
    match clock {
        None => put(log, kind, fields),
        Some(clock) => put(log, kind + 4, &[&[&clock.to_le_bytes()[..]], fields].concat()),
    }
}

/// The bytes of a log.
pub fn bytes_of(records: &[Record]) -> Vec<u8> {
    let mut log = vec![];
    records.iter().for_each(|record| record.put(&mut log));
    log
}

/// The records of a log of any revision, up to the first that is broken or of another revision than one before it.
/// [`records_of`] reads a log whose revision is known.
///
/// ```
/// use kixombu::{records, Record};
///
/// let record = Record::Stack { clock: 0, pointer: 16, write: true, value: 5 };
/// let mut log = vec![];
/// record.put(&mut log);
/// assert_eq!(log.len(), 25);
/// assert_eq!(record.to_string(), "stack 0 16 write 5");
/// assert_eq!(records(&log).collect::<Result<Vec<_>, _>>().unwrap(), [record]);
/// assert_eq!(records(&log[..24]).next().unwrap().unwrap_err().what, "a record of kind 4 has 25 bytes, found 24");
/// ```
pub fn records(log: &[u8]) -> impl Iterator<Item = Result<Record, Fault>> + '_ {
    read_all(log, None)
}

/// The records of a log of this revision, up to the first that is broken: one of the other revision's kinds is.
pub fn records_of(log: &[u8], revision: Revision) -> impl Iterator<Item = Result<Record, Fault>> + '_ {
    read_all(log, Some(revision))
}

fn read_all(log: &[u8], mut revision: Option<Revision>) -> impl Iterator<Item = Result<Record, Fault>> + '_ {
    let mut is_sound = true;
    Frames::new(log, length_of).map_while(move |fields| {
        let record = is_sound.then(|| read_next(fields?, &mut revision))?;
        is_sound = record.is_ok();
        Some(record)
    })
}

/// The next record, of the log's revision, which the first record of one revision alone gives where it is not known.
fn read_next(fields: Fields, revision: &mut Option<Revision>) -> Result<Record, Fault> {
    let (at, kind) = (fields.at, fields.kind);
    let record = Record::read(fields)?;
    if let Some(own) = record.revision() {
        let all = *revision.get_or_insert(own);
        if own != all {
            return Err(Fault::new(at, format!("the log is of revision {all}, found kind {kind}, which revision {own} has")));
        }
    }
    Ok(record)
}

/// How many bytes the fields of a kind have, in the revision that has it.
fn length_of(kind: u16) -> Option<usize> {
    [0, 770, 18, 21, 21, 774, 22].get(usize::from(kind).wrapping_sub(1)).copied()
}

fn word(fields: &mut Fields) -> Result<u64, Fault> {
    let word = fields.word();
    if word < P {
        return Ok(word);
    }
    Err(Fault::new(fields.at, format!("words are below {P}, found {word}")))
}

fn direction(fields: &mut Fields) -> Result<bool, Fault> {
    match fields.byte() {
        0 => Ok(false),
        1 => Ok(true),
        other => Err(Fault::new(fields.at, format!("a direction is 0 for read or 1 for write, found {other}"))),
    }
}

impl Display for Record {
    fn fmt(&self, f: &mut Formatter) -> Formatted {
        let name = |opcode: u16| decode(opcode.into()).map_or(opcode.to_string(), |instruction| instruction.name.to_string());
        let way = |write| if write { "write" } else { "read" };
        let at = |clock: Option<u32>| clock.map_or(String::new(), |clock| format!("{clock} "));
        match self {
            Record::Reset => write!(f, "reset"),
            // the first and the last of the six states
            Record::Tip5 { clock, opcode, states } => {
                write!(f, "tip5 {}{} from", at(*clock), name(*opcode))?;
                states[0].iter().try_for_each(|word| write!(f, " {word}"))?;
                write!(f, " to")?;
                states[5].iter().try_for_each(|word| write!(f, " {word}"))
            }
            &Record::U32 { clock, opcode, left, right } => write!(f, "u32 {}{} {left} {right}", at(clock), name(opcode)),
            &Record::Stack { clock, pointer, write, value } => write!(f, "stack {clock} {pointer} {} {value}", way(write)),
            &Record::Ram { clock, address, value, write } => write!(f, "ram {clock} {address} {} {value}", way(write)),
        }
    }
}

#[cfg(test)]
mod tests {
    use super::*;

    fn one_of_each(revision: Revision) -> Vec<Record> {
        let clock = (revision == Revision::Two).then_some(9);
        let states = Box::new(std::array::from_fn(|i| std::array::from_fn(|j| (16 * i + j) as u64)));
        vec![
            Record::Reset,
            Record::Tip5 { clock, opcode: 18, states },
            Record::U32 { clock, opcode: 14, left: 6, right: 3 },
            Record::Stack { clock: u32::MAX, pointer: 16, write: true, value: P - 1 },
            Record::Ram { clock: 2, address: 7, value: 8, write: false },
        ]
    }

    fn read(log: &[u8]) -> Result<Vec<Record>, Fault> {
        records(log).collect()
    }

    #[test]
    fn records_come_back() {
        for (revision, clock_bytes) in [(Revision::One, 0), (Revision::Two, 4)] {
            let log = bytes_of(&one_of_each(revision));
            assert_eq!(log.len(), 4 + 774 + 22 + 25 + 25 + 2 * clock_bytes);
            assert_eq!(read(&log), Ok(one_of_each(revision)));
            assert_eq!(records_of(&log, revision).collect::<Result<Vec<_>, _>>(), Ok(one_of_each(revision)));
        }
    }

    /// Document 02: kind 6 has 778 bytes whole and kind 7 has 26, with the clock first among the fields.
    #[test]
    fn a_clock_stands_first() {
        let log = bytes_of(&one_of_each(Revision::Two)[1..3]);
        assert_eq!(log[..10], [0x08, 0x03, 6, 0, 9, 0, 0, 0, 18, 0]);
        assert_eq!(log[778..790], [24, 0, 7, 0, 9, 0, 0, 0, 14, 0, 6, 0]);
        assert_eq!(log.len(), 778 + 26);
    }

    #[test]
    fn a_log_is_of_one_revision() {
        let [one, two] = Revision::ALL.map(one_of_each);
        let fault = |records: &[&Record]| {
            read(&bytes_of(&records.iter().map(|&r| r.clone()).collect::<Vec<_>>())).unwrap_err().to_string()
        };
        assert_eq!(fault(&[&one[2], &two[2]]), "byte 22: the log is of revision 1, found kind 7, which revision 2 has");
        assert_eq!(fault(&[&two[2], &one[1]]), "byte 26: the log is of revision 2, found kind 2, which revision 1 has");
        let log = bytes_of(&two);
        assert_eq!(records_of(&log, Revision::One).filter_map(Result::err).next().unwrap().at, 4);
    }

    #[test]
    fn each_cut_but_those_between_records_is_seen() {
        for (revision, ends) in [(Revision::One, [0, 4, 778, 800, 825, 850]), (Revision::Two, [0, 4, 782, 808, 833, 858])] {
            let log = bytes_of(&one_of_each(revision));
            for length in 0..log.len() {
                assert_eq!(read(&log[..length]).is_ok(), ends.contains(&length), "{length}");
            }
        }
    }

    #[test]
    fn bad_fields_are_seen() {
        let log = bytes_of(&one_of_each(Revision::One)[3..]);
        let fault = |at: usize, byte: u8| {
            let mut log = log.clone();
            log[at] = byte;
            let faults: Vec<Fault> = records(&log).filter_map(Result::err).collect();
            faults.iter().map(Fault::to_string).collect::<Vec<_>>().join("\n")
        };
        assert_eq!(fault(8, 17), "");
        assert_eq!(fault(0, 22), "byte 0: a record of kind 4 has length 23, found 22");
        assert_eq!(fault(2, 8), "byte 0: 8 is no record's kind");
        assert_eq!(fault(16, 2), "byte 0: a direction is 0 for read or 1 for write, found 2");
        assert_eq!(fault(17, 1), "byte 0: words are below 18446744069414584321, found 18446744069414584321");
        assert_eq!(fault(49, 9), "byte 25: a direction is 0 for read or 1 for write, found 9");
        // nothing comes behind the first fault
        let mut twice = log.clone();
        (twice[16], twice[49]) = (2, 2);
        assert_eq!(records(&twice).count(), 1);
    }

    #[test]
    fn lines() {
        let lines = |revision| one_of_each(revision).iter().map(Record::to_string).collect::<Vec<_>>();
        let [one, two] = Revision::ALL.map(lines);
        assert_eq!(one[0], "reset");
        assert!(
            one[1].starts_with("tip5 hash from 0 1 2 ")
                && one[1].ends_with(" 15 to 80 81 82 83 84 85 86 87 88 89 90 91 92 93 94 95")
        );
        assert_eq!(one[2], "u32 and 6 3");
        assert_eq!(one[3], format!("stack 4294967295 16 write {}", P - 1));
        assert_eq!(one[4], "ram 2 7 read 8");
        assert!(two[1].starts_with("tip5 9 hash from 0 1 2 "));
        assert_eq!(two[2], "u32 9 and 6 3");
        assert_eq!((&two[0], &two[3..]), (&one[0], &one[3..]));
    }
}
