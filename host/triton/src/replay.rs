//! A log read back.
use crate::exports::{self, replayed};
use crate::job::{cells, need_interface, pairs, refusal, zeros};
use crate::{Refusal, Revision};

/// What a log rebuilt.
#[derive(Clone, Debug, Default, PartialEq, Eq)]
pub struct Replayed {
    /// How many words the stack has.
    pub depth: u64,
    /// The stack's words below the top sixteen, the lowest first.
    pub stack: Vec<u64>,
    /// Address and value of the used cells, ascending by address.
    pub ram: Vec<(u64, u64)>,
}

/// Reads the log, of this revision, up to `clock` from the opening's RAM, which must ascend by address, with so many cells and stack
/// words lent.
///
/// A sound log of a job gives what the job's step before `clock` left; an altered read in it is refused (40 or 43), and so is a
/// record of the other revision's kinds (40), and a log that has more for one clock than a step records, or stack records of both
/// directions (45).
///
/// # Panics
///
/// Where the linked library has another interface than this crate ([`check_interface`](exports::check_interface)).
pub fn replay(
    log: &[u8],
    revision: Revision,
    clock: u64,
    ram: &[(u64, u64)],
    lent_cells: usize,
    lent_words: usize,
) -> Result<Replayed, Refusal> {
    need_interface();
    let (mut addresses, mut values) = cells(ram, lent_cells);
    let mut words = zeros(lent_words);
    let mut answer = [0; replayed::ALL];
    let (revision, used) = (revision.number(), ram.len() as u64);
    let number = exports::replay(&mut answer, log, revision, clock, used, &mut addresses, &mut values, &mut words);
    if number != 0 {
        return Err(refusal(number, [0; 3]));
    }
    let depth = answer[replayed::DEPTH];
    words.truncate(depth as usize - 16);
    Ok(Replayed { depth, stack: words, ram: pairs(&addresses, &values, answer[replayed::CELLS] as usize).collect() })
}
