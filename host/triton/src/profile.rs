//! What ran how often, and how high the prover's tables get.
use crate::instructions::{decode, named};
use crate::records::{records, Record};
use crate::rows::Rows;
use crate::Fault;
use std::cmp::Reverse;
use std::collections::{BTreeMap, HashSet};
use std::fmt::{Display, Formatter, Result as Formatted};

/// A job's run, counted from its rows and records. `Display` gives it as lines, what ran most often first.
///
/// ```
/// use kixombu::listing::rows_in_pieces;
/// use kixombu::{Job, JobFile, Profile, Sizes};
///
/// let text = "digest 1 2 3 4 5; push 2; call f; halt; f: addi -1; dup 0; skiz; recurse; return";
/// let file = JobFile::read(&kixombu::text::make(text).unwrap().file).unwrap();
/// let mut job = Job::open(&file.opening, Sizes::RUNJOB)?;
/// let mut profile = Profile::default();
/// rows_in_pieces(&mut job, 1_000, |log, rows, _| profile.add(log, rows).map_err(std::io::Error::other)).unwrap();
/// assert_eq!(profile.heights.processor, 11);
/// // f begins in slot 5
/// assert_eq!((profile.functions[&5].calls, profile.functions[&5].steps), (1, 8));
/// # Ok::<(), kixombu::Refusal>(())
/// ```
#[derive(Clone, Debug, Default, PartialEq, Eq)]
pub struct Profile {
    /// How often each instruction that ran did, by opcode.
    pub instructions: BTreeMap<u64, u64>,
    /// By the slot that `call` names.
    pub functions: BTreeMap<u64, Function>,
    /// Of the prover's tables.
    pub heights: Heights,
    /// Those that are in the height of the U32 table.
    u32_entries: HashSet<(u16, u64, u64)>,
}

/// What ran of a function.
#[derive(Clone, Copy, Debug, Default, PartialEq, Eq)]
pub struct Function {
    /// How often it was called.
    pub calls: u64,
    /// The steps while its entry was on top of the jump stack: without those of the functions that it called.
    pub steps: u64,
}

/// How many rows the prover's tables get, without padding.
#[derive(Clone, Copy, Debug, Default, PartialEq, Eq)]
pub struct Heights {
    /// The steps that succeeded, the halt's too.
    pub processor: u64,
    /// The stack records.
    pub op_stack: u64,
    /// The RAM records.
    pub ram: u64,
    /// Six for each Tip5 record, which are its states, and one for each reset. What hashes the program itself is not recorded and
    /// not in it.
    pub hash: u64,
    /// For each U32 record as many as the original's `table_height_contribution` says; of equal ones for one, since the table has
    /// a section for each distinct one.
    pub u32: u64,
}

impl Profile {
    /// Counts a further piece of the run: its log, and its rows. A log that is broken is counted up to there.
    pub fn add(&mut self, log: &[u8], rows: Rows) -> Result<(), Fault> {
        let call = named("call").expect("an instruction").opcode;
        for row in rows {
            self.heights.processor += 1;
            *self.instructions.entry(row.ci).or_default() += 1;
            if row.ci == call {
                self.functions.entry(row.nia).or_default().calls += 1;
            }
            if row.jsp > 0 {
                self.functions.entry(row.jsd).or_default().steps += 1;
            }
        }
        for record in records(log) {
            match record? {
                Record::Reset => self.heights.hash += 1,
                Record::Tip5 { states, .. } => self.heights.hash += states.len() as u64,
                Record::U32 { opcode, left, right, .. } => {
                    if self.u32_entries.insert((opcode, left, right)) {
                        self.heights.u32 += u32_rows(opcode, left, right);
                    }
                }
                Record::Stack { .. } => self.heights.op_stack += 1,
                Record::Ram { .. } => self.heights.ram += 1,
            }
        }
        Ok(())
    }
}

/// `table_height_contribution`: pow's left operand stays the same from row to row, and does not count.
fn u32_rows(opcode: u16, left: u64, right: u64) -> u64 {
    let is_pow = decode(opcode.into()).is_some_and(|instruction| instruction.name == "pow");
    let dominant = if is_pow { right } else { left.max(right) };
    dominant.checked_ilog2().map_or(1, |log| 2 + u64::from(log))
}

impl Display for Profile {
    fn fmt(&self, f: &mut Formatter) -> Formatted {
        writeln!(f, "{:<20}{:>12}", "instruction", "times")?;
        let mut instructions: Vec<(u64, u64)> = self.instructions.iter().map(|(&opcode, &times)| (opcode, times)).collect();
        instructions.sort_by_key(|&(_, times)| Reverse(times));
        for (opcode, times) in instructions {
            let name = decode(opcode).map_or(opcode.to_string(), |instruction| instruction.name.to_string());
            writeln!(f, "{name:<20}{times:>12}")?;
        }
        writeln!(f, "{:<20}{:>12}{:>12}", "function at slot", "calls", "steps")?;
        let mut functions: Vec<(u64, Function)> = self.functions.iter().map(|(&slot, &function)| (slot, function)).collect();
        functions.sort_by_key(|(_, function)| Reverse(function.steps));
        for (slot, Function { calls, steps }) in functions {
            writeln!(f, "{slot:<20}{calls:>12}{steps:>12}")?;
        }
        let Heights { processor, op_stack, ram, hash, u32 } = self.heights;
        write!(f, "{:<20}{:>12}", "table", "height")?;
        [("processor", processor), ("op stack", op_stack), ("RAM", ram), ("hash", hash), ("U32", u32)]
            .iter()
            .try_for_each(|(name, height)| write!(f, "\n{name:<20}{height:>12}"))
    }
}

#[cfg(test)]
mod tests {
    use super::*;
    use crate::records::bytes_of;
    use crate::rows::{rows, Row};

    /// The original's: 1 where the dominant operand is 0, else 2 and its binary logarithm; for pow the exponent alone.
    #[test]
    fn rows_of_a_u32_record() {
        let of = |name: &str, left, right| u32_rows(named(name).unwrap().opcode as u16, left, right);
        assert_eq!((of("and", 0, 0), of("and", 1, 0), of("and", 0, 1)), (1, 2, 2));
        assert_eq!((of("lt", 255, 256), of("lt", 256, 255), of("split", 0, 0xffff_ffff)), (10, 10, 33));
        assert_eq!((of("pow", u64::MAX, 0), of("pow", 7, 1), of("pow", 0, 8)), (1, 2, 5));
    }

    #[test]
    fn each_record_has_its_table() {
        let split = |left, right| Record::U32 { clock: None, opcode: 4, left, right };
        let stack = Record::Stack { clock: 0, pointer: 16, write: true, value: 5 };
        let ram = Record::Ram { clock: 0, address: 7, value: 8, write: false };
        let tip5 = Record::Tip5 { clock: None, opcode: 18, states: Box::new([[0; 16]; 6]) };
        let mut profile = Profile::default();
        // equal ones count once, also in another piece
        profile.add(&bytes_of(&[split(6, 1), split(6, 1), stack.clone(), tip5]), rows(&[])).unwrap();
        let heights = Heights { processor: 0, op_stack: 1, ram: 0, hash: 6, u32: 4 };
        assert_eq!(profile.heights, heights);
        profile.add(&bytes_of(&[Record::Reset, split(6, 1), split(1, 6), ram.clone(), ram, stack]), rows(&[])).unwrap();
        assert_eq!(profile.heights, Heights { op_stack: 2, ram: 2, hash: 7, u32: 8, ..heights });
        assert!(profile.add(&[1], rows(&[])).is_err());
    }

    /// A function's steps are those with its entry on top, whatever the current instruction; 0 is a slot as others are.
    #[test]
    fn steps_go_to_the_function_on_top() {
        let call = named("call").unwrap().opcode;
        let row = |ci, nia, jsp, jsd| Row { ci, nia, jsp, jsd, jso: 99, ..Row::default() }.to_words();
        let table = [row(8, 3, 0, 0), row(call, 0, 0, 0), row(call, 7, 1, 0), row(8, 4, 2, 7), row(8, 5, 2, 7), row(1, 0, 1, 0)];
        let mut profile = Profile::default();
        profile.add(&[], rows(table.as_flattened())).unwrap();
        let of = |slot: u64| (profile.functions[&slot].calls, profile.functions[&slot].steps);
        assert_eq!((of(0), of(7), profile.functions.len()), ((1, 2), (1, 2), 2));
        assert_eq!(profile.instructions, BTreeMap::from([(1, 1), (8, 3), (call, 2)]));
        assert_eq!(profile.heights, Heights { processor: 6, ..Heights::default() });
    }
}
