//! Fee tables from text.
//!
//! A text has one row to a line or between semicolons, and `#` begins a remark. A row is what it prices, one opcode or the lowest and
//! the highest one with `..` between, and the fee. An opcode is a number or an instruction's name:
//!
//! ```text
//! halt 0
//! push..nop 1           # 1 to 8
//! 9..57 2; eq..read_io 3
//! 74..18446744073709551615 5
//! ```
//!
//! Both bounds belong to the row. Each row has two words, so that one that is left out shows.
use crate::fees::{FeeFault, FeeRow, FeeTable};
use crate::instructions::{named, Named};
use crate::text::TextFault;

/// A fee table, and where its rows stand in the text.
#[derive(Clone, Debug, Default, PartialEq, Eq)]
pub struct FeeText {
    table: FeeTable,
    /// Of each row the line, counted from 1, and what it prices, as it is written.
    places: Vec<(usize, String)>,
}

/// Reads a table. Whether it is good is for the calls to say, and for [`FeeText::check`].
///
/// ```
/// use kixombu::fee_text::read;
///
/// let text = read("halt 0; push..17 1 # the cheap ones\n18 50\n19..100 2").unwrap();
/// assert_eq!(text.check(), Ok(()));
/// assert_eq!((text.table().row_of(18), text.line_of(2)), (Some(2), Some(2)));
/// let fault = read("halt 0\npush..17").unwrap_err();
/// assert_eq!(fault.to_string(), "line 2, `push..17`: a row is an opcode or LOWEST..HIGHEST, and a fee, found 1 word");
/// let fault = read("halt 0\n2..100 1").unwrap().check().unwrap_err();
/// assert_eq!(fault.to_string(), "line 2: no row has opcode 1 (push)");
/// ```
pub fn read(text: &str) -> Result<FeeText, TextFault> {
    let (mut rows, mut places) = (vec![], vec![]);
    for (line, words) in (1..).zip(text.lines()) {
        let words = words.split('#').next().unwrap_or_default();
        for row in words.split(';') {
            let words: Vec<&str> = row.split_whitespace().collect();
            let (opcodes, fee) = match words[..] {
                [] => continue,
                [opcodes, fee] => (opcodes, fee),
                _ => {
                    let found = if words.len() == 1 { "1 word".to_string() } else { format!("{} words", words.len()) };
                    let what = format!("a row is an opcode or LOWEST..HIGHEST, and a fee, found {found}");
                    return Err(TextFault { line, word: words.join(" "), what });
                }
            };
            // a bound that is not there has no word of its own
            let at = |word: &str, what| TextFault { line, word: if word.is_empty() { opcodes } else { word }.to_string(), what };
            let bound = |word| opcode(word).map_err(|what| at(word, what));
            let (lowest, highest) = opcodes.split_once("..").unwrap_or((opcodes, opcodes));
            let (lowest, highest) = (bound(lowest)?, bound(highest)?);
            rows.push(FeeRow { lowest, highest, fee: fee_of(fee).map_err(|what| at(fee, what))? });
            places.push((line, opcodes.to_string()));
        }
    }
    Ok(FeeText { table: FeeTable::new(rows), places })
}

impl FeeText {
    /// As the text has it, good or not.
    pub fn table(&self) -> &FeeTable {
        &self.table
    }

    /// The line of a row, which is counted from 0; lines are counted from 1.
    pub fn line_of(&self, row: usize) -> Option<usize> {
        self.places.get(row).map(|place| place.0)
    }

    /// [`FeeTable::check`], with the line and the word at fault: where there are too many rows those of the first one too many, where
    /// an opcode lies in two those of the second. Where it lies in none there is no word, and the line is the last row's.
    pub fn check(&self) -> Result<(), TextFault> {
        let Err(fault) = self.table.check() else {
            return Ok(());
        };
        let at = |row: usize, what| {
            let (line, word) = self.places[row].clone();
            Err(TextFault { line, word, what })
        };
        match fault {
            FeeFault::TooManyRows(_) => at(FeeTable::MOST_ROWS, fault.to_string()),
            FeeFault::Turned { row, lowest, highest } => {
                at(row, format!("the row's lowest opcode, {lowest}, is above its highest, {highest}"))
            }
            FeeFault::InNone(opcode) => {
                let line = self.places.last().map_or(1, |place| place.0);
                Err(TextFault { line, word: String::new(), what: format!("no row has opcode {}", Named(opcode)) })
            }
            FeeFault::InTwo { opcode, rows: [first, second] } => {
                at(second, format!("line {} has opcode {} already", self.places[first].0, Named(opcode)))
            }
        }
    }
}

/// A number, or the opcode of an instruction's name; or what is wrong with the word.
fn opcode(word: &str) -> Result<u64, String> {
    match named(word) {
        Some(instruction) => Ok(instruction.opcode),
        None if is_number(word) => word.parse().map_err(|_| "a number must fit in 64 bits".to_string()),
        None => Err("an opcode is a number or an instruction's name".to_string()),
    }
}

fn fee_of(word: &str) -> Result<u32, String> {
    let fee = if is_number(word) { word.parse().ok() } else { None };
    fee.ok_or_else(|| format!("a fee is a number from 0 to {}", u32::MAX))
}

fn is_number(word: &str) -> bool {
    !word.is_empty() && word.bytes().all(|digit| digit.is_ascii_digit())
}
