//! Fee tables: what a step costs, by its opcode.
use crate::exports::Fees;
use crate::instructions::{Named, ALL};
use std::error::Error;
use std::fmt::{Display, Formatter, Result as Formatted};

/// A row of a fee table: the fee of each step whose opcode is from `lowest` to `highest`, both of them too.
#[derive(Clone, Copy, Debug, Default, PartialEq, Eq, Hash)]
pub struct FeeRow {
    /// The lowest opcode.
    pub lowest: u64,
    /// The highest.
    pub highest: u64,
    /// What a step costs.
    pub fee: u32,
}

impl FeeRow {
    /// Whether the row prices this opcode.
    pub fn has(&self, opcode: u64) -> bool {
        (self.lowest..=self.highest).contains(&opcode)
    }
}

/// What steps cost: [`Job::run_with_fees`](crate::Job::run_with_fees) and the other calls with fees take it.
///
/// A good table has up to 64 rows, and each of the 46 opcodes lies in one of them; numbers that are no opcode may lie in any number
/// of rows. Any other is taken here and refused by the calls (64 to 66); [`check`](Self::check) says why.
/// [`fee_text`](crate::fee_text) reads one from text.
///
/// ```
/// use kixombu::{FeeRow, FeeTable};
///
/// let row = |lowest, highest, fee| FeeRow { lowest, highest, fee };
/// let table = FeeTable::new([row(0, 0, 0), row(1, 17, 2), row(18, 18, 50), row(19, 100, 3)]);
/// assert_eq!(table.check(), Ok(()));
/// assert_eq!(table.row_of(18), Some(2));
///
/// let fault = FeeTable::new([row(0, 17, 2), row(17, 17, 5), row(18, 100, 3)]).check().unwrap_err();
/// assert_eq!(fault.number(), 66);
/// assert_eq!(fault.to_string(), "an opcode must lie in one row, found 17 (pick) in rows 0 and 1, counted from 0");
/// ```
#[derive(Clone, Debug, Default, PartialEq, Eq)]
pub struct FeeTable {
    // as the calls are lent them
    lowest: Vec<u64>,
    highest: Vec<u64>,
    fees: Vec<u64>,
}

impl FeeTable {
    /// The most rows of a good table.
    pub const MOST_ROWS: usize = 64;

    /// The table with these rows, good or not.
    pub fn new(rows: impl IntoIterator<Item = FeeRow>) -> FeeTable {
        let mut table = FeeTable::default();
        for FeeRow { lowest, highest, fee } in rows {
            table.lowest.push(lowest);
            table.highest.push(highest);
            table.fees.push(fee.into());
        }
        table
    }

    /// Its rows, the first one row 0.
    pub fn rows(&self) -> impl ExactSizeIterator<Item = FeeRow> + '_ {
        let bounds = self.lowest.iter().zip(&self.highest);
        // made from 32 bits
        bounds.zip(&self.fees).map(|((&lowest, &highest), &fee)| FeeRow { lowest, highest, fee: fee as u32 })
    }

    /// The first row that an opcode lies in, counted from 0: in a good table the one that prices it.
    pub fn row_of(&self, opcode: u64) -> Option<usize> {
        self.rows().position(|row| row.has(opcode))
    }

    /// What is wrong with the table, by the first number that the calls would refuse it with.
    pub fn check(&self) -> Result<(), FeeFault> {
        let count = self.rows().len();
        if count > Self::MOST_ROWS {
            return Err(FeeFault::TooManyRows(count));
        }
        if let Some((row, FeeRow { lowest, highest, .. })) = self.rows().enumerate().find(|(_, row)| row.lowest > row.highest) {
            return Err(FeeFault::Turned { row, lowest, highest });
        }
        let rows_of = |opcode| self.rows().enumerate().filter(move |(_, row)| row.has(opcode)).map(|(place, _)| place);
        let opcodes = || ALL.iter().map(|instruction| instruction.opcode);
        if let Some(opcode) = opcodes().find(|&opcode| rows_of(opcode).next().is_none()) {
            return Err(FeeFault::InNone(opcode));
        }
        let in_two = opcodes().find_map(|opcode| {
            let mut rows = rows_of(opcode);
            let rows = [rows.next()?, rows.next()?];
            Some(FeeFault::InTwo { opcode, rows })
        });
        in_two.map_or(Ok(()), Err)
    }

    pub(crate) fn slices(&self) -> Fees<'_> {
        Fees { lowest: &self.lowest, highest: &self.highest, fees: &self.fees }
    }
}

impl FromIterator<FeeRow> for FeeTable {
    fn from_iter<I: IntoIterator<Item = FeeRow>>(rows: I) -> FeeTable {
        FeeTable::new(rows)
    }
}

/// Why a fee table is refused. `Display` says what was wanted and what was found.
#[derive(Clone, Copy, Debug, PartialEq, Eq, Hash)]
#[non_exhaustive]
pub enum FeeFault {
    /// 64: how many rows there are.
    TooManyRows(usize),
    /// 64: the first row whose lowest opcode is above its highest.
    Turned {
        /// Counted from 0.
        row: usize,
        /// Its lowest opcode.
        lowest: u64,
        /// Its highest.
        highest: u64,
    },
    /// 65: the lowest opcode that lies in no row.
    InNone(u64),
    /// 66: the lowest opcode that lies in two rows or more.
    InTwo {
        /// The opcode.
        opcode: u64,
        /// The first two of them, counted from 0.
        rows: [usize; 2],
    },
}

impl FeeFault {
    /// Document 02's number, as of the [`Refusal`](crate::Refusal).
    pub fn number(self) -> u64 {
        match self {
            FeeFault::TooManyRows(_) | FeeFault::Turned { .. } => 64,
            FeeFault::InNone(_) => 65,
            FeeFault::InTwo { .. } => 66,
        }
    }
}

impl Display for FeeFault {
    fn fmt(&self, f: &mut Formatter) -> Formatted {
        match *self {
            FeeFault::TooManyRows(count) => write!(f, "a fee table has at most {} rows, found {count}", FeeTable::MOST_ROWS),
            FeeFault::Turned { row, lowest, highest } => {
                write!(f, "a row's lowest opcode must not be above its highest, found {lowest} above {highest} in row {row}, counted from 0")
            }
            FeeFault::InNone(opcode) => write!(f, "every opcode must lie in a row, found {} in none", Named(opcode)),
            FeeFault::InTwo { opcode, rows: [first, second] } => {
                write!(f, "an opcode must lie in one row, found {} in rows {first} and {second}, counted from 0", Named(opcode))
            }
        }
    }
}

impl Error for FeeFault {}
