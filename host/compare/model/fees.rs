//! Document 02's fee table: what is wrong with it, and the row that prices a step.
use super::{refuse, Refusal};
use crate::instructions::ALL;
use crate::lent::{Fees, LONGEST};

/// Number 1, with the other lengths: three slices of one length within the limit, and fees of 32 bits.
pub(super) fn has_shape(table: Fees) -> bool {
    let rows = table.fees.len();
    rows <= LONGEST && table.lowest.len() == rows && table.highest.len() == rows && table.fees.iter().all(|fee| fee >> 32 == 0)
}

/// Numbers 64 to 66, each tried over the whole table before the next. Where none is handed in, nothing is wrong.
pub(super) fn check(table: Option<Fees>) -> Result<(), Refusal> {
    let Some(table) = table else {
        return Ok(());
    };
    let has_turned = table.lowest.iter().zip(table.highest).any(|(lowest, highest)| lowest > highest);
    if table.fees.len() > 64 || has_turned {
        return refuse(64, [0; 3]);
    }
    // they ascend
    let opcodes = || ALL.iter().map(|instruction| instruction.opcode);
    if let Some(opcode) = opcodes().find(|&opcode| rows_of(table, opcode).count() == 0) {
        return refuse(65, [opcode, 0, 0]);
    }
    match opcodes().find(|&opcode| rows_of(table, opcode).count() > 1) {
        Some(opcode) => refuse(66, [opcode, 0, 0]),
        None => Ok(()),
    }
}

/// The row of a good table that an opcode lies in, counted from 0, and its fee.
pub(super) fn priced(table: Fees, opcode: u64) -> (u64, u64) {
    let row = rows_of(table, opcode).next().expect("a good table has each opcode");
    (row as u64, table.fees[row])
}

fn rows_of(table: Fees<'_>, opcode: u64) -> impl Iterator<Item = usize> + '_ {
    (0..table.fees.len()).filter(move |&row| table.lowest[row] <= opcode && opcode <= table.highest[row])
}
