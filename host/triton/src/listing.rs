//! What document 01's runjob prints, and a job's records and rows piece by piece.
use crate::fees::FeeTable;
use crate::job::{Ending, Job, Ran, Sizes};
use crate::job_file::JobFile;
use crate::records::{records, Record};
use crate::rows::{rows, Row, Rows};
use crate::Refusal;
use std::io::{Error, Result, Write};
use std::time::{Duration, Instant};

/// How a printed job ended.
#[derive(Clone, Debug, PartialEq, Eq)]
pub enum Printed {
    /// The job was opened.
    Ran(Ending),
    /// The file is broken, or its job did not open.
    NotOpened(Refusal),
}

/// Prints the job of a file, byte for byte as runjob does: stack lines, output lines, end line. `watch` is told now and then how
/// many steps were taken.
pub fn print(file: &[u8], out: &mut impl Write, watch: impl FnMut(u64)) -> Result<Printed> {
    print_job(file, None, out, watch)
}

/// The same with a fee table, and behind the end line the fee of the run's steps, however it ended: `fee 7`. A job that does not open,
/// since the table is refused or for another reason, has none.
pub fn print_with_fees(file: &[u8], fees: &FeeTable, out: &mut impl Write, watch: impl FnMut(u64)) -> Result<Printed> {
    print_job(file, Some(fees), out, watch)
}

fn print_job(file: &[u8], fees: Option<&FeeTable>, out: &mut impl Write, mut watch: impl FnMut(u64)) -> Result<Printed> {
    let opened = JobFile::read(file).map_err(|_| Refusal::JobFileBroken);
    let opened = opened.and_then(|JobFile { opening, budget }| {
        let job = match fees {
            None => Job::open(&opening, Sizes::RUNJOB),
            Some(fees) => Job::open_with_fees(&opening, Sizes::RUNJOB, fees),
        };
        Ok((job?, budget))
    });
    let (mut job, budget) = match opened {
        Ok(opened) => opened,
        Err(refusal) => {
            writeln!(out, "end refused {} 0 0 0", refusal.number())?;
            return Ok(Printed::NotOpened(refusal));
        }
    };
    let (ran, fee) = in_pieces(&mut job, budget.into(), 0, fees, |bytes, _, steps| {
        watch(steps);
        for record in records(bytes) {
            let record = record.map_err(Error::other)?;
            if matches!(record, Record::Stack { .. }) {
                writeln!(out, "{record}")?;
            }
        }
        Ok(())
    })?;
    job.output().iter().try_for_each(|word| writeln!(out, "out {word}"))?;
    let outcome = match ran.ending {
        Ending::Halted => "halted".to_string(),
        Ending::Refused(refusal) => format!("refused {}", refusal.number()),
        _ => "spent".to_string(),
    };
    writeln!(out, "end {outcome} {} {} {}", ran.steps, job.instruction_pointer(), job.op_stack().len())?;
    if fees.is_some() {
        writeln!(out, "fee {fee}")?;
    }
    Ok(Printed::Ran(ran.ending))
}

/// A piece's log. Each piece checks the whole machine again, so that it should not be short.
const PIECE_BYTES: usize = 1 << 20;
/// The rows of a piece's table, where it has one: some 5 MB.
const PIECE_ROWS: usize = 1 << 14;
/// A piece takes twice the steps of the last one, as long as that took less.
const PIECE_TIME: Duration = Duration::from_millis(200);

/// Runs a job to its budget in pieces, so that its log may be of any length. `each` gets the records of a piece and the steps
/// taken so far; its error ends the run.
pub fn trace_in_pieces(job: &mut Job, budget: u64, mut each: impl FnMut(&[u8], u64) -> Result<()>) -> Result<Ran> {
    Ok(in_pieces(job, budget, 0, None, |log, _, steps| each(log, steps))?.0)
}

/// The same with a fee table: also the fee of all steps that succeeded.
pub fn trace_in_pieces_with_fees(
    job: &mut Job,
    budget: u64,
    fees: &FeeTable,
    mut each: impl FnMut(&[u8], u64) -> Result<()>,
) -> Result<(Ran, u64)> {
    in_pieces(job, budget, 0, Some(fees), |log, _, steps| each(log, steps))
}

/// [`trace_in_pieces`] with the rows of the processor table: `each` gets the records of a piece, its rows and the steps taken so far.
pub fn rows_in_pieces(job: &mut Job, budget: u64, each: impl FnMut(&[u8], Rows, u64) -> Result<()>) -> Result<Ran> {
    Ok(in_pieces(job, budget, PIECE_ROWS, None, each)?.0)
}

/// The same with a fee table too: also the fee of all steps that succeeded.
pub fn rows_in_pieces_with_fees(
    job: &mut Job,
    budget: u64,
    fees: &FeeTable,
    each: impl FnMut(&[u8], Rows, u64) -> Result<()>,
) -> Result<(Ran, u64)> {
    in_pieces(job, budget, PIECE_ROWS, Some(fees), each)
}

/// With a table of so many rows; without one there are none. The fee is 0 without a fee table.
fn in_pieces(
    job: &mut Job,
    budget: u64,
    most_rows: usize,
    fees: Option<&FeeTable>,
    mut each: impl FnMut(&[u8], Rows, u64) -> Result<()>,
) -> Result<(Ran, u64)> {
    let (mut log, mut table) = (vec![0; PIECE_BYTES], vec![0; most_rows * Row::WORDS]);
    let mut piece: u64 = 10_000;
    let mut all = Ran { ending: Ending::Spent, steps: 0, bytes: 0 };
    let mut all_fees = 0;
    loop {
        let began = Instant::now();
        let budget_left = piece.min(budget - all.steps);
        let (ran, fee, rows) = match (most_rows, fees) {
            (0, None) => (job.trace_execution(budget_left, &mut log), 0, rows(&[])),
            (0, Some(fees)) => {
                let (ran, fee) = job.trace_execution_with_fees(budget_left, &mut log, fees);
                (ran, fee, rows(&[]))
            }
            (_, None) => {
                let (ran, rows) = job.trace_rows(budget_left, &mut log, &mut table);
                (ran, 0, rows)
            }
            (_, Some(fees)) => job.trace_rows_with_fees(budget_left, &mut log, &mut table, fees),
        };
        if began.elapsed() < PIECE_TIME {
            // pieces that end by a full log or table may be many
            piece = piece.saturating_mul(2);
        }
        all = Ran { ending: ran.ending, steps: all.steps + ran.steps, bytes: all.bytes + ran.bytes };
        // the clock bounds the steps of all pieces together, so that 64 bits suffice
        all_fees += fee;
        each(&log[..ran.bytes], rows, all.steps)?;
        let goes_on = match ran.ending {
            Ending::Spent => all.steps < budget,
            Ending::LogFull | Ending::TableFull => true,
            Ending::Halted | Ending::Refused(_) => false,
        };
        if !goes_on {
            return Ok((all, all_fees));
        }
    }
}
