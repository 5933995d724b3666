//! The proved step core of Triton VM (the static library of the crate `exports`), for Rust.
//!
//! A proving service opens a [`Job`] with a program and its inputs, steps or runs it, takes the helper variables, and records the
//! call log, which [`replay`] reads back, and the [rows](Row) of the processor table. Every call is proved to answer any words and slices as its definition says or to refuse
//! them, with a [`Refusal`]. What is proved is the library; this crate hands it memory and gives its words names.
//!
//! ```
//! use kixombu::{records, Ending, Job, Opening, Refusal, Sizes, Slot};
//!
//! // push 3; push 4; add; write_io 1; halt: an instruction with an argument has two slots
//! let slots = [(1, 3), (1, 3), (1, 4), (1, 4), (42, 0), (19, 1), (19, 1), (0, 0)];
//! let program = slots.map(|(opcode, argument)| Slot { opcode, argument }).to_vec();
//! let opening = Opening { digest: [1, 2, 3, 4, 5], program, ..Opening::default() };
//!
//! let mut job = Job::open(&opening, Sizes::RUNJOB)?;
//! assert_eq!(job.helper_variables()?, [0; 6]); // push has none
//! let mut log = vec![0; 10_000];
//! let ran = job.trace_execution(1_000, &mut log);
//! assert_eq!((ran.ending, ran.steps), (Ending::Halted, 5));
//! assert_eq!(job.output(), [7]);
//! assert_eq!(job.step(), Err(Refusal::MachineHalted));
//!
//! let log = &log[..ran.bytes];
//! assert_eq!(records(log).next().unwrap().unwrap().to_string(), "stack 0 16 write 5");
//! // what the second step left: two words under the top sixteen, the digest's last two
//! let replayed = job.replay(log, 2)?;
//! assert_eq!((replayed.depth, &replayed.stack[..]), (18, &[5, 4][..]));
//! # Ok::<(), Refusal>(())
//! ```
//!
//! With a [`FeeTable`], [`Job::run_with_fees`] and the other calls with fees also give what the steps cost, and
//! [`Job::step_with_fees`] names the row that priced a step.
//!
//! [`text`] makes job files from text, [`JobFile`] reads them, [`listing`] prints a job as document 01's runjob does, [`Profile`]
//! counts what ran and [`fee_text`] reads fee tables; the command `kixombu` has all five. [`exports`] has the calls on slices, and
//! step over a register record, for who lends memory of their own.
pub mod exports;
pub mod fee_text;
mod fees;
pub mod frame;
pub mod instructions;
mod job;
mod job_file;
pub mod listing;
mod order;
mod profile;
mod records;
mod refusal;
mod registers;
mod replay;
mod revision;
mod rows;
pub mod text;

pub use exports::{LONGEST, STEP_BYTES};
pub use fees::{FeeFault, FeeRow, FeeTable};
pub use frame::Fault;
pub use job::{Ending, Job, Opening, Ran, Sizes, Slot};
pub use job_file::JobFile;
pub use order::OutOfOrder;
pub use profile::{Function, Heights, Profile};
pub use records::{bytes_of, records, records_of, Record};
pub use refusal::Refusal;
pub use replay::{replay, Replayed};
pub use revision::Revision;
pub use rows::{rows, Row, Rows};

/// Words are whole numbers below this one, 2^64 - 2^32 + 1.
pub const P: u64 = 0xffff_ffff_0000_0001;
