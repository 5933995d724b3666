//! The library's exports, as functions over slices: the calls for who has memory of their own. [`Job`](crate::Job) is easier.
//!
//! Each function mirrors the export of its name in the crate `exports`, whose `src/lib.rt` lists the words of registers and
//! answers. The calls ask for nothing: slices of any length and with any words are answered, or refused by a number, and on a
//! refusal everything lent is as it was (save skiz's dropped word, and the steps before a run's refusal).
//!
//! This file has all the unsafe code. A slice goes over as pointer and length, the register record as pointer; what is `&mut` is
//! lent once.
#![allow(unsafe_code)]

pub use crate::registers::Registers;

/// Places in the register slice.
pub mod register {
    /// Below 2^32.
    pub const CLOCK: usize = 0;
    /// The instruction pointer.
    pub const POINTER: usize = 1;
    /// Used words of the op stack.
    pub const DEPTH: usize = 2;
    /// Used entries of the jump stack.
    pub const JUMPS: usize = 3;
    /// Used cells of RAM.
    pub const CELLS: usize = 4;
    /// Words of output.
    pub const OUTPUTS: usize = 5;
    /// Words of public input that were taken.
    pub const PUBLICS: usize = 6;
    /// Words of secret input that were taken.
    pub const SECRETS: usize = 7;
    /// Secret digests that were taken.
    pub const DIGESTS: usize = 8;
    /// 0 or 1.
    pub const HALTED: usize = 9;
    /// 0 or 1.
    pub const SPONGE_SET: usize = 10;
    /// The first of the sponge's sixteen words.
    pub const SPONGE: usize = 11;
    /// The log's revision, 1 or 2; any other is refused with 4.
    pub const REVISION: usize = 27;
    /// How many words there are.
    pub const ALL: usize = 28;
}

/// Places in the answer slice.
pub mod answer {
    /// How the call ended: one of [`ending`](super::ending).
    pub const ENDING: usize = 0;
    /// The refusal's number, 0 where the call is not refused.
    pub const NUMBER: usize = 1;
    /// The first of the three words that a refusal carries.
    pub const WORDS: usize = 2;
    /// How many steps succeeded.
    pub const STEPS: usize = 5;
    /// How many bytes of records were written.
    pub const BYTES: usize = 6;
    /// How many words there are.
    pub const ALL: usize = 7;
    /// Of step with a fee table: the row that priced the step, counted from 0; 0 where it is refused.
    pub const ROW: usize = 7;
    /// Of run, trace_execution and trace_rows with a fee table: the fee of the steps that succeeded, whatever ended the call.
    pub const FEE: usize = 7;
    /// How many words there are with a fee table, but for open, which gives no fee and no row.
    pub const WITH_FEES: usize = 8;
}

/// The ending in an answer.
pub mod ending {
    /// Opened, taken or halted.
    pub const DONE: u64 = 0;
    /// The budget is spent.
    pub const SPENT: u64 = 1;
    /// The log is full.
    pub const FULL: u64 = 2;
    /// The answer has the number and its words.
    pub const REFUSED: u64 = 3;
    /// The table of rows is full, and the log is not.
    pub const TABLE_FULL: u64 = 4;
}

/// Places in a row of the processor table. [`Row`](crate::Row) says what stands there.
pub mod column {
    /// The clock.
    pub const CLK: usize = 0;
    /// The instruction pointer.
    pub const IP: usize = 1;
    /// The current instruction.
    pub const CI: usize = 2;
    /// The next instruction or the argument.
    pub const NIA: usize = 3;
    /// The first of the seven digits of the current instruction.
    pub const IB: usize = 4;
    /// The jump stack's length.
    pub const JSP: usize = 11;
    /// The origin on top of the jump stack.
    pub const JSO: usize = 12;
    /// The destination there.
    pub const JSD: usize = 13;
    /// The first of the op stack's top sixteen words.
    pub const ST: usize = 14;
    /// The op stack's depth.
    pub const OP_STACK_POINTER: usize = 30;
    /// The first of the six helper variables.
    pub const HV: usize = 31;
    /// How many words there are.
    pub const ALL: usize = 37;
}

/// Places in replay's answer slice.
pub mod replayed {
    /// The refusal's number, 0 where the call is not refused.
    pub const NUMBER: usize = 0;
    /// How many words the stack has.
    pub const DEPTH: usize = 1;
    /// Used cells of RAM.
    pub const CELLS: usize = 2;
    /// How many words there are.
    pub const ALL: usize = 3;
}

/// No lent slice has more elements.
pub const LONGEST: usize = 16_777_216;

/// The most bytes that one step records, in any revision of the log.
pub const STEP_BYTES: usize = 1028;

/// The most bytes that one step records: 1,028 in revision 2. A call buffer has at least as many, and of any other number as in
/// revision 1, since lengths are tried before the revision.
pub const fn step_bytes(revision: u64) -> usize {
    match revision {
        2 => STEP_BYTES,
        _ => 1024,
    }
}

/// The interface that this crate is written for, as [`interface_version`] gives it: its parameters and its words.
pub const INTERFACE: u64 = 1;

/// The program and the inputs.
#[derive(Clone, Copy, Debug)]
pub struct Code<'a> {
    /// One for each slot.
    pub opcodes: &'a [u64],
    /// As many.
    pub arguments: &'a [u64],
    /// The public input.
    pub public: &'a [u64],
    /// The secret input.
    pub secret: &'a [u64],
    /// The secret digests, five words each.
    pub digests: &'a [u64],
}

/// What is lent to be changed.
#[derive(Debug)]
pub struct Memory<'a> {
    /// At least sixteen words, bottom first.
    pub op_stack: &'a mut [u64],
    /// Of the jump stack's entries, bottom first.
    pub origins: &'a mut [u64],
    /// As many.
    pub destinations: &'a mut [u64],
    /// Of RAM's cells, the used ones ascending.
    pub addresses: &'a mut [u64],
    /// As many.
    pub values: &'a mut [u64],
    /// The words that were written out.
    pub output: &'a mut [u64],
}

/// The same, only to be read.
#[derive(Clone, Copy, Debug)]
pub struct MemoryView<'a> {
    /// At least sixteen words, bottom first.
    pub op_stack: &'a [u64],
    /// Of the jump stack's entries, bottom first.
    pub origins: &'a [u64],
    /// As many.
    pub destinations: &'a [u64],
    /// Of RAM's cells, the used ones ascending.
    pub addresses: &'a [u64],
    /// As many.
    pub values: &'a [u64],
    /// The words that were written out.
    pub output: &'a [u64],
}

impl Memory<'_> {
    /// For [`helper_variables`] and [`processor_row`], which only read.
    pub fn view(&self) -> MemoryView<'_> {
        let Memory { op_stack, origins, destinations, addresses, values, output } = self;
        MemoryView { op_stack, origins, destinations, addresses, values, output }
    }
}

/// A fee table, only to be read. Each slice has one word for each row, and all are of one length, else the call is refused with 1.
#[derive(Clone, Copy, Debug)]
pub struct Fees<'a> {
    /// The lowest opcode of each row.
    pub lowest: &'a [u64],
    /// The highest, not below it.
    pub highest: &'a [u64],
    /// Below 2^32, else the call is refused with 1.
    pub fees: &'a [u64],
}

type Words = *const u64;
type MutWords = *mut u64;

#[rustfmt::skip]
#[link(name = "exports", kind = "static")]
extern "C" {
    // exports/src/calls.rt: triton_interface_version()
    fn triton_interface_version() -> u64;

    // exports/src/calls.rt: triton_open(registers, answer, revision, digest, cells, code, memory)
    fn triton_open(
        registers: MutWords, _: usize, answer: MutWords, _: usize, revision: u64, digest: Words, _: usize, cells: u64,
        opcodes: Words, _: usize, arguments: Words, _: usize, public: Words, _: usize, secret: Words, _: usize, digests: Words, _: usize,
        op_stack: MutWords, _: usize, origins: MutWords, _: usize, destinations: MutWords, _: usize,
        addresses: MutWords, _: usize, values: MutWords, _: usize, output: MutWords, _: usize,
    ) -> u64;

    // exports/src/calls.rt: triton_step(registers, answer, code, memory, calls)
    fn triton_step(
        registers: MutWords, _: usize, answer: MutWords, _: usize,
        opcodes: Words, _: usize, arguments: Words, _: usize, public: Words, _: usize, secret: Words, _: usize, digests: Words, _: usize,
        op_stack: MutWords, _: usize, origins: MutWords, _: usize, destinations: MutWords, _: usize,
        addresses: MutWords, _: usize, values: MutWords, _: usize, output: MutWords, _: usize,
        calls: *mut u8, _: usize,
    ) -> u64;

    // exports/src/calls.rt: triton_step_registers(registers, answer, code, memory, calls)
    fn triton_step_registers(
        registers: *mut Registers, answer: MutWords, _: usize,
        opcodes: Words, _: usize, arguments: Words, _: usize, public: Words, _: usize, secret: Words, _: usize, digests: Words, _: usize,
        op_stack: MutWords, _: usize, origins: MutWords, _: usize, destinations: MutWords, _: usize,
        addresses: MutWords, _: usize, values: MutWords, _: usize, output: MutWords, _: usize,
        calls: *mut u8, _: usize,
    ) -> u64;

    // exports/src/calls.rt: triton_run(registers, answer, budget, code, memory)
    fn triton_run(
        registers: MutWords, _: usize, answer: MutWords, _: usize, budget: u64,
        opcodes: Words, _: usize, arguments: Words, _: usize, public: Words, _: usize, secret: Words, _: usize, digests: Words, _: usize,
        op_stack: MutWords, _: usize, origins: MutWords, _: usize, destinations: MutWords, _: usize,
        addresses: MutWords, _: usize, values: MutWords, _: usize, output: MutWords, _: usize,
    ) -> u64;

    // exports/src/calls.rt: triton_trace_execution(registers, answer, budget, code, memory, calls)
    fn triton_trace_execution(
        registers: MutWords, _: usize, answer: MutWords, _: usize, budget: u64,
        opcodes: Words, _: usize, arguments: Words, _: usize, public: Words, _: usize, secret: Words, _: usize, digests: Words, _: usize,
        op_stack: MutWords, _: usize, origins: MutWords, _: usize, destinations: MutWords, _: usize,
        addresses: MutWords, _: usize, values: MutWords, _: usize, output: MutWords, _: usize,
        calls: *mut u8, _: usize,
    ) -> u64;

    // exports/src/calls.rt: triton_trace_rows(registers, answer, budget, code, memory, calls, rows)
    fn triton_trace_rows(
        registers: MutWords, _: usize, answer: MutWords, _: usize, budget: u64,
        opcodes: Words, _: usize, arguments: Words, _: usize, public: Words, _: usize, secret: Words, _: usize, digests: Words, _: usize,
        op_stack: MutWords, _: usize, origins: MutWords, _: usize, destinations: MutWords, _: usize,
        addresses: MutWords, _: usize, values: MutWords, _: usize, output: MutWords, _: usize,
        calls: *mut u8, _: usize, rows: MutWords, _: usize,
    ) -> u64;

    // exports/src/calls.rt: triton_open_with_fees(registers, answer, revision, digest, cells, code, memory, lowest, highest, fees)
    fn triton_open_with_fees(
        registers: MutWords, _: usize, answer: MutWords, _: usize, revision: u64, digest: Words, _: usize, cells: u64,
        opcodes: Words, _: usize, arguments: Words, _: usize, public: Words, _: usize, secret: Words, _: usize, digests: Words, _: usize,
        op_stack: MutWords, _: usize, origins: MutWords, _: usize, destinations: MutWords, _: usize,
        addresses: MutWords, _: usize, values: MutWords, _: usize, output: MutWords, _: usize,
        lowest: Words, _: usize, highest: Words, _: usize, fees: Words, _: usize,
    ) -> u64;

    // exports/src/calls.rt: triton_step_with_fees(registers, answer, code, memory, calls, lowest, highest, fees)
    fn triton_step_with_fees(
        registers: MutWords, _: usize, answer: MutWords, _: usize,
        opcodes: Words, _: usize, arguments: Words, _: usize, public: Words, _: usize, secret: Words, _: usize, digests: Words, _: usize,
        op_stack: MutWords, _: usize, origins: MutWords, _: usize, destinations: MutWords, _: usize,
        addresses: MutWords, _: usize, values: MutWords, _: usize, output: MutWords, _: usize,
        calls: *mut u8, _: usize,
        lowest: Words, _: usize, highest: Words, _: usize, fees: Words, _: usize,
    ) -> u64;

    // exports/src/calls.rt: triton_run_with_fees(registers, answer, budget, code, memory, lowest, highest, fees)
    fn triton_run_with_fees(
        registers: MutWords, _: usize, answer: MutWords, _: usize, budget: u64,
        opcodes: Words, _: usize, arguments: Words, _: usize, public: Words, _: usize, secret: Words, _: usize, digests: Words, _: usize,
        op_stack: MutWords, _: usize, origins: MutWords, _: usize, destinations: MutWords, _: usize,
        addresses: MutWords, _: usize, values: MutWords, _: usize, output: MutWords, _: usize,
        lowest: Words, _: usize, highest: Words, _: usize, fees: Words, _: usize,
    ) -> u64;

    // exports/src/calls.rt: triton_trace_execution_with_fees(registers, answer, budget, code, memory, calls, lowest, highest, fees)
    fn triton_trace_execution_with_fees(
        registers: MutWords, _: usize, answer: MutWords, _: usize, budget: u64,
        opcodes: Words, _: usize, arguments: Words, _: usize, public: Words, _: usize, secret: Words, _: usize, digests: Words, _: usize,
        op_stack: MutWords, _: usize, origins: MutWords, _: usize, destinations: MutWords, _: usize,
        addresses: MutWords, _: usize, values: MutWords, _: usize, output: MutWords, _: usize,
        calls: *mut u8, _: usize,
        lowest: Words, _: usize, highest: Words, _: usize, fees: Words, _: usize,
    ) -> u64;

    // exports/src/calls.rt: triton_trace_rows_with_fees(registers, answer, budget, code, memory, calls, rows, lowest, highest, fees)
    fn triton_trace_rows_with_fees(
        registers: MutWords, _: usize, answer: MutWords, _: usize, budget: u64,
        opcodes: Words, _: usize, arguments: Words, _: usize, public: Words, _: usize, secret: Words, _: usize, digests: Words, _: usize,
        op_stack: MutWords, _: usize, origins: MutWords, _: usize, destinations: MutWords, _: usize,
        addresses: MutWords, _: usize, values: MutWords, _: usize, output: MutWords, _: usize,
        calls: *mut u8, _: usize, rows: MutWords, _: usize,
        lowest: Words, _: usize, highest: Words, _: usize, fees: Words, _: usize,
    ) -> u64;

    // exports/src/calls.rt: triton_helper_variables(registers, helpers, code, memory); all but the helpers are only read
    fn triton_helper_variables(
        registers: Words, _: usize, helpers: MutWords, _: usize,
        opcodes: Words, _: usize, arguments: Words, _: usize, public: Words, _: usize, secret: Words, _: usize, digests: Words, _: usize,
        op_stack: Words, _: usize, origins: Words, _: usize, destinations: Words, _: usize,
        addresses: Words, _: usize, values: Words, _: usize, output: Words, _: usize,
    ) -> u64;

    // exports/src/calls.rt: triton_processor_row(registers, row, code, memory); all but the row is only read
    fn triton_processor_row(
        registers: Words, _: usize, row: MutWords, _: usize,
        opcodes: Words, _: usize, arguments: Words, _: usize, public: Words, _: usize, secret: Words, _: usize, digests: Words, _: usize,
        op_stack: Words, _: usize, origins: Words, _: usize, destinations: Words, _: usize,
        addresses: Words, _: usize, values: Words, _: usize, output: Words, _: usize,
    ) -> u64;

    // exports/src/calls.rt: triton_replay(answer, log, revision, clock, cells, addresses, values, words)
    fn triton_replay(
        answer: MutWords, _: usize, log: *const u8, _: usize, revision: u64, clock: u64, cells: u64,
        addresses: MutWords, _: usize, values: MutWords, _: usize, words: MutWords, _: usize,
    ) -> u64;
}

// An export called with what stands before code and memory, these two, and what stands behind them; a fee table last, where one is
// handed in.
macro_rules! call {
    ($export:ident, [$($front:expr),*], $c:ident, $m:ident, $pointer:ident, [$($back:expr),*], $f:ident) => {
        call!($export, [$($front),*], $c, $m, $pointer, [
            $($back,)*
            $f.lowest.as_ptr(), $f.lowest.len(), $f.highest.as_ptr(), $f.highest.len(), $f.fees.as_ptr(), $f.fees.len()
        ])
    };
    ($export:ident, [$($front:expr),*], $c:ident, $m:ident, $pointer:ident, [$($back:expr),*]) => {
        // SAFETY: each pointer goes with the length of its slice, which is borrowed for the call; the export asks for nothing else
        unsafe {
            $export(
                $($front,)*
                $c.opcodes.as_ptr(), $c.opcodes.len(), $c.arguments.as_ptr(), $c.arguments.len(),
                $c.public.as_ptr(), $c.public.len(), $c.secret.as_ptr(), $c.secret.len(), $c.digests.as_ptr(), $c.digests.len(),
                $m.op_stack.$pointer(), $m.op_stack.len(), $m.origins.$pointer(), $m.origins.len(),
                $m.destinations.$pointer(), $m.destinations.len(), $m.addresses.$pointer(), $m.addresses.len(),
                $m.values.$pointer(), $m.values.len(), $m.output.$pointer(), $m.output.len(),
                $($back),*
            )
        }
    };
}

/// `triton_interface_version`: the number of the interface that the linked library has.
pub fn interface_version() -> u64 {
    // SAFETY: it takes nothing
    unsafe { triton_interface_version() }
}

/// Whether the linked library has the interface that this crate is written for. [`Job::open`](crate::Job::open) and
/// [`replay`](crate::replay()) look once, and panic with the text where it has not; who uses these calls looks for themselves.
pub fn check_interface() -> Result<(), String> {
    match interface_version() {
        INTERFACE => Ok(()),
        other => Err(format!(
            "this crate needs a library with interface {INTERFACE}, and the one linked has interface {other}: its calls take other \
             parameters or give other words, so none may be made; build crate and library from one state of the sources"
        )),
    }
}

/// `triton_open`: gives the number, as each of these calls does, 0 where nothing is refused. The log is of `revision`, and `cells`
/// RAM cells are used.
#[rustfmt::skip]
pub fn open(registers: &mut [u64], answer: &mut [u64], revision: u64, digest: &[u64], cells: u64, code: Code, memory: Memory) -> u64 {
    call!(triton_open,
        [registers.as_mut_ptr(), registers.len(), answer.as_mut_ptr(), answer.len(), revision, digest.as_ptr(), digest.len(), cells],
        code, memory, as_mut_ptr, [])
}

/// `triton_step`: the records go to the start of `calls`.
#[rustfmt::skip]
pub fn step(registers: &mut [u64], answer: &mut [u64], code: Code, memory: Memory, calls: &mut [u8]) -> u64 {
    call!(triton_step,
        [registers.as_mut_ptr(), registers.len(), answer.as_mut_ptr(), answer.len()],
        code, memory, as_mut_ptr, [calls.as_mut_ptr(), calls.len()])
}

/// `triton_step_registers`: [`step`] over the register record.
#[rustfmt::skip]
pub fn step_registers(registers: &mut Registers, answer: &mut [u64], code: Code, memory: Memory, calls: &mut [u8]) -> u64 {
    call!(triton_step_registers,
        [registers as *mut Registers, answer.as_mut_ptr(), answer.len()],
        code, memory, as_mut_ptr, [calls.as_mut_ptr(), calls.len()])
}

/// `triton_run`: at most `budget` steps.
#[rustfmt::skip]
pub fn run(registers: &mut [u64], answer: &mut [u64], budget: u64, code: Code, memory: Memory) -> u64 {
    call!(triton_run,
        [registers.as_mut_ptr(), registers.len(), answer.as_mut_ptr(), answer.len(), budget],
        code, memory, as_mut_ptr, [])
}

/// `triton_trace_execution`: at most `budget` steps, their records joined at the start of `log`.
#[rustfmt::skip]
pub fn trace_execution(registers: &mut [u64], answer: &mut [u64], budget: u64, code: Code, memory: Memory, log: &mut [u8]) -> u64 {
    call!(triton_trace_execution,
        [registers.as_mut_ptr(), registers.len(), answer.as_mut_ptr(), answer.len(), budget],
        code, memory, as_mut_ptr, [log.as_mut_ptr(), log.len()])
}

/// `triton_trace_rows`: [`trace_execution`], and the row before each step that succeeds, 37 words, one behind the other at the start
/// of `rows`; the words behind them are kept.
#[rustfmt::skip]
pub fn trace_rows(
    registers: &mut [u64], answer: &mut [u64], budget: u64, code: Code, memory: Memory, log: &mut [u8], rows: &mut [u64],
) -> u64 {
    call!(triton_trace_rows,
        [registers.as_mut_ptr(), registers.len(), answer.as_mut_ptr(), answer.len(), budget],
        code, memory, as_mut_ptr, [log.as_mut_ptr(), log.len(), rows.as_mut_ptr(), rows.len()])
}

/// `triton_open_with_fees`: [`open`], which checks the fee table last of all and keeps nothing of it.
#[rustfmt::skip]
#[allow(clippy::too_many_arguments)]
pub fn open_with_fees(
    registers: &mut [u64], answer: &mut [u64], revision: u64, digest: &[u64], cells: u64, code: Code, memory: Memory, fees: Fees,
) -> u64 {
    call!(triton_open_with_fees,
        [registers.as_mut_ptr(), registers.len(), answer.as_mut_ptr(), answer.len(), revision, digest.as_ptr(), digest.len(), cells],
        code, memory, as_mut_ptr, [], fees)
}

/// `triton_step_with_fees`: [`step`], and the row that priced it ([`answer::ROW`]).
#[rustfmt::skip]
pub fn step_with_fees(registers: &mut [u64], answer: &mut [u64], code: Code, memory: Memory, calls: &mut [u8], fees: Fees) -> u64 {
    call!(triton_step_with_fees,
        [registers.as_mut_ptr(), registers.len(), answer.as_mut_ptr(), answer.len()],
        code, memory, as_mut_ptr, [calls.as_mut_ptr(), calls.len()], fees)
}

/// `triton_run_with_fees`: [`run`], and the fee of the steps that succeeded ([`answer::FEE`]).
#[rustfmt::skip]
pub fn run_with_fees(registers: &mut [u64], answer: &mut [u64], budget: u64, code: Code, memory: Memory, fees: Fees) -> u64 {
    call!(triton_run_with_fees,
        [registers.as_mut_ptr(), registers.len(), answer.as_mut_ptr(), answer.len(), budget],
        code, memory, as_mut_ptr, [], fees)
}

/// `triton_trace_execution_with_fees`: [`trace_execution`], and the fee of the steps that succeeded.
#[rustfmt::skip]
pub fn trace_execution_with_fees(
    registers: &mut [u64], answer: &mut [u64], budget: u64, code: Code, memory: Memory, log: &mut [u8], fees: Fees,
) -> u64 {
    call!(triton_trace_execution_with_fees,
        [registers.as_mut_ptr(), registers.len(), answer.as_mut_ptr(), answer.len(), budget],
        code, memory, as_mut_ptr, [log.as_mut_ptr(), log.len()], fees)
}

/// `triton_trace_rows_with_fees`: [`trace_rows`], and the fee of the steps that succeeded.
#[rustfmt::skip]
#[allow(clippy::too_many_arguments)]
pub fn trace_rows_with_fees(
    registers: &mut [u64], answer: &mut [u64], budget: u64, code: Code, memory: Memory, log: &mut [u8], rows: &mut [u64], fees: Fees,
) -> u64 {
    call!(triton_trace_rows_with_fees,
        [registers.as_mut_ptr(), registers.len(), answer.as_mut_ptr(), answer.len(), budget],
        code, memory, as_mut_ptr, [log.as_mut_ptr(), log.len(), rows.as_mut_ptr(), rows.len()], fees)
}

/// `triton_helper_variables`: the six words of the next step.
#[rustfmt::skip]
pub fn helper_variables(registers: &[u64], helpers: &mut [u64], code: Code, memory: MemoryView) -> u64 {
    call!(triton_helper_variables,
        [registers.as_ptr(), registers.len(), helpers.as_mut_ptr(), helpers.len()],
        code, memory, as_ptr, [])
}

/// `triton_processor_row`: the 37 words of the machine's row.
#[rustfmt::skip]
pub fn processor_row(registers: &[u64], row: &mut [u64], code: Code, memory: MemoryView) -> u64 {
    call!(triton_processor_row,
        [registers.as_ptr(), registers.len(), row.as_mut_ptr(), row.len()],
        code, memory, as_ptr, [])
}

/// `triton_replay`: the log, of `revision`, read up to `clock` from opening RAM, of which `cells` cells are used and ascend. `words`, for the
/// stack's words below the top sixteen, must be all 0.
#[allow(clippy::too_many_arguments)]
pub fn replay(
    answer: &mut [u64],
    log: &[u8],
    revision: u64,
    clock: u64,
    cells: u64,
    addresses: &mut [u64],
    values: &mut [u64],
    words: &mut [u64],
) -> u64 {
    // SAFETY: as above
    unsafe {
        triton_replay(
            answer.as_mut_ptr(),
            answer.len(),
            log.as_ptr(),
            log.len(),
            revision,
            clock,
            cells,
            addresses.as_mut_ptr(),
            addresses.len(),
            values.as_mut_ptr(),
            values.len(),
            words.as_mut_ptr(),
            words.len(),
        )
    }
}
