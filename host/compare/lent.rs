//! What a call is handed, in the shape of the library's C interface.
use kixombu::exports;
pub use kixombu::exports::{answer, column, ending, register, step_bytes, Code, Fees, Memory, MemoryView, LONGEST, STEP_BYTES};

pub type Answer = [u64; answer::ALL];
/// The words of an answer, and behind them the row or the fee, where a fee table is handed in.
pub type Priced = (Answer, Option<u64>);
/// The words of a row of the processor table.
pub type Row = [u64; column::ALL];

/// The calls of one side: the library's or the model's (`model::MODEL`). Each gives the number, 0 where not refused.
#[allow(clippy::type_complexity)]
#[derive(Clone, Copy)]
pub struct Calls {
    pub open: fn(Words, Words, u64, &[u64], u64, Code, Memory) -> u64,
    pub step: fn(Words, Words, Code, Memory, &mut [u8]) -> u64,
    pub run: fn(Words, Words, u64, Code, Memory) -> u64,
    pub trace_execution: fn(Words, Words, u64, Code, Memory, &mut [u8]) -> u64,
    pub trace_rows: fn(Words, Words, u64, Code, Memory, &mut [u8], Words) -> u64,
    pub open_with_fees: fn(Words, Words, u64, &[u64], u64, Code, Memory, Fees) -> u64,
    pub step_with_fees: fn(Words, Words, Code, Memory, &mut [u8], Fees) -> u64,
    pub run_with_fees: fn(Words, Words, u64, Code, Memory, Fees) -> u64,
    pub trace_execution_with_fees: fn(Words, Words, u64, Code, Memory, &mut [u8], Fees) -> u64,
    pub trace_rows_with_fees: fn(Words, Words, u64, Code, Memory, &mut [u8], Words, Fees) -> u64,
    pub helper_variables: fn(&[u64], Words, Code, MemoryView) -> u64,
    pub processor_row: fn(&[u64], Words, Code, MemoryView) -> u64,
}

/// Registers, answer, helper variables or rows.
type Words<'a> = &'a mut [u64];

/// The proved library.
pub const LIBRARY: Calls = Calls {
    open: exports::open,
    step: exports::step,
    run: exports::run,
    trace_execution: exports::trace_execution,
    trace_rows: exports::trace_rows,
    open_with_fees: exports::open_with_fees,
    step_with_fees: exports::step_with_fees,
    run_with_fees: exports::run_with_fees,
    trace_execution_with_fees: exports::trace_execution_with_fees,
    trace_rows_with_fees: exports::trace_rows_with_fees,
    helper_variables: exports::helper_variables,
    processor_row: exports::processor_row,
};

/// Everything that is lent but for answer and bytes, owned.
#[derive(Clone, Debug, Default, PartialEq, Eq)]
pub struct Machine {
    pub registers: Vec<u64>,
    pub opcodes: Vec<u64>,
    pub arguments: Vec<u64>,
    pub public: Vec<u64>,
    pub secret: Vec<u64>,
    pub digests: Vec<u64>,
    pub op_stack: Vec<u64>,
    pub origins: Vec<u64>,
    pub destinations: Vec<u64>,
    pub addresses: Vec<u64>,
    pub values: Vec<u64>,
    pub output: Vec<u64>,
}

pub const SLICES: [&str; 12] = [
    "registers",
    "opcodes",
    "arguments",
    "public",
    "secret",
    "digests",
    "op_stack",
    "origins",
    "destinations",
    "addresses",
    "values",
    "output",
];

impl Machine {
    pub fn parts(&mut self) -> (&mut [u64], Code<'_>, Memory<'_>) {
        let code = Code {
            opcodes: &self.opcodes,
            arguments: &self.arguments,
            public: &self.public,
            secret: &self.secret,
            digests: &self.digests,
        };
        let memory = Memory {
            op_stack: &mut self.op_stack,
            origins: &mut self.origins,
            destinations: &mut self.destinations,
            addresses: &mut self.addresses,
            values: &mut self.values,
            output: &mut self.output,
        };
        (&mut self.registers, code, memory)
    }

    /// In the order of `SLICES`.
    pub fn slices(&self) -> [&Vec<u64>; 12] {
        [
            &self.registers,
            &self.opcodes,
            &self.arguments,
            &self.public,
            &self.secret,
            &self.digests,
            &self.op_stack,
            &self.origins,
            &self.destinations,
            &self.addresses,
            &self.values,
            &self.output,
        ]
    }

    pub fn slices_mut(&mut self) -> [&mut Vec<u64>; 12] {
        [
            &mut self.registers,
            &mut self.opcodes,
            &mut self.arguments,
            &mut self.public,
            &mut self.secret,
            &mut self.digests,
            &mut self.op_stack,
            &mut self.origins,
            &mut self.destinations,
            &mut self.addresses,
            &mut self.values,
            &mut self.output,
        ]
    }

    pub fn open(&mut self, by: &Calls, revision: u64, digest: &[u64], cells: u64) -> Answer {
        let mut answer = [u64::MAX; answer::ALL];
        let (registers, code, memory) = self.parts();
        let number = (by.open)(registers, &mut answer, revision, digest, cells, code, memory);
        numbered(answer, number)
    }

    pub fn step(&mut self, by: &Calls, calls: &mut [u8]) -> Answer {
        let mut answer = [u64::MAX; answer::ALL];
        let (registers, code, memory) = self.parts();
        let number = (by.step)(registers, &mut answer, code, memory, calls);
        numbered(answer, number)
    }

    pub fn run(&mut self, by: &Calls, budget: u64) -> Answer {
        let mut answer = [u64::MAX; answer::ALL];
        let (registers, code, memory) = self.parts();
        let number = (by.run)(registers, &mut answer, budget, code, memory);
        numbered(answer, number)
    }

    pub fn trace_execution(&mut self, by: &Calls, budget: u64, log: &mut [u8]) -> Answer {
        let mut answer = [u64::MAX; answer::ALL];
        let (registers, code, memory) = self.parts();
        let number = (by.trace_execution)(registers, &mut answer, budget, code, memory, log);
        numbered(answer, number)
    }

    pub fn trace_rows(&mut self, by: &Calls, budget: u64, log: &mut [u8], table: &mut [u64]) -> Answer {
        let mut answer = [u64::MAX; answer::ALL];
        let (registers, code, memory) = self.parts();
        let number = (by.trace_rows)(registers, &mut answer, budget, code, memory, log, table);
        numbered(answer, number)
    }

    /// Open, with a fee table or without; it gives no fee.
    pub fn open_priced(&mut self, by: &Calls, revision: u64, digest: &[u64], cells: u64, fees: Option<Fees>) -> Answer {
        let Some(fees) = fees else {
            return self.open(by, revision, digest, cells);
        };
        let mut answer = [u64::MAX; answer::ALL];
        let (registers, code, memory) = self.parts();
        let number = (by.open_with_fees)(registers, &mut answer, revision, digest, cells, code, memory, fees);
        numbered(answer, number)
    }

    /// As the four above, with a fee table or without.
    pub fn step_priced(&mut self, by: &Calls, calls: &mut [u8], fees: Option<Fees>) -> Priced {
        let Some(fees) = fees else {
            return (self.step(by, calls), None);
        };
        self.priced(|registers, answer, code, memory| (by.step_with_fees)(registers, answer, code, memory, calls, fees))
    }

    pub fn run_priced(&mut self, by: &Calls, budget: u64, fees: Option<Fees>) -> Priced {
        let Some(fees) = fees else {
            return (self.run(by, budget), None);
        };
        self.priced(|registers, answer, code, memory| (by.run_with_fees)(registers, answer, budget, code, memory, fees))
    }

    pub fn trace_priced(&mut self, by: &Calls, budget: u64, log: &mut [u8], fees: Option<Fees>) -> Priced {
        let Some(fees) = fees else {
            return (self.trace_execution(by, budget, log), None);
        };
        self.priced(|registers, answer, code, memory| {
            (by.trace_execution_with_fees)(registers, answer, budget, code, memory, log, fees)
        })
    }

    pub fn rows_priced(&mut self, by: &Calls, budget: u64, log: &mut [u8], table: &mut [u64], fees: Option<Fees>) -> Priced {
        let Some(fees) = fees else {
            return (self.trace_rows(by, budget, log, table), None);
        };
        self.priced(|registers, answer, code, memory| {
            (by.trace_rows_with_fees)(registers, answer, budget, code, memory, log, table, fees)
        })
    }

    fn priced(&mut self, call: impl FnOnce(Words, Words, Code, Memory) -> u64) -> Priced {
        let mut answer = [u64::MAX; answer::WITH_FEES];
        let (registers, code, memory) = self.parts();
        let number = call(registers, &mut answer, code, memory);
        (numbered(core::array::from_fn(|place| answer[place]), number), Some(answer[answer::FEE]))
    }

    /// The number and the six words.
    pub fn helper_variables(&mut self, by: &Calls) -> (u64, [u64; 6]) {
        let mut helpers = [u64::MAX; 6];
        let (registers, code, memory) = self.parts();
        let number = (by.helper_variables)(registers, &mut helpers, code, memory.view());
        (number, helpers)
    }

    /// The number and the row.
    pub fn processor_row(&mut self, by: &Calls) -> (u64, Row) {
        let mut row = [u64::MAX; column::ALL];
        let (registers, code, memory) = self.parts();
        let number = (by.processor_row)(registers, &mut row, code, memory.view());
        (number, row)
    }
}

/// The answer; where the call returned another number than stands in it, one with a number that no call gives.
fn numbered(mut answer: Answer, number: u64) -> Answer {
    if answer[answer::NUMBER] != number {
        answer[answer::NUMBER] = u64::MAX;
    }
    answer
}
