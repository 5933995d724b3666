//! A job over memory of its own.
use crate::exports::{self, answer, ending, register, Code, Memory, MemoryView, LONGEST, STEP_BYTES};
use crate::fees::FeeTable;
use crate::replay::{replay, Replayed};
use crate::rows::{rows, Row, Rows};
use crate::{Refusal, Revision};
use std::fmt::{Debug, Formatter, Result as Formatted};
use std::sync::Once;

/// One slot of a program: an instruction with an argument stands in two.
#[derive(Clone, Copy, Debug, Default, PartialEq, Eq, Hash)]
pub struct Slot {
    /// [`instructions`](crate::instructions) has them.
    pub opcode: u64,
    /// 0 where the instruction takes none.
    pub argument: u64,
}

/// What a job is opened with.
#[derive(Clone, Debug, Default, PartialEq, Eq)]
pub struct Opening {
    /// The program's digest, which lies at the bottom of the stack.
    pub digest: [u64; 5],
    /// Its slots; the first is slot 0.
    pub program: Vec<Slot>,
    /// What read_io takes, the first word first.
    pub public_input: Vec<u64>,
    /// What divine takes.
    pub secret_input: Vec<u64>,
    /// What merkle_step takes.
    pub secret_digests: Vec<[u64; 5]>,
    /// Address and value, ascending by address: others are refused as they stand (5; [`OutOfOrder`](crate::OutOfOrder) says
    /// where). [`with_ram`](Self::with_ram) takes them in any order.
    pub ram: Vec<(u64, u64)>,
    /// Of the call log that the job's steps write.
    pub revision: Revision,
}

impl Opening {
    /// The opening with these cells in place of its own, address and value, put in order. An address that stands twice still
    /// does, and is refused.
    ///
    /// ```
    /// use kixombu::Opening;
    /// use std::collections::HashMap;
    ///
    /// let opening = Opening::default().with_ram(HashMap::from([(5, 7), (3, 8)]));
    /// assert_eq!(opening.ram, [(3, 8), (5, 7)]);
    /// ```
    pub fn with_ram(self, cells: impl IntoIterator<Item = (u64, u64)>) -> Opening {
        let mut ram: Vec<(u64, u64)> = cells.into_iter().collect();
        ram.sort_by_key(|cell| cell.0);
        Opening { ram, ..self }
    }
}

/// How much is lent to a job, up to [`LONGEST`] of each: a step that needs more is refused (30 to 33).
#[derive(Clone, Copy, Debug, PartialEq, Eq)]
pub struct Sizes {
    /// Words, at least 16.
    pub op_stack: usize,
    /// Entries.
    pub jump_stack: usize,
    /// Cells.
    pub ram: usize,
    /// Words.
    pub output: usize,
}

impl Sizes {
    /// What document 01's runjob lends.
    pub const RUNJOB: Sizes = Sizes { op_stack: 4096, jump_stack: 1024, ram: 4096, output: 4096 };
}

/// How a run ended.
#[derive(Clone, Copy, Debug, PartialEq, Eq)]
#[non_exhaustive]
pub enum Ending {
    /// By halt, now or before.
    Halted,
    /// As many steps succeeded as the budget allows, and the machine has not halted.
    Spent,
    /// Of [`Job::trace_execution`] and [`Job::trace_rows`]: the log has no room for a further step, which takes up to
    /// [`Revision::step_bytes`] bytes.
    LogFull,
    /// Of [`Job::trace_rows`]: the table has no room for a further row, of [`Row::WORDS`] words. Where the log has none either,
    /// it is [`LogFull`](Self::LogFull).
    TableFull,
    /// A step was refused; those before it are kept.
    Refused(Refusal),
}

/// What a run did.
#[must_use = "a run may have been refused, or may have to go on"]
#[derive(Clone, Copy, Debug, PartialEq, Eq)]
pub struct Ran {
    /// How it ended.
    pub ending: Ending,
    /// How many steps succeeded, and so how many rows [`Job::trace_rows`] has written.
    pub steps: u64,
    /// How many bytes of the log were written.
    pub bytes: usize,
}

/// An opened job: program, inputs and the machine's whole state, in memory that the job owns.
///
/// A refused call leaves the job as it was, so that it can go on with a larger budget or be looked at, with the two exceptions of
/// document 01: a run keeps the steps before its refusal, and a skiz with nothing behind it drops its word.
#[derive(Clone)]
pub struct Job {
    registers: [u64; register::ALL],
    opcodes: Vec<u64>,
    arguments: Vec<u64>,
    public: Vec<u64>,
    secret: Vec<u64>,
    digests: Vec<u64>,
    op_stack: Vec<u64>,
    origins: Vec<u64>,
    destinations: Vec<u64>,
    addresses: Vec<u64>,
    values: Vec<u64>,
    output: Vec<u64>,
    /// The records of the last step.
    calls: [u8; STEP_BYTES],
    /// For replay.
    opening_ram: Vec<(u64, u64)>,
    revision: Revision,
}

impl Job {
    /// Opens a job, or says what is wrong with what it is opened with (numbers 1 to 5).
    ///
    /// # Panics
    ///
    /// Where the linked library has another interface than this crate ([`check_interface`](exports::check_interface)).
    pub fn open(opening: &Opening, sizes: Sizes) -> Result<Job, Refusal> {
        Job::opened(opening, sizes, exports::open)
    }

    /// [`open`](Self::open), which also looks at a fee table, last of all (numbers 64 to 66). The job keeps nothing of it: each call
    /// with fees is handed one, this or another.
    ///
    /// # Panics
    ///
    /// As [`open`](Self::open) does.
    pub fn open_with_fees(opening: &Opening, sizes: Sizes, fees: &FeeTable) -> Result<Job, Refusal> {
        Job::opened(opening, sizes, |registers, answer, revision, digest, cells, code, memory| {
            exports::open_with_fees(registers, answer, revision, digest, cells, code, memory, fees.slices())
        })
    }

    /// By a call in the shape of [`exports::open`].
    fn opened(
        opening: &Opening,
        sizes: Sizes,
        open: impl Fn(&mut [u64], &mut [u64], u64, &[u64], u64, Code, Memory) -> u64,
    ) -> Result<Job, Refusal> {
        need_interface();
        let (addresses, values) = cells(&opening.ram, sizes.ram);
        let mut job = Job {
            registers: [0; register::ALL],
            opcodes: opening.program.iter().map(|slot| slot.opcode).collect(),
            arguments: opening.program.iter().map(|slot| slot.argument).collect(),
            public: opening.public_input.clone(),
            secret: opening.secret_input.clone(),
            digests: opening.secret_digests.concat(),
            op_stack: zeros(sizes.op_stack),
            origins: zeros(sizes.jump_stack),
            destinations: zeros(sizes.jump_stack),
            addresses,
            values,
            output: zeros(sizes.output),
            calls: [0; STEP_BYTES],
            opening_ram: opening.ram.clone(),
            revision: opening.revision,
        };
        let mut answer = [0; answer::ALL];
        let (registers, code, memory, _) = job.parts();
        let (revision, cells) = (opening.revision.number(), opening.ram.len() as u64);
        open(registers, &mut answer, revision, &opening.digest, cells, code, memory);
        match ran(&answer).ending {
            Ending::Refused(refusal) => Err(refusal),
            _ => Ok(job),
        }
    }

    /// One step, and the records of its calls ([`records`](crate::records) reads them).
    pub fn step(&mut self) -> Result<&[u8], Refusal> {
        let mut answer = [0; answer::ALL];
        let (registers, code, memory, calls) = self.parts();
        exports::step(registers, &mut answer, code, memory, calls);
        let ran = ran(&answer);
        match ran.ending {
            Ending::Refused(refusal) => Err(refusal),
            _ => Ok(&self.calls[..ran.bytes]),
        }
    }

    /// At most so many steps, without records.
    pub fn run(&mut self, budget: u64) -> Ran {
        let mut answer = [0; answer::ALL];
        let (registers, code, memory, _) = self.parts();
        exports::run(registers, &mut answer, budget, code, memory);
        ran(&answer)
    }

    /// At most so many steps, with the records of their calls joined at the start of the log, of up to [`LONGEST`] bytes. Where it
    /// gets full the job can go on with an empty one, as [`trace_in_pieces`](crate::listing::trace_in_pieces) does.
    pub fn trace_execution(&mut self, budget: u64, log: &mut [u8]) -> Ran {
        let mut answer = [0; answer::ALL];
        let (registers, code, memory, _) = self.parts();
        exports::trace_execution(registers, &mut answer, budget, code, memory, log);
        ran(&answer)
    }

    /// [`trace_execution`](Self::trace_execution), and the rows of the processor table: for each step that succeeds, the halt's too,
    /// the machine before it. They stand at the start of the table, of up to [`LONGEST`] words, [`Row::WORDS`] to a row; the words
    /// behind them are kept. Where log or table gets full the job can go on with empty ones, as
    /// [`rows_in_pieces`](crate::listing::rows_in_pieces) does.
    ///
    /// ```
    /// use kixombu::{Ending, Job, Opening, Row, Sizes, Slot};
    ///
    /// // push 3; push 4; halt
    /// let slots = [(1, 3), (1, 3), (1, 4), (1, 4), (0, 0)];
    /// let program = slots.map(|(opcode, argument)| Slot { opcode, argument }).to_vec();
    /// let mut job = Job::open(&Opening { program, ..Opening::default() }, Sizes::RUNJOB).unwrap();
    /// let (mut log, mut table) = (vec![0; 10_000], vec![0; 2 * Row::WORDS]);
    /// let (ran, rows) = job.trace_rows(1_000, &mut log, &mut table);
    /// assert_eq!((ran.ending, ran.steps), (Ending::TableFull, 2));
    /// let rows: Vec<(u64, u64, u64)> = rows.map(|row| (row.clk, row.nia, row.st[0])).collect();
    /// assert_eq!(rows, [(0, 3, 0), (1, 4, 3)]);
    /// let (ran, mut rows) = job.trace_rows(1_000, &mut log, &mut table);
    /// assert_eq!((ran.ending, rows.next().unwrap().st[..2].to_vec(), rows.next()), (Ending::Halted, vec![4, 3], None));
    /// ```
    pub fn trace_rows<'a>(&mut self, budget: u64, log: &mut [u8], table: &'a mut [u64]) -> (Ran, Rows<'a>) {
        let mut answer = [0; answer::ALL];
        let (registers, code, memory, _) = self.parts();
        exports::trace_rows(registers, &mut answer, budget, code, memory, log, table);
        let ran = ran(&answer);
        (ran, rows(&table[..ran.steps as usize * Row::WORDS]))
    }

    /// [`step`](Self::step), and the row of the fee table that priced it, counted from 0. A step that is refused costs nothing, skiz's
    /// too; a table that is not good is refused with 64 to 66, before place B.
    pub fn step_with_fees(&mut self, fees: &FeeTable) -> Result<(&[u8], usize), Refusal> {
        let mut answer = [0; answer::WITH_FEES];
        let (registers, code, memory, calls) = self.parts();
        exports::step_with_fees(registers, &mut answer, code, memory, calls, fees.slices());
        let (ran, row) = priced(&answer);
        match ran.ending {
            Ending::Refused(refusal) => Err(refusal),
            _ => Ok((&self.calls[..ran.bytes], row as usize)),
        }
    }

    /// [`run`](Self::run), and the fee of the steps that succeeded, whatever ended it: the sum of their rows' fees. It does not depend
    /// on how the steps are cut into calls. A table that is not good is refused with 64 to 66, also where the machine has halted.
    ///
    /// ```
    /// use kixombu::{Ending, FeeRow, FeeTable, Job, Opening, Refusal, Sizes, Slot};
    ///
    /// // a step costs 2, and a hash 50
    /// let row = |lowest, highest, fee| FeeRow { lowest, highest, fee };
    /// let fees = FeeTable::new([row(0, 17, 2), row(18, 18, 50), row(19, 88, 2)]);
    /// fees.check().unwrap();
    ///
    /// // push 3; pop 1; hash, for which the stack is too shallow
    /// let slots = [(1, 3), (1, 3), (3, 1), (3, 1), (18, 0)];
    /// let program = slots.map(|(opcode, argument)| Slot { opcode, argument }).to_vec();
    /// let mut job = Job::open_with_fees(&Opening { program, ..Opening::default() }, Sizes::RUNJOB, &fees)?;
    /// let (ran, fee) = job.run_with_fees(1, &fees);
    /// assert_eq!((ran.ending, fee), (Ending::Spent, 2));
    /// let (ran, fee) = job.run_with_fees(1_000, &fees);
    /// assert_eq!((ran.ending, ran.steps, fee), (Ending::Refused(Refusal::OpStackTooShallow), 1, 2));
    ///
    /// // halt is in no row
    /// let (ran, fee) = job.run_with_fees(1_000, &FeeTable::new([row(1, 88, 2)]));
    /// assert_eq!((ran.ending, fee), (Ending::Refused(Refusal::OpcodeWithoutFee(0)), 0));
    /// # Ok::<(), Refusal>(())
    /// ```
    pub fn run_with_fees(&mut self, budget: u64, fees: &FeeTable) -> (Ran, u64) {
        let mut answer = [0; answer::WITH_FEES];
        let (registers, code, memory, _) = self.parts();
        exports::run_with_fees(registers, &mut answer, budget, code, memory, fees.slices());
        priced(&answer)
    }

    /// [`trace_execution`](Self::trace_execution), and the fee of the steps that succeeded, as of
    /// [`run_with_fees`](Self::run_with_fees).
    pub fn trace_execution_with_fees(&mut self, budget: u64, log: &mut [u8], fees: &FeeTable) -> (Ran, u64) {
        let mut answer = [0; answer::WITH_FEES];
        let (registers, code, memory, _) = self.parts();
        exports::trace_execution_with_fees(registers, &mut answer, budget, code, memory, log, fees.slices());
        priced(&answer)
    }

    /// [`trace_rows`](Self::trace_rows), and the fee of the steps that succeeded, as of [`run_with_fees`](Self::run_with_fees).
    pub fn trace_rows_with_fees<'a>(
        &mut self,
        budget: u64,
        log: &mut [u8],
        table: &'a mut [u64],
        fees: &FeeTable,
    ) -> (Ran, u64, Rows<'a>) {
        let mut answer = [0; answer::WITH_FEES];
        let (registers, code, memory, _) = self.parts();
        exports::trace_rows_with_fees(registers, &mut answer, budget, code, memory, log, table, fees.slices());
        let (ran, fee) = priced(&answer);
        (ran, fee, rows(&table[..ran.steps as usize * Row::WORDS]))
    }

    /// The helper variables of the next step.
    pub fn helper_variables(&self) -> Result<[u64; 6], Refusal> {
        let mut helpers = [0; 6];
        let (registers, code, memory) = self.view();
        match exports::helper_variables(registers, &mut helpers, code, memory) {
            0 => Ok(helpers),
            number => Err(refusal(number, [0; 3])),
        }
    }

    /// The row of the processor table for the next step, whether it will succeed or not.
    pub fn processor_row(&self) -> Result<Row, Refusal> {
        let mut words = [0; Row::WORDS];
        let (registers, code, memory) = self.view();
        match exports::processor_row(registers, &mut words, code, memory) {
            0 => Ok(Row::of(&words)),
            number => Err(refusal(number, [0; 3])),
        }
    }

    /// Replays a log of this job from its opening RAM: what its step before `clock` left (the opening for 0). As much is lent
    /// as to the job itself. The job stays as it is.
    pub fn replay(&self, log: &[u8], clock: u64) -> Result<Replayed, Refusal> {
        replay(log, self.revision, clock, &self.opening_ram, self.addresses.len(), self.op_stack.len())
    }

    fn parts(&mut self) -> (&mut [u64], Code<'_>, Memory<'_>, &mut [u8]) {
        let Job { opcodes, arguments, public, secret, digests, op_stack, origins, destinations, .. } = self;
        let code = Code { opcodes, arguments, public, secret, digests };
        let Job { addresses, values, output, registers, calls, .. } = self;
        (registers, code, Memory { op_stack, origins, destinations, addresses, values, output }, calls)
    }

    /// The same, only to be read.
    fn view(&self) -> (&[u64], Code<'_>, MemoryView<'_>) {
        let Job { opcodes, arguments, public, secret, digests, op_stack, origins, destinations, .. } = self;
        let code = Code { opcodes, arguments, public, secret, digests };
        let Job { addresses, values, output, registers, .. } = self;
        (registers, code, MemoryView { op_stack, origins, destinations, addresses, values, output })
    }
}

/// What the job's state is.
impl Job {
    /// The steps taken since the opening.
    pub fn clock(&self) -> u64 {
        self.registers[register::CLOCK]
    }

    /// The slot of the next instruction, which may be outside the program.
    pub fn instruction_pointer(&self) -> u64 {
        self.registers[register::POINTER]
    }

    /// Whether it has taken a halt.
    pub fn is_halted(&self) -> bool {
        self.registers[register::HALTED] == 1
    }

    /// The used words, the top one last.
    pub fn op_stack(&self) -> &[u64] {
        &self.op_stack[..self.count(register::DEPTH)]
    }

    /// Origin and destination, the top one last.
    pub fn jump_stack(&self) -> impl ExactSizeIterator<Item = (u64, u64)> + '_ {
        pairs(&self.origins, &self.destinations, self.count(register::JUMPS))
    }

    /// Address and value of the used cells, ascending by address.
    pub fn ram(&self) -> impl ExactSizeIterator<Item = (u64, u64)> + '_ {
        pairs(&self.addresses, &self.values, self.count(register::CELLS))
    }

    /// The value at an address; none where it has no cell, and is read as 0.
    pub fn cell(&self, address: u64) -> Option<u64> {
        let used = &self.addresses[..self.count(register::CELLS)];
        used.binary_search(&address).ok().map(|place| self.values[place])
    }

    /// The words that write_io has put out.
    pub fn output(&self) -> &[u64] {
        &self.output[..self.count(register::OUTPUTS)]
    }

    /// How many words of public and secret input and how many secret digests were taken.
    pub fn taken(&self) -> [usize; 3] {
        [register::PUBLICS, register::SECRETS, register::DIGESTS].map(|place| self.count(place))
    }

    /// Of the call log that the job's steps write.
    pub fn revision(&self) -> Revision {
        self.revision
    }

    /// None before sponge_init.
    pub fn sponge(&self) -> Option<[u64; 16]> {
        let words = || std::array::from_fn(|i| self.registers[register::SPONGE + i]);
        (self.registers[register::SPONGE_SET] == 1).then(words)
    }

    fn count(&self, place: usize) -> usize {
        self.registers[place] as usize
    }
}

/// The registers; the rest is long.
impl Debug for Job {
    fn fmt(&self, f: &mut Formatter) -> Formatted {
        f.debug_struct("Job")
            .field("clock", &self.clock())
            .field("instruction_pointer", &self.instruction_pointer())
            .field("depth", &self.op_stack().len())
            .field("is_halted", &self.is_halted())
            .finish_non_exhaustive()
    }
}

/// Slices over the limit are refused, so that no more than one element over it needs to be there.
pub(crate) fn zeros(length: usize) -> Vec<u64> {
    vec![0; length.min(LONGEST + 1)]
}

/// So many cells, with those given at the start.
pub(crate) fn cells(given: &[(u64, u64)], length: usize) -> (Vec<u64>, Vec<u64>) {
    let (mut addresses, mut values) = (zeros(length), zeros(length));
    let lent = addresses.iter_mut().zip(&mut values);
    lent.zip(given).for_each(|((address, value), cell)| (*address, *value) = *cell);
    (addresses, values)
}

pub(crate) fn pairs<'a>(left: &'a [u64], right: &'a [u64], n: usize) -> impl ExactSizeIterator<Item = (u64, u64)> + 'a {
    left[..n].iter().copied().zip(right[..n].iter().copied())
}

/// Of an answer that says refused. The library gives 0 with none; were it to, the number would be unknown.
pub(crate) fn refusal(number: u64, words: [u64; 3]) -> Refusal {
    Refusal::new(number, words).unwrap_or(Refusal::Unknown { number, words })
}

/// Looks at the library once.
pub(crate) fn need_interface() {
    static ONCE: Once = Once::new();
    ONCE.call_once(|| exports::check_interface().unwrap_or_else(|text| panic!("{text}")));
}

/// Of an answer with a fee table: the run, and the row or the fee.
fn priced(answer: &[u64; answer::WITH_FEES]) -> (Ran, u64) {
    (ran(&std::array::from_fn(|place| answer[place])), answer[answer::FEE])
}

fn ran(answer: &[u64; answer::ALL]) -> Ran {
    let words = [0, 1, 2].map(|i| answer[answer::WORDS + i]);
    let ending = match answer[answer::ENDING] {
        ending::DONE => Ending::Halted,
        ending::SPENT => Ending::Spent,
        ending::FULL => Ending::LogFull,
        ending::TABLE_FULL => Ending::TableFull,
        _ => Ending::Refused(refusal(answer[answer::NUMBER], words)),
    };
    Ran { ending, steps: answer[answer::STEPS], bytes: answer[answer::BYTES] as usize }
}
