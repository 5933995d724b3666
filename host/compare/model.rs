//! The calls of documents 01 and 02 on plain Rust containers: an implementation of its own, written from the documents and the
//! facts of the instruction set, to compare with where no Rust answers (places A and D) and on every input of the fuzz run.
mod execute;
mod fees;
mod helpers;
mod place_a;
pub mod replay;
mod row;
#[cfg(test)]
mod tests;

use crate::instructions::decode;
use crate::lent::{column, ending, register, step_bytes, Calls, Code, Fees, Memory, MemoryView};
use crate::tip5::State;
use kixombu::{bytes_of, Record};
use place_a::{place_a, Handed};
use std::collections::BTreeMap;

/// A refusal's number and the words that it carries.
#[derive(Clone, Copy, Debug, PartialEq, Eq)]
pub struct Refusal {
    pub number: u64,
    pub words: [u64; 3],
}

pub fn refuse<T>(number: u64, words: [u64; 3]) -> Result<T, Refusal> {
    Err(Refusal { number, words })
}

/// The machine's state: the used words of what is lent, and the registers.
#[derive(Clone)]
pub struct Vm {
    clock: u32,
    pointer: u64,
    halted: bool,
    stack: Vec<u64>,
    jumps: Vec<(u64, u64)>,
    /// By address, and so in order.
    ram: BTreeMap<u64, u64>,
    output: Vec<u64>,
    publics: usize,
    secrets: usize,
    digests: usize,
    sponge: Option<State>,
    /// Of the log: 1 or 2.
    revision: u64,
}

/// How many words or entries the lent slices hold.
struct Room {
    stack: usize,
    jumps: usize,
    cells: usize,
    output: usize,
}

impl Room {
    fn of(memory: &Memory) -> Room {
        Room {
            stack: memory.op_stack.len(),
            jumps: memory.origins.len(),
            cells: memory.addresses.len(),
            output: memory.output.len(),
        }
    }
}

impl Vm {
    fn new(registers: &[u64], memory: MemoryView) -> Vm {
        let count = |place: usize| registers[place] as usize;
        Vm {
            // below 2^32 by place A
            clock: registers[register::CLOCK] as u32,
            pointer: registers[register::POINTER],
            halted: registers[register::HALTED] == 1,
            stack: memory.op_stack[..count(register::DEPTH)].to_vec(),
            jumps: pairs(memory.origins, memory.destinations, count(register::JUMPS)).collect(),
            ram: pairs(memory.addresses, memory.values, count(register::CELLS)).collect(),
            output: memory.output[..count(register::OUTPUTS)].to_vec(),
            publics: count(register::PUBLICS),
            secrets: count(register::SECRETS),
            digests: count(register::DIGESTS),
            sponge: (registers[register::SPONGE_SET] == 1)
                .then(|| registers[register::SPONGE..register::REVISION].try_into().unwrap()),
            revision: registers[register::REVISION],
        }
    }

    /// Back into what is lent. The words of a sponge that is not set stay.
    fn store(&self, registers: &mut [u64], memory: &mut Memory) {
        registers[register::CLOCK] = self.clock.into();
        registers[register::POINTER] = self.pointer;
        registers[register::DEPTH] = self.stack.len() as u64;
        registers[register::JUMPS] = self.jumps.len() as u64;
        registers[register::CELLS] = self.ram.len() as u64;
        registers[register::OUTPUTS] = self.output.len() as u64;
        registers[register::PUBLICS] = self.publics as u64;
        registers[register::SECRETS] = self.secrets as u64;
        registers[register::DIGESTS] = self.digests as u64;
        registers[register::HALTED] = self.halted.into();
        if let Some(words) = self.sponge {
            registers[register::SPONGE_SET] = 1;
            registers[register::SPONGE..register::REVISION].copy_from_slice(&words);
        }
        memory.op_stack.fill(0);
        memory.op_stack[..self.stack.len()].copy_from_slice(&self.stack);
        memory.origins.fill(0);
        memory.destinations.fill(0);
        for (i, &(origin, destination)) in self.jumps.iter().enumerate() {
            memory.origins[i] = origin;
            memory.destinations[i] = destination;
        }
        for (i, (&address, &value)) in self.ram.iter().enumerate() {
            memory.addresses[i] = address;
            memory.values[i] = value;
        }
        memory.output[..self.output.len()].copy_from_slice(&self.output);
    }

    /// One step behind place A. Refused, nothing is changed, but that a refused skiz has dropped its word.
    fn step(&mut self, code: Code, room: &Room) -> Result<Vec<Record>, Refusal> {
        // place B
        if self.halted {
            return refuse(10, [0; 3]);
        }
        if self.pointer >= code.opcodes.len() as u64 {
            return refuse(11, [0; 3]);
        }
        let at = self.pointer as usize;
        let (instruction, argument) = (decode(code.opcodes[at]).unwrap(), code.arguments[at]);
        let depth_after = self.stack.len() as i64 + instruction.deeper_by(argument);
        if depth_after < 16 {
            return refuse(12, [0; 3]);
        }

        // place C
        let mut after = self.clone();
        let mut records = match after.execute(instruction, argument, code) {
            Ok(records) => records,
            Err(refusal) => {
                if instruction.name == "skiz" {
                    self.stack.pop();
                }
                return Err(refusal);
            }
        };
        assert_eq!(after.stack.len() as i64, depth_after);
        if self.revision == 2 {
            records.iter_mut().for_each(|record| put_clock(record, self.clock));
        }

        // place D
        for (number, over) in [
            (30, after.stack.len() > room.stack),
            (31, after.jumps.len() > room.jumps),
            (32, after.ram.len() > room.cells),
            (33, after.output.len() > room.output),
            (34, self.clock == u32::MAX),
        ] {
            if over {
                return refuse(number, [0; 3]);
            }
        }

        after.clock += 1;
        records.extend(self.stack_records(&after));
        *self = after;
        Ok(records)
    }

    /// A write for each word won below the top sixteen, upward, or a read for each lost, downward.
    fn stack_records(&self, after: &Vm) -> Vec<Record> {
        let (before, now) = (self.stack.len(), after.stack.len());
        let record = |pointer: usize, write: bool, stack: &[u64]| Record::Stack {
            clock: self.clock,
            pointer: pointer as u64,
            write,
            value: stack[pointer - 16],
        };
        let writes = (before..now).map(|pointer| record(pointer, true, &after.stack));
        let reads = (now..before).rev().map(|pointer| record(pointer, false, &self.stack));
        writes.chain(reads).collect()
    }
}

/// Document 02: a clock with every Tip5 and U32 record, that before the step.
pub fn put_clock(record: &mut Record, now: u32) {
    if let Record::Tip5 { clock, .. } | Record::U32 { clock, .. } = record {
        *clock = Some(now);
    }
}

fn pairs<'a>(left: &'a [u64], right: &'a [u64], n: usize) -> impl Iterator<Item = (u64, u64)> + 'a {
    left[..n].iter().copied().zip(right[..n].iter().copied())
}

/// The calls as the library has them.
pub const MODEL: Calls = Calls {
    open: |registers, answer, revision, digest, cells, code, memory| {
        open(registers, answer, revision, digest, cells, code, memory, None)
    },
    step: |registers, answer, code, memory, calls| step(registers, answer, code, memory, calls, None),
    run: |registers, answer, budget, code, memory| run(registers, answer, budget, code, memory, None, None, None),
    trace_execution: |registers, answer, budget, code, memory, log| {
        run(registers, answer, budget, code, memory, Some(log), None, None)
    },
    trace_rows: |registers, answer, budget, code, memory, log, table| {
        run(registers, answer, budget, code, memory, Some(log), Some(table), None)
    },
    open_with_fees: |registers, answer, revision, digest, cells, code, memory, fees| {
        open(registers, answer, revision, digest, cells, code, memory, Some(fees))
    },
    step_with_fees: |registers, answer, code, memory, calls, fees| step(registers, answer, code, memory, calls, Some(fees)),
    run_with_fees: |registers, answer, budget, code, memory, fees| {
        run(registers, answer, budget, code, memory, None, None, Some(fees))
    },
    trace_execution_with_fees: |registers, answer, budget, code, memory, log, fees| {
        run(registers, answer, budget, code, memory, Some(log), None, Some(fees))
    },
    trace_rows_with_fees: |registers, answer, budget, code, memory, log, table, fees| {
        run(registers, answer, budget, code, memory, Some(log), Some(table), Some(fees))
    },
    helper_variables,
    processor_row,
};

/// The table is checked last of all, and nothing of it is kept. The answer has seven words with a table too.
#[allow(clippy::too_many_arguments)]
fn open(
    registers: &mut [u64],
    answer: &mut [u64],
    revision: u64,
    digest: &[u64],
    cells: u64,
    code: Code,
    memory: Memory,
    fees: Option<Fees>,
) -> u64 {
    let handed = Handed::Open { registers, answer, revision, digest, cells, fees };
    let checked = refused(place_a(&handed, code, memory.view())).and_then(|()| fees::check(fees));
    if checked.is_ok() {
        memory.op_stack.fill(0);
        memory.origins.fill(0);
        memory.destinations.fill(0);
        for i in 0..5 {
            memory.op_stack[i] = digest[4 - i];
        }
        registers.fill(0);
        registers[register::DEPTH] = 16;
        registers[register::CELLS] = cells;
        registers[register::REVISION] = revision;
    }
    answered(answer, ending::DONE, checked, 0, 0, None)
}

fn step(registers: &mut [u64], answer: &mut [u64], code: Code, mut memory: Memory, calls: &mut [u8], fees: Option<Fees>) -> u64 {
    let row = |row: u64| fees.map(|_| row);
    let handed = Handed::Step { registers, answer, calls, fees };
    if let Err(refusal) = refused(place_a(&handed, code, memory.view())).and_then(|()| fees::check(fees)) {
        return answered(answer, 0, Err(refusal), 0, 0, row(0));
    }
    let mut vm = Vm::new(registers, memory.view());
    let at = vm.pointer;
    let stepped = vm.step(code, &Room::of(&memory));
    vm.store(registers, &mut memory);
    match stepped {
        Ok(records) => {
            let bytes = bytes_of(&records);
            calls[..bytes.len()].copy_from_slice(&bytes);
            // of the slot at the pointer handed in
            let row = fees.map(|fees| fees::priced(fees, code.opcodes[at as usize]).0);
            answered(answer, ending::DONE, Ok(()), 1, bytes.len(), row)
        }
        Err(refusal) => answered(answer, 0, Err(refusal), 0, 0, row(0)),
    }
}

fn helper_variables(registers: &[u64], helpers: &mut [u64], code: Code, memory: MemoryView) -> u64 {
    read(registers, helpers, 6, code, memory, |vm| vm.helpers(code))
}

fn processor_row(registers: &[u64], row: &mut [u64], code: Code, memory: MemoryView) -> u64 {
    read(registers, row, column::ALL, code, memory, |vm| vm.row(code).to_vec())
}

/// A call that takes no step: so many words, those not given 0.
fn read(
    registers: &[u64],
    words: &mut [u64],
    count: usize,
    code: Code,
    memory: MemoryView,
    given: impl Fn(&Vm) -> Vec<u64>,
) -> u64 {
    let number = place_a(&Handed::Read { registers, words, count }, code, memory);
    if words.len() == count {
        words.fill(0);
    }
    if number == 0 {
        let given = given(&Vm::new(registers, memory));
        words[..given.len()].copy_from_slice(&given);
    }
    number
}

/// `run`, with a log `trace_execution`, with a table too `trace_rows`: halted is tried first, then spent, then whether the log is
/// full, then whether the table is, then a step. With a fee table each step that succeeds costs what its row says.
#[allow(clippy::too_many_arguments)]
fn run(
    registers: &mut [u64],
    answer: &mut [u64],
    budget: u64,
    code: Code,
    mut memory: Memory,
    mut log: Option<&mut [u8]>,
    mut table: Option<&mut [u64]>,
    fees: Option<Fees>,
) -> u64 {
    let (all_log, all_rows) = (log.as_deref().unwrap_or(&[]), table.as_deref().unwrap_or(&[]));
    let handed = Handed::Run { registers, answer, log: all_log, rows: all_rows, fees };
    if let Err(refusal) = refused(place_a(&handed, code, memory.view())).and_then(|()| fees::check(fees)) {
        return answered(answer, 0, Err(refusal), 0, 0, fees.map(|_| 0));
    }
    let room = Room::of(&memory);
    let mut vm = Vm::new(registers, memory.view());
    let (mut steps, mut bytes, mut words, mut fee) = (0, 0, 0, 0);
    let (ending, end) = loop {
        if vm.halted {
            break (ending::DONE, Ok(()));
        }
        if steps == budget {
            break (ending::SPENT, Ok(()));
        }
        if log.as_ref().is_some_and(|log| log.len() - bytes < step_bytes(vm.revision)) {
            break (ending::FULL, Ok(()));
        }
        if table.as_ref().is_some_and(|table| table.len() - words < column::ALL) {
            break (ending::TABLE_FULL, Ok(()));
        }
        let row = table.as_ref().map(|_| vm.row(code));
        let at = vm.pointer;
        match vm.step(code, &room) {
            Ok(records) => {
                steps += 1;
                fee += fees.map_or(0, |fees| fees::priced(fees, code.opcodes[at as usize]).1);
                if let (Some(table), Some(row)) = (&mut table, row) {
                    table[words..words + row.len()].copy_from_slice(&row);
                    words += row.len();
                }
                if let Some(log) = &mut log {
                    let new = bytes_of(&records);
                    log[bytes..bytes + new.len()].copy_from_slice(&new);
                    bytes += new.len();
                }
            }
            Err(refusal) => break (ending::REFUSED, Err(refusal)),
        }
    };
    vm.store(registers, &mut memory);
    answered(answer, ending, end, steps, bytes, fees.map(|_| fee))
}

fn refused(number: u64) -> Result<(), Refusal> {
    match number {
        0 => Ok(()),
        _ => refuse(number, [0; 3]),
    }
}

/// Fills the answer, if it has the length of one, and gives the number. Behind the seven words stands the row or the fee, of a call
/// that gives one.
fn answered(answer: &mut [u64], ending: u64, end: Result<(), Refusal>, steps: u64, bytes: usize, priced: Option<u64>) -> u64 {
    let (ending, Refusal { number, words }) = match end {
        Ok(()) => (ending, Refusal { number: 0, words: [0; 3] }),
        Err(refusal) => (ending::REFUSED, refusal),
    };
    let mut all = vec![ending, number, words[0], words[1], words[2], steps, bytes as u64];
    all.extend(priced);
    if answer.len() == all.len() {
        answer.copy_from_slice(&all);
    }
    number
}
