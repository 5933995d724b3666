//! The smallest inputs of docs/DIFFERENCES.md, as the library answers them.
use kixombu::exports::{self, answer, register, Code, Memory, STEP_BYTES};
use kixombu::{records, Ending, Job, Opening, Record, Refusal, Revision, Sizes, Slot};

const SMALL: Sizes = Sizes { op_stack: 17, jump_stack: 1, ram: 2, output: 0 };

/// A program by its instructions' opcodes and arguments; one with an argument has two slots.
fn opened(program: &[(u64, u64)], sizes: Sizes) -> Result<Job, Refusal> {
    let program = program.iter().map(|&(opcode, argument)| Slot { opcode, argument }).collect();
    Job::open(&Opening { program, ..Opening::default() }, sizes)
}

#[test]
fn place_a() {
    assert_eq!(opened(&[], Sizes { op_stack: 15, ..SMALL }).unwrap_err(), Refusal::BadShape);
    assert_eq!(opened(&[(3, 6), (3, 6)], SMALL).unwrap_err(), Refusal::IllegalArgument);
    let (mut registers, mut answer, mut op_stack) = ([0; register::ALL], [0; answer::ALL], [0; 18]);
    (registers[register::DEPTH], registers[register::REVISION], op_stack[17]) = (17, 1, 1);
    let code = Code { opcodes: &[], arguments: &[], public: &[], secret: &[], digests: &[] };
    let memory = Memory {
        op_stack: &mut op_stack,
        origins: &mut [],
        destinations: &mut [],
        addresses: &mut [],
        values: &mut [],
        output: &mut [],
    };
    assert_eq!(exports::step(&mut registers, &mut answer, code, memory, &mut [0; STEP_BYTES]), 5);
}

#[test]
fn a_full_stack() {
    let mut job = opened(&[(1, 1), (1, 1)], Sizes { op_stack: 16, ..SMALL }).unwrap();
    assert_eq!(job.step().unwrap_err(), Refusal::OpStackFull);
    assert_eq!((job.clock(), job.instruction_pointer(), job.op_stack()), (0, 0, &[0; 16][..]));
}

#[test]
fn a_budget() {
    let mut job = opened(&[(49, 0), (49, 0)], SMALL).unwrap();
    let ran = job.run(1);
    assert_eq!((ran.ending, ran.steps), (Ending::Spent, 1));
}

#[test]
fn a_direction() {
    let mut job = opened(&[(1, 1), (1, 1)], SMALL).unwrap();
    let record = job.step().unwrap();
    assert_eq!(record[16], 1);
    let all: Vec<Record> = records(record).map(Result::unwrap).collect();
    assert_eq!(all, [Record::Stack { clock: 0, pointer: 16, write: true, value: 0 }]);
}

#[test]
fn the_order_of_cells() {
    let write = |value, address| [(1, value), (1, value), (1, address), (1, address), (11, 1), (11, 1)];
    let program = [write(7, 5), write(8, 3)].concat();
    let mut job = opened(&program, Sizes { op_stack: 20, ..SMALL }).unwrap();
    assert_eq!(job.run(6).ending, Ending::Spent);
    assert_eq!(job.ram().collect::<Vec<_>>(), [(3, 8), (5, 7)]);
}

/// A clock with every Tip5 and U32 record, which the Rust's calls lack.
#[test]
fn clocks_of_revision_2() {
    let program = [(8, 0), (4, 0)].map(|(opcode, argument)| Slot { opcode, argument }).to_vec();
    let opening = Opening { program, revision: Revision::Two, ..Opening::default() };
    let mut job = Job::open(&opening, SMALL).unwrap();
    job.step().unwrap();
    let bytes = job.step().unwrap();
    assert_eq!(bytes[..10], [24, 0, 7, 0, 1, 0, 0, 0, 4, 0]);
    assert_eq!(bytes.len(), 26 + 25);
}
