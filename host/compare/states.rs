//! Single steps: one instruction on a state made for it, at the edges of what it takes.
use crate::cells::{cells, disorder, near, put};
use crate::field::{add, P};
use crate::instructions::{decode, Instruction, ALL};
use crate::job::{Job, Start};
use crate::programs::argument;
use crate::random::Random;

/// Those that read or write RAM.
pub const OF_RAM: [&str; 6] = ["read_mem", "write_mem", "sponge_absorb_mem", "merkle_step_mem", "xx_dot_step", "xb_dot_step"];

/// A job of one step with the given instruction.
pub fn single(random: &mut Random, instruction: &Instruction) -> Job {
    let before = random.index(3);
    let behind = if random.once_in(2) { 0 } else { random.index(4) };
    let given = argument(random, instruction.argument);
    let mut slots: Vec<(u64, u64)> = (0..before + 1 + behind)
        .map(|_| {
            let other = random.pick(&ALL);
            (other.opcode, argument(random, other.argument))
        })
        .collect();
    slots[before] = (instruction.opcode, given);
    let inputs = [random.index(7), random.index(7), random.index(3), random.index(4)];
    let mut stack = stack(random, instruction.deeper_by(given));
    operands(random, instruction, &mut stack);
    let mut ram = cells(random, 6);
    cells_under(random, instruction, &stack, &mut ram);
    let mut jumps: Vec<(u64, u64)> = (0..inputs[3]).map(|_| (random.word(), random.word())).collect();
    if random.once_in(500) {
        make_large(random, &mut stack, &mut jumps, &mut ram);
    }
    Job {
        digest: [0; 5],
        public: random.words(inputs[0]),
        secret: random.words(inputs[1]),
        digests: (0..inputs[2]).map(|_| core::array::from_fn(|_| random.word())).collect(),
        ram,
        budget: 1,
        start: Some(Start {
            clock: match random.below(8) {
                0 => random.pick(&[0, 1, 255, 256, u32::MAX - 1]),
                1 => u32::MAX,
                _ => random.next() as u32,
            },
            pointer: match random.below(40) {
                0 => slots.len() as u64,
                1 => random.word(),
                _ => before as u64,
            },
            halted: random.once_in(40),
            stack,
            jumps,
            sponge: (!random.once_in(3)).then(|| core::array::from_fn(|_| random.word())),
        }),
        slots,
    }
}

/// A deep stack, many jump entries, many cells.
fn make_large(random: &mut Random, stack: &mut Vec<u64>, jumps: &mut Vec<(u64, u64)>, ram: &mut Vec<(u64, u64)>) {
    let below = random.index(5000);
    stack.splice(0..0, random.words(below));
    (0..random.index(1000)).for_each(|_| jumps.insert(0, (random.word(), random.word())));
    // before the cells that are there, or behind most of them
    let base = random.pick(&[0x1000, 0xffff_0000_0000_0000]);
    for i in 0..random.below(1500) {
        put(ram, base + 2 * i, random.word());
    }
}

/// A stack at the depth that the instruction needs, one below it, or deeper.
fn stack(random: &mut Random, deeper_by: i64) -> Vec<u64> {
    let least = 16 + (-deeper_by).max(0) as usize;
    let depth = match random.below(10) {
        0 => (least - 1).max(16),
        1..4 => least,
        4 => least + 1,
        5..9 => least + random.index(20),
        _ => least + random.index(300),
    };
    random.words(depth)
}

/// Makes the instruction's operands ones that it takes, most times.
fn operands(random: &mut Random, instruction: &Instruction, stack: &mut [u64]) {
    let top = stack.len() - 1;
    let good = !random.once_in(4);
    match instruction.name {
        "lt" | "and" | "xor" | "pow" | "div_mod" | "log_2_floor" | "pop_count" if good => {
            stack[top] = random.u32();
            stack[top - 1] = if random.once_in(8) { 0 } else { random.u32() };
        }
        "merkle_step" | "merkle_step_mem" if good => {
            stack[top - 5] = random.u32();
            stack[top - 7] = near(random);
        }
        "assert" if good => stack[top] = 1,
        "skiz" => stack[top] = if random.once_in(2) { 0 } else { random.word() },
        "eq" | "recurse_or_return" if good => {
            stack[top - 6] = stack[top - 5];
            stack[top - 1] = stack[top];
        }
        "assert_vector" => {
            (0..5).for_each(|i| stack[top - 5 - i] = stack[top - i]);
            if random.once_in(2) {
                let i = random.index(10);
                stack[top - i] = random.word();
            }
        }
        "invert" | "x_invert" if random.once_in(6) => (0..3).for_each(|i| stack[top - i] = 0),
        "x_invert" if good => stack[top - random.index(3)] = random.below(P - 1) + 1,
        "split" if good => stack[top] = random.pick(&[P - 1, P - 2, 0xffff_ffff_0000_0000, 0xffff_fffe_ffff_ffff, 1 << 32]),
        "read_mem" | "write_mem" | "sponge_absorb_mem" | "xx_dot_step" | "xb_dot_step" if good => {
            stack[top] = near(random);
            stack[top - 1] = near(random);
        }
        _ => {}
    }
}

/// Cells at and around the addresses that stand on the stack: some, or, where the instruction goes from one address to the next,
/// all of them or all but one.
fn cells_under(random: &mut Random, instruction: &Instruction, stack: &[u64], ram: &mut Vec<(u64, u64)>) {
    let top = stack.len() - 1;
    for place in [0, 1, 7] {
        let first = add(stack[top - place], P - 5);
        if OF_RAM.contains(&instruction.name) && random.once_in(3) {
            let gap = random.below(30);
            (0..15).filter(|i| *i != gap).for_each(|i| put(ram, add(first, i), random.word()));
        } else {
            (0..random.index(6)).for_each(|_| put(ram, add(first, random.below(15)), random.word()));
        }
    }
}

/// A job that does not open, by one of the numbers 2 to 5.
pub fn broken(random: &mut Random) -> Job {
    let mut job = single(random, &ALL[0]);
    if random.once_in(2) {
        job.start = None;
    }
    let large = random.too_large();
    let slot = random.index(job.slots.len());
    for _ in 0..random.between(1, 2) {
        match random.below(12) {
            0 if job.start.is_none() => job.digest[random.index(5)] = large,
            1 => job.slots[slot].1 = large,
            2 => job.public.push(large),
            3 => job.secret.insert(0, large),
            4 => job.digests.push([1, 2, 3, 4, large]),
            5 => job.ram.push((7, large)),
            6 => job.ram.push((large, 7)),
            7 => job.slots[slot].0 = (0..).map(|_| random.below(256)).find(|&opcode| decode(opcode).is_none()).unwrap(),
            8 => {
                let picked = random.pick(&ALL);
                job.slots[slot] = (picked.opcode, random.pick(&[0, 1, 5, 6, 15, 16, P - 1]));
            }
            _ => out_of_order(random, &mut job.ram),
        }
    }
    job
}

/// Two cells or more whose addresses do not ascend.
fn out_of_order(random: &mut Random, ram: &mut Vec<(u64, u64)>) {
    while ram.len() < 2 {
        put(ram, near(random), random.word());
    }
    let mut addresses: Vec<u64> = ram.iter().map(|cell| cell.0).collect();
    disorder(random, &mut addresses);
    ram.iter_mut().zip(addresses).for_each(|(cell, address)| cell.0 = address);
}
