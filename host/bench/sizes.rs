//! How long a step takes with large slices: place A is nearly all of it, and for a new cell that the others move up. Milliseconds,
//! the best of three.
use kixombu::{Job, Opening, Sizes, Slot, LONGEST};
use std::time::Instant;

fn main() {
    println!("{:<60}{:>12}", "lent", "step, ms");
    for used in [16, 1_000, 4_000, 16_000, 64_000, 1_000_000, LONGEST] {
        report(&format!("small, {used} used cells"), nops(30), 0, small(used), used);
    }
    for used in [1_000, 64_000, 1_000_000, LONGEST - 3] {
        report(&format!("small, a new cell in front of {used} used ones"), writes(), 0, small(used + 3), used);
    }
    let longest = Sizes { op_stack: LONGEST, jump_stack: LONGEST, ram: LONGEST, output: LONGEST };
    for used in [16, 64_000, 1_000_000, LONGEST] {
        report(&format!("every slice at {LONGEST}, {used} used cells"), nops(LONGEST), LONGEST, longest, used);
    }
}

fn small(cells: usize) -> Sizes {
    Sizes { op_stack: 64, jump_stack: 16, ram: cells, output: 16 }
}

fn nops(slots: usize) -> Vec<Slot> {
    vec![Slot { opcode: 8, argument: 0 }; slots]
}

/// push of an address, below all others, and write_mem 1, three times.
fn writes() -> Vec<Slot> {
    let slots = [2, 1, 0].map(|address| [(1, address), (1, address), (11, 1), (11, 1)]);
    slots.concat().into_iter().map(|(opcode, argument)| Slot { opcode, argument }).collect()
}

/// The program, so many words of each input, and so many used cells.
fn report(name: &str, program: Vec<Slot>, words: usize, sizes: Sizes, used: usize) {
    let is_write = program[0].opcode == 1;
    let opening = Opening {
        program,
        public_input: vec![1; words],
        secret_input: vec![1; words],
        secret_digests: vec![[1; 5]; words / 5],
        ram: (3..used as u64 + 3).map(|address| (address, 1)).collect(),
        ..Opening::default()
    };
    let mut job = Job::open(&opening, sizes).expect("a sound opening");
    let turns = (0..3).map(|_| {
        if is_write {
            job.step().expect("an address is pushed");
        }
        let began = Instant::now();
        job.step().expect("a step is taken");
        began.elapsed().as_secs_f64() * 1000.0
    });
    println!("{name:<60}{:>12.3}", turns.fold(f64::MAX, f64::min));
}
