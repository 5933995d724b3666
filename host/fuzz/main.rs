//! fuzz [CALLS [SEED]]: so many calls of each export on arbitrary input, each made twice between guards and held to the model.
//! fuzz piece N SEED: one piece of that work again.
mod by_record;
mod guard;
mod input;
mod lengths;

use by_record::BY_RECORD;
use guard::Arena;
use host::instructions::{decode, named};
use host::lent::{register, LIBRARY};
use host::model::MODEL;
use host::random::Random;
use host::work::{self, fail, Watched};
use input::{inputs, Export, Input, EXPORTS};
use std::process::exit;
use std::time::Instant;

/// How many calls of an export are one piece of work.
const PIECE: u64 = 20_000;

type Counts = work::Counts<(&'static str, u64)>;

struct Fuzz {
    seed: u64,
}

impl Fuzz {
    fn piece(&self, piece: u64, watched: &Watched) -> Result<Counts, String> {
        let export = EXPORTS[(piece % EXPORTS.len() as u64) as usize];
        let mut random = Random::for_piece(self.seed, piece);
        let mut arenas = [Arena::new(0xa5a5_a5a5_a5a5_a5a5), Arena::new(0x0123_4567_89ab_cdef), Arena::new(0)];
        let mut counts = Counts::new();
        let mut call = 0;
        while call < PIECE {
            for input in inputs(export, &mut random) {
                watched.begins(call);
                let number = compare(export, &input, &mut arenas).map_err(|text| {
                    format!(
                        "{}: {text}\ninput: {input:?}\nrepeat: fuzz piece {piece} {}; it is call {call}",
                        export.name(),
                        self.seed
                    )
                })?;
                watched.ends();
                *counts.entry((export.name(), number)).or_default() += 1;
                call += 1;
            }
        }
        Ok(counts)
    }
}

/// The library twice beside the model; the second time with other guards, and with step by the register record.
fn compare(export: Export, input: &Input, [first, second, expected]: &mut [Arena; 3]) -> Result<u64, String> {
    let number = expected.call(export, input, &MODEL);
    for (arena, library) in [(first, &LIBRARY), (second, &BY_RECORD)] {
        let found = arena.call(export, input, library);
        if found != number {
            return Err(format!("{found} instead of {number}"));
        }
        if let Some(text) = arena.difference(expected) {
            return Err(text);
        }
        // by a step, not by a fee table
        let may_change = export.has_budget() && (10..64).contains(&number) || number == 11 && is_at_skiz(input);
        if number != 0 && !may_change && !arena.is_unchanged(input) {
            return Err(format!("refused with {number}, and something is changed"));
        }
    }
    Ok(number)
}

fn is_at_skiz(input: &Input) -> bool {
    let pointer = input.machine.registers[register::POINTER];
    let opcode = usize::try_from(pointer).ok().and_then(|pointer| input.machine.opcodes.get(pointer));
    opcode.and_then(|&opcode| decode(opcode)).is_some_and(|instruction| instruction.opcode == named("skiz").opcode)
}

fn main() {
    let is_piece = std::env::args().nth(1).is_some_and(|word| word == "piece");
    let mut words = std::env::args().skip(1 + is_piece as usize).map(|word| word.parse().unwrap_or_else(|_| usage()));
    if is_piece {
        let piece = words.next().unwrap_or_else(|| usage());
        let fuzz = Fuzz { seed: words.next().unwrap_or_else(|| usage()) };
        match fuzz.piece(piece, &Watched::new(Instant::now())) {
            Ok(counts) => return print(&counts),
            Err(text) => fail(&text),
        }
    }
    let calls: u64 = words.next().unwrap_or(10_000_000);
    let seed = words.next().unwrap_or_else(|| std::time::UNIX_EPOCH.elapsed().unwrap().as_secs());
    println!("seed {seed}: {calls} calls of each export");
    lengths::check();
    let pieces = calls.div_ceil(PIECE) * EXPORTS.len() as u64;
    let fuzz = Fuzz { seed };
    let start = Instant::now();
    let repeat = |piece, call| format!("fuzz piece {piece} {seed}; it is call {call}");
    match work::in_pieces(pieces, |piece, watched| fuzz.piece(piece, watched), repeat) {
        Ok(counts) => print(&counts),
        Err(text) => fail(&text),
    }
    println!("seed {seed}: no difference, {} seconds", start.elapsed().as_secs());
}

fn print(counts: &Counts) {
    println!("{:<34}{:>8}{:>12}", "export", "number", "calls");
    for ((name, number), count) in counts {
        println!("{name:<34}{number:>8}{count:>12}");
    }
}

fn usage() -> ! {
    eprintln!("fuzz [CALLS [SEED]]\nfuzz piece N SEED");
    exit(2)
}
