//! replay logs [JOBS [SEED]]: logs that the original Rust wrote, replayed by the library to every clock.
//! replay fuzz [CALLS [SEED]]: damaged logs, between guards, held to the model; first, long slices and the logs of `large`.
//! replay large: logs of many addresses, between guards, held to the model.
//! replay bench: nanoseconds a record beside a plain Rust replay.
//! replay logs|fuzz piece N SEED: one piece of that work again.
mod bench;
mod damage;
mod fuzz;
mod large;
mod lengths;
mod lent;
mod logs;
mod revisions;
mod splice;

use host::work::{fail, in_pieces, Counts, Watched};
use std::process::exit;
use std::time::Instant;

type Work<'a> = &'a (dyn Fn(u64, u64, &Watched) -> Result<Counts<&'static str>, String> + Sync);

fn main() {
    let words: Vec<String> = std::env::args().skip(1).collect();
    let words: Vec<&str> = words.iter().map(String::as_str).collect();
    let outcome = match words[..] {
        ["logs", ref words @ ..] => {
            let logs = logs::Logs::new();
            run("logs", words, 1_000, logs::PIECE, &logs::KINDS, &|seed, piece, watched| logs.piece(seed, piece, watched))
        }
        ["fuzz", ref words @ ..] => {
            if words.first() != Some(&"piece") {
                lengths::check();
                large::check().unwrap_or_else(|text| fail(&text));
            }
            let kinds = [&fuzz::KINDS[..], &revisions::KINDS].concat();
            run("fuzz", words, 10_000_000, fuzz::PIECE, &kinds, &fuzz::piece)
        }
        ["large"] => large::check(),
        ["bench"] => {
            bench::run();
            Ok(())
        }
        _ => usage(),
    };
    outcome.unwrap_or_else(|text| fail(&text));
}

/// Everything of a mode, or one piece of it. All of the kinds must have been met.
fn run(mode: &str, words: &[&str], default: u64, size: u64, kinds: &[&'static str], work: Work) -> Result<(), String> {
    let number = |word: &str| word.parse::<u64>().unwrap_or_else(|_| usage());
    let start = Instant::now();
    if let ["piece", piece, seed] = *words {
        print(&work(number(seed), number(piece), &Watched::new(start))?);
        return Ok(());
    }
    let (amount, seed) = match *words {
        [] => (default, None),
        [amount] => (number(amount), None),
        [amount, seed] => (number(amount), Some(number(seed))),
        _ => usage(),
    };
    let seed = seed.unwrap_or_else(|| std::time::UNIX_EPOCH.elapsed().unwrap().as_secs());
    println!("seed {seed}: replay {mode} {amount}");
    let repeat = |piece, call| format!("replay {mode} piece {piece} {seed}; it is call {call}");
    let again = |text: String, piece| format!("{text}\nrepeat: replay {mode} piece {piece} {seed}");
    let work = |piece, watched: &Watched| work(seed, piece, watched).map_err(|text| again(text, piece));
    let counts = in_pieces(amount.div_ceil(size), work, repeat)?;
    print(&counts);
    let missing: Vec<&str> = kinds.iter().filter(|kind| !counts.contains_key(*kind)).copied().collect();
    if !missing.is_empty() {
        return Err(format!("never met: {}", missing.join(", ")));
    }
    println!("seed {seed}: no difference, {} seconds", start.elapsed().as_secs());
    Ok(())
}

fn print(counts: &Counts<&'static str>) {
    counts.iter().for_each(|(name, count)| println!("{name:<58}{count:>12}"));
}

fn usage() -> ! {
    eprintln!("replay logs [JOBS [SEED]]\nreplay fuzz [CALLS [SEED]]\nreplay large\nreplay bench\nreplay logs|fuzz piece N SEED");
    exit(2)
}
