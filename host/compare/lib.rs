//! What the comparison, the fuzz runs and the benchmarks share: the library's calls, a model of documents 01 and 02, random jobs, and
//! the oracle's answers.
pub mod cells;
pub mod check;
pub mod counts;
pub mod damaged;
pub mod entries;
pub mod fees;
pub mod field;
pub mod guard;
pub mod job;
pub mod lent;
pub mod model;
pub mod oracle;
pub mod programs;
pub mod random;
pub mod states;
pub mod tip5;
mod tip5_constants;
pub mod work;

pub mod instructions {
    pub use kixombu::instructions::*;

    /// The instruction of a name, which there must be.
    pub fn named(name: &str) -> &'static Instruction {
        kixombu::instructions::named(name).expect(name)
    }
}
