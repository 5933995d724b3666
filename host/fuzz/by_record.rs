//! The library with step by the register record.
use host::guard::Guarded;
use host::lent::{register, Calls, Code, Memory, LIBRARY};
use kixombu::exports::{step_registers, Registers};

/// The library; step goes by the record where the words fit into one.
pub const BY_RECORD: Calls = Calls { step, ..LIBRARY };

fn step(registers: &mut [u64], answer: &mut [u64], code: Code, memory: Memory, calls: &mut [u8]) -> u64 {
    let Some(record) = Registers::from_words(registers) else {
        return (LIBRARY.step)(registers, answer, code, memory, calls);
    };
    let mut lent = Guarded::new(guard());
    lent.set(&[record]);
    let number = step_registers(&mut lent.slice()[0], answer, code, memory, calls);
    assert!(lent.is_intact(), "record: a guard was written to");
    registers.copy_from_slice(&lent.inside()[0].to_words());
    number
}

/// A record that no step leaves.
fn guard() -> Registers {
    let mut words = [0x0123_4567_89ab_cdef; register::ALL];
    words[register::CLOCK] = 0x89ab_cdef;
    words[register::HALTED..=register::SPONGE_SET].fill(1);
    Registers::from_words(&words).expect("words that fit")
}
