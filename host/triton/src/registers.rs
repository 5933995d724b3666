//! The registers as a record.
use crate::exports::register;
use std::mem::{align_of, offset_of, size_of};

/// The registers as the record that [`step_registers`](crate::exports::step_registers) is lent: what the words of a register slice
/// say, under names, as C lays it out (216 bytes without a gap; `Registers` of the crate `exports_calls`, `src/thin.rt`).
#[repr(C)]
#[derive(Clone, Copy, Debug, PartialEq, Eq)]
pub struct Registers {
    /// The steps taken.
    pub clock: u32,
    /// Kept as it is.
    pub reserved: u32,
    /// The instruction pointer.
    pub pointer: u64,
    /// Used words of the op stack.
    pub depth: usize,
    /// Used entries of the jump stack.
    pub jumps: usize,
    /// Used cells of RAM.
    pub cells: usize,
    /// Words of output.
    pub outputs: usize,
    /// Words of public input that were taken.
    pub publics: usize,
    /// Words of secret input that were taken.
    pub secrets: usize,
    /// Secret digests that were taken.
    pub digests: usize,
    /// Whether the machine has halted.
    pub halted: bool,
    /// Whether the sponge is set.
    pub set: bool,
    /// Kept as it is.
    pub reserved2: u16,
    /// Kept as it is.
    pub reserved4: u32,
    /// The sponge's words.
    pub words: [u64; 16],
    /// The log's revision.
    pub revision: u64,
}

// as src/lib.rt of the crate exports has it
const _: () = {
    assert!(size_of::<Registers>() == 216 && align_of::<Registers>() == 8);
    assert!(offset_of!(Registers, clock) == 0 && offset_of!(Registers, pointer) == 8 && offset_of!(Registers, depth) == 16);
    assert!(
        offset_of!(Registers, reserved) == 4 && offset_of!(Registers, reserved2) == 74 && offset_of!(Registers, reserved4) == 76
    );
    assert!(offset_of!(Registers, jumps) == 24 && offset_of!(Registers, cells) == 32 && offset_of!(Registers, outputs) == 40);
    assert!(offset_of!(Registers, publics) == 48 && offset_of!(Registers, secrets) == 56 && offset_of!(Registers, digests) == 64);
    assert!(offset_of!(Registers, halted) == 72 && offset_of!(Registers, set) == 73 && offset_of!(Registers, words) == 80);
    assert!(offset_of!(Registers, revision) == 208);
};

impl Registers {
    /// From the words of a register slice; none where they are not 28, the clock is 2^32 or above or a mark is not 0 or 1, which
    /// [`step`](crate::exports::step) refuses with 1.
    pub fn from_words(words: &[u64]) -> Option<Registers> {
        let words: &[u64; register::ALL] = words.try_into().ok()?;
        let size = |place: usize| words[place] as usize;
        let mark = |place: usize| (words[place] < 2).then_some(words[place] == 1);
        Some(Registers {
            clock: words[register::CLOCK].try_into().ok()?,
            reserved: 0,
            pointer: words[register::POINTER],
            depth: size(register::DEPTH),
            jumps: size(register::JUMPS),
            cells: size(register::CELLS),
            outputs: size(register::OUTPUTS),
            publics: size(register::PUBLICS),
            secrets: size(register::SECRETS),
            digests: size(register::DIGESTS),
            halted: mark(register::HALTED)?,
            set: mark(register::SPONGE_SET)?,
            reserved2: 0,
            reserved4: 0,
            words: std::array::from_fn(|i| words[register::SPONGE + i]),
            revision: words[register::REVISION],
        })
    }

    /// The words of a register slice, which the calls but `step_registers` take.
    pub fn to_words(&self) -> [u64; register::ALL] {
        let sizes = [self.depth, self.jumps, self.cells, self.outputs, self.publics, self.secrets, self.digests];
        let mut words = [0; register::ALL];
        words[register::CLOCK] = self.clock.into();
        words[register::POINTER] = self.pointer;
        words[register::DEPTH..register::HALTED].copy_from_slice(&sizes.map(|size| size as u64));
        words[register::HALTED] = self.halted.into();
        words[register::SPONGE_SET] = self.set.into();
        words[register::SPONGE..register::REVISION].copy_from_slice(&self.words);
        words[register::REVISION] = self.revision;
        words
    }
}
