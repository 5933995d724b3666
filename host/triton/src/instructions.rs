//! The 46 instructions: opcode, name, argument, how the depth changes.
use std::fmt::{Display, Formatter, Result};

/// Which arguments an instruction takes.
#[derive(Clone, Copy, PartialEq, Eq, Debug)]
pub enum Argument {
    /// None: its slot holds 0.
    None,
    /// A number of words, 1 to 5.
    Count,
    /// A stack place, 0 to 15.
    Place,
    /// Any word.
    Word,
}

#[derive(Clone, Copy, Debug)]
enum Change {
    By(i64),
    /// By as many words as the argument says.
    Grows,
    Shrinks,
}

/// An instruction, without an argument's value.
#[derive(Clone, Copy, Debug)]
pub struct Instruction {
    /// The number in its slots.
    pub opcode: u64,
    /// As a text has it.
    pub name: &'static str,
    /// Which arguments it takes.
    pub argument: Argument,
    change: Change,
}

const fn row(opcode: u64, name: &'static str, argument: Argument, change: Change) -> Instruction {
    Instruction { opcode, name, argument, change }
}

use Argument::{Count, None as Plain, Place, Word};
use Change::{By, Grows, Shrinks};

/// All of them, ascending by opcode.
pub const ALL: [Instruction; 46] = [
    row(0, "halt", Plain, By(0)),
    row(1, "push", Word, By(1)),
    row(2, "skiz", Plain, By(-1)),
    row(3, "pop", Count, Shrinks),
    row(4, "split", Plain, By(1)),
    row(6, "lt", Plain, By(-1)),
    row(8, "nop", Plain, By(0)),
    row(9, "divine", Count, Grows),
    row(10, "assert", Plain, By(-1)),
    row(11, "write_mem", Count, Shrinks),
    row(12, "log_2_floor", Plain, By(0)),
    row(14, "and", Plain, By(-1)),
    row(16, "return", Plain, By(0)),
    row(17, "pick", Place, By(0)),
    row(18, "hash", Plain, By(-5)),
    row(19, "write_io", Count, Shrinks),
    row(20, "div_mod", Plain, By(0)),
    row(22, "xor", Plain, By(-1)),
    row(24, "recurse", Plain, By(0)),
    row(25, "place", Place, By(0)),
    row(26, "assert_vector", Plain, By(-5)),
    row(28, "pop_count", Plain, By(0)),
    row(30, "pow", Plain, By(-1)),
    row(32, "recurse_or_return", Plain, By(0)),
    row(33, "dup", Place, By(1)),
    row(34, "sponge_absorb", Plain, By(-10)),
    row(36, "merkle_step", Plain, By(0)),
    row(40, "sponge_init", Plain, By(0)),
    row(41, "swap", Place, By(0)),
    row(42, "add", Plain, By(-1)),
    row(44, "merkle_step_mem", Plain, By(0)),
    row(48, "sponge_absorb_mem", Plain, By(0)),
    row(49, "call", Word, By(0)),
    row(50, "mul", Plain, By(-1)),
    row(56, "sponge_squeeze", Plain, By(10)),
    row(57, "read_mem", Count, Grows),
    row(58, "eq", Plain, By(-1)),
    row(64, "invert", Plain, By(0)),
    row(65, "addi", Word, By(0)),
    row(66, "xx_add", Plain, By(-3)),
    row(72, "x_invert", Plain, By(0)),
    row(73, "read_io", Count, Grows),
    row(74, "xx_mul", Plain, By(-3)),
    row(80, "xx_dot_step", Plain, By(0)),
    row(82, "xb_mul", Plain, By(-1)),
    row(88, "xb_dot_step", Plain, By(0)),
];

const LARGEST: usize = 88;

/// Where an opcode stands in the list above.
const PLACES: [u8; LARGEST + 1] = {
    let mut places = [u8::MAX; LARGEST + 1];
    let mut i = 0;
    while i < ALL.len() {
        places[ALL[i].opcode as usize] = i as u8;
        i += 1;
    }
    places
};

/// The instruction of an opcode.
pub fn decode(opcode: u64) -> Option<&'static Instruction> {
    let place = *PLACES.get(usize::try_from(opcode).ok()?)?;
    ALL.get(place as usize)
}

/// The instruction of a name.
pub fn named(name: &str) -> Option<&'static Instruction> {
    ALL.iter().find(|instruction| instruction.name == name)
}

/// An opcode as messages have it: the number, and the instruction's name where it has one.
pub(crate) struct Named(pub u64);

impl Display for Named {
    fn fmt(&self, f: &mut Formatter) -> Result {
        match decode(self.0) {
            Some(instruction) => write!(f, "{} ({})", self.0, instruction.name),
            Option::None => self.0.fmt(f),
        }
    }
}

impl Instruction {
    /// How many slots it takes.
    pub fn size(&self) -> u64 {
        if self.argument == Argument::None {
            1
        } else {
            2
        }
    }

    /// Whether a slot of it may hold this argument, which is a word.
    pub fn allows(&self, argument: u64) -> bool {
        match self.argument {
            Argument::None => argument == 0,
            Argument::Count => (1..=5).contains(&argument),
            Argument::Place => argument <= 15,
            Argument::Word => true,
        }
    }

    /// How many words the stack is deeper behind it.
    pub fn deeper_by(&self, argument: u64) -> i64 {
        match self.change {
            Change::By(n) => n,
            Change::Grows => argument as i64,
            Change::Shrinks => -(argument as i64),
        }
    }
}
