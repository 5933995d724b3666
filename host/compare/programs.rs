//! Random programs that run for long: gadgets that put down what they need, loops, functions, and now and then a fault.
use crate::cells::{cells, cells_at, near, spread, BASES};
use crate::field::{add, P};
use crate::instructions::{named, Argument, ALL};
use crate::job::{Job, Start};
use crate::random::Random;

struct Builder<'a> {
    random: &'a mut Random,
    slots: Vec<(u64, u64)>,
    depth: i64,
    /// Slots whose argument is the start of a function.
    calls: Vec<(usize, usize)>,
    functions: usize,
    /// A function calls only later ones.
    callable_from: usize,
    has_sponge: bool,
    /// One in so many operands is a bad one.
    fault_rate: u64,
    /// Addresses that were written to, where half of the gadgets are to use RAM.
    written: Option<Vec<u64>>,
}

/// A job that starts from an opening.
pub fn program(random: &mut Random) -> Job {
    build(random, None)
}

/// One that uses RAM much, and most times where it was written.
pub fn remembering(random: &mut Random) -> Job {
    build(random, Some(vec![]))
}

fn build(random: &mut Random, written: Option<Vec<u64>>) -> Job {
    let fault_rate = random.pick(&[60, 300, 100_000]);
    let functions = 1 + random.index(4);
    let mut builder = Builder {
        random,
        slots: vec![],
        depth: 16,
        calls: vec![],
        functions,
        callable_from: 0,
        has_sponge: false,
        fault_rate,
        written,
    };
    builder.main();
    let starts: Vec<usize> = (0..functions).map(|function| builder.function(function)).collect();
    for (at, function) in std::mem::take(&mut builder.calls) {
        builder.slots[at].1 = starts[function] as u64;
        builder.slots[at + 1].1 = starts[function] as u64;
    }
    let (slots, remembers) = (builder.slots, builder.written.is_some());
    let inputs = if random.once_in(4) { 10 } else { 300 };
    Job {
        digest: core::array::from_fn(|_| random.word()),
        slots,
        public: random.words(inputs),
        secret: random.words(inputs),
        digests: (0..inputs / 5).map(|_| core::array::from_fn(|_| random.word())).collect(),
        ram: if remembers { cells_at(spread, random, 300) } else { cells(random, 12) },
        budget: random.between(1, 2500) as u32,
        start: None,
    }
}

/// A job of any instructions from a state that is no opening; most end soon.
pub fn wild(random: &mut Random) -> Job {
    let length = 4 + random.index(40);
    let mut slots = vec![];
    while slots.len() < length {
        let instruction = random.pick(&ALL);
        let argument = match instruction.argument {
            Argument::Word if instruction.name == "call" => random.below(length as u64 + 1),
            _ => argument(random, instruction.argument),
        };
        slots.extend(vec![(instruction.opcode, argument); instruction.size() as usize]);
    }
    let depth = 16 + random.index(60);
    let counts = [random.index(20), random.index(20), random.index(4), random.index(4)];
    Job {
        digest: [0; 5],
        public: random.words(counts[0]),
        secret: random.words(counts[1]),
        digests: (0..counts[2]).map(|_| core::array::from_fn(|_| random.word())).collect(),
        ram: cells(random, 12),
        budget: 100,
        start: Some(Start {
            clock: random.u32() as u32,
            pointer: random.below(slots.len() as u64),
            halted: false,
            stack: (0..depth).map(|_| if random.once_in(3) { random.pick(&BASES) } else { random.word() }).collect(),
            jumps: (0..counts[3]).map(|_| (random.below(length as u64), random.below(length as u64))).collect(),
            sponge: random.once_in(2).then(|| core::array::from_fn(|_| random.word())),
        }),
        slots,
    }
}

/// An argument that an instruction may have.
pub fn argument(random: &mut Random, argument: Argument) -> u64 {
    match argument {
        Argument::None => 0,
        Argument::Count => random.between(1, 5),
        Argument::Place => random.below(16),
        Argument::Word => random.word(),
    }
}

impl Builder<'_> {
    fn emit(&mut self, name: &str, argument: u64) {
        let instruction = named(name);
        self.slots.extend(vec![(instruction.opcode, argument); instruction.size() as usize]);
        self.depth += instruction.deeper_by(argument);
    }

    fn push(&mut self, word: u64) {
        self.emit("push", word);
    }

    /// New words, or ones that are there.
    fn push_words(&mut self, n: usize) {
        for _ in 0..n {
            let (word, place) = (self.random.word(), self.random.below(16));
            match self.random.below(2) {
                0 => self.push(word),
                _ => self.emit("dup", place),
            }
        }
    }

    fn push_near(&mut self) {
        let address = near(self.random);
        self.push(address);
    }

    fn push_u32(&mut self) {
        let word = if self.faulty() { self.random.word() } else { self.random.u32() };
        self.push(word);
    }

    /// Whether this operand is to be a bad one.
    fn faulty(&mut self) -> bool {
        self.random.once_in(self.fault_rate)
    }

    fn call(&mut self, function: usize) {
        self.calls.push((self.slots.len(), function));
        self.emit("call", 0);
    }

    /// Pops until the depth is as it was.
    fn back_to(&mut self, depth: i64) {
        while self.depth > depth {
            let count = (self.depth - depth).min(5) as u64;
            self.emit("pop", count);
        }
    }

    fn main(&mut self) {
        for _ in 0..self.random.between(5, 60) {
            match self.random.below(12) {
                0..6 => self.gadget(),
                6..9 => self.on_the_stack(),
                9 => self.counted_call(),
                10 => self.compared_call(),
                _ => self.skip(),
            }
            if self.depth > 80 {
                self.back_to(30);
            }
            if self.faulty() {
                self.fault();
            }
        }
        if !self.faulty() {
            self.emit("halt", 0);
        }
    }

    /// Leaves the stack as it was, but for a counter that it counts down or up.
    fn function(&mut self, function: usize) -> usize {
        let start = self.slots.len();
        let depth = self.depth;
        self.callable_from = function + 1;
        for _ in 0..self.random.between(1, 6) {
            self.gadget();
            self.back_to(depth);
            if self.random.once_in(4) {
                match self.random.below(2) {
                    0 => self.counted_call(),
                    _ => self.compared_call(),
                }
                self.back_to(depth);
            }
        }
        // even ones are called by a counter in ST0, odd ones by two words compared
        if function.is_multiple_of(2) {
            self.emit("addi", P - 1);
            self.emit("dup", 0);
            self.emit("skiz", 0);
            self.emit("recurse", 0);
            self.emit("return", 0);
        } else {
            self.emit("pick", 5);
            self.emit("addi", 1);
            self.emit("place", 5);
            self.emit("recurse_or_return", 0);
        }
        self.depth = depth;
        start
    }

    /// A function of one kind that may be called here.
    fn later(&mut self, odd: usize) -> Option<usize> {
        let callable: Vec<usize> = (self.callable_from..self.functions).filter(|function| function % 2 == odd).collect();
        (!callable.is_empty()).then(|| self.random.pick(&callable))
    }

    fn counted_call(&mut self) {
        if let Some(function) = self.later(0) {
            let count = self.random.between(1, 12);
            self.push(count);
            self.call(function);
        }
    }

    fn compared_call(&mut self) {
        if let Some(function) = self.later(1) {
            let count = self.random.between(1, 12);
            self.push(count);
            self.push(0);
            self.push_words(5);
            self.call(function);
        }
    }

    /// skiz over something that may as well be done.
    fn skip(&mut self) {
        let bit = self.random.below(2);
        self.push(bit);
        self.emit("skiz", 0);
        let place = self.random.below(16);
        match self.random.below(4) {
            0 => self.emit("nop", 0),
            1 => self.emit("swap", place),
            2 => self.emit("addi", place),
            _ => self.emit("pick", place),
        }
    }

    /// An instruction on whatever is on the stack.
    fn on_the_stack(&mut self) {
        let place = self.random.below(16);
        let name = self.random.pick(&[
            "dup",
            "dup",
            "dup",
            "swap",
            "pick",
            "place",
            "add",
            "mul",
            "eq",
            "split",
            "split",
            "xx_add",
            "xx_mul",
            "xb_mul",
            "hash",
            "sponge_absorb",
            "pop",
            "write_io",
            "nop",
        ]);
        let argument = match named(name).argument {
            Argument::Place => place,
            Argument::Count => 1 + place % 5,
            _ => 0,
        };
        let wanted = if name == "sponge_absorb" && !self.has_sponge { i64::MAX } else { 16 };
        if self.depth + named(name).deeper_by(argument) >= wanted {
            self.emit(name, argument);
        }
    }

    /// A write to some addresses, or a read, most times of ones written to.
    fn in_ram(&mut self) {
        let count = self.random.between(1, 5);
        let known = self.written.take().unwrap_or_default();
        let address = match self.random.below(8) {
            0..3 if !known.is_empty() => self.random.pick(&known),
            3 => near(self.random),
            _ => spread(self.random),
        };
        let written = if self.random.once_in(2) || known.is_empty() {
            self.push_words(count as usize);
            self.push(address);
            self.emit("write_mem", count);
            known.into_iter().chain((0..count).map(|i| add(address, i))).collect()
        } else {
            let address = if self.random.once_in(5) { address } else { self.random.pick(&known) };
            self.push(address);
            let name = self.random.pick(&["read_mem", "read_mem", "xx_dot_step", "xb_dot_step"]);
            match name {
                "read_mem" => self.emit(name, count),
                _ => {
                    let other = self.random.pick(&known);
                    self.push(other);
                    self.emit(name, 0);
                }
            }
            known
        };
        self.written = Some(written);
    }

    /// Something whole: operands, an instruction, its results left on the stack.
    fn gadget(&mut self) {
        if self.written.is_some() && self.random.once_in(2) {
            return self.in_ram();
        }
        let count = self.random.between(1, 5);
        match self.random.below(24) {
            0..6 => {
                let name = self.random.pick(&["lt", "and", "xor", "log_2_floor", "pow", "div_mod", "pop_count"]);
                match name {
                    "log_2_floor" | "pop_count" => {
                        let word = self.random.u32().max(1);
                        self.push(word);
                    }
                    "div_mod" => {
                        let word = if self.faulty() { 0 } else { self.random.u32().max(1) };
                        self.push(word);
                        self.push_u32();
                    }
                    "pow" => {
                        self.push_u32();
                        self.push_words(1);
                    }
                    _ => {
                        self.push_u32();
                        self.push_u32();
                    }
                }
                self.emit(name, 0);
            }
            6 | 7 => {
                self.push_words(count as usize);
                self.push_near();
                self.emit("write_mem", count);
            }
            8 | 9 => {
                self.push_near();
                self.emit("read_mem", count);
            }
            10 => {
                self.push_words(6);
                let name = self.random.pick(&["xx_add", "xx_mul"]);
                self.emit(name, 0);
            }
            11 => {
                self.push_words(3);
                let word = if self.faulty() { 0 } else { self.random.word().max(1) };
                self.push(word);
                let name = self.random.pick(&["x_invert", "xb_mul", "invert"]);
                self.emit(name, 0);
            }
            12 => {
                self.push_words(2);
                let name = self.random.pick(&["add", "mul", "eq", "split"]);
                self.emit(name, 0);
            }
            13 => {
                self.push_words(10);
                self.emit("hash", 0);
            }
            14 => {
                self.emit("sponge_init", 0);
                self.has_sponge = true;
            }
            15 if self.has_sponge => self.emit("sponge_squeeze", 0),
            16 if self.has_sponge => {
                self.push_words(10);
                self.emit("sponge_absorb", 0);
            }
            17 if self.has_sponge => {
                self.push_words(4);
                self.push_near();
                self.emit("sponge_absorb_mem", 0);
            }
            18 => {
                self.push_u32();
                self.push_words(5);
                self.emit("merkle_step", 0);
                self.emit("merkle_step", 0);
            }
            19 => {
                self.push_near();
                self.push_words(1);
                self.push_u32();
                self.push_words(5);
                self.emit("merkle_step_mem", 0);
                self.emit("merkle_step_mem", 0);
            }
            20 => {
                self.push_words(3);
                self.push_near();
                self.push_near();
                let name = self.random.pick(&["xx_dot_step", "xb_dot_step"]);
                self.emit(name, 0);
                self.emit(name, 0);
            }
            21 => {
                self.push_words(5);
                (0..5).for_each(|_| self.emit("dup", 4));
                if self.faulty() {
                    self.emit("addi", 1);
                }
                self.emit("assert_vector", 0);
                let word = if self.faulty() { self.random.word() } else { 1 };
                self.push(word);
                self.emit("assert", 0);
            }
            22 => {
                let name = self.random.pick(&["read_io", "divine"]);
                self.emit(name, count);
            }
            _ => {
                self.push_words(count as usize);
                self.emit("write_io", count);
            }
        }
    }

    /// Most of these are refused.
    fn fault(&mut self) {
        let word = self.random.word();
        match self.random.below(8) {
            0 => self.emit("return", 0),
            1 => self.emit("recurse", 0),
            2 => self.emit("recurse_or_return", 0),
            3 => self.emit("call", word),
            4 => (0..self.depth / 5).for_each(|_| self.emit("pop", 5)),
            5 => {
                self.push(0);
                let name = self.random.pick(&["invert", "log_2_floor"]);
                self.emit(name, 0);
            }
            6 => {
                self.push(word);
                self.push(word);
                let name = self.random.pick(&["lt", "and", "xor", "pow", "div_mod", "pop_count", "assert"]);
                self.emit(name, 0);
            }
            _ => {
                let name = self.random.pick(&["sponge_absorb", "sponge_absorb_mem", "sponge_squeeze"]);
                self.push_words(10);
                self.emit(name, 0);
            }
        }
    }
}
