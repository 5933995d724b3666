//! A job, its file for the oracle, and the machine that the library is handed for it.
use crate::lent::{register, Machine};
use crate::random::Random;
use kixombu::frame::{put, words};
use kixombu::{JobFile, Opening, Slot};

#[derive(Clone, Debug, Default)]
pub struct Job {
    pub digest: [u64; 5],
    /// Opcode and argument.
    pub slots: Vec<(u64, u64)>,
    pub public: Vec<u64>,
    pub secret: Vec<u64>,
    pub digests: Vec<[u64; 5]>,
    /// Address and value.
    pub ram: Vec<(u64, u64)>,
    pub budget: u32,
    /// Where the job does not start from an opening.
    pub start: Option<Start>,
}

#[derive(Clone, Debug, Default)]
pub struct Start {
    pub clock: u32,
    pub pointer: u64,
    pub halted: bool,
    pub stack: Vec<u64>,
    /// Origin and destination.
    pub jumps: Vec<(u64, u64)>,
    pub sponge: Option<[u64; 16]>,
}

impl Job {
    /// Document 01's records of kinds 11 to 17, and the oracle's of kinds 32 to 35.
    pub fn file(&self) -> Vec<u8> {
        let opening = Opening { ram: vec![], ..self.opening() };
        let mut file = JobFile { opening, budget: self.budget }.write().expect("few slots, of opcodes below 65,536");
        // may be more than a job file holds, which the oracle takes
        self.ram.iter().for_each(|&(address, value)| put(&mut file, 16, &[&words(&[address, value])]));
        if let Some(start) = &self.start {
            start.stack.iter().for_each(|word| put(&mut file, 32, &[&word.to_le_bytes()]));
            start.jumps.iter().for_each(|&(origin, destination)| put(&mut file, 33, &[&words(&[origin, destination])]));
            start.sponge.iter().for_each(|sponge| put(&mut file, 34, &[&words(sponge)]));
            put(&mut file, 35, &[&start.clock.to_le_bytes(), &start.pointer.to_le_bytes(), &[start.halted.into()]]);
        }
        file
    }
}

/// How many words or entries are lent.
#[derive(Clone, Copy, Debug, PartialEq, Eq)]
pub struct Room {
    pub stack: usize,
    pub jumps: usize,
    pub cells: usize,
    pub output: usize,
}

/// What the oracle has no word for and the library is handed beside a start: input taken and output put before, and the words
/// of a sponge that is not set.
#[derive(Clone, Debug, Default)]
pub struct Before {
    pub public: Vec<u64>,
    pub secret: Vec<u64>,
    pub digests: Vec<[u64; 5]>,
    pub output: Vec<u64>,
    pub sponge: [u64; 16],
}

impl Before {
    pub fn random(random: &mut Random) -> Before {
        let mut few = |most: u64| random.below(most + 1) as usize;
        let counts = [few(3), few(3), few(2), few(3)];
        Before {
            public: random.words(counts[0]),
            secret: random.words(counts[1]),
            digests: (0..counts[2]).map(|_| core::array::from_fn(|_| random.word())).collect(),
            output: (0..counts[3]).map(|_| random.next()).collect(),
            sponge: core::array::from_fn(|_| random.word()),
        }
    }
}

impl Job {
    /// For the safe calls.
    pub fn opening(&self) -> Opening {
        Opening {
            digest: self.digest,
            program: self.slots.iter().map(|&(opcode, argument)| Slot { opcode, argument }).collect(),
            public_input: self.public.clone(),
            secret_input: self.secret.clone(),
            secret_digests: self.digests.clone(),
            ram: self.ram.clone(),
            ..Opening::default()
        }
    }

    /// The machine that open is handed: whatever in the registers, the stacks, unused cells and output.
    pub fn unopened(&self, room: Room, random: &mut Random) -> Machine {
        let mut any = |n: usize| -> Vec<u64> { (0..n).map(|_| random.next()).collect() };
        let (addresses, values) = self.cells(room.cells, any(2 * room.cells));
        Machine {
            registers: any(register::ALL),
            opcodes: self.slots.iter().map(|slot| slot.0).collect(),
            arguments: self.slots.iter().map(|slot| slot.1).collect(),
            public: self.public.clone(),
            secret: self.secret.clone(),
            digests: self.digests.concat(),
            op_stack: any(room.stack),
            origins: any(room.jumps),
            destinations: any(room.jumps),
            addresses,
            values,
            output: any(room.output),
        }
    }

    /// The machine at the job's start, which must not be an opening, with a log of this revision.
    pub fn started(&self, room: Room, before: &Before, revision: u64, random: &mut Random) -> Machine {
        let start = self.start.as_ref().expect("the job has a start");
        let mut any = |n: usize| -> Vec<u64> { (0..n).map(|_| random.next()).collect() };
        let (addresses, values) = self.cells(room.cells, any(2 * room.cells));
        let mut registers = vec![
            start.clock.into(),
            start.pointer,
            start.stack.len() as u64,
            start.jumps.len() as u64,
            self.ram.len() as u64,
            before.output.len() as u64,
            before.public.len() as u64,
            before.secret.len() as u64,
            before.digests.len() as u64,
            start.halted.into(),
            start.sponge.is_some().into(),
        ];
        registers.extend(start.sponge.unwrap_or(before.sponge));
        registers.push(revision);
        let mut output = any(room.output + before.output.len());
        output[..before.output.len()].copy_from_slice(&before.output);
        Machine {
            registers,
            opcodes: self.slots.iter().map(|slot| slot.0).collect(),
            arguments: self.slots.iter().map(|slot| slot.1).collect(),
            public: [&before.public[..], &self.public].concat(),
            secret: [&before.secret[..], &self.secret].concat(),
            digests: [before.digests.concat(), self.digests.concat()].concat(),
            op_stack: with_zeros(start.stack.iter().copied(), room.stack),
            origins: with_zeros(start.jumps.iter().map(|entry| entry.0), room.jumps),
            destinations: with_zeros(start.jumps.iter().map(|entry| entry.1), room.jumps),
            addresses,
            values,
            output,
        }
    }

    /// The RAM slices: the job's cells, and whatever is given behind them.
    fn cells(&self, room: usize, mut rest: Vec<u64>) -> (Vec<u64>, Vec<u64>) {
        let mut values = rest.split_off(room);
        let mut addresses = rest;
        for (i, &(address, value)) in self.ram.iter().enumerate() {
            addresses[i] = address;
            values[i] = value;
        }
        (addresses, values)
    }
}

fn with_zeros(words: impl Iterator<Item = u64>, length: usize) -> Vec<u64> {
    let mut words: Vec<u64> = words.collect();
    assert!(words.len() <= length);
    words.resize(length, 0);
    words
}
