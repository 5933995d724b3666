//! The entries of a sample: a machine, and what one step makes of it. FORMAT.md has the bytes.
use crate::lent::{register, Machine};

#[derive(Clone, Debug, PartialEq, Eq)]
pub struct Entry {
    pub before: Machine,
    /// The refusal's number, or 0, and the words that it carries.
    pub number: u64,
    pub words: [u64; 3],
    pub after: Machine,
    pub helpers: [u64; 6],
    pub calls: Vec<u8>,
}

/// What a reader has to hold.
pub mod most {
    pub const SLOTS: usize = 16;
    pub const INPUT: usize = 16;
    pub const DIGESTS: usize = 4;
    pub const STACK: usize = 64;
    pub const JUMPS: usize = 8;
    pub const CELLS: usize = 32;
    pub const OUTPUT: usize = 16;
    pub const ENTRY: usize = 2048;
}

/// Whether a reader's arrays hold the machine.
pub fn fits(machine: &Machine) -> bool {
    machine.opcodes.len() <= most::SLOTS
        && machine.public.len() <= most::INPUT
        && machine.secret.len() <= most::INPUT
        && machine.digests.len() <= 5 * most::DIGESTS
        && machine.op_stack.len() <= most::STACK
        && machine.origins.len() <= most::JUMPS
        && machine.addresses.len() <= most::CELLS
        && machine.output.len() <= most::OUTPUT
}

/// The registers that are no lengths, then the sponge's words. The log is of revision 1.
const REGISTERS: [usize; 7] = [
    register::CLOCK,
    register::POINTER,
    register::PUBLICS,
    register::SECRETS,
    register::DIGESTS,
    register::HALTED,
    register::SPONGE_SET,
];

const COUNTS: [usize; 4] = [register::DEPTH, register::JUMPS, register::CELLS, register::OUTPUTS];

impl Entry {
    pub fn encode(&self) -> Vec<u8> {
        let (before, after) = (&self.before, &self.after);
        let mut bytes = vec![];
        bytes.extend([before.opcodes.len(), before.public.len(), before.secret.len(), before.digests.len() / 5].map(|n| n as u8));
        bytes.extend([before.op_stack.len(), before.origins.len(), before.addresses.len(), before.output.len()].map(|n| n as u8));
        bytes.extend(counts_of(before).map(|n| n as u8));
        bytes.extend(counts_of(after).map(|n| n as u8));
        bytes.extend((self.calls.len() as u16).to_le_bytes());

        put_registers(&mut bytes, before);
        put_pairs(&mut bytes, &before.opcodes, &before.arguments);
        put_words(&mut bytes, &before.public);
        put_words(&mut bytes, &before.secret);
        put_words(&mut bytes, &before.digests);
        put_memory(&mut bytes, before, counts_of(before));

        put_words(&mut bytes, &[self.number]);
        put_words(&mut bytes, &self.words);
        put_registers(&mut bytes, after);
        put_memory(&mut bytes, after, counts_of(after));
        put_words(&mut bytes, &self.helpers);
        bytes.extend(&self.calls);
        bytes
    }

    /// None where the bytes are no entry.
    pub fn decode(bytes: &[u8]) -> Option<Entry> {
        let mut rest = Reader(bytes);
        let [slots, public, secret, digests] = rest.counts()?;
        let room = rest.counts()?;
        let (counts_before, counts_after) = (rest.counts()?, rest.counts()?);
        let calls = u16::from_le_bytes(rest.bytes(2)?.try_into().ok()?);

        let registers = rest.registers(counts_before)?;
        let (opcodes, arguments) = rest.pairs(slots, slots)?;
        let (public, secret, digests) = (rest.words(public)?, rest.words(secret)?, rest.words(5 * digests)?);
        let code = Machine { registers, opcodes, arguments, public, secret, digests, ..Machine::default() };
        let before = rest.memory(code.clone(), counts_before, room)?;

        let number = rest.word()?;
        let words = rest.words(3)?.try_into().ok()?;
        let registers = rest.registers(counts_after)?;
        let after = rest.memory(Machine { registers, ..code }, counts_after, room)?;
        let helpers = rest.words(6)?.try_into().ok()?;
        let calls = rest.bytes(calls.into())?.to_vec();
        rest.0.is_empty().then_some(Entry { before, number, words, after, helpers, calls })
    }
}

/// A full entry: lengths and counts of any kind, which it says besides.
pub struct Full {
    pub entry: Entry,
    /// How long a call buffer is lent.
    pub room: usize,
    pub helper_number: u64,
}

impl Full {
    /// An entry of as many words as are lent; slices that go together, and digests, are filled up with zeros.
    pub fn encode(&self) -> Vec<u8> {
        let (before, after) = (even(&self.entry.before), even(&self.entry.after));
        let entry = Entry { before, after, ..self.entry.clone() };
        let mut bytes = entry.encode();
        bytes[4..8].fill(0);
        let (registers_before, registers_after) = (&self.entry.before.registers, &self.entry.after.registers);
        let mut besides: Vec<u64> = self.entry.before.slices()[1..].iter().map(|slice| slice.len() as u64).collect();
        besides.extend([self.room as u64, self.helper_number]);
        besides.extend(COUNTS.map(|place| registers_before[place]));
        besides.extend(COUNTS.map(|place| registers_after[place]));
        bytes.truncate(bytes.len() - entry.calls.len());
        put_words(&mut bytes, &besides);
        bytes.extend(&entry.calls);
        bytes
    }
}

/// The machine with all of memory used, and slices that go together as long.
fn even(machine: &Machine) -> Machine {
    let mut machine = machine.clone();
    let [_, opcodes, arguments, _, _, digests, _, origins, destinations, addresses, values, _] = machine.slices_mut();
    for (left, right) in [(opcodes, arguments), (origins, destinations), (addresses, values)] {
        let length = left.len().max(right.len());
        left.resize(length, 0);
        right.resize(length, 0);
    }
    digests.resize(digests.len().next_multiple_of(5), 0);
    let lengths = [machine.op_stack.len(), machine.origins.len(), machine.addresses.len(), machine.output.len()];
    COUNTS.iter().zip(lengths).for_each(|(&place, length)| machine.registers[place] = length as u64);
    machine
}

/// The file: the number of entries, then each with its length in front.
pub fn encode_all(entries: &[Vec<u8>]) -> Vec<u8> {
    let mut file = (entries.len() as u32).to_le_bytes().to_vec();
    for entry in entries {
        file.extend((entry.len() as u16).to_le_bytes());
        file.extend(entry);
    }
    file
}

pub fn decode_all(file: &[u8]) -> Option<Vec<Entry>> {
    let mut rest = Reader(file);
    let count = u32::from_le_bytes(rest.bytes(4)?.try_into().ok()?);
    let entries = (0..count).map(|_| {
        let length = u16::from_le_bytes(rest.bytes(2)?.try_into().ok()?);
        Entry::decode(rest.bytes(length.into())?)
    });
    let entries = entries.collect::<Option<Vec<_>>>()?;
    rest.0.is_empty().then_some(entries)
}

/// How many bytes there are, and these bytes, without zeros at the upper end.
fn put_words(bytes: &mut Vec<u8>, words: &[u64]) {
    for word in words {
        let length = 8 - word.leading_zeros() as usize / 8;
        bytes.push(length as u8);
        bytes.extend(&word.to_le_bytes()[..length]);
    }
}

fn put_pairs(bytes: &mut Vec<u8>, left: &[u64], right: &[u64]) {
    left.iter().zip(right).for_each(|(&left, &right)| put_words(bytes, &[left, right]));
}

fn put_registers(bytes: &mut Vec<u8>, machine: &Machine) {
    put_words(bytes, &REGISTERS.map(|place| machine.registers[place]));
    put_words(bytes, &machine.registers[register::SPONGE..register::REVISION]);
}

fn counts_of(machine: &Machine) -> [usize; 4] {
    COUNTS.map(|place| machine.registers[place] as usize)
}

/// As much of memory as is counted.
fn put_memory(bytes: &mut Vec<u8>, machine: &Machine, [depth, jumps, cells, outputs]: [usize; 4]) {
    put_words(bytes, &machine.op_stack[..depth]);
    put_pairs(bytes, &machine.origins[..jumps], &machine.destinations[..jumps]);
    put_pairs(bytes, &machine.addresses[..cells], &machine.values[..cells]);
    put_words(bytes, &machine.output[..outputs]);
}

struct Reader<'a>(&'a [u8]);

impl<'a> Reader<'a> {
    fn bytes(&mut self, n: usize) -> Option<&'a [u8]> {
        let (first, rest) = self.0.split_at_checked(n)?;
        self.0 = rest;
        Some(first)
    }

    fn counts(&mut self) -> Option<[usize; 4]> {
        let bytes: [u8; 4] = self.bytes(4)?.try_into().ok()?;
        Some(bytes.map(usize::from))
    }

    fn word(&mut self) -> Option<u64> {
        let length = self.bytes(1)?[0];
        let mut word = [0; 8];
        word.get_mut(..length.into())?.copy_from_slice(self.bytes(length.into())?);
        Some(u64::from_le_bytes(word))
    }

    fn words(&mut self, n: usize) -> Option<Vec<u64>> {
        (0..n).map(|_| self.word()).collect()
    }

    /// Words, and zeros behind them.
    fn filled(&mut self, n: usize, room: usize) -> Option<Vec<u64>> {
        let mut words = self.words(n)?;
        words.resize(room, 0);
        Some(words)
    }

    fn pairs(&mut self, n: usize, room: usize) -> Option<(Vec<u64>, Vec<u64>)> {
        let (mut left, mut right) = (vec![0; room], vec![0; room]);
        for i in 0..n {
            *left.get_mut(i)? = self.word()?;
            *right.get_mut(i)? = self.word()?;
        }
        Some((left, right))
    }

    fn registers(&mut self, counts: [usize; 4]) -> Option<Vec<u64>> {
        let mut registers = vec![0; register::SPONGE];
        for place in REGISTERS {
            registers[place] = self.word()?;
        }
        COUNTS.iter().zip(counts).for_each(|(&place, count)| registers[place] = count as u64);
        registers.extend(self.words(16)?);
        registers.push(1);
        Some(registers)
    }

    fn memory(&mut self, code: Machine, [depth, jumps, cells, outputs]: [usize; 4], room: [usize; 4]) -> Option<Machine> {
        let op_stack = self.filled(depth, room[0])?;
        let (origins, destinations) = self.pairs(jumps, room[1])?;
        let (addresses, values) = self.pairs(cells, room[2])?;
        let output = self.filled(outputs, room[3])?;
        Some(Machine { op_stack, origins, destinations, addresses, values, output, ..code })
    }
}
