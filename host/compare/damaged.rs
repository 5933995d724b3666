//! Machines damaged in one place or two, for every reason that place A has to refuse a step, and such as it must not refuse.
use crate::field::P;
use crate::instructions::{decode, Instruction, ALL};
use crate::lent::{register, step_bytes, Machine};

/// A machine, and how long a call buffer is lent.
#[derive(Clone)]
pub struct Damaged {
    pub machine: Machine,
    pub room: usize,
}

type Damage = Box<dyn Fn(&mut Damaged)>;

/// One damage each, pairs of two numbers for their order, words and counts at the edge of what is accepted, and writes to RAM.
pub fn list() -> Vec<Damaged> {
    let fives = || orders().into_iter().chain(states()).collect();
    let refused = || [lengths(), words(), opcodes(), arguments(), fives()];
    let singles: Vec<Damage> = refused().into_iter().flatten().chain(edges()).chain(writes()).collect();
    let pairs = refused().map(|damages| damages.into_iter().step_by(7).collect::<Vec<_>>());
    let mut list = vec![sound()];
    list.extend(singles.iter().map(|damage| with(&[damage])));
    for (i, numbers) in pairs.iter().enumerate() {
        for later in &pairs[i + 1..] {
            for first in numbers {
                list.extend(later.iter().map(|second| with(&[second, first])));
            }
        }
    }
    list
}

fn with(damages: &[&Damage]) -> Damaged {
    let mut damaged = sound();
    damages.iter().for_each(|damage| damage(&mut damaged));
    damaged
}

/// Some of everything used, and some of everything left.
fn sound() -> Damaged {
    let mut registers = vec![5, 0, 18, 2, 3, 2, 1, 1, 1, 0, 1];
    registers.extend(100..116);
    registers.push(1);
    let used = |words: &[u64], length: usize| [words, &vec![0; length - words.len()]].concat();
    let machine = Machine {
        registers,
        opcodes: vec![1, 19, 33, 0],
        arguments: vec![7, 1, 15, 0],
        public: vec![11, 12, 13],
        secret: vec![21, 22],
        digests: (31..41).collect(),
        op_stack: used(&(41..59).collect::<Vec<_>>(), 20),
        origins: used(&[61, 62], 3),
        destinations: used(&[63, 64], 3),
        addresses: used(&[0, 71, P - 1], 5),
        values: used(&[72, 73, 74], 5),
        output: used(&[81, 82], 4),
    };
    Damaged { machine, room: step_bytes(1) }
}

fn damage(change: impl Fn(&mut Damaged) + 'static) -> Damage {
    Box::new(change)
}

fn of_machine(change: impl Fn(&mut Machine) + 'static) -> Damage {
    damage(move |damaged| change(&mut damaged.machine))
}

/// Puts a word at a place of one of the machine's slices, which are numbered as in `SLICES`.
fn put(slice: usize, place: usize, word: u64) -> Damage {
    of_machine(move |machine| machine.slices_mut()[slice][place] = word)
}

/// Takes the last word of a slice, or puts one behind it.
fn short(slice: usize) -> Damage {
    of_machine(move |machine| {
        machine.slices_mut()[slice].pop();
    })
}

fn long(slice: usize) -> Damage {
    of_machine(move |machine| machine.slices_mut()[slice].push(0))
}

/// Number 1: a buffer that is too short, an op stack below sixteen words, slices that do not go together, digests not in
/// fives.
fn lengths() -> Vec<Damage> {
    let mut damages: Vec<Damage> = [0, 1, step_bytes(1) - 1].map(|room| damage(move |damaged| damaged.room = room)).into();
    damages.extend([0, 15].map(|length| of_machine(move |machine| machine.op_stack.truncate(length))));
    damages.extend([1, 2, 7, 8, 9, 10].into_iter().flat_map(|slice| [short(slice), long(slice)]));
    damages.extend([1, 4, 6, 9].map(|length| of_machine(move |machine| machine.digests.truncate(length))));
    damages.push(of_machine(|machine| machine.opcodes.clear()));
    damages
}

/// Number 2: a number that is no word at each place where one is looked for.
fn words() -> Vec<Damage> {
    let places = [(2, 0), (2, 3), (3, 0), (3, 2), (4, 0), (4, 1), (5, 0), (5, 9), (6, 0), (6, 17)];
    let pairs = [(7, 0), (7, 1), (8, 0), (8, 1), (9, 0), (9, 2), (10, 0), (10, 2)];
    let registers = [(0, register::POINTER), (0, register::SPONGE), (0, register::REVISION - 1)];
    let all = places.into_iter().chain(pairs).chain(registers);
    let mut damages: Vec<Damage> =
        all.enumerate().map(|(i, (slice, place))| put(slice, place, if i % 3 == 0 { u64::MAX } else { P })).collect();
    damages.push(of_machine(|machine| {
        machine.registers[register::SPONGE_SET] = 0;
        machine.registers[register::SPONGE + 7] = P;
    }));
    // a depth or a count above the slice leaves all of it used
    for (count, slice) in [(register::DEPTH, 6), (register::JUMPS, 8), (register::CELLS, 10)] {
        damages.push(of_machine(move |machine| {
            machine.registers[count] = u64::MAX;
            *machine.slices_mut()[slice].last_mut().unwrap() = P;
        }));
    }
    damages
}

/// Number 3: an opcode that is none, also one that is no word.
fn opcodes() -> Vec<Damage> {
    let unknown = (0..=100).filter(|&opcode| decode(opcode).is_none()).step_by(9).chain([P, u64::MAX]);
    unknown.enumerate().map(|(i, opcode)| put(1, 3 - i % 4, opcode)).collect()
}

/// Number 4: an argument just outside of what is allowed.
fn arguments() -> Vec<Damage> {
    let outside = |instruction: &'static Instruction| {
        let edges = [0, 1, 5, 6, 15, 16, P - 1].into_iter().filter(|&argument| !instruction.allows(argument));
        edges.take(2).map(move |argument| (instruction.opcode, argument))
    };
    let slots = ALL.iter().step_by(3).flat_map(outside);
    slots
        .map(|(opcode, argument)| {
            of_machine(move |machine| {
                machine.opcodes[2] = opcode;
                machine.arguments[2] = argument;
            })
        })
        .collect()
}

/// Number 5: used cells of which one is not above the one before it.
fn orders() -> Vec<Damage> {
    let cells = |addresses: &'static [u64]| {
        of_machine(move |machine| {
            machine.registers[register::CELLS] = addresses.len() as u64;
            machine.addresses[..addresses.len()].copy_from_slice(addresses);
        })
    };
    let orders: [&[u64]; 17] = [
        &[71, 0, P - 1],
        &[0, 0, P - 1],
        &[71, 71, P - 1],
        &[0, P - 1, P - 1],
        &[0, 71, 71],
        &[0, 0, 0],
        &[0, 71, 0],
        &[0, 71, 70],
        &[72, 71, P - 1],
        &[0, P - 1, 71],
        &[P - 1, 0, 71],
        &[P - 1, 71, 0],
        // all of what is lent, and as few as can be out of order
        &[0, 1, 2, 3, 3],
        &[1, 0, 2, 3, 4],
        &[0, 1, 3, 2, 4],
        &[7, 7],
        &[1 << 32, (1 << 32) - 1],
    ];
    orders.map(cells).into()
}

/// Number 5: depth, counts and positions outside, unused words that are not 0.
fn states() -> Vec<Damage> {
    let outside = [
        (register::DEPTH, 21),
        (register::JUMPS, 4),
        (register::CELLS, 6),
        (register::OUTPUTS, 5),
        (register::PUBLICS, 4),
        (register::SECRETS, 3),
        (register::DIGESTS, 3),
    ];
    let mut damages: Vec<Damage> = outside.iter().flat_map(|&(place, n)| [put(0, place, n), put(0, place, u64::MAX)]).collect();
    damages.extend([0, 15, 17].map(|depth| put(0, register::DEPTH, depth)));
    damages.push(put(0, register::JUMPS, 1));
    damages.extend([(6, 18), (6, 19), (7, 2), (8, 2)].map(|(slice, place)| put(slice, place, 1)));
    damages.push(put(6, 19, u64::MAX));
    // the fourth cell, which is not used, has 0
    damages.push(put(0, register::CELLS, 4));
    damages
}

/// Accepted: what is not looked at, and counts that are just as long as their slices.
fn edges() -> Vec<Damage> {
    let mut damages: Vec<Damage> =
        [(9, 3), (9, 4), (10, 3), (11, 0), (11, 3)].map(|(slice, place)| put(slice, place, u64::MAX)).into();
    // unused cells need not ascend, nor differ from used ones
    damages.extend([(3, P - 1), (3, 71), (4, P - 1)].map(|(place, address)| put(9, place, address)));
    damages.extend([0, 1, 2].map(|cells| put(0, register::CELLS, cells)));
    let full = [
        (register::DEPTH, 20),
        (register::JUMPS, 3),
        (register::OUTPUTS, 4),
        (register::PUBLICS, 3),
        (register::SECRETS, 2),
        (register::DIGESTS, 2),
    ];
    damages.extend(full.map(|(place, n)| put(0, place, n)));
    damages.push(of_machine(|machine| {
        machine.registers[register::CELLS] = 5;
        machine.addresses.copy_from_slice(&[0, 71, 72, P - 2, P - 1]);
    }));
    damages.extend([3, 4].map(|slice| {
        of_machine(move |machine| {
            machine.registers[register::PUBLICS + slice - 3] = 0;
            machine.slices_mut()[slice].clear();
        })
    }));
    damages
}

/// Accepted, but for those that lack a cell: write_mem of so many words at an address, with so many cells of five unused. What is
/// in the unused ones is no word, and stays but for the cells taken.
fn writes() -> Vec<Damage> {
    let writes = [
        (1, 71, 2),
        (1, 5, 2),
        (1, 72, 2),
        (1, P - 2, 2),
        (2, 70, 2),
        (2, 71, 1),
        (2, 72, 2),
        // around p, some of them held
        (2, P - 1, 0),
        (2, P - 2, 1),
        (3, P - 2, 2),
        (4, P - 2, 2),
        // none held
        (1, 0, 5),
        (2, P - 1, 5),
        (5, P - 2, 5),
        (5, 70, 5),
        // a cell too few
        (1, 5, 0),
        (2, 80, 1),
        (3, 72, 2),
        (3, P - 3, 1),
        (5, P - 3, 2),
    ];
    let write = |(count, address, unused): (u64, u64, usize)| {
        of_machine(move |machine| {
            (machine.opcodes[0], machine.arguments[0]) = (11, count);
            machine.op_stack = (41..41 + 22).collect();
            machine.op_stack[21] = address;
            machine.registers[register::DEPTH] = 22;
            let used = 5 - unused;
            machine.registers[register::CELLS] = used as u64;
            let cells: &[u64] = match used {
                3 => &[0, 71, P - 1],
                4 => &[0, 71, 75, P - 1],
                _ => &[0, 71, 75, 76, P - 1],
            };
            machine.addresses[..used].copy_from_slice(&cells[..used]);
            machine.addresses[used..].fill(u64::MAX);
            machine.values[used..].fill(P);
        })
    };
    writes.map(write).into()
}
