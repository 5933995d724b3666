//! Place A: what is wrong with what a call is handed, by numbers 1 to 5, each tried over everything before the next.
use super::fees::has_shape;
use crate::field::P;
use crate::instructions::decode;
use crate::lent::{answer, register, step_bytes, Code, Fees, MemoryView, LONGEST};

/// What a call takes besides code and memory. `Read` is of those that take no step, and give so many words.
pub enum Handed<'a> {
    Open { registers: &'a [u64], answer: &'a [u64], revision: u64, digest: &'a [u64], cells: u64, fees: Option<Fees<'a>> },
    Step { registers: &'a [u64], answer: &'a [u64], calls: &'a [u8], fees: Option<Fees<'a>> },
    Run { registers: &'a [u64], answer: &'a [u64], log: &'a [u8], rows: &'a [u64], fees: Option<Fees<'a>> },
    Read { registers: &'a [u64], words: &'a [u64], count: usize },
}

/// The number; 0 where nothing is wrong.
pub fn place_a(handed: &Handed, code: Code, memory: MemoryView) -> u64 {
    if !lengths_fit(handed, code, memory) {
        return 1;
    }
    // the registers handed in; open has none, but a revision and a count of cells
    let (registers, revision, digest, cells) = match *handed {
        Handed::Open { revision, digest, cells, .. } => (None, revision, digest, cells),
        Handed::Step { registers, .. } | Handed::Run { registers, .. } | Handed::Read { registers, .. } => {
            (Some(registers), registers[register::REVISION], &[][..], registers[register::CELLS])
        }
    };
    if registers.is_some_and(|r| r[register::CLOCK] >= 1 << 32 || r[register::HALTED] > 1 || r[register::SPONGE_SET] > 1) {
        return 1;
    }

    let mut words = vec![code.arguments, code.public, code.secret, code.digests, digest];
    words.extend([used(memory.addresses, cells), used(memory.values, cells)]);
    if let Some(r) = registers {
        words.extend([
            used(memory.op_stack, r[register::DEPTH]),
            &r[register::SPONGE..register::REVISION],
            &r[register::POINTER..=register::POINTER],
        ]);
        words.extend([used(memory.origins, r[register::JUMPS]), used(memory.destinations, r[register::JUMPS])]);
    }
    if words.iter().any(|slice| slice.iter().any(|&word| word >= P)) {
        return 2;
    }

    if code.opcodes.iter().any(|&opcode| decode(opcode).is_none()) {
        return 3;
    }
    if code.opcodes.iter().zip(code.arguments).any(|(&opcode, &argument)| !decode(opcode).unwrap().allows(argument)) {
        return 4;
    }
    if !is_revision(revision) {
        return 4;
    }

    let outside = registers.is_some_and(|r| {
        r[register::DEPTH] < 16
            || r[register::DEPTH] > memory.op_stack.len() as u64
            || r[register::JUMPS] > memory.origins.len() as u64
            || r[register::OUTPUTS] > memory.output.len() as u64
            || r[register::PUBLICS] > code.public.len() as u64
            || r[register::SECRETS] > code.secret.len() as u64
            || r[register::DIGESTS] > code.digests.len() as u64 / 5
            || has_unused(memory.op_stack, r[register::DEPTH])
            || has_unused(memory.origins, r[register::JUMPS])
            || has_unused(memory.destinations, r[register::JUMPS])
    });
    if outside || cells > memory.addresses.len() as u64 || !ascend(used(memory.addresses, cells)) {
        return 5;
    }
    0
}

fn lengths_fit(handed: &Handed, code: Code, memory: MemoryView) -> bool {
    // a step and a run with a fee table have a word more
    let fits = |answer: &[u64], fees: Option<Fees>| match fees {
        None => answer.len() == answer::ALL,
        Some(fees) => answer.len() == answer::WITH_FEES && has_shape(fees),
    };
    let own = match *handed {
        Handed::Open { registers, answer, digest, fees, .. } => {
            answer.len() == answer::ALL && registers.len() == register::ALL && digest.len() == 5 && fees.is_none_or(has_shape)
        }
        Handed::Step { registers, answer, calls, fees } => {
            fits(answer, fees)
                && registers.len() == register::ALL
                && (step_bytes(registers[register::REVISION])..=LONGEST).contains(&calls.len())
        }
        Handed::Run { registers, answer, log, rows, fees } => {
            fits(answer, fees) && registers.len() == register::ALL && log.len().max(rows.len()) <= LONGEST
        }
        Handed::Read { registers, words, count } => words.len() == count && registers.len() == register::ALL,
    };
    own && code.opcodes.len().max(code.arguments.len()) <= LONGEST
        && code.public.len().max(code.secret.len()).max(code.digests.len()) <= LONGEST
        && memory.origins.len().max(memory.destinations.len()) <= LONGEST
        && memory.addresses.len().max(memory.values.len()).max(memory.output.len()) <= LONGEST
        && (16..=LONGEST).contains(&memory.op_stack.len())
        && code.opcodes.len() == code.arguments.len()
        && memory.origins.len() == memory.destinations.len()
        && memory.addresses.len() == memory.values.len()
        && code.digests.len().is_multiple_of(5)
}

/// Document 02: a log is of revision 1 or 2.
pub(super) fn is_revision(number: u64) -> bool {
    matches!(number, 1 | 2)
}

/// The words whose index is below the count, or all.
fn used(slice: &[u64], count: u64) -> &[u64] {
    &slice[..slice.len().min(usize::try_from(count).unwrap_or(usize::MAX))]
}

/// Whether a word behind the used ones is not 0.
fn has_unused(slice: &[u64], count: u64) -> bool {
    slice[used(slice, count).len()..].iter().any(|&word| word != 0)
}

/// Whether each address is above the one before it.
pub(super) fn ascend(addresses: &[u64]) -> bool {
    addresses.windows(2).all(|pair| pair[0] < pair[1])
}
