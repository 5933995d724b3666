//! The row of the processor table: the machine before a step, and its helper variables.
use super::Vm;
use crate::instructions::{decode, named, Argument};
use crate::lent::{Code, Row};

impl Vm {
    pub(super) fn row(&self, code: Code) -> Row {
        let at = usize::try_from(self.pointer).ok().filter(|&at| at < code.opcodes.len());
        let current = at.map_or(named("nop"), |at| decode(code.opcodes[at]).unwrap());
        let next = match at {
            None => 0,
            Some(at) if current.argument != Argument::None => code.arguments[at],
            Some(at) => code.opcodes.get(at + 1).copied().unwrap_or(1),
        };
        let (origin, destination) = self.jumps.last().copied().unwrap_or((0, 0));
        let mut helpers = self.helpers(code);
        helpers.resize(6, 0);

        let mut row = vec![self.clock.into(), self.pointer % (1 << 32), current.opcode, next];
        row.extend((0..7).map(|bit| current.opcode >> bit & 1));
        row.extend([self.jumps.len() as u64, origin, destination]);
        row.extend((0..16).map(|place| self.st(place)));
        row.push(self.stack.len() as u64);
        row.extend(helpers);
        row.try_into().expect("37 columns")
    }
}
