//! The six helper variables before a step; those not given are 0.
use super::Vm;
use crate::field::{add, inverse, sub};
use crate::instructions::decode;
use crate::lent::Code;

impl Vm {
    pub(super) fn helpers(&self, code: Code) -> Vec<u64> {
        let at = match usize::try_from(self.pointer) {
            Ok(at) if at < code.opcodes.len() => at,
            _ => return vec![],
        };
        let (instruction, argument) = (decode(code.opcodes[at]).unwrap(), code.arguments[at]);
        let cells = |address: u64, n: u64| (0..n).map(move |i| self.held(add(address, i)));
        match instruction.name {
            "pop" | "divine" | "pick" | "place" | "dup" | "swap" | "read_mem" | "write_mem" | "read_io" | "write_io" => {
                (0..4).map(|bit| argument >> bit & 1).collect()
            }
            "skiz" => {
                let next = code.opcodes.get(at + 1).copied().unwrap_or(1);
                vec![inverse(self.st(0)), next % 2, next / 2 % 4, next / 8 % 4, next / 32 % 4, next / 128]
            }
            "recurse_or_return" => vec![inverse(sub(self.st(6), self.st(5)))],
            "sponge_absorb_mem" => cells(add(self.st(0), 4), 6).collect(),
            "merkle_step" => {
                let left = &code.digests[5 * self.digests..];
                let mut words = if left.is_empty() { vec![0; 5] } else { left[..5].to_vec() };
                words.push(self.st(5) % 2);
                words
            }
            "merkle_step_mem" => cells(self.st(7), 5).chain([self.st(5) % 2]).collect(),
            "split" => {
                let (high, low) = (self.st(0) >> 32, self.st(0) & 0xffff_ffff);
                vec![if low == 0 { 0 } else { inverse(sub(high, 0xffff_ffff)) }]
            }
            "eq" => vec![inverse(sub(self.st(1), self.st(0)))],
            "xx_dot_step" => cells(self.st(0), 3).chain(cells(self.st(1), 3)).collect(),
            "xb_dot_step" => cells(self.st(0), 1).chain(cells(self.st(1), 3)).collect(),
            _ => vec![],
        }
    }
}
