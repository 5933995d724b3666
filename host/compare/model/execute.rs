//! Place C: what each of the 46 instructions does.
use super::{refuse, Refusal, Vm};
use crate::field::{add, inverse, mul, power, sub, x_add, x_inverse, x_mul, x_scale, Extension};
use crate::instructions::{decode, Instruction};
use crate::lent::Code;
use crate::tip5::{fixed, trace, State};
use kixombu::Record;

impl Vm {
    /// Gives the instruction's own calls. Refused, what it leaves is not to be used.
    pub(super) fn execute(&mut self, instruction: &Instruction, argument: u64, code: Code) -> Result<Vec<Record>, Refusal> {
        let n = argument as usize;
        let mut calls = vec![];
        let mut next = self.pointer + instruction.size();
        match instruction.name {
            "push" => self.push(argument),
            "pop" => {
                self.pop_many(n);
            }
            "divine" => {
                let left = &code.secret[self.secrets..];
                if left.len() < n {
                    return refuse(15, [left.len() as u64, 0, 0]);
                }
                self.stack.extend(&left[..n]);
                self.secrets += n;
            }
            "pick" => {
                let word = self.stack.remove(self.stack.len() - 1 - n);
                self.push(word);
            }
            "place" => {
                let word = self.pop();
                self.stack.insert(self.stack.len() - n, word);
            }
            "dup" => self.push(self.st(n)),
            "swap" => {
                let top = self.stack.len() - 1;
                self.stack.swap(top, top - n);
            }

            "halt" => self.halted = true,
            "nop" => {}
            "skiz" => {
                if self.pop() == 0 {
                    match code.opcodes.get(next as usize) {
                        Some(&skipped) => next += decode(skipped).unwrap().size(),
                        None => return refuse(11, [0; 3]),
                    }
                }
            }
            "call" => {
                self.jumps.push((next, argument));
                next = argument;
            }
            "return" | "recurse" | "recurse_or_return" => {
                let Some(&(origin, destination)) = self.jumps.last() else {
                    return refuse(17, [0; 3]);
                };
                let equal = self.st(5) == self.st(6);
                if instruction.name == "return" || instruction.name == "recurse_or_return" && equal {
                    self.jumps.pop();
                    next = origin;
                } else {
                    next = destination;
                }
            }
            "assert" => {
                let word = self.pop();
                if word != 1 {
                    return refuse(18, [1, word, 0]);
                }
            }

            "read_mem" => {
                let address = self.pop();
                for i in 0..argument {
                    let word = self.read(sub(address, i), &mut calls);
                    self.push(word);
                }
                self.push(sub(address, argument));
            }
            "write_mem" => {
                let address = self.pop();
                for i in 0..argument {
                    let word = self.pop();
                    self.write(add(address, i), word, &mut calls);
                }
                self.push(add(address, argument));
            }

            "hash" => {
                let words = self.pop_words();
                let after = permute(18, fixed(words), &mut calls);
                (0..5).rev().for_each(|i| self.push(after[i]));
            }
            "assert_vector" => {
                for i in 0..5 {
                    if self.st(i) != self.st(i + 5) {
                        return refuse(19, [i as u64, self.st(i), self.st(i + 5)]);
                    }
                }
                self.pop_many(5);
            }
            "sponge_init" => {
                self.sponge = Some([0; 16]);
                calls.push(Record::Reset);
            }
            "sponge_absorb" => {
                let sponge = self.set_sponge()?;
                let words = self.pop_words();
                self.sponge = Some(permute(34, absorbed(sponge, words), &mut calls));
            }
            "sponge_absorb_mem" => {
                let sponge = self.set_sponge()?;
                let words = self.read_words(self.st(0), &mut calls);
                self.set(0, add(self.st(0), 10));
                (0..4).for_each(|i| self.set(i + 1, words[i]));
                self.sponge = Some(permute(34, absorbed(sponge, words), &mut calls));
            }
            "sponge_squeeze" => {
                let sponge = self.set_sponge()?;
                (0..10).rev().for_each(|i| self.push(sponge[i]));
                self.sponge = Some(permute(56, sponge, &mut calls));
            }

            "add" => {
                let (a, b) = (self.pop(), self.pop());
                self.push(add(a, b));
            }
            "addi" => {
                let a = self.pop();
                self.push(add(a, argument));
            }
            "mul" => {
                let (a, b) = (self.pop(), self.pop());
                self.push(mul(a, b));
            }
            "invert" => {
                let a = self.pop();
                if a == 0 {
                    return refuse(20, [0; 3]);
                }
                self.push(inverse(a));
            }
            "eq" => {
                let (a, b) = (self.pop(), self.pop());
                self.push((a == b).into());
            }

            "split" => {
                let a = self.pop();
                let (high, low) = (a >> 32, a & 0xffff_ffff);
                self.push(high);
                self.push(low);
                calls.push(u32_call(4, low, high));
            }
            "lt" => {
                let (a, b) = (self.pop_u32()?, self.pop_u32()?);
                self.push((a < b).into());
                calls.push(u32_call(6, a, b));
            }
            "and" => {
                let (a, b) = (self.pop_u32()?, self.pop_u32()?);
                self.push(a & b);
                calls.push(u32_call(14, a, b));
            }
            "xor" => {
                let (a, b) = (self.pop_u32()?, self.pop_u32()?);
                self.push(a ^ b);
                calls.push(u32_call(14, a, b));
            }
            "log_2_floor" => {
                let a = self.pop_u32()?;
                if a == 0 {
                    return refuse(22, [0; 3]);
                }
                self.push(a.ilog2().into());
                calls.push(u32_call(12, a, 0));
            }
            "pow" => {
                let (base, exponent) = (self.pop(), self.pop_u32()?);
                self.push(power(base, exponent));
                calls.push(u32_call(30, base, exponent));
            }
            "div_mod" => {
                let (numerator, divisor) = (self.pop_u32()?, self.pop_u32()?);
                if divisor == 0 {
                    return refuse(21, [0; 3]);
                }
                let (quotient, remainder) = (numerator / divisor, numerator % divisor);
                self.push(quotient);
                self.push(remainder);
                calls.extend([u32_call(6, remainder, divisor), u32_call(4, numerator, quotient)]);
            }
            "pop_count" => {
                let a = self.pop_u32()?;
                self.push(a.count_ones().into());
                calls.push(u32_call(28, a, 0));
            }

            "xx_add" => {
                let (a, b) = (self.pop_words(), self.pop_words());
                self.push_extension(x_add(a, b));
            }
            "xx_mul" => {
                let (a, b) = (self.pop_words(), self.pop_words());
                self.push_extension(x_mul(a, b));
            }
            "x_invert" => {
                let a = self.pop_words();
                if a == [0; 3] {
                    return refuse(20, [0; 3]);
                }
                self.push_extension(x_inverse(a));
            }
            "xb_mul" => {
                let (b, a) = (self.pop(), self.pop_words());
                self.push_extension(x_scale(a, b));
            }

            "read_io" => {
                let left = &code.public[self.publics..];
                if left.len() < n {
                    return refuse(14, [left.len() as u64, 0, 0]);
                }
                self.stack.extend(&left[..n]);
                self.publics += n;
            }
            "write_io" => {
                for _ in 0..n {
                    let word = self.pop();
                    self.output.push(word);
                }
            }

            "merkle_step" => {
                let index = as_u32(self.st(5))?;
                let Some(sibling) = code.digests[5 * self.digests..].first_chunk() else {
                    return refuse(16, [0; 3]);
                };
                self.digests += 1;
                self.merkle(index, *sibling, &mut calls);
            }
            "merkle_step_mem" => {
                let index = as_u32(self.st(5))?;
                let mut reads = vec![];
                let sibling = self.read_words(self.st(7), &mut reads);
                self.merkle(index, sibling, &mut calls);
                self.set(7, add(self.st(7), 5));
                calls.extend(reads);
            }
            "xx_dot_step" => {
                let (left, right) = (self.pop(), self.pop());
                let (mut a, mut b) = ([0; 3], [0; 3]);
                for i in 0..3 {
                    a[i] = self.read(add(left, i as u64), &mut calls);
                    b[i] = self.read(add(right, i as u64), &mut calls);
                }
                self.accumulate(x_mul(a, b), add(right, 3), add(left, 3));
            }
            "xb_dot_step" => {
                let (left, right) = (self.pop(), self.pop());
                let a = self.read(left, &mut calls);
                let b = self.read_words(right, &mut calls);
                self.accumulate(x_scale(b, a), add(right, 3), add(left, 1));
            }
            name => unreachable!("{name}"),
        }
        self.pointer = next;
        Ok(calls)
    }

    /// ST5 is the node's index, ST0 to ST4 its digest.
    fn merkle(&mut self, index: u64, sibling: [u64; 5], calls: &mut Vec<Record>) {
        let node: [u64; 5] = self.pop_words();
        let (left, right) = if index.is_multiple_of(2) { (node, sibling) } else { (sibling, node) };
        let words = core::array::from_fn(|i| if i < 5 { left[i] } else { right[i - 5] });
        let after = permute(18, fixed(words), calls);
        self.set(0, index / 2);
        (0..5).rev().for_each(|i| self.push(after[i]));
        calls.push(u32_call(4, index, index / 2));
    }

    /// Adds to the accumulator, and puts the two addresses on.
    fn accumulate(&mut self, product: Extension, right: u64, left: u64) {
        let accumulator = self.pop_words();
        self.push_extension(x_add(accumulator, product));
        self.push(right);
        self.push(left);
    }

    fn set_sponge(&self) -> Result<State, Refusal> {
        self.sponge.map_or_else(|| refuse(23, [0; 3]), Ok)
    }

    // ---- stack

    pub(super) fn st(&self, i: usize) -> u64 {
        self.stack[self.stack.len() - 1 - i]
    }

    fn set(&mut self, i: usize, word: u64) {
        let at = self.stack.len() - 1 - i;
        self.stack[at] = word;
    }

    fn push(&mut self, word: u64) {
        self.stack.push(word);
    }

    fn pop(&mut self) -> u64 {
        self.stack.pop().unwrap()
    }

    fn pop_u32(&mut self) -> Result<u64, Refusal> {
        as_u32(self.pop())
    }

    fn pop_many(&mut self, n: usize) {
        self.stack.truncate(self.stack.len() - n);
    }

    /// The top first.
    fn pop_words<const N: usize>(&mut self) -> [u64; N] {
        core::array::from_fn(|_| self.pop())
    }

    /// Coefficient 0 on top.
    fn push_extension(&mut self, element: Extension) {
        element.into_iter().rev().for_each(|word| self.push(word));
    }

    // ---- RAM

    pub(super) fn held(&self, address: u64) -> u64 {
        self.ram.get(&address).copied().unwrap_or(0)
    }

    fn read(&self, address: u64, calls: &mut Vec<Record>) -> u64 {
        let value = self.held(address);
        calls.push(Record::Ram { clock: self.clock, address, value, write: false });
        value
    }

    /// Upward from an address.
    fn read_words<const N: usize>(&self, address: u64, calls: &mut Vec<Record>) -> [u64; N] {
        core::array::from_fn(|i| self.read(add(address, i as u64), calls))
    }

    fn write(&mut self, address: u64, value: u64, calls: &mut Vec<Record>) {
        self.ram.insert(address, value);
        calls.push(Record::Ram { clock: self.clock, address, value, write: true });
    }
}

fn as_u32(word: u64) -> Result<u64, Refusal> {
    if word >> 32 == 0 {
        Ok(word)
    } else {
        refuse(13, [word, 0, 0])
    }
}

fn u32_call(opcode: u16, left: u64, right: u64) -> Record {
    Record::U32 { clock: None, opcode, left, right }
}

fn absorbed(sponge: State, words: [u64; 10]) -> State {
    core::array::from_fn(|i| if i < 10 { words[i] } else { sponge[i] })
}

fn permute(opcode: u16, state: State, calls: &mut Vec<Record>) -> State {
    let states = trace(state);
    calls.push(Record::Tip5 { clock: None, opcode, states: Box::new(states) });
    states[5]
}
