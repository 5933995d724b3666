//! Everything lent between guards, and one call on it.
use crate::input::{Export, Input};
use host::guard::Guarded;
use host::lent::{Calls, Code, Fees, Memory};

/// Everything that a call is lent, each slice between its guards.
pub struct Arena {
    slices: [Guarded<u64>; 12],
    /// The answer, or the helper variables, or the row.
    answer: Guarded<u64>,
    digest: Guarded<u64>,
    table: Guarded<u64>,
    /// Lowest, highest, fees.
    fees: [Guarded<u64>; 3],
    bytes: Guarded<u8>,
}

impl Arena {
    pub fn new(guard: u64) -> Arena {
        let words = || Guarded::new(guard);
        let slices = core::array::from_fn(|_| words());
        let fees = core::array::from_fn(|_| words());
        Arena { slices, answer: words(), digest: words(), table: words(), fees, bytes: Guarded::new(guard as u8) }
    }

    /// Calls on a copy of the input, and gives the number.
    pub fn call(&mut self, export: Export, input: &Input, by: &Calls) -> u64 {
        for (guarded, slice) in self.slices.iter_mut().zip(input.machine.slices()) {
            guarded.set(slice);
        }
        self.answer.set(&input.answer);
        self.digest.set(&input.digest);
        self.table.set(&input.table);
        self.fees.iter_mut().zip(fees_of(input)).for_each(|(guarded, slice)| guarded.set(slice));
        self.bytes.set(&input.bytes);
        let [registers, opcodes, arguments, public, secret, digests, op_stack, origins, destinations, addresses, values, output] =
            self.slices.each_mut().map(|guarded| guarded.slice());
        let code = Code { opcodes, arguments, public, secret, digests };
        let memory = Memory { op_stack, origins, destinations, addresses, values, output };
        let (answer, digest, table, bytes) = (self.answer.slice(), self.digest.slice(), self.table.slice(), self.bytes.slice());
        let [lowest, highest, fees] = self.fees.each_mut().map(|guarded| &*guarded.slice());
        let fees = Fees { lowest, highest, fees };
        let Input { revision, cells, budget, .. } = *input;
        match export {
            Export::Open => (by.open)(registers, answer, revision, digest, cells, code, memory),
            Export::Step => (by.step)(registers, answer, code, memory, bytes),
            Export::Run => (by.run)(registers, answer, budget, code, memory),
            Export::Trace => (by.trace_execution)(registers, answer, budget, code, memory, bytes),
            Export::Rows => (by.trace_rows)(registers, answer, budget, code, memory, bytes, table),
            Export::OpenWithFees => (by.open_with_fees)(registers, answer, revision, digest, cells, code, memory, fees),
            Export::StepWithFees => (by.step_with_fees)(registers, answer, code, memory, bytes, fees),
            Export::RunWithFees => (by.run_with_fees)(registers, answer, budget, code, memory, fees),
            Export::TraceWithFees => (by.trace_execution_with_fees)(registers, answer, budget, code, memory, bytes, fees),
            Export::RowsWithFees => (by.trace_rows_with_fees)(registers, answer, budget, code, memory, bytes, table, fees),
            Export::Helpers => (by.helper_variables)(registers, answer, code, memory.view()),
            Export::Row => (by.processor_row)(registers, answer, code, memory.view()),
        }
    }

    /// What stands otherwise in this arena than in that one, or a guard that was written to.
    pub fn difference(&self, other: &Arena) -> Option<String> {
        for (i, name) in host::lent::SLICES.iter().enumerate() {
            if !self.slices[i].is_intact() {
                return Some(format!("{name}: a guard was written to"));
            }
            if !self.slices[i].holds(other.slices[i].inside()) {
                return Some(format!("{name}: {:?} and {:?}", self.slices[i].inside(), other.slices[i].inside()));
            }
        }
        for (name, mine, theirs) in [
            ("answer", &self.answer, &other.answer),
            ("digest", &self.digest, &other.digest),
            ("table", &self.table, &other.table),
            ("lowest", &self.fees[0], &other.fees[0]),
            ("highest", &self.fees[1], &other.fees[1]),
            ("fees", &self.fees[2], &other.fees[2]),
        ] {
            if !mine.is_intact() {
                return Some(format!("{name}: a guard was written to"));
            }
            if !mine.holds(theirs.inside()) {
                return Some(format!("{name}: {:?} and {:?}", mine.inside(), theirs.inside()));
            }
        }
        if !self.bytes.is_intact() {
            return Some("bytes: a guard was written to".to_string());
        }
        if !self.bytes.holds(other.bytes.inside()) {
            return Some(format!("bytes: {:?} and {:?}", self.bytes.inside(), other.bytes.inside()));
        }
        None
    }

    /// Whether everything lent is as it was handed in, but for the answer.
    pub fn is_unchanged(&self, input: &Input) -> bool {
        let slices = self.slices.iter().zip(input.machine.slices());
        slices.into_iter().all(|(guarded, slice)| guarded.holds(slice))
            && self.bytes.holds(&input.bytes)
            && self.table.holds(&input.table)
            && self.fees.iter().zip(fees_of(input)).all(|(guarded, slice)| guarded.holds(slice))
    }
}

fn fees_of(input: &Input) -> [&Vec<u64>; 3] {
    [&input.fees.lowest, &input.fees.highest, &input.fees.fees]
}
