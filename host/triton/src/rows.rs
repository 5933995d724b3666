//! Rows of the processor table.
use crate::exports::column;
use std::slice::ChunksExact;

/// A row of the processor table: the machine before a step, as the original's `to_processor_row` gives it. The columns that only
/// padding and clock jump differences fill are not in it.
///
/// ```
/// use kixombu::Row;
///
/// let words: Vec<u64> = (0..37).collect();
/// let row = Row::from_words(&words).unwrap();
/// assert_eq!((row.clk, row.nia, row.ib[6], row.jsd), (0, 3, 10, 13));
/// assert_eq!((row.st[0], row.st[15], row.op_stack_pointer, row.hv[5]), (14, 29, 30, 36));
/// assert_eq!(row.to_words()[..], words);
/// assert_eq!((Row::COLUMNS[3], Row::COLUMNS[29], Row::COLUMNS[30]), ("NIA", "ST15", "OpStackPointer"));
/// ```
#[derive(Clone, Copy, Debug, Default, PartialEq, Eq, Hash)]
pub struct Row {
    /// The clock: the steps taken before.
    pub clk: u64,
    /// The instruction pointer, cut to 32 bits.
    pub ip: u64,
    /// The current instruction: the opcode of the slot at the pointer; outside the program that of nop, 8.
    pub ci: u64,
    /// The next instruction or argument: the argument of an instruction that takes one, else the opcode of the next slot, else 1
    /// where there is none; outside the program 0.
    pub nia: u64,
    /// The binary digits of `ci`, the lowest first.
    pub ib: [u64; 7],
    /// How many entries the jump stack has.
    pub jsp: u64,
    /// The origin on top of the jump stack, 0 where it is empty.
    pub jso: u64,
    /// The destination there, 0 where it is empty.
    pub jsd: u64,
    /// The top sixteen words of the op stack, the top one first.
    pub st: [u64; 16],
    /// The op stack's depth.
    pub op_stack_pointer: u64,
    /// The helper variables.
    pub hv: [u64; 6],
}

impl Row {
    /// How many words a row has.
    pub const WORDS: usize = column::ALL;

    /// The names of the columns, in the order of the words: the first line of a CSV file.
    #[rustfmt::skip]
    pub const COLUMNS: [&str; Row::WORDS] = [
        "CLK", "IP", "CI", "NIA", "IB0", "IB1", "IB2", "IB3", "IB4", "IB5", "IB6", "JSP", "JSO", "JSD",
        "ST0", "ST1", "ST2", "ST3", "ST4", "ST5", "ST6", "ST7", "ST8", "ST9", "ST10", "ST11", "ST12", "ST13", "ST14", "ST15",
        "OpStackPointer", "HV0", "HV1", "HV2", "HV3", "HV4", "HV5",
    ];

    /// From the words of a table; none where they are not 37.
    pub fn from_words(words: &[u64]) -> Option<Row> {
        words.try_into().ok().map(Row::of)
    }

    pub(crate) fn of(words: &[u64; Row::WORDS]) -> Row {
        Row {
            clk: words[column::CLK],
            ip: words[column::IP],
            ci: words[column::CI],
            nia: words[column::NIA],
            ib: std::array::from_fn(|i| words[column::IB + i]),
            jsp: words[column::JSP],
            jso: words[column::JSO],
            jsd: words[column::JSD],
            st: std::array::from_fn(|i| words[column::ST + i]),
            op_stack_pointer: words[column::OP_STACK_POINTER],
            hv: std::array::from_fn(|i| words[column::HV + i]),
        }
    }

    /// The words of a table, in the order of [`COLUMNS`](Self::COLUMNS).
    pub fn to_words(&self) -> [u64; Row::WORDS] {
        let mut words = [0; Row::WORDS];
        (words[column::CLK], words[column::IP], words[column::CI], words[column::NIA]) = (self.clk, self.ip, self.ci, self.nia);
        words[column::IB..column::JSP].copy_from_slice(&self.ib);
        (words[column::JSP], words[column::JSO], words[column::JSD]) = (self.jsp, self.jso, self.jsd);
        words[column::ST..column::OP_STACK_POINTER].copy_from_slice(&self.st);
        words[column::OP_STACK_POINTER] = self.op_stack_pointer;
        words[column::HV..].copy_from_slice(&self.hv);
        words
    }
}

/// The rows of a table, which [`Job::trace_rows`](crate::Job::trace_rows) gives, and [`rows`].
#[derive(Clone, Debug)]
pub struct Rows<'a> {
    left: ChunksExact<'a, u64>,
}

/// The rows that stand one behind the other in these words. Words behind the last whole row are not looked at.
pub fn rows(words: &[u64]) -> Rows<'_> {
    Rows { left: words.chunks_exact(Row::WORDS) }
}

impl Iterator for Rows<'_> {
    type Item = Row;

    fn next(&mut self) -> Option<Row> {
        self.left.next().and_then(Row::from_words)
    }

    fn size_hint(&self) -> (usize, Option<usize>) {
        self.left.size_hint()
    }
}

impl ExactSizeIterator for Rows<'_> {}
