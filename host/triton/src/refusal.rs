//! Why a call is turned down: the numbers of documents 01 and 02 under their names.
use crate::instructions::Named;
use std::error::Error;
use std::fmt::{Display, Formatter, Result};

/// Why a call was turned down. The names of 3, 4 and 10 to 23 are those of the original Rust's `InstructionError` and of the
/// `OpStackError` within it (12, there `TooShallow`, and 13); it has none for the others. `Display` says what was wanted and, where
/// the refusal carries it, what was found. Later requests add numbers, and so cases.
///
/// ```
/// use kixombu::Refusal;
///
/// let refusal = Refusal::AssertionFailed { expected: 1, actual: 2 };
/// assert_eq!(refusal.number(), 18);
/// assert_eq!(refusal.words(), [1, 2, 0]);
/// assert_eq!(refusal.to_string(), "AssertionFailed (18): assert needs 1 on top of the stack, found 2");
/// ```
#[derive(Clone, Copy, Debug, PartialEq, Eq, Hash)]
#[non_exhaustive]
pub enum Refusal {
    /// 1, place A: a slice over the limit or of a length that does not fit.
    BadShape,
    /// 2, place A: a number that is no word.
    NotAWord,
    /// 3, place A: a slot whose opcode is no instruction's.
    InvalidOpcode,
    /// 4, place A: an argument that its instruction does not take, or a revision of the log that there is not.
    IllegalArgument,
    /// 5, place A: a count outside its slice, an unused word that is not 0, RAM's cells not ascending by address, for which
    /// [`OutOfOrder`](crate::OutOfOrder) says where.
    BadState,

    /// 10: there is no step behind a halt.
    MachineHalted,
    /// 11: the pointer is outside the program; also of skiz with nothing behind it, which has dropped its word.
    InstructionPointerOverflow,
    /// 12: fewer than sixteen words would be left.
    OpStackTooShallow,

    /// 13: the word that is no u32.
    FailedU32Conversion(u64),
    /// 14: how many words are left.
    EmptyPublicInput(u64),
    /// 15: how many words are left.
    EmptySecretInput(u64),
    /// 16: no secret digest is left.
    EmptySecretDigestInput,
    /// 17: return and recurse need an entry.
    JumpStackIsEmpty,
    /// 18: of assert.
    AssertionFailed {
        /// Always 1.
        expected: u64,
        /// The word on top of the stack.
        actual: u64,
    },
    /// 19: of assert_vector.
    VectorAssertionFailed {
        /// The first place at which the two differ, from 0 to 4.
        index: u64,
        /// The word at that place.
        expected: u64,
        /// The word five places below.
        actual: u64,
    },
    /// 20: of invert and x_invert.
    InverseOfZero,
    /// 21: of div_mod.
    DivisionByZero,
    /// 22: of log_2_floor.
    LogarithmOfZero,
    /// 23: sponge_init must come before.
    SpongeNotInitialized,

    /// 30: more words than were lent.
    OpStackFull,
    /// 31: more entries than were lent.
    JumpStackFull,
    /// 32: more cells than were lent.
    RamFull,
    /// 33: more words than were lent.
    OutputFull,
    /// 34: after 4,294,967,295 steps there is no further one.
    ClockAtEnd,

    /// 40, replay: a record cut short, of an unknown kind or another length, with a bad direction or a number that is no word.
    RecordBroken,
    /// 41, replay: a record whose clock is below that of one before it.
    ClockFalls,
    /// 42, replay: a stack record whose pointer does not go with the depth.
    PointerDiffers,
    /// 43, replay: a read whose value is not the one held there.
    ReadDiffers,
    /// 44, replay: no word or cell left for a write.
    SliceFull,
    /// 45, replay: a record that no step can have written beside those of its clock before it: a stack record that goes the other
    /// way, or the eleventh of the stack or of RAM.
    NotOneStep,

    /// 50: no call's; a job file that is broken.
    JobFileBroken,

    /// 64, behind place A: a fee table of over 64 rows, or with a row whose lowest opcode is above its highest;
    /// [`FeeTable::check`](crate::FeeTable::check) says which.
    BadFeeTable,
    /// 65, behind place A: the lowest opcode that lies in no row of the fee table.
    OpcodeWithoutFee(u64),
    /// 66, behind place A: the lowest opcode that lies in two rows of the fee table or more;
    /// [`FeeTable::check`](crate::FeeTable::check) says in which.
    OpcodeWithTwoFees(u64),

    /// A number that this crate does not know, of a library with more refusals.
    Unknown {
        /// As the library gave it.
        number: u64,
        /// The three words with it.
        words: [u64; 3],
    },
}

use Refusal::*;

impl Refusal {
    /// The refusal of a number and the three words that come with it; none for 0.
    pub fn new(number: u64, words: [u64; 3]) -> Option<Refusal> {
        Some(match number {
            1 => BadShape,
            2 => NotAWord,
            3 => InvalidOpcode,
            4 => IllegalArgument,
            5 => BadState,
            10 => MachineHalted,
            11 => InstructionPointerOverflow,
            12 => OpStackTooShallow,
            13 => FailedU32Conversion(words[0]),
            14 => EmptyPublicInput(words[0]),
            15 => EmptySecretInput(words[0]),
            16 => EmptySecretDigestInput,
            17 => JumpStackIsEmpty,
            18 => AssertionFailed { expected: words[0], actual: words[1] },
            19 => VectorAssertionFailed { index: words[0], expected: words[1], actual: words[2] },
            20 => InverseOfZero,
            21 => DivisionByZero,
            22 => LogarithmOfZero,
            23 => SpongeNotInitialized,
            30 => OpStackFull,
            31 => JumpStackFull,
            32 => RamFull,
            33 => OutputFull,
            34 => ClockAtEnd,
            40 => RecordBroken,
            41 => ClockFalls,
            42 => PointerDiffers,
            43 => ReadDiffers,
            44 => SliceFull,
            45 => NotOneStep,
            50 => JobFileBroken,
            64 => BadFeeTable,
            65 => OpcodeWithoutFee(words[0]),
            66 => OpcodeWithTwoFees(words[0]),
            0 => return None,
            _ => Unknown { number, words },
        })
    }

    /// The documents' number.
    pub fn number(self) -> u64 {
        self.number_and_name().0
    }

    /// The name, without the words.
    pub fn name(self) -> &'static str {
        self.number_and_name().1
    }

    fn number_and_name(self) -> (u64, &'static str) {
        match self {
            BadShape => (1, "BadShape"),
            NotAWord => (2, "NotAWord"),
            InvalidOpcode => (3, "InvalidOpcode"),
            IllegalArgument => (4, "IllegalArgument"),
            BadState => (5, "BadState"),
            MachineHalted => (10, "MachineHalted"),
            InstructionPointerOverflow => (11, "InstructionPointerOverflow"),
            OpStackTooShallow => (12, "OpStackTooShallow"),
            FailedU32Conversion(_) => (13, "FailedU32Conversion"),
            EmptyPublicInput(_) => (14, "EmptyPublicInput"),
            EmptySecretInput(_) => (15, "EmptySecretInput"),
            EmptySecretDigestInput => (16, "EmptySecretDigestInput"),
            JumpStackIsEmpty => (17, "JumpStackIsEmpty"),
            AssertionFailed { .. } => (18, "AssertionFailed"),
            VectorAssertionFailed { .. } => (19, "VectorAssertionFailed"),
            InverseOfZero => (20, "InverseOfZero"),
            DivisionByZero => (21, "DivisionByZero"),
            LogarithmOfZero => (22, "LogarithmOfZero"),
            SpongeNotInitialized => (23, "SpongeNotInitialized"),
            OpStackFull => (30, "OpStackFull"),
            JumpStackFull => (31, "JumpStackFull"),
            RamFull => (32, "RamFull"),
            OutputFull => (33, "OutputFull"),
            ClockAtEnd => (34, "ClockAtEnd"),
            RecordBroken => (40, "RecordBroken"),
            ClockFalls => (41, "ClockFalls"),
            PointerDiffers => (42, "PointerDiffers"),
            ReadDiffers => (43, "ReadDiffers"),
            SliceFull => (44, "SliceFull"),
            NotOneStep => (45, "NotOneStep"),
            JobFileBroken => (50, "JobFileBroken"),
            BadFeeTable => (64, "BadFeeTable"),
            OpcodeWithoutFee(_) => (65, "OpcodeWithoutFee"),
            OpcodeWithTwoFees(_) => (66, "OpcodeWithTwoFees"),
            Unknown { number, .. } => (number, "Unknown"),
        }
    }

    /// The three words that it carries, zeros where it carries none.
    pub fn words(self) -> [u64; 3] {
        match self {
            FailedU32Conversion(word) => [word, 0, 0],
            EmptyPublicInput(left) | EmptySecretInput(left) => [left, 0, 0],
            OpcodeWithoutFee(opcode) | OpcodeWithTwoFees(opcode) => [opcode, 0, 0],
            AssertionFailed { expected, actual } => [expected, actual, 0],
            VectorAssertionFailed { index, expected, actual } => [index, expected, actual],
            Unknown { words, .. } => words,
            _ => [0; 3],
        }
    }
}

impl Display for Refusal {
    fn fmt(&self, f: &mut Formatter) -> Result {
        write!(f, "{} ({}): ", self.name(), self.number())?;
        match *self {
            BadShape => write!(f, "a slice has more than 16,777,216 elements or a length that does not fit"),
            NotAWord => write!(f, "words must be below 2^64 - 2^32 + 1, found one that is not"),
            InvalidOpcode => write!(f, "a slot's opcode is no instruction's"),
            IllegalArgument => {
                write!(f, "a slot's argument is none that its instruction takes, or the log's revision is not 1 or 2")
            }
            BadState => write!(f, "a count outside its slice, an unused word that is not 0, or RAM's cells not ascending"),
            MachineHalted => write!(f, "the machine has halted and takes no further step"),
            InstructionPointerOverflow => write!(f, "an instruction is needed, found the program's end"),
            OpStackTooShallow => write!(f, "the stack must keep sixteen words, the instruction would leave fewer"),
            FailedU32Conversion(word) => write!(f, "a word below 2^32 is needed, found {word}"),
            EmptyPublicInput(left) => write!(f, "more public input is needed than the {left} words left"),
            EmptySecretInput(left) => write!(f, "more secret input is needed than the {left} words left"),
            EmptySecretDigestInput => write!(f, "a secret digest is needed, found none left"),
            JumpStackIsEmpty => write!(f, "an entry of the jump stack is needed, found it empty"),
            AssertionFailed { expected, actual } => {
                write!(f, "assert needs {expected} on top of the stack, found {actual}")
            }
            VectorAssertionFailed { index, expected, actual } => {
                let below = index.saturating_add(5);
                write!(f, "assert_vector needs ST{below} equal to ST{index}, which is {expected}, found {actual}")
            }
            InverseOfZero => write!(f, "an inverse is needed, found 0, which has none"),
            DivisionByZero => write!(f, "a divisor other than 0 is needed, found 0"),
            LogarithmOfZero => write!(f, "a logarithm needs a word other than 0, found 0"),
            SpongeNotInitialized => write!(f, "sponge_init is needed before the sponge is used"),
            OpStackFull => write!(f, "the op stack needs more words than were lent"),
            JumpStackFull => write!(f, "the jump stack needs more entries than were lent"),
            RamFull => write!(f, "RAM needs more cells than were lent"),
            OutputFull => write!(f, "the output needs more words than were lent"),
            ClockAtEnd => write!(f, "the clock is at 4,294,967,295 and goes no further"),
            RecordBroken => write!(f, "a record is cut short, or its kind, length, direction or a word is not as it must be"),
            ClockFalls => write!(f, "a record's clock must not be below that of one before it"),
            PointerDiffers => write!(f, "a stack record's pointer does not go with the depth"),
            ReadDiffers => write!(f, "a read must have the value held there, found another"),
            SliceFull => write!(f, "a write needs a word or a cell more than were lent"),
            NotOneStep => write!(f, "the records of one clock must be at most ten of the stack, all one way, and ten of RAM"),
            JobFileBroken => write!(f, "the job file is broken"),
            BadFeeTable => write!(f, "a fee table has at most 64 rows, and none with its lowest opcode above its highest"),
            OpcodeWithoutFee(opcode) => {
                write!(f, "every opcode must lie in a row of the fee table, found {} in none", Named(opcode))
            }
            OpcodeWithTwoFees(opcode) => {
                write!(f, "an opcode must lie in one row of the fee table, found {} in two or more", Named(opcode))
            }
            Unknown { words: [a, b, c], .. } => {
                write!(f, "a refusal that this crate does not know, with the words {a}, {b}, {c}")
            }
        }
    }
}

impl Error for Refusal {}

#[cfg(test)]
mod tests {
    use super::Refusal;

    /// Document 01's table, and 45 and 64 to 66 of document 02.
    #[rustfmt::skip]
    const NUMBERS: [u64; 34] = [
        1, 2, 3, 4, 5, 10, 11, 12, 13, 14, 15, 16, 17, 18, 19, 20, 21, 22, 23, 30, 31, 32, 33, 34, 40, 41, 42, 43, 44, 45, 50, 64, 65, 66,
    ];

    #[test]
    fn numbers_and_words_come_back() {
        for number in 0..100 {
            let refusal = Refusal::new(number, [7, 8, 9]);
            assert_eq!(refusal.is_some(), number != 0, "{number}");
            let is_known = refusal.is_some_and(|refusal| !matches!(refusal, Refusal::Unknown { .. }));
            assert_eq!(is_known, NUMBERS.contains(&number), "{number}");
            if let Some(refusal) = refusal {
                assert_eq!(refusal.number(), number);
                assert_eq!(format!("{refusal:?}").split(['(', ' ']).next(), Some(refusal.name()));
                assert_eq!(Refusal::new(number, refusal.words()), Some(refusal));
            }
        }
        let unknown = Refusal::new(u64::MAX, [7, 8, 9]).unwrap();
        assert_eq!((unknown.number(), unknown.words()), (u64::MAX, [7, 8, 9]));
        let text = "Unknown (18446744073709551615): a refusal that this crate does not know, with the words 7, 8, 9";
        assert_eq!(unknown.to_string(), text);
    }

    /// Which refusals carry words is document 01's place C, and document 02's fee table.
    #[test]
    fn words_are_carried_as_said() {
        for number in NUMBERS {
            let carried = match number {
                13..=15 | 65 | 66 => [7, 0, 0],
                18 => [7, 8, 0],
                19 => [7, 8, 9],
                _ => [0; 3],
            };
            assert_eq!(Refusal::new(number, [7, 8, 9]).unwrap().words(), carried, "{number}");
        }
    }

    #[test]
    fn texts_have_name_number_and_words() {
        let mut texts = vec![];
        for number in NUMBERS {
            let refusal = Refusal::new(number, [7, 8_888, 9_999]).unwrap();
            let text = refusal.to_string();
            assert!(text.starts_with(&format!("{} ({number}): ", refusal.name())), "{text}");
            let behind = text.split(": ").nth(1).unwrap();
            for word in refusal.words().into_iter().filter(|word| *word != 0) {
                assert!(behind.contains(&word.to_string()), "{text} has not {word}");
            }
            texts.push(behind.to_string());
        }
        texts.sort();
        texts.dedup();
        assert_eq!(texts.len(), NUMBERS.len(), "two refusals have one text");
    }

    #[test]
    fn texts_of_those_with_words() {
        let text = |number, words| Refusal::new(number, words).unwrap().to_string();
        assert_eq!(text(13, [1 << 32, 0, 0]), "FailedU32Conversion (13): a word below 2^32 is needed, found 4294967296");
        assert_eq!(text(14, [2, 0, 0]), "EmptyPublicInput (14): more public input is needed than the 2 words left");
        assert_eq!(
            text(19, [1, 12, 13]),
            "VectorAssertionFailed (19): assert_vector needs ST6 equal to ST1, which is 12, found 13"
        );
        let every = "every opcode must lie in a row of the fee table";
        assert_eq!(text(65, [0; 3]), format!("OpcodeWithoutFee (65): {every}, found 0 (halt) in none"));
        let one = "an opcode must lie in one row of the fee table";
        assert_eq!(text(66, [8, 0, 0]), format!("OpcodeWithTwoFees (66): {one}, found 8 (nop) in two or more"));
        // the library names none that is no opcode
        assert_eq!(text(66, [7, 0, 0]), format!("OpcodeWithTwoFees (66): {one}, found 7 in two or more"));
    }
}
