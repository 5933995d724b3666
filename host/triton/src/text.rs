//! Job files from text.
//!
//! A text has one item to a line or between semicolons; `#` begins a remark and -1 stands for p - 1:
//!
//! ```text
//! digest 1 2 3 4 5; public 7 8; secret 9; ram 10 99; budget 100
//! push 3; call loop; halt
//! loop: addi -1; dup 0; skiz; recurse; return
//! ```
//!
//! The digest comes first. An instruction gives as many slots as it is long. A name with a colon stands for the slot that comes
//! next; `call` takes such a name or a slot's number. Further items are `secret_digest` (five words), `slot` (opcode and argument,
//! as they are) and `byte` (a byte as it is, for a broken file). The addresses of `ram` ascend; nothing sorts them.
use crate::frame::{put, words};
use crate::instructions::{decode, named, Instruction};
use crate::job_file::JobFile;
use crate::P;
use std::cmp::Ordering;
use std::collections::HashMap;
use std::error::Error;
use std::fmt::{Display, Formatter, Result as Formatted};

/// What is wrong with a text, at which word of which line.
#[derive(Clone, Debug, PartialEq, Eq)]
pub struct TextFault {
    /// Counted from 1.
    pub line: usize,
    /// The word, or the item where it lacks one; empty where the text has none.
    pub word: String,
    /// In words, without the place.
    pub what: String,
}

impl Display for TextFault {
    fn fmt(&self, f: &mut Formatter) -> Formatted {
        match self.word.as_str() {
            "" => write!(f, "line {}: {}", self.line, self.what),
            // a word may have letters that are not seen
            word => write!(f, "line {}, `{}`: {}", self.line, word.escape_debug(), self.what),
        }
    }
}

impl Error for TextFault {}

/// A job file made from text.
#[derive(Clone, Debug, Default, PartialEq, Eq)]
pub struct Made {
    /// Its bytes, for [`JobFile::read`].
    pub file: Vec<u8>,
    /// What the file has as the text says it, but no job with it opens.
    pub warnings: Vec<TextFault>,
}

/// Makes a job file, its records in the text's order.
///
/// ```
/// use kixombu::text::make;
/// use kixombu::JobFile;
///
/// let made = make("digest 1 2 3 4 5; push 3; push 4; add; write_io 1; halt").unwrap();
/// assert_eq!(JobFile::read(&made.file).unwrap().opening.program.len(), 8);
/// let fault = make("digest 1 2 3 4 5\npush 3; ad").unwrap_err();
/// assert_eq!(fault.to_string(), "line 2, `ad`: no item or instruction has this name");
/// ```
pub fn make(text: &str) -> Result<Made, TextFault> {
    let mut maker = Maker::default();
    for (line, words) in text.lines().enumerate() {
        let words = words.split('#').next().unwrap_or_default();
        for item in words.split(';') {
            maker.item(Item { line: line + 1, words: item.split_whitespace().collect() })?;
        }
    }
    maker.finish()
}

/// An item's words, its name first.
struct Item<'a> {
    line: usize,
    words: Vec<&'a str>,
}

impl<'a> Item<'a> {
    fn fault<T>(&self, word: &str, what: impl Into<String>) -> Result<T, TextFault> {
        Err(TextFault { line: self.line, word: word.to_string(), what: what.into() })
    }

    /// The words behind the name, which must be so many.
    fn exactly(&self, wanted: usize) -> Result<&[&'a str], TextFault> {
        let found = self.words.len() - 1;
        if found == wanted {
            return Ok(&self.words[1..]);
        }
        self.fault(&self.words.join(" "), format!("{} takes {}, found {found}", self.words[0], counted(wanted)))
    }

    /// A word; -1 is p - 1.
    fn number(&self, word: &str) -> Result<u64, TextFault> {
        let digits = word.strip_prefix('-').unwrap_or(word);
        if digits.is_empty() || !digits.bytes().all(|digit| digit.is_ascii_digit()) {
            return self.fault(word, "a number is needed");
        }
        let Ok(number) = digits.parse::<u64>() else {
            return self.fault(word, "a number must fit in 64 bits");
        };
        match word.starts_with('-') {
            false => Ok(number),
            true => Ok((P - number % P) % P),
        }
    }

    /// A number that is no word's and has a limit.
    fn up_to(&self, word: &str, most: u64) -> Result<u64, TextFault> {
        match self.number(word)? {
            number if number <= most && !word.starts_with('-') => Ok(number),
            _ => self.fault(word, format!("{} takes a number from 0 to {most}", self.words[0])),
        }
    }

    fn numbers(&self, wanted: usize) -> Result<Vec<u64>, TextFault> {
        self.exactly(wanted)?.iter().map(|word| self.number(word)).collect()
    }
}

fn counted(n: usize) -> String {
    match n {
        0 => "no word behind it".to_string(),
        1 => "1 word behind it".to_string(),
        _ => format!("{n} words behind it"),
    }
}

/// Where a label is to be put in: the record's argument, of `call`'s first slot.
struct Call {
    line: usize,
    label: String,
    at: usize,
}

#[derive(Default)]
struct Maker {
    made: Made,
    slots: u64,
    /// The slot, and the line that says it.
    labels: HashMap<String, (u64, usize)>,
    calls: Vec<Call>,
    /// The last RAM address, and the line that says it.
    last_cell: Option<(u64, usize)>,
    has_digest: bool,
    has_budget: bool,
    is_too_long: bool,
}

/// Length 2, kind 2, opcode 2, argument 8.
const SLOT_BYTES: usize = 14;
const ARGUMENT_AT: usize = 6;

impl Maker {
    fn item(&mut self, mut item: Item) -> Result<(), TextFault> {
        while let Some(label) = item.words.first().and_then(|word| word.strip_suffix(':')) {
            self.label(&item, label)?;
            item.words.remove(0);
        }
        let Some(&name) = item.words.first() else {
            return Ok(());
        };
        match named(name) {
            _ if !self.has_digest && name != "digest" => item.fault(name, "the first item must be the digest"),
            Some(instruction) => self.instruction(&item, instruction),
            None => self.record(&item, name),
        }?;
        self.warn_of_words(&item);
        self.warn_of_length(&item);
        Ok(())
    }

    /// An item that is no instruction.
    fn record(&mut self, item: &Item, name: &str) -> Result<(), TextFault> {
        let file = &mut self.made.file;
        match name {
            "digest" if self.has_digest => return item.fault(name, "there is one digest, the first item"),
            "digest" => {
                put(file, 11, &[&words(&item.numbers(5)?)]);
                self.has_digest = true;
            }
            "public" | "secret" => {
                let kind = if name == "public" { 13 } else { 14 };
                for word in &item.words[1..] {
                    put(file, kind, &[&item.number(word)?.to_le_bytes()]);
                }
            }
            "secret_digest" => put(file, 15, &[&words(&item.numbers(5)?)]),
            "ram" => {
                let cell = item.numbers(2)?;
                put(file, 16, &[&words(&cell)]);
                if let Some((address, line)) = self.last_cell.replace((cell[0], item.line)) {
                    self.warn_of_order(item, cell[0], address, line);
                }
            }
            "budget" if self.has_budget => return item.fault(name, "there is at most one budget"),
            "budget" => {
                let budget = item.up_to(item.exactly(1)?[0], u32::MAX.into())?;
                put(file, 17, &[&(budget as u32).to_le_bytes()]);
                self.has_budget = true;
            }
            "byte" => file.push(item.up_to(item.exactly(1)?[0], u8::MAX.into())? as u8),
            "slot" => {
                let [opcode, argument] = *item.exactly(2)? else { unreachable!() };
                let (opcode, argument) = (item.up_to(opcode, u16::MAX.into())?, item.number(argument)?);
                self.put_slots(opcode, argument, 1);
                match decode(opcode) {
                    Some(instruction) => self.warn_of_argument(item, instruction, argument),
                    None => self.warn(item.line, item.words[1], "no instruction has this opcode; open refuses it with 3"),
                }
            }
            _ => return item.fault(name, "no item or instruction has this name"),
        }
        Ok(())
    }

    fn label(&mut self, item: &Item, label: &str) -> Result<(), TextFault> {
        if !is_label(label) {
            return item.fault(&format!("{label}:"), "a label is of letters, digits and _, and begins with no digit");
        }
        if let Some((_, line)) = self.labels.insert(label.to_string(), (self.slots, item.line)) {
            return item.fault(&format!("{label}:"), format!("line {line} has this label already"));
        }
        Ok(())
    }

    fn instruction(&mut self, item: &Item, instruction: &Instruction) -> Result<(), TextFault> {
        let size = instruction.size();
        let argument = match *item.exactly(size as usize - 1)? {
            [label] if instruction.name == "call" && is_label(label) => {
                self.calls.push(Call { line: item.line, label: label.to_string(), at: self.made.file.len() });
                0
            }
            [word] => item.number(word)?,
            _ => 0,
        };
        self.put_slots(instruction.opcode, argument, size);
        self.warn_of_argument(item, instruction, argument);
        Ok(())
    }

    fn put_slots(&mut self, opcode: u64, argument: u64, size: u64) {
        for _ in 0..size {
            put(&mut self.made.file, 12, &[&(opcode as u16).to_le_bytes(), &argument.to_le_bytes()]);
        }
        self.slots += size;
    }

    fn warn(&mut self, line: usize, word: &str, what: impl Into<String>) {
        self.made.warnings.push(TextFault { line, word: word.to_string(), what: what.into() });
    }

    /// The argument is the item's last word.
    fn warn_of_argument(&mut self, item: &Item, instruction: &Instruction, argument: u64) {
        if argument < P && !instruction.allows(argument) {
            let what = format!("{} does not take this argument; open refuses it with 4", instruction.name);
            self.warn(item.line, item.words[item.words.len() - 1], what);
        }
    }

    /// A cell's address, and that of the cell before it.
    fn warn_of_order(&mut self, item: &Item, address: u64, before: u64, line: usize) {
        let what = match address.cmp(&before) {
            Ordering::Greater => return,
            Ordering::Equal => format!("line {line} has this address already"),
            Ordering::Less => format!("ram's addresses ascend, and line {line} has {before}"),
        };
        self.warn(item.line, item.words[1], format!("{what}; open refuses it with 5"));
    }

    fn warn_of_words(&mut self, item: &Item) {
        for word in item.words[1..].iter().filter(|word| item.number(word).is_ok_and(|number| number >= P)) {
            self.warn(item.line, word, format!("words are below {P}; open refuses it with 2"));
        }
    }

    fn warn_of_length(&mut self, item: &Item) {
        let (bytes, slots) = (JobFile::MOST_BYTES, JobFile::MOST_SLOTS);
        if !self.is_too_long && (self.made.file.len() > bytes || self.slots > slots as u64) {
            self.is_too_long = true;
            let what = format!("a job file has at most {bytes} bytes and {slots} slots; reading it is refused with 50");
            self.warn(item.line, item.words[0], what);
        }
    }

    /// Puts the labels' slots in.
    fn finish(mut self) -> Result<Made, TextFault> {
        for call in std::mem::take(&mut self.calls) {
            let Some((slot, _)) = self.labels.get(&call.label) else {
                let what = format!("no line has the label `{}:`", call.label);
                return Err(TextFault { line: call.line, word: call.label, what });
            };
            for record in [call.at, call.at + SLOT_BYTES] {
                let argument = record + ARGUMENT_AT;
                self.made.file[argument..argument + 8].copy_from_slice(&slot.to_le_bytes());
            }
        }
        if !self.has_digest {
            return Err(TextFault { line: 1, word: String::new(), what: "the text has no item, a digest is needed".to_string() });
        }
        Ok(self.made)
    }
}

fn is_label(word: &str) -> bool {
    let allowed = |byte: u8| byte.is_ascii_alphanumeric() || byte == b'_';
    word.bytes().all(allowed) && word.bytes().next().is_some_and(|byte| !byte.is_ascii_digit())
}
