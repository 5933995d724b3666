//! The frame that a call log and a job file share: a length of what follows it, a kind, fields, all little-endian.
use std::error::Error;
use std::fmt::{Display, Formatter, Result as Formatted};

/// Puts a record behind the others.
///
/// # Panics
///
/// Where the fields have more than 65,533 bytes, whose length does not fit into a record's two bytes.
pub fn put(bytes: &mut Vec<u8>, kind: u16, fields: &[&[u8]]) {
    let length: usize = fields.iter().map(|field| field.len()).sum();
    let length = u16::try_from(length + 2).expect("a record has at most 65,533 bytes of fields");
    bytes.extend(length.to_le_bytes());
    bytes.extend(kind.to_le_bytes());
    fields.iter().for_each(|field| bytes.extend(*field));
}

/// Eight bytes for each word.
pub fn words(words: &[u64]) -> Vec<u8> {
    words.iter().flat_map(|word| word.to_le_bytes()).collect()
}

/// What is wrong with a log or a job file, and where.
#[derive(Clone, Debug, PartialEq, Eq)]
pub struct Fault {
    /// The byte at which the record begins.
    pub at: usize,
    /// In words, without the place.
    pub what: String,
}

impl Fault {
    pub(crate) fn new(at: usize, what: impl Into<String>) -> Fault {
        Fault { at, what: what.into() }
    }
}

impl Display for Fault {
    fn fmt(&self, f: &mut Formatter) -> Formatted {
        write!(f, "byte {}: {}", self.at, self.what)
    }
}

impl Error for Fault {}

/// A record's kind, and its fields, which are taken from the front.
pub(crate) struct Fields<'a> {
    pub at: usize,
    pub kind: u16,
    left: &'a [u8],
}

impl Fields<'_> {
    /// The next bytes; the kind's length has been checked.
    fn take<const N: usize>(&mut self) -> [u8; N] {
        let (front, left) = self.left.split_first_chunk().expect("as many bytes as the kind's fields have");
        self.left = left;
        *front
    }

    pub fn byte(&mut self) -> u8 {
        let [byte] = self.take();
        byte
    }

    pub fn short(&mut self) -> u16 {
        u16::from_le_bytes(self.take())
    }

    pub fn long(&mut self) -> u32 {
        u32::from_le_bytes(self.take())
    }

    pub fn word(&mut self) -> u64 {
        u64::from_le_bytes(self.take())
    }

    pub fn words<const N: usize>(&mut self) -> [u64; N] {
        std::array::from_fn(|_| self.word())
    }
}

/// The records of some bytes, where `length_of` gives the length of a kind's fields. It ends behind the first fault.
pub(crate) struct Frames<'a> {
    bytes: &'a [u8],
    at: usize,
    length_of: fn(u16) -> Option<usize>,
}

impl<'a> Frames<'a> {
    pub fn new(bytes: &'a [u8], length_of: fn(u16) -> Option<usize>) -> Frames<'a> {
        Frames { bytes, at: 0, length_of }
    }

    fn next_fields(&mut self) -> Result<Fields<'a>, Fault> {
        let at = self.at;
        let left = &self.bytes[at..];
        let &[a, b, c, d, ..] = left else {
            return Err(Fault::new(at, format!("a record begins with four bytes, found {}", left.len())));
        };
        let (length, kind) = (u16::from_le_bytes([a, b]) as usize, u16::from_le_bytes([c, d]));
        let Some(fields) = (self.length_of)(kind) else {
            return Err(Fault::new(at, format!("{kind} is no record's kind")));
        };
        if length != fields + 2 {
            return Err(Fault::new(at, format!("a record of kind {kind} has length {}, found {length}", fields + 2)));
        }
        let Some(fields) = left.get(4..fields + 4) else {
            let what = format!("a record of kind {kind} has {} bytes, found {}", fields + 4, left.len());
            return Err(Fault::new(at, what));
        };
        self.at += fields.len() + 4;
        Ok(Fields { at, kind, left: fields })
    }
}

impl<'a> Iterator for Frames<'a> {
    type Item = Result<Fields<'a>, Fault>;

    fn next(&mut self) -> Option<Self::Item> {
        if self.at == self.bytes.len() {
            return None;
        }
        let next = self.next_fields();
        if next.is_err() {
            self.at = self.bytes.len();
        }
        Some(next)
    }
}
