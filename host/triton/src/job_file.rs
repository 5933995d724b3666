//! Document 01's job file: records of kinds 11 to 17.
use crate::frame::{put, words, Fault, Frames};
use crate::job::{Opening, Slot};

/// A job, and its budget, as a file says them.
#[derive(Clone, Debug, PartialEq, Eq)]
pub struct JobFile {
    /// For [`Job::open`](crate::Job::open).
    pub opening: Opening,
    /// The most steps to take.
    pub budget: u32,
}

impl JobFile {
    /// A longer file is broken.
    pub const MOST_BYTES: usize = 65_536;
    /// One with more is broken.
    pub const MOST_SLOTS: usize = 1_024;
    /// The budget where a file says none; [`write`](Self::write) names it too.
    pub const BUDGET: u32 = 16_000_000;

    /// Reads a file, or says where it is broken: document 01's number 50. Whether its job opens is for
    /// [`Job::open`](crate::Job::open) to say.
    pub fn read(file: &[u8]) -> Result<JobFile, Fault> {
        if file.len() > Self::MOST_BYTES {
            return Err(too_long());
        }
        let mut opening = Opening::default();
        let mut budget = None;
        let mut count = 0;
        for fields in Frames::new(file, length_of) {
            let mut fields = fields?;
            let (at, kind) = (fields.at, fields.kind);
            if (kind == 11) != (count == 0) {
                return Err(Fault::new(at, "the first record, and no other, is the digest, of kind 11"));
            }
            count += 1;
            match kind {
                11 => opening.digest = fields.words(),
                12 if opening.program.len() == Self::MOST_SLOTS => return Err(too_many_slots(at)),
                12 => opening.program.push(Slot { opcode: fields.short().into(), argument: fields.word() }),
                13 => opening.public_input.push(fields.word()),
                14 => opening.secret_input.push(fields.word()),
                15 => opening.secret_digests.push(fields.words()),
                16 => opening.ram.push((fields.word(), fields.word())),
                _ if budget.is_some() => return Err(Fault::new(at, "a second budget")),
                _ => budget = Some(fields.long()),
            }
        }
        if count == 0 {
            return Err(Fault::new(0, "the file is empty, a digest is needed"));
        }
        Ok(JobFile { opening, budget: budget.unwrap_or(Self::BUDGET) })
    }

    /// The file: digest, slots, inputs, RAM, budget. What [`read`](Self::read) gives back; a fault where there is no such file,
    /// since it would be too long or an opcode has more than two bytes.
    pub fn write(&self) -> Result<Vec<u8>, Fault> {
        let opening = &self.opening;
        let mut file = vec![];
        put(&mut file, 11, &[&words(&opening.digest)]);
        for (i, slot) in opening.program.iter().enumerate() {
            let Ok(opcode) = u16::try_from(slot.opcode) else {
                return Err(Fault::new(file.len(), format!("an opcode is at most 65535, found {} in slot {i}", slot.opcode)));
            };
            if i == Self::MOST_SLOTS {
                return Err(too_many_slots(file.len()));
            }
            put(&mut file, 12, &[&opcode.to_le_bytes(), &slot.argument.to_le_bytes()]);
        }
        opening.public_input.iter().for_each(|word| put(&mut file, 13, &[&word.to_le_bytes()]));
        opening.secret_input.iter().for_each(|word| put(&mut file, 14, &[&word.to_le_bytes()]));
        opening.secret_digests.iter().for_each(|digest| put(&mut file, 15, &[&words(digest)]));
        opening.ram.iter().for_each(|&(address, value)| put(&mut file, 16, &[&words(&[address, value])]));
        put(&mut file, 17, &[&self.budget.to_le_bytes()]);
        if file.len() > Self::MOST_BYTES {
            return Err(too_long());
        }
        Ok(file)
    }
}

fn too_long() -> Fault {
    Fault::new(JobFile::MOST_BYTES, format!("a job file has at most {} bytes, this one has more", JobFile::MOST_BYTES))
}

fn too_many_slots(at: usize) -> Fault {
    Fault::new(at, format!("a program has at most {} slots, this one has more", JobFile::MOST_SLOTS))
}

/// How many bytes the fields of a kind have.
fn length_of(kind: u16) -> Option<usize> {
    [40, 10, 8, 8, 40, 16, 4].get(usize::from(kind).wrapping_sub(11)).copied()
}
