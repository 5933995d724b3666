//! The revisions of a call log.
use crate::exports::step_bytes;
use std::fmt::{Display, Formatter, Result};

/// Which records a call log has. An opening chooses it, and replay is told it.
///
/// ```
/// use kixombu::Revision;
///
/// assert_eq!(Revision::default(), Revision::One);
/// assert_eq!((Revision::new(2), Revision::new(3)), (Some(Revision::Two), None));
/// assert_eq!(Revision::ALL.map(Revision::step_bytes), [1024, 1028]);
/// ```
#[derive(Clone, Copy, Debug, Default, PartialEq, Eq, Hash)]
#[non_exhaustive]
pub enum Revision {
    /// Kinds 1 to 5.
    #[default]
    One,
    /// Kinds 1 and 4 to 7: Tip5 and U32 records have a clock.
    Two,
}

impl Revision {
    /// All that there are.
    pub const ALL: [Revision; 2] = [Revision::One, Revision::Two];

    /// The revision of a number, if there is one.
    pub fn new(number: u64) -> Option<Revision> {
        Revision::ALL.into_iter().find(|revision| revision.number() == number)
    }

    /// As the calls take it.
    pub fn number(self) -> u64 {
        match self {
            Revision::One => 1,
            Revision::Two => 2,
        }
    }

    /// The most bytes that one step records.
    pub fn step_bytes(self) -> usize {
        step_bytes(self.number())
    }
}

/// The number.
impl Display for Revision {
    fn fmt(&self, f: &mut Formatter) -> Result {
        self.number().fmt(f)
    }
}
