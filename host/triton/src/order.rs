//! The order of RAM's cells.
use std::error::Error;
use std::fmt::{Display, Formatter, Result as Formatted};

/// A cell of RAM that is not above the one before it: why an opening, or a replay from it, is refused with 5.
///
/// ```
/// use kixombu::OutOfOrder;
///
/// let found = OutOfOrder::first(&[(5, 7), (3, 8)]).unwrap();
/// assert_eq!((found.place, found.address, found.before), (1, 3, 5));
/// assert_eq!(found.to_string(), "RAM's cells must ascend by address, found 3 behind 5 at cell 1, counted from 0");
/// assert_eq!(OutOfOrder::first(&[(3, 8), (5, 7)]), None);
/// ```
#[derive(Clone, Copy, Debug, PartialEq, Eq, Hash)]
pub struct OutOfOrder {
    /// Which cell it is, counted from 0.
    pub place: usize,
    /// Its address.
    pub address: u64,
    /// The address of the cell before it: as large, or larger.
    pub before: u64,
}

impl OutOfOrder {
    /// The first such cell; none where the cells, address and value, ascend.
    pub fn first(cells: &[(u64, u64)]) -> Option<OutOfOrder> {
        let place = cells.windows(2).position(|pair| pair[0].0 >= pair[1].0)? + 1;
        Some(OutOfOrder { place, address: cells[place].0, before: cells[place - 1].0 })
    }
}

impl Display for OutOfOrder {
    fn fmt(&self, f: &mut Formatter) -> Formatted {
        let OutOfOrder { place, address, before } = self;
        write!(f, "RAM's cells must ascend by address, found {address} behind {before} at cell {place}, counted from 0")
    }
}

impl Error for OutOfOrder {}
