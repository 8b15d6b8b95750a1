//! Payloads to words and back. What is refused changes nothing, so a payload is walked twice: once to judge it and to
//! learn its length, and once, where nothing is refused, to store it.

pub use super::packing::pack_in;
pub use super::unpacking::unpack_in;

use super::types::{Entry, Table};

/// A refusal: its number, and of 40 to 43 where.
#[derive(Clone, Copy, Debug, PartialEq, Eq)]
pub struct Refused {
    pub number: u32,
    pub spot: Option<Spot>,
}

/// The byte, or packing the word, at which the refused leaf or count begins, or the first left over; and the leaves before it,
/// counts of arrays among them.
#[derive(Clone, Copy, Debug, PartialEq, Eq)]
pub struct Spot {
    pub at: usize,
    pub leaves: usize,
}

impl From<u32> for Refused {
    fn from(number: u32) -> Refused {
        Refused { number, spot: None }
    }
}

impl Spot {
    /// Of the numbers that a walk gives 32, an entry that breaks a rule, has no place.
    pub(super) fn refused(self, number: u32) -> Refused {
        Refused {
            number,
            spot: (number != 32).then_some(self),
        }
    }
}

#[inline(always)]
pub(super) fn entry_of(table: &Table, i: usize) -> Result<Entry, u32> {
    let e = table.entry(i);
    if table.fields_ok(i, &e) {
        Ok(e)
    } else {
        Err(32)
    }
}

/// A number from inside another type: it has to be smaller.
pub(super) fn smaller(child: u16, i: usize) -> Result<usize, u32> {
    let child = usize::from(child);
    if child < i {
        Ok(child)
    } else {
        Err(32)
    }
}
