//! Why a payload or words are refused, and where.

use crate::{Walked, ARRAY_COUNT, INPUT_SHORT, OK};
use std::error::Error;
use std::fmt::{Display, Formatter, Result as Shown};

/// A refusal of unpacking or packing: its number, and where it is of 40 to 43.
#[derive(Clone, Copy, Debug, PartialEq, Eq)]
pub struct Refused {
    pub number: u32,
    /// With `INPUT_SHORT`, `INPUT_LEFT`, `VALUE` and `ARRAY_COUNT`, and with no other number.
    pub spot: Option<Spot>,
}

/// Where a payload or words are refused.
#[derive(Clone, Copy, Debug, PartialEq, Eq)]
pub struct Spot {
    /// The byte of the payload, or packing the word, at which the refused leaf or count begins; of `INPUT_LEFT` the first left over.
    pub at: usize,
    /// How many leaves come before it, each array's count among them.
    pub leaves: usize,
}

impl Walked {
    /// What a call of that number has written here: how many words or bytes were given, or where they were refused.
    #[inline]
    pub(crate) fn told(&self, number: u32) -> Result<usize, Refused> {
        if number == OK {
            return Ok(self.given as usize);
        }
        let spot = (INPUT_SHORT..=ARRAY_COUNT)
            .contains(&number)
            .then_some(Spot {
                at: self.at as usize,
                leaves: self.leaves as usize,
            });
        Err(Refused { number, spot })
    }
}

impl Display for Refused {
    fn fmt(&self, out: &mut Formatter) -> Shown {
        write!(out, "refused {}", self.number)?;
        match self.spot {
            Some(spot) => write!(out, " at {}, after {} leaves", spot.at, spot.leaves),
            None => Ok(()),
        }
    }
}

impl Error for Refused {}
