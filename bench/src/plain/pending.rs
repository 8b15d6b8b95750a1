//! The requests that await their responses.

use super::message;
use super::operations::SENT;
use super::platform::Platform;
use super::types::{Sections, Table};

pub const PLACES: usize = 64;

/// A place of the list, free where the number is 0. A target above 32 bits is nobody's.
#[derive(Clone, Copy, Debug, Default, PartialEq, Eq)]
pub struct Request {
    pub number: u32,
    pub id: u32,
    pub target: u64,
}

#[derive(Clone, Debug, PartialEq, Eq)]
pub struct Pending(pub [Request; PLACES]);

#[derive(Clone, Copy, Debug, PartialEq, Eq)]
pub struct Sent {
    pub written: usize,
    pub number: u32,
}

impl Default for Pending {
    fn default() -> Pending {
        Pending([Request::default(); PLACES])
    }
}

impl Pending {
    fn first(&self, number: u32) -> Option<usize> {
        self.0.iter().position(|request| request.number == number)
    }

    pub fn place_of(&self, number: u32) -> Option<usize> {
        if number == 0 {
            None
        } else {
            self.first(number)
        }
    }

    /// The first number from this one on, going round, that is neither 0 nor pending.
    fn next_free(&self, mut number: u32) -> u32 {
        while number == 0 || self.first(number).is_some() {
            number = number.wrapping_add(1);
        }
        number
    }

    /// Frees the place of the request to which a message with this number and ID from this sender is the response.
    pub fn respond(&mut self, number: u32, id: u32, sender: u32) -> Result<(), u32> {
        let place = self.place_of(number).ok_or(61u32)?;
        let request = &mut self.0[place];
        if request.id != id || request.target != u64::from(sender) {
            return Err(61);
        }
        *request = Request::default();
        Ok(())
    }
}

impl Platform {
    /// Writes a request at the output's start, and enters it among those that are pending: 30, 62, 60, 5, 10.
    #[inline(never)]
    pub fn send(
        &mut self,
        bytes: &[u8],
        sections: &Sections,
        id: u32,
        target: u32,
        payload: &[u8],
        out: &mut [u8],
    ) -> Result<Sent, u32> {
        let own = self.own;
        self.send_as(bytes, sections, id, target, |number| {
            message::write(own, message::OPERATION, id, number, payload, out)
        })
    }

    /// The same with the request written otherwise, under its number.
    #[inline(always)]
    pub(super) fn send_as(
        &mut self,
        bytes: &[u8],
        sections: &Sections,
        id: u32,
        target: u32,
        write: impl FnOnce(u32) -> Result<usize, u32>,
    ) -> Result<Sent, u32> {
        let table = Table::within(bytes, sections)?;
        match table.operations.find(id) {
            Some((_, operation)) if operation.kind == SENT => {}
            _ => return Err(62),
        }
        let place = self.pending.first(0).ok_or(60u32)?;
        let number = self.pending.next_free(self.next);
        let written = write(number)?;
        self.pending.0[place] = Request {
            number,
            id,
            target: u64::from(target),
        };
        self.next = number.wrapping_add(1);
        Ok(Sent { written, number })
    }

    /// Gives a request up; whether it was pending.
    #[inline(never)]
    pub fn cancel(&mut self, number: u32) -> bool {
        let place = self.pending.place_of(number);
        if let Some(place) = place {
            self.pending.0[place] = Request::default();
        }
        place.is_some()
    }

    /// What is pending under a number.
    #[inline(never)]
    pub fn pending(&self, number: u32) -> Option<Request> {
        self.pending.place_of(number).map(|k| self.pending.0[k])
    }
}
