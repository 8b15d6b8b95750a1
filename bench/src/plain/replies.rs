//! Messages of ours for partners of Issue 3.

use super::message::{ALL, MARK, OPERATION, PLATFORM};
use super::partners::{HEADER, PULL, SERVICES, SERVICES_REQUEST, STATUS};
use super::services::Service;

/// What they say beside themselves.
#[derive(Clone, Copy, Debug, Default, PartialEq, Eq)]
pub struct Stamp {
    pub seconds: u32,
    pub nanoseconds: u32,
    pub composite: u32,
}

/// What is owed.
#[derive(Clone, Copy, Debug, PartialEq, Eq)]
pub enum Reply {
    /// Our status, under this number.
    Status(u32),
    /// A status, a request for all services and a pull of all, under this number and the next two.
    StartUp(u32),
    /// An ID, a number and one field.
    Field(u32, u32, u32),
    /// One service, and whether it is AVAILABLE.
    Service(u32, u32, bool),
    Services(u32),
}

const VERSION: u8 = 0x10;
const LARGEST: usize = 1 << 29;

fn put32(out: &mut [u8], at: usize, number: u32) {
    out[at..at + 4].copy_from_slice(&number.to_be_bytes());
}

/// Writes them from one platform.
pub struct Writer<'a> {
    pub own: u8,
    pub stamp: &'a Stamp,
}

impl Writer<'_> {
    fn head(&self, domain: u8, id: u32, size: u32, sequence: u32, out: &mut [u8]) {
        out[..2].copy_from_slice(&MARK.to_be_bytes());
        out[2] = VERSION | domain;
        out[3] = self.own;
        put32(out, 4, id);
        put32(out, 8, self.stamp.seconds);
        put32(out, 12, self.stamp.nanoseconds);
        put32(out, 16, size);
        put32(out, 20, sequence);
    }

    fn fields<const N: usize>(&self, id: u32, sequence: u32, fields: [u32; N], out: &mut [u8]) {
        self.head(PLATFORM, id, 4 * N as u32, sequence, out);
        for (place, field) in out[HEADER..].chunks_exact_mut(4).zip(fields) {
            place.copy_from_slice(&field.to_be_bytes());
        }
    }

    fn services(&self, sequence: u32, ours: &[Service], out: &mut [u8]) {
        let count = ours.len() as u32;
        self.head(PLATFORM, SERVICES, 4 + 8 * count, sequence, out);
        put32(out, HEADER, count);
        for (pair, service) in out[HEADER + 4..].chunks_exact_mut(8).zip(ours) {
            put32(pair, 0, service.id);
            put32(pair, 4, u32::from(service.is_available()));
        }
    }

    /// What is owed at the output's start, or 5 or 10 and nothing.
    pub fn reply(
        &self,
        reply: Option<Reply>,
        ours: &[Service],
        out: &mut [u8],
    ) -> Result<usize, u32> {
        let length = match reply {
            None => return Ok(0),
            Some(Reply::Status(_)) => HEADER + 8,
            Some(Reply::StartUp(_)) => 3 * HEADER + 16,
            Some(Reply::Field(..)) => HEADER + 4,
            Some(Reply::Service(..)) => HEADER + 12,
            Some(Reply::Services(_)) if ours.len() >= LARGEST => return Err(5),
            Some(Reply::Services(_)) => HEADER + 4 + 8 * ours.len(),
        };
        let out = out.get_mut(..length).ok_or(10u32)?;
        let status = [1, self.stamp.composite];
        match reply {
            Some(Reply::Status(sequence)) => self.fields(STATUS, sequence, status, out),
            Some(Reply::StartUp(next)) => {
                let (first, rest) = out.split_at_mut(HEADER + 8);
                let (second, third) = rest.split_at_mut(HEADER + 4);
                self.fields(STATUS, next, status, first);
                self.fields(SERVICES_REQUEST, next.wrapping_add(1), [ALL], second);
                self.fields(PULL, next.wrapping_add(2), [ALL], third);
            }
            Some(Reply::Field(id, sequence, field)) => self.fields(id, sequence, [field], out),
            Some(Reply::Service(sequence, id, available)) => {
                self.fields(SERVICES, sequence, [1, id, u32::from(available)], out);
            }
            Some(Reply::Services(sequence)) => self.services(sequence, ours, out),
            None => {}
        }
        Ok(length)
    }

    /// A message of an operation.
    pub fn operation(
        &self,
        id: u32,
        sequence: u32,
        payload: &[u8],
        out: &mut [u8],
    ) -> Result<usize, u32> {
        let size = u32::try_from(payload.len()).map_err(|_| 5u32)?;
        let length = HEADER + payload.len();
        let out = out.get_mut(..length).ok_or(10u32)?;
        self.head(OPERATION, id, size, sequence, out);
        out[HEADER..].copy_from_slice(payload);
        Ok(length)
    }
}
