//! Platform states and replies: 01, "Platform states and replies", 000, 6.3 and 6.4, with R4, R7,
//! R8 and R28 to R30. Requests and their responses: 02, request 1.

use crate::message::{read, write, Content, ALL, PULL, STATUS, UNKNOWN};
use crate::pending::Pending;
use crate::types::{check, Table};
use std::collections::BTreeSet;

#[derive(Clone, Debug, PartialEq, Eq)]
pub struct Platform {
    pub own: u8,
    /// The others that are UP. This platform needs no entry: it always is (R28).
    pub others: BTreeSet<u8>,
    /// The next own sequence number.
    pub next: u32,
    /// The requests that are pending.
    pub list: Pending,
}

#[derive(Clone, Debug, PartialEq, Eq)]
pub enum What {
    Status {
        up: bool,
    },
    Request,
    Unknown(u32),
    PullAll,
    Pull(u32),
    PullUnknown(u32),
    /// Kind 3 too: a request that we serve goes to its component as in 01.
    Operation {
        id: u32,
        payload: Vec<u8>,
    },
    OperationUnknown(u32),
    /// To the request that bore this number.
    Response {
        id: u32,
        sequence: u32,
        payload: Vec<u8>,
    },
}

#[derive(Clone, Debug, PartialEq, Eq)]
pub struct Answer {
    pub what: What,
    pub from: u32,
    pub owed: Vec<u8>,
}

const UP: u32 = 1;

/// The kind of versioned data, and of an operation whose requests we send.
pub(crate) const VERSIONED: u16 = 1;
pub(crate) const SENT: u16 = 2;

impl Platform {
    pub fn new(own: u8) -> Platform {
        Platform {
            own,
            others: BTreeSet::new(),
            next: 0,
            list: Pending::of(&[]),
        }
    }

    /// R4: states are kept of the 256, and any other number is DOWN.
    pub fn is_up(&self, platform: u32) -> bool {
        u8::try_from(platform).is_ok_and(|one| one == self.own || self.others.contains(&one))
    }

    /// How many of the 256 are UP, this one counted.
    pub fn count(&self) -> usize {
        (0..=255).filter(|platform| self.is_up(*platform)).count()
    }

    /// One message: what it was, and the replies owed to its sender. `room` is how many bytes of
    /// replies may be given back; on a refusal nothing has changed.
    pub fn call(&mut self, table: &[u8], message: &[u8], room: usize) -> Result<Answer, u8> {
        let table = check(table)?;
        self.call_checked(&table, message, room)
    }

    pub fn call_checked(
        &mut self,
        table: &Table,
        message: &[u8],
        room: usize,
    ) -> Result<Answer, u8> {
        let got = read(self.own, message)?;
        // A reply is its ID, its sequence number and the one field of its payload.
        let mut replies: Vec<(u32, u32, u32)> = Vec::new();
        let mut after = self.clone();
        let what = match got.content {
            Content::Status { up } => {
                let was_up = self.is_up(got.from);
                // R4: a platform above 255 is heard, nothing is noted and nothing owed.
                if let Ok(one) = u8::try_from(got.from) {
                    if up && !was_up {
                        after.others.insert(one);
                        replies.push((STATUS, after.draw(), UP));
                        replies.push((PULL, after.draw(), ALL));
                    }
                    if !up {
                        after.others.remove(&one);
                    }
                }
                What::Status { up }
            }
            Content::Request => {
                replies.push((STATUS, got.sequence, UP));
                What::Request
            }
            Content::Unknown(id) => What::Unknown(id),
            Content::Pull(id) => {
                let versioned = |op: &&crate::types::Operation| op.kind == VERSIONED;
                let here = table
                    .operations
                    .iter()
                    .filter(versioned)
                    .any(|op| id == ALL || op.id == id);
                match (here, id) {
                    (true, ALL) => What::PullAll,
                    (true, _) => What::Pull(id),
                    (false, _) => {
                        replies.push((UNKNOWN, got.sequence, id));
                        What::PullUnknown(id)
                    }
                }
            }
            Content::Operation { id, payload } => match table.operation(id) {
                Some(entry) if entry.kind == SENT => {
                    let sequence = got.sequence;
                    let place = self.list.place(sequence).ok_or(61)?;
                    if self.list.at(place) != (id, u64::from(got.from)) {
                        return Err(61);
                    }
                    after.list.clear(place);
                    What::Response {
                        id,
                        sequence,
                        payload,
                    }
                }
                Some(_) => What::Operation { id, payload },
                None => {
                    replies.push((UNKNOWN, got.sequence, id));
                    What::OperationUnknown(id)
                }
            },
        };
        let mut owed = Vec::new();
        for (id, sequence, field) in replies {
            let left = room - owed.len();
            owed.extend(write(
                self.own,
                0,
                id,
                sequence,
                &field.to_be_bytes(),
                left,
            )?);
        }
        *self = after;
        Ok(Answer {
            what,
            from: got.from,
            owed,
        })
    }

    /// A request to `target`, entered in the list: its number and its bytes. `room` is how many
    /// may be given back; on a refusal nothing has changed.
    pub fn send(
        &mut self,
        table: &[u8],
        id: u32,
        target: u32,
        payload: &[u8],
        room: usize,
    ) -> Result<(u32, Vec<u8>), u8> {
        let own = self.own;
        let bytes = |sequence| write(own, 1, id, sequence, payload, room);
        self.send_as(table, id, target, bytes)
    }

    /// The same with the request's bytes made otherwise, of its number.
    pub(crate) fn send_as(
        &mut self,
        table: &[u8],
        id: u32,
        target: u32,
        bytes: impl FnOnce(u32) -> Result<Vec<u8>, u8>,
    ) -> Result<(u32, Vec<u8>), u8> {
        let table = check(table)?;
        if table.operation(id).map(|entry| entry.kind) != Some(SENT) {
            return Err(62);
        }
        let place = self.list.free().ok_or(60)?;
        let sequence = self.list.next_free(self.next);
        let bytes = bytes(sequence)?;
        self.list.enter(place, sequence, id, target);
        // Numbers that were passed over are not offered again before the round is over.
        self.next = sequence;
        self.draw();
        Ok((sequence, bytes))
    }

    /// Gives up a request; whether its number was pending.
    pub fn cancel(&mut self, sequence: u32) -> bool {
        let place = self.list.place(sequence);
        place.iter().for_each(|place| self.list.clear(*place));
        place.is_some()
    }

    /// The next own number; after 0xFFFFFFFF comes 0.
    pub(crate) fn draw(&mut self) -> u32 {
        let number = self.next;
        self.next = if number == 0xFFFF_FFFF { 0 } else { number + 1 };
        number
    }
}
