//! Platform states and replies.

use super::message::{self, Kind, Message, ALL, PLATFORM, PULL, STATUS, UNKNOWN};
use super::operations::{DATA, SENT};
use super::pending::Pending;
use super::types::{Sections, Table};

#[derive(Clone, Debug, PartialEq, Eq)]
pub struct Platform {
    pub own: u8,
    pub up: [u64; 4],
    pub next: u32,
    pub pending: Pending,
}

#[derive(Clone, Copy, Debug, PartialEq, Eq)]
pub enum Heard<'a> {
    Status {
        up: bool,
    },
    Request,
    Unknown(u32),
    PullOfAll,
    PullOfOne(u32, usize),
    NotVersionedData(u32),
    Operation {
        id: u32,
        entry: usize,
        payload: &'a [u8],
    },
    NotInTable(u32),
    Response {
        id: u32,
        entry: usize,
        payload: &'a [u8],
    },
}

#[derive(Clone, Copy, Debug, PartialEq, Eq)]
pub struct Answer<'a> {
    pub heard: Heard<'a>,
    pub sender: u32,
    pub sequence: u32,
    pub written: usize,
}

/// A reply's ID, sequence number and the one field of its payload.
type Reply = (u32, u32, u32);

const REPLY: usize = message::HEADER + 4;

impl Platform {
    pub fn new(own: u8) -> Platform {
        let mut platform = Platform {
            own,
            up: [0; 4],
            next: 0,
            pending: Pending::default(),
        };
        platform.up[usize::from(own / 64)] = 1 << (own % 64);
        platform
    }

    pub fn is_up(&self, platform: u8) -> bool {
        platform == self.own || self.up[usize::from(platform / 64)] >> (platform % 64) & 1 == 1
    }

    pub fn how_many_up(&self) -> u32 {
        let ones: u32 = self.up.iter().map(|word| word.count_ones()).sum();
        let own = self.up[usize::from(self.own / 64)] >> (self.own % 64) & 1;
        ones + u32::from(own == 0)
    }

    /// One message: what it was; the state is noted, and the replies owed to its sender are written at the output's start. A
    /// response's request is pending no more.
    #[inline(never)]
    pub fn receive_in<'m>(
        &mut self,
        bytes: &[u8],
        sections: &Sections,
        message: &'m [u8],
        out: &mut [u8],
    ) -> Result<Answer<'m>, u32> {
        let table = Table::within(bytes, sections)?;
        let got = message::read(self.own, message)?;
        self.hear(&table, got, out)
    }

    /// The same of a message that was read.
    #[inline(always)]
    pub(super) fn hear<'m>(
        &mut self,
        table: &Table,
        got: Message<'m>,
        out: &mut [u8],
    ) -> Result<Answer<'m>, u32> {
        // Whose state changes: a platform above 255 has none.
        let turned = match got.kind {
            Kind::Status { up } => u8::try_from(got.sender)
                .ok()
                .filter(|sender| self.is_up(*sender) != up),
            _ => None,
        };
        let none = |heard| (heard, [None, None]);
        let one = |heard, id, field| (heard, [Some((id, got.sequence, field)), None]);
        let (heard, replies): (Heard, [Option<Reply>; 2]) = match got.kind {
            Kind::Status { up: true } if turned.is_some() => (
                Heard::Status { up: true },
                [
                    Some((STATUS, self.next, 1)),
                    Some((PULL, self.next.wrapping_add(1), ALL)),
                ],
            ),
            Kind::Status { up } => none(Heard::Status { up }),
            Kind::Request => one(Heard::Request, STATUS, 1),
            Kind::Unknown(id) => none(Heard::Unknown(id)),
            Kind::Pull(ALL) if table.operations.has_data() => none(Heard::PullOfAll),
            Kind::Pull(ALL) => one(Heard::NotVersionedData(ALL), UNKNOWN, ALL),
            Kind::Pull(id) => match table.operations.find(id) {
                Some((entry, operation)) if operation.kind == DATA => {
                    none(Heard::PullOfOne(id, entry))
                }
                _ => one(Heard::NotVersionedData(id), UNKNOWN, id),
            },
            Kind::Operation(id) => match table.operations.find(id) {
                Some((entry, operation)) if operation.kind == SENT => {
                    self.pending.respond(got.sequence, id, got.sender)?;
                    none(Heard::Response {
                        id,
                        entry,
                        payload: got.payload,
                    })
                }
                Some((entry, _)) => none(Heard::Operation {
                    id,
                    entry,
                    payload: got.payload,
                }),
                None => one(Heard::NotInTable(id), UNKNOWN, id),
            },
        };
        let written = REPLY * replies.iter().flatten().count();
        if out.len() < written {
            return Err(10);
        }
        for (place, (id, sequence, field)) in
            out.chunks_exact_mut(REPLY).zip(replies.iter().flatten())
        {
            message::write(
                self.own,
                PLATFORM,
                *id,
                *sequence,
                &field.to_be_bytes(),
                place,
            )?;
        }
        if let Some(sender) = turned {
            self.turn(sender, 2);
        }
        Ok(Answer {
            heard,
            sender: got.sender,
            sequence: got.sequence,
            written,
        })
    }

    /// DOWN to UP has drawn so many own numbers.
    pub(super) fn turn(&mut self, sender: u8, drawn: u32) {
        self.up[usize::from(sender / 64)] ^= 1 << (sender % 64);
        if self.is_up(sender) {
            self.next = self.next.wrapping_add(drawn);
        }
    }
}
