//! The platform call among partners of both issues: 001, 6.3 and Tables 3 and 4; 02, request 8,
//! with B8, B10, B11, B16 and B18 to B26 of its reading. What a partner of Issue 6 says is answered
//! as `platform` answers it.

use crate::message3::{self, services_payload, Content, Service, Time, ALL};
use crate::mixed::{read, Message, SetUp};
use crate::platform::{self, Platform, SENT, VERSIONED};
use crate::services::{self, Services};
use crate::types::{check, Table};

#[derive(Clone, Debug, PartialEq, Eq)]
pub struct Partners {
    pub platform: Platform,
    pub set_up: SetUp,
    pub services: Services,
    /// How many words the caller lends for the services of its partners.
    pub lent: usize,
}

/// What the caller says of the moment, for all replies of one call.
#[derive(Clone, Copy, Debug, Default, PartialEq, Eq)]
pub struct Stamp {
    pub time: Time,
    /// The composite that is loaded here.
    pub composite: u32,
}

#[derive(Clone, Debug, PartialEq, Eq)]
pub enum What {
    Status {
        up: bool,
        composite: u32,
    },
    Request,
    Services(Vec<Service>),
    ServicesRequest(u32),
    Unknown(u32),
    NotAvailable(u32),
    PullAll,
    Pull(u32),
    PullUnknown(u32),
    Composite(u32),
    CompositeAck {
        agree: bool,
    },
    Operation {
        id: u32,
        payload: Vec<u8>,
    },
    OperationUnknown(u32),
    /// To the request that bore this number.
    Response {
        id: u32,
        sequence: u32,
        payload: Vec<u8>,
    },
}

/// What a partner of Issue 3 said, and the replies owed to it.
#[derive(Clone, Debug, PartialEq, Eq)]
pub struct Answer {
    pub what: What,
    pub from: u8,
    pub time: Time,
    pub owed: Vec<u8>,
}

/// An answer by its sender's issue.
#[derive(Clone, Debug, PartialEq, Eq)]
pub enum Heard {
    Six(platform::Answer),
    Three(Answer),
}

/// A reply: its ID, its sequence number and its payload.
struct Reply(u32, u32, Vec<u8>);

fn one_field(field: u32) -> Vec<u8> {
    field.to_be_bytes().to_vec()
}

impl Partners {
    /// A fresh platform, with words for the services of each three.
    pub fn new(own: u8, threes: &[u8]) -> Partners {
        let set_up = SetUp::of(threes);
        Partners {
            platform: Platform::new(own),
            lent: services::MOST * set_up.count(),
            set_up,
            services: Services::default(),
        }
    }

    /// One message: what it was, and the replies owed to its sender. `ours` are our own services,
    /// `room` is how many bytes of replies may be given back; on a refusal nothing has changed.
    pub fn call(
        &mut self,
        stamp: Stamp,
        ours: &[u64],
        table: &[u8],
        message: &[u8],
        room: usize,
    ) -> Result<Heard, u8> {
        let table = check(table)?;
        match read(self.platform.own, &self.set_up, message)? {
            Message::Six(_) => {
                let answer = self.platform.call_checked(&table, message, room)?;
                Ok(Heard::Six(answer))
            }
            Message::Three(got) => {
                let mut after = self.clone();
                let (what, replies) = after.react(stamp, &services::ours(ours), &table, &got)?;
                let answer = Answer {
                    what,
                    from: got.from,
                    time: got.time,
                    owed: self.laid(stamp.time, &replies, room)?,
                };
                *self = after;
                Ok(Heard::Three(answer))
            }
        }
    }

    /// A request to `target`, written in its issue: 02, request 8.
    pub fn send(
        &mut self,
        time: Time,
        table: &[u8],
        id: u32,
        target: u32,
        payload: &[u8],
        room: usize,
    ) -> Result<(u32, Vec<u8>), u8> {
        let platform = &mut self.platform;
        if !self.set_up.is_three(target) {
            return platform.send(table, id, target, payload, room);
        }
        let own = platform.own;
        let bytes = |sequence| message3::write(own, time, 1, id, sequence, payload, room);
        platform.send_as(table, id, target, bytes)
    }

    /// The replies, one behind another.
    fn laid(&self, time: Time, replies: &[Reply], room: usize) -> Result<Vec<u8>, u8> {
        let mut owed = Vec::new();
        for Reply(id, sequence, payload) in replies {
            let (own, left) = (self.platform.own, room - owed.len());
            owed.extend(message3::write(
                own, time, 0, *id, *sequence, payload, left,
            )?);
        }
        Ok(owed)
    }

    /// What a three's message comes to, done to `self`, and what is owed for it.
    fn react(
        &mut self,
        stamp: Stamp,
        ours: &[Service],
        table: &Table,
        got: &message3::Message,
    ) -> Result<(What, Vec<Reply>), u8> {
        let number = got.sequence;
        let silent = |what| Ok((what, vec![]));
        match &got.content {
            Content::Status { up, composite } => {
                let (up, composite) = (*up, *composite);
                let replies = self.status(stamp, got.from, up)?;
                Ok((What::Status { up, composite }, replies))
            }
            Content::Request => {
                let reply = Reply(message3::STATUS, number, status_up(stamp));
                Ok((What::Request, vec![reply]))
            }
            Content::Services(told) => {
                self.block(got.from)?;
                self.services.note(got.from, told)?;
                silent(What::Services(told.clone()))
            }
            Content::ServicesRequest(id) => {
                let reply = Reply(message3::SERVICES, number, asked_for(ours, *id)?);
                Ok((What::ServicesRequest(*id), vec![reply]))
            }
            Content::Unknown(id) => silent(What::Unknown(*id)),
            Content::NotAvailable(id) => silent(What::NotAvailable(*id)),
            Content::Pull(id) => Ok(pulled(table, number, *id)),
            Content::Composite(id) => silent(What::Composite(*id)),
            Content::CompositeAck { agree } => silent(What::CompositeAck { agree: *agree }),
            Content::Operation { id, payload } => self.operation(table, got, *id, payload.clone()),
        }
    }

    /// An operation, or a response to a request of ours.
    fn operation(
        &mut self,
        table: &Table,
        got: &message3::Message,
        id: u32,
        payload: Vec<u8>,
    ) -> Result<(What, Vec<Reply>), u8> {
        let sequence = got.sequence;
        match table.operation(id) {
            None => Ok((What::OperationUnknown(id), vec![unknown(sequence, id)])),
            Some(entry) if entry.kind != SENT => Ok((What::Operation { id, payload }, vec![])),
            Some(_) => {
                self.answered(sequence, id, got.from)?;
                let what = What::Response {
                    id,
                    sequence,
                    payload,
                };
                Ok((what, vec![]))
            }
        }
    }

    /// A status noted. DOWN to UP takes the next three own numbers (B11), in 6.3's order.
    fn status(&mut self, stamp: Stamp, from: u8, up: bool) -> Result<Vec<Reply>, u8> {
        let was_up = self.platform.is_up(u32::from(from));
        if up && !was_up {
            self.platform.others.insert(from);
            let mut draw = || self.platform.draw();
            return Ok(vec![
                Reply(message3::STATUS, draw(), status_up(stamp)),
                Reply(message3::SERVICES_REQUEST, draw(), one_field(ALL)),
                Reply(message3::PULL, draw(), one_field(ALL)),
            ]);
        }
        if !up && was_up {
            self.block(from)?;
            self.platform.others.remove(&from);
            self.services.went_down(from);
        }
        Ok(vec![])
    }

    /// B16: 10 where the words of this three's services were not all lent.
    fn block(&self, from: u8) -> Result<(), u8> {
        if self.lent < self.set_up.block_end(from) {
            return Err(10);
        }
        Ok(())
    }

    /// A response takes its request away, or it is 61; the list sees no issue.
    fn answered(&mut self, number: u32, id: u32, from: u8) -> Result<(), u8> {
        let list = &mut self.platform.list;
        let place = list.place(number).ok_or(61)?;
        if list.at(place) != (id, u64::from(from)) {
            return Err(61);
        }
        list.clear(place);
        Ok(())
    }
}

/// UP, and the composite that is loaded here (B21).
fn status_up(stamp: Stamp) -> Vec<u8> {
    let fields = [1, stamp.composite];
    fields
        .iter()
        .flat_map(|field| field.to_be_bytes())
        .collect()
}

fn unknown(sequence: u32, id: u32) -> Reply {
    Reply(message3::UNKNOWN, sequence, one_field(id))
}

/// All our services in the order lent, or the one that was asked for (B20).
fn asked_for(ours: &[Service], id: u32) -> Result<Vec<u8>, u8> {
    match id {
        ALL => services_payload(ours),
        one => services_payload(&[(one, services::own_state(ours, one))]),
    }
}

/// B22: 001 has no answer for a platform that has nothing to pull.
fn pulled(table: &Table, sequence: u32, id: u32) -> (What, Vec<Reply>) {
    match table.operation(id) {
        _ if id == ALL => (What::PullAll, vec![]),
        Some(entry) if entry.kind == VERSIONED => (What::Pull(id), vec![]),
        _ => (What::PullUnknown(id), vec![unknown(sequence, id)]),
    }
}
