//! The platform call and requests among partners of both issues.

use super::message::ALL;
use super::operations::{DATA, SENT};
use super::partners::{self, AnyMessage, Kind, Message3, Partners, UNKNOWN};
use super::pending::Sent;
use super::platform::{Answer, Platform};
use super::replies::{Reply, Stamp, Writer};
use super::services::{self, Service, BLOCK};
use super::types::{Sections, Table};

#[derive(Clone, Copy, Debug, PartialEq, Eq)]
pub enum Heard3<'a> {
    Status {
        up: bool,
        composite: u32,
    },
    Request,
    Unknown(u32),
    PullOfAll,
    PullOfOne(u32, usize),
    NotVersionedData(u32),
    Operation {
        id: u32,
        entry: usize,
        payload: &'a [u8],
    },
    NotInTable(u32),
    Response {
        id: u32,
        entry: usize,
        payload: &'a [u8],
    },
    Services {
        count: u32,
        payload: &'a [u8],
    },
    ServicesRequest(u32),
    NotAvailable(u32),
    CompositeChange(u32),
    CompositeAck {
        agree: bool,
    },
}

#[derive(Clone, Copy, Debug, PartialEq, Eq)]
pub struct Answer3<'a> {
    pub heard: Heard3<'a>,
    pub sender: u8,
    pub sequence: u32,
    pub seconds: u32,
    pub nanoseconds: u32,
    pub written: usize,
}

#[derive(Clone, Copy, Debug, PartialEq, Eq)]
pub enum AnyAnswer<'a> {
    Six(Answer<'a>),
    Three(Answer3<'a>),
}

/// What the caller says of itself and of its partners.
#[derive(Clone, Copy)]
pub struct Among<'a> {
    pub stamp: &'a Stamp,
    pub partners: &'a Partners,
    pub ours: &'a [Service],
}

/// Where a partner's services stand, if all of them are there.
fn block<'a>(
    partners: &Partners,
    services: &'a mut [Service],
    platform: u8,
) -> Result<&'a mut [Service], u32> {
    let start = BLOCK * partners.before(platform);
    services.get_mut(start..start + BLOCK).ok_or(10)
}

/// The state of one of ours; of two with one ID the last counts.
fn ours_is_available(ours: &[Service], id: u32) -> bool {
    let last = ours.iter().rev().find(|service| service.id == id);
    last.is_some_and(Service::is_available)
}

impl Platform {
    /// One message by its sender's issue: what it was; it is noted, and the replies owed are written at the output's start.
    #[inline(never)]
    pub fn receive_mixed_in<'m>(
        &mut self,
        among: Among,
        services: &mut [Service],
        bytes: &[u8],
        sections: &Sections,
        message: &'m [u8],
        out: &mut [u8],
    ) -> Result<AnyAnswer<'m>, u32> {
        let table = Table::within(bytes, sections)?;
        match partners::read_any(self.own, among.partners, message)? {
            AnyMessage::Six(got) => Ok(AnyAnswer::Six(self.hear(&table, got, out)?)),
            AnyMessage::Three(got) => Ok(AnyAnswer::Three(
                self.hear_3(among, services, &table, got, out)?,
            )),
        }
    }

    fn hear_3<'m>(
        &mut self,
        among: Among,
        services: &mut [Service],
        table: &Table,
        got: Message3<'m>,
        out: &mut [u8],
    ) -> Result<Answer3<'m>, u32> {
        let unknown = |id| Some(Reply::Field(UNKNOWN, got.sequence, id));
        let mut turned = false;
        let (heard, reply) = match got.kind {
            Kind::Status { up, composite } => {
                turned = self.is_up(got.sender) != up;
                let owed = turned && up;
                let heard = Heard3::Status { up, composite };
                (heard, owed.then_some(Reply::StartUp(self.next)))
            }
            Kind::Request => (Heard3::Request, Some(Reply::Status(got.sequence))),
            Kind::Services(count) => {
                let payload = got.payload;
                let block = block(among.partners, services, got.sender)?;
                services::note(block, &payload[4..])?;
                (Heard3::Services { count, payload }, None)
            }
            Kind::ServicesRequest(ALL) => (
                Heard3::ServicesRequest(ALL),
                Some(Reply::Services(got.sequence)),
            ),
            Kind::ServicesRequest(id) => {
                let available = ours_is_available(among.ours, id);
                let reply = Reply::Service(got.sequence, id, available);
                (Heard3::ServicesRequest(id), Some(reply))
            }
            Kind::Unknown(id) => (Heard3::Unknown(id), None),
            Kind::NotAvailable(id) => (Heard3::NotAvailable(id), None),
            Kind::Pull(ALL) => (Heard3::PullOfAll, None),
            Kind::Pull(id) => match table.operations.find(id) {
                Some((entry, operation)) if operation.kind == DATA => {
                    (Heard3::PullOfOne(id, entry), None)
                }
                _ => (Heard3::NotVersionedData(id), unknown(id)),
            },
            Kind::CompositeChange(id) => (Heard3::CompositeChange(id), None),
            Kind::CompositeAck { agree } => (Heard3::CompositeAck { agree }, None),
            Kind::Operation(id) => {
                let payload = got.payload;
                match table.operations.find(id) {
                    Some((entry, operation)) if operation.kind == SENT => {
                        let sender = u32::from(got.sender);
                        self.pending.respond(got.sequence, id, sender)?;
                        (Heard3::Response { id, entry, payload }, None)
                    }
                    Some((entry, _)) => (Heard3::Operation { id, entry, payload }, None),
                    None => (Heard3::NotInTable(id), unknown(id)),
                }
            }
        };
        let own = self.own;
        let stamp = among.stamp;
        if turned && reply.is_none() {
            services::mark(block(among.partners, services, got.sender)?);
        }
        let written = Writer { own, stamp }.reply(reply, among.ours, out)?;
        if turned {
            self.turn(got.sender, 3);
        }
        Ok(Answer3 {
            heard,
            sender: got.sender,
            sequence: got.sequence,
            seconds: got.seconds,
            nanoseconds: got.nanoseconds,
            written,
        })
    }

    /// A request in its target's issue: 30, 62, 60, 5, 10.
    #[inline(never)]
    #[allow(clippy::too_many_arguments)]
    pub fn send_mixed(
        &mut self,
        stamp: &Stamp,
        partners: &Partners,
        bytes: &[u8],
        sections: &Sections,
        id: u32,
        target: u32,
        payload: &[u8],
        out: &mut [u8],
    ) -> Result<Sent, u32> {
        if !partners.speaks_3(target) {
            return self.send(bytes, sections, id, target, payload, out);
        }
        let own = self.own;
        self.send_as(bytes, sections, id, target, |number| {
            Writer { own, stamp }.operation(id, number, payload, out)
        })
    }
}

/// What is known of a partner's service; places that are not there count as free.
#[inline(never)]
pub fn service(partners: &Partners, services: &[Service], platform: u32, id: u32) -> u32 {
    let one = u8::try_from(platform).ok();
    let Some(one) = one.filter(|_| partners.speaks_3(platform)) else {
        return services::FREE;
    };
    let start = (BLOCK * partners.before(one)).min(services.len());
    let end = (start + BLOCK).min(services.len());
    services::state(&services[start..end], id)
}
