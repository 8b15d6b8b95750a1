//! Partners of Issue 3: who speaks it, and messages read by their sender's issue.

use super::message::{self, Message, MARK};
use super::{be16, be32};

pub const HEADER: usize = 24;
pub const STATUS: u32 = 1;
pub const REQUEST: u32 = 2;
pub const SERVICES: u32 = 3;
pub const SERVICES_REQUEST: u32 = 4;
pub const UNKNOWN: u32 = 5;
pub const NOT_AVAILABLE: u32 = 6;
pub const PULL: u32 = 7;
pub const COMPOSITE_CHANGE: u32 = 8;
pub const COMPOSITE_ACK: u32 = 9;
const VERSION_3: u8 = 1;
const VERSION_6: u8 = 2;

/// Platform k speaks Issue 3 where bit k % 64 of word k / 64 is set.
#[derive(Clone, Copy, Debug, Default, PartialEq, Eq)]
pub struct Partners {
    pub words: [u64; 4],
}

#[derive(Clone, Copy, Debug, PartialEq, Eq)]
pub enum Kind {
    Status { up: bool, composite: u32 },
    Request,
    Services(u32),
    ServicesRequest(u32),
    Unknown(u32),
    NotAvailable(u32),
    Pull(u32),
    CompositeChange(u32),
    CompositeAck { agree: bool },
    Operation(u32),
}

#[derive(Clone, Copy, Debug, PartialEq, Eq)]
pub struct Message3<'a> {
    pub kind: Kind,
    pub sender: u8,
    pub sequence: u32,
    pub seconds: u32,
    pub nanoseconds: u32,
    pub payload: &'a [u8],
}

#[derive(Clone, Copy, Debug, PartialEq, Eq)]
pub enum AnyMessage<'a> {
    Six(Message<'a>),
    Three(Message3<'a>),
}

impl Partners {
    pub fn speaks_3(&self, platform: u32) -> bool {
        let word = self.words.get(platform as usize / 64);
        word.is_some_and(|word| word >> (platform % 64) & 1 == 1)
    }

    /// How many below this one speak it.
    pub fn before(&self, platform: u8) -> usize {
        let (word, bit) = (usize::from(platform / 64), platform % 64);
        let whole: u32 = self.words[..word]
            .iter()
            .map(|word| word.count_ones())
            .sum();
        (whole + (self.words[word] & ((1 << bit) - 1)).count_ones()) as usize
    }
}

#[inline(never)]
pub fn read<'a>(own: u8, partners: &Partners, message: &'a [u8]) -> Result<AnyMessage<'a>, u32> {
    read_any(own, partners, message)
}

#[inline(always)]
pub(super) fn read_any<'a>(
    own: u8,
    partners: &Partners,
    message: &'a [u8],
) -> Result<AnyMessage<'a>, u32> {
    if message.len() < message::HEADER {
        return Err(1);
    }
    if message[2] != VERSION_6 && partners.speaks_3(u32::from(message[3])) {
        return Ok(AnyMessage::Three(read_3(own, message)?));
    }
    if partners.speaks_3(be32(message, 4)) {
        return Err(if be16(message, 0) == MARK { 3 } else { 2 });
    }
    Ok(AnyMessage::Six(message::read_6(own, message)?))
}

fn read_3(own: u8, message: &[u8]) -> Result<Message3<'_>, u32> {
    if message.len() < HEADER {
        return Err(1);
    }
    let (header, payload) = message.split_at(HEADER);
    if be16(header, 0) != MARK {
        return Err(2);
    }
    if header[2] >> 4 != VERSION_3 {
        return Err(3);
    }
    let domain = header[2] & 15;
    if domain > 1 {
        return Err(4);
    }
    if be32(header, 16) as usize != payload.len() {
        return Err(5);
    }
    let sender = header[3];
    if sender == own {
        return Err(6);
    }
    Ok(Message3 {
        kind: kind(domain, be32(header, 4), payload)?,
        sender,
        sequence: be32(header, 20),
        seconds: be32(header, 8),
        nanoseconds: be32(header, 12),
        payload,
    })
}

fn kind(domain: u8, id: u32, payload: &[u8]) -> Result<Kind, u32> {
    if domain != message::PLATFORM {
        return Ok(Kind::Operation(id));
    }
    if !(STATUS..=COMPOSITE_ACK).contains(&id) {
        return Err(7);
    }
    if id == REQUEST {
        return if payload.is_empty() {
            Ok(Kind::Request)
        } else {
            Err(8)
        };
    }
    if payload.len() < 4 {
        return Err(8);
    }
    let field = be32(payload, 0);
    let right = match id {
        STATUS => 8,
        SERVICES => 4 + 8 * field as usize,
        _ => 4,
    };
    if payload.len() != right {
        return Err(8);
    }
    match id {
        STATUS | COMPOSITE_ACK if field > 1 => Err(9),
        SERVICES if payload[4..].chunks(8).any(|pair| be32(pair, 4) > 1) => Err(9),
        STATUS => Ok(Kind::Status {
            up: field == 1,
            composite: be32(payload, 4),
        }),
        SERVICES => Ok(Kind::Services(field)),
        SERVICES_REQUEST => Ok(Kind::ServicesRequest(field)),
        UNKNOWN => Ok(Kind::Unknown(field)),
        NOT_AVAILABLE => Ok(Kind::NotAvailable(field)),
        PULL => Ok(Kind::Pull(field)),
        COMPOSITE_CHANGE => Ok(Kind::CompositeChange(field)),
        _ => Ok(Kind::CompositeAck { agree: field == 1 }),
    }
}
