//! Issue 3's generic header read and written: 001, Tables 1 to 4, numbers 1 to 10; 02, request 8,
//! with B4 to B7 and B12 to B14 of its reading.

use crate::message::lowest;
use crate::replay::number;

/// 001's header: 24 bytes, with a timestamp.
pub const HEADER: usize = 24;

// 001, Table 3.
pub const STATUS: u32 = 1;
pub const REQUEST: u32 = 2;
pub const SERVICES: u32 = 3;
pub const SERVICES_REQUEST: u32 = 4;
pub const UNKNOWN: u32 = 5;
pub const NOT_AVAILABLE: u32 = 6;
pub const PULL: u32 = 7;
pub const COMPOSITE: u32 = 8;
pub const COMPOSITE_ACK: u32 = 9;

/// The ID that names all services, or all versioned data.
pub const ALL: u32 = 0xFFFF_FFFF;

/// A service's ID, and whether it is AVAILABLE.
pub type Service = (u32, bool);

#[derive(Clone, Debug, PartialEq, Eq)]
pub enum Content {
    Status { up: bool, composite: u32 },
    Request,
    Services(Vec<Service>),
    ServicesRequest(u32),
    Unknown(u32),
    NotAvailable(u32),
    Pull(u32),
    Composite(u32),
    CompositeAck { agree: bool },
    Operation { id: u32, payload: Vec<u8> },
}

/// A timestamp: any two numbers (B10).
#[derive(Clone, Copy, Debug, Default, PartialEq, Eq)]
pub struct Time {
    pub seconds: u32,
    pub nanoseconds: u32,
}

#[derive(Clone, Debug, PartialEq, Eq)]
pub struct Message {
    /// 001, Table 2: 8 bits.
    pub from: u8,
    pub time: Time,
    pub sequence: u32,
    pub content: Content,
}

/// A payload's fields, each of 32 bits.
fn fields(payload: &[u8]) -> Vec<u32> {
    let each = payload.chunks_exact(4);
    each.map(|four| number(four) as u32).collect()
}

/// The pairs of an AVAILABILITY_STATUS, behind their count.
fn pairs(payload: &[u8]) -> Vec<(u32, u32)> {
    let fields = fields(payload);
    let each = fields[1..].chunks_exact(2);
    each.map(|pair| (pair[0], pair[1])).collect()
}

/// How long 001's Table 4 has a payload, or nothing for an ID that Table 3 has not.
fn length(id: u32, payload: &[u8]) -> Option<u64> {
    match id {
        STATUS => Some(8),
        REQUEST => Some(0),
        // B13, as numbers without end: 2^29 services are not 4 bytes.
        SERVICES => Some(4 + 8 * payload.get(..4).map_or(0, number)),
        SERVICES_REQUEST..=COMPOSITE_ACK => Some(4),
        _ => None,
    }
}

/// Whether a field has a value that Table 4 reserves; the payload has its length.
fn reserved(id: u32, payload: &[u8]) -> bool {
    match id {
        STATUS | COMPOSITE_ACK => fields(payload)[0] > 1,
        SERVICES => pairs(payload).iter().any(|(_, state)| *state > 1),
        _ => false,
    }
}

/// 7 to 9: what Tables 3 and 4 do not allow in domain 0.
fn platform_level(domain: u64, id: u32, payload: &[u8]) -> Result<(), u8> {
    if domain != 0 {
        return Ok(());
    }
    let length = length(id, payload).ok_or(7)?;
    if length != payload.len() as u64 {
        return Err(8);
    }
    if reserved(id, payload) {
        return Err(9);
    }
    Ok(())
}

/// A message in Issue 3's form read at platform `own`.
pub fn read(own: u8, bytes: &[u8]) -> Result<Message, u8> {
    if bytes.len() < HEADER {
        return Err(1);
    }
    let (header, payload) = bytes.split_at(HEADER);
    let field = |at: usize| number(&header[at..at + 4]) as u32;
    let mark = number(&header[..2]);
    // B6: the version is the upper half.
    let (version, domain) = (header[2] / 16, u64::from(header[2] % 16));
    let (from, id, size) = (header[3], field(4), field(16));
    lowest(&[
        (2, mark != 0xEC0A),
        (3, version != 1),
        (4, domain > 1),
        (5, u64::from(size) != payload.len() as u64),
        (6, from == own),
    ])?;
    platform_level(domain, id, payload)?;
    Ok(Message {
        from,
        time: Time {
            seconds: field(8),
            nanoseconds: field(12),
        },
        sequence: field(20),
        content: content(domain, id, payload),
    })
}

/// What a message that is not refused says.
fn content(domain: u64, id: u32, payload: &[u8]) -> Content {
    if domain == 1 {
        let payload = payload.to_vec();
        return Content::Operation { id, payload };
    }
    let fields = fields(payload);
    match id {
        STATUS => Content::Status {
            up: fields[0] == 1,
            composite: fields[1],
        },
        REQUEST => Content::Request,
        SERVICES => {
            let pairs = pairs(payload).into_iter();
            Content::Services(pairs.map(|(id, state)| (id, state == 1)).collect())
        }
        SERVICES_REQUEST => Content::ServicesRequest(fields[0]),
        UNKNOWN => Content::Unknown(fields[0]),
        NOT_AVAILABLE => Content::NotAvailable(fields[0]),
        PULL => Content::Pull(fields[0]),
        COMPOSITE => Content::Composite(fields[0]),
        _ => Content::CompositeAck {
            agree: fields[0] == 1,
        },
    }
}

/// A message written by platform `own` for a partner of Issue 3; `room` is how many bytes may be
/// given back.
pub fn write(
    own: u8,
    time: Time,
    domain: u64,
    id: u32,
    sequence: u32,
    payload: &[u8],
    room: usize,
) -> Result<Vec<u8>, u8> {
    lowest(&[(4, domain > 1), (5, payload.len() as u64 > 0xFFFF_FFFF)])?;
    platform_level(domain, id, payload)?;
    if room < HEADER + payload.len() {
        return Err(10);
    }
    let mut out = vec![0xEC, 0x0A, 16 + domain as u8, own];
    let size = payload.len() as u32;
    for field in [id, time.seconds, time.nanoseconds, size, sequence] {
        out.extend(field.to_be_bytes());
    }
    out.extend(payload);
    Ok(out)
}

/// The payload of an AVAILABILITY_STATUS, or 5 where the size field cannot say its length (B25).
pub fn services_payload(services: &[Service]) -> Result<Vec<u8>, u8> {
    let count = services_count(services.len() as u64)?;
    let mut out = count.to_be_bytes().to_vec();
    for (id, available) in services {
        out.extend(id.to_be_bytes());
        out.extend(u32::from(*available).to_be_bytes());
    }
    Ok(out)
}

/// So many services as the field that counts them: 2^29 and more pass the size field.
pub(crate) fn services_count(count: u64) -> Result<u32, u8> {
    if 4 + 8 * count > 0xFFFF_FFFF {
        return Err(5);
    }
    Ok(count as u32)
}
