//! The generic header read and written: 000, Tables 2 to 4, numbers 1 to 10, R1, R4 to R6, R9.

use crate::replay::number;

/// 000's header: 20 bytes, no timestamp (R1).
pub const HEADER: usize = 20;

pub const STATUS: u32 = 1;
pub const REQUEST: u32 = 2;
pub const UNKNOWN: u32 = 3;
pub const PULL: u32 = 4;

/// The ID that names all versioned data.
pub const ALL: u32 = 0xFFFF_FFFF;

#[derive(Clone, Debug, PartialEq, Eq)]
pub enum Content {
    Status { up: bool },
    Request,
    Unknown(u32),
    Pull(u32),
    Operation { id: u32, payload: Vec<u8> },
}

#[derive(Clone, Debug, PartialEq, Eq)]
pub struct Message {
    pub from: u32,
    pub sequence: u32,
    pub content: Content,
}

/// The lowest number whose condition holds.
pub(crate) fn lowest(conditions: &[(u8, bool)]) -> Result<(), u8> {
    match conditions
        .iter()
        .filter(|(_, holds)| *holds)
        .map(|(number, _)| *number)
        .min()
    {
        Some(refusal) => Err(refusal),
        None => Ok(()),
    }
}

/// 7 to 9: what Tables 3 and 4 do not allow in domain 0.
fn platform_level(domain: u64, id: u32, payload: &[u8]) -> [(u8, bool); 3] {
    let length = match id {
        STATUS | UNKNOWN | PULL => Some(4),
        REQUEST => Some(0),
        _ => None,
    };
    let here = domain == 0;
    [
        (7, here && length.is_none()),
        (8, here && length != Some(payload.len())),
        // A status is the only field with reserved values: 2 and above.
        (
            9,
            here && id == STATUS && payload.len() == 4 && number(payload) > 1,
        ),
    ]
}

/// A message read at platform `own`.
pub fn read(own: u8, bytes: &[u8]) -> Result<Message, u8> {
    if bytes.len() < HEADER {
        return Err(1);
    }
    let (header, payload) = bytes.split_at(HEADER);
    let mark = number(&header[0..2]);
    let version = number(&header[2..3]);
    let domain = number(&header[3..4]);
    let from = number(&header[4..8]) as u32;
    let id = number(&header[8..12]) as u32;
    let size = number(&header[12..16]);
    let sequence = number(&header[16..20]) as u32;
    lowest(&[
        (2, mark != 0xEC0A),
        (3, version != 2),
        (4, domain > 1),
        (5, size != payload.len() as u64),
        // R4: this platform, and nobody else; the sender is any number of 32 bits.
        (6, from == u32::from(own)),
    ])?;
    lowest(&platform_level(domain, id, payload))?;
    let content = match (domain, id) {
        (0, STATUS) => Content::Status {
            up: number(payload) == 1,
        },
        (0, REQUEST) => Content::Request,
        (0, UNKNOWN) => Content::Unknown(number(payload) as u32),
        (0, PULL) => Content::Pull(number(payload) as u32),
        _ => Content::Operation {
            id,
            payload: payload.to_vec(),
        },
    };
    Ok(Message {
        from,
        sequence,
        content,
    })
}

/// A message written by platform `own`; `room` is how many bytes may be given back.
pub fn write(
    own: u8,
    domain: u64,
    id: u32,
    sequence: u32,
    payload: &[u8],
    room: usize,
) -> Result<Vec<u8>, u8> {
    lowest(&[(4, domain > 1), (5, payload.len() as u64 > 0xFFFF_FFFF)])?;
    lowest(&platform_level(domain, id, payload))?;
    if room < HEADER + payload.len() {
        return Err(10);
    }
    let mut out = vec![0xEC, 0x0A, 2, domain as u8, 0, 0, 0, own];
    out.extend(id.to_be_bytes());
    out.extend((payload.len() as u32).to_be_bytes());
    out.extend(sequence.to_be_bytes());
    out.extend(payload);
    Ok(out)
}
