//! ELI messages read and written.

use super::{be16, be32};

pub const HEADER: usize = 20;
pub const ALL: u32 = 0xFFFF_FFFF;
pub const STATUS: u32 = 1;
pub const REQUEST: u32 = 2;
pub const UNKNOWN: u32 = 3;
pub const PULL: u32 = 4;
pub const PLATFORM: u8 = 0;
pub const OPERATION: u8 = 1;
pub const MARK: u16 = 0xEC0A;
const VERSION: u8 = 2;

#[derive(Clone, Copy, Debug, PartialEq, Eq)]
pub enum Kind {
    Status { up: bool },
    Request,
    Unknown(u32),
    Pull(u32),
    Operation(u32),
}

#[derive(Clone, Copy, Debug, PartialEq, Eq)]
pub struct Message<'a> {
    pub kind: Kind,
    pub sender: u32,
    pub sequence: u32,
    pub payload: &'a [u8],
}

#[inline(never)]
pub fn read(own: u8, message: &[u8]) -> Result<Message<'_>, u32> {
    read_6(own, message)
}

#[inline(always)]
pub(super) fn read_6(own: u8, message: &[u8]) -> Result<Message<'_>, u32> {
    if message.len() < HEADER {
        return Err(1);
    }
    let (header, payload) = message.split_at(HEADER);
    if be16(header, 0) != MARK {
        return Err(2);
    }
    if header[2] != VERSION {
        return Err(3);
    }
    let domain = header[3];
    if domain > 1 {
        return Err(4);
    }
    if be32(header, 12) as usize != payload.len() {
        return Err(5);
    }
    let sender = be32(header, 4);
    if sender == u32::from(own) {
        return Err(6);
    }
    Ok(Message {
        kind: kind(domain, be32(header, 8), payload)?,
        sender,
        sequence: be32(header, 16),
        payload,
    })
}

fn kind(domain: u8, id: u32, payload: &[u8]) -> Result<Kind, u32> {
    if domain != PLATFORM {
        return Ok(Kind::Operation(id));
    }
    if !(STATUS..=PULL).contains(&id) {
        return Err(7);
    }
    if payload.len() != if id == REQUEST { 0 } else { 4 } {
        return Err(8);
    }
    if id == REQUEST {
        return Ok(Kind::Request);
    }
    let field = be32(payload, 0);
    match id {
        STATUS if field > 1 => Err(9),
        STATUS => Ok(Kind::Status { up: field == 1 }),
        UNKNOWN => Ok(Kind::Unknown(field)),
        _ => Ok(Kind::Pull(field)),
    }
}

pub fn write(
    own: u8,
    domain: u8,
    id: u32,
    sequence: u32,
    payload: &[u8],
    out: &mut [u8],
) -> Result<usize, u32> {
    if domain > 1 {
        return Err(4);
    }
    let size = u32::try_from(payload.len()).map_err(|_| 5u32)?;
    kind(domain, id, payload)?;
    let total = HEADER + payload.len();
    let out = out.get_mut(..total).ok_or(10u32)?;
    out[..2].copy_from_slice(&MARK.to_be_bytes());
    out[2] = VERSION;
    out[3] = domain;
    out[4..8].copy_from_slice(&u32::from(own).to_be_bytes());
    out[8..12].copy_from_slice(&id.to_be_bytes());
    out[12..16].copy_from_slice(&size.to_be_bytes());
    out[16..20].copy_from_slice(&sequence.to_be_bytes());
    out[20..].copy_from_slice(payload);
    Ok(total)
}
