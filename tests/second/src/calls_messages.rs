//! Messages good and bad, and calls 1 and 2 on them.

use crate::calls_compose::{room, Call};
use crate::prng::Prng;

/// A message's fields as they go out; nothing keeps them from being wrong.
#[derive(Clone)]
pub struct Fields {
    pub mark: u16,
    pub version: u8,
    pub domain: u8,
    pub from: u32,
    pub id: u32,
    pub sequence: u32,
    pub payload: Vec<u8>,
    /// What the size field says beyond the payload's length.
    pub lie: i64,
}

impl Fields {
    pub fn new(domain: u8, from: u32, id: u32, sequence: u32, payload: Vec<u8>) -> Fields {
        Fields {
            mark: 0xEC0A,
            version: 2,
            domain,
            from,
            id,
            sequence,
            payload,
            lie: 0,
        }
    }

    pub fn bytes(&self) -> Vec<u8> {
        let size = (self.payload.len() as i64 + self.lie) as u32;
        let first = u32::from(self.mark) << 16 | u32::from(self.version) << 8;
        let mut out = Vec::new();
        for field in [
            first | u32::from(self.domain),
            self.from,
            self.id,
            size,
            self.sequence,
        ] {
            out.extend(field.to_be_bytes());
        }
        out.extend(&self.payload);
        out
    }
}

pub fn sequence(rng: &mut Prng) -> u32 {
    rng.pick(&[0, 1, 7, 0x7FFF_FFFF, 0x8000_0000, 0xFFFF_FFFE, 0xFFFF_FFFF])
}

/// A good message from this sender; operations and pulls draw from these IDs.
pub fn good(rng: &mut Prng, from: u32, ids: &[u32]) -> Fields {
    let id = match rng.below(6) {
        0 => rng.pick(&[0, 1, 0xFFFF_FFFF, 0xFFFF_FFFE]),
        1 => rng.draw() as u32,
        _ => rng.pick(ids),
    };
    let number = sequence(rng);
    let field = |value: u32| value.to_be_bytes().to_vec();
    match rng.below(10) {
        0 | 1 => Fields::new(0, from, 1, number, field(1)),
        2 => Fields::new(0, from, 1, number, field(0)),
        3 => Fields::new(0, from, 2, number, vec![]),
        4 => Fields::new(0, from, 3, number, field(id)),
        5 => Fields::new(0, from, 4, number, field(0xFFFF_FFFF)),
        6 | 7 => Fields::new(0, from, 4, number, field(id)),
        _ => {
            let length = rng.pick(&[0, 0, 1, 2, 4, 20, 60]);
            Fields::new(1, from, id, number, rng.bytes(length))
        }
    }
}

/// A message's bytes, one field or more of it wrong.
pub fn spoilt(rng: &mut Prng, own: u8, mut fields: Fields) -> Vec<u8> {
    for _ in 0..rng.pick(&[1, 1, 1, 2]) {
        match rng.below(12) {
            0 => fields.mark = rng.pick(&[0xEC0B, 0x0AEC, 0, 0xEC00, 0x0C0A, 0xFFFF]),
            1 => fields.version = rng.pick(&[0, 1, 3, 0x82, 255]),
            2 => fields.domain = rng.pick(&[2, 3, 15, 16, 128, 255]),
            3 => fields.lie = rng.pick(&[-1, 1, 4, -4, 20, 1 << 16, 1 << 24]),
            4 => fields.from = u32::from(own),
            // R4: above 255, which refuses nothing; its low byte may be another platform's, or ours.
            5 => fields.from |= rng.pick(&[1 << 8, 1 << 16, 1 << 31]),
            6 => {
                fields.domain = 0;
                fields.id = rng.pick(&[0, 5, 6, 257, 0xFFFF_FFFF, 1 << 24]);
            }
            7 => {
                fields.domain = 0;
                fields.id = rng.from_to(1, 4) as u32;
                let length = rng.pick(&[0, 1, 3, 4, 5, 8]);
                fields.payload = rng.bytes(length);
            }
            8 => {
                (fields.domain, fields.id) = (0, 1);
                let status: u32 = rng.pick(&[2, 3, 256, 0x0100_0001, 0xFFFF_FFFF]);
                fields.payload = status.to_be_bytes().to_vec();
            }
            9 => {
                let mut bytes = fields.bytes();
                bytes.truncate(rng.below(21).min(bytes.len()));
                return bytes;
            }
            10 => {
                let mut bytes = fields.bytes();
                bytes.truncate(rng.below(bytes.len()));
                return bytes;
            }
            _ => {
                let mut bytes = fields.bytes();
                let at = rng.below(bytes.len());
                bytes[at] ^= 1 << rng.below(8);
                return bytes;
            }
        }
    }
    fields.bytes()
}

/// Code 1.
pub fn read(rng: &mut Prng) -> Call {
    let own = rng.pick(&[0u8, 1, 2, 127, 255]);
    let like_ours = 256 + u32::from(own);
    let from = rng.pick(&[0, 1, 3, 128, 254, 255, 300, like_ours, 0xFFFF_FFFF]);
    let from = if from == u32::from(own) { 77 } else { from };
    let mut fields = good(rng, from, &[1, 2, 5, 1000]);
    // The longest argument, and messages too long for the piece that would carry them.
    if fields.domain == 1 && rng.chance(1, 30) {
        let length = rng.pick(&[69_980, 65_540, 65_536, 256, 257]);
        fields.payload = rng.bytes(length);
    }
    let bytes = if rng.chance(1, 2) {
        spoilt(rng, own, fields)
    } else {
        fields.bytes()
    };
    Call::new(1).number(rng, u64::from(own)).bytes(&bytes)
}

/// Code 2.
pub fn write(rng: &mut Prng) -> Call {
    let own = rng.pick(&[0u8, 1, 77, 255]);
    let mut fields = good(rng, u32::from(own), &[1, 2, 5, 1000]);
    match rng.below(12) {
        0 => fields.domain = rng.pick(&[2, 3, 16, 255]),
        1 => fields.domain ^= 1,
        2 => fields.id = rng.pick(&[0, 5, 255, 256, 0xFFFF_FFFF]),
        3 => {
            let length = rng.pick(&[0, 1, 3, 4, 5, 8]);
            fields.payload = rng.bytes(length);
        }
        4 => {
            (fields.domain, fields.id) = (0, 1);
            let status: u32 = rng.pick(&[2, 3, 256, 0x0100_0001]);
            fields.payload = status.to_be_bytes().to_vec();
        }
        5 if fields.domain == 1 && rng.chance(1, 5) => {
            let length = rng.pick(&[69_980, 69_981, 70_000, 65_536]);
            fields.payload = rng.bytes(length);
        }
        _ => {}
    }
    let room = room(rng, 20 + fields.payload.len(), 70_000);
    Call::new(2)
        .number(rng, u64::from(own))
        .number(rng, u64::from(fields.domain))
        .number(rng, u64::from(fields.id))
        .number(rng, u64::from(fields.sequence))
        .bytes(&fields.payload)
        .number(rng, room)
}
