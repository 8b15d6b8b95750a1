//! Messages of Issue 3 good and bad, made without the model, and calls 81 and 82 on them.

use crate::calls_compose::{room, Call};
use crate::calls_messages::{self, sequence};
use crate::prng::Prng;

/// A message's fields as they go out; nothing keeps them from being wrong.
#[derive(Clone)]
pub struct Fields {
    pub mark: u16,
    /// Four bits, and so is the domain.
    pub version: u8,
    pub domain: u8,
    pub from: u8,
    pub id: u32,
    pub seconds: u32,
    pub nanoseconds: u32,
    pub sequence: u32,
    pub payload: Vec<u8>,
    /// What the size field says beyond the payload's length.
    pub lie: i64,
}

impl Fields {
    pub fn new(domain: u8, from: u8, id: u32, sequence: u32, payload: Vec<u8>) -> Fields {
        Fields {
            mark: 0xEC0A,
            version: 1,
            domain,
            from,
            id,
            seconds: 0,
            nanoseconds: 0,
            sequence,
            payload,
            lie: 0,
        }
    }

    pub fn at(mut self, seconds: u32, nanoseconds: u32) -> Fields {
        (self.seconds, self.nanoseconds) = (seconds, nanoseconds);
        self
    }

    pub fn bytes(&self) -> Vec<u8> {
        let size = (self.payload.len() as i64 + self.lie) as u32;
        let mut out = self.mark.to_be_bytes().to_vec();
        out.extend([self.version << 4 | self.domain, self.from]);
        for field in [self.id, self.seconds, self.nanoseconds, size, self.sequence] {
            out.extend(field.to_be_bytes());
        }
        out.extend(&self.payload);
        out
    }
}

/// 32-bit fields, one behind another.
pub fn fields(each: &[u32]) -> Vec<u8> {
    each.iter().flat_map(|field| field.to_be_bytes()).collect()
}

/// Any number of 32 bits, its ends among them.
pub fn number(rng: &mut Prng) -> u32 {
    let any = rng.draw() as u32;
    rng.pick(&[0, 1, 99, 0x8000_0000, 0xFFFF_FFFF, any])
}

/// An AVAILABILITY_STATUS of these services.
pub fn told(from: u8, sequence: u32, services: &[(u32, u32)]) -> Fields {
    let mut payload = fields(&[services.len() as u32]);
    for (id, state) in services {
        payload.extend(fields(&[*id, *state]));
    }
    Fields::new(0, from, 3, sequence, payload)
}

/// Services out of these, told twice now and then.
fn some_services(rng: &mut Prng, services: &[u32]) -> Vec<(u32, u32)> {
    let count = rng.pick(&[0, 1, 1, 2, 3, 8]);
    let mut out = Vec::new();
    for _ in 0..count {
        out.push((rng.pick(services), rng.below(2) as u32));
    }
    out
}

/// A good message from this sender; operations and pulls draw from these IDs.
pub fn good(rng: &mut Prng, from: u8, ids: &[u32], services: &[u32]) -> Fields {
    let id = match rng.below(6) {
        0 => number(rng),
        _ => rng.pick(ids),
    };
    let service = match rng.below(3) {
        0 => 0xFFFF_FFFF,
        _ => rng.pick(services),
    };
    let any = number(rng);
    let sequence = sequence(rng);
    let (code, payload) = match rng.below(18) {
        0..=2 => (1, fields(&[1, any])),
        3 => (1, fields(&[0, any])),
        4 => (2, vec![]),
        5 | 6 | 16 | 17 => {
            let told = told(from, sequence, &some_services(rng, services));
            (3, told.payload)
        }
        7 | 8 => (4, fields(&[service])),
        9 => (rng.pick(&[5, 6]), fields(&[id])),
        10 => (7, fields(&[0xFFFF_FFFF])),
        11 => (7, fields(&[id])),
        12 => (8, fields(&[any])),
        13 => (9, fields(&[rng.below(2) as u32])),
        _ => {
            let length = rng.pick(&[0, 0, 1, 2, 4, 20, 60]);
            let payload = rng.bytes(length);
            let (seconds, nanoseconds) = (number(rng), number(rng));
            return Fields::new(1, from, id, sequence, payload).at(seconds, nanoseconds);
        }
    };
    let (seconds, nanoseconds) = (number(rng), number(rng));
    Fields::new(0, from, code, sequence, payload).at(seconds, nanoseconds)
}

/// A message's bytes, one field or more of it wrong.
pub fn spoilt(rng: &mut Prng, own: u8, mut it: Fields) -> Vec<u8> {
    for _ in 0..rng.pick(&[1, 1, 1, 2]) {
        match rng.below(13) {
            0 => it.mark = rng.pick(&[0xEC0B, 0x0AEC, 0, 0xEC00, 0x0C0A, 0xFFFF]),
            // 0 with domain 2 is Issue 6's version.
            1 => it.version = rng.pick(&[0, 0, 2, 3, 5, 9, 15]),
            2 => it.domain = rng.pick(&[2, 3, 8, 15]),
            3 => it.lie = rng.pick(&[-1, 1, 4, -4, 20, 24, 1 << 16, 1 << 24]),
            4 => it.from = own,
            5 => (it.domain, it.id) = (0, rng.pick(&[0, 10, 11, 16, 257, 1 << 24, 0xFFFF_FFFF])),
            6 => {
                (it.domain, it.id) = (0, rng.from_to(1, 9) as u32);
                let length = rng.pick(&[0, 1, 3, 4, 5, 8, 12, 16]);
                it.payload = rng.bytes(length);
            }
            7 => {
                let state = rng.pick(&[2, 3, 256, 0x0100_0001, 0xFFFF_FFFF]);
                (it.domain, it.id) = (0, rng.pick(&[1, 9]));
                it.payload = match it.id {
                    1 => fields(&[state, 7]),
                    _ => fields(&[state]),
                };
            }
            8 => it = spoilt_services(rng, it),
            9 => {
                let mut bytes = it.bytes();
                bytes.truncate(rng.below(25).min(bytes.len()));
                return bytes;
            }
            10 => {
                let mut bytes = it.bytes();
                bytes.truncate(rng.below(bytes.len()));
                return bytes;
            }
            _ => {
                let mut bytes = it.bytes();
                let at = rng.below(bytes.len());
                bytes[at] ^= 1 << rng.below(8);
                return bytes;
            }
        }
    }
    it.bytes()
}

/// A status of services whose count is not that of its pairs, or in which one state is reserved.
fn spoilt_services(rng: &mut Prng, it: Fields) -> Fields {
    // 2^29 services and more in four bytes.
    if rng.chance(1, 6) {
        let count = rng.pick(&[1 << 29, 1 << 30, 7 << 29]);
        return Fields::new(0, it.from, 3, it.sequence, fields(&[count]));
    }
    let mut services: Vec<(u32, u32)> = (0..rng.from_to(1, 5) as u32).map(|id| (id, 1)).collect();
    if rng.chance(1, 2) {
        let at = rng.below(services.len());
        services[at].1 = rng.pick(&[2, 256, 0x8000_0001, 0xFFFF_FFFF]);
        return told(it.from, it.sequence, &services);
    }
    let mut it = told(it.from, it.sequence, &services);
    let pairs = services.len() as u32;
    // With the upper ones 4 + 8 times the count is right in 32 bits.
    let upper = rng.pick(&[1 << 29, 1 << 30, 1 << 31]);
    let count = rng.pick(&[0, pairs + 1, pairs - 1, pairs + upper]);
    it.payload[..4].copy_from_slice(&count.to_be_bytes());
    it
}

/// Code 81: of either issue, read by readers that have its sender as one or the other.
pub fn read(rng: &mut Prng) -> Call {
    let own = rng.pick(&[0u8, 1, 2, 127, 255]);
    let threes: Vec<u8> = (0..rng.below(6))
        .map(|_| rng.pick(&[0, 1, 3, 128, 254, own]))
        .collect();
    let from = rng.pick(&[0, 1, 3, 128, 254, 77]);
    let from = if from == own { 77 } else { from };
    let listed = rng.chance(3, 4);
    let threes = match listed {
        true => [threes, vec![from]].concat(),
        false => threes,
    };
    let mut it = good(rng, from, &[1, 2, 5, 1000], &[1, 2, 0x4D, 0xFFFF_FFFF]);
    // The longest argument.
    if it.domain == 1 && rng.chance(1, 30) {
        let length = rng.pick(&[69_976, 65_536, 256, 257]);
        it.payload = rng.bytes(length);
    }
    let bytes = match rng.below(8) {
        0 => calls_messages::good(rng, u32::from(from), &[1, 2, 5]).bytes(),
        1 => {
            let six = rng.pick(&[300, 256 + u32::from(from), u32::from(own) + 1]);
            calls_messages::good(rng, six, &[1, 2, 5]).bytes()
        }
        2 | 3 => spoilt(rng, own, it),
        _ => it.bytes(),
    };
    let call = Call::new(81).number(rng, u64::from(own));
    call.bytes(&threes).bytes(&bytes)
}

/// Code 82.
pub fn write(rng: &mut Prng) -> Call {
    let own = rng.pick(&[0u8, 1, 77, 255]);
    let mut it = good(rng, own, &[1, 2, 5, 1000], &[1, 2, 0x4D, 0xFFFF_FFFF]);
    match rng.below(12) {
        0 => it.domain = rng.pick(&[2, 3, 15, 16, 17, 255]),
        1 => it.domain ^= 1,
        2 => it.id = rng.pick(&[0, 10, 255, 256, 0xFFFF_FFFF]),
        3 => {
            let length = rng.pick(&[0, 1, 3, 4, 5, 8, 12]);
            it.payload = rng.bytes(length);
        }
        4 => it = spoilt_services(rng, it),
        5 => {
            (it.domain, it.id) = (0, 1);
            it.payload = fields(&[rng.pick(&[2, 3, 256]), 1]);
        }
        6 if it.domain == 1 && rng.chance(1, 5) => {
            let length = rng.pick(&[69_976, 69_977, 70_000, 65_536]);
            it.payload = rng.bytes(length);
        }
        _ => {}
    }
    let room = room(rng, 24 + it.payload.len(), 70_000);
    Call::new(82)
        .number(rng, u64::from(own))
        .number(rng, u64::from(it.seconds))
        .number(rng, u64::from(it.nanoseconds))
        .number(rng, u64::from(it.domain))
        .number(rng, u64::from(it.id))
        .number(rng, u64::from(it.sequence))
        .bytes(&it.payload)
        .number(rng, room)
}
