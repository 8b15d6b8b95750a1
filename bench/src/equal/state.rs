//! One platform for both programs, and what may be asked of it.

use super::{any_message, spoil};
use crate::pair::{our_platform, plain_platform, word, OWN};
use crate::tables::{id_of, message, message_3, Random};
use bench::plain::pending::{Request, PLACES};
use bench::plain::platform::Platform;
use nyrkovash as ours;

/// One platform, as each program keeps it.
pub struct Both {
    pub ours: ours::Platform,
    pub plain: Platform,
}

impl Both {
    pub fn new() -> Both {
        let mut both = Both {
            ours: ours::Platform {
                next: 7,
                pending: [9; 2 * PLACES],
                ..Default::default()
            },
            plain: Platform::new(OWN),
        };
        assert_eq!(ours::start(OWN, &mut both.ours), 0);
        both.alike();
        both
    }

    pub fn alike(&self) {
        assert!(self.ours == our_platform(&self.plain));
    }

    /// Any words are a list.
    pub fn forge(&mut self, random: &mut Random) {
        let list = &mut self.ours.pending;
        let (one, other) = (random.below(PLACES), random.below(PLACES));
        match random.below(7) {
            0 => assert_eq!(ours::start(OWN, &mut self.ours), 0),
            1 => list.fill_with(|| random.next()),
            2 => {
                // Numbers in a row, from the next own one on, across the round, and in any place.
                let next = u32::MAX - random.below(5) as u32;
                for k in 0..random.below(PLACES + 1) {
                    let number = next.wrapping_add(k as u32);
                    list[(one + k) % PLACES] = word(number, id_of(2 + 4 * random.below(10) as u32));
                }
                self.ours.next = u64::from(next);
            }
            3 => list[one] = list[other],
            4 => list[PLACES + one] |= 1 << 32,
            5 => list[one] &= 0xFFFF_FFFF,
            _ => self.ours.next = u64::from(random.next() as u32),
        }
        self.plain = plain_platform(&self.ours);
    }

    /// Mostly one that is pending.
    pub fn any_number(&self, random: &mut Random) -> u32 {
        match random.below(8) {
            0 => self.plain.next.wrapping_sub(random.below(4) as u32),
            1 => [0, 1, u32::MAX][random.below(3)],
            2 => random.next() as u32,
            _ => self.any_request(random).number,
        }
    }

    /// The first from any place on, going round, that is taken.
    fn any_request(&self, random: &mut Random) -> Request {
        let (before, from) = self.plain.pending.0.split_at(random.below(PLACES));
        let taken = from.iter().chain(before).find(|place| place.number != 0);
        *taken.unwrap_or(&from[0])
    }

    /// A response of Issue 3 to a request that is pending, or nearly one.
    pub fn any_message_3(&self, random: &mut Random) -> Vec<u8> {
        let request = self.any_request(random);
        let sender = match random.below(4) {
            0 => any_platform(random),
            _ => request.target as u32,
        };
        let length = random.below(9);
        let payload = random.bytes(length);
        let mut bytes = message_3(1, sender as u8, request.id, request.number, &payload);
        if random.below(8) == 0 {
            spoil(&mut bytes, random);
        }
        bytes
    }

    /// A response to a request that is pending, or nearly one; or a status, or any other message.
    pub fn any_message(&self, random: &mut Random) -> Vec<u8> {
        let up = [0, 0, 0, random.below(2) as u8];
        match random.below(8) {
            0 => return message(0, any_platform(random), 1, 7, &up),
            1..=3 => return any_message(random),
            _ => {}
        }
        let request = self.any_request(random);
        let (mut number, mut id) = (request.number, request.id);
        let mut sender = request.target as u32;
        match random.below(12) {
            0 => number = self.any_number(random),
            1 => sender = any_platform(random),
            2 => id = id_of(random.below(40) as u32),
            _ => {}
        }
        let length = random.below(9);
        let mut bytes = message(1, sender, id, number, &random.bytes(length));
        if random.below(8) == 0 {
            spoil(&mut bytes, random);
        }
        bytes
    }
}

pub fn any_platform(random: &mut Random) -> u32 {
    [0, u32::from(OWN), 2, 3, 257, 300, u32::MAX][random.below(7)]
}
