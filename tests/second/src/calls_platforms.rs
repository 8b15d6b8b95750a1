//! Conversations with one platform, codes 7 to 10: its standing is kept from call to call.

use crate::calls_compose::Call;
use crate::calls_messages::{good, spoilt, Fields};
use crate::calls_payloads::table;
use crate::calls_tables::Draft;
use crate::prng::Prng;

/// Who talks to whom, about what.
pub struct Talk {
    own: u8,
    others: Vec<u32>,
    ids: Vec<u32>,
    draft: Draft,
}

impl Talk {
    /// Before a 7 the platform is number 0.
    pub fn new(rng: &mut Prng, mut draft: Draft) -> Talk {
        if draft.operations.is_empty() {
            draft.operate(rng, 3);
        }
        if rng.chance(1, 4) {
            // Nothing to pull: all of it is then unknown (R7).
            draft.operations.retain(|entry| entry.kind != 1);
        } else if draft.operations.iter().all(|entry| entry.kind != 1) {
            let first = &mut draft.operations[0];
            (first.kind, first.of, first.response) = (1, 0, None);
        }
        let mut ids: Vec<u32> = draft.operations.iter().map(|entry| entry.id).collect();
        ids.truncate(6);
        // What can be pulled is named once more, or it is pulled too seldom.
        let pulled = draft.operations.iter().find(|entry| entry.kind == 1);
        ids.extend(pulled.map(|entry| entry.id));
        ids.push(rng.below(40) as u32);
        let count = rng.pick(&[1, 2, 4, 10]);
        let mut talk = Talk {
            own: 0,
            others: Vec::new(),
            ids,
            draft,
        };
        talk.meet(rng, count);
        talk
    }

    /// Others, at the edges of the four words that hold the states too, and above 255 (R4), where
    /// the low byte may be ours or another's.
    fn meet(&mut self, rng: &mut Prng, count: usize) {
        self.others.clear();
        while self.others.len() < count {
            let other = match rng.below(8) {
                0 => {
                    let low = rng.pick(&[u32::from(self.own), 1, 77, 255]);
                    low | rng.pick(&[1 << 8, 1 << 16, 1 << 31])
                }
                _ => rng.pick(&[0, 1, 63, 64, 127, 128, 191, 192, 254, 255, 77, 78, 79]),
            };
            if other != u32::from(self.own) {
                self.others.push(other);
            }
        }
    }

    /// The next call of the conversation.
    pub fn call(&mut self, rng: &mut Prng) -> Call {
        match rng.below(40) {
            0 => {
                self.own = rng.pick(&[0, 1, 63, 64, 128, 255]);
                let count = rng.pick(&[1, 2, 5]);
                self.meet(rng, count);
                Call::new(7).number(rng, u64::from(self.own))
            }
            1..=5 => {
                let asked = match rng.below(6) {
                    0 => u32::from(self.own),
                    1 => rng.below(256) as u32,
                    2 => rng.pick(&[256, 300, 0x8000_0000, 0xFFFF_FFFF]) | u32::from(self.own),
                    _ => rng.pick(&self.others),
                };
                Call::new(9).number(rng, u64::from(asked))
            }
            6..=8 => Call::new(10),
            _ => self.message(rng),
        }
    }

    fn message(&self, rng: &mut Prng) -> Call {
        let from = rng.pick(&self.others);
        let fields = match rng.below(3) {
            // Up and down and up again, and twice the same.
            0 => status(from, rng.below(2) as u32),
            _ => good(rng, from, &self.ids),
        };
        let bytes = if rng.chance(1, 8) {
            spoilt(rng, self.own, fields)
        } else {
            fields.bytes()
        };
        let table = table(rng, &self.draft, 40);
        let room = rng.pick(&[0, 23, 24, 24, 25, 47, 48, 48, 48, 48, 48, 100, 70_000]);
        Call::new(8).bytes(&table).bytes(&bytes).number(rng, room)
    }
}

fn status(from: u32, up: u32) -> Fields {
    let field = up.to_be_bytes().to_vec();
    Fields::new(0, from, 1, 0, field)
}

/// All 256 announce themselves, this one's own message refused among them, and the count goes on
/// to 256; those above change nothing (R4). Then some go down, and up again with the own numbers
/// that follow.
pub fn everybody(rng: &mut Prng, draft: &Draft) -> Vec<Call> {
    let own: u8 = rng.pick(&[0, 100, 255]);
    let table = draft.bytes();
    let mut out = vec![Call::new(7).number(rng, u64::from(own))];
    let say = |rng: &mut Prng, from: u32, up: u32| {
        let message = status(from, up).bytes();
        Call::new(8).bytes(&table).bytes(&message).number(rng, 48)
    };
    for from in 0..=255 {
        out.push(say(rng, from, 1));
        if from % 16 == 15 {
            out.push(Call::new(10));
        }
    }
    for from in [256, 300, 511, 1 << 31, u32::MAX] {
        out.push(say(rng, from, 1));
        out.push(say(rng, from, 0));
        out.push(Call::new(9).number(rng, u64::from(from)));
        out.push(Call::new(10));
    }
    for _ in 0..20 {
        let from = rng.below(256) as u32;
        out.push(say(rng, from, 0));
        out.push(Call::new(9).number(rng, u64::from(from)));
        out.push(Call::new(10));
        out.push(say(rng, from, 1));
    }
    out
}
