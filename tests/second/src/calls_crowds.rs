//! Crowds among partners of Issue 3: more services than there are places for, and many platforms
//! that announce themselves.

use crate::calls_bench::Bench;
use crate::calls_compose::Call;
use crate::calls_messages;
use crate::calls_messages3::{fields, told, Fields};
use crate::prng::Prng;

impl Bench {
    /// One partner tells of services until there is no place for more, and beyond.
    pub fn crowd(&mut self, rng: &mut Prng, calls: &mut Vec<Call>) {
        let from = self.three(rng);
        let mut heard = 0;
        for count in [200, 50, 7, 6, 7, 1, 1, 256, 257] {
            let first = match rng.below(4) {
                0 => heard,
                _ => heard.max(1) - rng.below(2) as u32,
            };
            let services: Vec<(u32, u32)> = (first..first + count)
                .map(|id| (id, rng.below(2) as u32))
                .collect();
            heard = heard.max((first + count).min(256));
            let it = told(from, 1, &services);
            calls.push(self.hear(rng, &it.bytes()));
            calls.push(Call::new(86).number(rng, u64::from(from)));
            calls.push(Call::new(85).number(rng, u64::from(from)).number(rng, 255));
        }
        self.services = (200..270).collect();
    }

    /// Every three and every eighth of all announce themselves, each in its own form; the threes tell
    /// of services and go down again.
    pub fn many(&mut self, rng: &mut Prng, calls: &mut Vec<Call>) {
        for from in 0..=255 {
            let three = self.threes.contains(&from);
            let say = |state: u32| match three {
                true => Fields::new(0, from, 1, 5, fields(&[state, 7])).bytes(),
                false => {
                    let field = fields(&[state]);
                    calls_messages::Fields::new(0, u32::from(from), 1, 5, field).bytes()
                }
            };
            if three || from % 8 == 0 {
                calls.push(self.hear(rng, &say(1)));
            }
            if three {
                let services = [(u32::from(from), 1), (5, 1)];
                calls.push(self.hear(rng, &told(from, 1, &services).bytes()));
                calls.push(self.hear(rng, &say(0)));
                calls.push(Call::new(86).number(rng, u64::from(from)));
            }
        }
        calls.push(Call::new(10));
        self.all_of_ours(rng, calls);
    }

    /// All our services asked for: as many as an output has bytes for, one byte less, and one more.
    fn all_of_ours(&mut self, rng: &mut Prng, calls: &mut Vec<Call>) {
        let from = self.three(rng);
        let bytes = Fields::new(0, from, 4, 5, fields(&[0xFFFF_FFFF])).bytes();
        for (count, room) in [(8_746, 69_996), (8_746, 69_995), (8_747, 70_000)] {
            calls.push(self.hear_with(rng, &bytes, count, room));
        }
    }
}
