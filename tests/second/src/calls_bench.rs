//! Conversations of one platform with partners of both issues, codes 83 to 88 and those beside them:
//! they come and go, tell of services, are asked and answer.

use crate::calls_compose::Call;
use crate::calls_messages3::{number, Fields};
use crate::calls_operations::two_tables;
use crate::calls_payloads::table;
use crate::calls_tables::Draft;
use crate::prng::Prng;
use crate::{calls_lists, calls_messages, calls_messages3};
use std::collections::BTreeSet;

/// Who talks to whom, about what.
pub struct Bench {
    own: u8,
    pub threes: Vec<u8>,
    /// How many are set up as Issue 3, ourselves perhaps among them.
    blocks: u64,
    sixes: Vec<u32>,
    draft: Draft,
    /// Operations of the table, and some that are none.
    ids: Vec<u32>,
    /// Services of the others, and of ours.
    pub services: Vec<u32>,
    /// Number, ID and target of requests that were handed in.
    asked: Vec<(u32, u32, u32)>,
}

impl Bench {
    /// Before an 83 the platform is number 0, and nobody speaks Issue 3.
    pub fn new(rng: &mut Prng) -> Bench {
        let [mut draft, _] = two_tables(rng);
        let mut ids: Vec<u32> = draft.operations.iter().map(|entry| entry.id).collect();
        ids.push(0xFFFF_FFFE);
        // Mostly there is something to pull.
        if rng.chance(3, 4) {
            let last = &mut draft.operations[4];
            (last.kind, last.of, last.response) = (1, 0, None);
            ids.extend([last.id; 2]);
        }
        let spread = rng.pick(&[1, 3, 0x0101_0101]);
        let services = (0..rng.pick(&[2, 3, 8, 20])).map(|k| k * spread).collect();
        Bench {
            own: 0,
            threes: vec![],
            blocks: 0,
            sixes: vec![1, 7, 300],
            draft,
            ids,
            services,
            asked: vec![],
        }
    }

    /// Code 83: numbers at the edges of the four words that hold a set-up, twice, and our own.
    pub fn start(&mut self, rng: &mut Prng) -> Call {
        const NUMBERS: [u8; 13] = [0, 1, 2, 63, 64, 127, 128, 191, 192, 254, 255, 77, 78];
        self.own = rng.pick(&[0, 1, 63, 64, 128, 255]);
        let count = rng.pick(&[0, 1, 1, 1, 2, 2, 2, 3, 3, 6]);
        let mut listed: Vec<u8> = (0..count).map(|_| rng.pick(&NUMBERS)).collect();
        self.threes = listed.clone();
        self.threes.retain(|one| *one != self.own);
        let others = NUMBERS.iter().filter(|one| !listed.contains(one));
        let mut sixes: Vec<u32> = others.map(|one| u32::from(*one)).collect();
        sixes.retain(|one| *one != u32::from(self.own));
        self.sixes = vec![rng.pick(&sixes), rng.pick(&sixes)];
        let low = self.threes.first().copied().unwrap_or(77);
        self.sixes
            .push(u32::from(low) | rng.pick(&[1 << 8, 1 << 16, 1 << 31]));
        if rng.chance(1, 6) {
            listed.push(self.own);
        }
        if rng.chance(1, 6) {
            listed.extend(listed.clone());
        }
        self.asked.clear();
        self.blocks = listed.iter().collect::<BTreeSet<_>>().len() as u64;
        let call = Call::new(83).number(rng, u64::from(self.own));
        call.bytes(&listed)
    }

    pub fn call(&mut self, rng: &mut Prng) -> Call {
        match rng.below(100) {
            0 | 1 => self.start(rng),
            2 if rng.chance(1, 2) => self.handed_in(rng),
            2 => {
                // The set-up stays, and may have the new number in it.
                self.own = rng.pick(&[0, 1, 63, 64, 128, 255, self.own]);
                self.asked.clear();
                Call::new(7).number(rng, u64::from(self.own))
            }
            3..=10 => calls_messages3::read(rng),
            12..=16 => calls_messages3::write(rng),
            17..=22 => self.ask(rng),
            23 | 24 => {
                let platform = self.asked_of(rng);
                Call::new(86).number(rng, platform)
            }
            25 => {
                let platform = self.asked_of(rng);
                Call::new(9).number(rng, platform)
            }
            26 => Call::new(10),
            11 | 27 | 28 => self.send(rng),
            29 | 30 => {
                let number = self.some_request(rng).0;
                Call::new(rng.pick(&[21, 22])).number(rng, u64::from(number))
            }
            31..=37 => self.response(rng),
            38 | 39 => self.as_the_other(rng),
            40..=49 => {
                let bytes = self.of_a_six(rng);
                self.hear(rng, &bytes)
            }
            50..=57 => {
                let from = self.three(rng);
                let it = calls_messages3::good(rng, from, &self.ids, &self.services);
                let bytes = calls_messages3::spoilt(rng, self.own, it);
                self.hear(rng, &bytes)
            }
            _ => {
                let from = self.three(rng);
                let it = calls_messages3::good(rng, from, &self.ids, &self.services);
                self.hear(rng, &it.bytes())
            }
        }
    }

    /// One that speaks Issue 3, or 77 where nobody does.
    pub fn three(&self, rng: &mut Prng) -> u8 {
        match self.threes.is_empty() {
            true => 77,
            false => rng.pick(&self.threes),
        }
    }

    /// Code 84 or 87: with room for just what may be owed, for one byte less, or for none.
    pub fn hear(&self, rng: &mut Prng, message: &[u8]) -> Call {
        let count = rng.pick(&[0, 1, 2, 5]);
        let all = 28 + 8 * count as u64;
        let edges = [all, all - 1, 87, 48, 47, 36, 35, 28, 27, 24, 0];
        let room = match rng.below(4) {
            0 => rng.pick(&edges),
            1 => 70_000,
            _ => 88,
        };
        self.hear_with(rng, message, count, room)
    }

    /// The same with so many services of ours, and this room.
    pub fn hear_with(&self, rng: &mut Prng, message: &[u8], count: usize, room: u64) -> Call {
        let ours: Vec<u64> = (0..count).map(|_| self.ours(rng)).collect();
        let lent = rng.chance(1, 3).then(|| self.lent(rng));
        let mut call = Call::new(if lent.is_some() { 87 } else { 84 });
        for _ in ["seconds", "nanoseconds", "composite"] {
            let any = number(rng);
            call = call.number(rng, u64::from(any));
        }
        call = call.words(&ours);
        if let Some(lent) = lent {
            call = call.number(rng, lent);
        }
        let table = table(rng, &self.draft, 40);
        call.bytes(&table).bytes(message).number(rng, room)
    }

    /// Words for all blocks or for more, for all but one word or one block, for one block, or none.
    fn lent(&self, rng: &mut Prng) -> u64 {
        let all = 256 * self.blocks;
        match rng.below(4) {
            0 => rng.pick(&[all.max(1) - 1, all.max(256) - 256, 256, 255, 0]),
            1 => 65_536,
            _ => all,
        }
    }

    /// A service of ours as a word, its state now and then none that there is.
    fn ours(&self, rng: &mut Prng) -> u64 {
        let state = rng.pick(&[1, 1, 2, 2, 2, 0, 3, 0x102, 0xFFFF_FFFF]);
        state << 32 | u64::from(rng.pick(&self.services))
    }

    fn of_a_six(&self, rng: &mut Prng) -> Vec<u8> {
        let from = rng.pick(&self.sixes);
        let it = calls_messages::good(rng, from, &self.ids);
        match rng.chance(1, 6) {
            true => calls_messages::spoilt(rng, self.own, it),
            false => it.bytes(),
        }
    }

    /// A three in Issue 6's form, or a six in Issue 3's: 3.
    fn as_the_other(&self, rng: &mut Prng) -> Call {
        let bytes = match rng.below(2) {
            0 => {
                let from = u32::from(self.three(rng));
                calls_messages::good(rng, from, &self.ids).bytes()
            }
            _ => {
                let from = rng.pick(&self.sixes) as u8;
                calls_messages3::good(rng, from, &self.ids, &self.services).bytes()
            }
        };
        self.hear(rng, &bytes)
    }

    /// Whom to ask about: mostly one that told something.
    fn asked_of(&self, rng: &mut Prng) -> u64 {
        let low = u64::from(self.three(rng));
        let six = u64::from(rng.pick(&self.sixes));
        rng.pick(&[low, low, low, low, low, six, low | 256, low | 1 << 31, 255])
    }

    /// Code 85.
    fn ask(&self, rng: &mut Prng) -> Call {
        let platform = self.asked_of(rng);
        let id = match rng.below(5) {
            0 => number(rng),
            _ => rng.pick(&self.services),
        };
        let call = Call::new(85).number(rng, platform);
        call.number(rng, u64::from(id))
    }

    /// Code 23: the platform starts again with requests to partners of both issues, and its next
    /// number may be the last before 0. The set-up and the services stay.
    fn handed_in(&mut self, rng: &mut Prng) -> Call {
        let threes = self.threes.iter().map(|one| u32::from(*one));
        let mut others: Vec<u32> = threes.collect();
        others.extend(&self.sixes[..1]);
        // The first two are those whose requests we send.
        let mut ledger = calls_lists::ledger(rng, &self.ids[..2], &others);
        ledger.own = self.own;
        let words = calls_lists::words(rng, &ledger, &self.ids);
        let each = ledger.pending.iter();
        self.asked = each.map(|(n, (id, to))| (*n, *id, *to)).collect();
        calls_lists::hand_in(rng, &ledger, &words)
    }

    /// Code 20, or mostly 88, to a partner of either issue.
    fn send(&self, rng: &mut Prng) -> Call {
        let six = rng.pick(&self.sixes);
        let three = u32::from(self.three(rng));
        // The first two are those whose requests we send.
        let id = match rng.below(4) {
            0 => rng.pick(&self.ids),
            _ => rng.pick(&self.ids[..2]),
        };
        let target = rng.pick(&[three, six]);
        let (table, room) = (table(rng, &self.draft, 40), rng.pick(&[25, 25, 24, 21, 20]));
        let by_issue = rng.chance(3, 4);
        let mut call = Call::new(if by_issue { 88 } else { 20 });
        if by_issue {
            let (seconds, nanoseconds) = (number(rng), number(rng));
            call = call.number(rng, u64::from(seconds));
            call = call.number(rng, u64::from(nanoseconds));
        }
        let call = call.bytes(&table).number(rng, u64::from(id));
        let call = call.number(rng, u64::from(target)).bytes(&[1]);
        call.number(rng, room)
    }

    fn some_request(&self, rng: &mut Prng) -> (u32, u32, u32) {
        match self.asked.is_empty() {
            true => (1, rng.pick(&self.ids), rng.pick(&self.sixes)),
            false => rng.pick(&self.asked),
        }
    }

    /// What is, or might be taken for, the response to a request, in its sender's form.
    fn response(&mut self, rng: &mut Prng) -> Call {
        if self.asked.is_empty() && rng.chance(1, 6) {
            return self.handed_in(rng);
        }
        let (mut number, mut id, mut from) = self.some_request(rng);
        match rng.below(10) {
            0 => number = rng.pick(&[0, number.wrapping_add(1)]),
            1 => id = rng.pick(&self.ids),
            2 => from = u32::from(self.three(rng)),
            _ => {}
        }
        let payload = rng.bytes(2);
        let bytes = match u8::try_from(from) {
            Ok(one) if self.threes.contains(&one) => {
                Fields::new(1, one, id, number, payload).bytes()
            }
            _ => calls_messages::Fields::new(1, from, id, number, payload).bytes(),
        };
        self.hear(rng, &bytes)
    }
}
