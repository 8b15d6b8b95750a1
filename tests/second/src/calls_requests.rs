//! Conversations with requests, codes 20 to 23 and 8: sent, answered rightly and wrongly, cancelled,
//! in lists that are empty, full, handed in and forged.

use crate::calls_compose::{room, Call};
use crate::calls_damage::damaged;
use crate::calls_ledger::Ledger;
use crate::calls_lists;
use crate::calls_messages::{spoilt, Fields};
use crate::calls_operations::two_tables;
use crate::calls_tables::Draft;
use crate::prng::Prng;

/// A call, and its answer where the map tells it.
pub type Step = (Call, Option<String>);

/// A sender that nothing is ever sent to: what it says is no response.
const NOBODY: u32 = 0x0055_AA55;

pub struct Asking {
    /// Two of them: some IDs of the first have another kind in the second, or none.
    tables: [Draft; 2],
    /// IDs of the first, most often those whose requests we send.
    ids: Vec<u32>,
    others: Vec<u32>,
    ledger: Ledger,
    /// A list made by hand, with a number twice or a target too wide, is none that a map has.
    forged: bool,
}

fn kind(draft: &Draft, id: u32) -> Option<u16> {
    let mut entries = draft.operations.iter();
    entries.find(|entry| entry.id == id).map(|entry| entry.kind)
}

impl Asking {
    pub fn new(rng: &mut Prng) -> Asking {
        let others = [0, 1, 2, 77, 255, 256, 300, 0xFFFF_FFFF];
        let tables = two_tables(rng);
        let entries = tables[0].operations.iter();
        let mut ids: Vec<u32> = entries.map(|entry| entry.id).collect();
        ids.extend([[ids[0], ids[1]], [ids[0], ids[1]], [ids[0]; 2], [ids[0]; 2]].concat());
        Asking {
            tables,
            ids,
            others: (0..3).map(|_| rng.pick(&others)).collect(),
            ledger: Ledger::new(0, 0),
            forged: false,
        }
    }

    /// The next call of the conversation.
    pub fn step(&mut self, rng: &mut Prng) -> Step {
        // The number behind 0xFFFFFFFF: the pair takes it, and a request does not.
        let turn = match self.ledger.next {
            0 if rng.chance(1, 2) => 50,
            _ => rng.below(60),
        };
        let (call, told) = match turn {
            0 => self.start(rng),
            1 => self.handed_in(rng),
            2 | 3 => self.forge(rng),
            4..=22 => self.send(rng),
            23..=38 => self.answer(rng),
            39..=43 => self.cancel(rng),
            44..=49 => self.ask(rng),
            50..=53 => self.status(rng),
            54 => (Call::new(10), None),
            55..=57 => self.named(rng),
            58 => self.wrong(rng),
            _ => self.over_a_spoilt_table(rng),
        };
        (call, told.filter(|_| !self.forged))
    }

    /// Requests until the list is full and beyond, then the conversation.
    pub fn crowd(&mut self, rng: &mut Prng, count: usize) -> Vec<Step> {
        let mut out = vec![match rng.below(3) {
            0 => self.start(rng),
            _ => self.handed_in(rng),
        }];
        for _ in 0..rng.from_to(64, 80) {
            out.push(match rng.below(12) {
                0 => self.status(rng),
                1 => self.ask(rng),
                _ => self.send(rng),
            });
        }
        while out.len() < count {
            out.push(self.step(rng));
        }
        out
    }

    fn start(&mut self, rng: &mut Prng) -> Step {
        self.ledger = Ledger::new(rng.pick(&[0, 1, 64, 255]), 0);
        self.forged = false;
        let own = u64::from(self.ledger.own);
        (
            Call::new(7).number(rng, own),
            Some(format!("platform {own}")),
        )
    }

    fn handed_in(&mut self, rng: &mut Prng) -> Step {
        self.ledger = calls_lists::ledger(rng, &self.ids, &self.others);
        self.forged = false;
        let words = calls_lists::words(rng, &self.ledger, &self.ids);
        let call = calls_lists::hand_in(rng, &self.ledger, &words);
        (call, Some(format!("platform {}", self.ledger.own)))
    }

    fn forge(&mut self, rng: &mut Prng) -> Step {
        self.ledger = calls_lists::ledger(rng, &self.ids, &self.others);
        self.forged = true;
        let mut words = calls_lists::words(rng, &self.ledger, &self.ids);
        calls_lists::forge(rng, &mut words, &mut self.ledger, &self.ids);
        (calls_lists::hand_in(rng, &self.ledger, &words), None)
    }

    fn table(&self, rng: &mut Prng) -> &Draft {
        &self.tables[usize::from(rng.chance(1, 8))]
    }

    fn payload(&self, rng: &mut Prng) -> Vec<u8> {
        let length = rng.pick(&[0, 0, 1, 2, 4, 20, 60]);
        rng.bytes(length)
    }

    fn send(&mut self, rng: &mut Prng) -> Step {
        let draft = self.table(rng).clone();
        let id = match rng.below(16) {
            0 => rng.pick(&[0, 6, 0xFFFF_FFFE, 0xFFFF_FFFF]),
            1 => rng.pick(&draft.operations).id,
            _ => rng.pick(&self.ids),
        };
        let target = match rng.below(10) {
            0 => u32::from(self.ledger.own),
            1 => rng.draw() as u32,
            _ => rng.pick(&self.others),
        };
        let mut payload = self.payload(rng);
        if rng.chance(1, 150) {
            payload = vec![0xA5; rng.pick(&[69_980, 69_981, 70_000])];
        }
        let room = room(rng, 20 + payload.len(), 70_000);
        let call = Call::new(20)
            .bytes(&draft.bytes())
            .number(rng, u64::from(id))
            .number(rng, u64::from(target))
            .bytes(&payload)
            .number(rng, room);
        let request = Fields::new(1, u32::from(self.ledger.own), id, 0, payload);
        let told = self.ledger.send(kind(&draft, id), request, target, room);
        (call, Some(told))
    }

    /// A number, ID and target that are pending, or were, or neither.
    fn some_request(&self, rng: &mut Prng) -> (u32, u32, u32) {
        let (own, pending) = (&self.ledger, &self.ledger.pending);
        match rng.below(8) {
            0 => (
                rng.pick(&[0, own.next]),
                rng.pick(&self.ids),
                rng.pick(&self.others),
            ),
            1 if !own.past.is_empty() => rng.pick(&own.past),
            // Twice: the last that was answered.
            2 if !own.past.is_empty() => own.past[own.past.len() - 1],
            _ if pending.is_empty() => (1, rng.pick(&self.ids), rng.pick(&self.others)),
            _ => {
                let at = rng.below(pending.len());
                let (number, (id, target)) = pending.iter().nth(at).expect("is below");
                (*number, *id, *target)
            }
        }
    }

    /// What is, or might be taken for, the response to a request.
    fn answer(&mut self, rng: &mut Prng) -> Step {
        let (mut number, mut id, mut from) = self.some_request(rng);
        match rng.below(12) {
            0 => number = rng.pick(&[0, number.wrapping_add(1), self.ledger.next]),
            1 => id = rng.pick(&self.tables[0].operations).id,
            2 => from = rng.pick(&self.others),
            3 => from ^= rng.pick(&[1, 1 << 8, 1 << 31]),
            _ => {}
        }
        let draft = self.table(rng).clone();
        let message = Fields::new(1, from, id, number, self.payload(rng));
        let room = rng.pick(&[0, 0, 23, 24, 48]);
        let told = self.ledger.hear(kind(&draft, id), &message, room);
        (
            heard(rng, &draft.bytes(), &message.bytes(), room),
            Some(told),
        )
    }

    fn cancel(&mut self, rng: &mut Prng) -> Step {
        let (number, _, _) = self.some_request(rng);
        let call = Call::new(21).number(rng, u64::from(number));
        (call, Some(self.ledger.cancel(number)))
    }

    fn ask(&mut self, rng: &mut Prng) -> Step {
        let (number, _, _) = self.some_request(rng);
        let call = Call::new(22).number(rng, u64::from(number));
        (call, Some(self.ledger.ask(number)))
    }

    /// Up and down of whom we asked: the pair draws from the same numbers.
    fn status(&mut self, rng: &mut Prng) -> Step {
        let from = rng.pick(&self.others);
        // Mostly a change.
        let up = self.ledger.is_up(from) != rng.chance(3, 4);
        let room = rng.pick(&[48, 48, 48, 47, 0]);
        let field = u32::from(up).to_be_bytes().to_vec();
        let message = Fields::new(0, from, 1, 9, field).bytes();
        let table = self.tables[0].bytes();
        let told = self.ledger.status(from, up, room);
        (heard(rng, &table, &message, room), Some(told))
    }

    /// Pulls and unknown operations that name a request; the list stays.
    fn named(&mut self, rng: &mut Prng) -> Step {
        let (number, id, from) = self.some_request(rng);
        let all = rng.chance(1, 4);
        let field = if all { 0xFFFF_FFFF } else { id };
        let message = Fields::new(
            0,
            from,
            rng.pick(&[3, 4, 4]),
            number,
            field.to_be_bytes().to_vec(),
        );
        let table = self.table(rng).bytes();
        (heard(rng, &table, &message.bytes(), 24), None)
    }

    /// From nobody that was asked, and one field or more wrong: 1 to 9 come before 61.
    fn wrong(&mut self, rng: &mut Prng) -> Step {
        let (number, id, _) = self.some_request(rng);
        let message = Fields::new(1, NOBODY, id, number, vec![]);
        let bytes = spoilt(rng, self.ledger.own, message);
        let table = self.tables[0].bytes();
        (heard(rng, &table, &bytes, 48), None)
    }

    /// 30 to 33 come before all else. What is sent or heard here changes nothing over any table.
    fn over_a_spoilt_table(&mut self, rng: &mut Prng) -> Step {
        let table = damaged(rng, &self.tables[0]);
        let (number, id, target) = self.some_request(rng);
        if rng.chance(1, 2) {
            let message = Fields::new(1, NOBODY, id, number, vec![]);
            return (heard(rng, &table, &message.bytes(), 24), None);
        }
        let call = Call::new(20).bytes(&table).number(rng, u64::from(id));
        let call = call.number(rng, u64::from(target)).bytes(&[]);
        (call.number(rng, 19), None)
    }
}

fn heard(rng: &mut Prng, table: &[u8], message: &[u8], room: u64) -> Call {
    Call::new(8).bytes(table).bytes(message).number(rng, room)
}

#[cfg(test)]
mod tests {
    use super::*;
    use crate::answers;

    /// 02: over any calls the list answers as a plain map does.
    #[test]
    fn the_model_answers_as_a_map_does() {
        let (mut told, mut calls) = (0, 0);
        for seed in 0..400 {
            let rng = &mut Prng::new(seed);
            let mut asking = Asking::new(rng);
            let steps = match seed % 3 {
                0 => asking.crowd(rng, 200),
                _ => (0..200).map(|_| asking.step(rng)).collect(),
            };
            let mut file = Vec::new();
            steps.iter().for_each(|(call, _)| call.put(&mut file));
            let answered = answers::tell(&file);
            assert_eq!(answered.calls.len(), steps.len(), "seed {seed}");
            for (number, (line, (_, map))) in answered.lines.lines().zip(&steps).enumerate() {
                calls += 1;
                if let Some(map) = map {
                    told += 1;
                    assert_eq!(line, format!("{number} {map}"), "seed {seed}");
                }
            }
        }
        assert!(told * 2 > calls, "{told} of {calls}");
    }
}
