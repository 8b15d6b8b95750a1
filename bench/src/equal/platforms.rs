//! The platform call, and the calls of requests: one after another on one platform, whose list is forged from time to time.

use super::lookups::{forge, found_alike, Checked};
use super::spoil;
use super::state::{any_platform, Both};
use crate::pair::{our_awaited, our_heard, our_sent, plain_sections, OWN};
use crate::tables::{self, id_of, operations_of_both, Random};
use bench::plain::types::{self, Sections};
use nyrkovash as ours;

/// Tables with operations of all kinds, with no versioned data, with that at the end, and small ones.
pub fn some_tables() -> [Checked; 5] {
    let of_both = operations_of_both(42);
    let (data, mut data_last): (Vec<_>, Vec<_>) = of_both.iter().partition(|o| o.1 == 1);
    let no_data = tables::large_table(1, &data_last);
    data_last.extend(data.last());
    [
        tables::large_table(8, &of_both),
        no_data,
        tables::large_table(1, &data_last),
        tables::record_of_all(),
        tables::table(&[[0, 8, 0, 0]], &[], &[], &[(0x103, 0, 0xFFFF, 0)]),
    ]
    .map(Checked::new)
}

/// Which of these a call goes by. A table stays for some calls: else what is pending under it is seldom asked for under it.
pub fn turn(i: usize) -> usize {
    let turns = [0, 0, 1, 3, 0, 2, 0, 4];
    turns[i / 40 % turns.len()]
}

pub fn compare(count: usize, random: &mut Random) {
    let tables = some_tables();
    let mut both = Both::new();
    for i in 0..count {
        let given = Given::forged(&tables[turn(i)], random);
        if random.below(48) == 0 {
            both.forge(random);
        }
        both.receive(&given, random);
        both.receive_by_bytes(&given, random);
        both.send(&given, random);
        both.look(random);
        if random.below(3) == 0 {
            both.cancel(random);
        }
    }
}

/// A table, not always whole, and the sections of the whole one for both, not always as its check gave them.
pub struct Given {
    pub table: Vec<u8>,
    pub known: ours::Sections,
    pub sections: Sections,
}

impl Given {
    pub fn forged(whole: &Checked, random: &mut Random) -> Given {
        let (mut table, mut known) = (whole.table.clone(), whole.known);
        if random.below(16) == 0 {
            spoil(&mut table, random);
        }
        if random.below(32) == 0 {
            forge(&mut known, random);
        }
        Given {
            table,
            known,
            sections: plain_sections(&known),
        }
    }

    /// Whether both find the same for every number that the bytes could ask for, in either issue's places.
    pub fn found_alike(&self, bytes: &[u8]) -> bool {
        [4, 8, 20, 24].iter().all(|at| {
            let id = bytes.get(*at..at + 4).map(|id| id.try_into().unwrap());
            id.map_or(true, |id| {
                found_alike(&self.table, &self.sections, u32::from_be_bytes(id))
            })
        })
    }
}

impl Both {
    fn receive(&mut self, given: &Given, random: &mut Random) {
        let bytes = self.any_message(random);
        if !given.found_alike(&bytes) {
            return;
        }
        let mut out = vec![0; any_room(48, random)];
        let (mut plain_out, before) = (out.clone(), any_heard(random));
        let mut answer = before;
        let number = ours::receive_in(
            OWN,
            &mut self.ours,
            &given.table,
            &given.known,
            &bytes,
            &mut out,
            &mut answer,
        );
        match self
            .plain
            .receive_in(&given.table, &given.sections, &bytes, &mut plain_out)
        {
            Ok(heard) => assert_eq!((number, answer), (0, our_heard(&heard))),
            Err(refused) => assert_eq!((number, answer), (refused, before)),
        }
        assert_eq!(out, plain_out);
        self.alike();
    }

    fn receive_by_bytes(&mut self, given: &Given, random: &mut Random) {
        let bytes = self.any_message(random);
        let mut out = vec![0; any_room(48, random)];
        let (mut plain_out, before) = (out.clone(), any_heard(random));
        let mut answer = before;
        let number = ours::receive(
            OWN,
            &mut self.ours,
            &given.table,
            &bytes,
            &mut out,
            &mut answer,
        );
        let mut sections = Sections::default();
        match types::check(&given.table, &mut sections).and_then(|()| {
            self.plain
                .receive_in(&given.table, &sections, &bytes, &mut plain_out)
        }) {
            Ok(heard) => assert_eq!((number, answer), (0, our_heard(&heard))),
            Err(refused) => assert_eq!((number, answer), (refused, before)),
        }
        assert_eq!(out, plain_out);
        self.alike();
    }

    fn send(&mut self, given: &Given, random: &mut Random) {
        let id = match random.below(8) {
            0 => random.next() as u32,
            1 => id_of(random.below(40) as u32),
            _ => id_of(2 + 4 * random.below(10) as u32),
        };
        if !found_alike(&given.table, &given.sections, id) {
            return;
        }
        let target = any_platform(random);
        let length = random.below(40);
        let payload = random.bytes(length);
        let mut out = vec![0; any_room(20 + length, random)];
        let (mut plain_out, before) = (
            out.clone(),
            ours::Sent {
                written: random.next(),
                sequence: random.next(),
            },
        );
        let mut answer = before;
        let number = ours::send(
            OWN,
            &mut self.ours,
            &given.table,
            &given.known,
            id,
            target,
            &payload,
            &mut out,
            &mut answer,
        );
        let (table, sections) = (&given.table, &given.sections);
        match self
            .plain
            .send(table, sections, id, target, &payload, &mut plain_out)
        {
            Ok(sent) => assert_eq!((number, answer), (0, our_sent(&sent))),
            Err(refused) => assert_eq!((number, answer), (refused, before)),
        }
        assert_eq!(out, plain_out);
        self.alike();
    }

    fn cancel(&mut self, random: &mut Random) {
        let (sequence, mut cancelled) = (self.any_number(random), 7);
        assert_eq!(
            ours::cancel(&mut self.ours, sequence, &mut cancelled),
            ours::OK
        );
        assert_eq!(cancelled, usize::from(self.plain.cancel(sequence)));
        self.alike();
    }

    fn look(&self, random: &mut Random) {
        let (sequence, mut awaited) = (self.any_number(random), ours::Awaited::default());
        assert_eq!(ours::pending(&self.ours, sequence, &mut awaited), ours::OK);
        assert_eq!(awaited, our_awaited(self.plain.pending(sequence)));
        self.alike();
    }
}

/// Mostly enough.
pub fn any_room(enough: usize, random: &mut Random) -> usize {
    if random.below(4) == 0 {
        random.below(enough + 2)
    } else {
        enough
    }
}

fn any_heard(random: &mut Random) -> ours::Heard {
    ours::Heard {
        kind: random.next(),
        replies: random.next(),
        ..Default::default()
    }
}
