//! The platform call and requests among partners of both issues: one after another on one platform, whose list, services and set-up are
//! forged from time to time.

use super::partners::any_message_3;
use super::platforms::{any_room, some_tables, turn, Given};
use super::state::{any_platform, Both};
use crate::pair::{our_any_heard, our_sent, our_services, our_stamp, plain_services, OWN};
use crate::tables::{id_of, message_3, services_3, Random};
use bench::plain::mixed::{self, Among};
use bench::plain::partners::Partners;
use bench::plain::replies::Stamp;
use bench::plain::services::{Service, BLOCK};
use bench::plain::types::{self, Sections};
use nyrkovash as ours;

pub fn compare(count: usize, random: &mut Random) {
    let tables = some_tables();
    let mut bench = Bench::new();
    for i in 0..count {
        let given = Given::forged(&tables[turn(i)], random);
        if random.below(48) == 0 {
            bench.both.forge(random);
        }
        if random.below(64) == 0 {
            bench.forge(random);
        }
        bench.receive(&given, false, random);
        bench.receive(&given, true, random);
        bench.send(&given, random);
        bench.ask(random);
    }
}

/// One platform, as each program keeps it, and what is known of its partners.
struct Bench {
    both: Both,
    words: [u64; 4],
    services: Vec<u64>,
    plain: Vec<Service>,
}

/// What one call is handed.
struct Handed {
    bytes: Vec<u8>,
    stamp: Stamp,
    own: Vec<Service>,
    /// How many words of services are lent.
    lent: usize,
    room: usize,
}

impl Bench {
    fn new() -> Bench {
        Bench {
            both: Both::new(),
            words: [0b10101, 0, 0, 0],
            services: vec![0; 3 * BLOCK],
            plain: vec![Service::default(); 3 * BLOCK],
        }
    }

    /// Any words are a set-up, and any are services. Mostly these are nearly full, of services that messages name.
    fn forge(&mut self, random: &mut Random) {
        match random.below(4) {
            0 => self.words = [random.next() % 32, 0, 0, random.next()],
            1 => self
                .services
                .fill_with(|| random.next() >> random.below(64)),
            2 => self.services.fill(0),
            _ => {
                let known = BLOCK - random.below(3);
                for (k, service) in self.services.iter_mut().enumerate() {
                    let id = (k % BLOCK) as u64 + 2;
                    let state = if k % BLOCK < known { 1 + id % 3 } else { 0 };
                    *service = state << 32 | id;
                }
            }
        }
        self.plain = plain_services(&self.services);
    }

    fn alike(&self) {
        self.both.alike();
        assert!(self.services == our_services(&self.plain));
    }

    fn any_bytes(&self, random: &mut Random) -> Vec<u8> {
        let sender = self.any_sender(random);
        match random.below(10) {
            0 | 1 => self.both.any_message(random),
            2 => {
                let up = [0, 0, 0, random.below(2) as u8, 0, 0, 0, 9];
                message_3(0, sender, 1, 7, &up)
            }
            3 => self.both.any_message_3(random),
            4 => message_3(1, sender, id_of(random.below(44) as u32), 7, &[3; 5]),
            5 => {
                let id = [id_of(random.below(44) as u32), u32::MAX][random.below(2)];
                message_3(0, sender, 7, 7, &id.to_be_bytes())
            }
            6 | 7 => {
                let first = [0, 250, 256, 258][random.below(4)] + random.below(4) as u32;
                let ids = first..first + random.below(6) as u32;
                let pairs: Vec<[u32; 2]> = ids.map(|id| [id, random.below(2) as u32]).collect();
                services_3(sender, 7, &pairs)
            }
            _ => any_message_3(random),
        }
    }

    /// Mostly one that speaks Issue 3.
    fn any_sender(&self, random: &mut Random) -> u8 {
        let from = random.below(5) as u8;
        let threes = (from..from + 5).filter(|k| self.words[0] >> k & 1 == 1);
        threes.min().unwrap_or(from)
    }

    fn hand(&self, random: &mut Random) -> Handed {
        let own = (0..random.below(4)).map(|_| Service {
            id: random.below(3) as u32,
            state: random.below(4) as u32,
        });
        let own: Vec<Service> = own.collect();
        let all = self.services.len();
        Handed {
            bytes: self.any_bytes(random),
            stamp: Stamp {
                seconds: random.next() as u32,
                nanoseconds: random.next() as u32,
                composite: random.next() as u32,
            },
            lent: [all, all, all, all - 1, BLOCK, BLOCK - 1, 0][random.below(7)],
            room: any_room(88.max(28 + 8 * own.len()), random),
            own,
        }
    }

    /// By the table's bytes, or by sections. Answer, state and buffers must be the plain program's.
    fn receive(&mut self, given: &Given, by_bytes: bool, random: &mut Random) {
        let handed = self.hand(random);
        if !by_bytes && !given.found_alike(&handed.bytes) {
            return;
        }
        let (mut out, before) = (vec![0; handed.room], any_heard(random));
        let (mut plain_out, mut answer) = (out.clone(), before);
        let (stamp, own) = (our_stamp(&handed.stamp), our_services(&handed.own));
        let set_up = ours::Partners { words: self.words };
        let (platform, table) = (&mut self.both.ours, &given.table);
        let lent = &mut self.services[..handed.lent];
        let number = if by_bytes {
            ours::receive_mixed(
                OWN,
                &stamp,
                &set_up,
                &own,
                platform,
                lent,
                table,
                &handed.bytes,
                &mut out,
                &mut answer,
            )
        } else {
            ours::receive_mixed_in(
                OWN,
                &stamp,
                &set_up,
                &own,
                platform,
                lent,
                table,
                &given.known,
                &handed.bytes,
                &mut out,
                &mut answer,
            )
        };
        let mut whole = Sections::default();
        let (checked, sections) = match by_bytes {
            true => (types::check(table, &mut whole), &whole),
            false => (Ok(()), &given.sections),
        };
        let among = Among {
            stamp: &handed.stamp,
            partners: &Partners { words: self.words },
            ours: &handed.own,
        };
        let (platform, lent) = (&mut self.both.plain, &mut self.plain[..handed.lent]);
        let heard = checked.and_then(|()| {
            platform.receive_mixed_in(among, lent, table, sections, &handed.bytes, &mut plain_out)
        });
        match heard {
            Ok(heard) => assert_eq!((number, answer), (0, our_any_heard(&heard))),
            Err(refused) => assert_eq!((number, answer), (refused, before)),
        }
        assert_eq!(out, plain_out);
        self.alike();
    }

    fn send(&mut self, given: &Given, random: &mut Random) {
        let id = match random.below(8) {
            0 => random.next() as u32,
            1 => id_of(random.below(40) as u32),
            _ => id_of(2 + 4 * random.below(10) as u32),
        };
        if !given.found_alike(&[&[0; 4], &id.to_be_bytes()[..]].concat()) {
            return;
        }
        let (target, length) = (any_platform(random), random.below(40));
        let payload = random.bytes(length);
        let stamp = self.hand(random).stamp;
        let mut out = vec![0; any_room(24 + length, random)];
        let (mut plain_out, before) = (
            out.clone(),
            ours::Sent {
                written: random.next(),
                sequence: random.next(),
            },
        );
        let mut answer = before;
        let number = ours::send_mixed(
            OWN,
            &our_stamp(&stamp),
            &ours::Partners { words: self.words },
            &mut self.both.ours,
            &given.table,
            &given.known,
            id,
            target,
            &payload,
            &mut out,
            &mut answer,
        );
        match self.both.plain.send_mixed(
            &stamp,
            &Partners { words: self.words },
            &given.table,
            &given.sections,
            id,
            target,
            &payload,
            &mut plain_out,
        ) {
            Ok(sent) => assert_eq!((number, answer), (0, our_sent(&sent))),
            Err(refused) => assert_eq!((number, answer), (refused, before)),
        }
        assert_eq!(out, plain_out);
        self.alike();
    }

    /// Of any platform, with any number of words.
    fn ask(&self, random: &mut Random) {
        let lent = random.below(self.services.len() + 1);
        let platform = [random.below(6) as u32, any_platform(random)][random.below(2)];
        let id = [random.below(6), random.below(300)][random.below(2)] as u32;
        let set_up = ours::Partners { words: self.words };
        let plain_set_up = Partners { words: self.words };
        assert_eq!(
            ours::service(&set_up, &self.services[..lent], platform, id),
            mixed::service(&plain_set_up, &self.plain[..lent], platform, id)
        );
    }
}

fn any_heard(random: &mut Random) -> ours::AnyHeard {
    ours::AnyHeard {
        kind: random.next(),
        composite: random.next(),
        ..Default::default()
    }
}
