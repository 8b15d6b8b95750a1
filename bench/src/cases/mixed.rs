//! The platform call among partners of both issues: 2 speaks Issue 6, 3 and 5 speak Issue 3.

use super::lookups::checked;
use crate::measure::{opaque, Case};
use crate::pair::{
    our_any_heard, our_platform, our_services, our_stamp, plain_services, word, OWN,
};
use crate::tables::services_3;
use bench::plain::mixed::{Among, AnyAnswer};
use bench::plain::partners::Partners;
use bench::plain::platform::Platform;
use bench::plain::replies::Stamp;
use bench::plain::services::{Service, AVAILABLE, BLOCK};
use bench::plain::types::Sections;
use nyrkovash as ours;

type Receive = for<'m> fn(
    &mut Platform,
    Among,
    &mut [Service],
    &[u8],
    &Sections,
    &'m [u8],
    &mut [u8],
) -> Result<AnyAnswer<'m>, u32>;

pub const THREES: [u64; 4] = [1 << 3 | 1 << 5, 0, 0, 0];
pub const STAMP: Stamp = Stamp {
    seconds: 5,
    nanoseconds: 6,
    composite: 9,
};

/// A status of services 1 to 256 of platform 5, whose block is the second.
pub fn of_256_services() -> Vec<u8> {
    let pairs: Vec<[u32; 2]> = (1..=256).map(|id| [id, 1]).collect();
    services_3(5, 7, &pairs)
}

/// The library's side: all that a call is lent.
struct Ours {
    stamp: ours::Stamp,
    partners: ours::Partners,
    own: [u64; 1],
    state: ours::Platform,
    services: Vec<u64>,
    table: Vec<u8>,
    known: ours::Sections,
    bytes: Vec<u8>,
    out: [u8; 88],
    heard: ours::AnyHeard,
}

impl Ours {
    fn new(table: &[u8], bytes: &[u8]) -> Ours {
        let mut state = ours::Platform::default();
        assert_eq!(ours::start(OWN, &mut state), 0);
        Ours {
            stamp: our_stamp(&STAMP),
            partners: ours::Partners { words: THREES },
            own: [word(AVAILABLE, 21)],
            state,
            services: vec![0; 2 * BLOCK],
            table: table.to_vec(),
            known: checked(table).0,
            bytes: bytes.to_vec(),
            out: [0; 88],
            heard: ours::AnyHeard::default(),
        }
    }

    fn call(&mut self) {
        let number = ours::receive_mixed_in(
            OWN,
            &self.stamp,
            &self.partners,
            &self.own,
            &mut self.state,
            &mut self.services,
            &self.table,
            &self.known,
            &self.bytes,
            &mut self.out,
            &mut self.heard,
        );
        assert_eq!(number, 0);
    }
}

/// The plain program's side.
struct Plain {
    partners: Partners,
    own: Vec<Service>,
    platform: Platform,
    services: Vec<Service>,
    table: Vec<u8>,
    sections: Sections,
    bytes: Vec<u8>,
    out: [u8; 88],
}

impl Plain {
    fn new(table: &[u8], bytes: &[u8]) -> Plain {
        Plain {
            partners: Partners { words: THREES },
            own: plain_services(&[word(AVAILABLE, 21)]),
            platform: Platform::new(OWN),
            services: plain_services(&[0; 2 * BLOCK]),
            table: table.to_vec(),
            sections: checked(table).1,
            bytes: bytes.to_vec(),
            out: [0; 88],
        }
    }

    fn call(&mut self, receive: Receive) -> AnyAnswer<'_> {
        let among = Among {
            stamp: &STAMP,
            partners: &self.partners,
            ours: &self.own,
        };
        let heard = receive(
            &mut self.platform,
            among,
            &mut self.services,
            &self.table,
            &self.sections,
            &self.bytes,
            &mut self.out,
        );
        heard.unwrap()
    }
}

/// What the services are before each call.
#[derive(Clone, Copy, PartialEq)]
pub enum Known {
    /// As the call before left them.
    Kept,
    Fresh,
}

pub fn hearing(table: &[u8], bytes: &[u8], known: Known) -> Case {
    let (mut ours, mut plain) = (Ours::new(table, bytes), Plain::new(table, bytes));
    ours.call();
    let heard = our_any_heard(&plain.call(Platform::receive_mixed_in));
    assert_eq!(ours.heard, heard);
    assert_eq!(ours.state, our_platform(&plain.platform));
    assert_eq!(ours.services, our_services(&plain.services));
    assert_eq!(ours.out, plain.out);
    Case {
        ours: Box::new(move |count| {
            for _ in 0..count {
                if known == Known::Fresh {
                    ours.services.fill(0);
                }
                ours.call();
            }
        }),
        plain: Box::new(move |count| {
            let receive = opaque(Platform::receive_mixed_in as Receive);
            for _ in 0..count {
                if known == Known::Fresh {
                    plain.services.fill(Service::default());
                }
                plain.call(receive);
            }
        }),
        bare: None,
    }
}

/// The same, of Issue 6, beside the library's own call that knows Issue 6 alone.
pub fn beside_issue_6_alone(table: &[u8], bytes: &[u8]) -> Case {
    let (mut ours, mut alone) = (Ours::new(table, bytes), Ours::new(table, bytes));
    let mut heard = ours::Heard::default();
    Case {
        ours: Box::new(move |count| (0..count).for_each(|_| ours.call())),
        plain: Box::new(move |count| {
            for _ in 0..count {
                let number = ours::receive_in(
                    OWN,
                    &mut alone.state,
                    &alone.table,
                    &alone.known,
                    &alone.bytes,
                    &mut alone.out,
                    &mut heard,
                );
                assert_eq!(number, 0);
            }
        }),
        bare: None,
    }
}
