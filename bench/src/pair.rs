//! The plain program's state and answers as the library's structs, and back, so that they can be compared.

mod partners;

pub use partners::*;

use bench::plain::joiner::{Channel, Joiner, Outcome, Place};
use bench::plain::message::{Kind, Message};
use bench::plain::operations::{Operation, Place as Indexed};
use bench::plain::payload::Refused;
use bench::plain::pending::{Pending, Request, Sent, PLACES};
use bench::plain::platform::{Answer, Heard, Platform};
use bench::plain::types::{Bounds, Section, Sections};
use nyrkovash as ours;

pub const OWN: u8 = 1;

pub fn our_joiner(joiner: &Joiner) -> ours::Joiner {
    ours::Joiner {
        count: joiner.count as u32,
        room: joiner.room,
        channel: joiner.channels.map(|c| ours::Channel {
            sender: u32::from(c.sender),
            seen: u32::from(c.seen),
            last: c.last,
            held: c.held,
        }),
    }
}

/// For values that the plain program's types can hold.
pub fn plain_joiner(joiner: &ours::Joiner) -> Joiner {
    Joiner {
        count: joiner.count as usize,
        room: joiner.room,
        channels: joiner.channel.map(|c| Channel {
            sender: c.sender as u16,
            seen: c.seen == 1,
            last: c.last,
            held: c.held,
        }),
    }
}

pub fn our_taken(outcome: Outcome) -> ours::Taken {
    let one = |outcome, missed: u32, bytes: u64| ours::Taken {
        outcome,
        missed: u64::from(missed),
        bytes,
        ..Default::default()
    };
    match outcome {
        Outcome::Repeated => one(1, 0, 0),
        Outcome::Delivered { missed, place } => {
            let (slice, start, length) = match place {
                Place::Datagram { start, length } => (1, start, length),
                Place::Rooms { start, length } => (2, start, length),
            };
            ours::Taken {
                slice,
                start: start as u64,
                ..one(2, missed, length as u64)
            }
        }
        Outcome::Held { missed, held } => one(3, missed, u64::from(held)),
        Outcome::Stray { missed } => one(4, missed, 0),
        Outcome::TooLong { missed } => one(5, missed, 0),
    }
}

pub fn our_message(message: &Message) -> ours::Message {
    let (kind, value) = match message.kind {
        Kind::Status { up } => (1, u32::from(up)),
        Kind::Request => (2, 0),
        Kind::Unknown(id) => (3, id),
        Kind::Pull(id) => (4, id),
        Kind::Operation(id) => (5, id),
    };
    ours::Message {
        kind,
        value: u64::from(value),
        sender: u64::from(message.sender),
        sequence: u64::from(message.sequence),
        payload_start: 20,
        payload_length: message.payload.len() as u64,
    }
}

pub fn our_heard(answer: &Answer) -> ours::Heard {
    let (kind, value, number, start, length) = match answer.heard {
        Heard::Status { up } => (1, u32::from(up), 0, 0, 0),
        Heard::Request => (2, 0, 0, 0, 0),
        Heard::Unknown(id) => (3, id, 0, 0, 0),
        Heard::PullOfAll => (4, 0, 0, 0, 0),
        Heard::PullOfOne(id, entry) => (5, id, entry, 0, 0),
        Heard::NotVersionedData(id) => (6, id, 0, 0, 0),
        Heard::Operation { id, entry, payload } => (7, id, entry, 20, payload.len()),
        Heard::NotInTable(id) => (8, id, 0, 0, 0),
        Heard::Response { id, entry, payload } => (9, id, entry, 20, payload.len()),
    };
    ours::Heard {
        kind,
        value: u64::from(value),
        sender: u64::from(answer.sender),
        sequence: u64::from(answer.sequence),
        number: number as u64,
        payload_start: start,
        payload_length: length as u64,
        replies: answer.written as u64,
    }
}

pub fn our_platform(platform: &Platform) -> ours::Platform {
    let mut pending = [0; 2 * PLACES];
    for (k, request) in platform.pending.0.iter().enumerate() {
        pending[k] = word(request.number, request.id);
        pending[PLACES + k] = request.target;
    }
    ours::Platform {
        up: platform.up,
        next: u64::from(platform.next),
        pending,
    }
}

/// For a next number of 32 bits.
pub fn plain_platform(platform: &ours::Platform) -> Platform {
    let mut pending = Pending::default();
    for (k, request) in pending.0.iter_mut().enumerate() {
        let (number, id) = halves(platform.pending[k]);
        let target = platform.pending[PLACES + k];
        *request = Request { number, id, target };
    }
    Platform {
        own: OWN,
        up: platform.up,
        next: platform.next as u32,
        pending,
    }
}

pub fn our_sent(sent: &Sent) -> ours::Sent {
    ours::Sent {
        written: sent.written as u64,
        sequence: u64::from(sent.number),
    }
}

pub fn our_awaited(request: Option<Request>) -> ours::Awaited {
    request.map_or(ours::Awaited::default(), |request| ours::Awaited {
        found: 1,
        id: u64::from(request.id),
        target: request.target,
    })
}

pub fn our_operation(found: Option<Operation>) -> ours::Operation {
    found.map_or(ours::Operation::default(), |operation| ours::Operation {
        found: 1,
        kind: u64::from(operation.kind),
        carries: u64::from(operation.carries),
        responds: u64::from(operation.responds),
    })
}

/// What unpacking or packing gave, or why and where it did not.
pub fn our_given(given: Result<usize, Refused>) -> Result<usize, ours::Refused> {
    given.map_err(|refused| ours::Refused {
        number: refused.number,
        spot: refused.spot.map(|spot| ours::Spot {
            at: spot.at,
            leaves: spot.leaves,
        }),
    })
}

pub fn our_sections(s: &Sections) -> ours::Sections {
    let b = &s.bounds;
    let mut sections = ours::Sections::default();
    let (bounds, index) = sections.words.split_at_mut(BOUNDS);
    for (two, section) in
        bounds
            .chunks_exact_mut(2)
            .zip([b.types, b.members, b.values, b.operations])
    {
        two[0] = section.at as u64;
        two[1] = section.count as u64;
    }
    for (one, place) in index.iter_mut().zip(&s.index) {
        *one = word(place.id, place.at);
    }
    sections
}

pub fn plain_sections(sections: &ours::Sections) -> Sections {
    let (bounds, index) = sections.words.split_at(BOUNDS);
    let one = |i: usize| Section {
        at: bounds[i] as usize,
        count: bounds[i + 1] as usize,
    };
    let mut plain = Sections {
        bounds: Bounds {
            types: one(0),
            members: one(2),
            values: one(4),
            operations: one(6),
        },
        ..Sections::default()
    };
    for (place, one) in plain.index.iter_mut().zip(index) {
        let (id, at) = halves(*one);
        *place = Indexed { id, at };
    }
    plain
}

/// How many words of the sections say where they lie; the index follows.
pub const BOUNDS: usize = 8;

pub fn word(upper: u32, lower: u32) -> u64 {
    u64::from(upper) << 32 | u64::from(lower)
}

fn halves(word: u64) -> (u32, u32) {
    ((word >> 32) as u32, word as u32)
}
