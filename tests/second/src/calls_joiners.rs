//! Joiners handed in with a datagram, code 11: good ones, and each way to be bad for 20.

use crate::calls_compose::Call;
use crate::compose::{self, BEGINNING, END, MIDDLE, WHOLE};
use crate::prng::Prng;

#[derive(Clone)]
struct Channel {
    sender: u16,
    seen: u8,
    last: u32,
    held: u32,
}

#[derive(Clone)]
struct Handed {
    room: u32,
    channels: Vec<Channel>,
    rooms: Vec<u8>,
}

pub fn take(rng: &mut Prng) -> Call {
    let mut handed = good(rng);
    let at = rng.below(handed.channels.len());
    let mut datagram = next_datagram(rng, handed.room as usize, &handed.channels[at]);
    if rng.chance(1, 8) {
        let senders: Vec<u16> = handed.channels.iter().map(|c| c.sender).collect();
        let (bad, _) = compose::refused(rng, &senders, &datagram);
        // The long ones would fill every file.
        if bad.len() < 10_000 || rng.chance(1, 4) {
            datagram = bad;
        }
    }
    if rng.chance(1, 4) {
        spoil(rng, &mut handed);
    }
    let records: Vec<u8> = handed.channels.iter().flat_map(record).collect();
    Call::new(11)
        .number(rng, u64::from(handed.room))
        .bytes(&records)
        .bytes(&handed.rooms)
        .bytes(&datagram)
}

fn record(channel: &Channel) -> Vec<u8> {
    let mut out = channel.sender.to_be_bytes().to_vec();
    out.push(channel.seen);
    out.extend(channel.last.to_be_bytes());
    out.extend(channel.held.to_be_bytes());
    out
}

fn good(rng: &mut Prng) -> Handed {
    let (count, room) = match rng.below(80) {
        0 => (1, rng.pick(&[65_560, 65_559, 65_536, 65_503])),
        1 => (rng.from_to(2, 32), 2048),
        2..=5 => (32, 24),
        6..=9 => (31, 25),
        _ => (
            rng.pick(&[1, 1, 2, 3, 6]),
            rng.pick(&[24, 24, 24, 25, 40, 100]),
        ),
    };
    let mut channels = Vec::new();
    for sender in compose::ids(rng, count) {
        let held = match rng.below(7) {
            0 | 1 => 0,
            2 => room,
            3 => room - 1,
            4 => 1,
            _ => rng.below(room + 1),
        };
        channels.push(Channel {
            sender,
            seen: u8::from(rng.chance(5, 6)),
            last: rng.pick(&[0, 1, 9, 65_534, 65_535, 65_535, 40_000]),
            // R10 and R24: held without a counter seen is as good as any other record.
            held: held as u32,
        });
    }
    Handed {
        room: room as u32,
        rooms: rng.bytes(count * room),
        channels,
    }
}

/// A datagram for this channel, mostly the next one, its piece about as long as what is left.
fn next_datagram(rng: &mut Prng, room: usize, channel: &Channel) -> Vec<u8> {
    let last = channel.last as u16;
    let counter = match rng.below(20) {
        0..=11 => last.wrapping_add(1),
        12..=14 => last,
        15 => last.wrapping_add(2),
        16 => last.wrapping_sub(1),
        17 => last.wrapping_add(32_768),
        18 => rng.pick(&[0, 65_535]),
        _ => rng.below(65_536) as u16,
    };
    let left = room - channel.held as usize;
    let length = match rng.below(8) {
        0 => left,
        1 => left + 1,
        2 => left.max(2) - 1,
        3 => room,
        4 => room + 1,
        5 => 1,
        _ => rng.from_to(1, 8),
    };
    let part = rng.pick(&[BEGINNING, MIDDLE, MIDDLE, END, END, WHOLE]);
    let piece = rng.bytes(length.clamp(1, compose::LONGEST_PIECE));
    compose::datagram(part, channel.sender, counter, &piece)
}

/// One of the things that make it 20, at any of the channels.
fn spoil(rng: &mut Prng, handed: &mut Handed) {
    let at = rng.below(handed.channels.len());
    let first = handed.channels[0].sender;
    let one = handed.channels[at].clone();
    let many = handed.channels.len() > 1;
    let channel = &mut handed.channels[at];
    match rng.below(14) {
        0 => handed.channels.clear(),
        1 => more(rng, handed),
        2 => handed.room = rng.pick(&[0, 1, 23, 65_561, 0xFFFF_FFFF]),
        3 => {
            // R itself is not allowed, but the buffer is as long as it says.
            handed.room = 23;
            handed.rooms = rng.bytes(23 * handed.channels.len());
        }
        4 => handed.rooms.push(0),
        5 => handed.rooms.truncate(handed.rooms.len() - 1),
        6 => handed.rooms.clear(),
        7 if at > 0 => channel.sender = first,
        // The same ID once the bits above the twelfth are dropped.
        7 | 8 => channel.sender |= rng.pick(&[0x1000, 0x8000]),
        9 => channel.sender = rng.pick(&[4096, 65_535]),
        10 => channel.held = rng.pick(&[handed.room + 1, 65_561, 0xFFFF_FFFF, 1 << 16]),
        11 => channel.last = rng.pick(&[65_536, 65_537, 1 << 24, 0xFFFF_FFFF]),
        12 => {
            // Judged though nothing was seen.
            (channel.seen, channel.last) = (0, 65_536);
        }
        _ if many => {
            handed.channels.remove(at);
        }
        _ => handed.channels.push(one),
    }
}

/// Too many channels, and everything else as it should be.
fn more(rng: &mut Prng, handed: &mut Handed) {
    let count = rng.pick(&[33, 33, 34, 64, 300]);
    let base = rng.below(3000) as u16;
    handed.room = 24;
    handed.channels = (0..count)
        .map(|number| Channel {
            sender: base + number,
            seen: 0,
            last: 0,
            held: 0,
        })
        .collect();
    handed.rooms = rng.bytes(24 * usize::from(count));
}
