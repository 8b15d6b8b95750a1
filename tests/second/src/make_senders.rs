//! Senders that go beyond what demand 3 allows: they restart, lose M-1 and more at a time, send
//! messages longer than the room, break off and mix two messages. The lines are still decided.

use crate::compose::{self, BEGINNING, END, MIDDLE, WHOLE};
use crate::prng::Prng;

pub fn recording(rng: &mut Prng) -> Vec<u8> {
    let channels = rng.pick(&[1, 2, 3, 7]);
    let room = rng.pick(&[24, 40, 100, 100, 700, (65536 / channels).min(9400)]);
    let ids = compose::ids(rng, channels);
    let mut out = compose::setup(channels as u16, room as u32, &ids);
    let mut streams: Vec<Vec<Vec<u8>>> = ids.iter().map(|id| stream(rng, *id, room)).collect();
    // Drawn from the end, so each is turned round first.
    for stream in &mut streams {
        stream.reverse();
    }
    while streams.iter().any(|stream| !stream.is_empty()) {
        let at = rng.below(channels);
        if let Some(datagram) = streams[at].pop() {
            if rng.chance(1, 30) {
                let (bad, _) = compose::refused(rng, &ids, &datagram);
                compose::push(&mut out, &bad);
            }
            compose::push(&mut out, &datagram);
        }
    }
    out
}

/// The datagrams of one sender that arrive. Losses are gaps in the counter: what was lost left
/// nothing else behind.
fn stream(rng: &mut Prng, sender: u16, room: usize) -> Vec<Vec<u8>> {
    let mut out: Vec<Vec<u8>> = Vec::new();
    let mut counter = rng.below(65536) as u16;
    for _ in 0..rng.from_to(1, 25) {
        let small = rng.from_to(1, 60);
        let total = rng.pick(&[1, room.min(700), room.min(700) + 1, room + 30, small]);
        let size = rng
            .from_to(1 + total / 12, 2 + total / 2)
            .min(compose::LONGEST_PIECE);
        let bytes = rng.bytes(total);
        let pieces: Vec<&[u8]> = bytes.chunks(size).collect();
        for (place, piece) in pieces.iter().enumerate() {
            let part = if pieces.len() == 1 {
                WHOLE
            } else if place == 0 {
                BEGINNING
            } else if place + 1 == pieces.len() {
                END
            } else {
                MIDDLE
            };
            out.push(compose::datagram(part, sender, counter, piece));
            let step: u32 = match rng.below(60) {
                0 => 2,
                // M-1 lost: the next bears the same counter and is taken for a repeat.
                1 => 65536,
                // M-2 and M lost.
                2 => 65535,
                3 => 65537,
                // A restart, mostly from 0, in the middle of whatever was under way.
                4 => 65536 - u32::from(counter),
                5 => rng.below(65536) as u32,
                // A repeat that comes a datagram too late is no repeat any more.
                6 if out.len() > 1 => {
                    out.push(out[out.len() - 2].clone());
                    1
                }
                7 | 8 => {
                    out.push(out[out.len() - 1].clone());
                    1
                }
                _ => 1,
            };
            counter = ((u32::from(counter) + step) % 65536) as u16;
            // The sender breaks off and begins its next message.
            if rng.chance(1, 50) {
                break;
            }
        }
    }
    out
}
