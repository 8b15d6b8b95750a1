//! Recordings of every kind from a seed: the seed's remainder by 16 names the kind, so that any
//! 16 seeds in a row hold one of each.

use crate::compose::{self, BEGINNING, END, LONGEST_PIECE, MIDDLE, WHOLE};
use crate::prng::Prng;
use crate::{make_bad, make_senders};

pub fn recording(seed: u64) -> Vec<u8> {
    let mut rng = Prng::new(seed ^ 0x616E_7974_6869_6E67);
    let rng = &mut rng;
    match seed % 16 {
        0 | 1 => wild(rng, 1),
        2 => wild(rng, 3),
        3 => wild(rng, 32),
        4..=6 => make_senders::recording(rng),
        7 | 8 => make_bad::setup(rng),
        9 | 10 => {
            let good = some_good(rng);
            make_bad::cut(rng, good)
        }
        11 => {
            let good = some_good(rng);
            make_bad::flipped(rng, good)
        }
        12 => large(rng),
        13 => nonsense(rng),
        14 => make_bad::tiny(rng),
        _ => tight(rng),
    }
}

/// Something with a good set-up, to be damaged.
fn some_good(rng: &mut Prng) -> Vec<u8> {
    match rng.below(7) {
        0 | 1 => wild(rng, 2),
        2 | 3 => make_senders::recording(rng),
        4 | 5 => tight(rng),
        _ => large(rng),
    }
}

/// What a channel may be about to see; a guess that only steers towards the edges.
#[derive(Clone)]
struct Guess {
    last: u16,
    held: usize,
}

/// Datagrams whose parts, counters and lengths follow no sender, drawn close to every edge.
pub fn wild(rng: &mut Prng, channels: usize) -> Vec<u8> {
    let most = (65536 / channels).min(1500);
    let room = rng.pick(&[24, 24, 25, 64, most]);
    let ids = compose::ids(rng, channels);
    let mut out = compose::setup(channels as u16, room as u32, &ids);
    let mut guesses = vec![
        Guess {
            last: rng.below(65536) as u16,
            held: 0
        };
        channels
    ];
    for _ in 0..rng.from_to(0, 400) {
        let channel = rng.below(channels);
        let datagram = wild_datagram(rng, room, ids[channel], &mut guesses[channel]);
        if rng.chance(1, 12) {
            let (bad, _) = compose::refused(rng, &ids, &datagram);
            // The long ones would fill every recording.
            if bad.len() < 10000 || rng.chance(1, 4) {
                compose::push(&mut out, &bad);
            }
        }
        compose::push(&mut out, &datagram);
    }
    out
}

fn wild_datagram(rng: &mut Prng, room: usize, sender: u16, guess: &mut Guess) -> Vec<u8> {
    let counter = match rng.below(100) {
        0..=64 => guess.last.wrapping_add(1),
        65..=79 => guess.last,
        80..=85 => guess.last.wrapping_add(2),
        86..=89 => guess.last.wrapping_sub(1),
        90..=92 => 0,
        93..=95 => 65535,
        96 => guess.last.wrapping_add(32768),
        _ => rng.below(65536) as u16,
    };
    let part = if guess.held > 0 {
        rng.pick(&[MIDDLE, MIDDLE, MIDDLE, END, END, END, BEGINNING, WHOLE])
    } else {
        rng.pick(&[BEGINNING, BEGINNING, BEGINNING, WHOLE, MIDDLE, END])
    };
    let left = room.saturating_sub(guess.held);
    let length = match rng.below(10) {
        0 => left,
        1 => left + 1,
        2 => left.max(2) - 1,
        3 => room,
        4 => room + 1,
        5 => 1,
        _ => rng.from_to(1, 8),
    };
    let length = length.clamp(1, LONGEST_PIECE);
    if counter != guess.last {
        guess.held = match part {
            BEGINNING => length,
            MIDDLE if counter == guess.last.wrapping_add(1) => guess.held + length,
            _ => 0,
        };
        guess.last = counter;
    }
    compose::datagram(part, sender, counter, &rng.bytes(length))
}

/// R = 24, where beginning 24 and end 1 is too long and 23 and 1 is delivered: all lengths near.
fn tight(rng: &mut Prng) -> Vec<u8> {
    let sender = rng.below(4096) as u16;
    let mut out = compose::setup(1, 24, &[sender]);
    let mut counter = rng.pick(&[0, 65500, 65535, 1000]);
    for _ in 0..rng.from_to(1, 150) {
        let first = rng.from_to(21, 25);
        let parts = if rng.chance(1, 2) {
            vec![(BEGINNING, first), (END, rng.from_to(1, 4))]
        } else {
            vec![
                (BEGINNING, first - 10),
                (MIDDLE, rng.from_to(9, 11)),
                (END, rng.from_to(1, 3)),
            ]
        };
        for (part, length) in parts {
            let datagram = compose::datagram(part, sender, counter, &rng.bytes(length));
            compose::push(&mut out, &datagram);
            if rng.chance(1, 6) {
                compose::push(&mut out, &datagram);
            }
            counter = counter.wrapping_add(if rng.chance(1, 20) { 2 } else { 1 });
        }
    }
    out
}

/// Pieces of some 60,000 bytes, rooms of the largest sizes, a few hundred thousand bytes in all; at
/// times megabytes, since a program that reads in blocks has seams there.
fn large(rng: &mut Prng) -> Vec<u8> {
    let room = rng.pick(&[65536, 65535, 65504, 65503, 60000]);
    let sender = rng.below(4096) as u16;
    let mut out = compose::setup(1, room as u32, &[sender]);
    let mut counter = rng.pick(&[65534, 0]);
    let count = if rng.chance(1, 5) {
        60
    } else {
        rng.from_to(3, 9)
    };
    for _ in 0..count {
        let length = rng.pick(&[
            LONGEST_PIECE,
            LONGEST_PIECE - 1,
            60000,
            room - 1,
            1,
            33,
            5536,
        ]);
        let part = rng.pick(&[BEGINNING, BEGINNING, MIDDLE, END, END, WHOLE]);
        let piece = rng.bytes(length.min(LONGEST_PIECE));
        compose::push(&mut out, &compose::datagram(part, sender, counter, &piece));
        counter = counter.wrapping_add(rng.pick(&[1, 1, 1, 1, 0, 2]));
    }
    out
}

/// A good set-up, then bytes that are nothing at all behind lengths that mostly hold.
fn nonsense(rng: &mut Prng) -> Vec<u8> {
    let channels = rng.pick(&[1, 2, 16, 32]);
    // All sixteen platforms' channel 0 and 1: a good part of the nonsense hits one.
    let ids: Vec<u16> = (0..channels as u16)
        .map(|i| i % 16 * 256 + i / 16)
        .collect();
    let mut out = compose::setup(channels as u16, rng.from_to(24, 2048) as u32, &ids);
    for _ in 0..rng.from_to(0, 120) {
        let length = rng.pick(&[0, 1, 3, 4, 5, 5, 6, 10, 40]);
        let mut bytes = rng.bytes(length);
        if rng.chance(3, 4) && length > 4 {
            bytes[0] &= 0x3F;
            bytes[1] &= 0x01;
            bytes[2] = 0;
            bytes[3] &= 0x03;
        }
        compose::push(&mut out, &bytes);
    }
    if rng.chance(1, 3) {
        let length = rng.below(300);
        out.extend(rng.bytes(length));
    }
    out
}

#[cfg(test)]
mod tests {
    use super::*;
    use std::collections::BTreeMap;

    /// The gate's recordings must meet every outcome often, or the comparison shows little.
    #[test]
    fn every_outcome_comes_often_and_files_stay_small() {
        let mut seen: BTreeMap<String, usize> = BTreeMap::new();
        let (mut bytes, mut small) = (0, 0);
        for seed in (0..300).filter(|seed| seed % 3 != 2) {
            let recording = recording(seed);
            assert!(
                recording.len() < 4_000_000,
                "seed {seed}: {} bytes",
                recording.len()
            );
            small += usize::from(recording.len() < 60_000);
            bytes += recording.len();
            for line in crate::replay::lines(&recording).lines() {
                let words: Vec<&str> = line.split(' ').collect();
                let name = match words[0].parse::<u32>() {
                    Err(_) => line.to_string(),
                    Ok(_) if words[1] == "refused" => words[1..].join(" "),
                    Ok(_) => words[1].to_string(),
                };
                *seen.entry(name).or_default() += 1;
            }
        }
        assert!(
            bytes < 40_000_000 && small > 150,
            "{bytes} bytes, {small} small"
        );
        let least = [
            ("repeated", 500),
            ("stray", 500),
            ("too", 500),
            ("held", 500),
            ("delivered", 500),
            ("refused 21", 100),
            ("refused 22", 100),
            ("refused 23", 100),
            ("cut short", 30),
            ("setup refused 20", 10),
        ];
        for (name, least) in least {
            let count = seen.get(name).copied().unwrap_or(0);
            assert!(count >= least, "{name}: {count}");
        }
        assert_eq!(seen.len(), least.len(), "{seen:?}");
    }
}
