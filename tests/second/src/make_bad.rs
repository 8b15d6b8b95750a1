//! Recordings that are refused or end where they must not.

use crate::compose;
use crate::prng::Prng;

const COUNTS: [u16; 8] = [0, 1, 2, 31, 32, 33, 256, 65535];
const ROOMS: [u32; 14] = [
    0,
    1,
    23,
    24,
    2048,
    2049,
    32768,
    32769,
    65535,
    65536,
    65537,
    65560,
    65561,
    0xFFFF_FFFF,
];

/// A set-up at the edges, mostly a bad one, with datagrams behind it that must not be read then.
pub fn setup(rng: &mut Prng) -> Vec<u8> {
    let (count, room, ids) = match rng.below(3) {
        0 => {
            let count = rng.pick(&COUNTS);
            (
                count,
                rng.pick(&ROOMS),
                compose::ids(rng, usize::from(count).min(40)),
            )
        }
        1 => {
            // Count and R are allowed one by one; the product is near 65,536 on either side.
            let count = rng.from_to(1, 32);
            let room = (65536 / count + rng.below(3)).max(25) - 1;
            (count as u16, room as u32, compose::ids(rng, count))
        }
        _ => {
            let count = rng.from_to(1, 32);
            let mut ids = compose::ids(rng, count);
            let at = rng.below(count);
            match rng.below(4) {
                0 => ids[at] = ids[rng.below(count)],
                // The same ID once the bits above the twelfth are dropped.
                1 => ids[at] |= 0x1000,
                2 => ids[at] = rng.pick(&[4096, 4097, 8191, 32768, 65535]),
                _ => {}
            }
            (count as u16, 24 + rng.below(100) as u32, ids)
        }
    };
    let mut out = compose::setup(count, room, &ids);
    if rng.chance(1, 4) {
        // Bad and cut: which of the two is said depends on how far reading went.
        out.truncate(rng.below(out.len() + 1));
        return out;
    }
    for counter in 0..rng.below(5) {
        let sender = ids.first().map_or(1, |id| id % 4096);
        compose::push(
            &mut out,
            &compose::datagram(compose::WHOLE, sender, counter as u16, b"hello"),
        );
    }
    out
}

/// Where each of a good recording's fields begins: count, R, each ID, each length, each datagram.
fn fields(recording: &[u8]) -> Vec<usize> {
    let count = usize::from(recording[1]);
    let mut out = vec![0, 2];
    out.extend((0..count).map(|i| 6 + 2 * i));
    let mut at = 6 + 2 * count;
    while at < recording.len() {
        out.push(at);
        out.push(at + 2);
        at += 2 + usize::from(recording[at]) * 256 + usize::from(recording[at + 1]);
    }
    out.push(recording.len());
    out
}

/// A good recording that ends early: at the edge of a field, one beside it, or anywhere.
pub fn cut(rng: &mut Prng, mut good: Vec<u8>) -> Vec<u8> {
    let at = match rng.below(6) {
        0 => rng.below(good.len() + 1),
        1 => rng.below(80.min(good.len() + 1)),
        // Round a multiple of 4,096, where a block that was read may end.
        2 => (4096 * rng.from_to(1, good.len() / 4096 + 1) + rng.below(3)) - 1,
        _ => {
            let edge = rng.pick(&fields(&good));
            match rng.below(3) {
                0 => edge,
                1 => edge + 1,
                _ => edge.max(1) - 1,
            }
        }
    };
    good.truncate(at);
    good
}

/// A good recording with a few bytes changed, dropped or put in: lengths then lie, and what
/// follows is read out of step.
pub fn flipped(rng: &mut Prng, mut good: Vec<u8>) -> Vec<u8> {
    for _ in 0..rng.from_to(1, 4) {
        let reach = if rng.chance(1, 4) {
            60.min(good.len())
        } else {
            good.len()
        };
        if reach == 0 {
            break;
        }
        let at = rng.below(reach);
        match rng.below(6) {
            0 => {
                good.remove(at);
            }
            1 => good.insert(at, rng.below(256) as u8),
            2 => good[at] = rng.below(256) as u8,
            _ => good[at] ^= 1 << rng.below(8),
        }
    }
    good
}

/// Files of a few bytes, and one byte of anything behind a good set-up.
pub fn tiny(rng: &mut Prng) -> Vec<u8> {
    match rng.below(3) {
        0 => {
            let length = rng.below(12);
            rng.bytes(length)
        }
        1 => {
            let mut out = compose::setup(1, 24, &[1]);
            out.truncate(rng.below(9));
            out
        }
        _ => {
            let mut out = compose::setup(1, 24, &[1]);
            let length = rng.below(8);
            out.extend(rng.bytes(length).iter().map(|byte| byte % 6));
            out
        }
    }
}
