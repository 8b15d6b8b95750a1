//! Cutting at its edges, codes 3 and 12.

use crate::calls_compose::{room, Call};
use crate::prng::Prng;

/// What a 64-bit number is when it must not be cut to 8, 16 or 32 bits.
fn far(rng: &mut Prng, near: u64) -> u64 {
    rng.pick(&[near + (1 << 32), near + (1 << 16), near | 1 << 63, u64::MAX])
}

fn size(rng: &mut Prng, length: u64) -> u64 {
    match rng.below(30) {
        0 => 0,
        1 => 65_504,
        2 => {
            let near = rng.from_to(1, 20) as u64;
            far(rng, near)
        }
        3 | 4 => 65_503,
        5 | 6 => length.clamp(1, 65_503),
        7 => (length + 1).clamp(1, 65_503),
        8 => length.clamp(2, 65_503) - 1,
        9 | 10 => 1,
        // Halves, thirds and so on: the last piece is full or not.
        _ => (length / rng.from_to(2, 6) as u64 + rng.below(2) as u64).clamp(1, 65_503),
    }
}

/// Code 12.
pub fn pieces(rng: &mut Prng) -> Call {
    let length = match rng.below(10) {
        0 => 0,
        1 => 65_561,
        2 => far(rng, 9),
        3..=5 => rng.pick(&[1, 65_503, 65_504, 65_560]),
        _ => rng.from_to(1, 65_560) as u64,
    };
    let size = size(rng, length.min(65_560));
    Call::new(12).number(rng, length).number(rng, size)
}

/// Code 3.
pub fn piece(rng: &mut Prng) -> Call {
    let length = match rng.below(60) {
        0 | 1 => 0,
        2 | 3 => rng.pick(&[65_502, 65_503, 65_504, 65_560]),
        4 => rng.pick(&[65_561, 65_562, 70_000]),
        5..=9 => 1,
        _ => rng.from_to(1, 60),
    };
    let message = rng.bytes(length);
    let size = size(rng, length as u64);
    let count = (length as u64).div_ceil(size.max(1));
    let wanted = match rng.below(12) {
        0 => count,
        1 => count + rng.below(3) as u64,
        2 => far(rng, 0),
        3..=5 => 0,
        6 | 7 => count.max(1) - 1,
        _ => rng.below(count.max(1) as usize) as u64,
    };
    let sender = match rng.below(24) {
        0 => rng.pick(&[4096, 4097, 65_535]),
        1 => far(rng, 5),
        _ => rng.pick(&[0, 1, 255, 256, 0x102, 4095]),
    };
    let first = match rng.below(24) {
        0 => rng.pick(&[65_536, 65_537]),
        1 => far(rng, 5),
        2..=8 => 65_536 - 1 - rng.below(5) as u64,
        _ => rng.below(65_536) as u64,
    };
    let whole = wanted.saturating_add(1) < count;
    let left = (length as u64).saturating_sub(wanted.saturating_mul(size));
    let needed = 4 + if whole { size } else { left.min(size) };
    let room = room(rng, needed as usize, 70_000);
    Call::new(3)
        .bytes(&message)
        .number(rng, size)
        .number(rng, sender)
        .number(rng, first)
        .number(rng, wanted)
        .number(rng, room)
}
