//! Calls that are bad, and files that end where they must not.

use crate::calls_compose::Call;
use crate::prng::Prng;

/// Each code's arguments: a digit pair is a number's bits, `o` and `v` are outputs' lengths in
/// bytes and in words, `b` is bytes, `w` words, `l` a list's words, `r` records.
pub fn arguments(code: u16) -> impl Iterator<Item = &'static str> {
    let kinds = match code {
        1 => "08 b",
        2 => "08 08 32 32 b o",
        3 => "b 64 64 64 64 o",
        4 => "b",
        5 | 13 | 16 => "b 16 b v",
        6 | 14 | 17 => "b 16 w o",
        7 => "08",
        8 => "b b o",
        9 => "32",
        10 => "",
        11 => "32 r b b",
        12 => "64 64",
        15 => "b 32",
        20 => "b 32 32 b o",
        21 | 22 => "32",
        23 => "08 32 l",
        81 => "08 b b",
        82 => "08 32 32 08 32 32 b o",
        83 => "08 b",
        84 => "32 32 32 w b b o",
        85 => "32 32",
        86 => "32",
        87 => "32 32 32 w v b b o",
        88 => "32 32 b 32 32 b o",
        _ => panic!("{code} is no code"),
    };
    kinds.split_whitespace()
}

/// A good call made bad; calls behind it must not be answered.
pub fn bad(rng: &mut Prng, good: &Call) -> Vec<u8> {
    let kinds: Vec<&str> = arguments(good.code).collect();
    assert_eq!(kinds.len(), good.arguments.len(), "code {}", good.code);
    let mut call = good.clone();
    if kinds.is_empty() || rng.chance(1, 4) {
        wrong_head(rng, &mut call);
        return call.file();
    }
    let at = rng.below(kinds.len());
    if rng.chance(1, 4) {
        return too_long(rng, &call, at, kinds[at]);
    }
    call.arguments[at] = wrong_argument(rng, &call.arguments[at], kinds[at]);
    call.file()
}

/// A code or a number of arguments that does not exist.
fn wrong_head(rng: &mut Prng, call: &mut Call) {
    match rng.below(4) {
        0 => call.code = rng.pick(&[0, 18, 19, 24, 80, 89, 255, 256, 0x1400, 0xFFFF]),
        1 => call.code |= 0x0100,
        2 if !call.arguments.is_empty() => {
            call.arguments.pop();
        }
        _ => {
            let more = rng.pick(&[1, 1, 2, 256]);
            call.arguments.extend((0..more).map(|_| vec![0]));
        }
    }
}

/// The call up to an argument whose length is over what is taken; its bytes may be there or not.
fn too_long(rng: &mut Prng, call: &Call, at: usize, kind: &str) -> Vec<u8> {
    let most: u32 = match kind {
        "b" | "r" => 70_000,
        "w" => 524_288,
        "l" => 1024,
        _ => 8,
    };
    let length = match rng.below(3) {
        0 => most + 1,
        // A multiple of eight and of eleven: nothing is wrong with it but its length.
        1 => (most / 88 + 1) * 88,
        _ => rng.pick(&[most + 8, 0x0100_0000, 0x8000_0000, 0xFFFF_FFFF]),
    };
    let mut head = call.clone();
    let behind = head.arguments.split_off(at);
    let mut out = head.file();
    out[2..4].copy_from_slice(&(call.arguments.len() as u16).to_be_bytes());
    out.extend(length.to_be_bytes());
    if length < 600_000 && rng.chance(1, 3) {
        out.extend(vec![0; length as usize]);
        for argument in &behind[1..] {
            out.extend((argument.len() as u32).to_be_bytes());
            out.extend(argument);
        }
    } else if rng.chance(1, 2) {
        out.extend(rng.bytes(5));
    }
    out
}

fn wrong_argument(rng: &mut Prng, good: &[u8], kind: &str) -> Vec<u8> {
    let mut out = good.to_vec();
    match kind {
        "b" => out = vec![0; 70_001],
        "w" | "l" => match rng.below(3) {
            0 => out.push(0),
            1 if !out.is_empty() => {
                out.pop();
            }
            _ => out.extend([0; 4]),
        },
        "r" => match rng.below(3) {
            0 => out.push(0),
            1 if !out.is_empty() => {
                out.pop();
            }
            _ => {
                // Nothing is wrong with the records but that one of them is neither seen nor not.
                out.extend([0x0F, 0xFE, rng.pick(&[2, 3, 255]), 0, 0, 0, 0, 0, 0, 0, 0]);
            }
        },
        // No bytes at all, nine of them, or a value too wide or too large.
        _ => match rng.below(4) {
            0 => out.clear(),
            1 => out = vec![0, 0, 0, 0, 0, 0, 0, 0, 1],
            _ => out = rng.pick(&over(kind)).to_be_bytes().to_vec(),
        },
    }
    out
}

/// Values that a number of this kind must not have; a 64-bit one may have any.
pub fn over(kind: &str) -> Vec<u64> {
    match kind {
        "08" => vec![1 << 8, 257, 1 << 32, u64::MAX],
        "16" => vec![1 << 16, 1 << 32, 1 << 63],
        "32" => vec![1 << 32, (1 << 32) + 24, u64::MAX],
        "o" => vec![70_001, 70_002, (1 << 32) + 48, u64::MAX],
        "v" => vec![65_537, 70_000, 1 << 32, u64::MAX],
        _ => vec![0, 1 << 32, u64::MAX],
    }
}

/// Where each field of a call begins, and where it ends.
pub fn edges(call: &Call) -> Vec<usize> {
    let mut out = vec![0, 2, 4];
    let mut at = 4;
    for argument in &call.arguments {
        at += 4;
        out.push(at);
        at += argument.len();
        out.push(at);
    }
    out
}

/// A call that ends early: at the edge of a field, one beside it, or anywhere.
pub fn cut(rng: &mut Prng, call: &Call) -> Vec<u8> {
    let mut out = call.file();
    let edge = rng.pick(&edges(call));
    let at = match rng.below(4) {
        0 => edge,
        1 => edge + 1,
        2 => edge.max(1) - 1,
        _ => rng.below(out.len()),
    };
    out.truncate(at);
    out
}
