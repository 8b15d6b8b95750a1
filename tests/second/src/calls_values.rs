//! Values of a type as lists of leaves, each with its word and its bytes on the wire, made
//! without the model; and the same lists spoilt.

use crate::calls_tables::{ends, integer, width, Draft, CHAR8};
use crate::prng::Prng;

#[derive(Clone, Debug, PartialEq, Eq)]
pub enum Of {
    Base(u16),
    /// The base code, and the values it may have.
    Enum(u16, Vec<u64>),
    /// An array's count, and its maximum.
    Count(u64),
}

#[derive(Clone, Debug)]
pub struct Leaf {
    pub of: Of,
    pub word: u64,
    pub wire: Vec<u8>,
}

pub fn words(leaves: &[Leaf]) -> Vec<u64> {
    leaves.iter().map(|leaf| leaf.word).collect()
}

pub fn payload(leaves: &[Leaf]) -> Vec<u8> {
    leaves.iter().flat_map(|leaf| leaf.wire.clone()).collect()
}

/// The low bytes of a number in two's complement.
fn low(value: i128, width: usize) -> Vec<u8> {
    value.to_be_bytes()[16 - width..].to_vec()
}

/// A value of an accepted table's type.
pub fn value(rng: &mut Prng, draft: &Draft, of: u16) -> Vec<Leaf> {
    let mut out = Vec::new();
    fill(rng, draft, of, &mut out);
    out
}

fn fill(rng: &mut Prng, draft: &Draft, of: u16, out: &mut Vec<Leaf>) {
    let [kind, inner, first, count] = draft.types[usize::from(of)];
    let (from, to) = (usize::from(first), usize::from(first) + usize::from(count));
    match kind {
        0 => out.push(base(rng, inner)),
        1 => {
            let own = draft.values[from..to].to_vec();
            let word = rng.pick(&own);
            let wire = low(i128::from(word), width(inner));
            out.push(Leaf {
                of: Of::Enum(inner, own),
                word,
                wire,
            });
        }
        2 => (from..to).for_each(|m| fill(rng, draft, draft.members[m], out)),
        3 => (0..count).for_each(|_| fill(rng, draft, inner, out)),
        _ => {
            let most = u64::from(count);
            let count = match rng.below(8) {
                0 => 0,
                1 | 2 => most,
                _ => rng.below(7) as u64,
            };
            let count = count.min(most);
            out.push(counted(count, most));
            (0..count).for_each(|_| fill(rng, draft, inner, out));
        }
    }
}

fn counted(count: u64, most: u64) -> Leaf {
    Leaf {
        of: Of::Count(most),
        word: count,
        wire: low(i128::from(count), 4),
    }
}

fn base(rng: &mut Prng, code: u16) -> Leaf {
    let (word, wire) = match code {
        0 => {
            let byte = rng.pick(&[0, 0, 1, 1, 2, 7, 128, 255]);
            (u64::from(byte != 0), vec![byte])
        }
        11 => {
            let bits = float(rng, 8, 23);
            (bits, low(i128::from(bits), 4))
        }
        12 => {
            let bits = float(rng, 11, 52);
            (bits, low(i128::from(bits), 8))
        }
        _ => {
            let value = integer(rng, code);
            (value as u64, low(value, width(code)))
        }
    };
    Leaf {
        of: Of::Base(code),
        word,
        wire,
    }
}

/// Sign, an exponent that is not all ones, and a fraction: often the last finite or the zeros.
fn float(rng: &mut Prng, exponent_bits: u32, fraction_bits: u32) -> u64 {
    let ones = (1u64 << exponent_bits) - 1;
    let fractions = (1u64 << fraction_bits) - 1;
    let exponent = match rng.below(4) {
        0 => 0,
        1 => ones - 1,
        _ => rng.draw() % ones,
    };
    let fraction = match rng.below(4) {
        0 => 0,
        1 => fractions,
        _ => rng.draw() & fractions,
    };
    let sign = rng.below(2) as u64;
    (sign << exponent_bits | exponent) << fraction_bits | fraction
}

/// What a float must not be: all ones in the exponent, infinite or not a number.
fn not_finite(rng: &mut Prng, exponent_bits: u32, fraction_bits: u32) -> u64 {
    let sign = rng.below(2) as u64;
    let ones = (1u64 << exponent_bits) - 1;
    let fraction = rng.pick(&[0, 1, (1 << fraction_bits) - 1, 1 << (fraction_bits - 1)]);
    (sign << exponent_bits | ones) << fraction_bits | fraction
}

/// A word outside its leaf: just outside, or one that would be inside if it were cut to its width.
pub fn outside(rng: &mut Prng, leaf: &Leaf) -> u64 {
    match &leaf.of {
        Of::Base(0) => rng.pick(&[2, 255, 256, 257, u64::MAX]),
        Of::Base(11) => match rng.below(3) {
            0 => 1 << 32 | leaf.word,
            _ => not_finite(rng, 8, 23),
        },
        Of::Base(12) => not_finite(rng, 11, 52),
        // Half of them are what a byte could be.
        Of::Base(CHAR8) => match rng.below(4) {
            0 => rng.pick(&[128, 255, 256, u64::MAX]),
            1 => leaf.word | 1 << rng.from_to(8, 63),
            _ => leaf.word | 1 << 7,
        },
        Of::Base(code) => {
            let (least, greatest) = ends(*code);
            match rng.below(3) {
                0 => (greatest + 1) as u64,
                1 => (least - 1) as u64,
                // The bits of the wire, zero-extended where a sign belongs, or one bit above.
                _ => {
                    leaf.wire
                        .iter()
                        .fold(0, |sum, byte| sum << 8 | u64::from(*byte))
                        | 1u64.checked_shl(8 * leaf.wire.len() as u32).unwrap_or(0)
                }
            }
        }
        Of::Enum(code, own) => match rng.below(4) {
            0 => own[0].wrapping_add(1),
            1 => (ends(*code).1 + 1) as u64,
            2 => own[0] ^ 1 << rng.below(64),
            _ => integer(rng, *code) as u64,
        },
        Of::Count(most) => rng.pick(&[most + 1, most + 256, 1 << 32, 1 << 32 | most, u64::MAX]),
    }
}

/// Bytes that are not allowed where a leaf stands; a plain integer but char8 has none.
pub fn outside_wire(rng: &mut Prng, leaf: &Leaf) -> Vec<u8> {
    match &leaf.of {
        Of::Base(11) => low(i128::from(not_finite(rng, 8, 23)), 4),
        Of::Base(12) => low(i128::from(not_finite(rng, 11, 52)), 8),
        Of::Base(CHAR8) => vec![rng.pick(&[0x80, 0xFF, leaf.wire[0] | 1 << 7])],
        Of::Base(_) => leaf.wire.clone(),
        Of::Enum(code, _) => match rng.below(2) {
            0 => low(integer(rng, *code), width(*code)),
            _ => {
                let mut wire = leaf.wire.clone();
                wire[rng.below(width(*code))] ^= 1 << rng.below(8);
                wire
            }
        },
        Of::Count(most) => {
            let count = rng.pick(&[most + 1, most + 256, 0xFFFF_FFFF, 1 << 31]);
            low(i128::from(count), 4)
        }
    }
}
