//! Payloads to words and back: 01, "Payload and words", with R19 and R33; 02, request 2, for char8.
//!
//! The walk is a list of what is still to be met, not a recursion: a record or an array is
//! replaced by its parts, a leaf is read or written. Where it stops, 02, request 3, has it told.

use crate::replay::number;
use crate::types::{check, integer_allows, Shape, Table, BASES};
use std::fmt::{Display, Formatter};

/// The byte (packing: the word) at which the refused item begins, or the first that is left over;
/// and how many leaves were completed before it, each array's count being one.
#[derive(Clone, Copy, Debug, PartialEq, Eq)]
pub struct Place {
    pub at: usize,
    pub leaves: usize,
}

impl Place {
    fn refused(self, number: u8) -> Refused {
        Refused {
            number,
            place: Some(self),
        }
    }
}

/// The number, and with 40 to 43 the place; no other number has one.
#[derive(Clone, Copy, Debug, PartialEq, Eq)]
pub struct Refused {
    pub number: u8,
    pub place: Option<Place>,
}

impl From<u8> for Refused {
    fn from(number: u8) -> Refused {
        Refused {
            number,
            place: None,
        }
    }
}

impl Display for Refused {
    fn fmt(&self, out: &mut Formatter) -> std::fmt::Result {
        write!(out, "refused {}", self.number)?;
        match self.place {
            Some(place) => write!(out, " {} {}", place.at, place.leaves),
            None => Ok(()),
        }
    }
}

/// 02: above 127 is no char8, neither byte nor word. 000's Table 6 calls it ASCII, which begins at 0.
fn is_ascii(value: u64) -> bool {
    value <= 127
}

/// The word of a leaf's bytes, or nothing where the value is not allowed.
fn word_of(base: u16, bytes: &[u8]) -> Option<u64> {
    let value = number(bytes);
    let (name, width, signed) = BASES[usize::from(base)];
    match name {
        "boolean8" => Some(u64::from(value != 0)),
        "char8" => is_ascii(value).then_some(value),
        // An exponent of all ones is exactly what is not finite.
        "float32" => f32::from_bits(value as u32).is_finite().then_some(value),
        "double64" => f64::from_bits(value).is_finite().then_some(value),
        _ if signed && bytes[0] >= 0x80 => {
            // Two's complement: the value less two to the width.
            Some((i128::from(value) - (1i128 << (8 * width))) as i64 as u64)
        }
        _ => Some(value),
    }
}

/// The bytes of a leaf's word, or nothing where the word is outside it.
fn bytes_of(base: u16, word: u64) -> Option<Vec<u8>> {
    let (name, width, _) = BASES[usize::from(base)];
    let allowed = match name {
        "boolean8" => word < 2,
        "char8" => is_ascii(word),
        "float32" => word < 1 << 32 && f32::from_bits(word as u32).is_finite(),
        "double64" => f64::from_bits(word).is_finite(),
        _ => integer_allows(base, word),
    };
    allowed.then(|| word.to_be_bytes()[8 - width..].to_vec())
}

/// Replaces a record or a run of elements by its parts; the next to be met stands last.
fn unfold<'a>(todo: &mut Vec<&'a Shape>, parts: impl DoubleEndedIterator<Item = &'a Shape>) {
    todo.extend(parts.rev());
}

/// The first `n` bytes of what is left; of fewer none are taken.
fn bite<'a>(rest: &mut &'a [u8], n: usize) -> Option<&'a [u8]> {
    if rest.len() < n {
        return None;
    }
    let (first, others) = rest.split_at(n);
    *rest = others;
    Some(first)
}

/// Payload to words; `room` is how many words may be given back.
pub fn unpack(table: &[u8], of: usize, payload: &[u8], room: usize) -> Result<Vec<u64>, Refused> {
    unpack_checked(&check(table)?, of, payload, room)
}

pub fn unpack_checked(
    table: &Table,
    of: usize,
    payload: &[u8],
    room: usize,
) -> Result<Vec<u64>, Refused> {
    let mut todo: Vec<&Shape> = vec![table.types.get(of).ok_or(44)?];
    let mut rest = payload;
    let mut words = Vec::new();
    while let Some(next) = todo.pop() {
        // Where the next leaf or count begins; each word so far is one that was completed.
        let here = Place {
            at: payload.len() - rest.len(),
            leaves: words.len(),
        };
        match next {
            Shape::Base(base) => {
                let bytes = bite(&mut rest, BASES[usize::from(*base)].1);
                let word = word_of(*base, bytes.ok_or(here.refused(40))?);
                words.push(word.ok_or(here.refused(42))?);
            }
            Shape::Enum(base, values) => {
                let bytes = bite(&mut rest, BASES[usize::from(*base)].1);
                let word = word_of(*base, bytes.ok_or(here.refused(40))?);
                let known = word.filter(|word| values.contains(word));
                words.push(known.ok_or(here.refused(42))?);
            }
            Shape::Record(parts) => unfold(&mut todo, parts.iter().map(|part| &**part)),
            Shape::Fixed(element, count) => unfold(&mut todo, (0..*count).map(|_| &**element)),
            Shape::Array(element, most) => {
                let count = number(bite(&mut rest, 4).ok_or(here.refused(40))?);
                if count > *most as u64 {
                    return Err(here.refused(43));
                }
                words.push(count);
                unfold(&mut todo, (0..count as usize).map(|_| &**element));
            }
        }
    }
    if !rest.is_empty() {
        let behind = Place {
            at: payload.len() - rest.len(),
            leaves: words.len(),
        };
        return Err(behind.refused(41));
    }
    if words.len() > room {
        return Err(45.into());
    }
    Ok(words)
}

/// Each leaf and each count is one word, so that the word's index is how many came before it.
fn word_place(index: usize) -> Place {
    Place {
        at: index,
        leaves: index,
    }
}

/// Words to payload; `room` is how many bytes may be given back.
pub fn pack(table: &[u8], of: usize, words: &[u64], room: usize) -> Result<Vec<u8>, Refused> {
    pack_checked(&check(table)?, of, words, room)
}

pub fn pack_checked(
    table: &Table,
    of: usize,
    words: &[u64],
    room: usize,
) -> Result<Vec<u8>, Refused> {
    let mut todo: Vec<&Shape> = vec![table.types.get(of).ok_or(44)?];
    let mut left = words.iter().copied();
    let mut bytes = Vec::new();
    while let Some(next) = todo.pop() {
        let here = word_place(words.len() - left.len());
        match next {
            Shape::Record(parts) => unfold(&mut todo, parts.iter().map(|part| &**part)),
            Shape::Fixed(element, count) => unfold(&mut todo, (0..*count).map(|_| &**element)),
            Shape::Base(base) => {
                let word = left.next().ok_or(here.refused(40))?;
                bytes.extend(bytes_of(*base, word).ok_or(here.refused(42))?);
            }
            Shape::Enum(base, values) => {
                let word = left.next().ok_or(here.refused(40))?;
                if !values.contains(&word) {
                    return Err(here.refused(42));
                }
                bytes.extend(bytes_of(*base, word).ok_or(here.refused(42))?);
            }
            Shape::Array(element, most) => {
                // The whole word is compared: 2 to the 32nd is no truncated 0.
                let count = left.next().ok_or(here.refused(40))?;
                if count > *most as u64 {
                    return Err(here.refused(43));
                }
                bytes.extend((count as u32).to_be_bytes());
                unfold(&mut todo, (0..count as usize).map(|_| &**element));
            }
        }
    }
    if left.len() > 0 {
        return Err(word_place(words.len() - left.len()).refused(41));
    }
    if bytes.len() > room {
        return Err(45.into());
    }
    Ok(bytes)
}
