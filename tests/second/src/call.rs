//! A file of calls taken apart: what a call's bytes must be, and where a bad call or a file that
//! ends too early is found.
//!
//! Judged in reading order: the code and the number of arguments when both are there, an
//! argument's length when its four bytes are there, and everything else when the call is whole.

use crate::replay::number;
use crate::take::Record;

/// The program's own buffers: what an argument may bring and an output may ask for.
const MOST_BYTES: u64 = 70_000;
const MOST_WORDS: u64 = 65_536;

/// The words of a list of requests.
const LIST_WORDS: u64 = 128;

/// sender 2, seen 1, last 4, held 4.
const RECORD: usize = 11;

/// What an argument is for, and with it how long it may be.
#[derive(Clone, Copy)]
enum Parameter {
    /// A number of this many bits.
    Number(u32),
    /// A number that is an output's length, at most this.
    Output(u64),
    Bytes,
    /// At most this many words.
    Words(u64),
    Records,
}

use Parameter::{Bytes, Number, Output, Records, Words};

/// Whether an argument may have this many bytes.
fn fits(parameter: Parameter, length: u64) -> bool {
    match parameter {
        Number(_) | Output(_) => (1..=8).contains(&length),
        Bytes | Records => length <= MOST_BYTES,
        Words(most) => length <= 8 * most,
    }
}

/// The parameters of each code, or nothing where there is no such code.
fn parameters(code: u64) -> Option<&'static [Parameter]> {
    const BYTES_OUT: Parameter = Output(MOST_BYTES);
    const WORDS_OUT: Parameter = Output(MOST_WORDS);
    Some(match code {
        1 => &[Number(8), Bytes],
        2 => &[
            Number(8),
            Number(8),
            Number(32),
            Number(32),
            Bytes,
            BYTES_OUT,
        ],
        3 => &[
            Bytes,
            Number(64),
            Number(64),
            Number(64),
            Number(64),
            BYTES_OUT,
        ],
        4 => &[Bytes],
        5 | 13 | 16 => &[Bytes, Number(16), Bytes, WORDS_OUT],
        6 | 14 | 17 => &[Bytes, Number(16), Words(MOST_WORDS), BYTES_OUT],
        7 => &[Number(8)],
        8 => &[Bytes, Bytes, BYTES_OUT],
        9 => &[Number(32)],
        10 => &[],
        11 => &[Number(32), Records, Bytes, Bytes],
        12 => &[Number(64), Number(64)],
        15 => &[Bytes, Number(32)],
        20 => &[Bytes, Number(32), Number(32), Bytes, BYTES_OUT],
        21 | 22 => &[Number(32)],
        23 => &[Number(8), Number(32), Words(LIST_WORDS)],
        81 => &[Number(8), Bytes, Bytes],
        82 => &[
            Number(8),
            Number(32),
            Number(32),
            Number(8),
            Number(32),
            Number(32),
            Bytes,
            BYTES_OUT,
        ],
        83 => &[Number(8), Bytes],
        84 => &[
            Number(32),
            Number(32),
            Number(32),
            Words(MOST_WORDS),
            Bytes,
            Bytes,
            BYTES_OUT,
        ],
        85 => &[Number(32), Number(32)],
        86 => &[Number(32)],
        87 => &[
            Number(32),
            Number(32),
            Number(32),
            Words(MOST_WORDS),
            WORDS_OUT,
            Bytes,
            Bytes,
            BYTES_OUT,
        ],
        88 => &[
            Number(32),
            Number(32),
            Bytes,
            Number(32),
            Number(32),
            Bytes,
            BYTES_OUT,
        ],
        _ => return None,
    })
}

/// An argument as its parameter has it.
#[derive(Debug, PartialEq, Eq)]
pub enum Argument<'a> {
    Number(u64),
    Bytes(&'a [u8]),
    Words(Vec<u64>),
    Records(Vec<Record>),
}

/// What stands next in a file.
#[derive(Debug, PartialEq, Eq)]
pub enum Next<'a> {
    Call(u64, Vec<Argument<'a>>),
    Bad,
    CutShort,
    /// The file ends behind a call.
    End,
}

/// The first `n` bytes taken away from `rest`, if there are so many.
fn bite<'a>(rest: &mut &'a [u8], n: u64) -> Option<&'a [u8]> {
    let n = usize::try_from(n).ok().filter(|n| *n <= rest.len())?;
    let (first, others) = rest.split_at(n);
    *rest = others;
    Some(first)
}

/// The next call, taken away from `rest`.
pub fn next<'a>(rest: &mut &'a [u8]) -> Next<'a> {
    if rest.is_empty() {
        return Next::End;
    }
    let Some(four) = bite(rest, 4) else {
        return Next::CutShort;
    };
    let (code, count) = (number(&four[..2]), number(&four[2..]));
    let known = parameters(code);
    let Some(wanted) = known.filter(|wanted| wanted.len() as u64 == count) else {
        return Next::Bad;
    };
    let mut raw = Vec::new();
    for parameter in wanted {
        let Some(length) = bite(rest, 4).map(number) else {
            return Next::CutShort;
        };
        if !fits(*parameter, length) {
            return Next::Bad;
        }
        let Some(bytes) = bite(rest, length) else {
            return Next::CutShort;
        };
        raw.push((*parameter, bytes));
    }
    match raw
        .into_iter()
        .map(|(p, bytes)| argument(p, bytes))
        .collect()
    {
        Some(arguments) => Next::Call(code, arguments),
        None => Next::Bad,
    }
}

/// What is judged when the whole call is there.
fn argument(parameter: Parameter, bytes: &[u8]) -> Option<Argument<'_>> {
    match parameter {
        Number(bits) => {
            let value = number(bytes);
            (bits == 64 || value < 1 << bits).then_some(Argument::Number(value))
        }
        Output(most) => {
            let value = number(bytes);
            (value <= most).then_some(Argument::Number(value))
        }
        Bytes => Some(Argument::Bytes(bytes)),
        Words(_) => {
            let words = bytes.chunks(8).map(number).collect();
            (bytes.len() % 8 == 0).then_some(Argument::Words(words))
        }
        Records => {
            if bytes.len() % RECORD != 0 {
                return None;
            }
            let records: Option<Vec<Record>> = bytes.chunks(RECORD).map(record).collect();
            records.map(Argument::Records)
        }
    }
}

fn record(bytes: &[u8]) -> Option<Record> {
    (bytes[2] < 2).then(|| Record {
        sender: number(&bytes[..2]) as u16,
        seen: bytes[2] == 1,
        last: number(&bytes[3..7]) as u32,
        held: number(&bytes[7..]) as u32,
    })
}
