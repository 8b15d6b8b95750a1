//! The lines that a recording must give: 01, "What is built", with R14 to R17, R24 and R27.

use crate::joiner::{fates, Fate, Setup};

/// What a recording's bytes say, before any joining.
pub enum Recording<'a> {
    /// Refused or ended before the first datagram: the one line.
    Only(&'static str),
    /// A set-up that was accepted, the datagrams that are whole, and whether the file ended
    /// inside one more.
    Datagrams {
        setup: Setup,
        datagrams: Vec<&'a [u8]>,
        cut: bool,
    },
}

/// The first `n` bytes taken away from `rest`, if there are so many.
fn take<'a>(rest: &mut &'a [u8], n: usize) -> Option<&'a [u8]> {
    if rest.len() < n {
        return None;
    }
    let (first, others) = rest.split_at(n);
    *rest = others;
    Some(first)
}

/// Big endian, as everything here.
pub fn number(bytes: &[u8]) -> u64 {
    bytes
        .iter()
        .fold(0, |sum, byte| sum * 256 + u64::from(*byte))
}

pub fn parse(recording: &[u8]) -> Recording<'_> {
    let mut rest = recording;
    // R16: count and R are judged when both have been read.
    let (count, room) = match take(&mut rest, 6) {
        None => return Recording::Only("cut short"),
        Some(six) => (number(&six[..2]), number(&six[2..])),
    };
    // R17: count, R and their product before any ID is read.
    if !(1..=32).contains(&count) || !(24..=65560).contains(&room) || count * room > 65536 {
        return Recording::Only("setup refused 20");
    }
    let mut senders: Vec<u16> = Vec::new();
    for _ in 0..count {
        match take(&mut rest, 2) {
            None => return Recording::Only("cut short"),
            Some(two) => senders.push(number(two) as u16),
        }
    }
    // R17: the IDs are judged only after the last was read.
    let mut distinct = senders.clone();
    distinct.sort_unstable();
    distinct.dedup();
    if distinct.len() != senders.len() || senders.iter().any(|id| *id > 4095) {
        return Recording::Only("setup refused 20");
    }
    let mut datagrams = Vec::new();
    let mut cut = false;
    while !rest.is_empty() {
        let datagram = take(&mut rest, 2).and_then(|two| take(&mut rest, number(two) as usize));
        match datagram {
            Some(bytes) => datagrams.push(bytes),
            None => {
                cut = true;
                break;
            }
        }
    }
    let setup = Setup {
        room: room as usize,
        senders,
    };
    Recording::Datagrams {
        setup,
        datagrams,
        cut,
    }
}

/// One line without its number and its LF.
pub fn words(fate: &Fate) -> String {
    match fate {
        Fate::Refused(refusal) => format!("refused {refusal}"),
        Fate::Repeated => "repeated 0 0".to_string(),
        Fate::Stray { missed } => format!("stray {missed} 0"),
        Fate::TooLong { missed } => format!("too long {missed} 0"),
        Fate::Held { missed, bytes } => format!("held {missed} {bytes}"),
        Fate::Delivered { missed, message } => format!("delivered {missed} {}", message.len()),
    }
}

/// The whole output for a recording, every line ended by one LF.
pub fn lines(recording: &[u8]) -> String {
    match parse(recording) {
        Recording::Only(line) => format!("{line}\n"),
        Recording::Datagrams {
            setup,
            datagrams,
            cut,
        } => {
            let mut out = String::new();
            for (number, fate) in fates(&setup, &datagrams).iter().enumerate() {
                out.push_str(&format!("{number} {}\n", words(fate)));
            }
            if cut {
                out.push_str("cut short\n");
            }
            out
        }
    }
}
