//! Joining, worked out from a whole recording at once.
//!
//! 01 tells joining as a machine that keeps a record for each channel. This model keeps none: it
//! sorts all datagrams by sender, strikes out the repeats, splits what is left into runs that
//! belong together, and reads each run's outcomes off its lengths. A mistake in one shape is
//! unlikely to be made again in the other.

use std::collections::BTreeMap;

/// Counter values: the counter is 16 bits wide (000, Table 9).
pub const M: u32 = 65536;

pub struct Setup {
    pub room: usize,
    pub senders: Vec<u16>,
}

#[derive(Clone, Copy, Debug, PartialEq, Eq)]
pub enum Part {
    Beginning,
    Middle,
    End,
    Whole,
}

/// What becomes of one datagram.
#[derive(Clone, Debug, PartialEq, Eq)]
pub enum Fate {
    Refused(u8),
    Repeated,
    Stray { missed: u32 },
    TooLong { missed: u32 },
    Held { missed: u32, bytes: usize },
    Delivered { missed: u32, message: Vec<u8> },
}

/// A datagram that was let in, with its number in the recording.
struct Piece<'a> {
    number: usize,
    part: Part,
    counter: u32,
    bytes: &'a [u8],
}

/// Byte 1 is VEMPPLID, byte 2 the channel, bytes 3 and 4 the counter (000, A.4).
fn open<'a>(setup: &Setup, number: usize, datagram: &'a [u8]) -> Result<(u16, Piece<'a>), u8> {
    if datagram.len() < 5 || datagram.len() > 65507 {
        return Err(21);
    }
    let version = datagram[0] / 64;
    if version != 0 {
        return Err(22);
    }
    let part = match datagram[0] / 16 % 4 {
        0 => Part::Beginning,
        1 => Part::Middle,
        2 => Part::End,
        _ => Part::Whole,
    };
    let platform = u16::from(datagram[0] % 16);
    let sender = platform * 256 + u16::from(datagram[1]);
    if !setup.senders.contains(&sender) {
        return Err(23);
    }
    let counter = u32::from(datagram[2]) * 256 + u32::from(datagram[3]);
    Ok((
        sender,
        Piece {
            number,
            part,
            counter,
            bytes: &datagram[4..],
        },
    ))
}

/// One fate for each datagram, in the recording's order.
pub fn fates(setup: &Setup, datagrams: &[&[u8]]) -> Vec<Fate> {
    let mut by_number: BTreeMap<usize, Fate> = BTreeMap::new();
    let mut by_sender: BTreeMap<u16, Vec<Piece>> = BTreeMap::new();
    for (number, datagram) in datagrams.iter().enumerate() {
        match open(setup, number, datagram) {
            Err(refusal) => {
                by_number.insert(number, Fate::Refused(refusal));
            }
            Ok((sender, piece)) => by_sender.entry(sender).or_default().push(piece),
        }
    }
    for pieces in by_sender.into_values() {
        for (number, fate) in fates_of_one_sender(setup.room, pieces) {
            by_number.insert(number, fate);
        }
    }
    by_number.into_values().collect()
}

fn fates_of_one_sender(room: usize, pieces: Vec<Piece>) -> Vec<(usize, Fate)> {
    let mut out = Vec::new();

    // A repeat bears the counter of the one let in before it, whatever else it bears.
    let mut fresh: Vec<Piece> = Vec::new();
    for piece in pieces {
        match fresh.last() {
            Some(before) if before.counter == piece.counter => {
                out.push((piece.number, Fate::Repeated))
            }
            _ => fresh.push(piece),
        }
    }

    // A piece belongs to the run of the one before it if nothing is missing between the two, the
    // one before leaves its message open, and this one goes on with an open message.
    let mut runs: Vec<Vec<(u32, Piece)>> = Vec::new();
    let mut before: Option<(u32, Part)> = None;
    for piece in fresh {
        let missed = match before {
            None => 0,
            Some((counter, _)) => (piece.counter + M - counter - 1) % M,
        };
        let was_open = matches!(before, Some((_, Part::Beginning | Part::Middle)));
        let goes_on = matches!(piece.part, Part::Middle | Part::End);
        before = Some((piece.counter, piece.part));
        if missed == 0 && was_open && goes_on {
            runs.last_mut()
                .expect("there is one before")
                .push((missed, piece));
        } else {
            runs.push(vec![(missed, piece)]);
        }
    }

    for run in runs {
        out.extend(fates_of_one_run(room, run));
    }
    out
}

fn fates_of_one_run(room: usize, run: Vec<(u32, Piece)>) -> Vec<(usize, Fate)> {
    match run[0].1.part {
        Part::Whole => run
            .into_iter()
            .map(|(missed, p)| {
                let message = p.bytes.to_vec();
                (p.number, Fate::Delivered { missed, message })
            })
            .collect(),
        // Its beginning is not here, so no piece of this run has a place.
        Part::Middle | Part::End => run
            .into_iter()
            .map(|(missed, p)| (p.number, Fate::Stray { missed }))
            .collect(),
        Part::Beginning => fates_from_a_beginning(room, run),
    }
}

fn fates_from_a_beginning(room: usize, run: Vec<(u32, Piece)>) -> Vec<(usize, Fate)> {
    // How many pieces fit: all up to the first whose sum is above the room.
    let mut sum = 0;
    let fitting = run
        .iter()
        .take_while(|(_, p)| {
            sum += p.bytes.len();
            sum <= room
        })
        .count();
    let mut together: Vec<u8> = Vec::new();
    let mut out = Vec::new();
    for (place, (missed, p)) in run.into_iter().enumerate() {
        let fate = if place > fitting {
            // The one that was too long left nothing held.
            Fate::Stray { missed }
        } else if place == fitting {
            Fate::TooLong { missed }
        } else {
            together.extend_from_slice(p.bytes);
            if p.part == Part::End {
                Fate::Delivered {
                    missed,
                    message: together.clone(),
                }
            } else {
                Fate::Held {
                    missed,
                    bytes: together.len(),
                }
            }
        };
        out.push((p.number, fate));
    }
    out
}
