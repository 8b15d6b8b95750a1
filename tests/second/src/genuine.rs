//! Genuine traffic as demand 3 allows it, with a full account of what was sent and what arrived.

use crate::compose::{self, BEGINNING, END, LONGEST_PIECE, MIDDLE, WHOLE};
use crate::prng::Prng;

/// The network never loses more than this between two arrivals on one channel: M-2.
pub const MOST_LOST: usize = 65534;

pub struct Piece {
    pub bytes: Vec<u8>,
    /// How often it arrives: 0 is lost, more than 1 is repeated.
    pub copies: usize,
}

pub struct Message {
    pub pieces: Vec<Piece>,
}

pub struct Channel {
    pub sender: u16,
    pub first_counter: u16,
    pub messages: Vec<Message>,
}

/// One recorded datagram.
pub enum Arrival {
    Refused(u8),
    Copy {
        channel: usize,
        message: usize,
        piece: usize,
        again: bool,
    },
}

pub struct Traffic {
    pub channels: Vec<Channel>,
    /// In the recording's order.
    pub arrivals: Vec<Arrival>,
    pub recording: Vec<u8>,
}

/// What one recording is about; each seed's remainder by 16 names one.
struct Style {
    channels: usize,
    room: usize,
    /// Datagrams that a sender sends, beside those of a long loss.
    datagrams: usize,
    /// In a hundred.
    lost: usize,
    repeated: usize,
    refused: usize,
    /// Losses at one stretch, from this datagram of each channel on (counted from 0).
    long_loss: Option<(usize, usize)>,
    longest_piece: usize,
    /// The first message is this many pieces of 1 byte.
    first_in_ones: usize,
}

fn style(rng: &mut Prng, seed: u64) -> Style {
    let channels = rng.pick(&[1, 1, 2, 2, 3, 4, 5, 8, 32]);
    let most = 65536 / channels;
    let room = match rng.below(4) {
        0 => 24,
        1 => rng.from_to(24, 40),
        2 => rng.from_to(24, most.min(400)),
        _ => most,
    };
    let mut s = Style {
        channels,
        room,
        datagrams: rng.from_to(3, 400 / channels),
        lost: rng.pick(&[0, 1, 5, 20, 50]),
        repeated: rng.pick(&[0, 2, 10, 40]),
        refused: rng.pick(&[0, 0, 5, 20]),
        long_loss: None,
        longest_piece: rng.pick(&[1, 3, 30, 300]),
        first_in_ones: 0,
    };
    match seed % 16 {
        // The longest loss that a counter can tell, between messages and inside one.
        0 => (s.channels, s.room, s.long_loss) = (2, 24, Some((rng.from_to(1, 6), MOST_LOST))),
        1 => {
            (s.channels, s.room, s.first_in_ones) = (1, 65536, 65536);
            s.long_loss = Some((1, rng.pick(&[MOST_LOST, MOST_LOST - 1, 40000])));
        }
        // R22: before the first arrival any number may be lost, also more than M.
        2 => (s.channels, s.room, s.long_loss) = (1, 100, Some((0, rng.from_to(65534, 65540)))),
        3 => (s.channels, s.room, s.datagrams, s.longest_piece) = (1, 65536, 8, LONGEST_PIECE),
        4 => (s.channels, s.room) = (32, 2048),
        5 => (s.room, s.longest_piece) = (24, 24),
        // Every counter in one message, all arriving; rare, as it is half a megabyte.
        6 if seed % 64 == 6 => {
            (s.channels, s.room, s.first_in_ones) = (1, 65536, 65536);
            (s.lost, s.repeated, s.refused) = (0, 0, 0);
        }
        7 => (s.lost, s.repeated, s.refused) = (0, 0, 0),
        _ => {}
    }
    s
}

/// Decides what the network does with each datagram of one channel, in sending order.
struct Network {
    sent: usize,
    /// Still to be lost of a long loss.
    losing: usize,
    /// Lost since the last arrival; nothing before the first.
    since: Option<usize>,
}

impl Network {
    fn copies(&mut self, rng: &mut Prng, s: &Style) -> usize {
        if let Some((_, length)) = s.long_loss.filter(|(from, _)| *from == self.sent) {
            self.losing = length;
        }
        // The one before a long loss arrives, so that the loss has the length meant.
        let before_long = s.long_loss.is_some_and(|(from, _)| from == self.sent + 1);
        self.sent += 1;
        let lost = if self.losing > 0 {
            self.losing -= 1;
            true
        } else if before_long || self.since.is_some_and(|lost| lost > 300) {
            // The first behind a long loss arrives, for the same reason.
            false
        } else {
            rng.chance(s.lost, 100)
        };
        assert!(!(lost && self.since == Some(MOST_LOST)), "not genuine");
        if lost {
            self.since = self.since.map(|n| n + 1);
            return 0;
        }
        self.since = Some(0);
        let mut copies = 1;
        while rng.chance(s.repeated, 100) && copies < 5 {
            copies += 1;
        }
        copies
    }
}

/// The lengths of a message's pieces.
fn cut(rng: &mut Prng, s: &Style) -> Vec<usize> {
    if rng.chance(1, 4) {
        // A whole may be longer than the room.
        return vec![rng.pick(&[
            1,
            2,
            s.room.min(LONGEST_PIECE),
            s.longest_piece,
            s.room / 2 + 30,
        ])];
    }
    let total = match rng.below(4) {
        0 => s.room,
        1 => s.room - 1,
        _ => rng.from_to(2, s.room),
    };
    let even = rng.from_to(1, s.longest_piece);
    let mut lengths = Vec::new();
    let mut left = total;
    // Few pieces, else a large room takes thousands of the small ones.
    while left > 0 && lengths.len() < 12 {
        let length = if s.seldom_even(rng) {
            rng.from_to(1, s.longest_piece)
        } else {
            even
        };
        lengths.push(length.min(left));
        left -= length.min(left);
    }
    lengths
}

impl Style {
    /// Senders may cut as they like: mostly evenly, at times not.
    fn seldom_even(&self, rng: &mut Prng) -> bool {
        rng.chance(1, 3)
    }
}

fn channel(rng: &mut Prng, s: &Style, sender: u16) -> Channel {
    let first_counter = match rng.below(3) {
        0 => 0,
        1 => 65535 - rng.below(20) as u16,
        _ => rng.below(65536) as u16,
    };
    let mut network = Network {
        sent: 0,
        losing: 0,
        since: None,
    };
    let mut messages = Vec::new();
    let mut sent_beside = 0;
    while sent_beside < s.datagrams || network.losing > 0 {
        let lengths = if messages.is_empty() && s.first_in_ones > 0 {
            vec![1; s.first_in_ones]
        } else if network.losing > 100 {
            // Nobody sees these: wholes and short messages of single bytes will do.
            vec![1; rng.from_to(1, 20.min(s.room))]
        } else {
            let lengths = cut(rng, s);
            sent_beside += lengths.len();
            lengths
        };
        let pieces = lengths
            .into_iter()
            .map(|n| Piece {
                bytes: rng.bytes(n),
                copies: network.copies(rng, s),
            })
            .collect();
        messages.push(Message { pieces });
    }
    Channel {
        sender,
        first_counter,
        messages,
    }
}

/// Every copy that arrives on a channel, in order, as it stands on the wire.
fn copies(index: usize, channel: &Channel) -> Vec<(Arrival, Vec<u8>)> {
    let mut out = Vec::new();
    let mut counter = channel.first_counter;
    for (m, message) in channel.messages.iter().enumerate() {
        let last = message.pieces.len() - 1;
        for (p, piece) in message.pieces.iter().enumerate() {
            let part = match p {
                _ if last == 0 => WHOLE,
                0 => BEGINNING,
                _ if p == last => END,
                _ => MIDDLE,
            };
            for copy in 0..piece.copies {
                let datagram = compose::datagram(part, channel.sender, counter, &piece.bytes);
                let again = copy > 0;
                out.push((
                    Arrival::Copy {
                        channel: index,
                        message: m,
                        piece: p,
                        again,
                    },
                    datagram,
                ));
            }
            counter = if counter == 65535 { 0 } else { counter + 1 };
        }
    }
    out
}

pub fn traffic(seed: u64) -> Traffic {
    let mut rng = Prng::new(seed ^ 0x6765_6E75_696E_6521);
    let s = style(&mut rng, seed);
    let senders = compose::ids(&mut rng, s.channels);
    let channels: Vec<Channel> = senders
        .iter()
        .map(|id| channel(&mut rng, &s, *id))
        .collect();
    let mut recording = compose::setup(s.channels as u16, s.room as u32, &senders);
    let mut arrivals = Vec::new();

    // The mix: any order that keeps each channel's own.
    let mut waiting: Vec<_> = channels
        .iter()
        .enumerate()
        .map(|(i, c)| copies(i, c).into_iter().peekable())
        .collect();
    let stay = rng.pick(&[0, 50, 90]);
    let mut at = 0;
    while waiting.iter_mut().any(|queue| queue.peek().is_some()) {
        if !rng.chance(stay, 100) || waiting[at].peek().is_none() {
            at = rng.below(waiting.len());
        }
        if let Some((_, next)) = waiting[at].peek() {
            if rng.chance(s.refused, 100) {
                let (datagram, number) = compose::refused(&mut rng, &senders, next);
                compose::push(&mut recording, &datagram);
                arrivals.push(Arrival::Refused(number));
            }
        }
        if let Some((arrival, datagram)) = waiting[at].next() {
            compose::push(&mut recording, &datagram);
            arrivals.push(arrival);
        }
    }
    Traffic {
        channels,
        arrivals,
        recording,
    }
}
