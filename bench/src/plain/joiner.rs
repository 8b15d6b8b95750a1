//! Set-up and joining.

use super::binding::{Header, Part, COUNTERS, HEADER, SENDERS};

pub const CHANNELS: usize = 32;

#[derive(Clone, Copy, Debug, Default, PartialEq, Eq)]
pub struct Channel {
    pub sender: u16,
    pub seen: bool,
    pub last: u32,
    /// 0: nothing.
    pub held: u32,
}

#[derive(Clone, Debug, PartialEq, Eq)]
pub struct Joiner {
    pub channels: [Channel; CHANNELS],
    pub count: usize,
    pub room: u32,
}

#[derive(Clone, Copy, Debug, PartialEq, Eq)]
pub enum Place {
    Datagram { start: usize, length: usize },
    Rooms { start: usize, length: usize },
}

#[derive(Clone, Copy, Debug, PartialEq, Eq)]
pub enum Outcome {
    Repeated,
    Delivered { missed: u32, place: Place },
    Held { missed: u32, held: u32 },
    Stray { missed: u32 },
    TooLong { missed: u32 },
}

impl Joiner {
    pub fn new(ids: &[u16], room: u32, rooms: usize) -> Result<Joiner, u32> {
        let mut joiner = Joiner {
            channels: [Channel::default(); CHANNELS],
            count: ids.len(),
            room,
        };
        for (channel, id) in joiner.channels.iter_mut().zip(ids) {
            channel.sender = *id;
        }
        joiner.judge(rooms)?;
        Ok(joiner)
    }

    /// A joiner is handed in with every datagram, so it is judged with every datagram.
    fn judge(&self, rooms: usize) -> Result<(), u32> {
        if !(1..=CHANNELS).contains(&self.count)
            || !(24..=65_560).contains(&self.room)
            || rooms != self.count * self.room as usize
        {
            return Err(20);
        }
        // In one pass and without a way out: it is short, and mostly nothing is wrong. IDs mostly rise, and are distinct then.
        let channels = &self.channels[..self.count];
        let (mut good, mut rising, mut above) = (true, true, 0);
        for channel in channels {
            good &= usize::from(channel.sender) < SENDERS
                && channel.held <= self.room
                && channel.last < COUNTERS;
            rising &= channel.sender >= above;
            above = channel.sender.wrapping_add(1);
        }
        if good && (rising || distinct(channels)) {
            Ok(())
        } else {
            Err(20)
        }
    }

    #[inline(never)]
    pub fn take(&mut self, rooms: &mut [u8], datagram: &[u8]) -> Result<Outcome, u32> {
        self.judge(rooms.len())?;
        let header = Header::read(datagram)?;
        let at = self.channels[..self.count]
            .iter()
            .position(|channel| channel.sender == header.sender)
            .ok_or(23u32)?;
        let size = self.room as usize;
        let start = at * size;
        let room = &mut rooms[start..start + size];
        Ok(self.channels[at].step(&header, room, start, &datagram[HEADER..]))
    }
}

#[cold]
fn distinct(channels: &[Channel]) -> bool {
    channels.iter().enumerate().all(|(i, channel)| {
        channels[..i]
            .iter()
            .all(|other| other.sender != channel.sender)
    })
}

impl Channel {
    fn step(&mut self, header: &Header, room: &mut [u8], start: usize, piece: &[u8]) -> Outcome {
        let counter = u32::from(header.counter);
        if self.seen && self.last == counter {
            return Outcome::Repeated;
        }
        let missed = if self.seen {
            counter.wrapping_sub(self.last + 1) % COUNTERS
        } else {
            0
        };
        self.seen = true;
        self.last = counter;
        let held = if missed == 0 { self.held as usize } else { 0 };
        self.held = 0;
        let from = match header.part {
            Part::Whole => {
                let place = Place::Datagram {
                    start: HEADER,
                    length: piece.len(),
                };
                return Outcome::Delivered { missed, place };
            }
            Part::Begin => 0,
            Part::Middle | Part::End if held == 0 => return Outcome::Stray { missed },
            Part::Middle | Part::End => held,
        };
        let total = from + piece.len();
        match room.get_mut(from..total) {
            None => return Outcome::TooLong { missed },
            Some(into) => into.copy_from_slice(piece),
        }
        if header.part == Part::End {
            let place = Place::Rooms {
                start,
                length: total,
            };
            return Outcome::Delivered { missed, place };
        }
        self.held = total as u32;
        Outcome::Held {
            missed,
            held: total as u32,
        }
    }
}
