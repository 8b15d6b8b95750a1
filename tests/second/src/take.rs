//! One datagram on a joiner that is handed in: 01, "Joining", step by step, with number 20.
//!
//! `joiner` tells whole recordings without any record; a call that hands records in can only be
//! told with them, so this follows the page's steps one by one. A test holds the two together.

/// One channel's record, wide enough to be wrong (R11).
#[derive(Clone, Debug, PartialEq, Eq)]
pub struct Record {
    pub sender: u16,
    pub seen: bool,
    pub last: u32,
    pub held: u32,
}

#[derive(Clone, Debug, PartialEq, Eq)]
pub struct Joiner {
    pub room: u64,
    pub records: Vec<Record>,
    /// Each channel's bytes behind those of the one before.
    pub rooms: Vec<u8>,
}

#[derive(Clone, Debug, PartialEq, Eq)]
pub struct Outcome {
    pub name: &'static str,
    pub missed: u32,
    /// Held or delivered, else 0.
    pub bytes: usize,
    pub message: Option<Vec<u8>>,
}

impl Joiner {
    fn bad(&self) -> bool {
        let count = self.records.len() as u64;
        let twice = |record: &Record| {
            self.records
                .iter()
                .filter(|other| other.sender == record.sender)
                .count()
                > 1
        };
        !(1..=32).contains(&count)
            || !(24..=65560).contains(&self.room)
            || self.rooms.len() as u64 != count * self.room
            || self.records.iter().any(|record| {
                // R24: the last counter is judged though nothing was seen.
                twice(record)
                    || record.sender > 4095
                    || u64::from(record.held) > self.room
                    || record.last > 65535
            })
    }

    /// The outcome, or 20 to 23 with nothing changed.
    pub fn take(&mut self, datagram: &[u8]) -> Result<Outcome, u8> {
        if self.bad() {
            return Err(20);
        }
        if !(5..=65507).contains(&datagram.len()) {
            return Err(21);
        }
        if datagram[0] & 0xC0 != 0 {
            return Err(22);
        }
        let sender = u16::from_be_bytes([datagram[0] & 0x0F, datagram[1]]);
        let place = self
            .records
            .iter()
            .position(|record| record.sender == sender)
            .ok_or(23)?;
        let counter = u32::from(u16::from_be_bytes([datagram[2], datagram[3]]));
        let piece = &datagram[4..];
        let room = self.room as usize;
        let start = place * room;
        let record = &mut self.records[place];

        // Step 1.
        if record.seen && record.last == counter {
            return Ok(Outcome {
                name: "repeated",
                missed: 0,
                bytes: 0,
                message: None,
            });
        }
        // Step 2.
        let missed = match record.seen {
            false => 0,
            true => (i64::from(counter) - i64::from(record.last) - 1).rem_euclid(65536) as u32,
        };
        record.seen = true;
        record.last = counter;
        if missed > 0 {
            record.held = 0;
        }
        let plain = |name| {
            Ok(Outcome {
                name,
                missed,
                bytes: 0,
                message: None,
            })
        };
        let part = datagram[0] & 0x30;
        // Step 3.
        if part == 0x30 {
            record.held = 0;
            let message = Some(piece.to_vec());
            return Ok(Outcome {
                name: "delivered",
                missed,
                bytes: piece.len(),
                message,
            });
        }
        // Steps 4 and 5 differ in where the piece goes.
        let held = if part == 0x00 {
            0
        } else {
            record.held as usize
        };
        if part != 0x00 && held == 0 {
            return plain("stray");
        }
        if held + piece.len() > room {
            record.held = 0;
            return plain("too long");
        }
        let after = held + piece.len();
        self.rooms[start + held..start + after].copy_from_slice(piece);
        if part == 0x20 {
            record.held = 0;
            let message = Some(self.rooms[start..start + after].to_vec());
            return Ok(Outcome {
                name: "delivered",
                missed,
                bytes: after,
                message,
            });
        }
        record.held = after as u32;
        Ok(Outcome {
            name: "held",
            missed,
            bytes: after,
            message: None,
        })
    }
}

#[cfg(test)]
mod tests {
    use super::*;
    use crate::hex::bytes;

    fn record(sender: u16) -> Record {
        Record {
            sender,
            seen: false,
            last: 0,
            held: 0,
        }
    }

    fn fresh() -> Joiner {
        Joiner {
            room: 24,
            records: vec![record(1), record(2)],
            rooms: vec![0xEE; 48],
        }
    }

    #[test]
    fn only_the_pieces_own_bytes_are_written() {
        let mut joiner = fresh();
        let got = joiner.take(&bytes("0002 0009 414243")).unwrap();
        assert_eq!(
            (got.name, got.missed, got.bytes, got.message),
            ("held", 0, 3, None)
        );
        assert_eq!(joiner.rooms, bytes("EE*24 414243 EE*21"));
        assert_eq!(
            joiner.records[1],
            Record {
                sender: 2,
                seen: true,
                last: 9,
                held: 3
            }
        );
        assert_eq!(joiner.records[0], record(1));
        let got = joiner.take(&bytes("2002 000A 44")).unwrap();
        assert_eq!(
            (got.name, got.bytes, got.message),
            ("delivered", 4, Some(bytes("41424344")))
        );
        assert_eq!(joiner.rooms, bytes("EE*24 41424344 EE*20"));
        assert_eq!(
            joiner.records[1],
            Record {
                sender: 2,
                seen: true,
                last: 10,
                held: 0
            }
        );
    }

    #[test]
    fn each_reason_for_20_changes_nothing() {
        let spoil: [fn(&mut Joiner); 9] = [
            |j| j.records.clear(),
            |j| j.room = 23,
            |j| j.room = 65561,
            |j| j.rooms.push(0),
            |j| j.rooms.truncate(47),
            |j| j.records[1].sender = 1,
            |j| j.records[1].sender = 4096,
            |j| j.records[1].held = 25,
            |j| j.records[1].last = 65536,
        ];
        for (reason, spoil) in spoil.iter().enumerate() {
            let mut joiner = fresh();
            spoil(&mut joiner);
            let before = joiner.clone();
            // 20 goes before 21.
            assert_eq!(joiner.take(&[]), Err(20), "{reason}");
            assert_eq!(joiner, before);
        }
        let many = (0..33).map(record).collect();
        assert_eq!(
            Joiner {
                room: 24,
                records: many,
                rooms: vec![0; 792]
            }
            .take(&[]),
            Err(20)
        );
        assert_eq!(fresh().take(&bytes("7003 0000")), Err(21));
        assert_eq!(fresh().take(&bytes("7003 0000 41")), Err(22));
        assert_eq!(fresh().take(&bytes("3003 0000 41")), Err(23));
    }

    /// The page's steps and the whole view agree on every kind of recording, bytes included.
    #[test]
    fn step_by_step_is_what_the_whole_view_says() {
        use crate::joiner::{fates, Fate};
        use crate::replay::{parse, words, Recording};
        for seed in (0..160).filter(|seed| seed % 16 != 12) {
            let recording = crate::make::recording(seed);
            let Recording::Datagrams {
                setup, datagrams, ..
            } = parse(&recording)
            else {
                continue;
            };
            let mut joiner = Joiner {
                room: setup.room as u64,
                records: setup.senders.iter().map(|id| record(*id)).collect(),
                rooms: vec![0; setup.room * setup.senders.len()],
            };
            for (number, fate) in fates(&setup, &datagrams).iter().enumerate() {
                let (text, message) = match joiner.take(datagrams[number]) {
                    Err(refusal) => (format!("refused {refusal}"), None),
                    Ok(o) => (format!("{} {} {}", o.name, o.missed, o.bytes), o.message),
                };
                assert_eq!(text, words(fate), "seed {seed}, datagram {number}");
                if let Fate::Delivered { message: whole, .. } = fate {
                    assert_eq!(
                        message.as_ref(),
                        Some(whole),
                        "seed {seed}, datagram {number}"
                    );
                }
            }
        }
    }
}
