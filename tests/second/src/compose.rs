//! Recordings and datagrams put together. It shares nothing with the module that takes them
//! apart, so that one wrong shift cannot cancel another; both are held to 000's tables by tests.

use crate::prng::Prng;

/// Codes of the message part (000, Table 9).
pub const BEGINNING: u32 = 0b00;
pub const MIDDLE: u32 = 0b01;
pub const END: u32 = 0b10;
pub const WHOLE: u32 = 0b11;

/// The longest datagram, and the longest piece in it.
pub const LONGEST: usize = 65507;
pub const LONGEST_PIECE: usize = 65503;

/// VE MP PLID CHANNEID COUNTMSB COUNTLSB, then the piece (000, A.4).
pub fn datagram(part: u32, sender: u16, counter: u16, piece: &[u8]) -> Vec<u8> {
    assert!(part < 4 && sender < 4096);
    let header = part << 28 | u32::from(sender) << 16 | u32::from(counter);
    let mut out = header.to_be_bytes().to_vec();
    out.extend_from_slice(piece);
    out
}

/// Count and R as given, good or bad, then the IDs.
pub fn setup(count: u16, room: u32, ids: &[u16]) -> Vec<u8> {
    let mut out = count.to_be_bytes().to_vec();
    out.extend_from_slice(&room.to_be_bytes());
    for id in ids {
        out.extend_from_slice(&id.to_be_bytes());
    }
    out
}

/// A datagram behind its length.
pub fn push(recording: &mut Vec<u8>, datagram: &[u8]) {
    let length = u16::try_from(datagram.len()).expect("a recorded datagram's length has 16 bits");
    recording.extend_from_slice(&length.to_be_bytes());
    recording.extend_from_slice(datagram);
}

/// Distinct IDs, good ones; often close together, as configured ones are.
pub fn ids(rng: &mut Prng, count: usize) -> Vec<u16> {
    let mut out: Vec<u16> = Vec::new();
    let base = rng.below(4096 - 64);
    let close = rng.chance(1, 2);
    while out.len() < count {
        let id = match rng.below(20) {
            0 => 0,
            1 => 4095,
            _ if close => base + rng.below(64),
            _ => rng.below(4096),
        } as u16;
        if !out.contains(&id) {
            out.push(id);
        }
    }
    out
}

/// A datagram that must be refused in this set-up, and by which number. `like` is a good one
/// that it may be taken for.
pub fn refused(rng: &mut Prng, senders: &[u16], like: &[u8]) -> (Vec<u8>, u8) {
    match rng.below(40) {
        0 => {
            let length = rng.pick(&[LONGEST + 1, LONGEST + 2, 65535]);
            let mut long = like.to_vec();
            long.resize(length, 0x5A);
            (long, 21)
        }
        1..=12 => {
            let mut short = like.to_vec();
            short.truncate(rng.below(5));
            (short, 21)
        }
        13..=26 => {
            // Any of the three reserved versions, on what is otherwise a good next datagram.
            let mut versioned = like.to_vec();
            versioned[0] |= (rng.from_to(1, 3) as u8) << 6;
            (versioned, 22)
        }
        _ => {
            let mut sender = rng.below(4096) as u16;
            while senders.contains(&sender) {
                // One step away from a sender that is set up is the likeliest to be mistaken.
                sender = (sender + 1) % 4096;
            }
            let mut other = like.to_vec();
            other[0] = other[0] & 0x30 | (sender / 256) as u8;
            other[1] = (sender % 256) as u8;
            (other, 23)
        }
    }
}

#[cfg(test)]
mod tests {
    use super::*;

    /// 000, Tables 11, 12 and 13: platform 1, channel 2, counters 5, 8 and 9.
    #[test]
    fn headers_of_000() {
        assert_eq!(datagram(WHOLE, 0x102, 5, &[9]), [0x31, 0x02, 0, 5, 9]);
        assert_eq!(datagram(BEGINNING, 0x102, 8, &[9]), [0x01, 0x02, 0, 8, 9]);
        assert_eq!(datagram(END, 0x102, 9, &[9]), [0x21, 0x02, 0, 9, 9]);
        assert_eq!(datagram(MIDDLE, 0x102, 303, &[9]), [0x11, 0x02, 1, 47, 9]);
        assert_eq!(datagram(WHOLE, 0xFFF, 65535, &[]), [0x3F, 0xFF, 0xFF, 0xFF]);
    }

    #[test]
    fn the_whole_run_of_01() {
        let mut recording = setup(1, 24, &[1]);
        push(&mut recording, &[0, 0, 0, 0]);
        assert_eq!(
            recording,
            crate::hex::bytes("0001 00000018 0001 0004 00000000")
        );
    }
}
