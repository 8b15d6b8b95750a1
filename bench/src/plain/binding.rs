//! The UDP binding header, and cutting.

pub const HEADER: usize = 4;
pub const SENDERS: usize = 4096;
pub const COUNTERS: u32 = 65_536;
const LARGEST_PIECE: usize = 65_503;
const LARGEST_MESSAGE: usize = 65_560;

#[derive(Clone, Copy, Debug, PartialEq, Eq)]
pub enum Part {
    Begin,
    Middle,
    End,
    Whole,
}

pub struct Header {
    pub part: Part,
    pub sender: u16,
    pub counter: u16,
}

impl Header {
    pub fn read(datagram: &[u8]) -> Result<Header, u32> {
        if datagram.len() <= HEADER || datagram.len() > HEADER + LARGEST_PIECE {
            return Err(21);
        }
        let word = super::be32(datagram, 0);
        if word >> 30 != 0 {
            return Err(22);
        }
        let part = match word >> 28 & 3 {
            0 => Part::Begin,
            1 => Part::Middle,
            2 => Part::End,
            _ => Part::Whole,
        };
        Ok(Header {
            part,
            sender: (word >> 16 & 0xFFF) as u16,
            counter: word as u16,
        })
    }

    fn write(&self, out: &mut [u8]) {
        let word =
            (self.part as u32) << 28 | u32::from(self.sender) << 16 | u32::from(self.counter);
        out[..HEADER].copy_from_slice(&word.to_be_bytes());
    }
}

pub fn pieces(length: usize, size: usize) -> Result<usize, u32> {
    if !(1..=LARGEST_MESSAGE).contains(&length) || !(1..=LARGEST_PIECE).contains(&size) {
        return Err(50);
    }
    // Both fit 32 bits, whose division is the faster one.
    let (length, size) = (length as u32, size as u32);
    Ok(((length + size - 1) / size) as usize)
}

/// Writes one piece's datagram at the start of `out` and answers its length.
#[inline(never)]
pub fn cut(
    message: &[u8],
    size: usize,
    sender: usize,
    first: usize,
    piece: usize,
    out: &mut [u8],
) -> Result<usize, u32> {
    let count = pieces(message.len(), size)?;
    if sender >= SENDERS || first >= COUNTERS as usize {
        return Err(50);
    }
    if piece >= count {
        return Err(51);
    }
    let rest = &message[piece * size..];
    let body = &rest[..rest.len().min(size)];
    let out = out.get_mut(..HEADER + body.len()).ok_or(52u32)?;
    let part = match (piece == 0, piece + 1 == count) {
        (true, true) => Part::Whole,
        (true, false) => Part::Begin,
        (false, true) => Part::End,
        (false, false) => Part::Middle,
    };
    Header {
        part,
        sender: sender as u16,
        counter: (first + piece) as u16,
    }
    .write(out);
    out[HEADER..].copy_from_slice(body);
    Ok(HEADER + body.len())
}
