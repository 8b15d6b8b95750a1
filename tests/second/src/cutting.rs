//! Cutting: a message's pieces as datagrams; numbers 50 to 52, R26.

/// How many pieces a message of this length makes, or 50.
pub fn pieces(length: u64, size: u64) -> Result<u64, u8> {
    if !(1..=65560).contains(&length) || !(1..=65503).contains(&size) {
        return Err(50);
    }
    // As many as start inside the message.
    Ok((0..length).step_by(size as usize).count() as u64)
}

/// One piece as a datagram. Sender and first counter come wider than their fields, so that they
/// can be out of range; `room` is how many bytes may be given back.
pub fn piece(
    message: &[u8],
    size: u64,
    sender: u64,
    first_counter: u64,
    wanted: u64,
    room: usize,
) -> Result<Vec<u8>, u8> {
    let count = pieces(message.len() as u64, size)?;
    if sender > 4095 || first_counter > 65535 {
        return Err(50);
    }
    let chunk = match message
        .chunks(size as usize)
        .nth(usize::try_from(wanted).unwrap_or(usize::MAX))
    {
        Some(chunk) => chunk,
        None => return Err(51),
    };
    if room < 4 + chunk.len() {
        return Err(52);
    }
    // 00 begin, 01 middle, 10 end, 11 both (000, Table 9), above the platform's four bits.
    let part = match (wanted == 0, wanted + 1 == count) {
        (true, true) => 0x30,
        (true, false) => 0x00,
        (false, false) => 0x10,
        (false, true) => 0x20,
    };
    let counter = (first_counter + wanted) % 65536;
    let mut out = vec![
        part + (sender / 256) as u8,
        (sender % 256) as u8,
        (counter / 256) as u8,
        (counter % 256) as u8,
    ];
    out.extend(chunk);
    Ok(out)
}

#[cfg(test)]
mod tests {
    use super::*;
    use crate::hex::bytes;

    #[test]
    fn numbers_of_pieces() {
        // Starred: 65,503 bytes make one whole piece, 65,504 make two.
        assert_eq!(pieces(65503, 65503), Ok(1));
        assert_eq!(pieces(65504, 65503), Ok(2));
        assert_eq!(pieces(1, 1), Ok(1));
        assert_eq!(pieces(65560, 1), Ok(65560));
        assert_eq!(pieces(10, 3), Ok(4));
        assert_eq!(pieces(9, 3), Ok(3));
        for (length, size) in [(0, 1), (65561, 1), (1, 0), (1, 65504), (0, 0)] {
            assert_eq!(pieces(length, size), Err(50), "{length} {size}");
        }
    }

    #[test]
    fn starred_65503_and_65504() {
        let message = vec![0x41; 65504];
        let whole = piece(&message[..65503], 65503, 1, 5, 0, 65507).unwrap();
        assert_eq!((whole.len(), &whole[..4]), (65507, &[0x30, 1, 0, 5][..]));
        assert_eq!(piece(&message[..65503], 65503, 1, 5, 0, 65506), Err(52));
        let first = piece(&message, 65503, 1, 5, 0, 65507).unwrap();
        assert_eq!((first.len(), &first[..4]), (65507, &[0x00, 1, 0, 5][..]));
        assert_eq!(
            piece(&message, 65503, 1, 5, 1, 5),
            Ok(bytes("2001 0006 41"))
        );
        assert_eq!(piece(&message, 65503, 1, 5, 2, 9), Err(51));
    }

    #[test]
    fn parts_and_counters() {
        let message = bytes("01020304050607");
        let cut = |wanted| piece(&message, 3, 0xFFF, 65535, wanted, 7);
        assert_eq!(cut(0), Ok(bytes("0FFF FFFF 010203")));
        assert_eq!(cut(1), Ok(bytes("1FFF 0000 040506")));
        assert_eq!(cut(2), Ok(bytes("2FFF 0001 07")));
        assert_eq!(cut(3), Err(51));
        assert_eq!(cut(u64::MAX), Err(51));
    }

    #[test]
    fn refusals() {
        assert_eq!(piece(&[], 1, 1, 0, 0, 9), Err(50));
        assert_eq!(piece(&[1], 0, 1, 0, 0, 9), Err(50));
        assert_eq!(piece(&[1], 1, 4096, 0, 0, 9), Err(50));
        assert_eq!(piece(&[1], 1, 4095, 65536, 0, 9), Err(50));
        // 50 before 51 before 52.
        assert_eq!(piece(&[1], 1, 4096, 0, 1, 0), Err(50));
        assert_eq!(piece(&[1], 1, 4095, 0, 1, 0), Err(51));
        assert_eq!(piece(&[1], 1, 4095, 65535, 0, 4), Err(52));
        assert_eq!(piece(&[1], 1, 4095, 65535, 0, 5), Ok(bytes("3FFF FFFF 01")));
    }

    /// Every piece joined again by the model of joining is the message.
    #[test]
    fn cut_and_joined() {
        use crate::joiner::{fates, Fate, Setup};
        let mut rng = crate::prng::Prng::new(5);
        for _ in 0..200 {
            let length = rng.from_to(1, 200);
            let message = rng.bytes(length);
            let size = rng.from_to(1, 210) as u64;
            let first = rng.below(65536) as u64;
            let count = pieces(message.len() as u64, size).unwrap();
            let all: Vec<Vec<u8>> = (0..count)
                .map(|k| piece(&message, size, 7, first, k, 300).unwrap())
                .collect();
            let lent: Vec<&[u8]> = all.iter().map(Vec::as_slice).collect();
            let got = fates(
                &Setup {
                    room: 200,
                    senders: vec![7],
                },
                &lent,
            );
            assert_eq!(got.last(), Some(&Fate::Delivered { missed: 0, message }));
        }
    }
}
