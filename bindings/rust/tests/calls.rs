//! Every call through the wrappers: its answer, and a refusal that changes nothing.

use nyrkovash::*;

const OWN: u8 = 1;
const OTHER: u8 = 2;
const TABLE: &[u8] = include_bytes!("../../../examples/mission.table");

fn sections() -> Sections {
    let mut sections = Sections::default();
    assert_eq!(check_table(TABLE, &mut sections), OK);
    sections
}

fn message(domain: u8, id: u32, payload: &[u8]) -> Vec<u8> {
    let (mut bytes, mut length) = (vec![0; 80], 7);
    let small = &mut bytes[..MESSAGE_HEADER];
    if !payload.is_empty() {
        let number = write(OTHER, domain, id, 9, payload, small, &mut length);
        assert_eq!(
            (number, length, bytes.as_slice()),
            (NO_ROOM, 7, &[0; 80][..])
        );
    }
    let number = write(OTHER, domain, id, 9, payload, &mut bytes, &mut length);
    assert_eq!((number, length), (OK, MESSAGE_HEADER + payload.len()));
    bytes.truncate(length);
    bytes
}

fn datagram(message: &[u8], size: usize, piece: usize) -> Result<Vec<u8>, u32> {
    let (mut bytes, mut written) = (vec![0; DATAGRAM_HEADER + size], 0);
    match cut(
        message,
        size,
        0x201,
        65_535,
        piece,
        &mut bytes,
        &mut written,
    ) {
        OK => Ok(bytes[..written].to_vec()),
        number => Err(number),
    }
}

#[test]
fn versions_agree() {
    assert_eq!(library_version(), LIBRARY_VERSION);
    assert_eq!(env!("CARGO_PKG_VERSION"), LIBRARY_VERSION_TEXT);
    let parts = LIBRARY_VERSION_TEXT
        .split('.')
        .map(|part| part.parse::<u32>().unwrap());
    assert_eq!(parts.fold(0, |sum, part| sum * 100 + part), LIBRARY_VERSION);
}

#[test]
fn written_read() {
    let bytes = message(OPERATION_DOMAIN, 0x20, &[1, 2, 3]);
    let mut answer = Message::default();
    assert_eq!(read(OTHER, &bytes, &mut answer), SENDER);
    assert_eq!(answer, Message::default());
    assert_eq!(read(OWN, &bytes, &mut answer), OK);
    assert_eq!(
        (answer.kind, answer.value, answer.sender, answer.sequence),
        (SERVICE_OPERATION, 0x20, 2, 9)
    );
    assert_eq!((answer.payload_start, answer.payload_length), (20, 3));
}

#[test]
fn cut_joined() {
    let bytes = message(OPERATION_DOMAIN, 0x20, &[1, 2, 3, 4, 5]);
    let mut count = 0;
    assert_eq!(pieces(0, 10, &mut count), CANNOT_CUT);
    assert_eq!(pieces(bytes.len(), 10, &mut count), OK);
    assert_eq!(count, 3);
    assert_eq!(datagram(&bytes, 10, count), Err(NO_PIECE));

    let (mut joiner, mut rooms, mut taken) = (Joiner::default(), [0; 96], Taken::default());
    assert_eq!(setup(&mut joiner, &[0x201, 0x201], 48, 96), NO_JOINER);
    assert_eq!(joiner, Joiner::default());
    assert_eq!(setup(&mut joiner, &[0x200, 0x201], 48, 96), OK);
    assert_eq!(
        take(&mut joiner, &mut rooms, &[], &mut taken),
        DATAGRAM_LENGTH
    );
    assert_eq!(taken, Taken::default());
    for piece in 0..count {
        let datagram = datagram(&bytes, 10, piece).unwrap();
        assert_eq!(take(&mut joiner, &mut rooms, &datagram, &mut taken), OK);
        assert_eq!(
            taken.outcome,
            if piece + 1 < count { HELD } else { DELIVERED }
        );
    }
    assert_eq!((taken.slice, taken.start, taken.bytes), (IN_ROOMS, 48, 25));
    assert_eq!(rooms[48..][..25], bytes);
    assert_eq!((joiner.channel[1].seen, joiner.channel[1].last), (1, 1));
    assert_eq!(joiner.channel[0].seen, 0);
}

#[test]
fn checked_found() {
    let known = sections();
    assert_eq!(
        (known.words[TYPES_COUNT], known.words[OPERATIONS_COUNT]),
        (9, 3)
    );
    let mut kept = known;
    assert_eq!(check_table(&TABLE[..9], &mut kept), TABLE_LENGTH);
    assert_eq!(kept, known);
    let mut operation = Operation::default();
    assert_eq!(find(TABLE, &known, 0x11, &mut operation), OK);
    assert_eq!(
        (operation.found, operation.kind, operation.carries),
        (1, VERSIONED_DATA, 8)
    );
    assert_eq!(operation.responds, NO_PAYLOAD);
    assert_eq!(find(TABLE, &known, 0x20, &mut operation), OK);
    assert_eq!((operation.kind, operation.carries), (EVENT, NO_PAYLOAD));
    assert_eq!(
        find(&TABLE[..9], &known, 0x20, &mut operation),
        TABLE_LENGTH
    );
}

#[test]
fn packed_unpacked() {
    let (known, payload, values) = (sections(), [1, 0xFF, 0xFE], [1, -2i64 as u64]);
    let (mut words, mut bytes) = ([0; 4], [0; 8]);
    assert_eq!(unpack(TABLE, 8, &payload, &mut words), Ok(2));
    assert_eq!(words, [values[0], values[1], 0, 0]);
    assert_eq!(
        unpack_in(TABLE, &known, 8, &payload, &mut words[..1]),
        refused(OUTPUT_SHORT, None)
    );
    assert_eq!(unpack_in(TABLE, &known, 8, &payload, &mut words), Ok(2));
    assert_eq!(pack(TABLE, 8, &values, &mut bytes), Ok(3));
    assert_eq!(bytes[..3], payload);
    assert_eq!(
        pack_in(TABLE, &known, 9, &values, &mut bytes),
        refused(NO_TYPE, None)
    );
    assert_eq!(pack_in(TABLE, &known, 8, &values, &mut bytes), Ok(3));
    assert_eq!(bytes, [1, 0xFF, 0xFE, 0, 0, 0, 0, 0]);
    assert_eq!(
        unpack(&TABLE[..9], 8, &payload, &mut words),
        refused(TABLE_LENGTH, None)
    );
}

fn refused(number: u32, spot: Option<(usize, usize)>) -> Result<usize, Refused> {
    let spot = spot.map(|(at, leaves)| Spot { at, leaves });
    Err(Refused { number, spot })
}

/// Type 5: a mode, and up to 4 tracks of a uint16 and two float32.
#[test]
fn refused_where() {
    let (known, mut words, mut bytes) = (sections(), [7; 9], [7; 40]);
    let good = [4, 2, 1, 0x3FC0_0000, 0, 0x102, 0x42C8_0000, 0];
    assert_eq!(pack(TABLE, 5, &good, &mut bytes), Ok(25));
    let mut ask = |payload: &[u8]| {
        let told = unpack(TABLE, 5, payload, &mut words);
        assert_eq!(unpack_in(TABLE, &known, 5, payload, &mut words), told);
        told
    };
    let payload = bytes;
    assert_eq!(ask(&payload[..20]), refused(INPUT_SHORT, Some((17, 6))));
    assert_eq!(ask(&payload[..0]), refused(INPUT_SHORT, Some((0, 0))));
    assert_eq!(ask(&payload[..26]), refused(INPUT_LEFT, Some((25, 8))));
    let mut wrong = payload;
    wrong[17..19].fill(0xFF);
    assert_eq!(ask(&wrong[..25]), refused(VALUE, Some((17, 6))));
    wrong[4] = 5;
    assert_eq!(ask(&wrong[..25]), refused(ARRAY_COUNT, Some((1, 1))));
    assert_eq!(words, [7; 9]);
    let mut ask = |words: &[u64]| {
        let told = pack(TABLE, 5, words, &mut bytes);
        assert_eq!(pack_in(TABLE, &known, 5, words, &mut bytes), told);
        told
    };
    assert_eq!(ask(&good[..7]), refused(INPUT_SHORT, Some((7, 7))));
    assert_eq!(
        ask(&[&good[..], &[0]].concat()),
        refused(INPUT_LEFT, Some((8, 8)))
    );
    assert_eq!(ask(&[4, 1, 1 << 16]), refused(VALUE, Some((2, 2))));
    assert_eq!(ask(&[4, 1 << 32]), refused(ARRAY_COUNT, Some((1, 1))));
    let shown = ask(&[4, 5]).unwrap_err().to_string();
    assert_eq!(shown, "refused 43 at 1, after 1 leaves");
    assert_eq!(bytes, payload);
}

#[test]
fn platforms() {
    let (known, up) = (
        sections(),
        message(PLATFORM_DOMAIN, STATUS as u32, &[0, 0, 0, 1]),
    );
    let (mut platform, mut heard, mut output) =
        (Platform::default(), Heard::default(), [0; REPLIES_BYTES]);
    assert_eq!(start(OWN, &mut platform), OK);
    assert_eq!(
        (how_many_up(OWN, &platform), is_up(OWN, &platform, 2)),
        (1, 0)
    );
    let fresh = platform;
    assert_eq!(
        receive_in(
            OWN,
            &mut platform,
            TABLE,
            &known,
            &up,
            &mut output[1..],
            &mut heard
        ),
        NO_ROOM
    );
    assert_eq!((platform, heard), (fresh, Heard::default()));
    assert_eq!(
        receive_in(
            OWN,
            &mut platform,
            TABLE,
            &known,
            &up,
            &mut output,
            &mut heard
        ),
        OK
    );
    assert_eq!(
        (heard.kind, heard.value, heard.sender, heard.replies),
        (HEARD_STATUS, 1, 2, 48)
    );
    assert_eq!(
        (how_many_up(OWN, &platform), is_up(OWN, &platform, 2)),
        (2, 1)
    );
    assert_eq!(
        receive(OWN, &mut platform, TABLE, &up, &mut output, &mut heard),
        OK
    );
    assert_eq!((heard.kind, heard.replies), (HEARD_STATUS, 0));
}
