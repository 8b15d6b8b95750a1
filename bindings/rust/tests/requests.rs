//! Requests through the wrappers: sent, heard, answered, delivered once, given up; and refusals that change nothing.

use nyrkovash::*;

const OWN: u8 = 1;
const OTHER: u8 = 2;

/// One type (uint8), and operation 9: of that kind, with a payload and a response of the type.
fn table_of(kind: u64) -> [u8; 26] {
    let mut table = [0; 26];
    (table[1], table[5], table[15]) = (1, 6, 1);
    (table[19], table[21]) = (9, kind as u8);
    table
}

#[test]
fn requests() {
    let table = table_of(REQUEST_SENT);
    let (mut known, mut operation) = (Sections::default(), Operation::default());
    assert_eq!(check_table(&table, &mut known), OK);
    assert_eq!(find(&table, &known, 9, &mut operation), OK);
    assert_eq!(
        (operation.kind, operation.carries, operation.responds),
        (REQUEST_SENT, 0, 0)
    );
    let (mut platform, mut sent, mut output) = (Platform::default(), Sent::default(), [0; 64]);
    assert_eq!(start(OWN, &mut platform), OK);
    let fresh = platform;
    let mut ask = |platform: &mut Platform, id, output: &mut [u8]| {
        let number = send(
            OWN,
            platform,
            &table,
            &known,
            id,
            2,
            &[5],
            output,
            &mut sent,
        );
        (number, sent.written as usize, sent.sequence as u32)
    };
    assert_eq!(ask(&mut platform, 8, &mut output), (NO_REQUEST, 0, 0));
    assert_eq!(ask(&mut platform, 9, &mut output[..20]), (NO_ROOM, 0, 0));
    assert_eq!((platform, output), (fresh, [0; 64]));
    assert_eq!(ask(&mut platform, 9, &mut output), (OK, 21, 1));

    // Heard by platform 2 as an operation, and answered under its number.
    let (mut there, mut heard, mut answer) = (Platform::default(), Heard::default(), [0; 32]);
    let served = table_of(REQUEST_SERVED);
    assert_eq!(start(OTHER, &mut there), OK);
    let number = receive(
        OTHER,
        &mut there,
        &served,
        &output[..21],
        &mut [],
        &mut heard,
    );
    assert_eq!((number, heard.kind, heard.value), (OK, HEARD_OPERATION, 9));
    let (sequence, mut written) = (heard.sequence as u32, 0);
    let number = write(
        OTHER,
        OPERATION_DOMAIN,
        9,
        sequence,
        &[6],
        &mut answer,
        &mut written,
    );
    assert_eq!((number, written), (OK, 21));

    // Pending until its response is there, which is delivered once.
    let mut awaited = Awaited::default();
    assert_eq!(pending(&platform, 1, &mut awaited), OK);
    assert_eq!((awaited.found, awaited.id, awaited.target), (1, 9, 2));
    let mut hear = |platform: &mut Platform| {
        receive_in(
            OWN,
            platform,
            &table,
            &known,
            &answer[..21],
            &mut [],
            &mut heard,
        )
    };
    assert_eq!(hear(&mut platform), OK);
    assert_eq!(hear(&mut platform), NOT_AWAITED);
    assert_eq!((heard.kind, heard.value), (HEARD_RESPONSE, 9));
    assert_eq!((heard.payload_start, heard.payload_length), (20, 1));
    assert_eq!(platform.pending, fresh.pending);
    assert_eq!(pending(&platform, 1, &mut awaited), OK);
    assert_eq!(awaited, Awaited::default());

    // As many as there are places, one more, and one given up.
    for k in 0..MOST_PENDING as u32 {
        assert_eq!(ask(&mut platform, 9, &mut output), (OK, 21, 2 + k));
    }
    let (full, mut cancelled) = (platform, 7);
    assert_eq!(ask(&mut platform, 9, &mut output).0, LIST_FULL);
    assert_eq!(platform, full);
    assert_eq!(cancel(&mut platform, 1, &mut cancelled), OK);
    assert_eq!((cancelled, platform), (0, full));
    assert_eq!(cancel(&mut platform, 9, &mut cancelled), OK);
    assert_eq!((cancelled, platform.pending[7]), (1, 0));
    assert_eq!(ask(&mut platform, 9, &mut output), (OK, 21, 66));
    assert_eq!(
        (platform.pending[7], platform.pending[71]),
        (66 << 32 | 9, 2)
    );
}
