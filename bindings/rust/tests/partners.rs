//! Partners of Issue 3 through the wrappers: the worked messages of request 8.

use nyrkovash::*;

/// UP from platform 7, composite 0x11223344, at 5 s 6 ns, number 9.
const STATUS_OF_7: [u8; 32] = [
    0xEC, 0x0A, 0x10, 7, 0, 0, 0, 1, 0, 0, 0, 5, 0, 0, 0, 6, 0, 0, 0, 8, 0, 0, 0, 9, 0, 0, 0, 1,
    0x11, 0x22, 0x33, 0x44,
];

/// A request of platform 5 in Issue 6's form.
const REQUEST_OF_5: [u8; 20] = [
    0xEC, 0x0A, 2, 0, 0, 0, 0, 5, 0, 0, 0, 2, 0, 0, 0, 0, 0, 0, 0, 1,
];

const OWN: u8 = 9;

fn set_up(threes: &[u32]) -> Partners {
    let mut partners = Partners::default();
    for three in threes {
        assert_eq!(partners_set(&mut partners, *three, ISSUE_3), OK);
    }
    partners
}

/// What is read where these speak Issue 3, or the number; a refusal leaves the answer as it was.
fn read_by(threes: &[u32], message: &[u8]) -> Result<AnyMessage, u32> {
    let before = AnyMessage {
        kind: 77,
        composite: 78,
        ..AnyMessage::default()
    };
    let mut answer = before;
    match read_mixed(OWN, &set_up(threes), message, &mut answer) {
        OK => Ok(answer),
        number => {
            assert_eq!(answer, before);
            Err(number)
        }
    }
}

#[test]
fn set_up_bit_by_bit() {
    let mut partners = set_up(&[0, 63, 64, 255]);
    assert_eq!(partners.words, [1 | 1 << 63, 1, 0, 1 << 63]);
    for (platform, issue) in [
        (63, ISSUE_6),
        (64, 0),
        (3, u32::MAX),
        (256, ISSUE_3),
        (448, ISSUE_3),
    ] {
        assert_eq!(partners_set(&mut partners, platform, issue), OK);
    }
    assert_eq!(partners.words, [1, 0, 0, 1 << 63]);
}

#[test]
fn a_status_at_each_reader() {
    let status = AnyMessage {
        kind: STATUS,
        value: 1,
        sender: 7,
        sequence: 9,
        payload_start: MESSAGE_HEADER_3 as u64,
        payload_length: 8,
        issue: u64::from(ISSUE_3),
        seconds: 5,
        nanoseconds: 6,
        composite: 0x1122_3344,
    };
    assert_eq!(read_by(&[7], &STATUS_OF_7), Ok(status));
    assert_eq!(read_by(&[], &STATUS_OF_7), Err(VERSION));
    assert_eq!(read_by(&[], &STATUS_OF_7[..20]), Err(VERSION));
    assert_eq!(read_by(&[], &STATUS_OF_7[..19]), Err(MESSAGE_SHORT));
    assert_eq!(read_by(&[7], &STATUS_OF_7[..23]), Err(MESSAGE_SHORT));
    assert_eq!(read_by(&[7], &STATUS_OF_7[..24]), Err(PAYLOAD_SIZE));
}

#[test]
fn what_both_forms_could_claim() {
    let request = AnyMessage {
        kind: REQUEST,
        sender: 5,
        sequence: 1,
        payload_start: MESSAGE_HEADER as u64,
        issue: u64::from(ISSUE_6),
        ..AnyMessage::default()
    };
    for threes in [&[][..], &[0], &[0, 1, 2, 3]] {
        assert_eq!(read_by(threes, &REQUEST_OF_5), Ok(request));
    }
    assert_eq!(read_by(&[5], &REQUEST_OF_5), Err(VERSION));
    let mut domain_7 = REQUEST_OF_5;
    domain_7[3] = 7;
    assert_eq!(read_by(&[7], &domain_7), Err(DOMAIN));
}

/// A status of services of 7: that many are said, and these pairs are there.
fn services(said: u32, pairs: &[(u32, u32)]) -> Vec<u8> {
    let mut message = STATUS_OF_7[..24].to_vec();
    message[7] = SERVICES_3 as u8;
    message[19] = 4 + 8 * pairs.len() as u8;
    message.extend(said.to_be_bytes());
    for (id, state) in pairs {
        message.extend(id.to_be_bytes());
        message.extend(state.to_be_bytes());
    }
    message
}

#[test]
fn services_told() {
    let told = read_by(&[7], &services(2, &[(77, 1), (78, 0)])).unwrap();
    assert_eq!(
        (told.kind, told.value, told.payload_length),
        (SERVICES, 2, 20)
    );
    assert_eq!(read_by(&[7], &services(0, &[])).unwrap().value, 0);
    assert_eq!(
        read_by(&[7], &services(2, &[(77, 1), (78, 2)])),
        Err(PLATFORM_VALUE)
    );
    assert_eq!(
        read_by(&[7], &services(2, &[(77, 1)])),
        Err(PLATFORM_LENGTH)
    );
    assert_eq!(read_by(&[7], &services(1 << 29, &[])), Err(PLATFORM_LENGTH));
}

/// Platform 1's replies to the UP of a partner that it has as Issue 3, each written and read back.
#[test]
fn written_and_read_back() {
    let all = (ALL_SERVICES as u32).to_be_bytes();
    let replies: [(u32, &[u8], u64); 3] = [
        (STATUS_3, &[0, 0, 0, 1, 0, 0, 0, 0x63], STATUS),
        (SERVICES_REQUEST_3, &all, SERVICES_REQUEST),
        (PULL_3, &all, PULL),
    ];
    for (sequence, (id, payload, kind)) in (0..).zip(replies) {
        let (mut output, mut written) = ([0xAA; 40], 0);
        let length = MESSAGE_HEADER_3 + payload.len();
        let mut write = |output: &mut [u8]| {
            write_3(
                1,
                2,
                2,
                PLATFORM_DOMAIN,
                id,
                sequence,
                payload,
                output,
                &mut written,
            )
        };
        assert_eq!(write(&mut output[..length - 1]), NO_ROOM);
        assert_eq!(output, [0xAA; 40]);
        assert_eq!(write(&mut output), OK);
        assert_eq!(written, length);
        assert_eq!(output[length..], [0xAA; 40][length..]);
        assert_eq!(output[..4], [0xEC, 0x0A, 0x10, 1]);
        let got = read_by(&[1], &output[..length]).unwrap();
        assert_eq!(
            (got.kind, got.sender, got.sequence),
            (kind, 1, u64::from(sequence))
        );
        assert_eq!((got.seconds, got.nanoseconds), (2, 2));
    }
    let mut written = 7;
    let mut refused = |domain, id, payload: &[u8]| {
        let number = write_3(1, 2, 2, domain, id, 0, payload, &mut [0; 40], &mut written);
        assert_eq!(written, 7);
        number
    };
    assert_eq!(refused(2, 0, &[]), DOMAIN);
    assert_eq!(refused(PLATFORM_DOMAIN, 10, &all), PLATFORM_ID);
    assert_eq!(refused(PLATFORM_DOMAIN, STATUS_3, &all), PLATFORM_LENGTH);
    assert_eq!(
        refused(PLATFORM_DOMAIN, COMPOSITE_ACK_3, &all),
        PLATFORM_VALUE
    );
}
