//! A platform among partners of both issues, through the wrappers: the worked messages of request 8.

use nyrkovash::*;

const OWN: u8 = 1;
const STAMP: Stamp = Stamp {
    seconds: 2,
    nanoseconds: 2,
    composite: 99,
};

/// Our services.
const OURS: [u64; 2] = [service_word(21, AVAILABLE), service_word(22, UNAVAILABLE)];

/// One type, uint8, and operation 7, whose requests we send; neither these nor their responses have a payload.
const TABLE: [u8; 26] = [
    0, 1, 0, 0, 0, 6, 0, 0, 0, 0, 0, 0, 0, 0, 0, 1, 0, 0, 0, 7, 0, 2, 255, 255, 255, 255,
];

/// Platform 1, that has 2 as Issue 3.
struct Bench {
    partners: Partners,
    platform: Platform,
    services: [u64; SERVICES_WORDS],
    sections: Sections,
    output: [u8; 100],
}

impl Bench {
    fn new() -> Bench {
        let mut bench = Bench {
            partners: Partners::default(),
            platform: Platform::default(),
            services: [0; SERVICES_WORDS],
            sections: Sections::default(),
            output: [0xAA; 100],
        };
        assert_eq!(partners_set(&mut bench.partners, 2, ISSUE_3), OK);
        assert_eq!(start(OWN, &mut bench.platform), OK);
        assert_eq!(check_table(&TABLE, &mut bench.sections), OK);
        bench
    }

    /// By the table's bytes or by its sections; a refusal leaves everything.
    fn hear(&mut self, by_sections: bool, message: &[u8], room: usize) -> Result<AnyHeard, u32> {
        let before = AnyHeard {
            kind: 77,
            composite: 78,
            ..AnyHeard::default()
        };
        let (platform, services, output) = (self.platform, self.services, self.output);
        let mut heard = before;
        let out = &mut self.output[..room];
        let number = if by_sections {
            receive_mixed_in(
                OWN,
                &STAMP,
                &self.partners,
                &OURS,
                &mut self.platform,
                &mut self.services,
                &TABLE,
                &self.sections,
                message,
                out,
                &mut heard,
            )
        } else {
            receive_mixed(
                OWN,
                &STAMP,
                &self.partners,
                &OURS,
                &mut self.platform,
                &mut self.services,
                &TABLE,
                message,
                out,
                &mut heard,
            )
        };
        if number == OK {
            return Ok(heard);
        }
        assert_eq!((heard, self.platform), (before, platform));
        assert!(self.services == services && self.output == output);
        Err(number)
    }

    fn known(&self, id: u32) -> u32 {
        service(&self.partners, &self.services, 2, id)
    }
}

/// A message of platform 2 in Issue 3's form, at 5 s 6 ns.
fn of_2(id: u32, number: u32, fields: &[u32]) -> Vec<u8> {
    let mut message = vec![0xEC, 0x0A, 0x10, 2];
    for field in [id, 5, 6, 4 * fields.len() as u32, number] {
        message.extend(field.to_be_bytes());
    }
    fields
        .iter()
        .for_each(|field| message.extend(field.to_be_bytes()));
    message
}

/// What we write for it, at 2 s 2 ns.
fn of_1(id: u32, number: u32, fields: &[u32]) -> Vec<u8> {
    let mut message = vec![0xEC, 0x0A, 0x10, OWN];
    for field in [id, 2, 2, 4 * fields.len() as u32, number] {
        message.extend(field.to_be_bytes());
    }
    fields
        .iter()
        .for_each(|field| message.extend(field.to_be_bytes()));
    message
}

#[test]
fn the_worked_start_up() {
    for by_sections in [false, true] {
        let mut bench = Bench::new();
        let up = of_2(STATUS_3, 9, &[1, 0x1122_3344]);
        assert_eq!(
            bench.hear(by_sections, &up, REPLIES_3_BYTES - 1),
            Err(NO_ROOM)
        );
        let heard = bench.hear(by_sections, &up, 100).unwrap();
        let right = AnyHeard {
            kind: HEARD_STATUS,
            value: 1,
            sender: 2,
            sequence: 9,
            replies: REPLIES_3_BYTES as u64,
            issue: u64::from(ISSUE_3),
            seconds: 5,
            nanoseconds: 6,
            composite: 0x1122_3344,
            ..AnyHeard::default()
        };
        assert_eq!(heard, right);
        let all = u32::MAX;
        let replies = [
            of_1(STATUS_3, 0, &[1, 99]),
            of_1(SERVICES_REQUEST_3, 1, &[all]),
            of_1(PULL_3, 2, &[all]),
        ];
        assert_eq!(bench.output[..REPLIES_3_BYTES], replies.concat()[..]);
        assert_eq!(
            bench.output[REPLIES_3_BYTES..],
            [0xAA; 100][REPLIES_3_BYTES..]
        );
        assert_eq!(
            (bench.platform.next, is_up(OWN, &bench.platform, 2)),
            (3, 1)
        );
    }
}

#[test]
fn our_services_asked_for() {
    let mut bench = Bench::new();
    for (asked, number, told) in [
        (u32::MAX, 1, &[2, 21, 1, 22, 0][..]),
        (5, 70, &[1, 5, 0]),
        (21, 0, &[1, 21, 1]),
    ] {
        let right = of_1(SERVICES_3, number, told);
        let request = of_2(SERVICES_REQUEST_3, number, &[asked]);
        assert_eq!(bench.hear(false, &request, right.len() - 1), Err(NO_ROOM));
        let heard = bench.hear(true, &request, 100).unwrap();
        assert_eq!(
            (heard.kind, heard.value),
            (HEARD_SERVICES_REQUEST, u64::from(asked))
        );
        assert_eq!(heard.replies as usize, right.len());
        assert_eq!(bench.output[..right.len()], right[..]);
    }
}

/// So many services from this ID on, all AVAILABLE.
fn told(first: u32, count: u32) -> Vec<u8> {
    let pairs = (first..first + count).flat_map(|id| [id, 1]);
    let fields: Vec<u32> = [count].into_iter().chain(pairs).collect();
    of_2(SERVICES_3, 0, &fields)
}

#[test]
fn the_257th_service_changes_nothing() {
    let mut bench = Bench::new();
    let heard = bench.hear(true, &told(0, 250), 0).unwrap();
    assert_eq!((heard.kind, heard.value), (HEARD_SERVICES, 250));
    assert_eq!((heard.payload_start, heard.payload_length), (24, 2_004));
    assert_eq!(bench.hear(false, &told(300, 7), 0), Err(SERVICES_FULL));
    assert_eq!((bench.known(249), bench.known(300)), (AVAILABLE, UNHEARD));
    assert!(bench.hear(false, &told(300, 6), 0).is_ok());
    assert_eq!(bench.known(305), AVAILABLE);
    assert_eq!(
        bench.hear(true, &of_2(SERVICES_3, 0, &[1 << 29]), 0),
        Err(PLATFORM_LENGTH)
    );
    // UP to DOWN: all of them stay known.
    assert!(bench.hear(true, &of_2(STATUS_3, 0, &[1, 0]), 88).is_ok());
    assert!(bench.hear(true, &of_2(STATUS_3, 0, &[0, 0]), 0).is_ok());
    assert_eq!(
        (bench.known(0), bench.known(305)),
        (UNAVAILABLE, UNAVAILABLE)
    );
    assert_eq!(service(&bench.partners, &bench.services, 258, 0), UNHEARD);
    assert_eq!(service(&bench.partners, &[], 2, 0), UNHEARD);
}

/// In the target's issue, and the response in its sender's.
#[test]
fn asked_and_answered() {
    let mut bench = Bench::new();
    let mut send = |target, room: usize| {
        let (mut output, mut sent) = ([0xAA; 30], Sent::default());
        let number = send_mixed(
            OWN,
            &STAMP,
            &bench.partners,
            &mut bench.platform,
            &TABLE,
            &bench.sections,
            7,
            target,
            &[],
            &mut output[..room],
            &mut sent,
        );
        (number, output[..sent.written as usize].to_vec())
    };
    let mut three = of_1(7, 1, &[]);
    three[2] = 0x11;
    let six = [
        0xEC, 0x0A, 2, 1, 0, 0, 0, OWN, 0, 0, 0, 7, 0, 0, 0, 0, 0, 0, 0, 2,
    ];
    assert_eq!(send(2, 23), (NO_ROOM, vec![]));
    assert_eq!(send(2, 24), (OK, three));
    assert_eq!(send(3, 20), (OK, six.to_vec()));
    let mut response = of_2(7, 1, &[]);
    response[2] = 0x11;
    let heard = bench.hear(true, &response, 0).unwrap();
    assert_eq!(
        (heard.kind, heard.value, heard.sender),
        (HEARD_RESPONSE, 7, 2)
    );
    assert_eq!(bench.hear(false, &response, 0), Err(NOT_AWAITED));
}
