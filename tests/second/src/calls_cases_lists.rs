//! More of requests, worked out by hand: the one counter, the order of refusals, platforms handed
//! in, and lists that no call makes.

use crate::calls_cases::Worked;

/// Type 1 is 65,538 bytes long.
macro_rules! too_large {
    () => {
        "00000022 0002 00000008 00000000 00030000 00008001 0000 0000 0001 00000007 0002 0000 FFFF"
    };
}

/// Number 0 for ID 7; number 5 for ID 7, and again for ID 8; number 6 for ID 7; all of them to be
/// given targets in the words from the 65th on.
macro_rules! four_places {
    () => {
        "0000000000000007 0000000500000007 0000000500000008 0000000600000007"
    };
}

pub const CASES: &[Worked] = &[
    Worked {
        // The pair takes 5 and 6, which are pending; the request passes over 7. The list outlasts the states.
        name: "down to up while next is pending",
        calls: concat!(
            handed_in!("00000005", "00000018 0000000500000007 0000000600000007 0000000700000007"),
            hear!("00000018 EC0A0200 00000000 00000001 00000004 00000009 00000001", "30"),
            send!("00000007", "00000000", "00000000", "14"),
            hear!("00000018 EC0A0200 00000000 00000001 00000004 00000009 00000000", "00"),
            pending!("00000005"),
            hear!("00000018 EC0A0200 00000000 00000001 00000004 00000009 00000001", "30"),
            hear!("00000014 EC0A0201 00000000 00000007 00000000 00000006", "00"),
            // The pair takes FFFFFFFF and 0, if there is room for both.
            handed_in!("FFFFFFFF", "00000008 FFFFFFFF00000007"),
            hear!("00000018 EC0A0200 00000000 00000001 00000004 00000009 00000001", "2F"),
            hear!("00000018 EC0A0200 00000000 00000001 00000004 00000009 00000001", "30"),
            send!("00000007", "00000000", "00000000", "14"),
            // Behind a request numbered FFFFFFFF it takes 0 and 1.
            handed_in!("FFFFFFFF", "00000000"),
            send!("00000007", "00000000", "00000000", "14"),
            hear!("00000018 EC0A0200 00000000 00000001 00000004 00000009 00000001", "30"),
            send!("00000007", "00000000", "00000000", "14"),
        ),
        lines: "0 platform 1\n1 status up from 0 owed {EC0A0200 00000001 00000001 00000004 00000005 00000001 \
                EC0A0200 00000001 00000004 00000004 00000006 FFFFFFFF}\n\
                2 sent 8 {EC0A0201 00000001 00000007 00000000 00000008}\n3 status down from 0 owed -\n4 pending 7 0\n\
                5 status up from 0 owed {EC0A0200 00000001 00000001 00000004 00000009 00000001 \
                EC0A0200 00000001 00000004 00000004 0000000A FFFFFFFF}\n\
                6 response 7 from 0 seq 6\n7 platform 1\n8 refused 10\n\
                9 status up from 0 owed {EC0A0200 00000001 00000001 00000004 FFFFFFFF 00000001 \
                EC0A0200 00000001 00000004 00000004 00000000 FFFFFFFF}\n\
                10 sent 1 {EC0A0201 00000001 00000007 00000000 00000001}\n\
                11 platform 1\n12 sent 4294967295 {EC0A0201 00000001 00000007 00000000 FFFFFFFF}\n\
                13 status up from 0 owed {EC0A0200 00000001 00000001 00000004 00000000 00000001 \
                EC0A0200 00000001 00000004 00000004 00000001 FFFFFFFF}\n\
                14 sent 2 {EC0A0201 00000001 00000007 00000000 00000002}\n",
    },
    Worked {
        // One byte short: neither the list nor the next number moves.
        name: "a request that does not fit",
        calls: concat!(
            "0007 0001 | 00000001 01 ",
            send!("00000007", "00000002", "00000003 010203", "16"),
            pending!("00000001"),
            send!("00000007", "00000002", "00000000", "13"),
            send!("00000007", "00000002", "00000003 010203", "17"),
            send!("00000007", "00000002", "00000000", "00"),
            send!("00000007", "00000002", "00000000", "FF"),
        ),
        lines: "0 platform 1\n1 refused 10\n2 not pending\n3 refused 10\n\
                4 sent 1 {EC0A0201 00000001 00000007 00000003 00000001 010203}\n5 refused 10\n\
                6 sent 2 {EC0A0201 00000001 00000007 00000000 00000002}\n",
    },
    Worked {
        // Other kinds, and no entry at all, before 10; 30 to 33 before that. None of it draws a number.
        name: "sending what is no request",
        calls: concat!(
            "0007 0001 | 00000001 01 ",
            send!("00000005", "00000002", "00000000", "00"),
            send!("00000006", "00000002", "00000000", "00"),
            send!("00000009", "00000002", "00000000", "00"),
            send!("0000000A", "00000002", "00000000", "00"),
            send!("FFFFFFFF", "00000002", "00000000", "00"),
            send!("00000019 0001 00000008 00000000 0000 0000 0001 00000007 0002 0000 FF", "00000009", "00000002", "00000000", "00"),
            send!("00000002 0000", "00000009", "00000002", "00000000", "00"),
            send!("00000018 0001 00000008 00000000 0000 0000 0001 00000007 0004 0000", "00000009", "00000002", "00000000", "00"),
            send!(too_large!(), "00000009", "00000002", "00000000", "00"),
            send!("00000007", "00000002", "00000000", "14"),
        ),
        lines: "0 platform 1\n1 refused 62\n2 refused 62\n3 refused 62\n4 refused 62\n5 refused 62\n\
                6 refused 30\n7 refused 31\n8 refused 32\n9 refused 33\n\
                10 sent 1 {EC0A0201 00000001 00000007 00000000 00000001}\n",
    },
    Worked {
        // Platform 0 before any start; each start empties the list, and one handed in has fresh states.
        name: "platforms with requests pending",
        calls: concat!(
            send!("00000007", "00000002", "00000000", "14"),
            pending!("00000001"),
            "0007 0001 | 00000001 FF ",
            pending!("00000001"),
            hear!("00000018 EC0A0200 00000002 00000001 00000004 00000009 00000001", "30"),
            "0017 0003 | 00000001 63 | 00000002 0100 | 00000008 0000000100000007 ",
            pending!("00000001"),
            "0009 0001 | 00000001 02 ",
            "0009 0001 | 00000001 63 ",
            "000A 0000 ",
            send!("00000007", "00000002", "00000000", "14"),
            hear!("00000014 EC0A0200 00000002 00000002 00000000 00000007", "18"),
            // 128 words: 64 places with number 1, all to platform 2.
            handed_in!("00000001", "00000400 0000000100000007*64 0000000000000002*64"),
            send!("00000007", "00000002", "00000000", "14"),
            pending!("00000001"),
            hear!("00000014 EC0A0201 00000002 00000007 00000000 00000001", "00"),
            send!("00000007", "00000002", "00000000", "14"),
            send!("00000007", "00000002", "00000000", "14"),
            hear!("00000014 EC0A0201 00000002 00000007 00000000 00000001", "00"),
            hear!("00000014 EC0A0201 00000002 00000007 00000000 00000002", "00"),
        ),
        lines: "0 sent 1 {EC0A0201 00000000 00000007 00000000 00000001}\n1 pending 7 2\n2 platform 255\n3 not pending\n\
                4 status up from 2 owed {EC0A0200 000000FF 00000001 00000004 00000000 00000001 \
                EC0A0200 000000FF 00000004 00000004 00000001 FFFFFFFF}\n\
                5 platform 99\n6 pending 7 0\n7 down\n8 up\n9 count 1\n\
                10 sent 256 {EC0A0201 00000063 00000007 00000000 00000100}\n\
                11 request from 2 owed {EC0A0200 00000063 00000001 00000004 00000007 00000001}\n\
                12 platform 1\n13 refused 60\n14 pending 7 2\n15 response 7 from 2 seq 1\n\
                16 sent 2 {EC0A0201 00000001 00000007 00000000 00000002}\n17 refused 60\n\
                18 response 7 from 2 seq 1\n19 response 7 from 2 seq 2\n",
    },
    Worked {
        // The first place that bears 5 is meant. Place 0 is free, whatever else stands there.
        name: "a number twice",
        calls: concat!(
            handed_in!(
                "00000005",
                concat!("00000220 ", four_places!(), " 00*480 0000000000000002 0000000000000002 0000000000000003 0000000000000002")
            ),
            hear!("00000014 EC0A0201 00000002 00000007 00000000 00000000", "00"),
            pending!("00000000"),
            pending!("00000005"),
            hear!("00000014 EC0A0201 00000003 00000008 00000000 00000005", "00"),
            hear!("00000014 EC0A0201 00000002 00000007 00000000 00000005", "00"),
            hear!("00000014 EC0A0201 00000002 00000007 00000000 00000005", "00"),
            pending!("00000005"),
            send!("00000007", "00000009", "00000000", "14"),
            pending!("00000007"),
            cancel!("00000005"),
            pending!("00000005"),
            hear!("00000014 EC0A0201 00000003 00000008 00000000 00000005", "00"),
            // Twice, and cancelled twice: the second time it is the second place.
            handed_in!("00000005", "00000010 0000000500000007 0000000500000008"),
            cancel!("00000005"),
            pending!("00000005"),
            cancel!("00000005"),
            cancel!("00000005"),
        ),
        lines: "0 platform 1\n1 refused 61\n2 not pending\n3 pending 7 2\n4 refused 61\n5 response 7 from 2 seq 5\n6 refused 61\n\
                7 pending 8 3\n8 sent 7 {EC0A0201 00000001 00000007 00000000 00000007}\n9 pending 7 9\n10 cancelled\n\
                11 not pending\n12 refused 61\n13 platform 1\n14 cancelled\n15 pending 8 0\n16 cancelled\n17 not pending\n",
    },
    Worked {
        // 4294967298 is nobody's, though its low half is platform 2; it can be cancelled.
        name: "a target too wide",
        calls: concat!(
            handed_in!("00000005", "00000208 0000000600000007 00*504 0000000100000002"),
            pending!("00000006"),
            hear!("00000014 EC0A0201 00000002 00000007 00000000 00000006", "00"),
            hear!("00000014 EC0A0201 00000001 00000007 00000000 00000006", "00"),
            hear!("00000014 EC0A0201 00000000 00000007 00000000 00000006", "00"),
            pending!("00000006"),
            cancel!("00000006"),
            pending!("00000006"),
            cancel!("00000006"),
            handed_in!("00000000", "00000400 FF*1024"),
            pending!("FFFFFFFF"),
            send!("00000007", "00000002", "00000000", "14"),
            hear!("00000014 EC0A0201 FFFFFFFF 00000007 00000000 FFFFFFFF", "00"),
            cancel!("FFFFFFFF"),
            send!("00000007", "00000002", "00000000", "14"),
        ),
        lines: "0 platform 1\n1 pending 7 4294967298\n2 refused 61\n3 refused 6\n4 refused 61\n5 pending 7 4294967298\n\
                6 cancelled\n7 not pending\n8 not pending\n9 platform 1\n10 pending 4294967295 18446744073709551615\n\
                11 refused 60\n12 refused 61\n13 cancelled\n14 sent 1 {EC0A0201 00000001 00000007 00000000 00000001}\n",
    },
    Worked {
        // IDs 1 to 4 as requests that we send: what domain 0 calls so is no request's.
        name: "ids that domain 0 has too",
        calls: concat!(
            handed_in!("00000007", "00000008 0000000700000002"),
            hear!(
                "00000024 0001 00000008 00000000 0000 0000 0002 00000002 0002 FFFF FFFF 00000003 0002 FFFF FFFF",
                "00000014 EC0A0200 00000000 00000002 00000000 00000007",
                "18"
            ),
            hear!(
                "00000024 0001 00000008 00000000 0000 0000 0002 00000002 0002 FFFF FFFF 00000003 0002 FFFF FFFF",
                "00000018 EC0A0200 00000000 00000003 00000004 00000007 00000002",
                "00"
            ),
            pending!("00000007"),
            hear!(
                "00000024 0001 00000008 00000000 0000 0000 0002 00000002 0002 FFFF FFFF 00000003 0002 FFFF FFFF",
                "00000014 EC0A0201 00000000 00000002 00000000 00000007",
                "00"
            ),
        ),
        lines: "0 platform 1\n1 request from 0 owed {EC0A0200 00000001 00000001 00000004 00000007 00000001}\n\
                2 unknown 2 from 0 owed -\n3 pending 2 0\n4 response 2 from 0 seq 7\n",
    },
];
