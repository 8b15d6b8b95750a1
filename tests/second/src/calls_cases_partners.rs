//! One platform among partners of both issues, codes 83 to 86, worked out by hand: 02, request 8.

use crate::calls_cases::Worked;

/// Platform 2 comes up, and goes down.
macro_rules! up_of_2 {
    () => {
        "00000020 EC0A1002 00000001 00000005 00000006 00000008 00000009 00000001 11223344"
    };
}

macro_rules! down_of_2 {
    () => {
        "00000020 EC0A1002 00000001 00000005 00000006 00000008 00000009 00000000 11223344"
    };
}

/// A table with an event alone: nothing can be pulled.
macro_rules! event_alone {
    () => {
        "00000018 0001 00000008 00000000 0000 0000 0001 00000005 0000 FFFF"
    };
}

pub const CASES: &[Worked] = &[
    Worked {
        name: "before partners of issue 3 are named",
        calls: concat!(
            service!("00000000", "00000000"),
            known!("00000000"),
            hear_3!(up_of_2!(), "58"),
            hear_3!("00000018 EC0A0200 00000002 00000001 00000004 00000009 00000001", "30"),
            "000A 0000 ",
            among!("00000005 0202FF0202"),
            "000A 0000 ",
            hear_3!("00000018 EC0A0200 00000002 00000001 00000004 00000009 00000001", "30"),
        ),
        lines: "0 unheard\n1 known -\n2 refused 3\n\
                3 six status up from 2 owed {EC0A0200 00000000 00000001 00000004 00000000 00000001 \
                EC0A0200 00000000 00000004 00000004 00000001 FFFFFFFF}\n\
                4 count 2\n5 platform 1 threes 2\n6 count 1\n7 refused 3\n",
    },
    Worked {
        // 001, 6.3: three own numbers, and all or nothing.
        name: "start up among partners",
        calls: concat!(
            among!("00000001 02"),
            hear_3!(up_of_2!(), "57"),
            "0009 0001 | 00000001 02 ",
            hear_3!(up_of_2!(), "58"),
            "0009 0001 | 00000001 02 ",
            hear_3!(up_of_2!(), "00"),
            hear_3!("00000018 EC0A0200 00000003 00000001 00000004 00000009 00000001", "30"),
            hear_3!(down_of_2!(), "00"),
            hear_3!(down_of_2!(), "00"),
            hear_3!(up_of_2!(), "58"),
            "000A 0000 ",
        ),
        lines: "0 platform 1 threes 1\n1 refused 10\n2 down\n\
                3 three status up 287454020 from 2 owed \
                {EC0A1001 00000001 00000002 00000002 00000008 00000000 00000001 00000063 \
                EC0A1001 00000004 00000002 00000002 00000004 00000001 FFFFFFFF \
                EC0A1001 00000007 00000002 00000002 00000004 00000002 FFFFFFFF}\n\
                4 up\n5 three status up 287454020 from 2 owed -\n\
                6 six status up from 3 owed {EC0A0200 00000001 00000001 00000004 00000003 00000001 \
                EC0A0200 00000001 00000004 00000004 00000004 FFFFFFFF}\n\
                7 three status down 287454020 from 2 owed -\n8 three status down 287454020 from 2 owed -\n\
                9 three status up 287454020 from 2 owed \
                {EC0A1001 00000001 00000002 00000002 00000008 00000005 00000001 00000063 \
                EC0A1001 00000004 00000002 00000002 00000004 00000006 FFFFFFFF \
                EC0A1001 00000007 00000002 00000002 00000004 00000007 FFFFFFFF}\n10 count 3\n",
    },
    Worked {
        // 23 leaves the set-up, and its next number is the last but one before 0.
        name: "own numbers round the end for issue 3",
        calls: concat!(
            among!("00000001 02"),
            handed_in!("FFFFFFFE", "00000000"),
            hear_3!(up_of_2!(), "58"),
            send!("00000007", "00000002", "00000000", "14"),
        ),
        lines: "0 platform 1 threes 1\n1 platform 1\n2 three status up 287454020 from 2 owed \
                {EC0A1001 00000001 00000002 00000002 00000008 FFFFFFFE 00000001 00000063 \
                EC0A1001 00000004 00000002 00000002 00000004 FFFFFFFF FFFFFFFF \
                EC0A1001 00000007 00000002 00000002 00000004 00000000 FFFFFFFF}\n\
                3 sent 1 {EC0A0201 00000001 00000007 00000000 00000001}\n",
    },
    Worked {
        name: "services of partners",
        calls: concat!(
            among!("00000002 0204"),
            // Of a sender that is DOWN; the last of two counts.
            hear_3!(
                "00000034 EC0A1002 00000003 00000005 00000006 0000001C 00000009 \
                 00000003 0000004E 00000001 0000004D 00000001 0000004E 00000000",
                "00"
            ),
            hear_3!("00000024 EC0A1004 00000003 00000005 00000006 0000000C 00000009 00000001 0000004D 00000001", "00"),
            known!("00000002"),
            service!("00000002", "0000004D"),
            service!("00000002", "0000004E"),
            service!("00000002", "0000004F"),
            service!("00000102", "0000004D"),
            service!("00000003", "0000004D"),
            // DOWN already, and then UP: nothing is marked.
            hear_3!(down_of_2!(), "00"),
            hear_3!(up_of_2!(), "58"),
            known!("00000002"),
            hear_3!(down_of_2!(), "00"),
            known!("00000002"),
            known!("00000004"),
            known!("00000104"),
            hear_3!("0000001C EC0A1002 00000003 00000005 00000006 00000004 00000009 00000000", "00"),
            hear_3!("00000024 EC0A1002 00000003 00000005 00000006 0000000C 00000009 00000001 FFFFFFFF 00000001", "00"),
            known!("00000002"),
            among!("00000002 0204"),
            known!("00000002"),
        ),
        lines: "0 platform 1 threes 2\n\
                1 three services 3 {0000004E 00000001 0000004D 00000001 0000004E 00000000} from 2 owed -\n\
                2 three services 1 {0000004D 00000001} from 4 owed -\n3 known 78 u 77 a\n4 available\n5 unavailable\n6 unheard\n\
                7 unheard\n8 unheard\n9 three status down 287454020 from 2 owed -\n10 three status up 287454020 from 2 owed \
                {EC0A1001 00000001 00000002 00000002 00000008 00000000 00000001 00000063 \
                EC0A1001 00000004 00000002 00000002 00000004 00000001 FFFFFFFF \
                EC0A1001 00000007 00000002 00000002 00000004 00000002 FFFFFFFF}\n\
                11 known 78 u 77 a\n12 three status down 287454020 from 2 owed -\n13 known 78 u 77 u\n14 known 77 a\n15 known -\n\
                16 three services 0 - from 2 owed -\n17 three services 1 {FFFFFFFF 00000001} from 2 owed -\n\
                18 known 78 u 77 u 4294967295 a\n19 platform 1 threes 2\n20 known -\n",
    },
    Worked {
        name: "our services asked for",
        calls: concat!(
            among!("00000001 02"),
            hear_3!("0000001C EC0A1002 00000004 00000005 00000006 00000004 00000001 FFFFFFFF", "2C"),
            hear_3!("0000001C EC0A1002 00000004 00000005 00000006 00000004 00000001 FFFFFFFF", "2B"),
            hear_3!("0000001C EC0A1002 00000004 00000005 00000006 00000004 00000046 00000005", "24"),
            hear_3!("0000001C EC0A1002 00000004 00000005 00000006 00000004 00000046 00000005", "23"),
            hear_3!("0000001C EC0A1002 00000004 00000005 00000006 00000004 00000000 00000015", "24"),
            hear_3!("0000001C EC0A1002 00000004 00000005 00000006 00000004 FFFFFFFF 00000016", "24"),
            // None of ours; of two with one ID the last; a state of 3 is UNAVAILABLE, and so is one of 0.
            "0054 0007 | 00000001 00 | 00000001 00 | 00000001 00 | 00000000 | ",
            requests_table!(),
            " | 0000001C EC0A1002 00000004 00000005 00000006 00000004 00000001 FFFFFFFF | 00000001 1C ",
            "0054 0007 | 00000001 00 | 00000001 00 | 00000001 00 | 00000010 0000000100000015 0000000200000015 | ",
            requests_table!(),
            " | 0000001C EC0A1002 00000004 00000005 00000006 00000004 00000001 00000015 | 00000001 24 ",
            "0054 0007 | 00000001 00 | 00000001 00 | 00000001 00 | 00000010 0000000300000015 0000000000000016 | ",
            requests_table!(),
            " | 0000001C EC0A1002 00000004 00000005 00000006 00000004 00000001 FFFFFFFF | 00000001 2C ",
        ),
        lines: "0 platform 1 threes 1\n1 three services request 4294967295 from 2 owed \
                {EC0A1001 00000003 00000002 00000002 00000014 00000001 00000002 00000015 00000001 00000016 00000000}\n\
                2 refused 10\n3 three services request 5 from 2 owed \
                {EC0A1001 00000003 00000002 00000002 0000000C 00000046 00000001 00000005 00000000}\n4 refused 10\n\
                5 three services request 21 from 2 owed \
                {EC0A1001 00000003 00000002 00000002 0000000C 00000000 00000001 00000015 00000001}\n\
                6 three services request 22 from 2 owed \
                {EC0A1001 00000003 00000002 00000002 0000000C FFFFFFFF 00000001 00000016 00000000}\n\
                7 three services request 4294967295 from 2 owed \
                {EC0A1001 00000003 00000000 00000000 00000004 00000001 00000000}\n\
                8 three services request 21 from 2 owed \
                {EC0A1001 00000003 00000000 00000000 0000000C 00000001 00000001 00000015 00000001}\n\
                9 three services request 4294967295 from 2 owed \
                {EC0A1001 00000003 00000000 00000000 00000014 00000001 00000002 00000015 00000000 00000016 00000000}\n",
    },
    Worked {
        name: "every other message of issue 3",
        calls: concat!(
            among!("00000001 02"),
            hear_3!("00000018 EC0A1002 00000002 00000005 00000006 00000000 0A0B0C0D", "20"),
            hear_3!("0000001C EC0A1002 00000005 00000005 00000006 00000004 00000007 00000007", "00"),
            hear_3!("0000001C EC0A1002 00000006 00000005 00000006 00000004 00000007 00000007", "00"),
            hear_3!("0000001C EC0A1002 00000007 00000005 00000006 00000004 00000007 00000006", "00"),
            hear_3!("0000001C EC0A1002 00000007 00000005 00000006 00000004 00000007 00000005", "1C"),
            hear_3!("0000001C EC0A1002 00000007 00000005 00000006 00000004 00000007 FFFFFFFF", "00"),
            hear_3!(
                event_alone!(),
                "0000001C EC0A1002 00000007 00000005 00000006 00000004 00000007 FFFFFFFF",
                "00"
            ),
            hear_3!(
                event_alone!(),
                "00000018 EC0A0200 00000003 00000004 00000004 00000007 FFFFFFFF",
                "18"
            ),
            hear_3!("0000001C EC0A1002 00000008 00000005 00000006 00000004 00000007 00000063", "00"),
            hear_3!("0000001C EC0A1002 00000009 00000005 00000006 00000004 00000007 00000001", "00"),
            hear_3!("00000019 EC0A1102 00000009 00000005 00000006 00000001 00000007 AB", "00"),
            hear_3!("00000018 EC0A1102 0000000A 00000005 00000006 00000000 00000007", "1C"),
            hear_3!("00000018 EC0A1102 0000000A 00000005 00000006 00000000 00000007", "1B"),
            hear_3!("00000002 0000", "00000000", "00"),
            "000A 0000 ",
        ),
        lines: "0 platform 1 threes 1\n\
                1 three request from 2 owed {EC0A1001 00000001 00000002 00000002 00000008 0A0B0C0D 00000001 00000063}\n\
                2 three unknown 7 from 2 owed -\n3 three not available 7 from 2 owed -\n4 three pull 6 from 2 owed -\n\
                5 three pull unknown 5 from 2 owed {EC0A1001 00000005 00000002 00000002 00000004 00000007 00000005}\n\
                6 three pull all from 2 owed -\n7 three pull all from 2 owed -\n\
                8 six pull unknown 4294967295 from 3 owed {EC0A0200 00000001 00000003 00000004 00000007 FFFFFFFF}\n\
                9 three composite 99 from 2 owed -\n10 three composite ack agree from 2 owed -\n\
                11 three operation 9 from 2 owed -\n\
                12 three operation unknown 10 from 2 owed {EC0A1001 00000005 00000002 00000002 00000004 00000007 0000000A}\n\
                13 refused 10\n14 refused 31\n15 count 1\n",
    },
    Worked {
        // The list goes by ID, number and sender; 3 comes before 61.
        name: "responses of partners of both issues",
        calls: concat!(
            among!("00000001 02"),
            send!("00000007", "00000002", "00000000", "14"),
            send!("00000007", "00000003", "00000000", "14"),
            hear_3!("00000018 EC0A1102 00000007 00000005 00000006 00000000 00000002", "00"),
            hear_3!("00000018 EC0A1103 00000007 00000005 00000006 00000000 00000002", "00"),
            hear_3!("00000014 EC0A0201 00000002 00000007 00000000 00000001", "00"),
            hear_3!("00000018 EC0A1102 00000008 00000005 00000006 00000000 00000001", "00"),
            hear_3!("00000018 EC0A1102 00000007 00000005 00000006 00000000 00000001", "00"),
            hear_3!("00000018 EC0A1102 00000007 00000005 00000006 00000000 00000001", "00"),
            hear_3!("00000014 EC0A0201 00000003 00000007 00000000 00000002", "00"),
            pending!("00000001"),
            pending!("00000002"),
        ),
        lines: "0 platform 1 threes 1\n1 sent 1 {EC0A0201 00000001 00000007 00000000 00000001}\n\
                2 sent 2 {EC0A0201 00000001 00000007 00000000 00000002}\n3 refused 61\n4 refused 3\n5 refused 3\n6 refused 61\n\
                7 three response 7 from 2 seq 1\n8 refused 61\n9 six response 7 from 3 seq 2\n10 not pending\n11 not pending\n",
    },
];
