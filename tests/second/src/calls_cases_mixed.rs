//! Words that are not all lent, and requests in their target's issue, codes 87 and 88, worked out by
//! hand: 02, request 8.

use crate::calls_cases::Worked;

/// The statuses of platform 2, and a status of service 77 of a platform.
macro_rules! status_of_2 {
    ($state:literal) => {
        concat!(
            "00000020 EC0A1002 00000001 00000005 00000006 00000008 00000009 ",
            $state,
            " 11223344"
        )
    };
}

macro_rules! of_service_77 {
    ($from:literal, $state:literal) => {
        concat!(
            "00000024 EC0A10",
            $from,
            " 00000003 00000005 00000006 0000000C 00000009 00000001 0000004D ",
            $state
        )
    };
}

pub const CASES: &[Worked] = &[
    Worked {
        // B16: 2 has the first block and 4 the second. 9 comes before 10; what needs no block does not ask for one.
        name: "blocks that are not lent",
        calls: concat!(
            among!("00000002 0402"),
            hear_lent!("0000", of_service_77!("02", "00000001"), "00"),
            hear_lent!("0000", of_service_77!("02", "00000002"), "00"),
            hear_lent!("00FF", of_service_77!("02", "00000001"), "00"),
            known!("00000002"),
            hear_lent!("0100", of_service_77!("02", "00000001"), "00"),
            hear_lent!("01FF", of_service_77!("04", "00000000"), "00"),
            hear_lent!("0200", of_service_77!("04", "00000000"), "00"),
            known!("00000002"),
            known!("00000004"),
            hear_lent!("0000", status_of_2!("00000000"), "00"),
            hear_lent!("0000", status_of_2!("00000001"), "58"),
            hear_lent!("00FF", status_of_2!("00000000"), "00"),
            "0009 0001 | 00000001 02 ",
            service!("00000002", "0000004D"),
            hear_lent!("0100", status_of_2!("00000000"), "00"),
            "0009 0001 | 00000001 02 ",
            service!("00000002", "0000004D"),
            hear_lent!("0000", "0000001C EC0A1002 00000004 00000005 00000006 00000004 00000046 00000005", "24"),
            hear_lent!("0000", "00000018 EC0A0200 00000003 00000001 00000004 00000009 00000001", "30"),
            hear_lent!("0000", "00000018 EC0A0200 00000003 00000001 00000004 00000009 00000000", "00"),
        ),
        lines: "0 platform 1 threes 2\n1 refused 10\n2 refused 9\n3 refused 10\n4 known -\n\
                5 three services 1 {0000004D 00000001} from 2 owed -\n6 refused 10\n\
                7 three services 1 {0000004D 00000000} from 4 owed -\n8 known 77 a\n9 known 77 u\n\
                10 three status down 287454020 from 2 owed -\n\
                11 three status up 287454020 from 2 owed \
                {EC0A1001 00000001 00000002 00000002 00000008 00000000 00000001 00000063 \
                EC0A1001 00000004 00000002 00000002 00000004 00000001 FFFFFFFF \
                EC0A1001 00000007 00000002 00000002 00000004 00000002 FFFFFFFF}\n\
                12 refused 10\n13 up\n14 available\n15 three status down 287454020 from 2 owed -\n16 down\n17 unavailable\n\
                18 three services request 5 from 2 owed \
                {EC0A1001 00000003 00000002 00000002 0000000C 00000046 00000001 00000005 00000000}\n\
                19 six status up from 3 owed {EC0A0200 00000001 00000001 00000004 00000003 00000001 \
                EC0A0200 00000001 00000004 00000004 00000004 FFFFFFFF}\n20 six status down from 3 owed -\n",
    },
    Worked {
        // 258 is in no set-up, though its low byte is 2.
        name: "requests in the issue of their target",
        calls: concat!(
            among!("00000001 02"),
            send_3!("00000007", "00000002", "00000000", "17"),
            send_3!("00000007", "00000002", "00000000", "18"),
            send_3!("00000007", "00000003", "00000000", "13"),
            send_3!("00000007", "00000003", "00000000", "14"),
            send_3!("00000008", "00000002", "00000001 AB", "19"),
            send_3!("00000007", "00000102", "00000001 AB", "15"),
            send_3!("00000009", "00000002", "00000000", "00"),
            send_3!("0000000A", "00000002", "00000000", "00"),
            hear_3!("00000018 EC0A1102 00000007 00000009 00000009 00000000 00000001", "00"),
            hear_3!("00000018 EC0A1102 00000007 00000009 00000009 00000000 00000001", "00"),
            hear_3!("00000018 EC0A1102 00000008 00000009 00000009 00000000 00000003", "00"),
            hear_3!("00000014 EC0A0201 00000003 00000007 00000000 00000002", "00"),
            hear_3!("00000014 EC0A0201 00000102 00000007 00000000 00000004", "00"),
            pending!("00000004"),
            "0058 0007 | 00000001 05 | 00000001 06 | 00000002 0000 | 00000001 07 | 00000001 02 | 00000000 | 00000001 18 ",
        ),
        lines: "0 platform 1 threes 1\n1 refused 10\n\
                2 sent 1 {EC0A1101 00000007 00000005 00000006 00000000 00000001}\n3 refused 10\n\
                4 sent 2 {EC0A0201 00000001 00000007 00000000 00000002}\n\
                5 sent 3 {EC0A1101 00000008 00000005 00000006 00000001 00000003 AB}\n\
                6 sent 4 {EC0A0201 00000001 00000007 00000001 00000004 AB}\n7 refused 62\n8 refused 62\n\
                9 three response 7 from 2 seq 1\n10 refused 61\n11 three response 8 from 2 seq 3\n\
                12 six response 7 from 3 seq 2\n13 six response 7 from 258 seq 4\n14 not pending\n15 refused 31\n",
    },
];
