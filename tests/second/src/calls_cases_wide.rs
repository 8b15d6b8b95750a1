//! Tables whose operations have entries of both widths, codes 4 and 15, worked out by hand.
//!
//! All have the one type uint16, no members and no values: 16 bytes with the operations' count.

use crate::calls_cases::Worked;

/// A table of so many bytes, its operations behind their count.
macro_rules! table {
    ($length:literal, $operations:literal) => {
        concat!(
            "000000",
            $length,
            " 0001 00000008 00000000 0000 0000 ",
            $operations,
            " "
        )
    };
}

macro_rules! check {
    ($length:literal, $operations:literal) => {
        concat!("0004 0001 | ", table!($length, $operations))
    };
}

macro_rules! find {
    ($id:literal) => {
        concat!(
            "000F 0002 | ",
            table!(
                "3E",
                "0005 00000005 0000 FFFF 00000006 0001 0000 00000007 0002 0000 FFFF \
                 00000008 0002 FFFF 0000 00000009 0003 0000 0000"
            ),
            "| 00000004 ",
            $id,
            " "
        )
    };
}

pub const CASES: &[Worked] = &[
    Worked {
        name: "wide entries cut",
        calls: concat!(
            check!("1A", "0001 00000007 0002 0000 FFFF"),
            check!("19", "0001 00000007 0002 0000 FF"),
            check!("18", "0001 00000007 0002 0000"),
            check!("17", "0001 00000007 0002 00"),
            check!("16", "0001 00000007 0002"),
            check!("15", "0001 00000007 00"),
            check!("1B", "0001 00000007 0002 0000 FFFF 00"),
            check!("1A", "0001 00000007 0003 FFFF 0000"),
            check!("19", "0001 00000007 0003 FFFF 00"),
            check!("18", "0001 00000007 0003 FFFF"),
            check!("17", "0001 00000007 0003 FF"),
        ),
        lines: "0 table 1 0 0 1\n1 refused 30\n2 refused 30\n3 refused 30\n4 refused 30\n5 refused 30\n6 refused 30\n\
                7 table 1 0 0 1\n8 refused 30\n9 refused 30\n10 refused 30\n",
    },
    Worked {
        // The widths are judged first; only then is a kind that does not exist 32.
        name: "kinds and widths",
        calls: concat!(
            check!("18", "0001 00000007 0004 0000"),
            check!("1A", "0001 00000007 0004 0000 FFFF"),
            check!("18", "0001 00000007 0102 0000"),
            check!("1A", "0001 00000007 0102 0000 FFFF"),
            check!("18", "0001 00000007 0200 0000"),
            check!("18", "0001 00000007 0000 0000"),
            check!("1A", "0001 00000007 0000 0000 FFFF"),
            check!("1A", "0001 00000007 0001 0000 FFFF"),
            // Read on behind 8 bytes: kind 8 at ID FFFF0000, and two bytes are left.
            check!("22", "0002 00000007 0004 0000 FFFF 00000008 0000 FFFF"),
            // Read on behind 10 bytes: the second entry is cut.
            check!("20", "0002 00000007 0002 0000 00000008 0000 FFFF"),
        ),
        lines: "0 refused 32\n1 refused 30\n2 refused 32\n3 refused 30\n4 refused 32\n5 table 1 0 0 1\n6 refused 30\n\
                7 refused 30\n8 refused 30\n9 refused 30\n",
    },
    Worked {
        name: "wide first and last and all",
        calls: concat!(
            check!("22", "0002 00000005 0002 FFFF FFFF 00000007 0001 0000"),
            check!("22", "0002 00000005 0000 FFFF 00000007 0003 0000 0000"),
            check!("21", "0002 00000005 0000 FFFF 00000007 0003 0000 00"),
            check!("2E", "0003 00000000 0002 0000 0000 00000001 0003 FFFF FFFF FFFFFFFE 0002 FFFF 0000"),
            // IDs rise over all kinds, and FFFFFFFF is none.
            check!("22", "0002 00000005 0002 FFFF FFFF 00000005 0001 0000"),
            check!("22", "0002 00000005 0000 FFFF 00000004 0003 0000 0000"),
            check!("1A", "0001 FFFFFFFF 0002 0000 0000"),
        ),
        lines: "0 table 1 0 0 2\n1 table 1 0 0 2\n2 refused 30\n3 table 1 0 0 3\n4 refused 32\n5 refused 32\n6 refused 32\n",
    },
    Worked {
        // In both kinds either type may be none; there is no type 1, and FFFE is no "none".
        name: "types of requests and responses",
        calls: concat!(
            check!("1A", "0001 00000007 0002 FFFF FFFF"),
            check!("1A", "0001 00000007 0002 0001 FFFF"),
            check!("1A", "0001 00000007 0002 FFFF 0001"),
            check!("1A", "0001 00000007 0002 FFFE 0000"),
            check!("1A", "0001 00000007 0002 0000 FFFE"),
            check!("1A", "0001 00000007 0003 FFFF FFFF"),
            check!("1A", "0001 00000007 0003 0001 0000"),
            check!("1A", "0001 00000007 0003 0000 0001"),
            check!("18", "0001 00000007 0001 FFFF"),
        ),
        lines: "0 table 1 0 0 1\n1 refused 32\n2 refused 32\n3 refused 32\n4 refused 32\n5 table 1 0 0 1\n\
                6 refused 32\n7 refused 32\n8 refused 32\n",
    },
    Worked {
        // 1,024 entries whatever their width; these do not rise. 1,025 are too many before any is read.
        name: "as many wide entries as there may be",
        calls: "0004 0001 | 00002810 0001 00000008 00000000 0000 0000 0400 00000007000200000000*1024 \
                0004 0001 | 0000280F 0001 00000008 00000000 0000 0000 0400 00000007000200000000*1023 000000070002000000 \
                0004 0001 | 00002806 0001 00000008 00000000 0000 0000 0400 00000007000200000000*1023 \
                0004 0001 | 0000281A 0001 00000008 00000000 0000 0000 0400 00000007000200000000*1025 \
                0004 0001 | 0000281A 0001 00000008 00000000 0000 0000 0401 00000007000200000000*1025",
        lines: "0 refused 32\n1 refused 30\n2 refused 30\n3 refused 30\n4 refused 31\n",
    },
    Worked {
        name: "looked up among both widths",
        calls: concat!(
            find!("00000005"),
            find!("00000006"),
            find!("00000007"),
            find!("00000008"),
            find!("00000009"),
            find!("00000004"),
            find!("0000000A"),
            // What would stand there if all were 8 bytes wide: the third entry's end and the fourth.
            find!("FFFF0000"),
            find!("FFFFFFFF"),
            "000F 0002 | ",
            table!("19", "0001 00000007 0002 0000 FF"),
            "| 00000001 07 ",
            "000F 0002 | ",
            table!("18", "0001 00000007 0004 0000"),
            "| 00000001 07",
        ),
        lines: "0 entry 0 65535 65535\n1 entry 1 0 65535\n2 entry 2 0 65535\n3 entry 2 65535 0\n4 entry 3 0 0\n\
                5 none\n6 none\n7 none\n8 none\n9 refused 30\n10 refused 32\n",
    },
];
