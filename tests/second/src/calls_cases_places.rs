//! Where 40 to 43 refuse, codes 5, 6, 13 and 14, worked out by hand.
//!
//! Type 5 of the first table, 66 bytes, is a record of an array of up to 3 uint8 and of a record of
//! char8, uint8 and float32. Its value is 12 bytes and 6 leaves:
//! `00000002 | 01 | 02 | 41 | 80 | 3F800000`.

use crate::calls_cases::Worked;

macro_rules! table {
    () => {
        "00000042 0006 00000006 00000000 00000002 00000000 0000000B 00000000 00040000 00000003 \
         00020000 00000003 00020000 00030002 0005 0001 0000 0002 0003 0004 0000 0000 "
    };
}

/// A call on type 5 with plenty of room: its code, and the input behind its length.
macro_rules! walk {
    ($code:literal, $input:literal) => {
        walk!($code, "05", $input, "40")
    };
    ($code:literal, $of:literal, $input:literal, $room:literal) => {
        concat!(
            $code,
            " 0004 | ",
            table!(),
            "| 00000001 ",
            $of,
            " | ",
            $input,
            " | 00000001 ",
            $room,
            " "
        )
    };
}

/// An array of up to 1,000 of a base, in a table of 24 bytes, type 1.
macro_rules! run {
    ($code:literal, $base:literal, $input:literal) => {
        concat!(
            $code,
            " 0004 | 00000018 0002 0000",
            $base,
            " 00000000 00040000 000003E8 0000 0000 0000 | 00000001 01 | ",
            $input,
            " | 00000002 2000 "
        )
    };
}

pub const CASES: &[Worked] = &[
    Worked {
        name: "where payloads stop",
        calls: concat!(
            walk!("0005", "0000000C 00000002 01 02 41 80 3F800000"),
            walk!("0005", "0000000C 00000004 01 02 41 80 3F800000"),
            walk!("0005", "00000004 00000004"),
            walk!("0005", "00000003 000000"),
            walk!("0005", "00000000"),
            walk!("0005", "0000000C 00000002 01 02 41 80 7F800000"),
            walk!("0005", "0000000A 00000002 01 02 41 80 3F80"),
            walk!("0005", "00000008 00000002 01 02 41 80"),
            walk!("0005", "00000005 00000002 01"),
            walk!("0005", "0000000E 00000002 01 02 41 80 3F800000 0000"),
            walk!("0005", "0000000B 00000000 41 80 3F800000 99"),
            walk!("000D", "0000000C 00000002 01 02 41 80 FF800001"),
            walk!("000D", "0000000B 00000002 01 02 41 80 3F8000"),
            walk!("000D", "0000000D 00000002 01 02 41 80 3F800000 00"),
            walk!("000D", "0000000C 80000002 01 02 41 80 3F800000"),
            // A char8 above 127, and a uint8.
            walk!("0005", "0000000C 00000002 01 02 80 80 3F800000"),
        ),
        lines: "0 words 2 1 2 65 128 1065353216\n1 refused 43 0 0\n2 refused 43 0 0\n3 refused 40 0 0\n\
                4 refused 40 0 0\n5 refused 42 8 5\n6 refused 40 8 5\n7 refused 40 8 5\n8 refused 40 5 2\n\
                9 refused 41 12 6\n10 refused 41 10 4\n11 refused 42 8 5\n12 refused 40 8 5\n13 refused 41 12 6\n\
                14 refused 43 0 0\n15 refused 42 6 3\n",
    },
    Worked {
        // Behind a first one an array: its count is the third leaf.
        name: "where a nested count stops",
        calls: "0005 0004 | 00000020 0003 00000006 00000000 00040000 00000003 00030001 00000002 0000 0000 0000 \
                | 00000001 02 | 00000009 00000001 AA 00000004 | 00000001 08 \
                0005 0004 | 00000020 0003 00000006 00000000 00040000 00000003 00030001 00000002 0000 0000 0000 \
                | 00000001 02 | 00000008 00000001 AA 000000 | 00000001 08 \
                0006 0004 | 00000020 0003 00000006 00000000 00040000 00000003 00030001 00000002 0000 0000 0000 \
                | 00000001 02 | 00000018 0000000000000001 00000000000000AA 0000000000000004 | 00000001 08",
        lines: "0 refused 43 5 2\n1 refused 40 5 2\n2 refused 43 2 2\n",
    },
    Worked {
        name: "where words stop",
        calls: concat!(
            walk!("0006", "00000030 00*7 02 00*7 01 00*7 02 00*7 41 00*7 80 000000003F800000"),
            walk!("0006", "00000030 00*7 02 00*7 01 00*7 02 0000000000000100 00*7 80 000000003F800000"),
            walk!("0006", "00000008 0000000100000000"),
            walk!("0006", "00000028 00*7 02 00*7 01 00*7 02 00*7 41 00*7 80"),
            walk!("0006", "00000000"),
            walk!("0006", "00000018 00*7 02 00*7 01 0000000000000100"),
            walk!("0006", "00000040 00*7 02 00*7 01 00*7 02 00*7 41 00*7 80 000000003F800000 00*16"),
            walk!("0006", "00000020 00*7 00 00*7 41 00*7 80 000000007F800000"),
            walk!("000E", "00000028 00*7 02 00*7 01 00*7 02 00*7 41 00*7 80"),
            walk!("000E", "00000030 00*7 02 00*7 01 00*7 02 00*7 41 00*7 80 00000000FF800000"),
            walk!("000E", "00000038 00*7 02 00*7 01 00*7 02 00*7 41 00*7 80 000000003F800000 FF*8"),
            walk!("000E", "00000008 0000000000000004"),
            walk!("0006", "00000030 00*7 02 00*7 01 00*7 02 00*7 80 00*7 80 000000003F800000"),
        ),
        lines: "0 bytes 000000020102{41}803f800000\n1 refused 42 3 3\n2 refused 43 0 0\n3 refused 40 5 5\n\
                4 refused 40 0 0\n5 refused 42 2 2\n6 refused 41 6 6\n7 refused 42 3 3\n8 refused 40 5 5\n\
                9 refused 42 5 5\n10 refused 41 6 6\n11 refused 43 0 0\n12 refused 42 3 3\n",
    },
    Worked {
        // Infinite in the last but one of 1,000 float32; of uint16 the 500th is cut.
        name: "where long arrays stop",
        calls: concat!(
            run!("0005", "000B", "00000FA4 000003E8 00000000*998 7F800000 00000000"),
            run!("000D", "000B", "00000FA1 000003E8 00000000*999 00"),
            run!("0005", "0008", "000003EB 000003E8 0102*499 01"),
            run!("0006", "000B", "00001F48 00000000000003E8 00*7984 000000007F800000 00*8"),
            run!("000E", "0008", "00000F48 00000000000003E8 00*3904"),
        ),
        lines: "0 refused 42 3996 999\n1 refused 40 4000 1000\n2 refused 40 1002 500\n3 refused 42 999 999\n\
                4 refused 40 489 489\n",
    },
    Worked {
        // Numbers other than 40 to 43 have no place.
        name: "refusals without a place",
        calls: concat!(
            walk!("0005", "05", "0000000C 00000002 01 02 41 80 3F800000", "05"),
            walk!("000D", "06", "0000000C 00000002 01 02 41 80 7F800000", "40"),
            walk!("0006", "05", "00000030 00*7 02 00*7 01 00*7 02 00*7 41 00*7 80 000000003F800000", "0B"),
            walk!("000E", "06", "00000008 0000000100000000", "40"),
        ),
        lines: "0 refused 45\n1 refused 44\n2 refused 45\n3 refused 44\n",
    },
];
