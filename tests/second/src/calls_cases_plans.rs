//! Codes 16 and 17, by plans (02, request 13), worked out by hand: what the walk answers, also where
//! a type has fixed places, and where it has one leaf too many for them.

use crate::calls_cases::Worked;

/// A call with a table behind its length: the code, the type, the input behind its length, and the
/// output's length in two bytes.
macro_rules! by {
    ($code:literal, $table:expr, $of:literal, $input:literal, $room:literal) => {
        concat!(
            $code,
            " 0004 | ",
            $table,
            " | 00000001 ",
            $of,
            " | ",
            $input,
            " | 00000002 ",
            $room,
            " "
        )
    };
}

/// Type 2 is a record of float32 and uint16, type 3 an array of up to 3 of it: 44 bytes.
macro_rules! tracks {
    () => {
        "0000002C 0004 0000000B 00000000 00000008 00000000 00020000 00000002 00040002 00000003 0002 0000 0001 \
         0000 0000 "
    };
}

/// Type 1 is a uint8 enum of 1 and 3, type 2 a record of uint8, it and uint8: 54 bytes.
macro_rules! modes {
    () => {
        "00000036 0003 00000006 00000000 00010006 00000002 00020000 00000003 0003 0000 0001 0000 \
         0002 0000000000000001 0000000000000003 0000 "
    };
}

/// Types 1 and 2 are 512 and 513 char8, type 3 a record of type 1, type 4 a record of it and one more:
/// 54 bytes.
macro_rules! texts {
    () => {
        "00000036 0005 00000002 00000000 00030000 00000200 00030000 00000201 00020000 00000001 00020000 00010002 \
         0003 0001 0003 0000 0000 0000 "
    };
}

/// The same payload of char8, and words of them, to each type of `texts`.
macro_rules! text {
    ($of:literal, $input:literal, $room:literal) => {
        by!("0010", texts!(), $of, $input, $room)
    };
    ($of:literal, words $input:literal, $room:literal) => {
        by!("0011", texts!(), $of, $input, $room)
    };
}

pub const CASES: &[Worked] = &[
    Worked {
        name: "by plans each way",
        calls: concat!(
            by!("0010", tracks!(), "02", "00000006 3F800000 0102", "0002"),
            by!("0011", tracks!(), "02", "00000010 000000003F800000 0000000000000102", "0006"),
            by!("0010", tracks!(), "00", "00000004 BF800000", "0001"),
            by!("0011", tracks!(), "01", "00000008 000000000000FFFF", "0002"),
            by!("0010", modes!(), "02", "00000003 05 03 05", "0003"),
            by!("0011", modes!(), "02", "00000018 00*7 05 00*7 01 00*7 FF", "0003"),
            by!("0010", modes!(), "01", "00000001 03", "0001"),
        ),
        lines: "0 words 1065353216 258\n1 bytes 3f8000000102\n2 words 3212836864\n3 bytes ffff\n\
                4 words 5 3 5\n5 bytes 0501ff\n6 words 3\n",
    },
    Worked {
        // An infinite first leaf, and a second that is cut or missing: the first from the left is told.
        name: "by plans 42 before a later 40",
        calls: concat!(
            by!("0010", tracks!(), "02", "00000005 7F800000 01", "0002"),
            by!("0010", tracks!(), "02", "00000004 FF800000", "0002"),
            by!("0010", tracks!(), "02", "00000007 7F800000 0102 00", "0002"),
            by!("0010", tracks!(), "02", "00000006 7F800000 0102", "0000"),
            by!("0011", tracks!(), "02", "00000008 000000007F800000", "0006"),
            by!("0011", tracks!(), "02", "00000010 000000013F800000 0000000000010000", "0006"),
            by!("0011", tracks!(), "02", "00000018 000000003F800000 0000000000010000 00*8", "0000"),
        ),
        lines: "0 refused 42 0 0\n1 refused 42 0 0\n2 refused 42 0 0\n3 refused 42 0 0\n4 refused 42 0 0\n\
                5 refused 42 0 0\n6 refused 42 1 1\n",
    },
    Worked {
        // 5 and 2 are uint8, and not of the enum between them.
        name: "by plans an enum among its base",
        calls: concat!(
            by!("0010", modes!(), "02", "00000003 05 05 05", "0003"),
            by!("0010", modes!(), "02", "00000002 05 02", "0003"),
            by!("0010", modes!(), "02", "00000001 05", "0003"),
            by!("0010", modes!(), "02", "00000003 01 03 02", "0002"),
            by!("0011", modes!(), "02", "00000018 00*7 01 00*7 02 00*7 03", "0003"),
            by!("0011", modes!(), "02", "00000018 00*7 01 0000000000000103 00*7 03", "0003"),
            by!("0011", modes!(), "02", "00000018 00*7 02 00*7 03 0000000000000100", "0003"),
        ),
        lines: "0 refused 42 1 1\n1 refused 42 1 1\n2 refused 40 1 1\n3 refused 45\n4 refused 42 1 1\n\
                5 refused 42 1 1\n6 refused 42 2 2\n",
    },
    Worked {
        name: "by plans too few and left over",
        calls: concat!(
            by!("0010", tracks!(), "02", "00000000", "0002"),
            by!("0010", tracks!(), "02", "00000003 3F8000", "0002"),
            by!("0010", tracks!(), "02", "00000005 3F800000 01", "0002"),
            by!("0010", tracks!(), "02", "00000008 3F800000 0102 0000", "0002"),
            by!("0010", tracks!(), "02", "00000006 3F800000 0102", "0001"),
            by!("0011", tracks!(), "02", "00000000", "0006"),
            by!("0011", tracks!(), "02", "00000008 000000003F800000", "0006"),
            by!("0011", tracks!(), "02", "00000020 000000003F800000 0000000000000102 00*16", "0006"),
            by!("0011", tracks!(), "02", "00000010 000000003F800000 0000000000000102", "0005"),
            by!("0010", tracks!(), "04", "00000000", "0000"),
            by!("0011", "00000002 0000", "00", "00000000", "0000"),
        ),
        lines: "0 refused 40 0 0\n1 refused 40 0 0\n2 refused 40 4 1\n3 refused 41 6 2\n4 refused 45\n\
                5 refused 40 0 0\n6 refused 40 1 1\n7 refused 41 2 2\n8 refused 45\n9 refused 44\n10 refused 31\n",
    },
    Worked {
        // 512 leaves in an array and nested, 513 in an array and in a record: the last is judged too.
        name: "by plans 512 and 513 leaves",
        calls: concat!(
            text!("01", "00000200 41*511 80", "0200"),
            text!("03", "00000200 41*511 80", "0200"),
            text!("02", "00000201 41*512 80", "0201"),
            text!("04", "00000201 41*512 80", "0201"),
            text!("01", "00000201 41*513", "0200"),
            text!("02", "00000200 41*512", "0201"),
            text!("04", "00000202 41*514", "0201"),
            text!("03", "00000200 41*512", "01FF"),
            text!("04", "00000201 41*513", "0200"),
            text!("01", words "00001000 0000000000000041*512", "0200"),
            text!("03", words "00001000 0000000000000041*511 0000000000000080", "0200"),
            text!("02", words "00001008 0000000000000041*513", "0201"),
            text!("04", words "00001008 0000000000000041*512 0000000000000141", "0201"),
            text!("03", words "00000FF8 0000000000000041*511", "0200"),
            text!("01", words "00001008 0000000000000041*513", "0200"),
            text!("03", words "00001000 0000000000000041*512", "01FF"),
        ),
        lines: "0 refused 42 511 511\n1 refused 42 511 511\n2 refused 42 512 512\n3 refused 42 512 512\n\
                4 refused 41 512 512\n5 refused 40 512 512\n6 refused 41 513 513\n7 refused 45\n8 refused 45\n\
                9 bytes {41*512}\n10 refused 42 511 511\n11 bytes {41*513}\n12 refused 42 512 512\n\
                13 refused 40 511 511\n14 refused 41 512 512\n15 refused 45\n",
    },
    Worked {
        // The array has no fixed places, its records do.
        name: "by plans an array of records",
        calls: concat!(
            by!("0010", tracks!(), "03", "00000010 00000002 3F800000 0001 40000000 0002", "0005"),
            by!("0010", tracks!(), "03", "00000010 00000002 3F800000 0001 7F800000 0002", "0005"),
            by!("0010", tracks!(), "03", "0000000F 00000002 3F800000 0001 40000000 00", "0005"),
            by!("0010", tracks!(), "03", "00000010 00000001 3F800000 0001 40000000 0002", "0005"),
            by!("0010", tracks!(), "03", "00000004 00000004", "0005"),
            by!("0010", tracks!(), "03", "00000004 00000000", "0005"),
            by!("0011", tracks!(), "03", "00000018 00*7 01 000000003F800000 00*7 07", "000A"),
            by!("0011", tracks!(), "03", "00000028 00*7 02 000000003F800000 00*7 07 000000003F800000 00*5 010000", "0010"),
            by!("0011", tracks!(), "03", "00000020 00*7 02 000000003F800000 00*7 07 000000003F800000", "0010"),
            by!("0011", tracks!(), "03", "00000008 0000000100000001", "0010"),
        ),
        lines: "0 words 2 1065353216 1 1073741824 2\n1 refused 42 10 3\n2 refused 40 14 4\n3 refused 41 10 3\n\
                4 refused 43 0 0\n5 words 0\n6 bytes 000000013f8000000007\n7 refused 42 4 4\n8 refused 40 4 4\n\
                9 refused 43 0 0\n",
    },
];
