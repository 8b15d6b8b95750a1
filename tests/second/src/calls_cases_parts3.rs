//! Parts of files of calls among partners of both issues, to be put together by hand. The table is
//! that of `calls_cases_parts`.

/// Code 81 at platform 9: the threes as an argument, and the message.
macro_rules! read_3 {
    ($threes:literal, $message:expr) => {
        concat!("0051 0003 | 00000001 09 | ", $threes, " | ", $message, " ")
    };
}

/// Code 82 of platform 7, at 5 s 6 ns and with number 9.
macro_rules! write_3 {
    ($domain:literal, $id:literal, $payload:literal, $room:literal) => {
        concat!(
            "0052 0008 | 00000001 07 | 00000001 05 | 00000004 00000006 | 00000001 ",
            $domain,
            " | 00000004 ",
            $id,
            " | 00000001 09 | ",
            $payload,
            " | 00000001 ",
            $room,
            " "
        )
    };
}

/// Code 83 for platform 1.
macro_rules! among {
    ($threes:literal) => {
        concat!("0053 0002 | 00000001 01 | ", $threes, " ")
    };
}

/// Code 84 at 2 s 2 ns, with composite 99 and the services 21, AVAILABLE, and 22, UNAVAILABLE; over
/// this table or another.
macro_rules! hear_3 {
    ($message:expr, $room:literal) => {
        hear_3!(requests_table!(), $message, $room)
    };
    ($table:expr, $message:expr, $room:literal) => {
        concat!(
            "0054 0007 | 00000001 02 | 00000001 02 | 00000001 63 | ",
            "00000010 0000000200000015 0000000100000016 | ",
            $table,
            " | ",
            $message,
            " | 00000001 ",
            $room,
            " "
        )
    };
}

/// Code 85.
macro_rules! service {
    ($platform:literal, $id:literal) => {
        concat!("0055 0002 | 00000004 ", $platform, " | 00000004 ", $id, " ")
    };
}

/// Code 86.
macro_rules! known {
    ($platform:literal) => {
        concat!("0056 0001 | 00000004 ", $platform, " ")
    };
}

/// Code 87 as 84 above, with so many words lent.
macro_rules! hear_lent {
    ($lent:literal, $message:expr, $room:literal) => {
        concat!(
            "0057 0008 | 00000001 02 | 00000001 02 | 00000001 63 | ",
            "00000010 0000000200000015 0000000100000016 | 00000002 ",
            $lent,
            " | ",
            requests_table!(),
            " | ",
            $message,
            " | 00000001 ",
            $room,
            " "
        )
    };
}

/// Code 88 at 5 s 6 ns, over the same table.
macro_rules! send_3 {
    ($id:literal, $target:literal, $payload:literal, $room:literal) => {
        concat!(
            "0058 0007 | 00000001 05 | 00000001 06 | ",
            requests_table!(),
            " | 00000004 ",
            $id,
            " | 00000004 ",
            $target,
            " | ",
            $payload,
            " | 00000001 ",
            $room,
            " "
        )
    };
}
