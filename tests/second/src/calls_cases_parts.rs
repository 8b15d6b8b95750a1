//! Parts of files of calls about requests, to be put together by hand.
//!
//! The table is of a uint16 and the operations 5 (event), 6 (versioned data), 7 and 8 (requests we
//! send) and 9 (requests we serve).

/// The table as an argument.
macro_rules! requests_table {
    () => {
        "0000003E 0001 00000008 00000000 0000 0000 0005 00000005 0000 FFFF 00000006 0001 0000 \
         00000007 0002 0000 FFFF 00000008 0002 FFFF 0000 00000009 0003 0000 0000"
    };
}

/// Code 8, over this table or another.
macro_rules! hear {
    ($message:literal, $room:literal) => {
        hear!(requests_table!(), $message, $room)
    };
    ($table:expr, $message:literal, $room:literal) => {
        concat!(
            "0008 0003 | ",
            $table,
            " | ",
            $message,
            " | 00000001 ",
            $room,
            " "
        )
    };
}

/// Code 20, over this table or another.
macro_rules! send {
    ($id:literal, $target:literal, $payload:literal, $room:literal) => {
        send!(requests_table!(), $id, $target, $payload, $room)
    };
    ($table:expr, $id:literal, $target:literal, $payload:literal, $room:literal) => {
        concat!(
            "0014 0005 | ",
            $table,
            " | 00000004 ",
            $id,
            " | 00000004 ",
            $target,
            " | ",
            $payload,
            " | 00000001 ",
            $room,
            " "
        )
    };
}

/// Code 21.
macro_rules! cancel {
    ($number:literal) => {
        concat!("0015 0001 | 00000004 ", $number, " ")
    };
}

/// Code 22.
macro_rules! pending {
    ($number:literal) => {
        concat!("0016 0001 | 00000004 ", $number, " ")
    };
}

/// Code 23 for platform 1: the next own number, and the words as an argument.
macro_rules! handed_in {
    ($next:literal, $words:expr) => {
        concat!(
            "0017 0003 | 00000001 01 | 00000004 ",
            $next,
            " | ",
            $words,
            " "
        )
    };
}
