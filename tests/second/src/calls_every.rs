//! One short call of each code, taken through everything that can be done to a call: cut at every
//! place, bad in its head and in every argument, every argument at its longest.

use crate::calls_bad::{arguments, over};
use crate::calls_compose::Call;
use crate::compare::Case;
use crate::program::By;
use crate::{answers, hex};

const UINT8: &str = "0001 0000 0006 0000 0000 0000 0000 0000";

/// The same with operation 7, whose requests we send; neither they nor their responses have a type.
const ASKS: &str = "0001 0000 0006 0000 0000 0000 0000 0001 00000007 0002 FFFF FFFF";

/// A code and its arguments, as short as the call can be answered with.
pub(crate) type Short = (u16, &'static [&'static str]);

pub(crate) const SHORTEST: &[Short] = &[
    (7, &["02"]),
    (1, &["02", "EC0A0200 00000001 00000002 00000000 00000007"]),
    (2, &["02", "00", "02", "07", "", "14"]),
    (3, &["41", "01", "01", "05", "00", "05"]),
    (4, &[UINT8]),
    (5, &[UINT8, "00", "AB", "01"]),
    (6, &[UINT8, "00", "00000000000000AB", "01"]),
    (
        8,
        &[
            UINT8,
            "EC0A0200 00000001 00000001 00000004 00000000 00000001",
            "30",
        ],
    ),
    (9, &["01"]),
    (10, &[]),
    (
        11,
        &["18", "0001 00 00000000 00000000", "00*24", "3001 0000 41"],
    ),
    (12, &["02", "01"]),
    (13, &[UINT8, "00", "AB", "01"]),
    (14, &[UINT8, "00", "00000000000000AB", "01"]),
    (15, &[UINT8, "09"]),
    (16, &[UINT8, "00", "AB", "01"]),
    (17, &[UINT8, "00", "00000000000000AB", "01"]),
    (20, &[ASKS, "07", "01", "", "14"]),
    (22, &["02"]),
    (21, &["02"]),
    (23, &["02", "05", "0000000500000007"]),
    (
        81,
        &[
            "02",
            "01",
            "EC0A1001 00000002 00000005 00000006 00000000 00000007",
        ],
    ),
    (82, &["02", "05", "06", "00", "02", "07", "", "18"]),
];

/// The codes of a platform among partners of Issue 3.
pub(crate) const SHORTEST_3: &[Short] = &[
    (83, &["02", "01"]),
    (
        84,
        &[
            "05",
            "06",
            "63",
            "0000000200000015",
            UINT8,
            "EC0A1001 00000003 00000005 00000006 0000000C 00000007 00000001 0000004D 00000001",
            "00",
        ],
    ),
    (85, &["01", "4D"]),
    (86, &["01"]),
    (
        87,
        &[
            "05",
            "06",
            "63",
            "0000000200000015",
            "0100",
            UINT8,
            "EC0A1001 00000003 00000005 00000006 0000000C 00000007 00000001 0000004D 00000000",
            "00",
        ],
    ),
    (88, &["05", "06", ASKS, "07", "01", "", "18"]),
];

pub(crate) fn calls(shortest: &[Short]) -> Vec<Call> {
    let each = shortest.iter().map(|(code, arguments)| Call {
        code: *code,
        arguments: arguments.iter().map(|text| hex::bytes(text)).collect(),
    });
    each.collect()
}

pub(crate) fn in_one_file(calls: &[Call]) -> Vec<u8> {
    let mut out = Vec::new();
    calls.iter().for_each(|call| call.put(&mut out));
    out
}

/// By name and on standard input in turn.
fn in_turn(number: usize) -> &'static [By] {
    if number % 2 == 0 {
        &[By::Name]
    } else {
        &[By::Input]
    }
}

/// That file and each of its beginnings.
pub(crate) fn cuts(shortest: &[Short]) -> impl Iterator<Item = Case> + Send {
    let whole = in_one_file(&calls(shortest));
    (0..=whole.len()).map(move |length| Case {
        name: format!("cut-{length}"),
        told: answers::tell(&whole[..length]),
        file: whole[..length].to_vec(),
        ways: in_turn(length),
        counts: length == whole.len(),
    })
}

/// The bytes of a call that has an argument changed, its length perhaps a lie.
fn changed(call: &Call, at: usize, length: usize, bytes: &[u8]) -> Vec<u8> {
    let mut with = call.clone();
    with.arguments[at] = bytes.to_vec();
    let mut out = with.file();
    let before: usize = call.arguments[..at].iter().map(|a| 4 + a.len()).sum();
    out[4 + before..8 + before].copy_from_slice(&(length as u32).to_be_bytes());
    if length > bytes.len() {
        // What a length announces is not there: nor is anything behind it.
        out.truncate(8 + before + bytes.len());
    }
    out
}

/// Every way in which one argument is bad.
fn bad_argument(call: &Call, at: usize, kind: &str) -> Vec<Vec<u8>> {
    let good = &call.arguments[at];
    let as_it_is = |bytes: &[u8]| changed(call, at, bytes.len(), bytes);
    let announced = |length: usize| changed(call, at, length, &[]);
    let odd = [&good[..], &[0]].concat();
    match kind {
        "b" => vec![announced(70_001)],
        "w" => vec![announced(524_289), as_it_is(&odd), as_it_is(&good[1..])],
        // A word too many, too: whole or not, its length is enough.
        "l" => vec![
            announced(1025),
            announced(1032),
            as_it_is(&[0; 1032]),
            as_it_is(&odd),
            as_it_is(&good[1..]),
        ],
        "r" => {
            let neither = hex::bytes("0001 02 00000000 00000000");
            vec![announced(70_001), as_it_is(&odd), as_it_is(&neither)]
        }
        _ => {
            let mut out = vec![as_it_is(&[]), as_it_is(&[0, 0, 0, 0, 0, 0, 0, 0, 1])];
            if kind != "64" {
                out.push(as_it_is(&over(kind)[0].to_be_bytes()));
            }
            out
        }
    }
}

fn bad_calls(shortest: &[Short]) -> Vec<Vec<u8>> {
    let mut out = Vec::new();
    for call in calls(shortest) {
        for (at, kind) in arguments(call.code).enumerate() {
            out.extend(bad_argument(&call, at, kind));
        }
        let mut more = call.clone();
        more.arguments.push(vec![0]);
        out.push(more.file());
        let mut fewer = call.clone();
        if fewer.arguments.pop().is_some() {
            out.push(fewer.file());
        }
    }
    out
}

pub(crate) fn bad(shortest: &[Short]) -> impl Iterator<Item = Case> + Send {
    let files = bad_calls(shortest).into_iter().enumerate();
    files.map(|(number, file)| Case {
        name: format!("bad-{number}"),
        told: answers::tell(&file),
        file,
        ways: in_turn(number),
        counts: true,
    })
}

/// Every argument that is no number as long as it is taken, and every number in eight bytes.
pub(crate) fn longest(shortest: &[Short]) -> Case {
    let mut long_ones = Vec::new();
    for call in calls(shortest) {
        for (at, kind) in arguments(call.code).enumerate() {
            let most = match kind {
                "b" => 70_000,
                "r" => 70_000 / 11 * 11,
                "w" => 524_288,
                "l" => 1024,
                _ => 8,
            };
            let mut long = call.clone();
            let bytes = &mut long.arguments[at];
            if most == 8 {
                bytes.splice(0..0, vec![0; 8 - bytes.len()]);
            } else {
                bytes.resize(most, 0);
            }
            long_ones.push(long);
        }
    }
    let file = in_one_file(&long_ones);
    Case {
        name: "longest".to_string(),
        told: answers::tell(&file),
        file,
        ways: &[By::Name, By::Input],
        counts: true,
    }
}

fn each_of(shortest: &[Short]) -> impl Iterator<Item = Case> + Send {
    let longest = std::iter::once(longest(shortest));
    cuts(shortest).chain(bad(shortest)).chain(longest)
}

pub fn all() -> impl Iterator<Item = Case> + Send {
    each_of(SHORTEST)
}

/// The same of the codes of a platform among partners of Issue 3.
pub fn issue_3() -> impl Iterator<Item = Case> + Send {
    each_of(SHORTEST_3).map(|case| Case {
        name: format!("issue-3-{}", case.name),
        ..case
    })
}
