//! The cases. Each is made with the two programs' answers compared over more calls than its inputs repeat in.
//!
//! The plain program's calls are made through pointers that the compiler cannot see through, as it cannot see into the archive:
//! so neither is inlined, and nothing of a call is worked out before it.

mod joining;
mod lookups;
mod messages;
mod mixed;
pub mod payloads;
mod requests;

use crate::measure::Case;
use crate::tables::{self, id_of, message, message_3, Random, CHAR8, FLOAT32, SENT};
use bench::plain::types;
use joining::{cutting, joining};
use lookups::{checking, finding};
use messages::{reading, reading_mixed, receiving, receiving_any};
use mixed::{beside_issue_6_alone, hearing, of_256_services, Known};
use payloads::{packing, unpacking};
use requests::{responding, sending, sending_mixed};

/// A case by name, made when it is measured.
pub struct Named {
    pub name: String,
    pub make: Box<dyn Fn() -> Case>,
}

pub fn all() -> Vec<Named> {
    let mut cases: Vec<Named> = Vec::new();
    let mut add = |name: &str, make: Box<dyn Fn() -> Case>| {
        cases.push(Named {
            name: name.to_string(),
            make,
        })
    };
    for channels in [4, 32] {
        for piece in [64, 1_400, 60_000] {
            let name = format!("join pieces of {}, {channels} channels", digits(piece));
            add(&name, Box::new(move || joining(channels, piece)));
        }
    }
    for piece in [64, 1_400, 60_000] {
        add(
            &format!("cut pieces of {}", digits(piece)),
            Box::new(move || cutting(piece)),
        );
    }
    add(
        "read the header of an operation",
        Box::new(|| reading(&operation(3))),
    );
    add(
        "read a status",
        Box::new(|| reading(&message(0, 2, 1, 7, &[0, 0, 0, 1]))),
    );
    let threes = [1 << 3, 0, 0, 0];
    add(
        "read by its sender's issue, an operation of Issue 6",
        Box::new(move || reading_mixed(threes, &operation(3))),
    );
    add(
        "read by its sender's issue, a status of Issue 3",
        Box::new(move || reading_mixed(threes, &message_3(0, 3, 1, 7, &[0, 0, 0, 1, 0, 0, 0, 9]))),
    );
    let few = tables::record_of_all;
    let many = || tables::large_table(64, &tables::operations(1_000));
    add(
        "platform call, status with no change",
        Box::new(move || receiving(&few(), &message(0, 2, 1, 7, &[0; 4]))),
    );
    add(
        "platform call, status request",
        Box::new(move || receiving(&few(), &message(0, 2, 2, 7, &[]))),
    );
    add(
        "platform call, operation, 16 in the table",
        Box::new(move || receiving(&few(), &operation(3))),
    );
    add(
        "platform call, operation, last of 1,000",
        Box::new(move || receiving(&many(), &operation(999))),
    );
    add(
        "platform call, operation, last of 1,000, both widths",
        Box::new(|| receiving(&both(), &operation(999))),
    );
    add(
        "platform call, operation, one of 1,000 at random, both widths",
        Box::new(|| receiving_any(&both(), heard_at_random())),
    );
    add_mixed(&mut add);
    let last = || vec![id_of(999)];
    for (beside, plain) in [
        ("", types::find as lookups::Find),
        (", beside a plain scan", types::scan),
    ] {
        add(
            &format!("find an operation, last of 1,000{beside}"),
            Box::new(move || finding(&both(), last(), plain)),
        );
        add(
            &format!("find an operation, one of 1,000 at random{beside}"),
            Box::new(move || finding(&both(), at_random().map(id_of).collect(), plain)),
        );
    }
    add("send a request, 63 pending", Box::new(|| sending(&both())));
    add("a response, 63 pending", Box::new(|| responding(&both())));
    for (issue, target) in [(6, 2), (3, 3)] {
        add(
            &format!("send a request by issue, to Issue {issue}, 63 pending"),
            Box::new(move || sending_mixed(&both(), target)),
        );
    }
    for (name, value) in values() {
        add(
            &format!("unpack {name}"),
            Box::new(move || unpacking(value())),
        );
        add(&format!("pack {name}"), Box::new(move || packing(value())));
    }
    add(
        "check a table of 64 types, 64 operations",
        Box::new(|| checking(tables::large_table(64, &tables::operations(64)))),
    );
    add(
        "check a table of 256 types, 1,024 operations",
        Box::new(|| checking(tables::large_table(256, &tables::operations(1_024)))),
    );
    add(
        "check a table of 256 types, 1,024 operations of both widths, with its index",
        Box::new(|| checking(tables::large_table(256, &tables::operations_of_both(1_024)))),
    );
    cases
}

/// The platform call among partners of both issues.
fn add_mixed(add: &mut impl FnMut(&str, Box<dyn Fn() -> Case>)) {
    let few = tables::record_of_all;
    let operation_3 = || message_3(1, 3, id_of(3), 7, &[3; 32]);
    let down_of_3 = || message_3(0, 3, 1, 7, &[0; 8]);
    add(
        "platform call by issue, operation of Issue 6, 16 in the table",
        Box::new(move || hearing(&few(), &operation(3), Known::Kept)),
    );
    add(
        "platform call by issue, operation of Issue 6, beside nyr_receive_in",
        Box::new(move || beside_issue_6_alone(&few(), &operation(3))),
    );
    add(
        "platform call by issue, operation of Issue 3, 16 in the table",
        Box::new(move || hearing(&few(), &operation_3(), Known::Kept)),
    );
    add(
        "platform call by issue, status of Issue 3 with no change",
        Box::new(move || hearing(&few(), &down_of_3(), Known::Kept)),
    );
    add(
        "platform call by issue, status request of Issue 3",
        Box::new(move || hearing(&few(), &message_3(0, 3, 2, 7, &[]), Known::Kept)),
    );
    add(
        "platform call by issue, 256 services told, all known",
        Box::new(move || hearing(&few(), &of_256_services(), Known::Kept)),
    );
    add(
        "platform call by issue, 256 services told, none known",
        Box::new(move || hearing(&few(), &of_256_services(), Known::Fresh)),
    );
}

/// What is unpacked and packed: a table, the number of a type in it, and the words of a value.
type Value = (Vec<u8>, u16, Vec<u64>);

fn values() -> [(&'static str, fn() -> Value); 7] {
    [
        ("record of 64 uint16", || {
            (tables::record_of_uint16(), 1, thousands())
        }),
        ("record of 64, mixed codes", || {
            (tables::record_of_all(), 14, tables::words_of_all())
        }),
        ("array of 1,000 float32", || {
            (tables::array_of(FLOAT32), 1, behind(&[1_000], floats()))
        }),
        ("array of 1,000 char8", || {
            (tables::array_of(CHAR8), 1, behind(&[1_000], text()))
        }),
        ("8 records of 8 uint16", || {
            (tables::record_of_records(), 2, thousands())
        }),
        ("4 uint32, array of 1,000 float32", || {
            (
                tables::record_with_array(),
                3,
                behind(&[1, 2, 3, 4, 1_000], floats()),
            )
        }),
        ("array of 100 records of 8", || {
            let one = [7, 8, 0x3FC0_0000, 0x4000_1234_5678_9ABC];
            (
                tables::array_of_records(),
                5,
                behind(&[100], one.repeat(200)),
            )
        }),
    ]
}

fn thousands() -> Vec<u64> {
    (0..64).map(|i| i * 1_000).collect()
}

fn floats() -> Vec<u64> {
    (0..1_000)
        .map(|i| u64::from((i as f32 * 1.25).to_bits()))
        .collect()
}

/// Every char8 by turns.
fn text() -> Vec<u64> {
    (0..1_000).map(|i| i % 128).collect()
}

fn behind(first: &[u64], rest: Vec<u64>) -> Vec<u64> {
    [first, &rest].concat()
}

fn operation(entry: u32) -> Vec<u8> {
    message(1, 2, id_of(entry), 7, &[3; 32])
}

fn both() -> Vec<u8> {
    tables::large_table(64, &tables::operations_of_both(1_000))
}

/// The numbers of entries among 1,000, as often as a case repeats its inputs.
fn at_random() -> impl Iterator<Item = u32> {
    let mut random = Random(13);
    (0..REPEATED).map(move |_| random.below(1_000) as u32)
}

/// Messages with such operations; not with those whose requests we send.
fn heard_at_random() -> Vec<Vec<u8>> {
    at_random()
        .map(|entry| {
            if entry % 4 == u32::from(SENT) {
                entry + 1
            } else {
                entry
            }
        })
        .map(operation)
        .collect()
}

/// More than a processor learns by heart: 1,024 it does (`docs/SPEED.md`, "An operation looked up").
const REPEATED: usize = 65_536;

fn digits(number: usize) -> String {
    if number < 1_000 {
        number.to_string()
    } else {
        format!("{},{:03}", number / 1_000, number % 1_000)
    }
}
