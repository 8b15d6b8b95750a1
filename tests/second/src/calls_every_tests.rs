//! What is done to one short call of each code comes to what it must.

use crate::answers::{self, Ending};
use crate::calls_every::*;
use std::collections::BTreeSet;

fn lines(shortest: &[Short]) -> Vec<String> {
    let whole = answers::tell(&in_one_file(&calls(shortest)));
    let answered = whole.calls.iter().filter(|call| call.1.is_none());
    assert_eq!(answered.count(), shortest.len(), "{}", whole.lines);
    whole.lines.lines().map(str::to_string).collect()
}

#[test]
fn the_shortest_are_answered() {
    let codes: BTreeSet<u16> = SHORTEST.iter().map(|short| short.0).collect();
    assert_eq!(codes, (1..=17).chain(20..=23).chain(81..=82).collect());
    // The pair that 1 was owed took 0 and 1, so the request is number 2, and not 1.
    let requests = &lines(SHORTEST)[17..];
    assert!(
        requests[0].starts_with("17 sent 2 ec0a0201"),
        "{requests:?}"
    );
    assert_eq!(
        requests[1..],
        [
            "18 pending 7 1",
            "19 cancelled",
            "20 platform 2",
            "21 three 5 6 request from 1 seq 7",
            "22 written ec0a10020000000200000005000000060000000000000007",
        ]
    );
}

#[test]
fn the_shortest_of_issue_3_are_answered() {
    let codes: BTreeSet<u16> = SHORTEST_3.iter().map(|short| short.0).collect();
    assert_eq!(codes, (83..=88).collect());
    let expected = [
        "0 platform 2 threes 1",
        "1 three services 1 0000004d00000001 from 1 owed -",
        "2 available",
        "3 known 77 a",
        "4 three services 1 0000004d00000000 from 1 owed -",
        "5 sent 1 ec0a11020000000700000005000000060000000000000001",
    ];
    assert_eq!(lines(SHORTEST_3), expected);
}

/// A file cut behind a call has that many lines; cut anywhere else, one more.
#[test]
fn each_cut_is_told() {
    for shortest in [SHORTEST, SHORTEST_3] {
        let mut behind = 0;
        for case in cuts(shortest) {
            let lines: Vec<&str> = case.told.lines.lines().collect();
            let ends = case.told.ending == Ending::BehindACall;
            assert_eq!(lines.len(), case.told.calls.len() + usize::from(!ends));
            assert_eq!(lines.last() == Some(&"cut short"), !ends, "{}", case.name);
            behind += usize::from(ends);
        }
        assert_eq!(behind, shortest.len() + 1);
    }
}

#[test]
fn each_bad_one_is_bad_and_each_long_one_is_taken() {
    assert!(bad(SHORTEST).count() > 100 && bad(SHORTEST_3).count() > 30);
    for shortest in [SHORTEST, SHORTEST_3] {
        for case in bad(shortest) {
            assert_eq!(case.told.lines, "0 bad call\n", "{}", case.name);
        }
        let long = longest(shortest).told;
        assert_eq!(long.ending, Ending::BehindACall, "{}", long.lines);
        let calls = calls(shortest);
        let arguments: usize = calls.iter().map(|call| call.arguments.len()).sum();
        assert_eq!(long.calls.len(), arguments);
    }
}
