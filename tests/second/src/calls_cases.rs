//! Files of calls worked out by hand, with their lines.

use crate::calls_cases_places;
use crate::compare::Case;
use crate::program::By;
use crate::{answers, calls_cases_bad, calls_cases_char8, calls_cases_joining, hex};
use crate::{calls_cases_full, calls_cases_issue3, calls_cases_mixed, calls_cases_partners};
use crate::{calls_cases_lists, calls_cases_payload, calls_cases_plans, calls_cases_platform};
use crate::{calls_cases_requests, calls_cases_wide};

/// A file worked out by hand. In its lines, bytes between braces stand for their hex digits.
pub struct Worked {
    pub name: &'static str,
    pub calls: &'static str,
    pub lines: &'static str,
}

pub fn worked() -> impl Iterator<Item = &'static Worked> {
    let joining = calls_cases_joining::CASES.iter();
    joining
        .chain(calls_cases_payload::CASES)
        .chain(calls_cases_char8::CASES)
        .chain(calls_cases_platform::CASES)
        .chain(calls_cases_issue3::CASES)
        .chain(calls_cases_wide::CASES)
        .chain(calls_cases_places::CASES)
        .chain(calls_cases_plans::CASES)
        .chain(calls_cases_requests::CASES)
        .chain(calls_cases_lists::CASES)
        .chain(calls_cases_bad::CASES)
}

/// Those of a platform among partners of Issue 3.
pub fn worked_3() -> impl Iterator<Item = &'static Worked> {
    let partners = calls_cases_partners::CASES.iter();
    partners
        .chain(calls_cases_mixed::CASES)
        .chain(calls_cases_full::CASES)
}

/// The lines with every `{41*3}` as 414141.
fn spelt(lines: &str) -> String {
    let mut out = String::new();
    let mut rest = lines;
    while let Some((before, from)) = rest.split_once('{') {
        let (inside, behind) = from.split_once('}').expect("a brace that closes");
        out.push_str(before);
        for byte in hex::bytes(inside) {
            out.push_str(&format!("{byte:02x}"));
        }
        rest = behind;
    }
    out + rest
}

fn case(worked: &Worked) -> Case {
    let file = hex::bytes(worked.calls);
    let mut told = answers::tell(&file);
    // The lines are those worked out by hand, not the model's.
    told.lines = spelt(worked.lines);
    Case {
        name: format!("worked-{}", worked.name.replace(' ', "-")),
        told,
        file,
        ways: &[By::Name, By::Input],
        counts: true,
    }
}

/// The files that a run begins with.
pub fn all() -> impl Iterator<Item = Case> + Send {
    worked().map(case)
}

pub fn issue_3() -> impl Iterator<Item = Case> + Send {
    worked_3().map(case)
}

#[cfg(test)]
mod tests {
    use super::*;
    use std::collections::BTreeSet;

    #[test]
    fn the_model_gives_the_lines_worked_out_by_hand() {
        for case in worked().chain(worked_3()) {
            let told = answers::tell(&hex::bytes(case.calls));
            assert_eq!(told.lines, spelt(case.lines), "{}", case.name);
        }
    }

    #[test]
    fn names_are_file_names() {
        let both = || worked().chain(worked_3());
        let names: BTreeSet<&str> = both().map(|case| case.name).collect();
        assert_eq!(names.len(), both().count());
        let plain = |c: char| c.is_ascii_lowercase() || c.is_ascii_digit() || c == ' ';
        assert!(
            names.iter().all(|name| name.chars().all(plain)),
            "{names:?}"
        );
    }

    #[test]
    fn every_code_is_worked_out_by_hand() {
        let answered = |told: &answers::Told| -> BTreeSet<u64> {
            let calls = told.calls.iter();
            calls.filter(|c| c.1.is_none()).map(|c| c.0).collect()
        };
        let codes = |cases: Vec<&Worked>| -> BTreeSet<u64> {
            let files = cases.iter().map(|case| hex::bytes(case.calls));
            files
                .flat_map(|file| answered(&answers::tell(&file)))
                .collect()
        };
        let library = (1..=17).chain(20..=23).chain(81..=82);
        assert_eq!(codes(worked().collect()), library.collect());
        let beside: BTreeSet<u64> = [9, 10, 20, 22, 23].into_iter().chain(83..=88).collect();
        assert_eq!(codes(worked_3().collect()), beside);
    }

    #[test]
    fn braces() {
        assert_eq!(spelt("0 a {41*3 0B} - {FF}\n"), "0 a 4141410b - ff\n");
    }
}
