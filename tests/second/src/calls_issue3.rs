//! Files of calls among partners of both issues, codes 81 to 88, from a seed: the seed's remainder
//! by 4 names the kind.

use crate::calls_bad;
use crate::calls_bench::Bench;
use crate::prng::Prng;

/// How many calls a file has.
const CALLS: usize = 120;

pub fn file(seed: u64) -> Vec<u8> {
    let rng = &mut Prng::new(seed ^ 0x6973_7375_6520_3333);
    let mut bench = Bench::new(rng);
    let mut calls = Vec::new();
    if seed % 4 == 0 {
        (0..10).for_each(|_| calls.push(bench.call(rng)));
    }
    calls.push(bench.start(rng));
    match seed % 4 {
        1 => bench.crowd(rng, &mut calls),
        2 => bench.many(rng, &mut calls),
        _ => {}
    }
    while calls.len() < CALLS {
        calls.push(bench.call(rng));
    }
    let mut out = Vec::new();
    calls.iter().for_each(|call| call.put(&mut out));
    ending(rng, &mut bench, &mut out);
    out
}

/// As in the other files: behind a call, in a bad one, or in the middle of one.
fn ending(rng: &mut Prng, bench: &mut Bench, out: &mut Vec<u8>) {
    let last = bench.call(rng);
    match rng.below(6) {
        0 | 1 => last.put(out),
        2 | 3 => {
            out.extend(calls_bad::bad(rng, &last));
            last.put(out);
        }
        _ => out.extend(calls_bad::cut(rng, &last)),
    }
}

#[cfg(test)]
mod tests {
    use super::*;
    use crate::answers::{tell, Ending};
    use std::collections::BTreeMap;

    /// Each form of line among the first 80 files, and how often it comes at least.
    const LEAST: &[(&str, usize)] = &[
        ("81 six operation", 9),
        ("81 six pull", 15),
        ("81 six request", 5),
        ("81 six status down", 3),
        ("81 six status up", 9),
        ("81 six unknown", 3),
        ("81 three composite", 7),
        ("81 three composite ack agree", 3),
        ("81 three composite ack disagree", 3),
        ("81 three not available", 5),
        ("81 three operation", 20),
        ("81 three pull", 15),
        ("81 three request", 7),
        ("81 three services", 20),
        ("81 three services request", 15),
        ("81 three status down", 5),
        ("81 three status up", 20),
        ("81 three unknown", 5),
        ("82 written", 80),
        ("83 platform threes", 100),
        ("84 six operation", 100),
        ("84 six pull", 12),
        ("84 six pull all", 30),
        ("84 six pull unknown", 50),
        ("84 six request", 30),
        ("84 six response", 12),
        ("84 six status down", 30),
        ("84 six status up", 250),
        ("84 six unknown", 30),
        ("84 six operation unknown", 40),
        ("84 three composite", 70),
        ("84 three composite ack agree", 30),
        ("84 three composite ack disagree", 30),
        ("84 three not available", 30),
        ("84 three operation", 80),
        ("84 three operation unknown", 40),
        ("84 three pull", 20),
        ("84 three pull all", 80),
        ("84 three pull unknown", 40),
        ("84 three request", 50),
        ("84 three response", 25),
        ("84 three services", 300),
        ("84 three services request", 120),
        ("84 three status down", 80),
        ("84 three status up", 200),
        ("84 three unknown", 30),
        ("85 available", 30),
        ("85 unavailable", 40),
        ("85 unheard", 200),
        ("86 known", 150),
        ("87 six operation", 40),
        ("87 six response", 5),
        ("87 six status down", 10),
        ("87 six status up", 80),
        ("87 three operation", 30),
        ("87 three pull all", 30),
        ("87 three response", 8),
        ("87 three services", 80),
        ("87 three services request", 40),
        ("87 three status down", 20),
        ("87 three status up", 60),
        ("88 sent", 30),
        ("9 up", 10),
        ("9 down", 30),
        ("10 count", 50),
        ("20 sent", 8),
        ("21 cancelled", 10),
        ("22 pending", 10),
        ("23 platform", 40),
    ];

    /// Every number that a code of Issue 3 can be refused with, but 5 of our own services.
    const REFUSALS: &[(u64, &[u8])] = &[
        (81, &[1, 2, 3, 4, 5, 6, 7, 8, 9]),
        (82, &[4, 7, 8, 9, 10]),
        (84, &[1, 2, 3, 4, 5, 6, 7, 8, 9, 10, 30, 31, 32, 33, 61, 63]),
        (87, &[1, 2, 3, 4, 5, 6, 7, 8, 9, 10, 30, 31, 32, 33, 61, 63]),
        (88, &[10, 32, 60, 62]),
    ];

    /// A line without its call's number and without what differs from call to call.
    fn form(line: &str) -> String {
        let words = line.split(' ').skip(1);
        let fixed = words.filter(|word| {
            let letters = word.chars().all(char::is_alphabetic);
            letters && word.len() > 1 && !word.chars().all(|c| c.is_ascii_hexdigit())
        });
        let fixed = fixed.filter(|word| !["from", "seq", "owed"].contains(word));
        fixed.collect::<Vec<&str>>().join(" ")
    }

    #[test]
    fn every_form_of_line_comes_often() {
        let mut seen: BTreeMap<String, usize> = BTreeMap::new();
        let (mut bad, mut cut) = (0, 0);
        for seed in 0..80 {
            let told = tell(&file(seed));
            for (line, (code, refusal)) in told.lines.lines().zip(&told.calls) {
                let form = match refusal {
                    Some(number) => format!("{code} refused {number}"),
                    None => format!("{code} {}", form(line)),
                };
                *seen.entry(form).or_default() += 1;
            }
            bad += usize::from(told.ending == Ending::BadCall);
            cut += usize::from(told.ending == Ending::CutShort);
        }
        assert!(bad > 15 && cut > 15, "{bad} bad, {cut} cut short");
        for (name, least) in LEAST {
            let count = seen.get(*name).copied().unwrap_or(0);
            assert!(count >= *least, "{name}: {count}");
        }
        for (code, refusals) in REFUSALS {
            for refusal in *refusals {
                let name = format!("{code} refused {refusal}");
                assert!(seen.contains_key(&name), "{name}");
            }
        }
    }

    #[test]
    fn a_seed_makes_the_same_file_again() {
        for seed in 0..8 {
            assert_eq!(file(seed), file(seed));
        }
    }
}
