//! Files of calls from a seed: the seed's remainder by 16 names the kind, so that any 16 seeds in
//! a row hold one of each.

use crate::calls_compose::Call;
use crate::calls_flat::{flat, FLAT};
use crate::calls_payloads::{self, SHORT};
use crate::calls_platforms::{everybody, Talk};
use crate::calls_requests::Asking;
use crate::calls_tables::{at_the_limits, full, good, Draft, LARGEST};
use crate::prng::Prng;
use crate::{calls_bad, calls_cutting, calls_joiners, calls_messages, calls_messages3};

/// How many calls a file has, unless it is one of the short ones.
const CALLS: usize = 170;

pub fn file(seed: u64) -> Vec<u8> {
    let mut rng = Prng::new(seed ^ 0x616E_7377_6572_7321);
    let rng = &mut rng;
    let mut some = Source::new(rng);
    let mut calls = Vec::new();
    match seed % 16 {
        2 => {
            let steps = some.asking.crowd(rng, CALLS);
            calls.extend(steps.into_iter().map(|(call, _)| call));
        }
        8 => calls = everybody(rng, &some.draft),
        9 => large(rng, &mut calls),
        15 => {
            let (few, kind) = (rng.below(30), rng.below(16) as u64);
            (0..few).for_each(|_| calls.push(some.call(rng, kind)));
            return out_of_step(rng, &calls);
        }
        kind => (0..CALLS).for_each(|_| calls.push(some.call(rng, kind))),
    }
    let mut out = Vec::new();
    calls.iter().for_each(|call| call.put(&mut out));
    ending(rng, &mut some, &mut out);
    out
}

/// Values of the largest types, and tables with every section full. A large argument costs its
/// length in the line that is compared, so these are few.
fn large(rng: &mut Prng, calls: &mut Vec<Call>) {
    for _ in 0..3 {
        let draft = at_the_limits(rng);
        calls.push(calls_payloads::unpack(rng, &draft, LARGEST));
        calls.push(calls_payloads::pack(rng, &draft, LARGEST));
        let draft = full(rng);
        for _ in 0..3 {
            calls.push(calls_payloads::check(rng, &draft));
            calls.push(calls_payloads::look_up(rng, &draft));
            calls.push(calls_payloads::unpack(rng, &draft, SHORT));
            calls.push(calls_payloads::pack(rng, &draft, SHORT));
        }
    }
}

/// Where calls come from: a table that lasts for some calls, and two conversations that go on. In
/// one file both talk to the same platform, and the second does not know of the first.
struct Source {
    draft: Draft,
    talk: Talk,
    asking: Asking,
}

impl Source {
    fn new(rng: &mut Prng) -> Source {
        let draft = good(rng);
        let talk = Talk::new(rng, draft.clone());
        let asking = Asking::new(rng);
        Source {
            draft,
            talk,
            asking,
        }
    }

    /// A call of the kind that a seed stands for.
    fn call(&mut self, rng: &mut Prng, kind: u64) -> Call {
        if rng.chance(1, 4) {
            self.draft = good(rng);
        }
        let subject = match kind {
            3 => rng.pick(&[9, 9, 9, 10]),
            4..=6 => rng.pick(&[0, 1, 11]),
            7 => rng.pick(&[2, 3]),
            1 => rng.pick(&[0, 1, 11, 12, 12, 13]),
            10 => rng.pick(&[4, 5]),
            11 => rng.pick(&[6, 7, 7]),
            12 => 8,
            13 => 9,
            14 => 10,
            _ => rng.below(14),
        };
        match subject {
            0 => calls_payloads::unpack(rng, &self.draft, SHORT),
            1 => calls_payloads::pack(rng, &self.draft, SHORT),
            2 => calls_payloads::check(rng, &self.draft),
            3 => calls_payloads::look_up(rng, &self.draft),
            4 => calls_messages::read(rng),
            5 => calls_messages::write(rng),
            6 => calls_cutting::pieces(rng),
            7 => calls_cutting::piece(rng),
            8 => calls_joiners::take(rng),
            9 => self.talk.call(rng),
            11 => {
                let draft = flat(rng);
                let make = rng.pick(&[calls_payloads::unpack, calls_payloads::pack]);
                make(rng, &draft, FLAT)
            }
            12 => calls_messages3::read(rng),
            13 => calls_messages3::write(rng),
            _ => self.asking.step(rng).0,
        }
    }
}

/// Most files do not end behind a call: a bad call, with calls behind it that must not be
/// answered, or a call that is cut, or both, where the order decides which is said.
fn ending(rng: &mut Prng, some: &mut Source, out: &mut Vec<u8>) {
    let kind = rng.pick(&[0, 1, 4, 10, 11, 12, 13, 14, 14]);
    let last = some.call(rng, kind);
    match rng.below(8) {
        0 => {}
        1 => last.put(out),
        2..=4 => {
            out.extend(calls_bad::bad(rng, &last));
            last.put(out);
        }
        5 => {
            let mut bad = calls_bad::bad(rng, &last);
            bad.truncate(rng.below(bad.len().min(120) + 1));
            out.extend(bad);
        }
        _ => out.extend(calls_bad::cut(rng, &last)),
    }
}

/// Bytes that are nothing at all, and good files with a few bytes changed, dropped or put in.
fn out_of_step(rng: &mut Prng, calls: &[Call]) -> Vec<u8> {
    let mut out = Vec::new();
    calls.iter().for_each(|call| call.put(&mut out));
    if out.is_empty() || rng.chance(1, 4) {
        let length = rng.below(12);
        return rng.bytes(length).iter().map(|byte| byte % 25).collect();
    }
    for _ in 0..rng.from_to(1, 3) {
        let at = rng.below(out.len());
        match rng.below(4) {
            0 => {
                out.remove(at);
            }
            1 => out.insert(at, rng.below(256) as u8),
            2 => out.truncate(at + 1),
            _ => out[at] ^= 1 << rng.below(8),
        }
    }
    out
}

#[cfg(test)]
mod tests {
    use super::*;
    use crate::answers::{tell, Ending};
    use std::collections::BTreeMap;

    /// A line without its call's number and without what differs from call to call.
    fn form(line: &str) -> String {
        let mut said: Vec<&str> = line.split(' ').skip(1).collect();
        // The timestamp.
        if said[0] == "three" {
            said.drain(1..3);
        }
        let lower = |word: &&str| word.chars().all(|c| c.is_ascii_lowercase());
        let fixed: Vec<&str> = said.into_iter().take_while(lower).collect();
        match fixed[..] {
            // Bytes may be all letters.
            ["written", ..] | ["piece", ..] | ["bytes", ..] => fixed[0].to_string(),
            _ => fixed.join(" "),
        }
    }

    /// The gate's files must meet every form of line often, or the comparison shows little.
    #[test]
    fn every_form_of_line_comes_often() {
        let mut seen: BTreeMap<String, usize> = BTreeMap::new();
        let (mut bytes, mut bad, mut cut) = (0, 0, 0);
        for seed in 0..160 {
            let file = file(seed);
            assert!(file.len() < 6_000_000, "seed {seed}: {} bytes", file.len());
            bytes += file.len();
            let told = tell(&file);
            for (line, (code, _)) in told.lines.lines().zip(&told.calls) {
                *seen.entry(format!("{code} {}", form(line))).or_default() += 1;
            }
            bad += usize::from(told.ending == Ending::BadCall);
            cut += usize::from(told.ending == Ending::CutShort);
        }
        assert!(bytes < 60_000_000, "{bytes} bytes");
        assert!(bad > 50 && cut > 30, "{bad} bad, {cut} cut short");
        let least = [
            ("1 status up", 80),
            ("1 status down", 40),
            ("1 request", 40),
            ("1 unknown", 40),
            ("1 pull", 80),
            ("1 operation", 80),
            ("2 written", 400),
            ("3 piece", 400),
            ("4 table", 400),
            ("5 words", 400),
            ("6 bytes", 400),
            ("7 platform", 50),
            ("8 status up from", 1000),
            ("8 status down from", 400),
            ("8 request from", 80),
            ("8 unknown", 100),
            ("8 pull all from", 80),
            ("8 pull", 60),
            ("8 pull unknown", 100),
            ("8 operation", 100),
            ("8 operation unknown", 80),
            ("9 up", 100),
            ("9 down", 200),
            ("10 count", 300),
            ("11 repeated", 100),
            ("11 stray", 200),
            ("11 too long", 200),
            ("11 held", 200),
            ("11 delivered", 200),
            ("12 pieces", 400),
            ("13 words", 400),
            ("14 bytes", 400),
            ("15 entry", 400),
            ("15 none", 400),
            ("16 words", 400),
            ("17 bytes", 400),
            ("8 response", 150),
            ("20 sent", 800),
            ("21 cancelled", 100),
            ("21 not pending", 100),
            ("22 pending", 100),
            ("22 not pending", 100),
            ("23 platform", 50),
            ("81 six operation", 8),
            ("81 six pull", 15),
            ("81 six request", 7),
            ("81 six status down", 1),
            ("81 six status up", 9),
            ("81 six unknown", 4),
            ("81 three composite", 10),
            ("81 three composite ack agree from", 3),
            ("81 three composite ack disagree from", 4),
            ("81 three not available", 4),
            ("81 three operation", 20),
            ("81 three pull", 20),
            ("81 three request from", 7),
            ("81 three services", 30),
            ("81 three services request", 20),
            ("81 three status down", 9),
            ("81 three status up", 20),
            ("81 three unknown", 2),
            ("82 written", 100),
        ];
        for (name, least) in least {
            let count = seen.get(name).copied().unwrap_or(0);
            assert!(count >= least, "{name}: {count}");
        }
        // Every code but these six can be refused.
        let refused = seen.keys().filter(|form| form.ends_with("refused"));
        assert_eq!(refused.count(), 23 - [7, 9, 10, 21, 22, 23].len());
        assert_eq!(seen.len(), least.len() + 17, "{seen:?}");
    }

    #[test]
    fn a_seed_makes_the_same_file_again() {
        for seed in 0..16 {
            assert_eq!(file(seed), file(seed));
        }
    }
}
