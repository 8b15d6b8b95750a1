//! The comparison of files of calls: through the program under test by name and on standard
//! input, every byte of its output against the expected lines, and a count of what was met.

use crate::answers::{self, Ending, Told};
use crate::program::{difference, output, By};
use crate::{calls, calls_cases, calls_every, calls_issue3};
use std::collections::{BTreeMap, BTreeSet};
use std::io::{Error, Result};
use std::ops::Range;
use std::path::Path;
use std::sync::Mutex;

/// What a run must hold, or a comparison shows too little.
struct Least {
    calls: usize,
    codes: &'static [Range<u64>],
    refusals: &'static [Range<u8>],
    /// Codes whose refusals tell where, with each number of `PLACED`.
    walks: &'static [u64],
}

const PLACED: Range<u8> = 40..44;

/// The gate's run.
const WHOLE: Least = Least {
    calls: 20_000,
    codes: &[1..18, 20..24, 81..89],
    refusals: &[1..11, 20..24, 30..34, 40..46, 50..53, 60..64],
    // Unpacking and packing.
    walks: &[5, 6, 13, 14, 16, 17],
};

/// Partners of Issue 3 alone.
const ISSUE_3: Least = Least {
    calls: 5_000,
    codes: &[7..8, 9..11, 20..24, 81..89],
    refusals: &[1..11, 30..34, 60..64],
    walks: &[],
};

/// Programs under test run side by side: on an emulator most of the time goes into starting them.
const SIDE_BY_SIDE: usize = 2;

/// One file: its name, its bytes, and the lines it must give.
pub struct Case {
    pub name: String,
    pub file: Vec<u8>,
    pub told: Told,
    pub ways: &'static [By],
    /// Whether its calls are counted: not where they stand in another file already.
    pub counts: bool,
}

impl Case {
    fn from_seed(seed: u64) -> Case {
        let file = calls::file(seed);
        let told = answers::tell(&file);
        Case::of(format!("calls-{seed}"), seed, file, told)
    }

    fn issue_3(seed: u64) -> Case {
        let file = calls_issue3::file(seed);
        let told = answers::tell(&file);
        Case::of(format!("issue-3-{seed}"), seed, file, told)
    }

    fn of(name: String, seed: u64, file: Vec<u8>, told: Told) -> Case {
        Case {
            name,
            file,
            told,
            // Every fifth on standard input too: 5 and 16 share no factor, so each kind comes.
            ways: if seed % 5 == 0 {
                &[By::Name, By::Input]
            } else {
                &[By::Name]
            },
            counts: true,
        }
    }
}

/// What was met in the files that were compared.
#[derive(Default)]
struct Tally {
    runs: usize,
    bytes: usize,
    calls: usize,
    codes: BTreeMap<u64, usize>,
    refusals: BTreeMap<u8, usize>,
    /// Codes and the numbers they were refused with.
    pairs: BTreeSet<(u64, u8)>,
    bad: usize,
    cut: usize,
}

impl Tally {
    /// One run that gave its lines. A file run twice has its calls counted once.
    fn add(&mut self, case: &Case, by: By) {
        let told = &case.told;
        self.runs += 1;
        self.bytes += case.file.len();
        self.bad += usize::from(told.ending == Ending::BadCall);
        self.cut += usize::from(told.ending == Ending::CutShort);
        let counts = case.counts && (case.ways.len() == 1 || matches!(by, By::Name));
        for (code, refusal) in told.calls.iter().filter(|_| counts) {
            self.calls += 1;
            *self.codes.entry(*code).or_default() += 1;
            if let Some(refusal) = refusal {
                *self.refusals.entry(*refusal).or_default() += 1;
                self.pairs.insert((*code, *refusal));
            }
        }
    }

    /// What a run must have met and did not.
    fn lacks(&self, least: &Least) -> Vec<String> {
        let mut out = Vec::new();
        if self.calls < least.calls {
            out.push(format!("only {} calls", self.calls));
        }
        let codes = least.codes.iter().cloned().flatten();
        let unmet = codes.filter(|code| !self.codes.contains_key(code));
        out.extend(unmet.map(|code| format!("code {code} never came")));
        let refusals = least.refusals.iter().cloned().flatten();
        let unmet = refusals.filter(|refusal| !self.refusals.contains_key(refusal));
        out.extend(unmet.map(|refusal| format!("refusal {refusal} never came")));
        let walks = least.walks.iter();
        let places = walks.flat_map(|code| PLACED.map(move |refusal| (*code, refusal)));
        let unmet = places.filter(|pair| !self.pairs.contains(pair));
        out.extend(unmet.map(|(code, refusal)| format!("{refusal} of code {code} never came")));
        if self.bad == 0 || self.cut == 0 {
            out.push("no bad call, or nothing cut short".to_string());
        }
        out
    }

    fn report(&self) -> String {
        let each = |counts: Vec<(u64, usize)>| -> String {
            let pairs = counts
                .iter()
                .map(|(what, count)| format!(" {what}:{count}"));
            pairs.collect()
        };
        let codes = self.codes.iter().map(|(code, n)| (*code, *n)).collect();
        let refusals = self.refusals.iter().map(|(r, n)| (u64::from(*r), *n));
        format!(
            "calls of each code:{}\nrefused with each number:{}\n\
             {} runs ({} ended by a bad call, {} cut short), {} bytes, {} calls compared",
            each(codes),
            each(refusals.collect()),
            self.runs,
            self.bad,
            self.cut,
            self.bytes,
            self.calls
        )
    }
}

/// What the programs run side by side have found so far.
#[derive(Default)]
struct Found {
    tally: Tally,
    differ: usize,
}

/// One file one way: nothing, or where the program's output departs.
fn departure(case: &Case, by: By, command: &[&str], file: &Path) -> Option<String> {
    let mut command = command.to_vec();
    if matches!(by, By::Input) {
        command.push("-");
    }
    match output(&command, by, file) {
        Ok(got) => difference(case.told.lines.as_bytes(), &got),
        Err(complaint) => Some(complaint),
    }
}

/// One file each of its ways; it is kept if any of them differs.
fn judge(case: &Case, command: &[&str], folder: &Path, found: &Mutex<Found>) -> Result<()> {
    let file = folder.join(format!("{}.calls", case.name));
    std::fs::write(&file, &case.file)?;
    let mut keep = false;
    for by in case.ways {
        let departure = departure(case, *by, command, &file);
        let mut found = found.lock().expect("no worker stops here");
        let Some(text) = departure else {
            found.tally.add(case, *by);
            continue;
        };
        keep = true;
        found.differ += 1;
        // The first is told in full.
        if found.differ == 1 {
            println!("first difference: {} {by:?}, {text}", case.name);
            println!("kept: {}", file.display());
        }
    }
    if keep {
        Ok(())
    } else {
        std::fs::remove_file(&file)
    }
}

/// All of these files; what was met in those that gave their lines, and whether all did.
fn compare(cases: impl Iterator<Item = Case> + Send, command: &[&str]) -> Result<(Tally, bool)> {
    let folder = std::env::temp_dir().join(format!("second-calls-{}", std::process::id()));
    std::fs::create_dir_all(&folder)?;
    let cases = Mutex::new(cases);
    let found = Mutex::new(Found::default());
    let next = || cases.lock().expect("no worker stops here").next();
    let work = || -> Result<()> {
        while let Some(case) = next() {
            judge(&case, command, &folder, &found)?;
        }
        Ok(())
    };
    std::thread::scope(|scope| {
        let workers: Vec<_> = (0..SIDE_BY_SIDE).map(|_| scope.spawn(work)).collect();
        let mut ends = workers.into_iter().map(|worker| worker.join());
        ends.try_for_each(|end| end.unwrap_or_else(|_| Err(Error::other("a worker stopped"))))
    })?;
    let found = found.into_inner().expect("no worker stopped");
    if found.differ == 0 {
        std::fs::remove_dir(&folder)?;
    } else {
        println!("{} differ", found.differ);
    }
    println!("{}", found.tally.report());
    Ok((found.tally, found.differ == 0))
}

/// The files that a platform among partners of Issue 3 hears: worked out by hand, one call of each
/// of their codes cut and bad at every place, and the seeds below `count`.
fn cases_of_issue_3(count: u64) -> impl Iterator<Item = Case> + Send {
    let fixed = calls_cases::issue_3().chain(calls_every::issue_3());
    fixed.chain((0..count).map(Case::issue_3))
}

/// These files, which must meet all that is asked for.
fn compare_all(
    cases: impl Iterator<Item = Case> + Send,
    least: &Least,
    command: &[&str],
) -> Result<bool> {
    let (tally, same) = compare(cases, command)?;
    let lacks = tally.lacks(least);
    if !lacks.is_empty() {
        println!("too little was compared: {}", lacks.join(", "));
    }
    Ok(same && lacks.is_empty())
}

/// The gate's run: the files worked out by hand, one call of each code cut and bad at every place,
/// and the seeds below `count`; behind them those of Issue 3, with half as many seeds. It must meet
/// every code and every number.
pub fn run(count: u64, command: &[&str]) -> Result<bool> {
    let fixed = calls_cases::all().chain(calls_every::all());
    let cases = fixed.chain((0..count).map(Case::from_seed));
    let cases = cases.chain(cases_of_issue_3(count / 2));
    compare_all(cases, &WHOLE, command)
}

/// The files among partners of Issue 3 alone.
pub fn run_issue_3(count: u64, command: &[&str]) -> Result<bool> {
    compare_all(cases_of_issue_3(count), &ISSUE_3, command)
}

/// Only these seeds, to look at them again.
pub fn run_again(seeds: Range<u64>, command: &[&str]) -> Result<bool> {
    Ok(compare(seeds.map(Case::from_seed), command)?.1)
}

pub fn run_issue_3_again(seeds: Range<u64>, command: &[&str]) -> Result<bool> {
    Ok(compare(seeds.map(Case::issue_3), command)?.1)
}
