//! The command line; `README.md` says how to use it.

use second::program::By;
use second::run::run;
use second::{answers, calls, calls_issue3, compare, edges, genuine, make, replay, sent};
use std::io::Read;
use std::path::Path;
use std::process::ExitCode;

const USAGE: &str = "\
usage: second make SEED FILE         write a recording of any kind
       second lines FILE             print the lines that a recording must give
       second genuine SEED FILE      write a recording of genuine traffic
       second sent SEED              print its lines, told from what was sent
       second run COUNT CMD...       run CMD... FILE on recordings and compare every byte
       second run FROM..TO CMD...    the same on these seeds
       second run-input COUNT CMD... the same with the recording on standard input
       second edges DIR              write the fixed edge recordings and their lines

       second calls SEED FILE        write a file of calls
       second answers FILE           print the lines that a file of calls must give; - reads standard input
       second run-answers COUNT CMD...
                                     run CMD... FILE and CMD... - on files of calls, compare every byte,
                                     and require that every code and every number arose
       second run-answers FROM..TO CMD...
                                     the same on these seeds only, requiring nothing more
       second calls-issue-3 SEED FILE
                                     write a file of calls among partners of Issue 3
       second run-issue-3 COUNT CMD...
       second run-issue-3 FROM..TO CMD...
                                     as run-answers, on these files alone";

type Outcome = Result<bool, String>;

fn main() -> ExitCode {
    let arguments: Vec<String> = std::env::args().skip(1).collect();
    let words: Vec<&str> = arguments.iter().map(String::as_str).collect();
    match command(&words) {
        Ok(true) => ExitCode::SUCCESS,
        Ok(false) => ExitCode::from(1),
        Err(message) => {
            eprintln!("{message}");
            ExitCode::from(2)
        }
    }
}

fn command(words: &[&str]) -> Outcome {
    match words {
        ["make", seed, file] => write(file, &make::recording(number(seed)?)),
        ["genuine", seed, file] => write(file, &genuine::traffic(number(seed)?).recording),
        ["sent", seed] => {
            print!("{}", sent::lines(&genuine::traffic(number(seed)?)));
            Ok(true)
        }
        ["lines", file] => {
            print!("{}", replay::lines(&read(file)?));
            Ok(true)
        }
        ["edges", directory] => {
            let count =
                edges::write(Path::new(directory)).map_err(|e| format!("{directory}: {e}"))?;
            println!("{count} recordings and their lines written");
            Ok(true)
        }
        ["run", seeds, program @ ..] if !program.is_empty() => {
            run(range(seeds)?, program, By::Name).map_err(|error| error.to_string())
        }
        ["run-input", seeds, program @ ..] if !program.is_empty() => {
            run(range(seeds)?, program, By::Input).map_err(|error| error.to_string())
        }
        ["calls", seed, file] => write(file, &calls::file(number(seed)?)),
        ["calls-issue-3", seed, file] => write(file, &calls_issue3::file(number(seed)?)),
        ["answers", file] => {
            print!("{}", answers::tell(&read(file)?).lines);
            Ok(true)
        }
        ["run-answers", seeds, program @ ..] if !program.is_empty() => {
            let same = if seeds.contains("..") {
                compare::run_again(range(seeds)?, program)
            } else {
                compare::run(number(seeds)?, program)
            };
            same.map_err(|error| error.to_string())
        }
        ["run-issue-3", seeds, program @ ..] if !program.is_empty() => {
            let same = if seeds.contains("..") {
                compare::run_issue_3_again(range(seeds)?, program)
            } else {
                compare::run_issue_3(number(seeds)?, program)
            };
            same.map_err(|error| error.to_string())
        }
        _ => Err(USAGE.to_string()),
    }
}

fn number(word: &str) -> Result<u64, String> {
    word.parse()
        .map_err(|_| format!("`{word}` is not a number"))
}

fn range(word: &str) -> Result<std::ops::Range<u64>, String> {
    match word.split_once("..") {
        None => Ok(0..number(word)?),
        Some((from, to)) => Ok(number(from)?..number(to)?),
    }
}

/// A file's bytes, or standard input's.
fn read(file: &str) -> Result<Vec<u8>, String> {
    let mut bytes = Vec::new();
    let result = match file {
        "-" => std::io::stdin().read_to_end(&mut bytes).map(|_| bytes),
        name => std::fs::read(name),
    };
    result.map_err(|error| format!("{file}: {error}"))
}

fn write(file: &str, bytes: &[u8]) -> Outcome {
    std::fs::write(file, bytes).map_err(|error| format!("{file}: {error}"))?;
    Ok(true)
}
