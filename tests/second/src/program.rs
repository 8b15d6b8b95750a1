//! The program under test: started on a file, by name or by standard input, and what it said.

use crate::prng::Prng;
use std::io::{Read, Write};
use std::path::Path;
use std::process::{Command, Stdio};
use std::sync::mpsc;
use std::time::Duration;

/// A program that hangs must not hang the gate.
const PATIENCE: Duration = Duration::from_secs(60);

/// How the program gets the file (R14: by its name, or on standard input).
#[derive(Clone, Copy, Debug)]
pub enum By {
    Name,
    Input,
}

/// Through a pipe in uneven bits, so that a read may give less than was asked for.
fn feed(mut input: impl Write, file: &[u8]) {
    let mut rng = Prng::new(file.len() as u64);
    let mut rest = file;
    while !rest.is_empty() {
        let most = rng.pick(&[3, 700, 70000]);
        let (bit, others) = rest.split_at(rng.from_to(1, most).min(rest.len()));
        // A program that has ended its run need not read on.
        if input.write_all(bit).is_err() {
            break;
        }
        rest = others;
    }
}

/// The program's output, and a complaint if it did not end by itself.
pub fn output(command: &[&str], by: By, file: &Path) -> Result<Vec<u8>, String> {
    let mut program = Command::new(command[0]);
    program.args(&command[1..]).stdout(Stdio::piped());
    match by {
        By::Name => program.arg(file).stdin(Stdio::null()),
        By::Input => program.stdin(Stdio::piped()),
    };
    let mut child = program
        .spawn()
        .map_err(|error| format!("{}: {error}", command[0]))?;
    if let Some(input) = child.stdin.take() {
        let bytes = std::fs::read(file).map_err(|e| e.to_string())?;
        std::thread::spawn(move || feed(input, &bytes));
    }
    let mut pipe = child.stdout.take().expect("stdout was piped");
    let (done, wait) = mpsc::channel();
    std::thread::spawn(move || {
        let mut bytes = Vec::new();
        let result = pipe.read_to_end(&mut bytes).map(|_| bytes);
        // The receiver has gone only if patience ran out.
        let _ = done.send(result);
    });
    match wait.recv_timeout(PATIENCE) {
        Ok(result) => {
            let status = child.wait().map_err(|e| e.to_string())?;
            // The papers set no exit status, but a program that was killed did not end well.
            if status.code().is_none() {
                return Err(format!("ended by a signal ({status})"));
            }
            result.map_err(|e| e.to_string())
        }
        Err(_) => {
            let _ = child.kill();
            let _ = child.wait();
            Err(format!("did not end within {} seconds", PATIENCE.as_secs()))
        }
    }
}

/// The first line in which two outputs differ, told so that it can be acted on.
pub fn difference(expected: &[u8], got: &[u8]) -> Option<String> {
    if expected == got {
        return None;
    }
    let split = |bytes: &[u8]| -> Vec<String> {
        bytes
            .split_inclusive(|byte| *byte == b'\n')
            .map(|line| format!("{:?}", String::from_utf8_lossy(line)))
            .collect()
    };
    let (expected, got) = (split(expected), split(got));
    let at = expected
        .iter()
        .zip(&got)
        .take_while(|(a, b)| a == b)
        .count();
    let nothing = "nothing more".to_string();
    let line = |lines: &[String]| lines.get(at).cloned().unwrap_or(nothing.clone());
    let (expected, got) = around(&line(&expected), &line(&got));
    Some(format!(
        "line {}: expected {}, got {}",
        at + 1,
        expected,
        got
    ))
}

/// Two lines, or of lines too long to be looked at the part about the first difference.
fn around(expected: &str, got: &str) -> (String, String) {
    const MOST: usize = 160;
    let same = expected.bytes().zip(got.bytes());
    let at = same.take_while(|(a, b)| a == b).count();
    let part = |line: &str| {
        if line.len() <= MOST {
            return line.to_string();
        }
        let from = at.saturating_sub(MOST / 2);
        let shown: String = line.chars().skip(from).take(MOST).collect();
        format!("(from byte {from}) ..{shown}..")
    };
    (part(expected), part(got))
}
