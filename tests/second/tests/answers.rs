//! The comparison of files of calls, with this program in the place of the one under test: it
//! finds nothing where there is nothing, and it finds every kind of damage.

use std::path::{Path, PathBuf};
use std::process::Command;

const SECOND: &str = env!("CARGO_BIN_EXE_second");

/// A folder for the files that a comparison keeps.
struct Scratch(PathBuf);

impl Scratch {
    fn new(name: &str) -> Scratch {
        let folder = Path::new(env!("CARGO_TARGET_TMPDIR")).join(name);
        std::fs::create_dir_all(&folder).unwrap();
        Scratch(folder)
    }

    /// Whether `run-answers` is content, and what it says.
    fn run_answers(&self, arguments: &[&str]) -> (bool, String) {
        self.run("run-answers", arguments)
    }

    fn run(&self, comparison: &str, arguments: &[&str]) -> (bool, String) {
        let mut command = Command::new(SECOND);
        command.arg(comparison).args(arguments);
        let said = command.env("TMPDIR", &self.0).output().unwrap();
        (
            said.status.success(),
            String::from_utf8(said.stdout).unwrap(),
        )
    }

    fn kept(&self) -> usize {
        let folders = std::fs::read_dir(&self.0).unwrap();
        let files = folders.map(|f| std::fs::read_dir(f.unwrap().path()).unwrap().count());
        files.sum()
    }
}

impl Drop for Scratch {
    fn drop(&mut self) {
        let _ = std::fs::remove_dir_all(&self.0);
    }
}

#[test]
fn the_model_beside_itself() {
    let scratch = Scratch::new("itself");
    let (content, said) = scratch.run_answers(&["0..32", SECOND, "answers"]);
    assert!(content, "{said}");
    assert_eq!(scratch.kept(), 0);
}

/// The run that is stored for the gate has the lines that this program gives.
#[test]
fn the_stored_run() {
    let stored = Path::new(env!("CARGO_MANIFEST_DIR")).join("../answers");
    let mut command = Command::new(SECOND);
    command.arg("answers").arg(stored.join("sample.calls"));
    let lines = std::fs::read(stored.join("sample.lines")).unwrap();
    assert!(command.output().unwrap().stdout == lines);
}

/// Each damage is done to the model's own lines, both ways of running it.
#[test]
fn a_damaged_line_is_found() {
    let damages = [
        ("another-number", "sed 's/refused 42/refused 43/'"),
        ("no-place", "sed 's/\\(refused 4[0-3]\\) .*/\\1/'"),
        ("no-leaves", "sed 's/\\(refused 4[0-3] [0-9]*\\) .*/\\1/'"),
        ("a-place-more", "sed 's/refused 4[45]$/& 0 0/'"),
        ("upper-case", "sed 's/^\\([0-9]* bytes .*\\)a/\\1A/'"),
        ("another-digit", "sed '100s/0$/1/;100s/[1-9]$/0/'"),
        ("another-request", "sed 's/ sent 1 / sent 2 /'"),
        ("no-request", "sed 's/ seq [0-9]*$//'"),
        (
            "a-response-owed",
            "sed 's/response\\(.*\\) seq .*/response\\1 owed -/'",
        ),
        ("a-space-behind", "sed '7s/$/ /'"),
        ("a-line-lost", "sed '$d'"),
        ("a-line-more", "sed '$p'"),
        ("the-last-lf-lost", "{ all=$(cat); printf '%s' \"$all\"; }"),
        ("a-byte-in-front", "sed '1s/^/ /'"),
        ("cr-lf", "awk '{ printf \"%s\\r\\n\", $0 }'"),
        ("nothing-said", "cat >/dev/null"),
        ("killed", "cat; kill -9 $$"),
    ];
    for (name, damage) in damages {
        let scratch = Scratch::new(name);
        let script = format!("\"$0\" answers \"$1\" | {damage}");
        let (content, said) = scratch.run_answers(&["0..16", "sh", "-c", &script, SECOND]);
        assert!(!content, "{name}: {said}");
        assert!(said.contains("first difference: calls-"), "{name}: {said}");
        assert!(scratch.kept() > 0, "{name}");
    }
}

/// A program that answers by name and not on standard input, or the other way round, is found.
#[test]
fn both_ways_are_run() {
    for (name, script) in [
        (
            "by-name",
            "case $1 in -) ;; *) \"$0\" answers \"$1\" ;; esac",
        ),
        ("by-input", "case $1 in -) \"$0\" answers - ;; esac"),
    ] {
        let scratch = Scratch::new(name);
        let (content, said) = scratch.run_answers(&["0..1", "sh", "-c", script, SECOND]);
        assert!(!content && said.contains("1 differ"), "{name}: {said}");
    }
}

/// The whole run asks for more than equality.
#[test]
fn too_little_is_not_enough() {
    let scratch = Scratch::new("too-little");
    let (content, said) = scratch.run_answers(&["3", SECOND, "answers"]);
    assert!(!content, "{said}");
    assert!(said.contains("too little was compared: only"), "{said}");
    let (content, said) = scratch.run_answers(&["0..3", SECOND, "answers"]);
    assert!(content, "{said}");
}

/// Partners of Issue 3: nothing where there is nothing, and every kind of damage to their lines.
#[test]
fn issue_3_beside_itself_and_damaged() {
    let scratch = Scratch::new("issue-3");
    let (content, said) = scratch.run("run-issue-3", &["60", SECOND, "answers"]);
    assert!(content && scratch.kept() == 0, "{said}");
    let (content, said) = scratch.run("run-issue-3", &["1", SECOND, "answers"]);
    assert!(!content && said.contains("only"), "{said}");
    let damages = [
        ("the-other-issue", "sed 's/ six / three /'"),
        ("all-noted", "sed 's/refused 63/services/'"),
        ("before-61", "sed 's/refused 3$/refused 61/'"),
        ("still-available", "sed 's/ unavailable$/ available/'"),
        (
            "another-order",
            "sed 's/known \\(.* .\\) \\(.* .\\)$/known \\2 \\1/'",
        ),
        ("no-time", "sed 's/three [0-9]* [0-9]* /three /'"),
        (
            "no-composite",
            "sed 's/\\(status [a-z]*\\) [0-9]* from/\\1 from/'",
        ),
        ("acknowledged", "sed 's/\\(composite .* owed\\) -/\\1 00/'"),
    ];
    for (name, damage) in damages {
        let scratch = Scratch::new(name);
        let script = format!("\"$0\" answers \"$1\" | {damage}");
        let (content, said) = scratch.run("run-issue-3", &["0..8", "sh", "-c", &script, SECOND]);
        assert!(
            !content && said.contains("first difference"),
            "{name}: {said}"
        );
    }
}
