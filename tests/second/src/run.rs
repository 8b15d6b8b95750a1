//! The comparison: recordings through the program under test, every byte of its output against
//! the expected lines.

use crate::program::{difference, output, By};
use crate::{edges, genuine, hex, make, replay, sent};
use std::path::{Path, PathBuf};

/// One recording: what it is called, its bytes, and the checks of the program's output.
struct Case {
    /// The kept file's name.
    name: String,
    /// What to ask for to see it again.
    title: String,
    recording: Vec<u8>,
    expected: String,
    traffic: Option<genuine::Traffic>,
}

fn from_seed(seed: u64) -> Case {
    // Every third is genuine; 3 and 16 share no factor, so each kind's 16 styles all come.
    if seed % 3 == 2 {
        let traffic = genuine::traffic(seed);
        Case {
            name: format!("genuine-{seed}"),
            title: format!("seed {seed} (genuine)"),
            recording: traffic.recording.clone(),
            expected: sent::lines(&traffic),
            traffic: Some(traffic),
        }
    } else {
        let recording = make::recording(seed);
        Case {
            name: format!("make-{seed}"),
            title: format!("seed {seed} (make)"),
            expected: replay::lines(&recording),
            recording,
            traffic: None,
        }
    }
}

fn check(case: &Case, command: &[&str], by: By, file: &Path) -> Result<usize, String> {
    let mut delivered = 0;
    if case.traffic.is_some() {
        // The other way: joining by the model must tell the same story as what was sent.
        let modelled = replay::lines(&case.recording);
        if let Some(text) = difference(case.expected.as_bytes(), modelled.as_bytes()) {
            return Err(format!(
                "the model itself departs from what was sent, {text}"
            ));
        }
    }
    let got = output(command, by, file)?;
    let mut complaints: Vec<String> = difference(case.expected.as_bytes(), &got)
        .into_iter()
        .collect();
    if let Some(traffic) = &case.traffic {
        match sent::demand_3(traffic, &String::from_utf8_lossy(&got)) {
            Ok(messages) => delivered = messages,
            Err(text) => complaints.push(format!("demand 3: {text}")),
        }
    }
    if complaints.is_empty() {
        Ok(delivered)
    } else {
        Err(complaints.join("; "))
    }
}

/// Runs seeds and edges; reports on standard output; true if nothing differs.
pub fn run(seeds: std::ops::Range<u64>, command: &[&str], by: By) -> std::io::Result<bool> {
    let directory: PathBuf = std::env::temp_dir().join(format!("second-{}", std::process::id()));
    std::fs::create_dir_all(&directory)?;
    let fixed = edges::all().into_iter().map(|edge| Case {
        name: format!("edge-{}", edge.name),
        title: format!("edge {}", edge.name),
        recording: hex::bytes(edge.bytes),
        expected: edge.lines.to_string(),
        traffic: None,
    });
    let (mut count, mut genuine, mut bytes, mut delivered, mut differ) = (0, 0, 0, 0, 0);
    for case in fixed.chain(seeds.map(from_seed)) {
        let file = directory.join(format!("{}.rec", case.name));
        std::fs::write(&file, &case.recording)?;
        count += 1;
        genuine += usize::from(case.traffic.is_some());
        bytes += case.recording.len();
        match check(&case, command, by, &file) {
            Ok(messages) => {
                delivered += messages;
                std::fs::remove_file(&file)?;
            }
            Err(text) => {
                differ += 1;
                // The first is told in full; the files of all are kept.
                if differ == 1 {
                    println!("first difference: {}, {text}", case.title);
                    println!("kept: {}", file.display());
                }
            }
        }
    }
    if differ == 0 {
        std::fs::remove_dir(&directory)?;
    }
    println!(
        "{count} recordings ({genuine} genuine, {} edges, {bytes} bytes), \
         {delivered} messages delivered as sent, {differ} differ",
        edges::all().len()
    );
    Ok(differ == 0)
}
