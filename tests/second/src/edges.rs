//! Fixed recordings with the lines that they must give. Bytes and lines are both worked out by
//! hand, never by the model: the model is tested against them.

use std::io;
use std::path::Path;

pub struct Edge {
    /// The file's name, which says what it shows.
    pub name: &'static str,
    /// The recording, as `hex` reads it.
    pub bytes: &'static str,
    pub lines: &'static str,
}

/// All of them, by subject.
pub fn all() -> Vec<&'static Edge> {
    let subjects = [
        crate::edges_joining::EDGES,
        crate::edges_refused::EDGES,
        crate::edges_files::EDGES,
        crate::edges_setup::EDGES,
    ];
    subjects.into_iter().flatten().collect()
}

/// `NAME.rec` and `NAME.lines` for each, in the directory.
pub fn write(directory: &Path) -> io::Result<usize> {
    std::fs::create_dir_all(directory)?;
    let edges = all();
    for edge in &edges {
        std::fs::write(
            directory.join(format!("{}.rec", edge.name)),
            crate::hex::bytes(edge.bytes),
        )?;
        std::fs::write(directory.join(format!("{}.lines", edge.name)), edge.lines)?;
    }
    Ok(edges.len())
}

#[cfg(test)]
mod tests {
    use super::*;
    use std::collections::BTreeSet;

    #[test]
    fn the_model_gives_the_lines_worked_out_by_hand() {
        for edge in all() {
            let got = crate::replay::lines(&crate::hex::bytes(edge.bytes));
            assert_eq!(got, edge.lines, "{}", edge.name);
        }
    }

    #[test]
    fn names_are_distinct() {
        let names: BTreeSet<&str> = all().iter().map(|edge| edge.name).collect();
        assert_eq!(names.len(), all().len());
    }

    /// What is stored in the repository is what this source says, and nothing else lies there.
    #[test]
    fn the_stored_files_are_these() {
        let directory = Path::new(env!("CARGO_MANIFEST_DIR")).join("../../recordings");
        let mut expected = BTreeSet::new();
        for edge in all() {
            let rec = format!("{}.rec", edge.name);
            let lines = format!("{}.lines", edge.name);
            assert_eq!(
                std::fs::read(directory.join(&rec)).unwrap(),
                crate::hex::bytes(edge.bytes)
            );
            assert_eq!(
                std::fs::read(directory.join(&lines)).unwrap(),
                edge.lines.as_bytes()
            );
            expected.insert(rec);
            expected.insert(lines);
        }
        let stored: BTreeSet<String> = std::fs::read_dir(&directory)
            .unwrap()
            .map(|entry| entry.unwrap().file_name().into_string().unwrap())
            .filter(|name| name.ends_with(".rec") || name.ends_with(".lines"))
            .collect();
        assert_eq!(stored, expected);
    }
}
