//! The shapes of payloads, and each measured by four programs: the library by its walk and by plans, and the plain one over the
//! table and by plans of its own.

use crate::cases::payloads::{packings, unpackings};
use crate::measure::{medians, Calls};
use crate::tables::{table, words_of_all};

/// A type, the last of these, and the words of a value.
#[derive(Clone)]
pub struct Shape {
    types: Vec<[u16; 4]>,
    members: Vec<u16>,
    values: Vec<u64>,
    pub words: Vec<u64>,
}

impl Shape {
    pub fn table(&self) -> Vec<u8> {
        table(&self.types, &self.members, &self.values, &[])
    }

    pub fn number(&self) -> u16 {
        self.types.len() as u16 - 1
    }
}

const CODES: [&str; 13] = [
    "boolean8", "int8", "char8", "int16", "int32", "int64", "uint8", "byte", "uint16", "uint32",
    "uint64", "float32", "double64",
];
const CHAR8: u16 = 2;
const UINT16: u16 = 8;
const UINT32: u16 = 9;
const FLOAT32: u16 = 11;
const DOUBLE64: u16 = 12;

fn base(code: u16) -> Shape {
    Shape {
        types: vec![[0, code, 0, 0]],
        members: Vec::new(),
        values: Vec::new(),
        words: vec![words_of_all()[usize::from(code)]],
    }
}

/// An enum of so many values, each a uint32, and the last of them.
fn choice(count: u16) -> Shape {
    let values: Vec<u64> = (0..count).map(|k| 7 + 3 * u64::from(k)).collect();
    Shape {
        types: vec![[1, UINT32, 0, count]],
        members: Vec::new(),
        words: values[values.len() - 1..].to_vec(),
        values,
    }
}

/// A record of these, in the order of their places.
fn record(parts: &[Shape], order: impl Iterator<Item = usize>) -> Shape {
    let (mut types, mut members, mut values) = (Vec::new(), Vec::new(), Vec::new());
    let mut numbers = Vec::new();
    for part in parts {
        let below = types.len() as u16;
        types.extend(
            part.types
                .iter()
                .map(|[kind, of, first, count]| match kind {
                    0 => [0, *of, 0, 0],
                    1 => [1, *of, first + values.len() as u16, *count],
                    2 => [2, 0, first + members.len() as u16, *count],
                    _ => [*kind, of + below, 0, *count],
                }),
        );
        members.extend(part.members.iter().map(|member| member + below));
        values.extend(&part.values);
        numbers.push(types.len() as u16 - 1);
    }
    let first = members.len() as u16;
    let mut words = Vec::new();
    for place in order {
        members.push(numbers[place]);
        words.extend(&parts[place].words);
    }
    types.push([2, 0, first, members.len() as u16 - first]);
    Shape {
        types,
        members,
        values,
        words,
    }
}

fn records(codes: &[u16]) -> Shape {
    let parts: Vec<Shape> = codes.iter().map(|code| base(*code)).collect();
    record(&parts, 0..parts.len())
}

/// So many of one shape.
fn fixed(count: u16, of: &Shape) -> Shape {
    let mut shape = of.clone();
    shape.types.push([3, of.number(), 0, count]);
    shape.words = of.words.repeat(usize::from(count));
    shape
}

/// An array of at most so many, and so many in it.
fn counted(most: u16, count: u16, of: &Shape) -> Shape {
    let mut shape = fixed(most, of);
    shape.types.last_mut().unwrap()[0] = 4;
    shape.words = of.words.repeat(usize::from(count));
    shape.words.insert(0, u64::from(count));
    shape
}

/// A small track: a number, a string and a number.
fn track(name: Shape) -> Shape {
    record(&[base(UINT32), name, base(UINT16)], 0..3)
}

pub fn all() -> Vec<(String, Shape)> {
    let char8 = &base(CHAR8);
    let of_8 = &record(&[base(UINT16)], [0; 8].into_iter());
    let mixed = &records(&[UINT32, UINT16, FLOAT32, DOUBLE64]);
    let mut leaves: Vec<Shape> = (0..13).map(base).collect();
    leaves.push(choice(4));
    let mut shapes: Vec<(String, Shape)> = Vec::new();
    let mut add = |name: String, shape: Shape| shapes.push((name, shape));
    add("one uint32".into(), base(UINT32));
    add("one double64".into(), base(DOUBLE64));
    add("record of 1 uint32".into(), records(&[UINT32]));
    add("record of 2 codes".into(), records(&[UINT32, UINT16]));
    add(
        "record of 3 codes".into(),
        records(&[UINT32, FLOAT32, UINT16]),
    );
    add("record of 4 codes".into(), mixed.clone());
    add(
        "record of 64 uint16".into(),
        record(&[base(UINT16)], [0; 64].into_iter()),
    );
    add(
        "record of 64, mixed codes".into(),
        record(&leaves, (0..64).map(|i| i % 14)),
    );
    for count in [8, 20, 64] {
        add(
            format!("track with {count} char8"),
            track(fixed(count, char8)),
        );
        add(
            format!("track with {count} char8, counted"),
            track(counted(64, count, char8)),
        );
    }
    add(
        "matrix 4 x 4 of double64".into(),
        fixed(4, &fixed(4, &base(DOUBLE64))),
    );
    for count in [4, 64, 1_024] {
        let one = choice(count);
        add(
            format!("record of 8 enums of {count} values"),
            record(&[one.clone()], [0; 8].into_iter()),
        );
        add(
            format!("fixed array of 100 enums of {count} values"),
            fixed(100, &one),
        );
        add(
            format!("array of 1,000 enums of {count} values"),
            counted(1_000, 1_000, &one),
        );
    }
    add(
        "8 records of 8 uint16".into(),
        record(&[of_8.clone()], [0; 8].into_iter()),
    );
    add(
        "8 records of 2 records of 4 codes".into(),
        record(
            &[record(&[mixed.clone()], [0; 2].into_iter())],
            [0; 8].into_iter(),
        ),
    );
    add(
        "4 uint32, array of 1,000 float32".into(),
        record(
            &[base(UINT32), counted(1_000, 1_000, &base(FLOAT32))],
            [0, 0, 0, 0, 1].into_iter(),
        ),
    );
    add(
        "fixed array of 50 records of 8 uint16".into(),
        fixed(50, of_8),
    );
    add(
        "array of 100 records of 8 uint16".into(),
        counted(100, 100, of_8),
    );
    add(
        "array of 100 records of 4 codes".into(),
        counted(100, 100, mixed),
    );
    add(
        "array of 100 tracks with 20 char8".into(),
        counted(100, 100, &track(fixed(20, char8))),
    );
    for (code, name) in (0..).zip(CODES) {
        add(
            format!("fixed array of 100 {name}"),
            fixed(100, &base(code)),
        );
    }
    for (code, name) in (0..).zip(CODES) {
        add(
            format!("array of 1,000 {name}"),
            counted(1_000, 1_000, &base(code)),
        );
    }
    shapes
}

/// Both ways, and what each of the four is called.
pub const WAYS: [(&str, fn(&Shape) -> Vec<Calls>); 2] =
    [("unpack", unpackings), ("pack", packings)];
pub const SIDES: [&str; 4] = ["walk", "plan", "rust", "rust-plan"];

/// A way and a shape, a line each.
pub fn names() -> Vec<String> {
    let named = |way: &'static str| {
        all()
            .into_iter()
            .map(move |(name, _)| format!("{way} {name}"))
    };
    WAYS.iter().flat_map(|(way, _)| named(way)).collect()
}

/// The sides of such a line.
pub fn sides(line: usize) -> Option<Vec<Calls>> {
    let shapes = all();
    let (_, sides) = WAYS.get(line / shapes.len())?;
    Some(sides(&shapes[line % shapes.len()].1))
}

/// A table for each way. Where a type has no plan, Rust's own is left out.
pub fn tables(part: &str) {
    for (way, sides) in WAYS {
        println!("| {way} | Walk, ns | Plan, ns | Rust, ns | Rust's plan, ns | Walk / Rust | Plan / Rust | Plan / Rust's plan |");
        println!("|---|---:|---:|---:|---:|---:|---:|---:|");
        for (name, shape) in all().into_iter().filter(|(name, _)| name.contains(part)) {
            let times = medians(&mut sides(&shape));
            let [walk, plan, rust] = [times[0], times[1], times[2]];
            let flat = times.get(3).map_or(["–".into(), "–".into()], |flat| {
                [format!("{flat:.1}"), format!("{:.2}", plan / flat)]
            });
            println!(
                "| {name} | {walk:.1} | {plan:.1} | {rust:.1} | {} | {:.2} | {:.2} | {} |",
                flat[0],
                walk / rust,
                plan / rust,
                flat[1]
            );
        }
        println!();
    }
}
