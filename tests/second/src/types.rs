//! The type table: 01, "The type table", with R18, R31 and R32; 02, request 1, for the operations.
//!
//! A table that passes is turned into trees that share their parts: what walks a payload then
//! meets no type number, no section and no index at all.

use crate::replay::number;
use std::rc::Rc;

/// What a type is, once its table has been accepted.
#[derive(Debug, PartialEq, Eq)]
pub enum Shape {
    Base(u16),
    Enum(u16, Vec<u64>),
    Record(Vec<Rc<Shape>>),
    Fixed(Rc<Shape>, usize),
    Array(Rc<Shape>, usize),
}

#[derive(Clone, Copy, Debug, PartialEq, Eq)]
pub struct Operation {
    pub id: u32,
    pub kind: u16,
    /// 0xFFFF for none.
    pub of: u16,
    /// The response's type: 0xFFFF for none, and in kinds 0 and 1, which have no response.
    pub response: u16,
}

#[derive(Debug)]
pub struct Table {
    pub types: Vec<Rc<Shape>>,
    pub members: usize,
    pub values: usize,
    pub operations: Vec<Operation>,
}

/// Name, width in bytes, and whether signed; the code is the place (01, "Base codes").
pub const BASES: [(&str, usize, bool); 13] = [
    ("boolean8", 1, false),
    ("int8", 1, true),
    ("char8", 1, false),
    ("int16", 2, true),
    ("int32", 4, true),
    ("int64", 8, true),
    ("uint8", 1, false),
    ("byte", 1, false),
    ("uint16", 2, false),
    ("uint32", 4, false),
    ("uint64", 8, false),
    ("float32", 4, false),
    ("double64", 8, false),
];

/// Whether a word is a value of an integer base: sign-extended where signed, zero-extended else.
pub fn integer_allows(base: u16, word: u64) -> bool {
    let (_, width, signed) = BASES[usize::from(base)];
    // Wide enough that neither bound wraps at 64 bits.
    let reach = 1i128 << (8 * width);
    if signed {
        let value = i128::from(word as i64);
        -reach / 2 <= value && value < reach / 2
    } else {
        i128::from(word) < reach
    }
}

/// The operations' entry that begins here: 10 bytes where its kind is 2 or 3, else 8, unknown
/// kinds too.
fn operation_width(rest: &[u8]) -> usize {
    match rest.get(4..6).map(number) {
        Some(2 | 3) => 10,
        _ => 8,
    }
}

/// The four sections, each a list of its entries' bytes. Section by section: the count, its limit,
/// then its entries, so that whichever of 30 and 31 is met first is given.
fn sections(table: &[u8]) -> Result<Vec<Vec<&[u8]>>, u8> {
    let mut rest = table;
    let mut out = Vec::new();
    let widths: [fn(&[u8]) -> usize; 4] = [|_| 8, |_| 2, |_| 8, operation_width];
    for (width, (least, most)) in widths
        .iter()
        .zip([(1, 256), (0, 1024), (0, 1024), (0, 1024)])
    {
        if rest.len() < 2 {
            return Err(30);
        }
        let count = number(&rest[..2]) as usize;
        if count < least || count > most {
            return Err(31);
        }
        rest = &rest[2..];
        let mut entries = Vec::new();
        for _ in 0..count {
            let width = width(rest);
            entries.push(rest.get(..width).ok_or(30)?);
            rest = &rest[width..];
        }
        out.push(entries);
    }
    if rest.is_empty() {
        Ok(out)
    } else {
        Err(30)
    }
}

/// One type's entry as a shape, if it keeps every rule; `smaller` are the types before it.
fn shape(entry: &[u8], smaller: &[Rc<Shape>], members: &[u64], values: &[u64]) -> Option<Shape> {
    let fields: Vec<usize> = entry.chunks(2).map(|two| number(two) as usize).collect();
    let (kind, of, first, count) = (fields[0], fields[1], fields[2], fields[3]);
    if kind != 0 && count == 0 {
        return None;
    }
    let earlier = |number: usize| smaller.get(number).cloned();
    match kind {
        0 => (of <= 12 && first == 0 && count == 0).then_some(Shape::Base(of as u16)),
        1 => {
            let base = of as u16;
            if !(base == 1 || (3..=10).contains(&base)) {
                return None;
            }
            let own = values.get(first..first + count)?.to_vec();
            let mut sorted = own.clone();
            sorted.sort_unstable();
            sorted.dedup();
            let good = sorted.len() == own.len() && own.iter().all(|v| integer_allows(base, *v));
            good.then_some(Shape::Enum(base, own))
        }
        2 if of == 0 => {
            let own = members.get(first..first + count)?;
            let parts: Option<Vec<_>> = own.iter().map(|m| earlier(*m as usize)).collect();
            parts.map(Shape::Record)
        }
        3 if first == 0 => earlier(of).map(|element| Shape::Fixed(element, count)),
        4 if first == 0 => earlier(of).map(|element| Shape::Array(element, count)),
        _ => None,
    }
}

fn operations(entries: &[&[u8]], types: usize) -> Option<Vec<Operation>> {
    let all: Vec<Operation> = entries
        .iter()
        .map(|e| Operation {
            id: number(&e[..4]) as u32,
            kind: number(&e[4..6]) as u16,
            of: number(&e[6..8]) as u16,
            response: e.get(8..10).map_or(0xFFFF, |two| number(two) as u16),
        })
        .collect();
    let rising = all.windows(2).all(|two| two[0].id < two[1].id);
    let each = all.iter().all(|op| {
        let typed = |of: u16| usize::from(of) < types;
        let maybe = |of: u16| typed(of) || of == 0xFFFF;
        let kept = match op.kind {
            0 => maybe(op.of),
            1 => typed(op.of),
            2 | 3 => maybe(op.of) && maybe(op.response),
            _ => false,
        };
        op.id != 0xFFFF_FFFF && kept
    });
    (rising && each).then_some(all)
}

/// The table, or 30 to 33.
pub fn check(bytes: &[u8]) -> Result<Table, u8> {
    let found = sections(bytes)?;
    let members: Vec<u64> = found[1].iter().map(|entry| number(entry)).collect();
    let values: Vec<u64> = found[2].iter().map(|entry| number(entry)).collect();
    // R18: every entry is judged, the operations' too, before any size.
    let mut types: Vec<Rc<Shape>> = Vec::new();
    for entry in &found[0] {
        let one = shape(entry, &types, &members, &values).ok_or(32)?;
        types.push(Rc::new(one));
    }
    let operations = operations(&found[3], types.len()).ok_or(32)?;
    // A size needs only those of smaller numbers, and these were judged before it: no sum here
    // goes beyond 65,536 times 65,536.
    let mut sizes: Vec<(Rc<Shape>, u64)> = Vec::new();
    for one in &types {
        let size = {
            let of = |part: &Rc<Shape>| {
                sizes
                    .iter()
                    .find(|(known, _)| Rc::ptr_eq(known, part))
                    .expect("is smaller")
                    .1
            };
            match &**one {
                Shape::Base(base) | Shape::Enum(base, _) => BASES[usize::from(*base)].1 as u64,
                Shape::Record(parts) => parts.iter().map(of).sum(),
                Shape::Fixed(element, count) => of(element) * *count as u64,
                Shape::Array(element, most) => of(element) * *most as u64 + 4,
            }
        };
        if size > 65536 {
            return Err(33);
        }
        sizes.push((one.clone(), size));
    }
    Ok(Table {
        types,
        members: members.len(),
        values: values.len(),
        operations,
    })
}

impl Table {
    pub fn operation(&self, id: u32) -> Option<Operation> {
        self.operations.iter().copied().find(|op| op.id == id)
    }
}
