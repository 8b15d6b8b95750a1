//! Section four of a table: operations, whose entries have two widths, an index of them, and one looked up by its ID.

use super::types::Section;
use super::{be16, be32};

/// The kinds that matter to a platform: versioned data, and requests that we send or serve.
pub const DATA: u16 = 1;
pub const SENT: u16 = 2;
pub const SERVED: u16 = 3;
pub const MOST: usize = 1_024;
const NO_TYPE: u16 = 0xFFFF;

#[derive(Clone, Copy, Debug, PartialEq, Eq)]
pub struct Operation {
    pub id: u32,
    pub kind: u16,
    pub carries: u16,
    pub responds: u16,
}

/// An index has one for each operation: where the entry of the ID stands.
#[derive(Clone, Copy, Debug, Default, PartialEq, Eq)]
pub struct Place {
    pub id: u32,
    pub at: u32,
}

/// An entry goes on with the type of the response where its operation is a request.
fn width(kind: u16) -> usize {
    if kind == SENT || kind == SERVED {
        10
    } else {
        8
    }
}

/// The kind of the entry at the bytes' start, 0 where it is cut off.
fn kind(bytes: &[u8]) -> u16 {
    bytes.get(4..6).map_or(0, |kind| be16(kind, 0))
}

/// What stands behind the entry at the bytes' start.
fn behind(bytes: &[u8]) -> Option<&[u8]> {
    bytes.get(width(kind(bytes))..)
}

/// Whether so many operations stand there, and nothing behind them.
pub fn end_with(mut bytes: &[u8], count: usize) -> bool {
    for _ in 0..count {
        match behind(bytes) {
            Some(rest) => bytes = rest,
            None => return false,
        }
    }
    bytes.is_empty()
}

impl Operation {
    /// The entry at the bytes' start, if all of it is there.
    pub fn first(bytes: &[u8]) -> Option<Operation> {
        let kind = kind(bytes);
        let entry = bytes.get(..width(kind))?;
        Some(Operation {
            id: be32(entry, 0),
            kind,
            carries: be16(entry, 6),
            responds: if entry.len() == 10 {
                be16(entry, 8)
            } else {
                NO_TYPE
            },
        })
    }

    fn is_good(&self, types: usize) -> bool {
        let typed = |number: u16| usize::from(number) < types;
        let typed_or_none = |number: u16| number == NO_TYPE || typed(number);
        let fields_ok = match self.kind {
            0 => typed_or_none(self.carries),
            DATA => typed(self.carries),
            SENT | SERVED => typed_or_none(self.carries) && typed_or_none(self.responds),
            _ => false,
        };
        fields_ok && self.id < u32::MAX
    }
}

/// So many operations, one behind another, as far as they are whole.
struct Entries<'a> {
    left: usize,
    rest: &'a [u8],
}

impl Iterator for Entries<'_> {
    type Item = Operation;

    fn next(&mut self) -> Option<Operation> {
        self.left = self.left.checked_sub(1)?;
        let operation = Operation::first(self.rest)?;
        self.rest = &self.rest[width(operation.kind)..];
        Some(operation)
    }
}

/// The operations of a table and their index.
#[derive(Clone, Copy)]
pub struct Operations<'a> {
    pub bytes: &'a [u8],
    pub section: Section,
    pub index: &'a [Place],
}

impl<'a> Operations<'a> {
    fn bytes(&self) -> &'a [u8] {
        self.bytes.get(self.section.at..).unwrap_or(&[])
    }

    fn entries(&self) -> Entries<'a> {
        Entries {
            left: self.section.count,
            rest: self.bytes(),
        }
    }

    pub fn are_good(&self, types: usize) -> bool {
        let mut last = None;
        for operation in self.entries() {
            if last >= Some(operation.id) || !operation.is_good(types) {
                return false;
            }
            last = Some(operation.id);
        }
        true
    }

    pub fn lay_index(&self, index: &mut [Place]) {
        let mut at = self.section.at;
        for (place, Operation { id, kind, .. }) in index.iter_mut().zip(self.entries()) {
            *place = Place { id, at: at as u32 };
            at += width(kind);
        }
    }

    /// The operation of the ID, with its number. The index may be another table's: the entry itself has to bear the ID.
    pub fn find(&self, id: u32) -> Option<(usize, Operation)> {
        let number = self.index.binary_search_by_key(&id, |p| p.id).ok()?;
        let entry = self.bytes.get(self.index[number].at as usize..)?;
        let found = Operation::first(entry)?;
        (found.id == id).then(|| (number, found))
    }

    /// The same by the bytes alone, from the first entry on: what there is without an index.
    pub fn scan(&self, id: u32) -> Option<(usize, Operation)> {
        self.entries().enumerate().find(|(_, found)| found.id == id)
    }

    /// Whether any is versioned data.
    pub fn has_data(&self) -> bool {
        let mut rest = self.bytes();
        (0..self.section.count).any(|_| {
            let is_data = kind(rest) == DATA;
            rest = behind(rest).unwrap_or(&[]);
            is_data
        })
    }
}
