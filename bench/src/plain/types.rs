//! The type table: checked once, looked up ever after.

use super::operations::{self, Operation, Operations, Place};
use super::{be16, be64};

#[derive(Clone, Copy, Debug, Default, PartialEq, Eq)]
pub struct Section {
    pub at: usize,
    pub count: usize,
}

impl Section {
    /// Where it ends, if each entry has so many bytes.
    fn end(&self, width: usize) -> usize {
        self.at + self.count * width
    }
}

/// Where the sections lie.
#[derive(Clone, Copy, Debug, Default, PartialEq, Eq)]
pub struct Bounds {
    pub types: Section,
    pub members: Section,
    pub values: Section,
    pub operations: Section,
}

/// What a check leaves with its caller: where the sections lie, and the index of the operations, as many as there are.
#[derive(Clone, Debug, PartialEq, Eq)]
pub struct Sections {
    pub bounds: Bounds,
    pub index: [Place; operations::MOST],
}

impl Default for Sections {
    fn default() -> Sections {
        Sections {
            bounds: Bounds::default(),
            index: [Place::default(); operations::MOST],
        }
    }
}

/// A table's bytes, by section.
#[derive(Clone, Copy)]
pub struct Table<'a> {
    types: &'a [u8],
    members: &'a [u8],
    values: &'a [u8],
    pub operations: Operations<'a>,
}

#[derive(Clone, Copy)]
pub struct Entry {
    pub kind: u16,
    pub of: u16,
    pub first: u16,
    pub count: u16,
}

pub const BASE: u16 = 0;
pub const ENUM: u16 = 1;
pub const RECORD: u16 = 2;
pub const FIXED: u16 = 3;
pub const ARRAY: u16 = 4;

const LARGEST: u64 = 65_536;
const MOST_TYPES: usize = 256;
const MOST: usize = 1_024;
const WIDTHS: [u8; 13] = [1, 1, 1, 2, 4, 8, 1, 1, 2, 4, 8, 4, 8];

pub fn width(code: u16) -> usize {
    usize::from(WIDTHS[usize::from(code)])
}

/// Whether a word is a value of the base code.
pub fn allowed(code: u16, word: u64) -> bool {
    match code {
        0 => word < 2,
        1 => word as i64 == i64::from(word as i8),
        3 => word as i64 == i64::from(word as i16),
        4 => word as i64 == i64::from(word as i32),
        2 => word <= 0x7F,
        6 | 7 => word <= 0xFF,
        8 => word <= 0xFFFF,
        9 => word <= 0xFFFF_FFFF,
        11 => word <= 0xFFFF_FFFF && word & 0x7F80_0000 != 0x7F80_0000,
        12 => word & 0x7FF0_0000_0000_0000 != 0x7FF0_0000_0000_0000,
        _ => true,
    }
}

impl<'a> Table<'a> {
    /// The table whose sections these are: 30 where they cannot be. An operation has 8 bytes or more.
    pub fn within(bytes: &'a [u8], s: &'a Sections) -> Result<Table<'a>, u32> {
        let index = s.index.get(..s.bounds.operations.count).ok_or(30u32)?;
        Table::of(bytes, &s.bounds, index).ok_or(30)
    }

    fn of(bytes: &'a [u8], bounds: &Bounds, index: &'a [Place]) -> Option<Table<'a>> {
        let part = |section: Section, width: usize, most: usize| {
            if section.count > most {
                return None;
            }
            // A section's start that no table has is no part of any.
            let end = section.at.checked_add(section.count * width)?;
            bytes.get(section.at..end)
        };
        let table = Table {
            types: part(bounds.types, 8, MOST_TYPES)?,
            members: part(bounds.members, 2, MOST)?,
            values: part(bounds.values, 8, MOST)?,
            operations: Operations {
                bytes,
                section: bounds.operations,
                index,
            },
        };
        part(bounds.operations, 8, operations::MOST).map(|_| table)
    }

    pub fn types(&self) -> usize {
        self.types.len() / 8
    }

    #[inline(always)]
    pub fn entry(&self, i: usize) -> Entry {
        let word = be64(self.types, 8 * i);
        Entry {
            kind: (word >> 48) as u16,
            of: (word >> 32) as u16,
            first: (word >> 16) as u16,
            count: word as u16,
        }
    }

    /// The type numbers of a record's members, two bytes each.
    pub fn members(&self, e: &Entry) -> &'a [u8] {
        let first = usize::from(e.first);
        &self.members[2 * first..2 * (first + usize::from(e.count))]
    }

    pub fn values(&self, e: &Entry) -> impl Iterator<Item = u64> + Clone + 'a {
        let first = usize::from(e.first);
        self.values[8 * first..8 * (first + usize::from(e.count))]
            .chunks_exact(8)
            .map(|value| be64(value, 0))
    }

    pub fn has_value(&self, e: &Entry, word: u64) -> bool {
        self.values(e).any(|value| value == word)
    }

    /// The rules of an entry that need nothing but the entry.
    #[inline(always)]
    pub fn fields_ok(&self, i: usize, e: &Entry) -> bool {
        let fits = |whole: &[u8], width: usize| {
            e.count >= 1 && usize::from(e.first) + usize::from(e.count) <= whole.len() / width
        };
        match e.kind {
            BASE => e.of <= 12 && e.first == 0 && e.count == 0,
            ENUM => (e.of == 1 || (3..=10).contains(&e.of)) && fits(self.values, 8),
            RECORD => e.of == 0 && fits(self.members, 2),
            FIXED | ARRAY => usize::from(e.of) < i && e.first == 0 && e.count >= 1,
            _ => false,
        }
    }

    fn entry_ok(&self, i: usize) -> bool {
        let e = self.entry(i);
        if !self.fields_ok(i, &e) {
            return false;
        }
        match e.kind {
            ENUM => self.values(&e).all(|value| allowed(e.of, value)) && distinct(self.values(&e)),
            RECORD => self
                .members(&e)
                .chunks_exact(2)
                .all(|member| usize::from(be16(member, 0)) < i),
            _ => true,
        }
    }

    fn sizes_ok(&self) -> bool {
        let mut sizes = [0u32; MOST_TYPES];
        for i in 0..self.types() {
            let e = self.entry(i);
            let count = u64::from(e.count);
            let size = match e.kind {
                RECORD => self
                    .members(&e)
                    .chunks_exact(2)
                    .map(|member| u64::from(sizes[usize::from(be16(member, 0))]))
                    .sum(),
                FIXED => u64::from(sizes[usize::from(e.of)]) * count,
                ARRAY => u64::from(sizes[usize::from(e.of)]) * count + 4,
                _ => width(e.of) as u64,
            };
            if size > LARGEST {
                return false;
            }
            sizes[i] = size as u32;
        }
        true
    }
}

/// Values mostly rise, as signed or as unsigned numbers, and then they are distinct after one pass.
fn distinct(values: impl Iterator<Item = u64> + Clone) -> bool {
    let pairs = values.clone().zip(values.clone().skip(1));
    let (mut signed, mut unsigned) = (true, true);
    for (one, next) in pairs {
        signed &= (one as i64) < next as i64;
        unsigned &= one < next;
    }
    signed
        || unsigned
        || values.clone().enumerate().all(|(i, value)| {
            let mut before = values.clone().take(i);
            before.all(|other| other != value)
        })
}

/// Leaves the sections, with the index behind them, where nothing refuses the table.
#[inline(never)]
pub fn check(bytes: &[u8], sections: &mut Sections) -> Result<(), u32> {
    let bounds = bounds(bytes)?;
    let table = Table::of(bytes, &bounds, &[]).ok_or(30u32)?;
    if !(0..table.types()).all(|i| table.entry_ok(i)) || !table.operations.are_good(table.types()) {
        return Err(32);
    }
    if !table.sizes_ok() {
        return Err(33);
    }
    sections.bounds = bounds;
    table.operations.lay_index(&mut sections.index);
    Ok(())
}

/// The four sections, one behind another, and nothing behind them: 30 or 31, whichever is met first.
fn bounds(bytes: &[u8]) -> Result<Bounds, u32> {
    let section = |at: usize, width: usize, least: usize, most: usize| -> Result<Section, u32> {
        let count = usize::from(be16(bytes.get(at..at + 2).ok_or(30u32)?, 0));
        if !(least..=most).contains(&count) {
            return Err(31);
        }
        let found = Section { at: at + 2, count };
        if found.end(width) > bytes.len() {
            return Err(30);
        }
        Ok(found)
    };
    let types = section(0, 8, 1, MOST_TYPES)?;
    let members = section(types.end(8), 2, 0, MOST)?;
    let values = section(members.end(2), 8, 0, MOST)?;
    let operations = section(values.end(8), 8, 0, operations::MOST)?;
    if !operations::end_with(&bytes[operations.at..], operations.count) {
        return Err(30);
    }
    Ok(Bounds {
        types,
        members,
        values,
        operations,
    })
}

/// Looks an operation up: 30.
#[inline(never)]
pub fn find(bytes: &[u8], sections: &Sections, id: u32) -> Result<Option<Operation>, u32> {
    let found = Table::within(bytes, sections)?.operations.find(id);
    Ok(found.map(|(_, operation)| operation))
}

/// The same, by a scan.
#[inline(never)]
pub fn scan(bytes: &[u8], sections: &Sections, id: u32) -> Result<Option<Operation>, u32> {
    let found = Table::within(bytes, sections)?.operations.scan(id);
    Ok(found.map(|(_, operation)| operation))
}
