//! A payload to words.

use super::payload::{entry_of, smaller, Refused, Spot};
use super::types::{allowed, width, Entry, Sections, Table, ARRAY, BASE, ENUM, RECORD};
use super::{be16, be32, be64};

#[inline(never)]
pub fn unpack_in(
    bytes: &[u8],
    sections: &Sections,
    number: u16,
    payload: &[u8],
    words: &mut [u64],
) -> Result<usize, Refused> {
    let table = Table::within(bytes, sections)?;
    if usize::from(number) >= table.types() {
        return Err(44.into());
    }
    let mut judge = Judge {
        table,
        rest: payload,
        words: 0,
    };
    let judged = judge.meet(usize::from(number));
    let count = judge.words;
    let stopped = Spot {
        at: payload.len() - judge.rest.len(),
        leaves: count,
    };
    judged.map_err(|number| stopped.refused(number))?;
    if !judge.rest.is_empty() {
        return Err(stopped.refused(41));
    }
    let out = words.get_mut(..count).ok_or(45u32)?;
    Store {
        table,
        rest: payload,
        out,
    }
    .meet(usize::from(number));
    Ok(count)
}

/// The word of a leaf's bytes.
#[inline(always)]
pub(super) fn word(code: u16, bytes: &[u8]) -> u64 {
    match code {
        0 => u64::from(bytes[0] != 0),
        1 => bytes[0] as i8 as u64,
        2 | 6 | 7 => u64::from(bytes[0]),
        3 => be16(bytes, 0) as i16 as u64,
        4 => be32(bytes, 0) as i32 as u64,
        8 => u64::from(be16(bytes, 0)),
        9 | 11 => u64::from(be32(bytes, 0)),
        _ => be64(bytes, 0),
    }
}

/// Whether the words of leaves of one base code, all whole, are allowed.
#[inline(always)]
pub(super) fn are_good(code: u16, run: &[u8]) -> bool {
    match code {
        2 => run.is_ascii(),
        11 => run.chunks_exact(4).fold(true, |good, leaf| {
            good & allowed(11, u64::from(be32(leaf, 0)))
        }),
        12 => run
            .chunks_exact(8)
            .fold(true, |good, leaf| good & allowed(12, be64(leaf, 0))),
        _ => true,
    }
}

/// Their words: a loop for each form, so that each can be vectorised.
#[inline(always)]
pub(super) fn store(code: u16, run: &[u8], out: &mut [u64]) {
    macro_rules! each {
        ($width:literal, $word:expr) => {
            for (out, leaf) in out.iter_mut().zip(run.chunks_exact($width)) {
                *out = $word(leaf);
            }
        };
    }
    match code {
        0 => each!(1, |leaf: &[u8]| u64::from(leaf[0] != 0)),
        1 => each!(1, |leaf: &[u8]| leaf[0] as i8 as u64),
        2 | 6 | 7 => each!(1, |leaf: &[u8]| u64::from(leaf[0])),
        3 => each!(2, |leaf: &[u8]| be16(leaf, 0) as i16 as u64),
        4 => each!(4, |leaf: &[u8]| be32(leaf, 0) as i32 as u64),
        8 => each!(2, |leaf: &[u8]| u64::from(be16(leaf, 0))),
        9 | 11 => each!(4, |leaf: &[u8]| u64::from(be32(leaf, 0))),
        _ => each!(8, |leaf: &[u8]| be64(leaf, 0)),
    }
}

/// The first walk of unpacking. Where it refuses, it stands before the leaf or count that it refuses.
struct Judge<'a> {
    table: Table<'a>,
    rest: &'a [u8],
    words: usize,
}

impl Judge<'_> {
    fn meet(&mut self, i: usize) -> Result<(), u32> {
        let e = entry_of(&self.table, i)?;
        match e.kind {
            BASE | ENUM => self.leaf(&e),
            RECORD => self.members(i, &e),
            _ => self.elements(i, &e),
        }
    }

    fn members(&mut self, i: usize, e: &Entry) -> Result<(), u32> {
        for member in self.table.members(e).chunks_exact(2) {
            let child = smaller(be16(member, 0), i)?;
            let e = entry_of(&self.table, child)?;
            match e.kind {
                BASE | ENUM => self.leaf(&e)?,
                RECORD => self.members(child, &e)?,
                _ => self.elements(child, &e)?,
            }
        }
        Ok(())
    }

    #[inline(always)]
    fn leaf(&mut self, e: &Entry) -> Result<(), u32> {
        let width = width(e.of);
        if self.rest.len() < width {
            return Err(40);
        }
        let (leaf, rest) = self.rest.split_at(width);
        let good = match (e.kind, e.of) {
            (ENUM, code) => self.table.has_value(e, word(code, leaf)),
            (_, 2) => leaf.is_ascii(),
            (_, 11) => allowed(11, u64::from(be32(leaf, 0))),
            (_, 12) => allowed(12, be64(leaf, 0)),
            _ => true,
        };
        if !good {
            return Err(42);
        }
        self.rest = rest;
        self.words += 1;
        Ok(())
    }

    fn elements(&mut self, i: usize, e: &Entry) -> Result<(), u32> {
        let mut count = usize::from(e.count);
        if e.kind == ARRAY {
            let bytes = self.rest.get(..4).ok_or(40u32)?;
            let given = be32(bytes, 0) as usize;
            if given > count {
                return Err(43);
            }
            self.rest = &self.rest[4..];
            self.words += 1;
            count = given;
        }
        if count == 0 {
            return Ok(());
        }
        let child = smaller(e.of, i)?;
        let element = entry_of(&self.table, child)?;
        if element.kind <= ENUM {
            return self.leaves(&element, count);
        }
        for _ in 0..count {
            self.meet(child)?;
        }
        Ok(())
    }

    /// So many leaves of one kind: those that are whole are judged before it is seen that one is cut.
    fn leaves(&mut self, e: &Entry, count: usize) -> Result<(), u32> {
        let width = width(e.of);
        let whole = count.min(self.rest.len() / width);
        let (run, rest) = self.rest.split_at(whole * width);
        let good = match e.kind {
            ENUM => run
                .chunks_exact(width)
                .all(|leaf| self.table.has_value(e, word(e.of, leaf))),
            _ => are_good(e.of, run),
        };
        if !good {
            // Which of them it is, one by one.
            (0..whole).try_for_each(|_| self.leaf(e))?;
        }
        self.rest = rest;
        self.words += whole;
        if whole < count {
            return Err(40);
        }
        Ok(())
    }
}

/// The second walk of unpacking, over what was judged good.
struct Store<'a, 'o> {
    table: Table<'a>,
    rest: &'a [u8],
    out: &'o mut [u64],
}

impl Store<'_, '_> {
    fn meet(&mut self, i: usize) {
        let e = self.table.entry(i);
        match e.kind {
            BASE | ENUM => self.leaf(e.of),
            RECORD => self.members(&e),
            _ => self.elements(&e),
        }
    }

    fn members(&mut self, e: &Entry) {
        for member in self.table.members(e).chunks_exact(2) {
            let e = self.table.entry(usize::from(be16(member, 0)));
            match e.kind {
                BASE | ENUM => self.leaf(e.of),
                RECORD => self.members(&e),
                _ => self.elements(&e),
            }
        }
    }

    #[inline(always)]
    fn leaf(&mut self, code: u16) {
        let (leaf, rest) = self.rest.split_at(width(code));
        self.rest = rest;
        self.next(1)[0] = word(code, leaf);
    }

    fn elements(&mut self, e: &Entry) {
        let mut count = usize::from(e.count);
        if e.kind == ARRAY {
            count = be32(self.rest, 0) as usize;
            self.rest = &self.rest[4..];
            self.next(1)[0] = count as u64;
        }
        // Of no elements the type was not looked at.
        if count == 0 {
            return;
        }
        let child = usize::from(e.of);
        let element = self.table.entry(child);
        if element.kind <= ENUM {
            return self.leaves(element.of, count);
        }
        for _ in 0..count {
            self.meet(child);
        }
    }

    fn next(&mut self, count: usize) -> &mut [u64] {
        let (next, rest) = std::mem::take(&mut self.out).split_at_mut(count);
        self.out = rest;
        next
    }

    fn leaves(&mut self, code: u16, count: usize) {
        let width = width(code);
        let (run, rest) = self.rest.split_at(count * width);
        self.rest = rest;
        store(code, run, self.next(count));
    }
}
