//! Words to a payload.

use super::be16;
use super::payload::{entry_of, smaller, Refused, Spot};
use super::types::{allowed, width, Entry, Sections, Table, ARRAY, BASE, ENUM, FIXED, RECORD};

#[inline(never)]
pub fn pack_in(
    bytes: &[u8],
    sections: &Sections,
    number: u16,
    words: &[u64],
    out: &mut [u8],
) -> Result<usize, Refused> {
    let table = Table::within(bytes, sections)?;
    if usize::from(number) >= table.types() {
        return Err(44.into());
    }
    let mut weigh = Weigh {
        table,
        rest: words,
        bytes: 0,
    };
    let weighed = weigh.meet(usize::from(number));
    let count = weigh.bytes;
    let at = words.len() - weigh.rest.len();
    let stopped = Spot { at, leaves: at };
    weighed.map_err(|number| stopped.refused(number))?;
    if !weigh.rest.is_empty() {
        return Err(stopped.refused(41));
    }
    let out = out.get_mut(..count).ok_or(45u32)?;
    Lay {
        table,
        rest: words,
        out,
    }
    .meet(usize::from(number));
    Ok(count)
}

/// Whether words are all values of the base code.
#[inline(always)]
pub(super) fn are_good(code: u16, run: &[u64]) -> bool {
    macro_rules! each {
        ($code:literal) => {
            run.iter()
                .fold(true, |good, word| good & allowed($code, *word))
        };
    }
    match code {
        0 => each!(0),
        1 => each!(1),
        2 => each!(2),
        3 => each!(3),
        4 => each!(4),
        6 | 7 => each!(6),
        8 => each!(8),
        9 => each!(9),
        11 => each!(11),
        12 => each!(12),
        _ => true,
    }
}

/// Their bytes.
#[inline(always)]
pub(super) fn store(code: u16, run: &[u64], out: &mut [u8]) {
    macro_rules! each {
        ($width:literal, $number:ty) => {
            for (out, word) in out.chunks_exact_mut($width).zip(run) {
                out.copy_from_slice(&(*word as $number).to_be_bytes());
            }
        };
    }
    match width(code) {
        1 => each!(1, u8),
        2 => each!(2, u16),
        4 => each!(4, u32),
        _ => each!(8, u64),
    }
}

/// The first walk of packing. Where it refuses, it stands before the word that it refuses.
struct Weigh<'a> {
    table: Table<'a>,
    rest: &'a [u64],
    bytes: usize,
}

impl Weigh<'_> {
    fn meet(&mut self, i: usize) -> Result<(), u32> {
        let e = entry_of(&self.table, i)?;
        match e.kind {
            BASE | ENUM => self.leaf(&e),
            RECORD => self.members(i, &e),
            _ => self.elements(i, &e),
        }
    }

    fn members(&mut self, i: usize, e: &Entry) -> Result<(), u32> {
        for member in self.table.members(e).chunks_exact(2) {
            let child = smaller(be16(member, 0), i)?;
            let e = entry_of(&self.table, child)?;
            match e.kind {
                BASE | ENUM => self.leaf(&e)?,
                RECORD => self.members(child, &e)?,
                _ => self.elements(child, &e)?,
            }
        }
        Ok(())
    }

    #[inline(always)]
    fn leaf(&mut self, e: &Entry) -> Result<(), u32> {
        let (word, rest) = self.rest.split_first().ok_or(40u32)?;
        if !allowed(e.of, *word) || e.kind == ENUM && !self.table.has_value(e, *word) {
            return Err(42);
        }
        self.rest = rest;
        self.bytes += width(e.of);
        Ok(())
    }

    fn elements(&mut self, i: usize, e: &Entry) -> Result<(), u32> {
        let mut count = u64::from(e.count);
        if e.kind != FIXED {
            let (given, rest) = self.rest.split_first().ok_or(40u32)?;
            if *given > count {
                return Err(43);
            }
            self.rest = rest;
            self.bytes += 4;
            count = *given;
        }
        if count == 0 {
            return Ok(());
        }
        let child = smaller(e.of, i)?;
        let element = entry_of(&self.table, child)?;
        if element.kind <= ENUM {
            return self.leaves(&element, count as usize);
        }
        for _ in 0..count {
            self.meet(child)?;
        }
        Ok(())
    }

    fn leaves(&mut self, e: &Entry, count: usize) -> Result<(), u32> {
        let (run, rest) = self.rest.split_at(count.min(self.rest.len()));
        let good = match e.kind {
            ENUM => run
                .iter()
                .all(|word| allowed(e.of, *word) && self.table.has_value(e, *word)),
            _ => are_good(e.of, run),
        };
        if !good {
            // Which of them it is, one by one.
            run.iter().try_for_each(|_| self.leaf(e))?;
        }
        self.rest = rest;
        if run.len() < count {
            return Err(40);
        }
        self.bytes += count * width(e.of);
        Ok(())
    }
}

/// The second walk of packing, over what was judged good.
struct Lay<'a, 'o> {
    table: Table<'a>,
    rest: &'a [u64],
    out: &'o mut [u8],
}

impl Lay<'_, '_> {
    fn meet(&mut self, i: usize) {
        let e = self.table.entry(i);
        match e.kind {
            BASE | ENUM => self.leaf(e.of),
            RECORD => self.members(&e),
            _ => self.elements(&e),
        }
    }

    fn members(&mut self, e: &Entry) {
        for member in self.table.members(e).chunks_exact(2) {
            let e = self.table.entry(usize::from(be16(member, 0)));
            match e.kind {
                BASE | ENUM => self.leaf(e.of),
                RECORD => self.members(&e),
                _ => self.elements(&e),
            }
        }
    }

    #[inline(always)]
    fn leaf(&mut self, code: u16) {
        let width = width(code);
        let (word, rest) = self.rest.split_first().unwrap();
        self.rest = rest;
        let (out, left) = std::mem::take(&mut self.out).split_at_mut(width);
        self.out = left;
        match width {
            1 => out[0] = *word as u8,
            2 => out[..2].copy_from_slice(&(*word as u16).to_be_bytes()),
            4 => out[..4].copy_from_slice(&(*word as u32).to_be_bytes()),
            _ => out[..8].copy_from_slice(&word.to_be_bytes()),
        }
    }

    fn elements(&mut self, e: &Entry) {
        let mut count = usize::from(e.count);
        if e.kind == ARRAY {
            count = self.rest[0] as usize;
            self.leaf(9);
        }
        // Of no elements the type was not looked at.
        if count == 0 {
            return;
        }
        let child = usize::from(e.of);
        let element = self.table.entry(child);
        if element.kind <= ENUM {
            return self.leaves(element.of, count);
        }
        for _ in 0..count {
            self.meet(child);
        }
    }

    fn leaves(&mut self, code: u16, count: usize) {
        let width = width(code);
        let (run, rest) = self.rest.split_at(count);
        self.rest = rest;
        let (out, left) = std::mem::take(&mut self.out).split_at_mut(count * width);
        self.out = left;
        store(code, run, out);
    }
}
