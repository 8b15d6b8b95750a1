//! Good type tables from a seed: every kind, nested and at the edges of every count and size.

use crate::calls_operations::Entry;
use crate::prng::Prng;

/// A table's parts as its bytes have them, so that any of them can be spoilt.
#[derive(Clone, Debug, Default)]
pub struct Draft {
    /// kind, of, first, count.
    pub types: Vec<[u16; 4]>,
    pub members: Vec<u16>,
    pub values: Vec<u64>,
    pub operations: Vec<Entry>,
    /// The largest size of each type; nothing in the bytes.
    pub sizes: Vec<u64>,
}

pub const LARGEST: u64 = 65536;
pub const NO_TYPE: u16 = 0xFFFF;

/// Bytes of each base code.
const WIDTHS: [u64; 13] = [1, 1, 1, 2, 4, 8, 1, 1, 2, 4, 8, 4, 8];
const SIGNED: [u16; 4] = [1, 3, 4, 5];
pub const CHAR8: u16 = 2;
pub const ENUM_BASES: [u16; 9] = [1, 3, 4, 5, 6, 7, 8, 9, 10];

pub fn width(code: u16) -> usize {
    WIDTHS[usize::from(code)] as usize
}

/// The least and the greatest value of an integer base.
pub fn ends(code: u16) -> (i128, i128) {
    let reach = 1i128 << (8 * width(code));
    match code {
        // Half of what its byte could be.
        CHAR8 => (0, reach / 2 - 1),
        _ if SIGNED.contains(&code) => (-(reach / 2), reach / 2 - 1),
        _ => (0, reach - 1),
    }
}

/// A value of an integer base, often at its ends.
pub fn integer(rng: &mut Prng, code: u16) -> i128 {
    let (least, greatest) = ends(code);
    match rng.below(6) {
        0 => least,
        1 => greatest,
        2 => rng.below(3) as i128,
        3 => -i128::from(SIGNED.contains(&code)),
        _ => least + i128::from(rng.draw()) % (greatest - least + 1),
    }
}

impl Draft {
    pub fn bytes(&self) -> Vec<u8> {
        let mut out = Vec::new();
        let count = |out: &mut Vec<u8>, n: usize| out.extend((n as u16).to_be_bytes());
        count(&mut out, self.types.len());
        for entry in &self.types {
            out.extend(entry.iter().flat_map(|field| field.to_be_bytes()));
        }
        count(&mut out, self.members.len());
        out.extend(self.members.iter().flat_map(|m| m.to_be_bytes()));
        count(&mut out, self.values.len());
        out.extend(self.values.iter().flat_map(|v| v.to_be_bytes()));
        count(&mut out, self.operations.len());
        out.extend(self.operations.iter().flat_map(Entry::bytes));
        out
    }

    fn add(&mut self, entry: [u16; 4], size: u64) {
        self.types.push(entry);
        self.sizes.push(size);
    }

    pub fn base(&mut self, code: u16) {
        self.add([0, code, 0, 0], WIDTHS[usize::from(code)]);
    }

    /// An enum with so many values, or as many as its base has.
    pub fn enumeration(&mut self, rng: &mut Prng, code: u16, wanted: usize) {
        let mut own: Vec<u64> = Vec::new();
        for _ in 0..wanted {
            let value = integer(rng, code) as u64;
            if !own.contains(&value) {
                own.push(value);
            }
        }
        if self.values.len() + own.len() > 1024 {
            return self.base(code);
        }
        let entry = [1, code, self.values.len() as u16, own.len() as u16];
        self.values.extend(own);
        self.add(entry, WIDTHS[usize::from(code)]);
    }

    /// A record of these types, if it is not too large and there is room for its members.
    pub fn record(&mut self, of: &[u16]) {
        let size: u64 = of.iter().map(|m| self.sizes[usize::from(*m)]).sum();
        if size > LARGEST || self.members.len() + of.len() > 1024 {
            return self.base(6);
        }
        let entry = [2, 0, self.members.len() as u16, of.len() as u16];
        self.members.extend(of);
        self.add(entry, size);
    }

    /// A fixed array, or an array, of at most so many as keep it from being too large.
    pub fn array(&mut self, kind: u16, of: u16, wanted: u64) {
        let own = if kind == 4 { 4 } else { 0 };
        let element = self.sizes[usize::from(of)];
        let count = wanted.min((LARGEST - own) / element).min(0xFFFF);
        if count == 0 {
            return self.base(6);
        }
        self.add([kind, of, 0, count as u16], element * count + own);
    }

    /// One more type of any kind.
    fn grow(&mut self, rng: &mut Prng) {
        let known = self.types.len();
        let kind = if known == 0 {
            rng.below(2)
        } else {
            rng.below(7)
        };
        match kind {
            0 => self.base(rng.below(13) as u16),
            1 => {
                let (code, count) = (rng.pick(&ENUM_BASES), rng.pick(&[1, 2, 3, 6]));
                self.enumeration(rng, code, count);
            }
            2 | 3 => {
                let of: Vec<u16> = (0..rng.from_to(1, 5)).map(|_| late(rng, known)).collect();
                self.record(&of);
            }
            4 if self.shared(rng) => {}
            kind => {
                let count = rng.pick(&[1, 1, 2, 3, 5, 40, 65535]);
                let of = late(rng, known);
                // The largest counts would fill every table with types too large to be met often.
                let most = if rng.chance(1, 6) {
                    count
                } else {
                    count.min(4)
                };
                self.array(if kind == 5 { 3 } else { 4 }, of, most);
            }
        }
        // Members and values that no type points to are not judged, whatever they are.
        if rng.chance(1, 12) && self.members.len() < 1024 {
            self.members
                .push(rng.pick(&[0, 300, NO_TYPE, known as u16]));
        }
        if rng.chance(1, 12) && self.values.len() < 1024 {
            let same = self.values.last().copied().unwrap_or(u64::MAX);
            self.values.push(same);
        }
    }

    /// A record whose members are a part of what other records have.
    fn shared(&mut self, rng: &mut Prng) -> bool {
        if self.members.is_empty() {
            return false;
        }
        let first = rng.below(self.members.len());
        let count = rng.from_to(1, (self.members.len() - first).min(4));
        let own = &self.members[first..first + count];
        if own.iter().any(|m| usize::from(*m) >= self.types.len()) {
            return false;
        }
        let size: u64 = own.iter().map(|m| self.sizes[usize::from(*m)]).sum();
        if size > LARGEST {
            return false;
        }
        self.add([2, 0, first as u16, count as u16], size);
        true
    }
}

/// An earlier type, more often a late one, so that types nest.
fn late(rng: &mut Prng, known: usize) -> u16 {
    let back = rng.below(known).min(rng.below(known));
    (known - 1 - back) as u16
}

/// A good table of any kind.
pub fn good(rng: &mut Prng) -> Draft {
    let mut draft = Draft::default();
    match rng.below(28) {
        0..=9 => (0..rng.from_to(1, 6)).for_each(|_| draft.grow(rng)),
        10..=14 => (0..rng.from_to(7, 30)).for_each(|_| draft.grow(rng)),
        15 => return every_base(rng),
        16 => return at_the_limits(rng),
        17 => return deep(rng),
        18 => return full(rng),
        19..=22 => texts(rng, &mut draft),
        _ => {
            // One base or enum and what is made of it, each leaf easy to reach.
            draft.base(rng.below(13) as u16);
            let (code, count) = (rng.pick(&ENUM_BASES), rng.from_to(1, 4));
            draft.enumeration(rng, code, count);
            let of = rng.below(2) as u16;
            draft.array(rng.pick(&[3, 4]), of, rng.from_to(1, 3) as u64);
            draft.record(&[0, 2, 1]);
        }
    }
    let count = rng.pick(&[0, 1, 2, 3, 8]);
    draft.operate(rng, count);
    draft
}

/// Each base code, its number its type's, and a record of all.
pub fn every_base(rng: &mut Prng) -> Draft {
    let mut draft = Draft::default();
    (0..13).for_each(|code| draft.base(code));
    draft.record(&(0..13).collect::<Vec<u16>>());
    draft.operate(rng, 2);
    draft
}

/// Texts in every way: single char8, many in a record, in arrays long and short, beside those of a
/// base that has the same bytes and all 256 of them.
fn texts(rng: &mut Prng, draft: &mut Draft) {
    draft.base(CHAR8);
    draft.base(rng.pick(&[6, 7]));
    for of in [0, 0, 1] {
        draft.array(rng.pick(&[3, 4]), of, rng.pick(&[1, 3, 16, 17, 64, 90]));
    }
    draft.record(&vec![0; rng.from_to(2, 40)]);
    draft.record(&[0, 2, 1, 4, 3, 0]);
}

/// Types of 65,536 bytes, or as near as their kind comes.
pub fn at_the_limits(rng: &mut Prng) -> Draft {
    let mut draft = Draft::default();
    draft.base(rng.pick(&[CHAR8, 6, 8, 9, 10]));
    draft.array(3, 0, 65535);
    draft.array(4, 0, 65535);
    draft.array(3, 0, rng.from_to(1, 5) as u64);
    draft.record(&[3, 0]);
    draft.array(rng.pick(&[3, 4]), 4, 65535);
    draft.operate(rng, 1);
    draft
}

/// A long chain, each type made of the one before it.
fn deep(rng: &mut Prng) -> Draft {
    let mut draft = Draft::default();
    draft.base(rng.below(13) as u16);
    let length = rng.pick(&[10, 60, 255]);
    for of in 0..length {
        match rng.below(6) {
            0 => draft.array(3, of, 1),
            1 => draft.array(4, of, rng.pick(&[1, 1, 2])),
            2 if of % 64 == 0 => draft.record(&[of, of]),
            _ => draft.record(&[of]),
        }
    }
    draft.operate(rng, 1);
    draft
}

/// Every section at its greatest count.
pub fn full(rng: &mut Prng) -> Draft {
    let mut draft = Draft::default();
    draft.base(rng.pick(&[8, 9, 10]));
    draft.enumeration(rng, 10, 400);
    while draft.types.len() < 256 {
        draft.grow(rng);
    }
    draft.members.resize(1024, NO_TYPE);
    draft.values.resize(1024, 7);
    draft.operate(rng, 1024);
    draft
}
