//! Payloads by plans: at load the types of fixed size, of at most 512 leaves, are laid out flat, as runs of leaves of one kind, an
//! enum's values with them. A payload that is wholly good goes by the runs alone, judged before a word is stored; what is not, and
//! what has no plan, goes by the table, which gives the number and the place.

use super::payload::{entry_of, smaller, Refused};
use super::types::{width, Entry, Sections, Table, ARRAY, BASE, ENUM, RECORD};
use super::{be16, packing, unpacking};

/// For each type its plan, where it has one.
#[derive(Default)]
pub struct Plans(Vec<Option<Plan>>);

const MOST_LEAVES: usize = 512;

#[derive(Clone, Default)]
struct Plan {
    runs: Vec<Run>,
    leaves: usize,
    bytes: usize,
}

/// Leaves of one base code and, of an enum, its values.
#[derive(Clone, PartialEq)]
struct Run {
    code: u16,
    count: usize,
    values: Vec<u64>,
}

impl Plans {
    /// The plans of a table's types: 30.
    pub fn lay(bytes: &[u8], sections: &Sections) -> Result<Plans, u32> {
        let table = Table::within(bytes, sections)?;
        let mut plans = Plans::default();
        for i in 0..table.types() {
            let plan = entry_of(&table, i).and_then(|e| plans.of(&table, i, &e));
            plans.0.push(plan.ok().filter(|plan| plan.leaves > 0));
        }
        Ok(plans)
    }

    /// Types inside have smaller numbers, so that their plans are there.
    fn of(&self, table: &Table, i: usize, e: &Entry) -> Result<Plan, u32> {
        let mut plan = Plan::default();
        match e.kind {
            BASE => plan.add(&Run::of(e.of, Vec::new())),
            ENUM => plan.add(&Run::of(e.of, table.values(e).collect())),
            RECORD => {
                for member in table.members(e).chunks_exact(2) {
                    self.add(&mut plan, smaller(be16(member, 0), i)?)?;
                }
            }
            ARRAY => return Err(0),
            _ => {
                for _ in 0..e.count {
                    self.add(&mut plan, smaller(e.of, i)?)?;
                }
            }
        }
        Ok(plan)
    }

    fn add(&self, plan: &mut Plan, part: usize) -> Result<(), u32> {
        let part = self.0[part].as_ref().ok_or(0u32)?;
        part.runs.iter().for_each(|run| plan.add(run));
        if plan.leaves > MOST_LEAVES {
            return Err(0);
        }
        Ok(())
    }

    fn plan(&self, number: u16) -> Option<&Plan> {
        self.0.get(usize::from(number))?.as_ref()
    }

    pub fn has(&self, number: u16) -> bool {
        self.plan(number).is_some()
    }

    #[inline(never)]
    pub fn unpack(
        &self,
        bytes: &[u8],
        sections: &Sections,
        number: u16,
        payload: &[u8],
        words: &mut [u64],
    ) -> Result<usize, Refused> {
        match self.plan(number) {
            Some(plan) if plan.leaves <= words.len() && plan.reads(payload) => {
                plan.read(payload, words);
                Ok(plan.leaves)
            }
            _ => unpacking::unpack_in(bytes, sections, number, payload, words),
        }
    }

    #[inline(never)]
    pub fn pack(
        &self,
        bytes: &[u8],
        sections: &Sections,
        number: u16,
        words: &[u64],
        out: &mut [u8],
    ) -> Result<usize, Refused> {
        match self.plan(number) {
            Some(plan) if plan.bytes <= out.len() && plan.takes(words) => {
                plan.write(words, out);
                Ok(plan.bytes)
            }
            _ => packing::pack_in(bytes, sections, number, words, out),
        }
    }
}

impl Plan {
    fn add(&mut self, run: &Run) {
        self.leaves += run.count;
        self.bytes += run.count * width(run.code);
        match self.runs.last_mut() {
            Some(last) if last.code == run.code && last.values == run.values => {
                last.count += run.count
            }
            _ => self.runs.push(run.clone()),
        }
    }

    fn reads(&self, payload: &[u8]) -> bool {
        let mut rest = payload;
        payload.len() == self.bytes
            && self.runs.iter().all(|run| {
                let (leaves, behind) = rest.split_at(run.count * width(run.code));
                rest = behind;
                run.reads(leaves)
            })
    }

    fn read(&self, mut payload: &[u8], mut words: &mut [u64]) {
        for run in &self.runs {
            let (leaves, rest) = payload.split_at(run.count * width(run.code));
            let (out, room) = words.split_at_mut(run.count);
            unpacking::store(run.code, leaves, out);
            (payload, words) = (rest, room);
        }
    }

    fn takes(&self, words: &[u64]) -> bool {
        let mut rest = words;
        words.len() == self.leaves
            && self.runs.iter().all(|run| {
                let (leaves, behind) = rest.split_at(run.count);
                rest = behind;
                run.takes(leaves)
            })
    }

    fn write(&self, mut words: &[u64], mut out: &mut [u8]) {
        for run in &self.runs {
            let (leaves, rest) = words.split_at(run.count);
            let (bytes, room) = out.split_at_mut(run.count * width(run.code));
            packing::store(run.code, leaves, bytes);
            (words, out) = (rest, room);
        }
    }
}

impl Run {
    fn of(code: u16, values: Vec<u64>) -> Run {
        Run {
            code,
            count: 1,
            values,
        }
    }

    #[inline(always)]
    fn reads(&self, leaves: &[u8]) -> bool {
        if self.values.is_empty() {
            return unpacking::are_good(self.code, leaves);
        }
        leaves
            .chunks_exact(width(self.code))
            .all(|leaf| self.values.contains(&unpacking::word(self.code, leaf)))
    }

    #[inline(always)]
    fn takes(&self, words: &[u64]) -> bool {
        packing::are_good(self.code, words)
            && (self.values.is_empty() || words.iter().all(|word| self.values.contains(word)))
    }
}
