//! Operations looked up by any sections and any index.

use super::spoil;
use crate::pair::{our_operation, our_sections, plain_sections, BOUNDS};
use crate::tables::{id_of, large_table, operations, operations_of_both, Random};
use bench::plain::operations::Operation;
use bench::plain::types::{self, Sections, Table};
use nyrkovash as ours;

pub fn compare(count: usize, random: &mut Random) {
    let tables = [0, 1, 2, 5, 16, 63, 300, 1_024].map(|count| {
        let entries = if count == 16 {
            operations(count)
        } else {
            operations_of_both(count)
        };
        Checked::new(large_table(4, &entries))
    });
    for i in 0..count {
        let whole = &tables[i % tables.len()];
        let (mut table, mut known) = (whole.table.clone(), whole.known);
        if random.below(2) == 0 {
            spoil(&mut table, random);
        }
        if random.below(4) > 0 {
            forge(&mut known, random);
        }
        let id = any_id(&known, random);
        let before = ours::Operation {
            kind: random.next(),
            ..Default::default()
        };
        let mut answer = before;
        let number = ours::find(&table, &known, id, &mut answer);
        let sections = plain_sections(&known);
        match types::find(&table, &sections, id) {
            Err(refused) => assert_eq!((number, answer), (refused, before)),
            Ok(_) => {
                let found = halved(&table, &sections, id).map(|(_, operation)| operation);
                assert_eq!((number, answer), (0, our_operation(found)));
                assert!(!rises(&sections) || found_alike(&table, &sections, id));
            }
        }
    }
}

/// A table and what its check gave.
pub struct Checked {
    pub table: Vec<u8>,
    pub known: ours::Sections,
}

impl Checked {
    pub fn new(table: Vec<u8>) -> Checked {
        let mut sections = Sections::default();
        types::check(&table, &mut sections).unwrap();
        Checked {
            table,
            known: our_sections(&sections),
        }
    }
}

/// Changes a word or two of the sections or of the index.
pub fn forge(known: &mut ours::Sections, random: &mut Random) {
    let count = known.words[7] as usize;
    let place = |random: &mut Random| BOUNDS + random.below(count.max(1));
    let (one, other) = (place(random), place(random));
    match random.below(8) {
        0 => known.words[random.below(BOUNDS)] = random.below(1_000) as u64,
        1 => known.words[random.below(BOUNDS)] = random.next() >> random.below(64),
        2 => known.words[7] = [count + 1, count.saturating_sub(1)][random.below(2)] as u64,
        3 => known.words[one] = random.next() >> random.below(64),
        4 => known.words[one] = known.words[one] >> 32 << 32 | random.below(800) as u64,
        5 => known.words[one] = known.words[one].wrapping_add((random.below(7) as u64) << 32),
        6 => known.words[one] = known.words[other],
        _ => known.words.swap(one, other),
    }
}

/// Mostly one that the index has, or one beside it.
fn any_id(known: &ours::Sections, random: &mut Random) -> u32 {
    let count = known.words[7].clamp(1, 1_024) as usize;
    let indexed = known.words[BOUNDS + random.below(count)] >> 32;
    match random.below(8) {
        0 => random.next() as u32,
        1 => [0, u32::MAX][random.below(2)],
        2 => id_of(random.below(count + 1) as u32),
        3 => (indexed as u32)
            .wrapping_add(random.below(3) as u32)
            .wrapping_sub(1),
        _ => indexed as u32,
    }
}

/// Whether the IDs of the index rise: then there is no more than one way to find one.
fn rises(s: &Sections) -> bool {
    let index = &s.index[..s.bounds.operations.count];
    index.windows(2).all(|two| two[0].id < two[1].id)
}

/// What halving finds in any index (request 4), and its number: the lower end goes to the middle unless the ID there is above the
/// one sought, so many are left as the count alone says, and the last one bears the ID or not.
fn halved(table: &[u8], s: &Sections, id: u32) -> Option<(usize, Operation)> {
    let (mut base, mut size) = (0, s.bounds.operations.count);
    while size > 1 {
        let middle = base + size / 2;
        if s.index[middle].id <= id {
            base = middle;
        }
        size -= size / 2;
    }
    let last = s.index[..size + base].get(base)?;
    if last.id != id {
        return None;
    }
    let found = Operation::first(table.get(last.at as usize..)?)?;
    (found.id == id).then(|| (base, found))
}

/// Whether the plain program finds what halving finds. It may not where the IDs of an index do not rise.
pub fn found_alike(table: &[u8], s: &Sections, id: u32) -> bool {
    Table::within(table, s).map_or(true, |within| {
        within.operations.find(id) == halved(table, s, id)
    })
}
