//! Tables checked, and payloads packed and unpacked by their sections and by plans.

use super::spoil;
use crate::pair::{our_given, our_sections, plain_sections};
use crate::shapes;
use crate::tables::{
    array_of, large_table, operations, operations_of_both, record_of_all, record_of_uint16,
    words_of_all, Random, CHAR8, FLOAT32,
};
use bench::plain::plans::Plans;
use bench::plain::{payload, types};
use nyrkovash as ours;

pub fn compare(count: usize, random: &mut Random) {
    let mut good = vec![
        (record_of_uint16(), 1, vec![500; 64]),
        (record_of_all(), 14, words_of_all()),
        (
            array_of(FLOAT32),
            1,
            vec![4, 0, 1, 0x8000_0000, 0x7F7F_FFFF],
        ),
        (array_of(CHAR8), 1, [vec![40], vec![0x41; 40]].concat()),
        (large_table(16, &operations(3)), 3, vec![1, 1, 1, 1, 1]),
        (large_table(16, &operations_of_both(9)), 6, vec![0, 5, 0, 5]),
        (large_table(4, &operations_of_both(40)), 0, vec![1]),
    ];
    for (_, shape) in shapes::all() {
        good.push((shape.table(), shape.number(), shape.words));
    }
    for i in 0..count {
        let (whole, number, right) = &good[i % good.len()];
        let mut table = whole.clone();
        if random.below(2) == 0 {
            spoil(&mut table, random);
        }
        let mut known = ours::Sections::default();
        known.words.fill_with(|| random.next());
        let mut sections = plain_sections(&known);
        let refused = ours::check_table(&table, &mut known);
        assert_eq!(
            refused,
            types::check(&table, &mut sections).err().unwrap_or(0)
        );
        assert!(known == our_sections(&sections));
        // By sections also a spoilt table is walked, and both refuse the same entries.
        types::check(whole, &mut sections).unwrap();
        let known = our_sections(&sections);
        let mut input = right.clone();
        match random.below(7) {
            0 => input.truncate(random.below(input.len())),
            1 => input.push(1),
            2 | 3 => {
                let at = random.below(input.len());
                input[at] = random.next() >> random.below(64);
            }
            4 => {
                // Of a char8 the smallest step that is too far.
                let at = random.below(input.len());
                input[at] ^= 0x80;
            }
            _ => {}
        }
        let both = Both::of(&table, &known, &sections, *number);
        both.pack(&input, room(8 * right.len(), random));
        let mut payload_bytes = vec![0; 8 * right.len()];
        if let Ok(length) = payload::pack_in(whole, &sections, *number, right, &mut payload_bytes) {
            payload_bytes.truncate(length);
            if random.below(3) > 0 {
                spoil(&mut payload_bytes, random);
            }
            both.unpack(&payload_bytes, room(right.len(), random));
        }
    }
}

/// Enough, or too little.
fn room(enough: usize, random: &mut Random) -> usize {
    if random.below(3) == 0 {
        random.below(enough + 1)
    } else {
        enough
    }
}

/// A table, whose sections may be another's, and what each program laid out for it.
struct Both<'a> {
    table: &'a [u8],
    known: &'a ours::Sections,
    sections: &'a types::Sections,
    number: u16,
    plans: Vec<u64>,
    plain_plans: Plans,
}

impl Both<'_> {
    fn of<'a>(
        table: &'a [u8],
        known: &'a ours::Sections,
        sections: &'a types::Sections,
        number: u16,
    ) -> Both<'a> {
        let (plain_plans, mut length) = (Plans::lay(table, sections), 0);
        let refused = *plain_plans.as_ref().err().unwrap_or(&0);
        assert_eq!(ours::plans_length(table, known, &mut length), refused);
        let mut plans = vec![0; length];
        assert_eq!(ours::plans(table, known, &mut plans), refused);
        Both {
            table,
            known,
            sections,
            number,
            plans,
            plain_plans: plain_plans.unwrap_or_default(),
        }
    }

    /// By the walk and by plans, both programs.
    fn pack(&self, words: &[u64], room: usize) {
        let (table, known, sections, number) = (self.table, self.known, self.sections, self.number);
        let plain = &self.plain_plans;
        let mut out = vec![vec![0; room]; 4];
        let given = [
            ours::pack_in(table, known, number, words, &mut out[0]),
            ours::pack_by(table, known, &self.plans, number, words, &mut out[1]),
            our_given(payload::pack_in(
                table,
                sections,
                number,
                words,
                &mut out[2],
            )),
            our_given(plain.pack(table, sections, number, words, &mut out[3])),
        ];
        assert!(given.iter().all(|one| *one == given[0]), "{given:?}");
        assert!(out.iter().all(|one| *one == out[0]));
    }

    fn unpack(&self, bytes: &[u8], room: usize) {
        let (table, known, sections, number) = (self.table, self.known, self.sections, self.number);
        let plain = &self.plain_plans;
        let mut out = vec![vec![0; room]; 4];
        let given = [
            ours::unpack_in(table, known, number, bytes, &mut out[0]),
            ours::unpack_by(table, known, &self.plans, number, bytes, &mut out[1]),
            our_given(payload::unpack_in(
                table,
                sections,
                number,
                bytes,
                &mut out[2],
            )),
            our_given(plain.unpack(table, sections, number, bytes, &mut out[3])),
        ];
        assert!(given.iter().all(|one| *one == given[0]), "{given:?}");
        assert!(out.iter().all(|one| *one == out[0]));
    }
}
