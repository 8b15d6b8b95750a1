//! Tables checked, and operations looked up.

use crate::measure::{opaque, Case};
use crate::pair::{our_operation, our_sections};
use bench::plain::operations::Operation;
use bench::plain::types::{self, Sections};
use nyrkovash as ours;
use std::rc::Rc;

type Check = fn(&[u8], &mut Sections) -> Result<(), u32>;
pub type Find = fn(&[u8], &Sections, u32) -> Result<Option<Operation>, u32>;

pub fn checked(table: &[u8]) -> (ours::Sections, Sections) {
    let (mut given, mut sections) = (ours::Sections::default(), Sections::default());
    assert_eq!(ours::check_table(table, &mut given), 0);
    types::check(table, &mut sections).unwrap();
    assert!(given == our_sections(&sections));
    (given, sections)
}

pub fn checking(table: Vec<u8>) -> Case {
    let (mut given, mut sections) = checked(&table);
    let table = Rc::new(table);
    let plain_table = Rc::clone(&table);
    Case {
        ours: Box::new(move |count| {
            for _ in 0..count {
                assert_eq!(ours::check_table(&table, &mut given), 0);
            }
        }),
        plain: Box::new(move |count| {
            let check = opaque(types::check as Check);
            for _ in 0..count {
                assert!(check(&plain_table, &mut sections).is_ok());
            }
        }),
        bare: None,
    }
}

/// These IDs by turns, all of them in the table.
pub fn finding(table: &[u8], ids: Vec<u32>, plain: Find) -> Case {
    let (known, sections) = checked(table);
    let mut answer = ours::Operation::default();
    for id in &ids {
        assert_eq!(ours::find(table, &known, *id, &mut answer), 0);
        let found = plain(table, &sections, *id).unwrap();
        assert!(found.is_some());
        assert_eq!(answer, our_operation(found));
    }
    let (table, ids) = (Rc::new(table.to_vec()), Rc::new(ids));
    let (plain_table, plain_ids) = (Rc::clone(&table), Rc::clone(&ids));
    let (mut at, mut plain_at) = (0, 0);
    Case {
        ours: Box::new(move |count| {
            for _ in 0..count {
                at = if at + 1 < ids.len() { at + 1 } else { 0 };
                assert_eq!(ours::find(&table, &known, ids[at], &mut answer), 0);
            }
        }),
        plain: Box::new(move |count| {
            let find = opaque(plain);
            for _ in 0..count {
                plain_at = if plain_at + 1 < plain_ids.len() {
                    plain_at + 1
                } else {
                    0
                };
                let found = find(&plain_table, &sections, plain_ids[plain_at]);
                assert!(found.map_or(false, |found| found.is_some()));
            }
        }),
        bare: None,
    }
}
