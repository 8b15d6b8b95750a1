//! Payloads unpacked and packed.

use super::lookups::checked;
use crate::measure::{opaque, shared, Calls, Case};
use crate::shapes::Shape;
use bench::plain::payload;
use bench::plain::plans::Plans;
use bench::plain::types::Sections;
use nyrkovash as ours;
use std::rc::Rc;

type Unpack = fn(&[u8], &Sections, u16, &[u8], &mut [u64]) -> Result<usize, payload::Refused>;
type Pack = fn(&[u8], &Sections, u16, &[u64], &mut [u8]) -> Result<usize, payload::Refused>;

fn packed(table: &[u8], number: u16, words: &[u64]) -> (ours::Sections, Sections, Vec<u8>) {
    let (known, sections) = checked(table);
    let (mut bytes, mut plain_bytes) = (vec![0; 8 * words.len()], vec![0; 8 * words.len()]);
    let length = ours::pack_in(table, &known, number, words, &mut bytes).unwrap();
    assert_eq!(
        payload::pack_in(table, &sections, number, words, &mut plain_bytes),
        Ok(length)
    );
    assert_eq!(bytes, plain_bytes);
    bytes.truncate(length);
    (known, sections, bytes)
}

pub fn unpacking((table, number, words): (Vec<u8>, u16, Vec<u64>)) -> Case {
    let (known, sections, bytes) = packed(&table, number, &words);
    let (mut out, mut plain_out) = (vec![0; words.len()], vec![0; words.len()]);
    assert_eq!(
        ours::unpack_in(&table, &known, number, &bytes, &mut out),
        Ok(words.len())
    );
    assert_eq!(
        payload::unpack_in(&table, &sections, number, &bytes, &mut plain_out),
        Ok(words.len())
    );
    assert_eq!((&out, &plain_out), (&words, &words));
    let (table, bytes, out) = (Rc::new(table), Rc::new(bytes), shared(out));
    let (plain_table, plain_bytes) = (Rc::clone(&table), Rc::clone(&bytes));
    let plain_out = Rc::clone(&out);
    Case {
        ours: Box::new(move |count| {
            let mut out = out.borrow_mut();
            for _ in 0..count {
                assert!(ours::unpack_in(&table, &known, number, &bytes, &mut out).is_ok());
            }
        }),
        plain: Box::new(move |count| {
            let unpack = opaque(payload::unpack_in as Unpack);
            let mut out = plain_out.borrow_mut();
            for _ in 0..count {
                assert!(unpack(&plain_table, &sections, number, &plain_bytes, &mut out).is_ok());
            }
        }),
        bare: None,
    }
}

pub fn packing((table, number, words): (Vec<u8>, u16, Vec<u64>)) -> Case {
    let (known, sections, out) = packed(&table, number, &words);
    let (table, words, out) = (Rc::new(table), Rc::new(words), shared(out));
    let (plain_table, plain_words) = (Rc::clone(&table), Rc::clone(&words));
    let plain_out = Rc::clone(&out);
    Case {
        ours: Box::new(move |count| {
            let mut out = out.borrow_mut();
            for _ in 0..count {
                assert!(ours::pack_in(&table, &known, number, &words, &mut out).is_ok());
            }
        }),
        plain: Box::new(move |count| {
            let pack = opaque(payload::pack_in as Pack);
            let mut out = plain_out.borrow_mut();
            for _ in 0..count {
                assert!(pack(&plain_table, &sections, number, &plain_words, &mut out).is_ok());
            }
        }),
        bare: None,
    }
}

type UnpackBy =
    fn(&Plans, &[u8], &Sections, u16, &[u8], &mut [u64]) -> Result<usize, payload::Refused>;
type PackBy =
    fn(&Plans, &[u8], &Sections, u16, &[u64], &mut [u8]) -> Result<usize, payload::Refused>;

/// Both programs' plans of a checked table.
fn planned(table: &[u8], known: &ours::Sections, sections: &Sections) -> (Vec<u64>, Plans) {
    let mut length = 0;
    assert_eq!(ours::plans_length(table, known, &mut length), 0);
    let mut plans = vec![0; length];
    assert_eq!(ours::plans(table, known, &mut plans), 0);
    (plans, Plans::lay(table, sections).unwrap())
}

/// What the four programs of a shape go by.
struct Laid {
    table: Vec<u8>,
    known: ours::Sections,
    sections: Sections,
    plans: Vec<u64>,
    flat: Plans,
    number: u16,
    words: Vec<u64>,
    bytes: Vec<u8>,
}

fn laid(shape: &Shape) -> Rc<Laid> {
    let (table, number, words) = (shape.table(), shape.number(), shape.words.clone());
    let (known, sections, bytes) = packed(&table, number, &words);
    let (plans, flat) = planned(&table, &known, &sections);
    Rc::new(Laid {
        table,
        known,
        sections,
        plans,
        flat,
        number,
        words,
        bytes,
    })
}

/// A side is the call that it makes, over and over.
macro_rules! side {
    ($laid:ident, $out:ident, $call:ident = $function:expr, $made:expr) => {{
        let ($laid, $out) = (Rc::clone(&$laid), Rc::clone(&$out));
        Box::new(move |count: usize| {
            let $call = opaque($function);
            let mut $out = $out.borrow_mut();
            for _ in 0..count {
                assert!($made.is_ok());
            }
        }) as Calls
    }};
}

pub fn unpackings(shape: &Shape) -> Vec<Calls> {
    let s = laid(shape);
    let out = shared(vec![0; s.words.len()]);
    let mut sides = vec![
        side!(
            s,
            out,
            _call = (),
            ours::unpack_in(&s.table, &s.known, s.number, &s.bytes, &mut out)
        ),
        side!(
            s,
            out,
            _call = (),
            ours::unpack_by(&s.table, &s.known, &s.plans, s.number, &s.bytes, &mut out)
        ),
        side!(
            s,
            out,
            call = payload::unpack_in as Unpack,
            call(&s.table, &s.sections, s.number, &s.bytes, &mut out)
        ),
    ];
    if s.flat.has(s.number) {
        sides.push(side!(
            s,
            out,
            call = Plans::unpack as UnpackBy,
            call(&s.flat, &s.table, &s.sections, s.number, &s.bytes, &mut out)
        ));
    }
    sides
}

pub fn packings(shape: &Shape) -> Vec<Calls> {
    let s = laid(shape);
    let out = shared(vec![0; s.bytes.len()]);
    let mut sides = vec![
        side!(
            s,
            out,
            _call = (),
            ours::pack_in(&s.table, &s.known, s.number, &s.words, &mut out)
        ),
        side!(
            s,
            out,
            _call = (),
            ours::pack_by(&s.table, &s.known, &s.plans, s.number, &s.words, &mut out)
        ),
        side!(
            s,
            out,
            call = payload::pack_in as Pack,
            call(&s.table, &s.sections, s.number, &s.words, &mut out)
        ),
    ];
    if s.flat.has(s.number) {
        sides.push(side!(
            s,
            out,
            call = Plans::pack as PackBy,
            call(&s.flat, &s.table, &s.sections, s.number, &s.words, &mut out)
        ));
    }
    sides
}
