//! Messages read, and the platform call.

use super::lookups::checked;
use crate::measure::{opaque, Case};
use crate::pair::{our_any_message, our_heard, our_message, our_platform, OWN};
use bench::plain::message::{self, Message};
use bench::plain::partners::{self, AnyMessage, Partners};
use bench::plain::platform::{Answer, Platform};
use bench::plain::types::Sections;
use nyrkovash as ours;
use std::rc::Rc;

type Read = for<'m> fn(u8, &'m [u8]) -> Result<Message<'m>, u32>;
type ReadMixed = for<'m> fn(u8, &Partners, &'m [u8]) -> Result<AnyMessage<'m>, u32>;
pub type Receive =
    for<'m> fn(&mut Platform, &[u8], &Sections, &'m [u8], &mut [u8]) -> Result<Answer<'m>, u32>;

pub fn reading(bytes: &[u8]) -> Case {
    let mut answer = ours::Message::default();
    assert_eq!(ours::read(OWN, bytes, &mut answer), 0);
    assert_eq!(answer, our_message(&message::read(OWN, bytes).unwrap()));
    let bytes = Rc::new(bytes.to_vec());
    let plain_bytes = Rc::clone(&bytes);
    Case {
        ours: Box::new(move |count| {
            for _ in 0..count {
                assert_eq!(ours::read(OWN, &bytes, &mut answer), 0);
            }
        }),
        plain: Box::new(move |count| {
            let read = opaque(message::read as Read);
            for _ in 0..count {
                assert!(read(OWN, &plain_bytes).is_ok());
            }
        }),
        bare: None,
    }
}

/// Among partners of which these speak Issue 3.
pub fn reading_mixed(words: [u64; 4], bytes: &[u8]) -> Case {
    let (set_up, plain_set_up) = (ours::Partners { words }, Partners { words });
    let mut answer = ours::AnyMessage::default();
    assert_eq!(ours::read_mixed(OWN, &set_up, bytes, &mut answer), 0);
    let read = partners::read(OWN, &plain_set_up, bytes).unwrap();
    assert_eq!(answer, our_any_message(&read));
    let bytes = Rc::new(bytes.to_vec());
    let plain_bytes = Rc::clone(&bytes);
    Case {
        ours: Box::new(move |count| {
            for _ in 0..count {
                assert_eq!(ours::read_mixed(OWN, &set_up, &bytes, &mut answer), 0);
            }
        }),
        plain: Box::new(move |count| {
            let read = opaque(partners::read as ReadMixed);
            for _ in 0..count {
                assert!(read(OWN, &plain_set_up, &plain_bytes).is_ok());
            }
        }),
        bare: None,
    }
}

pub fn receiving(table: &[u8], bytes: &[u8]) -> Case {
    let bytes: &'static [u8] = bytes.to_vec().leak();
    receiving_each(table, 1, move || bytes)
}

/// These messages by turns.
pub fn receiving_any(table: &[u8], messages: Vec<Vec<u8>>) -> Case {
    let messages: &'static [Vec<u8>] = messages.leak();
    let mut at = 0;
    receiving_each(table, messages.len(), move || {
        at = if at + 1 < messages.len() { at + 1 } else { 0 };
        &messages[at]
    })
}

fn receiving_each<Next>(table: &[u8], messages: usize, mut next: Next) -> Case
where
    Next: FnMut() -> &'static [u8] + Clone + 'static,
{
    let (known, sections) = checked(table);
    let (mut state, mut answer) = (ours::Platform::default(), ours::Heard::default());
    let (mut out, mut plain_out) = ([0; 48], [0; 48]);
    assert_eq!(ours::start(OWN, &mut state), 0);
    let mut platform = Platform::new(OWN);
    for _ in 0..messages {
        let bytes = next();
        let number = ours::receive_in(OWN, &mut state, table, &known, bytes, &mut out, &mut answer);
        assert_eq!(number, 0);
        let heard = platform.receive_in(table, &sections, bytes, &mut plain_out);
        assert_eq!(answer, our_heard(&heard.unwrap()));
        assert_eq!(out, plain_out);
        assert_eq!(state, our_platform(&platform));
    }
    let mut plain_next = next.clone();
    let table = Rc::new(table.to_vec());
    let plain_table = Rc::clone(&table);
    Case {
        ours: Box::new(move |count| {
            for _ in 0..count {
                assert_eq!(
                    ours::receive_in(
                        OWN,
                        &mut state,
                        &table,
                        &known,
                        next(),
                        &mut out,
                        &mut answer
                    ),
                    0
                );
            }
        }),
        plain: Box::new(move |count| {
            let receive = opaque(Platform::receive_in as Receive);
            for _ in 0..count {
                assert!(receive(
                    &mut platform,
                    &plain_table,
                    &sections,
                    plain_next(),
                    &mut plain_out
                )
                .is_ok());
            }
        }),
        bare: None,
    }
}
