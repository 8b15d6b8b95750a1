//! Requests sent and answered beside 63 that are pending. What a call did to the list is undone before the next one, by the same
//! writes on both sides: those of one place.

use super::lookups::checked;
use super::messages::Receive;
use super::mixed::{STAMP, THREES};
use crate::measure::{opaque, Case};
use crate::pair::{our_heard, our_platform, our_sent, our_stamp, word, OWN};
use crate::tables::{id_of, message};
use bench::plain::partners::Partners;
use bench::plain::pending::{Request, Sent, PLACES};
use bench::plain::platform::Platform;
use bench::plain::replies::Stamp;
use bench::plain::types::Sections;
use nyrkovash as ours;
use std::rc::Rc;

type Send = fn(&mut Platform, &[u8], &Sections, u32, u32, &[u8], &mut [u8]) -> Result<Sent, u32>;
type SendMixed = fn(
    &mut Platform,
    &Stamp,
    &Partners,
    &[u8],
    &Sections,
    u32,
    u32,
    &[u8],
    &mut [u8],
) -> Result<Sent, u32>;

/// An operation whose requests we send, late in the table.
const ENTRY: u32 = 998;
const TARGET: u32 = 2;
const FREE: usize = PLACES - 1;

/// Every place but the last is taken, by requests that were sent one after another.
fn with_63_pending(table: &[u8]) -> (ours::Platform, Platform) {
    let (known, sections) = checked(table);
    let (mut state, mut platform) = (ours::Platform::default(), Platform::new(OWN));
    assert_eq!(ours::start(OWN, &mut state), 0);
    let (mut out, mut plain_out) = ([0; 20], [0; 20]);
    let mut answer = ours::Sent::default();
    for _ in 0..FREE {
        assert_eq!(
            ours::send(
                OWN,
                &mut state,
                table,
                &known,
                id_of(ENTRY),
                TARGET,
                &[],
                &mut out,
                &mut answer
            ),
            0
        );
        let sent = platform.send(table, &sections, id_of(ENTRY), TARGET, &[], &mut plain_out);
        assert_eq!(answer, our_sent(&sent.unwrap()));
        assert_eq!(out, plain_out);
    }
    assert_eq!(state, our_platform(&platform));
    (state, platform)
}

/// The last place is free, and is freed again after each call.
pub fn sending(table: &[u8]) -> Case {
    let (known, sections) = checked(table);
    let (mut state, mut platform) = with_63_pending(table);
    let (payload, mut out, mut plain_out) = ([3; 32], [0; 52], [0; 52]);
    let mut answer = ours::Sent::default();
    let table = Rc::new(table.to_vec());
    let plain_table = Rc::clone(&table);
    let id = opaque(id_of(ENTRY));
    Case {
        ours: Box::new(move |count| {
            for _ in 0..count {
                assert_eq!(
                    ours::send(
                        OWN,
                        &mut state,
                        &table,
                        &known,
                        id,
                        TARGET,
                        &payload,
                        &mut out,
                        &mut answer
                    ),
                    0
                );
                state.pending[FREE] = 0;
                state.pending[PLACES + FREE] = 0;
            }
        }),
        plain: Box::new(move |count| {
            let send = opaque(Platform::send as Send);
            for _ in 0..count {
                let sent = send(
                    &mut platform,
                    &plain_table,
                    &sections,
                    id,
                    TARGET,
                    &payload,
                    &mut plain_out,
                );
                assert!(sent.is_ok());
                platform.pending.0[FREE] = Request::default();
            }
        }),
        bare: None,
    }
}

/// The same in the target's issue.
pub fn sending_mixed(table: &[u8], target: u32) -> Case {
    let (known, sections) = checked(table);
    let (mut state, mut platform) = with_63_pending(table);
    let (payload, mut out, mut plain_out) = ([3; 32], [0; 56], [0; 56]);
    let (stamp, set_up) = (our_stamp(&STAMP), ours::Partners { words: THREES });
    let plain_set_up = Partners { words: THREES };
    let mut answer = ours::Sent::default();
    let (table, plain_table) = (table.to_vec(), table.to_vec());
    let id = opaque(id_of(ENTRY));
    let mut ours_once = move || {
        let number = ours::send_mixed(
            OWN,
            &stamp,
            &set_up,
            &mut state,
            &table,
            &known,
            id,
            target,
            &payload,
            &mut out,
            &mut answer,
        );
        assert_eq!(number, 0);
        state.pending[FREE] = 0;
        state.pending[PLACES + FREE] = 0;
        (answer, out)
    };
    let mut plain_once = move |send: SendMixed| {
        let sent = send(
            &mut platform,
            &STAMP,
            &plain_set_up,
            &plain_table,
            &sections,
            id,
            target,
            &payload,
            &mut plain_out,
        );
        platform.pending.0[FREE] = Request::default();
        (sent.unwrap(), plain_out)
    };
    let (sent, bytes) = plain_once(Platform::send_mixed);
    assert_eq!(ours_once(), (our_sent(&sent), bytes));
    Case {
        ours: Box::new(move |count| {
            for _ in 0..count {
                ours_once();
            }
        }),
        plain: Box::new(move |count| {
            let send = opaque(Platform::send_mixed as SendMixed);
            for _ in 0..count {
                plain_once(send);
            }
        }),
        bare: None,
    }
}

/// The response to the request in the last place that is taken, which is entered again after each call.
pub fn responding(table: &[u8]) -> Case {
    let (known, sections) = checked(table);
    let (mut state, mut platform) = with_63_pending(table);
    let place = FREE - 1;
    let request = platform.pending.0[place];
    let first = word(request.number, request.id);
    let response = message(1, TARGET, request.id, request.number, &[3; 32]);
    let mut answer = ours::Heard::default();
    assert_eq!(
        ours::receive_in(
            OWN,
            &mut state,
            table,
            &known,
            &response,
            &mut [],
            &mut answer
        ),
        0
    );
    let heard = platform.receive_in(table, &sections, &response, &mut []);
    assert_eq!(answer, our_heard(&heard.unwrap()));
    assert_eq!(state, our_platform(&platform));
    assert_eq!(state.pending[place], 0);
    state.pending[place] = first;
    state.pending[PLACES + place] = request.target;
    platform.pending.0[place] = request;
    let (table, response) = (Rc::new(table.to_vec()), Rc::new(response));
    let (plain_table, plain_response) = (Rc::clone(&table), Rc::clone(&response));
    Case {
        ours: Box::new(move |count| {
            for _ in 0..count {
                assert_eq!(
                    ours::receive_in(
                        OWN,
                        &mut state,
                        &table,
                        &known,
                        &response,
                        &mut [],
                        &mut answer
                    ),
                    0
                );
                state.pending[place] = first;
                state.pending[PLACES + place] = request.target;
            }
        }),
        plain: Box::new(move |count| {
            let receive = opaque(Platform::receive_in as Receive);
            for _ in 0..count {
                let heard = receive(
                    &mut platform,
                    &plain_table,
                    &sections,
                    &plain_response,
                    &mut [],
                );
                assert!(heard.is_ok());
                platform.pending.0[place] = request;
            }
        }),
        bare: None,
    }
}
