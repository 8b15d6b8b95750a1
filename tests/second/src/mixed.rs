//! Partners of both issues: who speaks which, and a message read by its sender's issue: 02,
//! request 8, with B1 to B5, B9, B15 and B16 of its reading.

use crate::replay::number;
use crate::services::MOST;
use crate::{message, message3};
use std::collections::BTreeSet;

/// The platforms that speak Issue 3; all others speak Issue 6.
#[derive(Clone, Debug, Default, PartialEq, Eq)]
pub struct SetUp {
    threes: BTreeSet<u8>,
}

impl SetUp {
    /// Twice is once, and any list is one.
    pub fn of(threes: &[u8]) -> SetUp {
        SetUp {
            threes: threes.iter().copied().collect(),
        }
    }

    /// B15: a sender above 255 is in no set-up.
    pub fn is_three(&self, platform: u32) -> bool {
        u8::try_from(platform).is_ok_and(|one| self.threes.contains(&one))
    }

    pub fn count(&self) -> usize {
        self.threes.len()
    }

    /// Where the services of a three end among the lent words: blocks in the order of their numbers.
    pub fn block_end(&self, platform: u8) -> usize {
        MOST * self.threes.range(..=platform).count()
    }
}

/// A message by its sender's issue.
#[derive(Clone, Debug, PartialEq, Eq)]
pub enum Message {
    Six(message::Message),
    Three(message3::Message),
}

/// B1: whether a message has Issue 3's form. A byte that is not there is 0.
pub fn three_form(set_up: &SetUp, bytes: &[u8]) -> bool {
    let at = |place: usize| bytes.get(place).copied().unwrap_or(0);
    at(2) != 2 && set_up.is_three(u32::from(at(3)))
}

/// A message read at platform `own`.
pub fn read(own: u8, set_up: &SetUp, bytes: &[u8]) -> Result<Message, u8> {
    if three_form(set_up, bytes) {
        return message3::read(own, bytes).map(Message::Three);
    }
    // Issue 6's form. What stands where its sender does is a three's number: 3, behind 1 and 2.
    let other_issue = |six: &[u8]| set_up.is_three(number(&six[4..8]) as u32);
    match message::read(own, bytes) {
        Err(refusal) if refusal <= 3 => Err(refusal),
        _ if other_issue(bytes) => Err(3),
        read => read.map(Message::Six),
    }
}
