//! The same among partners of Issue 3.

use super::{halves, our_heard, our_message, word};
use bench::plain::mixed::{Answer3, AnyAnswer, Heard3};
use bench::plain::partners::{AnyMessage, Kind as Kind3, Message3};
use bench::plain::replies::Stamp;
use bench::plain::services::Service;
use nyrkovash as ours;

pub fn our_any_message(message: &AnyMessage) -> ours::AnyMessage {
    match message {
        AnyMessage::Six(six) => our_six(&our_message(six)),
        AnyMessage::Three(three) => our_three(three),
    }
}

fn our_six(six: &ours::Message) -> ours::AnyMessage {
    ours::AnyMessage {
        kind: six.kind,
        value: six.value,
        sender: six.sender,
        sequence: six.sequence,
        payload_start: six.payload_start,
        payload_length: six.payload_length,
        issue: 6,
        ..ours::AnyMessage::default()
    }
}

fn our_three(three: &Message3) -> ours::AnyMessage {
    let (kind, value, composite) = match three.kind {
        Kind3::Status { up, composite } => (1, u32::from(up), composite),
        Kind3::Request => (2, 0, 0),
        Kind3::Unknown(id) => (3, id, 0),
        Kind3::Pull(id) => (4, id, 0),
        Kind3::Operation(id) => (5, id, 0),
        Kind3::Services(count) => (6, count, 0),
        Kind3::ServicesRequest(id) => (7, id, 0),
        Kind3::NotAvailable(id) => (8, id, 0),
        Kind3::CompositeChange(id) => (9, id, 0),
        Kind3::CompositeAck { agree } => (10, u32::from(agree), 0),
    };
    ours::AnyMessage {
        kind,
        value: u64::from(value),
        sender: u64::from(three.sender),
        sequence: u64::from(three.sequence),
        payload_start: 24,
        payload_length: three.payload.len() as u64,
        issue: 3,
        seconds: u64::from(three.seconds),
        nanoseconds: u64::from(three.nanoseconds),
        composite: u64::from(composite),
    }
}

pub fn our_any_heard(answer: &AnyAnswer) -> ours::AnyHeard {
    match answer {
        AnyAnswer::Six(six) => our_heard_6(&our_heard(six)),
        AnyAnswer::Three(three) => our_heard_3(three),
    }
}

fn our_heard_6(six: &ours::Heard) -> ours::AnyHeard {
    ours::AnyHeard {
        kind: six.kind,
        value: six.value,
        sender: six.sender,
        sequence: six.sequence,
        number: six.number,
        payload_start: six.payload_start,
        payload_length: six.payload_length,
        replies: six.replies,
        issue: 6,
        ..ours::AnyHeard::default()
    }
}

fn our_heard_3(three: &Answer3) -> ours::AnyHeard {
    let mut composite_of = 0;
    let (kind, value, number, payload): (u64, u32, usize, Option<&[u8]>) = match three.heard {
        Heard3::Status { up, composite } => {
            composite_of = composite;
            (1, u32::from(up), 0, None)
        }
        Heard3::Request => (2, 0, 0, None),
        Heard3::Unknown(id) => (3, id, 0, None),
        Heard3::PullOfAll => (4, 0, 0, None),
        Heard3::PullOfOne(id, entry) => (5, id, entry, None),
        Heard3::NotVersionedData(id) => (6, id, 0, None),
        Heard3::Operation { id, entry, payload } => (7, id, entry, Some(payload)),
        Heard3::NotInTable(id) => (8, id, 0, None),
        Heard3::Response { id, entry, payload } => (9, id, entry, Some(payload)),
        Heard3::Services { count, payload } => (10, count, 0, Some(payload)),
        Heard3::ServicesRequest(id) => (11, id, 0, None),
        Heard3::NotAvailable(id) => (12, id, 0, None),
        Heard3::CompositeChange(id) => (13, id, 0, None),
        Heard3::CompositeAck { agree } => (14, u32::from(agree), 0, None),
    };
    ours::AnyHeard {
        kind,
        value: u64::from(value),
        sender: u64::from(three.sender),
        sequence: u64::from(three.sequence),
        number: number as u64,
        payload_start: payload.map_or(0, |_| 24),
        payload_length: payload.map_or(0, |payload| payload.len() as u64),
        replies: three.written as u64,
        issue: 3,
        seconds: u64::from(three.seconds),
        nanoseconds: u64::from(three.nanoseconds),
        composite: u64::from(composite_of),
    }
}

pub fn our_stamp(stamp: &Stamp) -> ours::Stamp {
    ours::Stamp {
        seconds: stamp.seconds,
        nanoseconds: stamp.nanoseconds,
        composite: stamp.composite,
    }
}

pub fn our_services(services: &[Service]) -> Vec<u64> {
    let each = services.iter();
    each.map(|service| word(service.state, service.id))
        .collect()
}

pub fn plain_services(words: &[u64]) -> Vec<Service> {
    let each = words.iter().map(|word| halves(*word));
    each.map(|(state, id)| Service { id, state }).collect()
}
