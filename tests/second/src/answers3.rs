//! The lines of the calls among partners of both issues, codes 81 to 88: 02, request 8.
//!
//! A file has one platform. 7, 23 and 83 start it again; the set-up and what is known of services
//! are begun anew by 83 alone.

use crate::answers::{heard, hex, message_read, sent_line, up_or_down};
use crate::call::Argument::{self, Bytes, Number, Words};
use crate::message3::{self, services_payload, Content, Service, Time};
use crate::mixed::{self, Message, SetUp};
use crate::partners::{Answer, Heard, Partners, Stamp, What};
use crate::payload::Refused;

/// One call: its answer without the call's number and the LF, or what it is refused with.
pub fn answer(
    partners: &mut Partners,
    code: u64,
    arguments: &[Argument],
) -> Result<String, Refused> {
    match (code, arguments) {
        (81, [Number(own), Bytes(threes), Bytes(bytes)]) => {
            let got = mixed::read(*own as u8, &SetUp::of(threes), bytes)?;
            Ok(read_line(&got))
        }
        (
            82,
            [Number(own), Number(seconds), Number(nanoseconds), Number(domain), Number(id), Number(sequence), Bytes(payload), Number(room)],
        ) => {
            let (own, id, sequence) = (*own as u8, *id as u32, *sequence as u32);
            let (time, room) = (time(*seconds, *nanoseconds), *room as usize);
            let written = message3::write(own, time, *domain, id, sequence, payload, room)?;
            Ok(format!("written {}", hex(&written)))
        }
        (83, [Number(own), Bytes(threes)]) => {
            *partners = Partners::new(*own as u8, threes);
            Ok(format!("platform {own} threes {}", partners.set_up.count()))
        }
        (
            84,
            [Number(seconds), Number(nanoseconds), Number(composite), Words(ours), Bytes(table), Bytes(message), Number(room)],
        ) => {
            let stamp = stamp(*seconds, *nanoseconds, *composite);
            let got = partners.call(stamp, ours, table, message, *room as usize)?;
            Ok(heard_line(&got))
        }
        (
            87,
            [Number(seconds), Number(nanoseconds), Number(composite), Words(ours), Number(lent), Bytes(table), Bytes(message), Number(room)],
        ) => {
            let stamp = stamp(*seconds, *nanoseconds, *composite);
            let all = std::mem::replace(&mut partners.lent, *lent as usize);
            let got = partners.call(stamp, ours, table, message, *room as usize);
            partners.lent = all;
            Ok(heard_line(&got?))
        }
        (
            88,
            [Number(seconds), Number(nanoseconds), Bytes(table), Number(id), Number(target), Bytes(payload), Number(room)],
        ) => {
            let (id, target) = (*id as u32, *target as u32);
            let time = time(*seconds, *nanoseconds);
            let sent = partners.send(time, table, id, target, payload, *room as usize)?;
            Ok(sent_line(&sent))
        }
        (85, [Number(platform), Number(id)]) => {
            let state = partners.services.state(*platform as u32, *id as u32);
            let line = match state {
                Some(true) => "available",
                Some(false) => "unavailable",
                None => "unheard",
            };
            Ok(line.to_string())
        }
        (86, [Number(platform)]) => Ok(known_line(partners.services.known(*platform as u32))),
        _ => unreachable!("a call that was taken apart has its code's arguments"),
    }
}

fn time(seconds: u64, nanoseconds: u64) -> Time {
    Time {
        seconds: seconds as u32,
        nanoseconds: nanoseconds as u32,
    }
}

fn stamp(seconds: u64, nanoseconds: u64, composite: u64) -> Stamp {
    Stamp {
        time: time(seconds, nanoseconds),
        composite: composite as u32,
    }
}

fn heard_line(got: &Heard) -> String {
    match got {
        Heard::Six(answer) => format!("six {}", heard(answer)),
        Heard::Three(answer) => format!("three {}", heard_3(answer)),
    }
}

fn read_line(got: &Message) -> String {
    let got = match got {
        Message::Six(got) => return format!("six {}", message_read(got)),
        Message::Three(got) => got,
    };
    let Time {
        seconds,
        nanoseconds,
    } = got.time;
    let (what, payload) = match &got.content {
        Content::Status { up, composite } => (status(*up, *composite), None),
        Content::Request => ("request".to_string(), None),
        Content::Services(told) => (services(told), None),
        Content::ServicesRequest(id) => (format!("services request {id}"), None),
        Content::Unknown(id) => (format!("unknown {id}"), None),
        Content::NotAvailable(id) => (format!("not available {id}"), None),
        Content::Pull(id) => (format!("pull {id}"), None),
        Content::Composite(id) => (format!("composite {id}"), None),
        Content::CompositeAck { agree } => (composite_ack(*agree), None),
        Content::Operation { id, payload } => (format!("operation {id}"), Some(payload)),
    };
    let behind = payload.map_or(String::new(), |payload| format!(" {}", hex(payload)));
    let (from, sequence) = (got.from, got.sequence);
    format!("three {seconds} {nanoseconds} {what} from {from} seq {sequence}{behind}")
}

/// What a platform made of a three's message; an operation's payload is not printed again.
fn heard_3(got: &Answer) -> String {
    let from = got.from;
    let what = match &got.what {
        What::Status { up, composite } => status(*up, *composite),
        What::Request => "request".to_string(),
        What::Services(told) => services(told),
        What::ServicesRequest(id) => format!("services request {id}"),
        What::Unknown(id) => format!("unknown {id}"),
        What::NotAvailable(id) => format!("not available {id}"),
        What::PullAll => "pull all".to_string(),
        What::Pull(id) => format!("pull {id}"),
        What::PullUnknown(id) => format!("pull unknown {id}"),
        What::Composite(id) => format!("composite {id}"),
        What::CompositeAck { agree } => composite_ack(*agree),
        What::Operation { id, .. } => format!("operation {id}"),
        What::OperationUnknown(id) => format!("operation unknown {id}"),
        // As code 8 has it: nothing is ever owed for it.
        What::Response { id, sequence, .. } => {
            return format!("response {id} from {from} seq {sequence}");
        }
    };
    format!("{what} from {from} owed {}", hex(&got.owed))
}

fn status(up: bool, composite: u32) -> String {
    format!("status {} {composite}", up_or_down(up))
}

fn composite_ack(agree: bool) -> String {
    let said = if agree { "agree" } else { "disagree" };
    format!("composite ack {said}")
}

/// How many services, and their pairs as they stood behind that number.
fn services(told: &[Service]) -> String {
    let payload = services_payload(told).expect("it came in a message");
    format!("services {} {}", told.len(), hex(&payload[4..]))
}

fn known_line(services: &[Service]) -> String {
    if services.is_empty() {
        return "known -".to_string();
    }
    let state = |available: bool| if available { 'a' } else { 'u' };
    let each = services.iter();
    let each = each.map(|(id, available)| format!(" {id} {}", state(*available)));
    format!("known{}", each.collect::<String>())
}
