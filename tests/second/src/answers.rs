//! The lines that a file of calls must give: each call answered by its model.

use crate::answers3;
use crate::call::{next, Argument, Next};
use crate::cutting::{piece, pieces};
use crate::message::{self, Content};
use crate::partners::Partners;
use crate::payload::{pack, pack_checked, unpack, unpack_checked, Refused};
use crate::pending::Pending;
use crate::platform::{Answer, Platform, What};
use crate::take::{Joiner, Record};
use crate::types::check;
use Argument::{Bytes, Number, Records, Words};

const NOT_PENDING: &str = "not pending";

/// What a file of calls gives.
pub struct Told {
    /// Every line, ended by one LF each.
    pub lines: String,
    /// The calls that were answered, in order: the code, and the number of a refusal.
    pub calls: Vec<(u64, Option<u8>)>,
    pub ending: Ending,
}

#[derive(Clone, Copy, Debug, PartialEq, Eq)]
pub enum Ending {
    BehindACall,
    BadCall,
    CutShort,
}

/// What `./answers` must give.
pub fn tell(file: &[u8]) -> Told {
    let mut rest = file;
    let mut partners = Partners::new(0, &[]);
    let mut lines = String::new();
    let mut calls = Vec::new();
    let ending = loop {
        let place = calls.len();
        match next(&mut rest) {
            Next::End => break Ending::BehindACall,
            Next::CutShort => {
                lines.push_str("cut short\n");
                break Ending::CutShort;
            }
            Next::Bad => {
                lines.push_str(&format!("{place} bad call\n"));
                break Ending::BadCall;
            }
            Next::Call(code, arguments) => {
                let told = match code {
                    81.. => answers3::answer(&mut partners, code, &arguments),
                    _ => answer(&mut partners.platform, code, &arguments),
                };
                calls.push((code, told.as_ref().err().map(|refused| refused.number)));
                let text = told.unwrap_or_else(|refused| refused.to_string());
                lines.push_str(&format!("{place} {text}\n"));
            }
        }
    };
    Told {
        lines,
        calls,
        ending,
    }
}

/// One call: its answer without the call's number and the LF, or what it is refused with.
fn answer(platform: &mut Platform, code: u64, arguments: &[Argument]) -> Result<String, Refused> {
    match (code, arguments) {
        (1, [Number(own), Bytes(bytes)]) => Ok(message_read(&message::read(*own as u8, bytes)?)),
        (
            2,
            [Number(own), Number(domain), Number(id), Number(sequence), Bytes(payload), Number(room)],
        ) => {
            let (own, id, sequence) = (*own as u8, *id as u32, *sequence as u32);
            let written = message::write(own, *domain, id, sequence, payload, *room as usize)?;
            Ok(format!("written {}", hex(&written)))
        }
        (
            3,
            [Bytes(whole), Number(size), Number(sender), Number(first), Number(wanted), Number(room)],
        ) => {
            let cut = piece(whole, *size, *sender, *first, *wanted, *room as usize)?;
            Ok(format!("piece {}", hex(&cut)))
        }
        (4, [Bytes(table)]) => {
            let table = check(table)?;
            let (types, operations) = (table.types.len(), table.operations.len());
            Ok(format!(
                "table {types} {} {} {operations}",
                table.members, table.values
            ))
        }
        (5, [Bytes(table), Number(of), Bytes(payload), Number(room)]) => {
            unpack(table, *of as usize, payload, *room as usize).map(|words| words_line(&words))
        }
        // By plans the answer is the walk's: 02, request 13.
        (13 | 16, [Bytes(table), Number(of), Bytes(payload), Number(room)]) => {
            unpack_checked(&check(table)?, *of as usize, payload, *room as usize)
                .map(|words| words_line(&words))
        }
        (6, [Bytes(table), Number(of), Words(words), Number(room)]) => {
            let packed = pack(table, *of as usize, words, *room as usize)?;
            Ok(format!("bytes {}", hex(&packed)))
        }
        (14 | 17, [Bytes(table), Number(of), Words(words), Number(room)]) => {
            let packed = pack_checked(&check(table)?, *of as usize, words, *room as usize)?;
            Ok(format!("bytes {}", hex(&packed)))
        }
        (7, [Number(own)]) => {
            *platform = Platform::new(*own as u8);
            Ok(format!("platform {own}"))
        }
        (8, [Bytes(table), Bytes(message), Number(room)]) => {
            let got = platform.call(table, message, *room as usize)?;
            Ok(heard(&got))
        }
        (9, [Number(asked)]) => {
            let up = platform.is_up(*asked as u32);
            Ok(up_or_down(up).to_string())
        }
        (10, []) => Ok(format!("count {}", platform.count())),
        (11, [Number(room), Records(records), Bytes(rooms), Bytes(datagram)]) => {
            let joiner = Joiner {
                room: *room,
                records: records.clone(),
                rooms: rooms.to_vec(),
            };
            Ok(taken(joiner, datagram)?)
        }
        (12, [Number(length), Number(size)]) => Ok(format!("pieces {}", pieces(*length, *size)?)),
        (15, [Bytes(table), Number(id)]) => Ok(match check(table)?.operation(*id as u32) {
            None => "none".to_string(),
            Some(entry) => format!("entry {} {} {}", entry.kind, entry.of, entry.response),
        }),
        (20, [Bytes(table), Number(id), Number(target), Bytes(payload), Number(room)]) => {
            let (id, target) = (*id as u32, *target as u32);
            let sent = platform.send(table, id, target, payload, *room as usize)?;
            Ok(sent_line(&sent))
        }
        (21, [Number(sequence)]) => Ok(match platform.cancel(*sequence as u32) {
            true => "cancelled".to_string(),
            false => NOT_PENDING.to_string(),
        }),
        (22, [Number(sequence)]) => Ok(match platform.list.asked(*sequence as u32) {
            Some((id, target)) => format!("pending {id} {target}"),
            None => NOT_PENDING.to_string(),
        }),
        (23, [Number(own), Number(next), Words(words)]) => {
            *platform = Platform {
                next: *next as u32,
                list: Pending::of(words),
                ..Platform::new(*own as u8)
            };
            Ok(format!("platform {own}"))
        }
        _ => unreachable!("a call that was taken apart has its code's arguments"),
    }
}

pub(crate) fn message_read(got: &message::Message) -> String {
    let place = format!("{} {}", got.from, got.sequence);
    match &got.content {
        Content::Status { up } => format!("status {} {place}", up_or_down(*up)),
        Content::Request => format!("request {place}"),
        Content::Unknown(id) => format!("unknown {id} {place}"),
        Content::Pull(id) => format!("pull {id} {place}"),
        Content::Operation { id, payload } => format!("operation {id} {place} {}", hex(payload)),
    }
}

/// What a platform made of a message; the operation's payload is not printed again.
pub(crate) fn heard(got: &Answer) -> String {
    let from = got.from;
    let what = match &got.what {
        What::Status { up } => format!("status {}", up_or_down(*up)),
        What::Request => "request".to_string(),
        What::Unknown(id) => format!("unknown {id}"),
        What::PullAll => "pull all".to_string(),
        What::Pull(id) => format!("pull {id}"),
        What::PullUnknown(id) => format!("pull unknown {id}"),
        What::Operation { id, .. } => format!("operation {id}"),
        What::OperationUnknown(id) => format!("operation unknown {id}"),
        // Nothing is ever owed for it; which request it answers is told.
        What::Response { id, sequence, .. } => {
            return format!("response {id} from {from} seq {sequence}");
        }
    };
    format!("{what} from {from} owed {}", hex(&got.owed))
}

/// A request that was sent: its number and its bytes.
pub(crate) fn sent_line((number, bytes): &(u32, Vec<u8>)) -> String {
    format!("sent {number} {}", hex(bytes))
}

fn taken(mut joiner: Joiner, datagram: &[u8]) -> Result<String, u8> {
    let got = joiner.take(datagram)?;
    let records: Vec<u8> = joiner.records.iter().flat_map(record_bytes).collect();
    Ok(format!(
        "{} {} {} {} {} {}",
        got.name,
        got.missed,
        got.bytes,
        hex(&got.message.unwrap_or_default()),
        hex(&records),
        hex(&joiner.rooms)
    ))
}

fn record_bytes(record: &Record) -> Vec<u8> {
    let mut out = record.sender.to_be_bytes().to_vec();
    out.push(u8::from(record.seen));
    out.extend(record.last.to_be_bytes());
    out.extend(record.held.to_be_bytes());
    out
}

pub(crate) fn up_or_down(up: bool) -> &'static str {
    if up {
        "up"
    } else {
        "down"
    }
}

/// Lower-case hex, `-` for no bytes.
pub(crate) fn hex(bytes: &[u8]) -> String {
    if bytes.is_empty() {
        return "-".to_string();
    }
    let digits = bytes.iter().flat_map(|byte| [byte / 16, byte % 16]);
    digits
        .map(|digit| char::from(b"0123456789abcdef"[usize::from(digit)]))
        .collect()
}

fn words_line(words: &[u64]) -> String {
    if words.is_empty() {
        return "words -".to_string();
    }
    let each: String = words.iter().map(|word| format!(" {word}")).collect();
    format!("words{each}")
}
