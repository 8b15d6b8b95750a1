//! The structs of the header, without their `nyr_`; what each field is stands there.

use crate::CHANNELS;
use std::mem::size_of;

#[repr(C)]
#[derive(Clone, Copy, Debug, Default, PartialEq, Eq)]
pub struct Channel {
    pub sender: u32,
    pub seen: u32,
    pub last: u32,
    pub held: u32,
}

#[repr(C)]
#[derive(Clone, Copy, Debug, Default, PartialEq, Eq)]
pub struct Joiner {
    pub count: u32,
    pub room: u32,
    pub channel: [Channel; CHANNELS],
}

#[repr(C)]
#[derive(Clone, Copy, Debug, Default, PartialEq, Eq)]
pub struct Taken {
    pub outcome: u64,
    pub missed: u64,
    pub bytes: u64,
    pub slice: u64,
    pub start: u64,
}

#[repr(C)]
#[derive(Clone, Copy, Debug, Default, PartialEq, Eq)]
pub struct Message {
    pub kind: u64,
    pub value: u64,
    pub sender: u64,
    pub sequence: u64,
    pub payload_start: u64,
    pub payload_length: u64,
}

#[repr(C)]
#[derive(Clone, Copy, Debug, PartialEq, Eq)]
pub struct Sections {
    pub words: [u64; 1032],
}

// Where an array is longer than those that have a default of their own.
impl Default for Sections {
    fn default() -> Self {
        Sections { words: [0; 1032] }
    }
}

#[repr(C)]
#[derive(Clone, Copy, Debug, Default, PartialEq, Eq)]
pub struct Operation {
    pub found: u64,
    pub kind: u64,
    pub carries: u64,
    pub responds: u64,
}

#[repr(C)]
#[derive(Clone, Copy, Debug, Default, PartialEq, Eq)]
pub struct Walked {
    pub given: u64,
    pub at: u64,
    pub leaves: u64,
}

#[repr(C)]
#[derive(Clone, Copy, Debug, PartialEq, Eq)]
pub struct Platform {
    pub up: [u64; 4],
    pub next: u64,
    pub pending: [u64; 128],
}

impl Default for Platform {
    fn default() -> Self {
        Platform {
            up: [0; 4],
            next: 0,
            pending: [0; 128],
        }
    }
}

#[repr(C)]
#[derive(Clone, Copy, Debug, Default, PartialEq, Eq)]
pub struct Heard {
    pub kind: u64,
    pub value: u64,
    pub sender: u64,
    pub sequence: u64,
    pub number: u64,
    pub payload_start: u64,
    pub payload_length: u64,
    pub replies: u64,
}

#[repr(C)]
#[derive(Clone, Copy, Debug, Default, PartialEq, Eq)]
pub struct Sent {
    pub written: u64,
    pub sequence: u64,
}

#[repr(C)]
#[derive(Clone, Copy, Debug, Default, PartialEq, Eq)]
pub struct Awaited {
    pub found: u64,
    pub id: u64,
    pub target: u64,
}

#[repr(C)]
#[derive(Clone, Copy, Debug, Default, PartialEq, Eq)]
pub struct Partners {
    pub words: [u64; 4],
}

#[repr(C)]
#[derive(Clone, Copy, Debug, Default, PartialEq, Eq)]
pub struct AnyMessage {
    pub kind: u64,
    pub value: u64,
    pub sender: u64,
    pub sequence: u64,
    pub payload_start: u64,
    pub payload_length: u64,
    pub issue: u64,
    pub seconds: u64,
    pub nanoseconds: u64,
    pub composite: u64,
}

#[repr(C)]
#[derive(Clone, Copy, Debug, Default, PartialEq, Eq)]
pub struct Stamp {
    pub seconds: u32,
    pub nanoseconds: u32,
    pub composite: u32,
}

#[repr(C)]
#[derive(Clone, Copy, Debug, Default, PartialEq, Eq)]
pub struct AnyHeard {
    pub kind: u64,
    pub value: u64,
    pub sender: u64,
    pub sequence: u64,
    pub number: u64,
    pub payload_start: u64,
    pub payload_length: u64,
    pub replies: u64,
    pub issue: u64,
    pub seconds: u64,
    pub nanoseconds: u64,
    pub composite: u64,
}

// The sizes that C has.
const _: () = assert!(size_of::<Channel>() == 16);
const _: () = assert!(size_of::<Joiner>() == 520);
const _: () = assert!(size_of::<Taken>() == 40);
const _: () = assert!(size_of::<Message>() == 48);
const _: () = assert!(size_of::<Sections>() == 8256);
const _: () = assert!(size_of::<Operation>() == 32);
const _: () = assert!(size_of::<Walked>() == 24);
const _: () = assert!(size_of::<Platform>() == 1064);
const _: () = assert!(size_of::<Heard>() == 64);
const _: () = assert!(size_of::<Sent>() == 16);
const _: () = assert!(size_of::<Awaited>() == 24);
const _: () = assert!(size_of::<Partners>() == 32);
const _: () = assert!(size_of::<AnyMessage>() == 80);
const _: () = assert!(size_of::<Stamp>() == 12);
const _: () = assert!(size_of::<AnyHeard>() == 96);
