//! The names of `include/nyrkovash.h`, without their `NYR_`; what each means stands there.

pub const LIBRARY_VERSION: u32 = 40_301;
pub const LIBRARY_VERSION_TEXT: &str = "4.3.1";

// The numbers that refuse.
pub const OK: u32 = 0;
pub const MESSAGE_SHORT: u32 = 1;
pub const MARK: u32 = 2;
pub const VERSION: u32 = 3;
pub const DOMAIN: u32 = 4;
pub const PAYLOAD_SIZE: u32 = 5;
pub const SENDER: u32 = 6;
pub const PLATFORM_ID: u32 = 7;
pub const PLATFORM_LENGTH: u32 = 8;
pub const PLATFORM_VALUE: u32 = 9;
pub const NO_ROOM: u32 = 10;
pub const NO_JOINER: u32 = 20;
pub const DATAGRAM_LENGTH: u32 = 21;
pub const DATAGRAM_VERSION: u32 = 22;
pub const NOT_SET_UP: u32 = 23;
pub const TABLE_LENGTH: u32 = 30;
pub const TABLE_COUNT: u32 = 31;
pub const TABLE_ENTRY: u32 = 32;
pub const TABLE_SIZE: u32 = 33;
pub const INPUT_SHORT: u32 = 40;
pub const INPUT_LEFT: u32 = 41;
pub const VALUE: u32 = 42;
pub const ARRAY_COUNT: u32 = 43;
pub const NO_TYPE: u32 = 44;
pub const OUTPUT_SHORT: u32 = 45;
pub const CANNOT_CUT: u32 = 50;
pub const NO_PIECE: u32 = 51;
pub const DATAGRAM_ROOM: u32 = 52;
pub const LIST_FULL: u32 = 60;
pub const NOT_AWAITED: u32 = 61;
pub const NO_REQUEST: u32 = 62;
pub const SERVICES_FULL: u32 = 63;

// Limits and sizes.
pub const CHANNELS: usize = 32;
pub const SMALLEST_ROOM: usize = 24;
pub const LARGEST_ROOM: usize = 65_560;
pub const MESSAGE_HEADER: usize = 20;
pub const MESSAGE_HEADER_3: usize = 24;
pub const DATAGRAM_HEADER: usize = 4;
pub const LARGEST_PIECE: usize = 65_503;
pub const LARGEST_DATAGRAM: usize = 65_507;
pub const LARGEST_MESSAGE: usize = 65_560;
pub const REPLY_BYTES: usize = 24;
pub const REPLIES_BYTES: usize = 48;
pub const REPLIES_3_BYTES: usize = 88;
pub const MOST_PENDING: usize = 64;
pub const SERVICES_WORDS: usize = 256;
pub const PLANS_WORDS: usize = 131_329;

// `Taken::outcome`.
pub const REPEATED: u64 = 1;
pub const DELIVERED: u64 = 2;
pub const HELD: u64 = 3;
pub const STRAY: u64 = 4;
pub const TOO_LONG: u64 = 5;

// `Taken::slice`.
pub const NOWHERE: u64 = 0;
pub const IN_DATAGRAM: u64 = 1;
pub const IN_ROOMS: u64 = 2;

// `Message::kind` and `AnyMessage::kind`; the first four are the IDs of domain 0 in `write`.
pub const STATUS: u64 = 1;
pub const REQUEST: u64 = 2;
pub const UNKNOWN_OPERATION: u64 = 3;
pub const PULL: u64 = 4;
pub const SERVICE_OPERATION: u64 = 5;
pub const SERVICES: u64 = 6;
pub const SERVICES_REQUEST: u64 = 7;
pub const NOT_AVAILABLE: u64 = 8;
pub const COMPOSITE_CHANGE: u64 = 9;
pub const COMPOSITE_ACK: u64 = 10;

// The values of a pull and of a services request that ask for all.
pub const ALL_DATA: u64 = 0xFFFF_FFFF;
pub const ALL_SERVICES: u64 = 0xFFFF_FFFF;

// The domains of `write` and `write_3`.
pub const PLATFORM_DOMAIN: u8 = 0;
pub const OPERATION_DOMAIN: u8 = 1;

// Places in `Sections::words`.
pub const TYPES_AT: usize = 0;
pub const TYPES_COUNT: usize = 1;
pub const MEMBERS_AT: usize = 2;
pub const MEMBERS_COUNT: usize = 3;
pub const VALUES_AT: usize = 4;
pub const VALUES_COUNT: usize = 5;
pub const OPERATIONS_AT: usize = 6;
pub const OPERATIONS_COUNT: usize = 7;

// `Operation::kind`, and `Operation::carries` and `Operation::responds` of what has no payload.
pub const EVENT: u64 = 0;
pub const VERSIONED_DATA: u64 = 1;
pub const REQUEST_SENT: u64 = 2;
pub const REQUEST_SERVED: u64 = 3;
pub const NO_PAYLOAD: u64 = 0xFFFF;

// `Heard::kind`, and with those at the end `AnyHeard::kind`.
pub const HEARD_STATUS: u64 = 1;
pub const HEARD_REQUEST: u64 = 2;
pub const HEARD_UNKNOWN: u64 = 3;
pub const HEARD_PULL_ALL: u64 = 4;
pub const HEARD_PULL_ONE: u64 = 5;
pub const HEARD_PULL_NONE: u64 = 6;
pub const HEARD_OPERATION: u64 = 7;
pub const HEARD_NOT_IN_TABLE: u64 = 8;
pub const HEARD_RESPONSE: u64 = 9;

// `AnyMessage::issue`, `AnyHeard::issue`, and what `partners_set` takes.
pub const ISSUE_3: u32 = 3;
pub const ISSUE_6: u32 = 6;

// The IDs of domain 0 in `write_3`.
pub const STATUS_3: u32 = 1;
pub const REQUEST_3: u32 = 2;
pub const SERVICES_3: u32 = 3;
pub const SERVICES_REQUEST_3: u32 = 4;
pub const UNKNOWN_OPERATION_3: u32 = 5;
pub const NOT_AVAILABLE_3: u32 = 6;
pub const PULL_3: u32 = 7;
pub const COMPOSITE_CHANGE_3: u32 = 8;
pub const COMPOSITE_ACK_3: u32 = 9;

// `AnyHeard::kind` of Issue 3 alone.
pub const HEARD_SERVICES: u64 = 10;
pub const HEARD_SERVICES_REQUEST: u64 = 11;
pub const HEARD_NOT_AVAILABLE: u64 = 12;
pub const HEARD_COMPOSITE_CHANGE: u64 = 13;
pub const HEARD_COMPOSITE_ACK: u64 = 14;

// What `service` answers, and what `service_word` takes.
pub const UNHEARD: u32 = 0;
pub const UNAVAILABLE: u32 = 1;
pub const AVAILABLE: u32 = 2;

/// A service in a word: its ID, and above it one of these.
pub const fn service_word(id: u32, state: u32) -> u64 {
    (state as u64) << 32 | id as u64
}
