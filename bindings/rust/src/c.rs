//! The calls as C has them. The functions at the crate's root are these over slices, and safe.

use crate::{
    AnyHeard, AnyMessage, Awaited, Heard, Joiner, Message, Operation, Partners, Platform, Sections,
    Sent, Stamp, Taken, Walked,
};

extern "C" {
    pub fn nyr_library_version() -> u32;
    pub fn nyr_setup(
        joiner: *mut Joiner,
        ids: *const u16,
        channels: usize,
        room: u32,
        rooms_length: usize,
    ) -> u32;
    pub fn nyr_take(
        joiner: *mut Joiner,
        rooms: *mut u8,
        rooms_length: usize,
        datagram: *const u8,
        datagram_length: usize,
        taken: *mut Taken,
    ) -> u32;
    pub fn nyr_pieces(message_length: usize, piece_size: usize, pieces: *mut usize) -> u32;
    pub fn nyr_cut(
        message: *const u8,
        message_length: usize,
        piece_size: usize,
        sender: usize,
        first_counter: usize,
        piece: usize,
        output: *mut u8,
        output_length: usize,
        written: *mut usize,
    ) -> u32;
    pub fn nyr_read(
        own: u8,
        message: *const u8,
        message_length: usize,
        answer: *mut Message,
    ) -> u32;
    pub fn nyr_write(
        own: u8,
        domain: u8,
        id: u32,
        sequence: u32,
        payload: *const u8,
        payload_length: usize,
        output: *mut u8,
        output_length: usize,
        written: *mut usize,
    ) -> u32;
    pub fn nyr_check_table(table: *const u8, table_length: usize, sections: *mut Sections) -> u32;
    pub fn nyr_find(
        table: *const u8,
        table_length: usize,
        sections: *const Sections,
        id: u32,
        operation: *mut Operation,
    ) -> u32;
    pub fn nyr_unpack(
        table: *const u8,
        table_length: usize,
        type_number: u16,
        payload: *const u8,
        payload_length: usize,
        words: *mut u64,
        words_length: usize,
        walked: *mut Walked,
    ) -> u32;
    pub fn nyr_unpack_in(
        table: *const u8,
        table_length: usize,
        sections: *const Sections,
        type_number: u16,
        payload: *const u8,
        payload_length: usize,
        words: *mut u64,
        words_length: usize,
        walked: *mut Walked,
    ) -> u32;
    pub fn nyr_pack(
        table: *const u8,
        table_length: usize,
        type_number: u16,
        words: *const u64,
        words_length: usize,
        output: *mut u8,
        output_length: usize,
        walked: *mut Walked,
    ) -> u32;
    pub fn nyr_pack_in(
        table: *const u8,
        table_length: usize,
        sections: *const Sections,
        type_number: u16,
        words: *const u64,
        words_length: usize,
        output: *mut u8,
        output_length: usize,
        walked: *mut Walked,
    ) -> u32;
    pub fn nyr_plans_length(
        table: *const u8,
        table_length: usize,
        sections: *const Sections,
        words: *mut usize,
    ) -> u32;
    pub fn nyr_plans(
        table: *const u8,
        table_length: usize,
        sections: *const Sections,
        plans: *mut u64,
        plans_length: usize,
    ) -> u32;
    pub fn nyr_unpack_by(
        table: *const u8,
        table_length: usize,
        sections: *const Sections,
        plans: *const u64,
        plans_length: usize,
        type_number: u16,
        payload: *const u8,
        payload_length: usize,
        words: *mut u64,
        words_length: usize,
        walked: *mut Walked,
    ) -> u32;
    pub fn nyr_pack_by(
        table: *const u8,
        table_length: usize,
        sections: *const Sections,
        plans: *const u64,
        plans_length: usize,
        type_number: u16,
        words: *const u64,
        words_length: usize,
        output: *mut u8,
        output_length: usize,
        walked: *mut Walked,
    ) -> u32;
    pub fn nyr_start(own: u8, platform: *mut Platform) -> u32;
    pub fn nyr_receive(
        own: u8,
        platform: *mut Platform,
        table: *const u8,
        table_length: usize,
        message: *const u8,
        message_length: usize,
        output: *mut u8,
        output_length: usize,
        heard: *mut Heard,
    ) -> u32;
    pub fn nyr_receive_in(
        own: u8,
        platform: *mut Platform,
        table: *const u8,
        table_length: usize,
        sections: *const Sections,
        message: *const u8,
        message_length: usize,
        output: *mut u8,
        output_length: usize,
        heard: *mut Heard,
    ) -> u32;
    pub fn nyr_is_up(own: u8, platform: *const Platform, number: u32) -> u32;
    pub fn nyr_how_many_up(own: u8, platform: *const Platform) -> u32;
    pub fn nyr_send(
        own: u8,
        platform: *mut Platform,
        table: *const u8,
        table_length: usize,
        sections: *const Sections,
        id: u32,
        target: u32,
        payload: *const u8,
        payload_length: usize,
        output: *mut u8,
        output_length: usize,
        sent: *mut Sent,
    ) -> u32;
    pub fn nyr_cancel(platform: *mut Platform, sequence: u32, cancelled: *mut usize) -> u32;
    pub fn nyr_pending(platform: *const Platform, sequence: u32, awaited: *mut Awaited) -> u32;
    pub fn nyr_partners_set(partners: *mut Partners, platform: u32, issue: u32) -> u32;
    pub fn nyr_read_mixed(
        own: u8,
        partners: *const Partners,
        message: *const u8,
        message_length: usize,
        answer: *mut AnyMessage,
    ) -> u32;
    pub fn nyr_write_3(
        own: u8,
        seconds: u32,
        nanoseconds: u32,
        domain: u8,
        id: u32,
        sequence: u32,
        payload: *const u8,
        payload_length: usize,
        output: *mut u8,
        output_length: usize,
        written: *mut usize,
    ) -> u32;
    pub fn nyr_receive_mixed(
        own: u8,
        stamp: *const Stamp,
        partners: *const Partners,
        ours: *const u64,
        ours_words: usize,
        platform: *mut Platform,
        services: *mut u64,
        services_words: usize,
        table: *const u8,
        table_length: usize,
        message: *const u8,
        message_length: usize,
        output: *mut u8,
        output_length: usize,
        heard: *mut AnyHeard,
    ) -> u32;
    pub fn nyr_receive_mixed_in(
        own: u8,
        stamp: *const Stamp,
        partners: *const Partners,
        ours: *const u64,
        ours_words: usize,
        platform: *mut Platform,
        services: *mut u64,
        services_words: usize,
        table: *const u8,
        table_length: usize,
        sections: *const Sections,
        message: *const u8,
        message_length: usize,
        output: *mut u8,
        output_length: usize,
        heard: *mut AnyHeard,
    ) -> u32;
    pub fn nyr_send_mixed(
        own: u8,
        stamp: *const Stamp,
        partners: *const Partners,
        platform: *mut Platform,
        table: *const u8,
        table_length: usize,
        sections: *const Sections,
        id: u32,
        target: u32,
        payload: *const u8,
        payload_length: usize,
        output: *mut u8,
        output_length: usize,
        sent: *mut Sent,
    ) -> u32;
    pub fn nyr_service(
        partners: *const Partners,
        services: *const u64,
        services_words: usize,
        platform: u32,
        id: u32,
    ) -> u32;
}
