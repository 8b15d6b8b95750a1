//! The calls over slices, each at the cost of the C call alone: nothing is copied or tested here, but the number of unpacking and
//! packing, which makes their result. A reference is never null, and what is lent to be written overlaps nothing, which is all that
//! the header asks of a caller; so every one is safe.

use crate::c;
use crate::{Joiner, Message, Operation, Refused, Sections, Taken, Walked};

/// The version of the archive that was linked, to be held beside `LIBRARY_VERSION`.
#[inline]
pub fn library_version() -> u32 {
    unsafe { c::nyr_library_version() }
}

/// Makes a joiner for these sender IDs, with `room` bytes for each in rooms of `rooms_length` bytes: 20.
#[inline]
pub fn setup(joiner: &mut Joiner, ids: &[u16], room: u32, rooms_length: usize) -> u32 {
    unsafe { c::nyr_setup(joiner, ids.as_ptr(), ids.len(), room, rooms_length) }
}

/// Takes one datagram: 20 to 23.
#[inline]
pub fn take(joiner: &mut Joiner, rooms: &mut [u8], datagram: &[u8], taken: &mut Taken) -> u32 {
    unsafe {
        c::nyr_take(
            joiner,
            rooms.as_mut_ptr(),
            rooms.len(),
            datagram.as_ptr(),
            datagram.len(),
            taken,
        )
    }
}

/// How many pieces a message of that length is cut into: 50.
#[inline]
pub fn pieces(message_length: usize, piece_size: usize, pieces: &mut usize) -> u32 {
    unsafe { c::nyr_pieces(message_length, piece_size, pieces) }
}

/// Writes the datagram of one piece at the start of output: 50 to 52.
#[inline]
pub fn cut(
    message: &[u8],
    piece_size: usize,
    sender: usize,
    first_counter: usize,
    piece: usize,
    output: &mut [u8],
    written: &mut usize,
) -> u32 {
    unsafe {
        c::nyr_cut(
            message.as_ptr(),
            message.len(),
            piece_size,
            sender,
            first_counter,
            piece,
            output.as_mut_ptr(),
            output.len(),
            written,
        )
    }
}

/// Reads a message: 1 to 9.
#[inline]
pub fn read(own: u8, message: &[u8], answer: &mut Message) -> u32 {
    unsafe { c::nyr_read(own, message.as_ptr(), message.len(), answer) }
}

/// Writes a message at the start of output: 4, 5, 7 to 10.
#[inline]
pub fn write(
    own: u8,
    domain: u8,
    id: u32,
    sequence: u32,
    payload: &[u8],
    output: &mut [u8],
    written: &mut usize,
) -> u32 {
    unsafe {
        c::nyr_write(
            own,
            domain,
            id,
            sequence,
            payload.as_ptr(),
            payload.len(),
            output.as_mut_ptr(),
            output.len(),
            written,
        )
    }
}

/// Checks a table, and leaves where its sections lie: 30 to 33.
#[inline]
pub fn check_table(table: &[u8], sections: &mut Sections) -> u32 {
    unsafe { c::nyr_check_table(table.as_ptr(), table.len(), sections) }
}

/// Looks an operation up: 30.
#[inline]
pub fn find(table: &[u8], sections: &Sections, id: u32, operation: &mut Operation) -> u32 {
    unsafe { c::nyr_find(table.as_ptr(), table.len(), sections, id, operation) }
}

/// Unpacks a payload into words, and says how many it gave: 30 to 33, 40 to 45.
#[inline]
pub fn unpack(
    table: &[u8],
    type_number: u16,
    payload: &[u8],
    words: &mut [u64],
) -> Result<usize, Refused> {
    let mut walked = Walked::default();
    let number = unsafe {
        c::nyr_unpack(
            table.as_ptr(),
            table.len(),
            type_number,
            payload.as_ptr(),
            payload.len(),
            words.as_mut_ptr(),
            words.len(),
            &mut walked,
        )
    };
    walked.told(number)
}

/// The same by the sections of a check: 30, 32, 40 to 45.
#[inline]
pub fn unpack_in(
    table: &[u8],
    sections: &Sections,
    type_number: u16,
    payload: &[u8],
    words: &mut [u64],
) -> Result<usize, Refused> {
    let mut walked = Walked::default();
    let number = unsafe {
        c::nyr_unpack_in(
            table.as_ptr(),
            table.len(),
            sections,
            type_number,
            payload.as_ptr(),
            payload.len(),
            words.as_mut_ptr(),
            words.len(),
            &mut walked,
        )
    };
    walked.told(number)
}

/// Packs words into a payload, and says how many bytes it gave: 30 to 33, 40 to 45.
#[inline]
pub fn pack(
    table: &[u8],
    type_number: u16,
    words: &[u64],
    output: &mut [u8],
) -> Result<usize, Refused> {
    let mut walked = Walked::default();
    let number = unsafe {
        c::nyr_pack(
            table.as_ptr(),
            table.len(),
            type_number,
            words.as_ptr(),
            words.len(),
            output.as_mut_ptr(),
            output.len(),
            &mut walked,
        )
    };
    walked.told(number)
}

/// The same by the sections of a check: 30, 32, 40 to 45.
#[inline]
pub fn pack_in(
    table: &[u8],
    sections: &Sections,
    type_number: u16,
    words: &[u64],
    output: &mut [u8],
) -> Result<usize, Refused> {
    let mut walked = Walked::default();
    let number = unsafe {
        c::nyr_pack_in(
            table.as_ptr(),
            table.len(),
            sections,
            type_number,
            words.as_ptr(),
            words.len(),
            output.as_mut_ptr(),
            output.len(),
            &mut walked,
        )
    };
    walked.told(number)
}
