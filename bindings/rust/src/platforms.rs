//! The calls of platforms, over slices and safe as those of `calls.rs`.

use crate::c;
use crate::{Heard, Platform, Sections};

/// A fresh platform: 0.
#[inline]
pub fn start(own: u8, platform: &mut Platform) -> u32 {
    unsafe { c::nyr_start(own, platform) }
}

/// Reads a message, notes it, and writes the replies that are owed, or delivers a response: 30 to 33, 1 to 9, 61, 10.
#[inline]
pub fn receive(
    own: u8,
    platform: &mut Platform,
    table: &[u8],
    message: &[u8],
    output: &mut [u8],
    heard: &mut Heard,
) -> u32 {
    unsafe {
        c::nyr_receive(
            own,
            platform,
            table.as_ptr(),
            table.len(),
            message.as_ptr(),
            message.len(),
            output.as_mut_ptr(),
            output.len(),
            heard,
        )
    }
}

/// The same by the sections of a check: 30, 1 to 9, 61, 10.
#[inline]
pub fn receive_in(
    own: u8,
    platform: &mut Platform,
    table: &[u8],
    sections: &Sections,
    message: &[u8],
    output: &mut [u8],
    heard: &mut Heard,
) -> u32 {
    unsafe {
        c::nyr_receive_in(
            own,
            platform,
            table.as_ptr(),
            table.len(),
            sections,
            message.as_ptr(),
            message.len(),
            output.as_mut_ptr(),
            output.len(),
            heard,
        )
    }
}

/// 1 where the platform of that number is UP, else 0.
#[inline]
pub fn is_up(own: u8, platform: &Platform, number: u32) -> u32 {
    unsafe { c::nyr_is_up(own, platform, number) }
}

/// How many of the 256 are UP, this one counted.
#[inline]
pub fn how_many_up(own: u8, platform: &Platform) -> u32 {
    unsafe { c::nyr_how_many_up(own, platform) }
}
