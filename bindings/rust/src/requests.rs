//! The calls of requests, over slices and safe as those of `calls.rs`.

use crate::c;
use crate::{Awaited, Platform, Sections, Sent};

/// Writes a request to platform `target` at the start of output, and enters it among those that are pending: 30, 62, 60, 5, 10.
#[inline]
#[allow(clippy::too_many_arguments)]
pub fn send(
    own: u8,
    platform: &mut Platform,
    table: &[u8],
    sections: &Sections,
    id: u32,
    target: u32,
    payload: &[u8],
    output: &mut [u8],
    sent: &mut Sent,
) -> u32 {
    unsafe {
        c::nyr_send(
            own,
            platform,
            table.as_ptr(),
            table.len(),
            sections,
            id,
            target,
            payload.as_ptr(),
            payload.len(),
            output.as_mut_ptr(),
            output.len(),
            sent,
        )
    }
}

/// Gives up the request of that number; 1 where it was pending, else 0: 0.
#[inline]
pub fn cancel(platform: &mut Platform, sequence: u32, cancelled: &mut usize) -> u32 {
    unsafe { c::nyr_cancel(platform, sequence, cancelled) }
}

/// Looks up what is pending under a number: 0.
#[inline]
pub fn pending(platform: &Platform, sequence: u32, awaited: &mut Awaited) -> u32 {
    unsafe { c::nyr_pending(platform, sequence, awaited) }
}
