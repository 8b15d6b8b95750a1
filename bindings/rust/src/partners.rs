//! The calls among partners of Issue 3, over slices and safe as those of `calls.rs`.

use crate::c;
use crate::{AnyHeard, AnyMessage, Partners, Platform, Sections, Sent, Stamp};

/// Sets one platform up, as `ISSUE_3` or with any other number as Issue 6: 0.
#[inline]
pub fn partners_set(partners: &mut Partners, platform: u32, issue: u32) -> u32 {
    unsafe { c::nyr_partners_set(partners, platform, issue) }
}

/// Reads a message by its sender's issue: 1 to 9.
#[inline]
pub fn read_mixed(own: u8, partners: &Partners, message: &[u8], answer: &mut AnyMessage) -> u32 {
    unsafe { c::nyr_read_mixed(own, partners, message.as_ptr(), message.len(), answer) }
}

/// Writes a message of this platform for partners of Issue 3 at the start of output: 4, 5, 7 to 10.
#[inline]
#[allow(clippy::too_many_arguments)]
pub fn write_3(
    own: u8,
    seconds: u32,
    nanoseconds: u32,
    domain: u8,
    id: u32,
    sequence: u32,
    payload: &[u8],
    output: &mut [u8],
    written: &mut usize,
) -> u32 {
    unsafe {
        c::nyr_write_3(
            own,
            seconds,
            nanoseconds,
            domain,
            id,
            sequence,
            payload.as_ptr(),
            payload.len(),
            output.as_mut_ptr(),
            output.len(),
            written,
        )
    }
}

/// `receive` among partners of both issues; `ours` are our services, `services` what those of Issue 3 told of theirs: 30 to 33, 1 to 9,
/// 61, 10, 63, 5, 10.
#[inline]
#[allow(clippy::too_many_arguments)]
pub fn receive_mixed(
    own: u8,
    stamp: &Stamp,
    partners: &Partners,
    ours: &[u64],
    platform: &mut Platform,
    services: &mut [u64],
    table: &[u8],
    message: &[u8],
    output: &mut [u8],
    heard: &mut AnyHeard,
) -> u32 {
    unsafe {
        c::nyr_receive_mixed(
            own,
            stamp,
            partners,
            ours.as_ptr(),
            ours.len(),
            platform,
            services.as_mut_ptr(),
            services.len(),
            table.as_ptr(),
            table.len(),
            message.as_ptr(),
            message.len(),
            output.as_mut_ptr(),
            output.len(),
            heard,
        )
    }
}

/// The same by the sections of a check: 30, 1 to 9, 61, 10, 63, 5, 10.
#[inline]
#[allow(clippy::too_many_arguments)]
pub fn receive_mixed_in(
    own: u8,
    stamp: &Stamp,
    partners: &Partners,
    ours: &[u64],
    platform: &mut Platform,
    services: &mut [u64],
    table: &[u8],
    sections: &Sections,
    message: &[u8],
    output: &mut [u8],
    heard: &mut AnyHeard,
) -> u32 {
    unsafe {
        c::nyr_receive_mixed_in(
            own,
            stamp,
            partners,
            ours.as_ptr(),
            ours.len(),
            platform,
            services.as_mut_ptr(),
            services.len(),
            table.as_ptr(),
            table.len(),
            sections,
            message.as_ptr(),
            message.len(),
            output.as_mut_ptr(),
            output.len(),
            heard,
        )
    }
}

/// `send` in the target's issue: 30, 62, 60, 5, 10.
#[inline]
#[allow(clippy::too_many_arguments)]
pub fn send_mixed(
    own: u8,
    stamp: &Stamp,
    partners: &Partners,
    platform: &mut Platform,
    table: &[u8],
    sections: &Sections,
    id: u32,
    target: u32,
    payload: &[u8],
    output: &mut [u8],
    sent: &mut Sent,
) -> u32 {
    unsafe {
        c::nyr_send_mixed(
            own,
            stamp,
            partners,
            platform,
            table.as_ptr(),
            table.len(),
            sections,
            id,
            target,
            payload.as_ptr(),
            payload.len(),
            output.as_mut_ptr(),
            output.len(),
            sent,
        )
    }
}

/// What is known of a partner's service: `UNHEARD`, `UNAVAILABLE` or `AVAILABLE`.
#[inline]
pub fn service(partners: &Partners, services: &[u64], platform: u32, id: u32) -> u32 {
    unsafe { c::nyr_service(partners, services.as_ptr(), services.len(), platform, id) }
}
