//! The calls of plans, over slices and safe as those of `calls.rs`: any words are plans.

use crate::c;
use crate::{Refused, Sections, Walked};

/// How many words are enough for the plans of a table's types: 30.
#[inline]
pub fn plans_length(table: &[u8], sections: &Sections, words: &mut usize) -> u32 {
    unsafe { c::nyr_plans_length(table.as_ptr(), table.len(), sections, words) }
}

/// Lays the plans of a table's types out from the start of `plans` on: 30, 10.
#[inline]
pub fn plans(table: &[u8], sections: &Sections, plans: &mut [u64]) -> u32 {
    unsafe {
        c::nyr_plans(
            table.as_ptr(),
            table.len(),
            sections,
            plans.as_mut_ptr(),
            plans.len(),
        )
    }
}

/// As `unpack_in`, by plans: 30, 32, 40 to 45.
#[inline]
pub fn unpack_by(
    table: &[u8],
    sections: &Sections,
    plans: &[u64],
    type_number: u16,
    payload: &[u8],
    words: &mut [u64],
) -> Result<usize, Refused> {
    let mut walked = Walked::default();
    let number = unsafe {
        c::nyr_unpack_by(
            table.as_ptr(),
            table.len(),
            sections,
            plans.as_ptr(),
            plans.len(),
            type_number,
            payload.as_ptr(),
            payload.len(),
            words.as_mut_ptr(),
            words.len(),
            &mut walked,
        )
    };
    walked.told(number)
}

/// As `pack_in`, by plans: 30, 32, 40 to 45.
#[inline]
pub fn pack_by(
    table: &[u8],
    sections: &Sections,
    plans: &[u64],
    type_number: u16,
    words: &[u64],
    output: &mut [u8],
) -> Result<usize, Refused> {
    let mut walked = Walked::default();
    let number = unsafe {
        c::nyr_pack_by(
            table.as_ptr(),
            table.len(),
            sections,
            plans.as_ptr(),
            plans.len(),
            type_number,
            words.as_ptr(),
            words.len(),
            output.as_mut_ptr(),
            output.len(),
            &mut walked,
        )
    };
    walked.told(number)
}
