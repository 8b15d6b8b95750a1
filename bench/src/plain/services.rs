//! What a partner of Issue 3 told of its services.

use super::be32;

/// How many of one platform are kept.
pub const BLOCK: usize = 256;
pub const FREE: u32 = 0;
pub const UNAVAILABLE: u32 = 1;
pub const AVAILABLE: u32 = 2;

/// A place, free where the state is 0; a state that is none counts as UNAVAILABLE.
#[derive(Clone, Copy, Debug, Default, PartialEq, Eq)]
pub struct Service {
    pub id: u32,
    pub state: u32,
}

impl Service {
    pub fn is_available(&self) -> bool {
        self.state == AVAILABLE
    }
}

/// The first place that bears the ID or is free.
fn place_of(block: &[Service], id: u32) -> Option<usize> {
    let mut places = block.iter();
    places.position(|place| place.state == FREE || place.id == id)
}

/// The pairs of a status noted one by one; or 63, and nothing.
pub fn note(block: &mut [Service], pairs: &[u8]) -> Result<(), u32> {
    let mut after = [Service::default(); BLOCK];
    after.copy_from_slice(block);
    for pair in pairs.chunks_exact(8) {
        let id = be32(pair, 0);
        let place = place_of(&after, id).ok_or(63u32)?;
        let state = if be32(pair, 4) == 1 {
            AVAILABLE
        } else {
            UNAVAILABLE
        };
        after[place] = Service { id, state };
    }
    block.copy_from_slice(&after);
    Ok(())
}

/// All that are known are UNAVAILABLE.
pub fn mark(block: &mut [Service]) {
    let known = block.iter_mut().take_while(|place| place.state != FREE);
    known.for_each(|place| place.state = UNAVAILABLE);
}

/// What is known of one.
pub fn state(block: &[Service], id: u32) -> u32 {
    match place_of(block, id).map(|place| block[place].state) {
        None | Some(FREE) => FREE,
        Some(AVAILABLE) => AVAILABLE,
        Some(_) => UNAVAILABLE,
    }
}
