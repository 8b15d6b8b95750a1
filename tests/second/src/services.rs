//! What is known of the services of each partner of Issue 3: 001, 6.3 and the notes under Table 4;
//! 02, request 8, with B16 to B20 of its reading.

use crate::message3::Service;
use std::collections::BTreeMap;

/// How many services of one platform can be known.
pub const MOST: usize = 256;

/// Each platform's services in the order in which they were first heard of.
#[derive(Clone, Debug, Default, PartialEq, Eq)]
pub struct Services {
    known: BTreeMap<u8, Vec<Service>>,
}

impl Services {
    /// An AVAILABILITY_STATUS: noted pair by pair, or refused whole where there would be a 257th.
    pub fn note(&mut self, platform: u8, told: &[Service]) -> Result<(), u8> {
        let mut after = self.known(u32::from(platform)).to_vec();
        for (id, available) in told {
            match after.iter_mut().find(|(known, _)| known == id) {
                Some(service) => service.1 = *available,
                None => after.push((*id, *available)),
            }
        }
        if after.len() > MOST {
            return Err(63);
        }
        self.known.insert(platform, after);
        Ok(())
    }

    /// UP to DOWN: they stay known, and all are UNAVAILABLE.
    pub fn went_down(&mut self, platform: u8) {
        let services = self.known.get_mut(&platform).into_iter().flatten();
        services.for_each(|(_, available)| *available = false);
    }

    /// Those of Issue 6 and those above 255 have none.
    pub fn known(&self, platform: u32) -> &[Service] {
        let one = u8::try_from(platform).ok();
        one.and_then(|one| self.known.get(&one))
            .map_or(&[], Vec::as_slice)
    }

    /// Whether a service is AVAILABLE, or nothing where it was never heard of.
    pub fn state(&self, platform: u32, id: u32) -> Option<bool> {
        let mut services = self.known(platform).iter();
        services.find(|(known, _)| *known == id).map(|(_, a)| *a)
    }
}

/// Our own services as the caller has them: a word each, the ID and above it the state, of which 2
/// is AVAILABLE and any other UNAVAILABLE (B20).
pub fn ours(words: &[u64]) -> Vec<Service> {
    let each = words.iter();
    each.map(|word| (*word as u32, word >> 32 == 2)).collect()
}

/// The state of one of our own: of two with one ID the last counts, and one that is not ours is
/// UNAVAILABLE (B20).
pub fn own_state(ours: &[Service], id: u32) -> bool {
    let mut last_first = ours.iter().rev();
    last_first
        .find(|(one, _)| *one == id)
        .is_some_and(|(_, available)| *available)
}
