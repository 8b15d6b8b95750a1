//! The list of requests that are pending: 02, request 1, with 1.2 and 1.9 to 1.11 of its reading.
//!
//! It is 128 plain words, and any words are a list: word k is the number of place k times 2^32 and
//! its ID, word 64 + k its target.

pub const PLACES: usize = 64;

#[derive(Clone, Debug, PartialEq, Eq)]
pub struct Pending {
    words: [u64; 2 * PLACES],
}

impl Pending {
    /// These words, and 0 for those that are not given.
    pub fn of(given: &[u64]) -> Pending {
        let mut words = [0; 2 * PLACES];
        words[..given.len()].copy_from_slice(given);
        Pending { words }
    }

    fn number(&self, place: usize) -> u64 {
        self.words[place] >> 32
    }

    fn first(&self, number: u64) -> Option<usize> {
        (0..PLACES).find(|place| self.number(*place) == number)
    }

    /// The first place that bears the number; 0 is no request's.
    pub fn place(&self, number: u32) -> Option<usize> {
        self.first(u64::from(number)).filter(|_| number != 0)
    }

    /// A place is free where its number is 0.
    pub fn free(&self) -> Option<usize> {
        self.first(0)
    }

    /// A place's ID and its target, which may be wider than any platform's number.
    pub fn at(&self, place: usize) -> (u32, u64) {
        let id = self.words[place] & 0xFFFF_FFFF;
        (id as u32, self.words[PLACES + place])
    }

    /// What is pending under a number.
    pub fn asked(&self, number: u32) -> Option<(u32, u64)> {
        self.place(number).map(|place| self.at(place))
    }

    pub fn enter(&mut self, place: usize, number: u32, id: u32, target: u32) {
        self.words[place] = u64::from(number) << 32 | u64::from(id);
        self.words[PLACES + place] = u64::from(target);
    }

    pub fn clear(&mut self, place: usize) {
        self.words[place] = 0;
        self.words[PLACES + place] = 0;
    }

    /// The first number from `next` on, going round, that is neither 0 nor pending. 64 places and
    /// the 0 block at most 65 numbers.
    pub fn next_free(&self, next: u32) -> u32 {
        let round = (0..=PLACES as u32 + 1).map(|step| next.wrapping_add(step));
        let mut fit = round.filter(|number| *number != 0 && self.place(*number).is_none());
        fit.next().expect("66 numbers cannot all be blocked")
    }
}
