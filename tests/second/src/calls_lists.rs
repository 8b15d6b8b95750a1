//! Lists of requests that are handed in, code 23: such as calls make, and forged ones.

use crate::calls_compose::Call;
use crate::calls_ledger::Ledger;
use crate::prng::Prng;

/// What calls could have made: often full or nearly so, in a row from the next number on, across
/// the round.
pub fn ledger(rng: &mut Prng, ids: &[u32], others: &[u32]) -> Ledger {
    let anywhere = rng.draw() as u32;
    let edges = [0, 1, 5, 0xFFFF_FFC0, 0xFFFF_FFE0, 0xFFFF_FFFE, 0xFFFF_FFFF];
    let next = match rng.below(8) {
        0 => anywhere,
        _ => rng.pick(&edges),
    };
    let mut out = Ledger::new(rng.pick(&[0, 1, 64, 255]), next);
    let count = rng.pick(&[0, 1, 2, 10, 50, 62, 63, 63, 64]);
    let mut number = rng.pick(&[next, next, next, next.wrapping_sub(30), anywhere]);
    while out.pending.len() < count {
        if number != 0 {
            out.pending
                .insert(number, (rng.pick(ids), rng.pick(others)));
        }
        number = number.wrapping_add(rng.pick(&[1, 1, 1, 1, 1, 1, 1, 2]));
    }
    out
}

/// What is pending, in any places; those that are free may hold anything but a number.
pub fn words(rng: &mut Prng, ledger: &Ledger, ids: &[u32]) -> Vec<u64> {
    let mut words = vec![0; 128];
    if rng.chance(1, 4) {
        for place in 0..64 {
            (words[place], words[64 + place]) = (u64::from(rng.pick(ids)), rng.draw());
        }
    }
    let mut places: Vec<usize> = (0..64).collect();
    for (number, (id, target)) in &ledger.pending {
        let place = match rng.below(3) {
            0 => places.remove(0),
            _ => places.remove(rng.below(places.len())),
        };
        words[place] = u64::from(*number) << 32 | u64::from(*id);
        words[64 + place] = u64::from(*target);
    }
    words
}

/// Numbers twice, targets that no platform has, and words that are nothing at all. Behind it the
/// ledger tells no more what is pending, only what is worth asking for.
pub fn forge(rng: &mut Prng, words: &mut [u64], ledger: &mut Ledger, ids: &[u32]) {
    for _ in 0..rng.from_to(1, 6) {
        let used = (0..64).filter(|place| words[*place] >> 32 != 0);
        let used: Vec<usize> = used.chain([rng.below(64)]).collect();
        let (at, other) = (rng.below(64), rng.pick(&used));
        match rng.below(6) {
            0 => words[at] = words[other],
            1 | 2 => words[at] = words[other] >> 32 << 32 | u64::from(rng.pick(ids)),
            3 => words[64 + other] |= 1 << rng.from_to(32, 63),
            4 => words[64 + at] = words[64 + other],
            _ => (words[at], words[64 + at]) = (rng.draw(), rng.draw()),
        }
    }
    ledger.pending.clear();
    for place in (0..64).rev().filter(|place| words[*place] >> 32 != 0) {
        let (number, id) = ((words[place] >> 32) as u32, words[place] as u32);
        // A place behind one with the same number: asked for when the first is gone.
        if let Some((id, target)) = ledger
            .pending
            .insert(number, (id, words[64 + place] as u32))
        {
            ledger.past.push((number, id, target));
        }
    }
}

/// Code 23. Words of 0 at the end need not be given.
pub fn hand_in(rng: &mut Prng, ledger: &Ledger, words: &[u64]) -> Call {
    let last = words.iter().rposition(|word| *word != 0);
    let length = match rng.below(2) {
        0 => words.len(),
        _ => last.map_or(0, |last| last + 1),
    };
    Call::new(23)
        .number(rng, u64::from(ledger.own))
        .number(rng, u64::from(ledger.next))
        .words(&words[..length])
}
