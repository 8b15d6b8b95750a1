//! Good tables for 02's request 13: types without a counted array, of up to 512 leaves and of just
//! more, one made of another; enums among leaves of their own base; counted arrays of such types.

use crate::calls_tables::{Draft, ENUM_BASES};
use crate::prng::Prng;

/// The most leaves of which a type has fixed places that are laid out at load.
const MOST: u64 = 512;

/// The size of the types that calls on these tables are about: 513 leaves of 8 bytes, and beside
/// them a little.
pub const FLAT: u64 = 5000;

pub fn flat(rng: &mut Prng) -> Draft {
    let mut draft = Draft::default();
    let code = rng.pick(&ENUM_BASES);
    draft.base(code);
    let values = rng.from_to(1, 4);
    draft.enumeration(rng, code, values);
    draft.base(rng.below(13) as u16);
    let mixed: Vec<u16> = (0..rng.from_to(2, 6))
        .map(|_| rng.below(3) as u16)
        .collect();
    draft.record(&mixed);
    edge(rng, &mut draft, mixed.len() as u64);
    let wanted = rng.pick(&[MOST - 1, MOST, MOST, MOST + 1]);
    draft.array(3, rng.below(3) as u16, wanted);
    within(rng, &mut draft);
    draft.operate(rng, 1);
    draft
}

/// Types 4 to 6: so many of type 3, which has `leaves` leaves, then single ones, and a record of
/// both that has 511, 512 or 513 leaves.
fn edge(rng: &mut Prng, draft: &mut Draft, leaves: u64) {
    let wanted = rng.pick(&[MOST - 1, MOST, MOST, MOST + 1]);
    // One leaf at the least is left for the single ones.
    let most = (wanted - 1) / leaves;
    let times = rng.pick(&[1, 2, most]);
    draft.array(3, 3, times);
    draft.array(3, rng.below(3) as u16, wanted - times * leaves);
    let both = rng.pick(&[[4, 5], [5, 4]]);
    draft.record(&both);
}

/// Behind type 7: one nested once more, a counted array of type 3, and it among others.
fn within(rng: &mut Prng, draft: &mut Draft) {
    let whole = rng.pick(&[6, 7]);
    draft.record(&[whole]);
    draft.array(4, 3, rng.from_to(1, 4) as u64);
    draft.record(&rng.pick(&[[3, 9, 1], [9, 3, 3], [0, 1, 9]]));
    draft.array(rng.pick(&[3, 4]), 10, 2);
}

#[cfg(test)]
mod tests {
    use super::*;
    use crate::calls_values::{value, Of};
    use crate::types;
    use std::collections::BTreeMap;

    /// Every table is good, and the edge of 512 comes from both sides, in an array and nested.
    #[test]
    fn the_edge_comes_often() {
        let mut rng = Prng::new(31);
        let mut seen: BTreeMap<(usize, usize), usize> = BTreeMap::new();
        let mut counted = 0;
        for _ in 0..300 {
            let draft = flat(&mut rng);
            assert!(types::check(&draft.bytes()).is_ok());
            for of in [6, 7, 8] {
                let leaves = value(&mut rng, &draft, of as u16);
                let counts = leaves.iter().filter(|leaf| matches!(leaf.of, Of::Count(_)));
                assert_eq!(counts.count(), 0);
                assert!(draft.sizes[of] <= FLAT);
                *seen.entry((of, leaves.len())).or_default() += 1;
            }
            let leaves = value(&mut rng, &draft, 10);
            counted += usize::from(leaves.iter().any(|leaf| matches!(leaf.of, Of::Count(_))));
        }
        let edges = [6, 7, 8]
            .into_iter()
            .flat_map(|of| [(of, 511), (of, 512), (of, 513)]);
        assert!(seen.keys().copied().eq(edges), "{seen:?}");
        assert!(seen.values().all(|count| *count > 40), "{seen:?}");
        assert_eq!(counted, 300);
    }
}
