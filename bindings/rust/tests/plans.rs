//! Plans through the wrappers: laid out, gone by, forged, and none.

use nyrkovash::*;

const TABLE: &[u8] = include_bytes!("../../../examples/mission.table");

fn sections() -> Sections {
    let mut sections = Sections::default();
    assert_eq!(check_table(TABLE, &mut sections), OK);
    sections
}

/// The plans of the example's table, in words that are just enough.
fn laid(known: &Sections) -> Vec<u64> {
    let mut length = 0;
    assert_eq!(plans_length(TABLE, known, &mut length), OK);
    let mut words = vec![7; length];
    assert_eq!(plans(TABLE, known, &mut words), OK);
    words
}

fn refused(number: u32, spot: Option<(usize, usize)>) -> Result<usize, Refused> {
    let spot = spot.map(|(at, leaves)| Spot { at, leaves });
    Err(Refused { number, spot })
}

/// Nine types, of which 4 and 5 have a counted array: the others have 1, 1, 1, 3, 1, 1 and 2 leaves.
#[test]
fn laid_out() {
    let (known, mut length) = (sections(), 9);
    assert_eq!(plans_length(&TABLE[..9], &known, &mut length), TABLE_LENGTH);
    assert_eq!(length, 9);
    assert_eq!(plans_length(TABLE, &known, &mut length), OK);
    assert_eq!(length, 1 + 9 + 10);
    let mut words = vec![7; length + 2];
    assert_eq!(plans(TABLE, &known, &mut words[..length - 1]), NO_ROOM);
    assert_eq!(plans(&TABLE[..9], &known, &mut words), TABLE_LENGTH);
    assert_eq!(words, vec![7; length + 2]);
    assert_eq!(plans(TABLE, &known, &mut words), OK);
    assert_eq!(words[length..], [7, 7]);
    assert_eq!(words[..1 + 9], laid(&known)[..1 + 9]);
}

/// Type 8, a boolean8 and an int16, has a plan, and its sections are not looked at.
#[test]
fn by_a_plan() {
    let (known, payload, values) = (sections(), [1, 0xFF, 0xFE], [1, -2i64 as u64]);
    let (plans, nowhere) = (laid(&known), Sections { words: [!0; 1032] });
    let (mut words, mut bytes) = ([0; 4], [0; 8]);
    assert_eq!(
        unpack_by(TABLE, &nowhere, &plans, 8, &payload, &mut words),
        Ok(2)
    );
    assert_eq!(words, [values[0], values[1], 0, 0]);
    assert_eq!(
        pack_by(TABLE, &nowhere, &plans, 8, &values, &mut bytes),
        Ok(3)
    );
    assert_eq!(bytes, [1, 0xFF, 0xFE, 0, 0, 0, 0, 0]);
    assert_eq!(
        unpack_by(TABLE, &known, &plans, 8, &payload[..2], &mut words),
        refused(INPUT_SHORT, Some((1, 1)))
    );
    assert_eq!(
        pack_by(TABLE, &known, &plans, 8, &[1, 1 << 15], &mut bytes),
        refused(VALUE, Some((1, 1)))
    );
    assert_eq!(
        pack_by(TABLE, &known, &plans, 8, &values, &mut bytes[..2]),
        refused(OUTPUT_SHORT, None)
    );
    assert_eq!(
        unpack_by(TABLE, &nowhere, &plans, 9, &payload, &mut words),
        refused(TABLE_LENGTH, None)
    );
    assert_eq!(
        unpack_by(TABLE, &known, &plans, 9, &payload, &mut words),
        refused(NO_TYPE, None)
    );
}

/// Type 5, a mode and up to 4 tracks, has none; its tracks do. By no plans all is the same.
#[test]
fn with_parts_that_have_plans() {
    let (known, good) = (sections(), [4, 2, 1, 0x3FC0_0000, 0, 0x102, 0x42C8_0000, 0]);
    let plans = laid(&known);
    for plans in [&plans[..], &[]] {
        let (mut words, mut bytes) = ([7; 9], [7; 25]);
        assert_eq!(pack_by(TABLE, &known, plans, 5, &good, &mut bytes), Ok(25));
        let mut ask = |payload: &[u8]| {
            let told = unpack_by(TABLE, &known, plans, 5, payload, &mut words);
            assert_eq!(unpack_in(TABLE, &known, 5, payload, &mut [7; 9]), told);
            told
        };
        assert_eq!(ask(&bytes[..20]), refused(INPUT_SHORT, Some((17, 6))));
        assert_eq!(ask(&bytes), Ok(8));
        bytes[17..19].fill(0xFF);
        assert_eq!(ask(&bytes), refused(VALUE, Some((17, 6))));
        assert_eq!((&words[..8], words[8]), (&good[..], 7));
    }
}

/// Any words are plans: each of ours with a bit changed, and every call has an answer, the same twice.
#[test]
fn forged() {
    let (known, payload) = (sections(), [1, 0xFF, 0xFE]);
    let plans = laid(&known);
    let right = unpack_by(TABLE, &known, &plans, 8, &payload, &mut [0; 4]);
    let mut others = 0;
    for bit in 0..64 * plans.len() {
        let mut forged = plans.clone();
        forged[bit / 64] ^= 1 << (bit % 64);
        let ask = || unpack_by(TABLE, &known, &forged, 8, &payload, &mut [0; 4]);
        assert_eq!(ask(), ask());
        others += usize::from(ask() != right);
    }
    assert!(others > 0);
}
