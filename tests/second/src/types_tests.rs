//! The type table's rules on tables worked out by hand.

use crate::hex::bytes;
use crate::types::{check, integer_allows, Shape};

/// 01's whole table: a record of two uint16, 28 bytes.
pub const RECORD: &str =
    "0002 | 0000 0008 0000 0000 | 0002 0000 0000 0002 | 0002 0000 0000 | 0000 | 0000";

fn answer(table: &str) -> u8 {
    check(&bytes(table)).err().unwrap_or(0)
}

/// Types only: the other sections empty.
fn types(count: usize, entries: &str) -> u8 {
    answer(&format!("{count:04X} {entries} 0000 0000 0000"))
}

/// One enum of int-ish base with these values, each a 64-bit word.
fn enumeration(base: u16, values: &[u64]) -> u8 {
    let words: String = values
        .iter()
        .map(|value| format!("{value:016X} "))
        .collect();
    let n = values.len();
    answer(&format!(
        "0001 0001 {base:04X} 0000 {n:04X} 0000 {n:04X} {words} 0000"
    ))
}

fn operations(count: usize, entries: &str) -> u8 {
    answer(&format!(
        "0001 0000 0008 0000 0000 0000 0000 {count:04X} {entries}"
    ))
}

#[test]
fn the_table_of_01() {
    let table = check(&bytes(RECORD)).unwrap();
    assert_eq!((table.types.len(), table.members, table.values), (2, 2, 0));
    assert_eq!(table.operations, []);
    assert!(matches!(&*table.types[1], Shape::Record(parts) if parts.len() == 2));
}

/// Each cut of it is 30, and so is a byte behind it.
#[test]
fn cut_short_or_left_over() {
    let whole = bytes(RECORD);
    assert_eq!(whole.len(), 28);
    for length in 0..28 {
        assert_eq!(check(&whole[..length]).unwrap_err(), 30, "{length}");
    }
    assert_eq!(answer(&format!("{RECORD} 00")), 30);
}

/// A count outside its limit is met before the entries that are missing behind it, and after
/// those missing before it.
#[test]
fn counts_in_reading_order() {
    assert_eq!(answer("0000"), 31);
    assert_eq!(answer("0101"), 31);
    assert_eq!(answer("01"), 30);
    assert_eq!(answer("0100"), 30);
    assert_eq!(answer("0002 0000 0008 0000 0000 0401"), 30);
    assert_eq!(answer("0001 0000 0008 0000 0000 0401"), 31);
    assert_eq!(answer("0001 0000 0008 0000 0000 0000 0401"), 31);
    assert_eq!(answer("0001 0000 0008 0000 0000 0000 0000 0401"), 31);
    assert_eq!(
        answer("0001 0000 0008 0000 0000 0400 0000*1024 0000 0000"),
        0
    );
    // 31 in a later section goes before 32 in an earlier one.
    assert_eq!(answer("0001 0009 0008 0000 0000 0000 0000 0401"), 31);
    // And a byte left over before 32.
    assert_eq!(answer("0001 0009 0008 0000 0000 0000 0000 0000 00"), 30);
    assert_eq!(answer("0100 0000000800000000*256 0000 0000 0000"), 0);
}

#[test]
fn bases_and_unused_fields() {
    assert_eq!(types(1, "0000 000C 0000 0000"), 0);
    assert_eq!(types(1, "0000 000D 0000 0000"), 32);
    assert_eq!(types(1, "0000 0008 0001 0000"), 32);
    assert_eq!(types(1, "0000 0008 0000 0001"), 32);
    assert_eq!(types(1, "0005 0000 0000 0001"), 32);
}

#[test]
fn arrays() {
    let uint8 = "0000 0006 0000 0000";
    assert_eq!(types(2, &format!("{uint8} 0003 0000 0000 0001")), 0);
    assert_eq!(types(2, &format!("{uint8} 0004 0000 0000 0001")), 0);
    // Its own number, a larger one, a used `first`, count 0.
    for kind in ["0003", "0004"] {
        assert_eq!(types(2, &format!("{uint8} {kind} 0001 0000 0001")), 32);
        assert_eq!(types(2, &format!("{uint8} {kind} 0002 0000 0001")), 32);
        assert_eq!(types(2, &format!("{uint8} {kind} 0000 0001 0001")), 32);
        assert_eq!(types(2, &format!("{uint8} {kind} 0000 0000 0000")), 32);
    }
    // The element comes later in the table, although it exists.
    assert_eq!(types(2, &format!("0003 0001 0000 0001 {uint8}")), 32);
}

#[test]
fn records() {
    let of = |second: &str, members: &str| {
        answer(&format!(
            "0002 0000 0008 0000 0000 {second} {members} 0000 0000"
        ))
    };
    assert_eq!(of("0002 0000 0000 0001", "0001 0000"), 0);
    assert_eq!(of("0002 0001 0000 0001", "0001 0000"), 32);
    assert_eq!(of("0002 0000 0000 0000", "0001 0000"), 32);
    assert_eq!(of("0002 0000 0001 0001", "0001 0000"), 32);
    assert_eq!(of("0002 0000 0000 0002", "0001 0000"), 32);
    assert_eq!(of("0002 0000 0000 0001", "0001 0001"), 32);
    // No type points to the second member, so its number is not judged.
    assert_eq!(of("0002 0000 0000 0001", "0002 0000 FFFF"), 0);
    assert_eq!(of("0002 0000 0001 0001", "0002 FFFF 0000"), 0);
    // first + count is 0x10001 and must not be taken for 1.
    assert_eq!(of("0002 0000 FFFF 0002", "0001 0000"), 32);
    assert_eq!(of("0002 0000 0002 FFFF", "0001 0000"), 32);
}

#[test]
fn enums() {
    for base in [1, 3, 4, 5, 6, 7, 8, 9, 10] {
        assert_eq!(enumeration(base, &[0, 5, 127]), 0, "{base}");
    }
    for base in [0, 2, 11, 12, 13] {
        assert_eq!(enumeration(base, &[0, 1]), 32, "{base}");
    }
    assert_eq!(enumeration(6, &[1, 2, 1]), 32);
    assert_eq!(enumeration(6, &[2, 1]), 0);
    assert_eq!(enumeration(6, &[255]), 0);
    assert_eq!(enumeration(6, &[256]), 32);
    // R32: -1 in an int8 is sixteen F's, and 0xFF is not allowed there.
    assert_eq!(enumeration(1, &[u64::MAX]), 0);
    assert_eq!(enumeration(1, &[0xFF]), 32);
    assert_eq!(enumeration(8, &[u64::MAX]), 32);
    assert_eq!(enumeration(10, &[u64::MAX]), 0);
    assert_eq!(enumeration(5, &[u64::MAX, 0x8000_0000_0000_0000]), 0);
    // first + count beyond the section; values that no type points to may be equal.
    assert_eq!(answer("0001 0001 0006 0001 0002 0000 0002 00*16 0000"), 32);
    assert_eq!(answer("0001 0001 0006 FFFF 0002 0000 0002 00*16 0000"), 32);
    assert_eq!(answer("0001 0001 0006 0001 0001 0000 0002 00*16 0000"), 0);
    assert_eq!(answer("0001 0001 0006 0000 0002 0000 0002 00*16 0000"), 32);
}

#[test]
fn operations_rise_and_are_typed() {
    assert_eq!(operations(1, "00000000 0000 0000"), 0);
    assert_eq!(operations(1, "FFFFFFFE 0000 FFFF"), 0);
    assert_eq!(operations(1, "FFFFFFFF 0000 0000"), 32);
    assert_eq!(operations(1, "00000001 0001 FFFF"), 32);
    assert_eq!(operations(1, "00000001 0001 0000"), 0);
    assert_eq!(operations(1, "00000001 0004 0000"), 32);
    assert_eq!(operations(1, "00000001 0000 0001"), 32);
    assert_eq!(operations(1, "00000001 0001 0001"), 32);
    assert_eq!(operations(2, "00000001 0000 0000 00000002 0000 0000"), 0);
    assert_eq!(operations(2, "00000002 0000 0000 00000002 0000 0000"), 32);
    assert_eq!(operations(2, "00000003 0000 0000 00000002 0000 0000"), 32);
}

/// Request 1: kinds 2 and 3 have two bytes more, and every other kind has not, one that does not
/// exist among them; the widths are judged before the kind.
#[test]
fn entries_of_both_widths() {
    for kind in ["0002", "0003"] {
        for (of, response) in [
            ("0000", "0000"),
            ("FFFF", "0000"),
            ("0000", "FFFF"),
            ("FFFF", "FFFF"),
        ] {
            let entry = format!("00000001 {kind} {of} {response}");
            assert_eq!(operations(1, &entry), 0, "{entry}");
            for cut in 1..=3 {
                let whole = bytes(&entry);
                let less: String = whole[..10 - cut]
                    .iter()
                    .map(|b| format!("{b:02X} "))
                    .collect();
                assert_eq!(operations(1, &less), 30, "{entry} less {cut}");
            }
        }
        for (of, response) in [
            ("0001", "FFFF"),
            ("FFFF", "0001"),
            ("FFFE", "0000"),
            ("0000", "FFFE"),
        ] {
            assert_eq!(
                operations(1, &format!("00000001 {kind} {of} {response}")),
                32
            );
        }
        assert_eq!(operations(1, &format!("FFFFFFFF {kind} 0000 0000")), 32);
        assert_eq!(operations(1, &format!("00000001 {kind} 0000 0000 00")), 30);
    }
    for kind in ["0004", "0005", "0200", "0300", "0102", "FFFF"] {
        assert_eq!(
            operations(1, &format!("00000001 {kind} 0000")),
            32,
            "{kind}"
        );
        assert_eq!(
            operations(1, &format!("00000001 {kind} 0000 FFFF")),
            30,
            "{kind}"
        );
    }
    for kind in ["0000", "0001"] {
        assert_eq!(
            operations(1, &format!("00000001 {kind} 0000 0000")),
            30,
            "{kind}"
        );
    }
    let (narrow, wide) = ("00000001 0000 FFFF", "00000001 0002 FFFF FFFF");
    assert_eq!(
        operations(2, &format!("{narrow} 00000002 0003 0000 0000")),
        0
    );
    assert_eq!(operations(2, &format!("{wide} 00000002 0001 0000")), 0);
    assert_eq!(operations(2, &format!("{wide} 00000002 0003 0000 FFFF")), 0);
    // IDs rise over all kinds.
    assert_eq!(operations(2, &format!("{wide} 00000001 0001 0000")), 32);
    assert_eq!(
        operations(2, &format!("{narrow} 00000000 0003 0000 0000")),
        32
    );
    assert_eq!(operations(1025, "00000001 0002 FFFF FFFF"), 31);
}

#[test]
fn what_an_operation_carries() {
    let table = bytes(
        "0001 0000 0008 0000 0000 0000 0000 0004 00000001 0000 FFFF 00000002 0002 FFFF 0000 \
         00000003 0001 0000 00000004 0003 0000 FFFF",
    );
    let table = check(&table).unwrap();
    let told = |id| table.operation(id).map(|op| (op.kind, op.of, op.response));
    assert_eq!(told(1), Some((0, 0xFFFF, 0xFFFF)));
    assert_eq!(told(2), Some((2, 0xFFFF, 0)));
    assert_eq!(told(3), Some((1, 0, 0xFFFF)));
    assert_eq!(told(4), Some((3, 0, 0xFFFF)));
    assert_eq!((told(0), told(5)), (None, None));
}

#[test]
fn sizes() {
    let uint16 = "0000 0008 0000 0000";
    let uint8 = "0000 0006 0000 0000";
    // 32,768 of two bytes are 65,536; one more is 33.
    assert_eq!(types(2, &format!("{uint16} 0003 0000 0000 8000")), 0);
    assert_eq!(types(2, &format!("{uint16} 0003 0000 0000 8001")), 33);
    // An array's count takes four: 65,532 of one byte fit.
    assert_eq!(types(2, &format!("{uint8} 0004 0000 0000 FFFC")), 0);
    assert_eq!(types(2, &format!("{uint8} 0004 0000 0000 FFFD")), 33);
    // A record's sum: 65,535 and 1, then 65,535 and 2.
    let pair = |last: &str| {
        let three = format!("{last} 0003 0000 0000 0001 0000 0006 0000 0000 0003 0002 0000 FFFF");
        answer(&format!(
            "0005 {three} 0002 0000 0000 0002 0002 0000 0003 0000 0000"
        ))
    };
    assert_eq!(pair(uint8), 0);
    assert_eq!(pair(uint16), 33);
    // 33 is judged though nothing uses the type, and products do not wrap at 32 or 64 bits.
    let tower: String = (0..9).map(|i| format!("0003 {i:04X} 0000 8000 ")).collect();
    assert_eq!(types(10, &format!("{uint8} {tower}")), 33);
    // R18: the second type can exceed 65,536, but the third breaks a rule.
    assert_eq!(
        types(
            3,
            &format!("{uint16} 0003 0000 0000 8001 0009 0000 0000 0000")
        ),
        32
    );
    // An operation that breaks a rule also comes before.
    assert_eq!(
        answer(&format!(
            "0002 {uint16} 0003 0000 0000 8001 0000 0000 0001 FFFFFFFF 0000 0000"
        )),
        32
    );
}

#[test]
fn ranges_of_integers() {
    assert!(integer_allows(1, 127) && !integer_allows(1, 128));
    assert!(integer_allows(1, 0xFFFF_FFFF_FFFF_FF80) && !integer_allows(1, 0xFFFF_FFFF_FFFF_FF7F));
    assert!(integer_allows(4, 0x7FFF_FFFF) && !integer_allows(4, 0x8000_0000));
    assert!(integer_allows(9, 0xFFFF_FFFF) && !integer_allows(9, 0x1_0000_0000));
    assert!(integer_allows(5, u64::MAX) && integer_allows(10, u64::MAX));
}
