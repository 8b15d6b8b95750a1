//! Payloads worked out by hand: 01's edges with a star and without, and the order of refusals.

use crate::hex::bytes;
use crate::payload;
use crate::types_tests::RECORD;

const PLENTY: usize = 70000;

// Numbers only: the places are worked out in places_tests.
fn unpack(table: &[u8], of: usize, payload: &[u8], room: usize) -> Result<Vec<u64>, u8> {
    payload::unpack(table, of, payload, room).map_err(|refused| refused.number)
}

fn pack(table: &[u8], of: usize, words: &[u64], room: usize) -> Result<Vec<u8>, u8> {
    payload::pack(table, of, words, room).map_err(|refused| refused.number)
}

/// A table of this one base.
fn base(code: u16) -> Vec<u8> {
    bytes(&format!("0001 0000 {code:04X} 0000 0000 0000 0000 0000"))
}

fn reads(code: u16, payload: &str) -> Result<u64, u8> {
    unpack(&base(code), 0, &bytes(payload), PLENTY).map(|words| words[0])
}

fn writes(code: u16, word: u64) -> Result<Vec<u8>, u8> {
    pack(&base(code), 0, &[word], PLENTY)
}

/// Type 0 uint8, 1 an array of up to 3 of it, 2 a record of uint8, that array and uint8.
fn mixed() -> Vec<u8> {
    bytes(
        "0003 0000 0006 0000 0000 0004 0000 0000 0003 0002 0000 0000 0003 \
         0003 0000 0001 0000 0000 0000",
    )
}

#[test]
fn starred_integers() {
    assert_eq!(writes(8, 258), Ok(bytes("0102")));
    assert_eq!(reads(8, "0102"), Ok(258));
    assert_eq!(reads(3, "FFFE"), Ok(0xFFFF_FFFF_FFFF_FFFE));
    assert_eq!(writes(3, 0xFFFF_FFFF_FFFF_FFFE), Ok(bytes("FFFE")));
    assert_eq!(writes(3, 0xFFFE), Err(42));
    assert_eq!(writes(1, 127), Ok(bytes("7F")));
    assert_eq!(writes(1, 128), Err(42));
    assert_eq!(writes(1, 0xFFFF_FFFF_FFFF_FF80), Ok(bytes("80")));
    assert_eq!(writes(6, 256), Err(42));
}

#[test]
fn starred_booleans_and_floats() {
    assert_eq!(reads(0, "07"), Ok(1));
    assert_eq!(reads(0, "00"), Ok(0));
    assert_eq!(writes(0, 1), Ok(bytes("01")));
    assert_eq!(writes(0, 2), Err(42));
    assert_eq!(reads(11, "7F7FFFFF"), Ok(0x7F7F_FFFF));
    assert_eq!(reads(11, "80000000"), Ok(0x8000_0000));
    assert_eq!(reads(11, "7F800000"), Err(42));
    assert_eq!(reads(11, "FFC00001"), Err(42));
    assert_eq!(writes(11, 0x7F80_0000), Err(42));
    assert_eq!(writes(11, 0x1_0000_0000), Err(42));
    assert_eq!(reads(12, "7FEFFFFFFFFFFFFF"), Ok(0x7FEF_FFFF_FFFF_FFFF));
    assert_eq!(reads(12, "7FF0000000000000"), Err(42));
    assert_eq!(writes(12, 0xFFF0_0000_0000_0000), Err(42));
}

/// The smallest and the largest of every width, there and back.
#[test]
fn every_base_at_its_ends() {
    let ends: [(u16, &str, u64); 20] = [
        (1, "80", 0xFFFF_FFFF_FFFF_FF80),
        (1, "7F", 127),
        (2, "00", 0),
        (2, "7F", 127),
        (3, "8000", 0xFFFF_FFFF_FFFF_8000),
        (3, "7FFF", 0x7FFF),
        (4, "80000000", 0xFFFF_FFFF_8000_0000),
        (4, "7FFFFFFF", 0x7FFF_FFFF),
        (5, "8000000000000000", 0x8000_0000_0000_0000),
        (5, "FFFFFFFFFFFFFFFF", u64::MAX),
        (6, "FF", 255),
        (7, "FF", 255),
        (8, "FFFF", 65535),
        (9, "FFFFFFFF", 0xFFFF_FFFF),
        (9, "00000001", 1),
        (10, "FFFFFFFFFFFFFFFF", u64::MAX),
        (10, "0102030405060708", 0x0102_0304_0506_0708),
        (11, "00000001", 1),
        (12, "8000000000000000", 0x8000_0000_0000_0000),
        (0, "01", 1),
    ];
    for (code, wire, word) in ends {
        assert_eq!(reads(code, wire), Ok(word), "{code} {wire}");
        assert_eq!(writes(code, word), Ok(bytes(wire)), "{code} {wire}");
    }
    for (code, word) in [
        (2, 128),
        (7, 256),
        (8, 65536),
        (9, 1 << 32),
        (4, 1 << 31),
        (3, 32768),
    ] {
        assert_eq!(writes(code, word), Err(42), "{code}");
    }
}

/// 02, request 2: bytes and words above 127 are 42; uint8 and byte keep all 256.
#[test]
fn char8_is_ascii() {
    for value in 0..=255u8 {
        let wire = format!("{value:02X}");
        let word = u64::from(value);
        let (read, written) = match value {
            0..=127 => (Ok(word), Ok(vec![value])),
            _ => (Err(42), Err(42)),
        };
        assert_eq!(reads(2, &wire), read, "{wire}");
        assert_eq!(writes(2, word), written, "{wire}");
        for all in [6, 7] {
            assert_eq!(reads(all, &wire), Ok(word), "{all} {wire}");
            assert_eq!(writes(all, word), Ok(vec![value]), "{all} {wire}");
        }
    }
    // What would be ASCII if it were cut to its byte, or to seven bits of it.
    for word in [0x141, 0xC1, 1 << 32 | 0x41, 1 << 63, u64::MAX] {
        assert_eq!(writes(2, word), Err(42), "{word}");
    }
}

/// In an array the first met from the left is given, as anywhere.
#[test]
fn arrays_of_char8() {
    let table = bytes("0002 0000 0002 0000 0000 0004 0000 0000 0003 0000 0000 0000");
    let read = |wire: &str| unpack(&table, 1, &bytes(wire), PLENTY);
    assert_eq!(read("00000003 00417F"), Ok(vec![3, 0, 0x41, 0x7F]));
    for bad in ["00000002 4180", "00000003 804141", "00000003 414180"] {
        assert_eq!(read(bad), Err(42), "{bad}");
    }
    // Cut behind the bad byte, and before it; a count over the maximum; a bad byte left over.
    assert_eq!(read("00000003 4180"), Err(42));
    assert_eq!(read("00000003 4141"), Err(40));
    assert_eq!(read("00000004 80414141"), Err(43));
    assert_eq!(read("00000001 4180"), Err(41));
    let write = |words: &[u64]| pack(&table, 1, words, PLENTY);
    assert_eq!(write(&[3, 0, 0x41, 0x7F]), Ok(bytes("00000003 00417F")));
    assert_eq!(write(&[2, 0x41, 0x80]), Err(42));
    assert_eq!(write(&[3, 0x80, 0x41, 0x41]), Err(42));
    assert_eq!(write(&[3, 0x80]), Err(42));
    assert_eq!(write(&[3, 0x41]), Err(40));
    assert_eq!(write(&[4, 0x80]), Err(43));
    assert_eq!(write(&[1, 0x41, 0x80]), Err(41));
}

/// Array of uint8, maximum 3, and the record round it.
#[test]
fn arrays_and_records() {
    let table = mixed();
    assert_eq!(unpack(&table, 1, &bytes("00000000"), PLENTY), Ok(vec![0]));
    assert_eq!(
        unpack(&table, 1, &bytes("00000003 010203"), PLENTY),
        Ok(vec![3, 1, 2, 3])
    );
    assert_eq!(
        unpack(&table, 1, &bytes("00000004 01020304"), PLENTY),
        Err(43)
    );
    // 43 is met before the missing elements, 40 before a count that is cut.
    assert_eq!(unpack(&table, 1, &bytes("00000004"), PLENTY), Err(43));
    assert_eq!(unpack(&table, 1, &bytes("000004"), PLENTY), Err(40));
    assert_eq!(unpack(&table, 1, &bytes("00000003 0102"), PLENTY), Err(40));
    assert_eq!(unpack(&table, 1, &bytes("00000001 0102"), PLENTY), Err(41));
    assert_eq!(
        pack(&table, 1, &[2, 8, 9], PLENTY),
        Ok(bytes("00000002 0809"))
    );
    assert_eq!(pack(&table, 1, &[4, 8, 9], PLENTY), Err(43));
    assert_eq!(pack(&table, 1, &[1 << 32], PLENTY), Err(43));
    assert_eq!(pack(&table, 1, &[2, 8], PLENTY), Err(40));
    assert_eq!(pack(&table, 1, &[1, 8, 9], PLENTY), Err(41));
    assert_eq!(
        unpack(&table, 2, &bytes("AA 00000002 BBCC DD"), PLENTY),
        Ok(vec![0xAA, 2, 0xBB, 0xCC, 0xDD])
    );
    assert_eq!(
        pack(&table, 2, &[0xAA, 2, 0xBB, 0xCC, 0xDD], PLENTY),
        Ok(bytes("AA 00000002 BBCC DD"))
    );
    assert_eq!(
        unpack(&bytes(RECORD), 1, &bytes("0102 0304"), PLENTY),
        Ok(vec![258, 772])
    );
    assert_eq!(
        unpack(&bytes(RECORD), 1, &bytes("0102 03"), PLENTY),
        Err(40)
    );
}

/// A fixed array of arrays gives each one's count where it stands.
#[test]
fn nested() {
    let table =
        bytes("0003 0000 0006 0000 0000 0004 0000 0000 0003 0003 0001 0000 0002 0000 0000 0000");
    let wire = bytes("00000001 AA 00000002 BBCC");
    assert_eq!(
        unpack(&table, 2, &wire, PLENTY),
        Ok(vec![1, 0xAA, 2, 0xBB, 0xCC])
    );
    assert_eq!(pack(&table, 2, &[1, 0xAA, 2, 0xBB, 0xCC], PLENTY), Ok(wire));
}

#[test]
fn enums() {
    // int16 with the values -1 and 258.
    let table = bytes("0001 0001 0003 0000 0002 0000 0002 FF*8 0000000000000102 0000");
    assert_eq!(
        unpack(&table, 0, &bytes("FFFF"), PLENTY),
        Ok(vec![u64::MAX])
    );
    assert_eq!(unpack(&table, 0, &bytes("0102"), PLENTY), Ok(vec![258]));
    assert_eq!(unpack(&table, 0, &bytes("0000"), PLENTY), Err(42));
    assert_eq!(unpack(&table, 0, &bytes("01"), PLENTY), Err(40));
    assert_eq!(pack(&table, 0, &[u64::MAX], PLENTY), Ok(bytes("FFFF")));
    assert_eq!(pack(&table, 0, &[0xFFFF], PLENTY), Err(42));
    assert_eq!(pack(&table, 0, &[0], PLENTY), Err(42));
}

/// 30 to 33 first, then 44, the walk's own from the left, 41, and 45 last.
#[test]
fn order_of_refusals() {
    assert_eq!(unpack(&bytes("0000"), 99, &[], 0), Err(31));
    assert_eq!(pack(&bytes("00"), 99, &[], 0), Err(30));
    assert_eq!(unpack(&base(0), 1, &[], 0), Err(44));
    assert_eq!(unpack(&base(0), 0xFFFF, &bytes("00"), 9), Err(44));
    assert_eq!(pack(&base(0), 1, &[7], 0), Err(44));
    assert_eq!(unpack(&base(6), 0, &bytes("0102"), 0), Err(41));
    assert_eq!(unpack(&base(6), 0, &bytes("01"), 0), Err(45));
    assert_eq!(unpack(&base(6), 0, &bytes("01"), 1), Ok(vec![1]));
    assert_eq!(pack(&base(8), 0, &[1, 2], 0), Err(41));
    assert_eq!(pack(&base(8), 0, &[1], 1), Err(45));
    assert_eq!(pack(&base(8), 0, &[1], 2), Ok(bytes("0001")));
    // A late 42 behind a 40-free start, and a 42 before the end of the input is missed.
    let floats = bytes("0002 0000 000B 0000 0000 0003 0000 0000 0002 0000 0000 0000");
    assert_eq!(unpack(&floats, 1, &bytes("7F800000 00"), PLENTY), Err(42));
    assert_eq!(unpack(&floats, 1, &bytes("00000000 7F80"), PLENTY), Err(40));
    assert_eq!(pack(&floats, 1, &[0x7F80_0000], PLENTY), Err(42));
    assert_eq!(pack(&floats, 1, &[0], PLENTY), Err(40));
}

/// Demand 2 on random words of a type with every base: pack, unpack, the same words again.
#[test]
fn round_trips() {
    let entries: String = (0..13)
        .map(|code| format!("0000 {code:04X} 0000 0000 "))
        .collect();
    let members: String = (0..13).map(|code| format!("{code:04X} ")).collect();
    let table = bytes(&format!(
        "000E {entries} 0002 0000 0000 000D 000D {members} 0000 0000"
    ));
    let mut rng = crate::prng::Prng::new(1);
    let mut passed = 0;
    for _ in 0..500 {
        let mut payload = rng.bytes(45);
        // Of the bytes that a char8 could be one half is refused.
        payload[2] &= 0x7F;
        if let Ok(words) = unpack(&table, 13, &payload, PLENTY) {
            passed += 1;
            let mut again = payload.clone();
            again[0] = u8::from(payload[0] != 0);
            assert_eq!(pack(&table, 13, &words, PLENTY), Ok(again.clone()));
            assert_eq!(unpack(&table, 13, &again, PLENTY), Ok(words));
        }
    }
    assert!(passed > 400, "{passed}");
}
