//! Bad calls and files cut short, worked out by hand: each ends its run, and the reading order
//! decides which of the two is said.

use crate::calls_cases::Worked;

const fn ends(name: &'static str, calls: &'static str, lines: &'static str) -> Worked {
    Worked { name, calls, lines }
}

const BAD: &str = "0 bad call\n";
const CUT: &str = "cut short\n";

pub const CASES: &[Worked] = &[
    ends("nothing at all", "", ""),
    ends("one byte", "00", CUT),
    ends("a code alone", "000A", CUT),
    ends("no such code not seen yet", "0063 00", CUT),
    ends("code 0", "0000 0000", BAD),
    ends("code 18", "0012 0000", BAD),
    ends("code 19", "0013 0001 | 00000001 01", BAD),
    ends("code 24", "0018 0000", BAD),
    ends("a code in the high byte", "0A00 0000", BAD),
    ends("an argument too many", "000A 0001", BAD),
    ends("too many by 256", "000A 0100", BAD),
    ends("an argument too few", "0007 0000 | 00000001 01", BAD),
    ends(
        "bad behind a good one",
        "000A 0000 | 000A 0001 | 000A 0000",
        "0 count 1\n1 bad call\n",
    ),
    ends("cut behind a good one", "000A 0000 | 000A 00", "0 count 1\ncut short\n"),
    ends("a number of no bytes", "0007 0001 | 00000000", BAD),
    ends("a number of nine bytes", "0007 0001 | 00000009", BAD),
    ends("a number cut", "0007 0001 | 00000002 00", CUT),
    ends("a length cut", "0007 0001 | 000000", CUT),
    ends("a number too wide", "0007 0001 | 00000002 0100", BAD),
    ends(
        "a number in eight bytes",
        "0007 0001 | 00000008 0000000000000005",
        "0 platform 5\n",
    ),
    // Too wide, but the call is not whole.
    ends(
        "too wide and cut",
        "0001 0002 | 00000002 0100 | 00000002 00",
        CUT,
    ),
    ends(
        "too wide and whole",
        "0001 0002 | 00000002 0100 | 00000002 0000",
        BAD,
    ),
    ends(
        "128 words of a list announced",
        "0017 0003 | 00000001 01 | 00000001 00 | 00000400",
        CUT,
    ),
    ends(
        "a byte more of a list announced",
        "0017 0003 | 00000001 01 | 00000001 00 | 00000401",
        BAD,
    ),
    ends(
        "129 words of a list there",
        "0017 0003 | 00000001 01 | 00000001 00 | 00000408 00*1032",
        BAD,
    ),
    ends(
        "128 words of a list there",
        "0017 0003 | 00000001 01 | 00000001 00 | 00000400 00*1024",
        "0 platform 1\n",
    ),
    ends(
        "half a word of a list",
        "0017 0003 | 00000001 01 | 00000001 00 | 0000000C 00*12",
        BAD,
    ),
    ends(
        "half a word of a list and cut",
        "0017 0003 | 00000001 01 | 00000001 00 | 0000000C 00*11",
        CUT,
    ),
    ends(
        "too wide and then a list too long",
        "0017 0003 | 00000002 0100 | 00000005 0100000000 | 00000401",
        BAD,
    ),
    ends(
        "a next number too wide",
        "0017 0003 | 00000001 01 | 00000005 0100000000 | 00000000",
        BAD,
    ),
    ends(
        "a target too wide for a call",
        "0014 0005 | 00000000 | 00000001 07 | 00000005 0100000000 | 00000000 | 00000001 14",
        BAD,
    ),
    ends(
        "a request over no table",
        "0014 0005 | 00000000 | 00000001 07 | 00000004 FFFFFFFF | 00000000 | 00000001 14",
        "0 refused 30\n",
    ),
    ends("a number to cancel too wide", "0015 0001 | 00000005 0100000001", BAD),
    ends("a number to ask for too wide", "0016 0001 | 00000005 0100000001", BAD),
    ends("70001 bytes announced", "0004 0001 | 00011171", BAD),
    ends("70001 bytes there", "0004 0001 | 00011171 00*70001", BAD),
    ends("70000 bytes announced", "0004 0001 | 00011170", CUT),
    ends(
        "70000 bytes there",
        "0004 0001 | 00011170 00*70000",
        "0 refused 31\n",
    ),
    ends(
        "65536 words announced",
        "0006 0004 | 00000000 | 00000001 00 | 00080000",
        CUT,
    ),
    ends(
        "a byte more announced",
        "0006 0004 | 00000000 | 00000001 00 | 00080001",
        BAD,
    ),
    ends(
        "65536 words there",
        "0006 0004 | 00000010 0001 00000006 00000000 0000 0000 0000 | 00000001 00 | 00080000 00*524288 | 00000001 01",
        "0 refused 41 1 1\n",
    ),
    ends(
        "half a word",
        "0006 0004 | 00000000 | 00000001 00 | 00000007 00*7 | 00000001 00",
        BAD,
    ),
    ends(
        "a word and a half",
        "0006 0004 | 00000000 | 00000001 00 | 0000000C 00*12 | 00000001 00",
        BAD,
    ),
    ends(
        "half a word and cut",
        "000E 0004 | 00000000 | 00000001 00 | 00000007 00*7 | 00000001",
        CUT,
    ),
    ends(
        "half a record",
        "000B 0004 | 00000001 18 | 0000000A 00*10 | 00000000 | 00000000",
        BAD,
    ),
    ends(
        "seen is 129",
        "000B 0004 | 00000001 18 | 0000000B 0001 81 00000000 00000000 | 00000018 00*24 | 00000005 3001 0000 41",
        BAD,
    ),
    ends(
        "seen is 2",
        "000B 0004 | 00000001 18 | 0000000B 0001 02 00000000 00000000 | 00000018 00*24 | 00000005 3001 0000 41",
        BAD,
    ),
    ends(
        "a room size too wide",
        "000B 0004 | 00000005 0100000018 | 0000000B 0001 00 00000000 00000000 | 00000018 00*24 | 00000005 3001 0000 41",
        BAD,
    ),
    ends(
        "an output of 70001 bytes",
        "0008 0003 | 00000000 | 00000000 | 00000003 011171",
        BAD,
    ),
    ends(
        "an output of 70000 bytes",
        "0008 0003 | 00000000 | 00000000 | 00000003 011170",
        "0 refused 30\n",
    ),
    ends(
        "an output of 65537 words",
        "0005 0004 | 00000000 | 00000001 00 | 00000000 | 00000003 010001",
        BAD,
    ),
    ends(
        "an output of 65536 words",
        "0005 0004 | 00000000 | 00000001 00 | 00000000 | 00000003 010000",
        "0 refused 30\n",
    ),
    ends(
        "a type number too wide",
        "000D 0004 | 00000000 | 00000003 010000 | 00000000 | 00000001 00",
        BAD,
    ),
    ends("an id too wide", "000F 0002 | 00000000 | 00000005 0100000000", BAD),
    ends("an own platform too wide", "0007 0001 | 00000002 0100", BAD),
    ends("a platform too wide", "0009 0001 | 00000005 0100000000", BAD),
    ends(
        "a domain too wide",
        "0002 0006 | 00000001 01 | 00000002 0101 | 00000001 01 | 00000001 09 | 00000000 | 00000001 20",
        BAD,
    ),
    ends(
        "a sequence number too wide",
        "0002 0006 | 00000001 01 | 00000001 01 | 00000001 01 | 00000005 0100000009 | 00000000 | 00000001 20",
        BAD,
    ),
];
