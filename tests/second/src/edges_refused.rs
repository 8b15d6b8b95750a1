//! Edges of refused datagrams: 21, 22 and 23, in this order, and none changes anything.

use crate::edges::Edge;

pub const EDGES: &[Edge] = &[
    Edge {
        name: "refused-21-by-length",
        bytes: "0001 00000018 0001 | 0000 | 0001 30 | 0004 30010000 | 0005 3001000041 \
                | FFE4 30010001 41*65504 | FFFF 30010001 41*65531 | FFE3 30010001 41*65503",
        lines: "0 refused 21\n1 refused 21\n2 refused 21\n3 delivered 0 1\n4 refused 21\n\
                5 refused 21\n6 delivered 0 65503\n",
    },
    // Version bits 01, 10, 11; the part and the sender are good.
    Edge {
        name: "refused-22-each-version",
        bytes: "0001 00000018 0001 | 0005 7001000041 | 0005 B001000041 | 0005 F001000041 \
                | 0005 3001000041",
        lines: "0 refused 22\n1 refused 22\n2 refused 22\n3 delivered 0 1\n",
    },
    // Same channel on another platform, same platform and another channel.
    Edge {
        name: "refused-23-sender-not-set-up",
        bytes: "0001 00000018 0102 | 0005 3002000041 | 0005 3101000041 | 0005 3203000041 \
                | 0005 3102000041",
        lines: "0 refused 23\n1 refused 23\n2 refused 23\n3 delivered 0 1\n",
    },
    // Too short before bad version before unknown sender.
    Edge {
        name: "refused-lowest-number-first",
        bytes: "0001 00000018 0001 | 0004 70020000 | 0005 7002000041 | 0005 3002000041",
        lines: "0 refused 21\n1 refused 22\n2 refused 23\n",
    },
    // Between the pieces of a message stand one of each, bearing the next counter: the message
    // is delivered all the same, and the number of the line counts them.
    Edge {
        name: "refused-between-pieces-changes-nothing",
        bytes: "0001 00000018 0001 | 0005 0001000041 | 0004 10010001 | 0005 5001000142 \
                | 0005 1002000142 | 0005 1001000142 | 0000 | 0005 2001000243",
        lines: "0 held 0 1\n1 refused 21\n2 refused 22\n3 refused 23\n4 held 0 2\n5 refused 21\n\
                6 delivered 0 3\n",
    },
    // A refused one is not the first seen: the next starts without missed.
    Edge {
        name: "refused-first-is-not-seen",
        bytes: "0001 00000018 0001 | 0005 7001000041 | 0004 30010001 | 0005 3001000941",
        lines: "0 refused 22\n1 refused 21\n2 delivered 0 1\n",
    },
];
