//! Edges of joining. Byte 1 of a datagram: 0x beginning, 1x middle, 2x end, 3x whole (x platform).
//! Most have one channel of 24 bytes (hex 18), sender 1.

use crate::edges::Edge;

pub const EDGES: &[Edge] = &[
    Edge {
        name: "whole-run-of-01",
        bytes: "0001 00000018 0001 | 0004 00000000",
        lines: "0 refused 21\n",
    },
    Edge {
        name: "counter-last-then-0-wholes",
        bytes: "0001 00000018 0001 | 0005 3001FFFF41 | 0005 3001000042",
        lines: "0 delivered 0 1\n1 delivered 0 1\n",
    },
    Edge {
        name: "counter-last-then-0-inside-a-message",
        bytes: "0001 00000018 0001 | 0006 0001FFFE4142 | 0005 1001FFFF43 | 0007 20010000444546",
        lines: "0 held 0 2\n1 held 0 3\n2 delivered 0 6\n",
    },
    Edge {
        name: "counter-starts-anywhere",
        bytes: "0001 00000018 0001 | 0005 30019C4041",
        lines: "0 delivered 0 1\n",
    },
    // 0 after 1 is 65,534 missed, the most that can be told from a repeat.
    Edge {
        name: "counter-65534-missed",
        bytes: "0001 00000018 0001 | 0005 3001000141 | 0005 3001000042",
        lines: "0 delivered 0 1\n1 delivered 65534 1\n",
    },
    // 0 after 0 is a repeat, 2 after 0 is one missed, 65,535 after 2 is 65,532, 1 after 65,535 is one.
    Edge {
        name: "counter-steps-from-0",
        bytes: "0001 00000018 0001 | 0005 3001000041 | 0005 3001000041 | 0005 3001000242 \
                | 0005 3001FFFF43 | 0005 3001000144",
        lines: "0 delivered 0 1\n1 repeated 0 0\n2 delivered 1 1\n3 delivered 65532 1\n\
                4 delivered 1 1\n",
    },
    Edge {
        name: "too-long-at-24",
        bytes: "0001 00000018 0001 | 001C 00010000 41*24 | 0005 2001000142",
        lines: "0 held 0 24\n1 too long 0 0\n",
    },
    Edge {
        name: "fits-at-24",
        bytes: "0001 00000018 0001 | 001B 00010000 41*23 | 0005 2001000142",
        lines: "0 held 0 23\n1 delivered 0 24\n",
    },
    Edge {
        name: "too-long-beginning-of-25-at-24",
        bytes: "0001 00000018 0001 | 001D 00010000 41*25 | 0005 2001000142 | 0005 0001000243 \
                | 0005 2001000344",
        lines: "0 too long 0 0\n1 stray 0 0\n2 held 0 1\n3 delivered 0 2\n",
    },
    // The too long middle leaves nothing held, so the end behind it is stray.
    Edge {
        name: "too-long-middle-then-end",
        bytes: "0001 00000018 0001 | 0018 00010000 41*20 | 0009 10010001 42*5 | 0005 2001000243",
        lines: "0 held 0 20\n1 too long 0 0\n2 stray 0 0\n",
    },
    Edge {
        name: "too-long-beginning-after-a-loss",
        bytes: "0001 00000018 0001 | 0005 0001000041 | 001D 00010003 41*25",
        lines: "0 held 0 1\n1 too long 2 0\n",
    },
    // A whole never goes through the room.
    Edge {
        name: "whole-longer-than-its-room",
        bytes: "0001 00000018 0001 | 001D 30010000 41*25",
        lines: "0 delivered 0 25\n",
    },
    Edge {
        name: "repeated-end",
        bytes: "0001 00000018 0001 | 0005 0001000041 | 0005 2001000142 | 0005 2001000142 \
                | 0005 2001000243",
        lines: "0 held 0 1\n1 delivered 0 2\n2 repeated 0 0\n3 stray 0 0\n",
    },
    Edge {
        name: "repeated-middle",
        bytes: "0001 00000018 0001 | 0005 0001000041 | 0005 1001000142 | 0005 1001000142 \
                | 0005 1001000142 | 0005 2001000243",
        lines: "0 held 0 1\n1 held 0 2\n2 repeated 0 0\n3 repeated 0 0\n4 delivered 0 3\n",
    },
    // What is repeated is told by the counter alone, not by part or bytes.
    Edge {
        name: "repeated-counter-other-bytes",
        bytes: "0001 00000018 0001 | 0005 0001000041 | 0009 30010000 42*5 | 001E 00010000 43*26 \
                | 0005 2001000144",
        lines: "0 held 0 1\n1 repeated 0 0\n2 repeated 0 0\n3 delivered 0 2\n",
    },
    // A stray and a too long move the counter too, so a copy of either is a repeat.
    Edge {
        name: "repeated-stray-and-too-long",
        bytes: "0001 00000018 0001 | 0005 2001000041 | 0005 2001000041 | 001D 00010001 41*25 \
                | 001D 00010001 41*25",
        lines: "0 stray 0 0\n1 repeated 0 0\n2 too long 0 0\n3 repeated 0 0\n",
    },
    Edge {
        name: "stray-after-loss",
        bytes: "0001 00000018 0001 | 0005 0001000041 | 0005 2001000242 | 0005 2001000343 \
                | 0005 3001000444",
        lines: "0 held 0 1\n1 stray 1 0\n2 stray 0 0\n3 delivered 0 1\n",
    },
    Edge {
        name: "stray-first-of-all",
        bytes: "0001 00000018 0001 | 0005 1001080041 | 0005 2001080142",
        lines: "0 stray 0 0\n1 stray 0 0\n",
    },
    Edge {
        name: "whole-drops-what-is-held",
        bytes: "0001 00000018 0001 | 0005 0001000041 | 0005 3001000142 | 0005 2001000243",
        lines: "0 held 0 1\n1 delivered 0 1\n2 stray 0 0\n",
    },
    Edge {
        name: "beginning-drops-what-is-held",
        bytes: "0001 00000018 0001 | 0018 00010000 41*20 | 0007 00010001 42*3 | 0006 20010002 43*2",
        lines: "0 held 0 20\n1 held 0 3\n2 delivered 0 5\n",
    },
    // The old length must not count: 20 and 20 would be above 24.
    Edge {
        name: "beginning-after-a-loss-starts-anew",
        bytes:
            "0001 00000018 0001 | 0018 00010000 41*20 | 0018 00010005 42*20 | 0008 20010006 43*4",
        lines: "0 held 0 20\n1 held 4 20\n2 delivered 0 24\n",
    },
    // The sender starts again at 0 after 100: 65,435 missed.
    Edge {
        name: "sender-restarts",
        bytes: "0001 00000018 0001 | 0005 0001006441 | 0005 0001000042 | 0005 2001000143",
        lines: "0 held 0 1\n1 held 65435 1\n2 delivered 0 2\n",
    },
    // Pieces of 65,503 and 1 bytes in a room of 65,504.
    Edge {
        name: "two-pieces-first-65503",
        bytes: "0001 0000FFE0 0001 | FFE3 00010000 41*65503 | 0005 2001000142",
        lines: "0 held 0 65503\n1 delivered 0 65504\n",
    },
    Edge {
        name: "two-pieces-first-65503-room-one-short",
        bytes: "0001 0000FFDF 0001 | FFE3 00010000 41*65503 | 0005 2001000142",
        lines: "0 held 0 65503\n1 too long 0 0\n",
    },
    Edge {
        name: "whole-of-65503",
        bytes: "0001 00000018 0001 | FFE3 30010000 41*65503",
        lines: "0 delivered 0 65503\n",
    },
    // Senders 0x0001, 0x0101 and 0x0FFF, each with its own counter and room.
    Edge {
        name: "mixed-channels",
        bytes: "0003 00000018 0001 0101 0FFF \
                | 0005 0001000041 | 0006 01010000 51*2 | 0005 0FFFFFFF61 | 0005 1001000142 \
                | 0005 2FFF000062 | 0006 11010001 52*2 | 0005 1101000353 | 0005 2001000243 \
                | 0005 3101000454",
        lines: "0 held 0 1\n1 held 0 2\n2 held 0 1\n3 held 0 2\n4 delivered 0 2\n5 held 0 4\n\
                6 stray 1 0\n7 delivered 0 3\n8 delivered 0 1\n",
    },
    // Every outcome, a loss, 21, 22 and 23, and a file that ends inside a datagram.
    Edge {
        name: "every-outcome",
        bytes: "0002 00000018 0001 0F02 \
                | 000A 3001FFFE 737461747573 | 0010 0F020007 747261636B206C6973743A20 \
                | 000A 0001FFFF 626567696E20 | 000B 10010000 6D6964646C6520 \
                | 000B 10010000 6D6964646C6520 | 0007 20010001 656E64 | 0007 20010001 656E64 \
                | 0008 2F020009 7461696C | 001C 0F02000A 78*24 | 0005 2F02000B79 \
                | 0005 2F02000C7A | 002C 3F029C40 77*40 | 0004 00000000 | 0005 7001000276 \
                | 0005 3002000276 | 001D 00010003 62*25 | 0007 00010004 637574 | 0009 2001",
        lines: "0 delivered 0 6\n1 held 0 12\n2 held 0 6\n3 held 0 13\n4 repeated 0 0\n\
                5 delivered 0 16\n6 repeated 0 0\n7 stray 1 0\n8 held 0 24\n9 too long 0 0\n\
                10 stray 0 0\n11 delivered 39987 40\n12 refused 21\n13 refused 22\n\
                14 refused 23\n15 too long 1 0\n16 held 0 3\ncut short\n",
    },
    // 32 channels of 2,048 bytes: the whole 65,536. First and last sender, and a full room.
    Edge {
        name: "channels-32-of-2048",
        bytes: "0020 00000800 0000 0001 0002 0003 0004 0005 0006 0007 0008 0009 000A 000B 000C \
                000D 000E 000F 0010 0011 0012 0013 0014 0015 0016 0017 0018 0019 001A 001B 001C \
                001D 001E 0FFF \
                | 0804 00000000 41*2048 | 0804 0FFF0000 42*2048 | 0005 2000000143 \
                | 0005 301E000744 | 0005 3020000045 | 0005 2FFF000146",
        lines: "0 held 0 2048\n1 held 0 2048\n2 too long 0 0\n3 delivered 0 1\n4 refused 23\n\
                5 too long 0 0\n",
    },
];
