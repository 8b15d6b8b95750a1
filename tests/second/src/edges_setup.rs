//! Edges of the set-up: refused for each reason, and accepted just beside it.

use crate::edges::Edge;

const REFUSED: &str = "setup refused 20\n";

pub const EDGES: &[Edge] = &[
    Edge {
        name: "setup-count-0",
        bytes: "0000 00000018 0001 | 0005 3001000041",
        lines: REFUSED,
    },
    // Nothing behind R is needed to refuse.
    Edge {
        name: "setup-count-0-and-no-more",
        bytes: "0000 00000018",
        lines: REFUSED,
    },
    Edge {
        name: "setup-count-33",
        bytes: "0021 00000018",
        lines: REFUSED,
    },
    Edge {
        name: "setup-count-65535",
        bytes: "FFFF 00000018 0001",
        lines: REFUSED,
    },
    Edge {
        name: "setup-room-0",
        bytes: "0001 00000000 0001",
        lines: REFUSED,
    },
    Edge {
        name: "setup-room-23",
        bytes: "0001 00000017 0001 | 0005 3001000041",
        lines: REFUSED,
    },
    Edge {
        name: "setup-room-24-accepted",
        bytes: "0001 00000018 0001 | 0005 3001000041",
        lines: "0 delivered 0 1\n",
    },
    Edge {
        name: "setup-room-65536-accepted",
        bytes: "0001 00010000 0001 | 0005 3001000041",
        lines: "0 delivered 0 1\n",
    },
    // Allowed as a room, but one channel times R is above 65,536 already.
    Edge {
        name: "setup-room-65537",
        bytes: "0001 00010001 0001",
        lines: REFUSED,
    },
    Edge {
        name: "setup-room-65560",
        bytes: "0001 00010018 0001",
        lines: REFUSED,
    },
    Edge {
        name: "setup-room-65561",
        bytes: "0001 00010019 0001",
        lines: REFUSED,
    },
    Edge {
        name: "setup-room-largest",
        bytes: "0001 FFFFFFFF 0001",
        lines: REFUSED,
    },
    Edge {
        name: "setup-product-65536-accepted",
        bytes: "0002 00008000 0001 0002 | 0005 3002000041",
        lines: "0 delivered 0 1\n",
    },
    Edge {
        name: "setup-product-65538",
        bytes: "0002 00008001 0001 0002",
        lines: REFUSED,
    },
    Edge {
        name: "setup-product-32-times-2049",
        bytes: "0020 00000801",
        lines: REFUSED,
    },
    // 32 times 0x08000000 is 2 to the 32nd: a product cut to 32 bits would be 0.
    Edge {
        name: "setup-product-2-to-the-32nd",
        bytes: "0020 08000000",
        lines: REFUSED,
    },
    Edge {
        name: "setup-id-twice",
        bytes: "0003 00000018 0001 0002 0001 | 0005 3001000041",
        lines: REFUSED,
    },
    Edge {
        name: "setup-id-4096",
        bytes: "0001 00000018 1000 | 0005 3000000041",
        lines: REFUSED,
    },
    Edge {
        name: "setup-id-65535",
        bytes: "0002 00000018 0001 FFFF",
        lines: REFUSED,
    },
    Edge {
        name: "setup-ids-0-and-4095-accepted",
        bytes: "0002 00000018 0FFF 0000 | 0005 3FFF000041 | 0005 3000000541",
        lines: "0 delivered 0 1\n1 delivered 0 1\n",
    },
];
