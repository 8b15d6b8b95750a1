//! Edges of the file: where it may end.

use crate::edges::Edge;

pub const EDGES: &[Edge] = &[
    Edge {
        name: "file-empty",
        bytes: "",
        lines: "cut short\n",
    },
    Edge {
        name: "file-ends-inside-count",
        bytes: "00",
        lines: "cut short\n",
    },
    Edge {
        name: "file-ends-after-count",
        bytes: "0001",
        lines: "cut short\n",
    },
    Edge {
        name: "file-ends-inside-room",
        bytes: "0001 000000",
        lines: "cut short\n",
    },
    // The count is bad, but R was not read whole.
    Edge {
        name: "file-ends-inside-room-count-0",
        bytes: "0000 000000",
        lines: "cut short\n",
    },
    Edge {
        name: "file-ends-before-the-ids",
        bytes: "0001 00000018",
        lines: "cut short\n",
    },
    Edge {
        name: "file-ends-inside-the-only-id",
        bytes: "0001 00000018 00",
        lines: "cut short\n",
    },
    Edge {
        name: "file-ends-between-ids",
        bytes: "0002 00000018 0001",
        lines: "cut short\n",
    },
    Edge {
        name: "file-ends-inside-ids",
        bytes: "0002 00000018 0001 00",
        lines: "cut short\n",
    },
    // The IDs are judged only when the last was read.
    Edge {
        name: "file-ends-between-ids-one-twice",
        bytes: "0003 00000018 0001 0001",
        lines: "cut short\n",
    },
    Edge {
        name: "file-ends-between-ids-one-too-large",
        bytes: "0002 00000018 1000",
        lines: "cut short\n",
    },
    Edge {
        name: "file-ends-after-the-last-id",
        bytes: "0001 00000018 0001",
        lines: "",
    },
    Edge {
        name: "file-ends-inside-a-length",
        bytes: "0001 00000018 0001 | 00",
        lines: "cut short\n",
    },
    Edge {
        name: "file-ends-after-a-length",
        bytes: "0001 00000018 0001 | 0005",
        lines: "cut short\n",
    },
    // Length 0 is a whole datagram, and refused; the file ends well.
    Edge {
        name: "file-ends-after-length-0",
        bytes: "0001 00000018 0001 | 0000",
        lines: "0 refused 21\n",
    },
    Edge {
        name: "file-ends-inside-a-datagram",
        bytes: "0001 00000018 0001 | 0005 30010000",
        lines: "cut short\n",
    },
    // A short datagram that is cut gets no line of its own.
    Edge {
        name: "file-ends-inside-a-short-datagram",
        bytes: "0001 00000018 0001 | 0004 000000",
        lines: "cut short\n",
    },
    Edge {
        name: "file-ends-inside-the-second-datagram",
        bytes: "0001 00000018 0001 | 0005 3001000041 | 0006 30010001 42",
        lines: "0 delivered 0 1\ncut short\n",
    },
    Edge {
        name: "file-ends-inside-the-second-length",
        bytes: "0001 00000018 0001 | 0005 3001000041 | 00",
        lines: "0 delivered 0 1\ncut short\n",
    },
    Edge {
        name: "file-ends-inside-a-datagram-too-long",
        bytes: "0001 00000018 0001 | FFFF 30010000 41*100",
        lines: "cut short\n",
    },
];
