//! What the cases are made of: tables, messages, datagrams, and a random number.

pub fn be(numbers: &[u16]) -> Vec<u8> {
    numbers
        .iter()
        .flat_map(|number| number.to_be_bytes())
        .collect()
}

pub struct Random(pub u64);

impl Random {
    /// xorshift64*
    pub fn next(&mut self) -> u64 {
        self.0 ^= self.0 >> 12;
        self.0 ^= self.0 << 25;
        self.0 ^= self.0 >> 27;
        self.0.wrapping_mul(0x2545_F491_4F6C_DD1D)
    }

    pub fn below(&mut self, limit: usize) -> usize {
        (self.next() >> 11) as usize % limit
    }

    pub fn bytes(&mut self, count: usize) -> Vec<u8> {
        (0..count).map(|_| self.next() as u8).collect()
    }
}

/// An operation's ID, kind, type and, of a request, the type of its response.
pub type Operation = (u32, u16, u16, u16);

/// A table of these types (kind, of, first, count), members, values and operations.
pub fn table(
    types: &[[u16; 4]],
    members: &[u16],
    values: &[u64],
    operations: &[Operation],
) -> Vec<u8> {
    let mut bytes = be(&[types.len() as u16]);
    types.iter().for_each(|entry| bytes.extend(be(entry)));
    bytes.extend(be(&[members.len() as u16]));
    bytes.extend(be(members));
    bytes.extend(be(&[values.len() as u16]));
    values
        .iter()
        .for_each(|value| bytes.extend(value.to_be_bytes()));
    bytes.extend(be(&[operations.len() as u16]));
    for (id, kind, of, response) in operations {
        bytes.extend(id.to_be_bytes());
        bytes.extend(be(&[*kind, *of]));
        if is_request(*kind) {
            bytes.extend(be(&[*response]));
        }
    }
    bytes
}

/// Requests, those that we send and those that we serve, have entries of 10 bytes.
pub const SENT: u16 = 2;

fn is_request(kind: u16) -> bool {
    kind == SENT || kind == 3
}

pub fn id_of(entry: u32) -> u32 {
    0x100 + 3 * entry
}

/// Events and versioned data, by turns: entries of 8 bytes.
pub fn operations(count: u32) -> Vec<Operation> {
    (0..count)
        .map(|i| (id_of(i), (i % 2) as u16, 0, 0))
        .collect()
}

/// The four kinds by turns: entries of both widths. The types of requests and responses are 0 or none.
pub fn operations_of_both(count: u32) -> Vec<Operation> {
    let none_or_0 = |none: bool| if none { 0xFFFF } else { 0 };
    (0..count)
        .map(|i| {
            let kind = (i % 4) as u16;
            let carries = none_or_0(is_request(kind) && i % 3 == 0);
            (id_of(i), kind, carries, none_or_0(i % 5 == 0))
        })
        .collect()
}

/// Type 1: a record of 64 uint16.
pub fn record_of_uint16() -> Vec<u8> {
    table(
        &[[0, 8, 0, 0], [2, 0, 0, 64]],
        &[0; 64],
        &[],
        &operations(16),
    )
}

/// Types 0 to 12 are the base codes, type 13 an enum of uint8, and type 14 a record of 64, each type in turn.
pub fn record_of_all() -> Vec<u8> {
    let mut types: Vec<[u16; 4]> = (0..13).map(|code| [0, code, 0, 0]).collect();
    types.push([1, 6, 0, 4]);
    types.push([2, 0, 0, 64]);
    let members: Vec<u16> = (0..64).map(|i| i % 14).collect();
    table(&types, &members, &[1, 2, 3, 5], &operations(16))
}

pub const CHAR8: u16 = 2;
pub const FLOAT32: u16 = 11;

/// Type 1: an array of up to 1,000 of a base code.
pub fn array_of(code: u16) -> Vec<u8> {
    table(
        &[[0, code, 0, 0], [4, 0, 0, 1000]],
        &[],
        &[],
        &operations(16),
    )
}

/// Type 2: a record of 8 records of 8 uint16.
pub fn record_of_records() -> Vec<u8> {
    let members: Vec<u16> = (0..16).map(|i| i / 8).collect();
    table(
        &[[0, 8, 0, 0], [2, 0, 0, 8], [2, 0, 8, 8]],
        &members,
        &[],
        &operations(16),
    )
}

/// Type 3: a record of four uint32 and an array of up to 1,000 float32.
pub fn record_with_array() -> Vec<u8> {
    table(
        &[
            [0, 9, 0, 0],
            [0, FLOAT32, 0, 0],
            [4, 1, 0, 1000],
            [2, 0, 0, 5],
        ],
        &[0, 0, 0, 0, 2],
        &[],
        &operations(16),
    )
}

/// Type 5: an array of up to 100 records of 8: uint32, uint16, float32, float64, by turns.
pub fn array_of_records() -> Vec<u8> {
    table(
        &[
            [0, 9, 0, 0],
            [0, 8, 0, 0],
            [0, FLOAT32, 0, 0],
            [0, 12, 0, 0],
            [2, 0, 0, 8],
            [4, 4, 0, 100],
        ],
        &[0, 1, 2, 3, 0, 1, 2, 3],
        &[],
        &operations(16),
    )
}

/// Every kind in turn: so many types, with four members or values for each record and enum.
pub fn large_table(count: u16, operations: &[Operation]) -> Vec<u8> {
    let (mut types, mut members, mut values) = (Vec::new(), Vec::new(), Vec::new());
    for i in 0..count {
        types.push(match i % 4 {
            1 => {
                values.extend((0..4).map(|k| u64::from(k * 7 + i)));
                [1, 9, values.len() as u16 - 4, 4]
            }
            2 => {
                members.extend([i - 2, i - 1, i - 2, i - 1]);
                [2, 0, members.len() as u16 - 4, 4]
            }
            3 => [4, i - 1, 0, 10],
            _ => [0, i / 4 % 13, 0, 0],
        });
    }
    table(&types, &members, &values, operations)
}

/// The words of a value of `record_of_all`.
pub fn words_of_all() -> Vec<u64> {
    let one = [
        1,
        -3i64 as u64,
        65,
        -300i64 as u64,
        -70_000i64 as u64,
        -5_000_000_000i64 as u64,
        200,
        7,
        60_000,
        4_000_000_000,
        1 << 63,
        0x3FC0_0000,
        0x4000_1234_5678_9ABC,
        5,
    ];
    (0..64).map(|i| one[i % 14]).collect()
}

pub fn message(domain: u8, sender: u32, id: u32, sequence: u32, payload: &[u8]) -> Vec<u8> {
    let mut bytes = vec![0xEC, 0x0A, 2, domain];
    for field in [sender, id, payload.len() as u32, sequence] {
        bytes.extend(field.to_be_bytes());
    }
    bytes.extend(payload);
    bytes
}

/// One of Issue 3, sent at 5 s 6 ns.
pub fn message_3(domain: u8, sender: u8, id: u32, sequence: u32, payload: &[u8]) -> Vec<u8> {
    let mut bytes = vec![0xEC, 0x0A, 0x10 | domain, sender];
    for field in [id, 5, 6, payload.len() as u32, sequence] {
        bytes.extend(field.to_be_bytes());
    }
    bytes.extend(payload);
    bytes
}

/// A status of services: of each its ID and its state.
pub fn services_3(sender: u8, sequence: u32, pairs: &[[u32; 2]]) -> Vec<u8> {
    let count = [pairs.len() as u32];
    let fields = count.iter().chain(pairs.iter().flatten());
    let payload: Vec<u8> = fields.flat_map(|field| field.to_be_bytes()).collect();
    message_3(0, sender, 3, sequence, &payload)
}

pub fn put_binding_header(datagram: &mut [u8], part: u8, sender: u16, counter: u16) {
    let word = u32::from(part) << 28 | u32::from(sender) << 16 | u32::from(counter);
    datagram[..4].copy_from_slice(&word.to_be_bytes());
}
