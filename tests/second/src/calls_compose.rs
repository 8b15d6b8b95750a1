//! Calls put together. It shares nothing with the module that takes them apart.

use crate::prng::Prng;

/// One call; nothing keeps it from being a bad one.
#[derive(Clone, Debug)]
pub struct Call {
    pub code: u16,
    pub arguments: Vec<Vec<u8>>,
}

impl Call {
    pub fn new(code: u16) -> Call {
        Call {
            code,
            arguments: Vec::new(),
        }
    }

    pub fn bytes(mut self, bytes: &[u8]) -> Call {
        self.arguments.push(bytes.to_vec());
        self
    }

    /// Eight bytes each.
    pub fn words(mut self, words: &[u64]) -> Call {
        let bytes = words.iter().flat_map(|word| word.to_be_bytes());
        self.arguments.push(bytes.collect());
        self
    }

    /// A number in as few bytes as it needs, in eight, or in any number between.
    pub fn number(mut self, rng: &mut Prng, value: u64) -> Call {
        let mut least = 1;
        while least < 8 && value >> (8 * least) != 0 {
            least += 1;
        }
        let width = match rng.below(4) {
            0 => 8,
            1 => rng.from_to(least, 8),
            _ => least,
        };
        self.arguments
            .push(value.to_be_bytes()[8 - width..].to_vec());
        self
    }

    /// The call behind what is already in a file.
    pub fn put(&self, file: &mut Vec<u8>) {
        file.extend(self.code.to_be_bytes());
        file.extend((self.arguments.len() as u16).to_be_bytes());
        for argument in &self.arguments {
            file.extend((argument.len() as u32).to_be_bytes());
            file.extend(argument);
        }
    }

    pub fn file(&self) -> Vec<u8> {
        let mut out = Vec::new();
        self.put(&mut out);
        out
    }
}

/// A length for an output that needs `needed`: enough, just enough, one too short, or none at all.
pub fn room(rng: &mut Prng, needed: usize, most: usize) -> u64 {
    let room = match rng.below(14) {
        0 => needed.max(1) - 1,
        1 => 0,
        2 => rng.below(needed + 1),
        3 => most,
        4 => needed + rng.below(30),
        _ => needed,
    };
    room.min(most) as u64
}

#[cfg(test)]
mod tests {
    use super::*;
    use crate::hex::bytes;

    #[test]
    fn a_call_of_each_kind_of_argument() {
        let mut rng = Prng::new(0);
        let call = Call::new(6).bytes(&[0xAB, 0xCD]).words(&[1, 258]);
        assert_eq!(
            call.file(),
            bytes("0006 0002 | 00000002 ABCD | 00000010 0000000000000001 0000000000000102")
        );
        let mut widths = [0; 9];
        for _ in 0..200 {
            let call = Call::new(7).number(&mut rng, 0x102);
            let width = call.arguments[0].len();
            widths[width] += 1;
            assert_eq!(call.arguments[0][width - 2..], [1, 2]);
            assert!(call.arguments[0][..width - 2].iter().all(|byte| *byte == 0));
        }
        assert!(widths[0] + widths[1] == 0 && widths[2..].iter().all(|count| *count > 0));
        assert_eq!(Call::new(10).file(), bytes("000A 0000"));
        for value in [0, 255, 256, u64::MAX] {
            let call = Call::new(9).number(&mut rng, value);
            assert!((1..=8).contains(&call.arguments[0].len()), "{value}");
        }
    }
}
