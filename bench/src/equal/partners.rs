//! Messages of both issues, read by their sender's.

use super::{any_message, spoil};
use crate::pair::{our_any_message, OWN};
use crate::tables::{message_3, Random};
use bench::plain::partners::{self, Partners};
use nyrkovash as ours;

pub fn any_message_3(random: &mut Random) -> Vec<u8> {
    let id = random.below(11) as u32;
    let (domain, sender) = (random.below(2) as u8, random.below(5) as u8);
    let field = [0, 1, 2, u32::MAX][random.below(4)];
    let payload: Vec<u32> = match id {
        1 => vec![field, random.next() as u32],
        2 => vec![],
        3 => {
            let count = random.below(4) as u32;
            let pairs = (0..count).flat_map(|service| [service, [0, 1, 1, 2][random.below(4)]]);
            [count].into_iter().chain(pairs).collect()
        }
        _ => vec![field],
    };
    let payload: Vec<u8> = payload.iter().flat_map(|one| one.to_be_bytes()).collect();
    let mut bytes = message_3(domain, sender, id, random.next() as u32, &payload);
    if random.below(3) == 0 {
        spoil(&mut bytes, random);
    }
    bytes
}

pub fn compare(count: usize, random: &mut Random) {
    for _ in 0..count {
        let bytes = match random.below(2) {
            0 => any_message(random),
            _ => any_message_3(random),
        };
        // The senders of these messages are small.
        let words = [random.next() % 32, 0, 0, random.next()];
        let (mut set_up, mut answer) = (ours::Partners::default(), ours::AnyMessage::default());
        for platform in 0..256 {
            let three = words[platform / 64] >> (platform % 64) & 1 == 1;
            let issue = if three { ours::ISSUE_3 } else { ours::ISSUE_6 };
            assert_eq!(ours::partners_set(&mut set_up, platform as u32, issue), 0);
        }
        assert_eq!(set_up.words, words);
        let number = ours::read_mixed(OWN, &set_up, &bytes, &mut answer);
        match partners::read(OWN, &Partners { words }, &bytes) {
            Ok(read) => assert_eq!((number, answer), (0, our_any_message(&read))),
            Err(refused) => assert_eq!(number, refused),
        }
    }
}
