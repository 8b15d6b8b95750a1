//! Start-up of two platforms ends in silence: all orders, losses and short outputs searched by
//! machine, from any two states, for every pairing of issues (02, request 8; 001 and 000, 6.3).

use crate::hex::bytes;
use crate::message3::{Service, Time};
use crate::partners::*;
use crate::partners_tests::{EVENTS_ONLY, TABLE};
use crate::{message, message3, mixed};
use std::collections::HashMap;

/// The two platforms, 1 and 2.
const NAMES: [u8; 2] = [1, 2];

/// Two platforms, and what is under way: to which of them, and the bytes.
#[derive(Clone)]
struct World {
    platforms: [Partners; 2],
    under_way: Vec<(usize, Vec<u8>)>,
}

/// What tells one world from another: of each platform whether it holds the other for UP, its next
/// number and the services it knows; and what is under way, in any order.
type Key = ([(bool, u32, Vec<Service>); 2], Vec<(usize, Vec<u8>)>);

impl World {
    /// What each holds the other for: an issue, UP or not, and the service it knows or not.
    fn new(issues: [u8; 2], up: [bool; 2], known: bool) -> World {
        let platforms = [0, 1].map(|side| {
            let other = NAMES[1 - side];
            let threes: Vec<u8> = [other].into_iter().filter(|_| issues[side] == 3).collect();
            let mut one = Partners::new(NAMES[side], &threes);
            if up[side] {
                one.platform.others.insert(other);
            }
            if known && issues[side] == 3 {
                one.services.note(other, &[(22, true)]).unwrap();
            }
            one
        });
        World {
            platforms,
            under_way: vec![],
        }
    }

    fn key(&self) -> Key {
        let sides = [0, 1].map(|side| {
            let (one, other) = (&self.platforms[side], u32::from(NAMES[1 - side]));
            let services = one.services.known(other).to_vec();
            (one.platform.is_up(other), one.platform.next, services)
        });
        let mut under_way = self.under_way.clone();
        under_way.sort();
        (sides, under_way)
    }

    /// Platform 1 says its own status, in the issue for which it holds the other.
    fn broadcast(&mut self, up: u8) {
        let three = self.platforms[0].set_up.count() == 1;
        let status = match three {
            true => message3::write(1, Time::default(), 0, 1, 0, &[0, 0, 0, up, 0, 0, 0, 9], 32),
            false => message::write(1, 0, 1, 0, &[0, 0, 0, up], 24),
        };
        self.under_way.push((1, status.unwrap()));
    }

    /// The worlds in which this message arrives: over either table, with room for nothing, for what
    /// a six may be owed, and for all.
    fn arrivals(&self, at: usize) -> Vec<(World, usize)> {
        let mut out = Vec::new();
        for table in [TABLE, EVENTS_ONLY] {
            for room in [0, 48, 88] {
                let mut after = self.clone();
                let (to, message) = after.under_way.remove(at);
                let one = &mut after.platforms[to];
                let got = one.call(
                    Stamp::default(),
                    &[2 << 32 | 21],
                    &bytes(table),
                    &message,
                    room,
                );
                let owed = match got {
                    Ok(Heard::Six(answer)) => answer.owed,
                    Ok(Heard::Three(answer)) => answer.owed,
                    Err(_) => vec![],
                };
                let replies = apart(&owed, one.set_up.count() == 1);
                let count = replies.len();
                let back = replies.into_iter().map(|reply| (1 - to, reply));
                after.under_way.extend(back);
                out.push((after, count));
            }
        }
        out
    }

    /// How many messages may still be sent at the most. It returns, so that every path ends.
    fn most(&self, seen: &mut HashMap<Key, usize>) -> usize {
        let key = self.key();
        if let Some(most) = seen.get(&key) {
            return *most;
        }
        let mut most = 0;
        for at in 0..self.under_way.len() {
            let mut lost = self.clone();
            lost.under_way.remove(at);
            most = most.max(lost.most(seen));
            for (after, count) in self.arrivals(at) {
                most = most.max(count + after.most(seen));
            }
        }
        seen.insert(key, most);
        most
    }
}

/// Replies taken apart by the size fields of their form.
fn apart(owed: &[u8], three: bool) -> Vec<Vec<u8>> {
    let (header, size_at) = if three { (24, 16) } else { (20, 12) };
    let mut out = Vec::new();
    let mut rest = owed;
    while !rest.is_empty() {
        let size = u32::from_be_bytes(rest[size_at..size_at + 4].try_into().unwrap());
        let (first, others) = rest.split_at(header + size as usize);
        out.push(first.to_vec());
        rest = others;
    }
    out
}

/// The most messages of an exchange that a status starts, itself counted, from any two states; and
/// how many worlds were looked at.
fn longest(issues: [u8; 2]) -> (usize, usize) {
    let (mut most, mut worlds) = (0, 0);
    for state in 0..16 {
        let bit = |place: u32| state >> place & 1 == 1;
        let mut world = World::new(issues, [bit(0), bit(1)], bit(2));
        world.broadcast(u8::from(bit(3)));
        let mut seen = HashMap::new();
        most = most.max(1 + world.most(&mut seen));
        worlds += seen.len();
    }
    (most, worlds)
}

#[test]
fn two_threes() {
    let (most, worlds) = longest([3, 3]);
    assert_eq!(most, 9);
    assert!(worlds > 300, "{worlds}");
}

#[test]
fn two_sixes() {
    let (most, worlds) = longest([6, 6]);
    assert_eq!(most, 7);
    assert!(worlds > 80, "{worlds}");
}

/// Each holds the other for another issue: nobody reads anything.
#[test]
fn one_of_each() {
    assert_eq!(longest([3, 6]).0, 1);
    assert_eq!(longest([6, 3]).0, 1);
    // The one message is refused with 3.
    let mut world = World::new([3, 6], [false; 2], false);
    world.broadcast(1);
    let (_, message) = world.under_way[0].clone();
    let set_up = &world.platforms[1].set_up;
    assert_eq!(mixed::read(2, set_up, &message), Err(3));
}

/// 001, 6.3, Figure 4's text: messages 2 to 11 of two threes, in order and with none lost.
#[test]
fn the_start_up_of_figure_4() {
    let mut world = World::new([3, 3], [false; 2], false);
    world.broadcast(1);
    let mut ids = Vec::new();
    while !world.under_way.is_empty() {
        let (to, message) = world.under_way[0].clone();
        ids.push((NAMES[1 - to], message[7]));
        world = world.arrivals(0).remove(2).0;
    }
    let each = [
        (1, 1),
        (2, 1),
        (2, 4),
        (2, 7),
        (1, 1),
        (1, 4),
        (1, 7),
        (1, 3),
        (2, 3),
    ];
    assert_eq!(ids, each);
    for (side, one) in world.platforms.iter().enumerate() {
        let other = u32::from(NAMES[1 - side]);
        assert!(one.platform.is_up(other));
        assert_eq!(one.services.known(other), [(21, true)]);
        assert_eq!(one.platform.next, 3);
    }
}
