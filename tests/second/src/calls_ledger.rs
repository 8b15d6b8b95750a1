//! One platform with requests as a plain map sees it: what is pending under each number. It shares
//! nothing with the model and tells the lines in its own way (02: "Over any calls the list answers
//! as a plain map does").

use crate::calls_messages::Fields;
use std::collections::{BTreeMap, BTreeSet};

#[derive(Clone, Debug)]
pub struct Ledger {
    pub own: u8,
    pub next: u32,
    up: BTreeSet<u32>,
    /// ID and target under each number.
    pub pending: BTreeMap<u32, (u32, u32)>,
    /// Number, ID and target of those that were answered or cancelled.
    pub past: Vec<(u32, u32, u32)>,
}

fn refused(number: u8) -> String {
    format!("refused {number}")
}

fn hex(messages: &[Fields]) -> String {
    let bytes = messages.iter().flat_map(Fields::bytes);
    bytes.map(|byte| format!("{byte:02x}")).collect()
}

impl Ledger {
    pub fn new(own: u8, next: u32) -> Ledger {
        Ledger {
            own,
            next,
            up: BTreeSet::new(),
            pending: BTreeMap::new(),
            past: Vec::new(),
        }
    }

    pub fn is_up(&self, platform: u32) -> bool {
        self.up.contains(&platform)
    }

    /// A request under an ID of this kind in its table, 2 or another or none.
    pub fn send(&mut self, kind: Option<u16>, request: Fields, target: u32, room: u64) -> String {
        if kind != Some(2) {
            return refused(62);
        }
        if self.pending.len() == 64 {
            return refused(60);
        }
        let mut request = request;
        if room < request.bytes().len() as u64 {
            return refused(10);
        }
        request.sequence = self.next;
        while request.sequence == 0 || self.pending.contains_key(&request.sequence) {
            request.sequence = request.sequence.wrapping_add(1);
        }
        let number = request.sequence;
        self.pending.insert(number, (request.id, target));
        self.next = number.wrapping_add(1);
        format!("sent {number} {}", hex(&[request]))
    }

    /// A domain 1 message under an ID of this kind in its table.
    pub fn hear(&mut self, kind: Option<u16>, message: &Fields, room: u64) -> String {
        let (from, id, number) = (message.from, message.id, message.sequence);
        if from == u32::from(self.own) {
            return refused(6);
        }
        match kind {
            Some(2) if self.pending.get(&number) == Some(&(id, from)) => {
                self.leave(number);
                format!("response {id} from {from} seq {number}")
            }
            Some(2) => refused(61),
            Some(_) => format!("operation {id} from {from} owed -"),
            None if room < 24 => refused(10),
            None => {
                let field = id.to_be_bytes().to_vec();
                let reply = Fields::new(0, u32::from(self.own), 3, number, field);
                format!("operation unknown {id} from {from} owed {}", hex(&[reply]))
            }
        }
    }

    /// A status: the pair at DOWN to UP takes the next two numbers, pending or not.
    pub fn status(&mut self, from: u32, up: bool, room: u64) -> String {
        if from == u32::from(self.own) {
            return refused(6);
        }
        let comes_up = up && from < 256 && !self.up.contains(&from);
        let mut owed = "-".to_string();
        if comes_up && room < 48 {
            return refused(10);
        } else if comes_up {
            let own = u32::from(self.own);
            let (first, second) = (self.next, self.next.wrapping_add(1));
            let status = Fields::new(0, own, 1, first, vec![0, 0, 0, 1]);
            let pull = Fields::new(0, own, 4, second, vec![255; 4]);
            owed = hex(&[status, pull]);
            self.next = second.wrapping_add(1);
            self.up.insert(from);
        } else if !up {
            self.up.remove(&from);
        }
        let state = if up { "up" } else { "down" };
        format!("status {state} from {from} owed {owed}")
    }

    pub fn cancel(&mut self, number: u32) -> String {
        let was = self.pending.contains_key(&number);
        self.leave(number);
        let said = if was { "cancelled" } else { "not pending" };
        said.to_string()
    }

    pub fn ask(&self, number: u32) -> String {
        match self.pending.get(&number) {
            Some((id, target)) => format!("pending {id} {target}"),
            None => "not pending".to_string(),
        }
    }

    fn leave(&mut self, number: u32) {
        if let Some((id, target)) = self.pending.remove(&number) {
            self.past.push((number, id, target));
        }
    }
}
