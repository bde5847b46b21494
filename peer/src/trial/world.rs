//! This file holds the world of a history: keepers, their chips, all that was returned, and demand 3's watch over accepted verdicts.

use super::chip::Chips;
use super::good;
use super::pairing::Pairing;
use super::scene::{OldPart, Scene};
use crate::call::{AskVerdict, Call, Lent, Reply};
use crate::record::{Head, ACTIVE};
use crate::roll;
use crate::row::{appended, Row};
use crate::statement::{self, Statement, KIND_INITIALISE, KIND_READ};
use std::collections::HashMap;

/// What a finalised keeper gave for signing.
#[derive(Clone)]
pub struct Handed {
    pub key: [u8; 32],
    pub identity: [u8; 32],
    pub own: [u8; 32],
    pub next: [u8; 32],
    pub rows: Vec<Row>,
}

/// Identity, label and height of an accepted verdict.
type Told = ([u8; 32], [u8; 16], u64);

pub struct World<'p, 'a> {
    pub pairing: &'p mut Pairing<'a>,
    pub chips: Chips,
    pub keepers: Vec<Lent>,
    /// Every rack by its digest.
    pub racks: HashMap<[u8; 32], Vec<u8>>,
    pub handed: Vec<Handed>,
    pub receipts: Vec<Vec<u8>>,
    /// For each tail the tail before it and the entry digest that led on.
    origins: HashMap<[u8; 32], ([u8; 32], [u8; 32])>,
    told: HashMap<Told, [u8; 32]>,
}

impl<'p, 'a> World<'p, 'a> {
    pub fn new(pairing: &'p mut Pairing<'a>, erases: bool) -> World<'p, 'a> {
        World {
            pairing,
            chips: Chips::new(erases),
            keepers: Vec::new(),
            racks: HashMap::new(),
            handed: Vec::new(),
            receipts: Vec::new(),
            origins: HashMap::new(),
            told: HashMap::new(),
        }
    }

    /// A keeper with a key of its own, woken once.
    pub fn wake(&mut self, key: [u8; 32]) -> usize {
        self.chips.make(key);
        self.keepers.push(good::woken([0; 32], 3713));
        let keeper = self.keepers.len() - 1;
        self.call(keeper, &Call::Wake { key });
        keeper
    }

    pub fn rack(&mut self, keys: &[[u8; 32]]) -> Vec<u8> {
        let rack = good::rack_of(keys);
        self.racks.insert(good::digest(&rack), rack.clone());
        rack
    }

    /// Makes a woken keeper active in a rack of two that was founded before M-107: "Those already prepared or active go on".
    pub fn found_before(&mut self, keeper: usize, rack: &[u8]) {
        let head = &mut self.keepers[keeper].head;
        let own = good::digest(rack);
        *head = Head { status: ACTIVE, identity: own, own, ..*head };
        let (kind, roll) = (KIND_INITIALISE, roll::digest(&[]));
        let stated = Statement { kind, identity: own, own, roll, ..Statement::ZERO };
        self.chips.sign(&head.key, &statement::bytes(&stated));
    }

    /// Performs a call at a keeper and lets its chip sign what is returned for signing.
    pub fn call(&mut self, keeper: usize, call: &Call) -> Reply {
        let before = self.keepers[keeper].table.clone();
        let mut lent = self.keepers[keeper].clone();
        let reply = self.pairing.call(&mut lent, call);
        let written = lent.area[..reply.written()].to_vec();
        lent.area = good::area(3713);
        self.keepers[keeper] = lent;
        if reply.number() == 0 && !reply.answer().repeat {
            self.remember_append(keeper, call, &before);
            self.sign(keeper, call, &written);
        }
        reply
    }

    fn sign(&mut self, keeper: usize, call: &Call, written: &[u8]) {
        let key = self.keepers[keeper].head.key;
        let statements: Vec<&[u8]> = match call {
            // "none that Bytes to check gives"; Wake and Activate write none.
            Call::BytesToCheck { .. } | Call::Wake { .. } | Call::Activate(_) => vec![],
            Call::AppendAndRead { .. } => vec![&written[..121], &written[121..]],
            Call::Finalise { .. } => vec![&written[..129]],
            _ => vec![written],
        };
        let late = self.chips.asked_too_late;
        for statement in statements {
            self.chips.sign(&key, statement);
            if statement[0] <= KIND_READ {
                self.receipts.push(statement.to_vec());
            }
        }
        if self.chips.asked_too_late > late {
            self.pairing.fault("a statement was returned for signing after the key was erased".to_string());
        }
        if let Call::Finalise { .. } = call {
            self.chips.erase(&key);
            self.hand(keeper);
        }
    }

    fn hand(&mut self, keeper: usize) {
        let Lent { head, table, .. } = &self.keepers[keeper];
        let rows = table[..head.count as usize].to_vec();
        self.handed.push(Handed { key: head.key, identity: head.identity, own: head.own, next: head.next, rows });
    }

    fn remember_append(&mut self, keeper: usize, call: &Call, before: &[Row]) {
        let (label, list) = match call {
            Call::Append { label, entry, .. } | Call::AppendAndRead { label, entry, .. } => (label, &entry[..]),
            Call::AppendMany { label, list, .. } => (label, &list[..]),
            _ => return,
        };
        let of_label = |table: &[Row]| table.iter().find(|row| row.label == *label).map(|row| row.tail);
        let (Some(mut tail), Some(last)) = (of_label(before), of_label(&self.keepers[keeper].table)) else { return };
        for (place, entry) in list.chunks_exact(32).enumerate() {
            // The last tail is taken as the keeper has it, whatever the rules are.
            let next = if 32 * (place + 1) == list.len() { last } else { appended(&tail, &part(entry, 0)) };
            self.origins.insert(next, (tail, part(entry, 0)));
            tail = next;
        }
    }

    /// The digests that lead from an old row to ours, as far as they are known.
    pub fn way(&self, old: &Row, ours: &Row) -> Vec<[u8; 32]> {
        let mut digests = Vec::new();
        let mut tail = ours.tail;
        for _ in 0..ours.height.saturating_sub(old.height).min(64) {
            let Some((before, digest)) = self.origins.get(&tail) else { break };
            digests.push(*digest);
            tail = *before;
        }
        digests.reverse();
        digests
    }

    /// Asks for a verdict on a statement with these positions; the chips give the marks. An accepted one is held to
    /// demand 3, and a reading to the nonce asked for.
    pub fn verdict(&mut self, statement: &[u8], positions: &[u8], nonce: [u8; 16]) {
        let own: [u8; 32] = part(statement, 33);
        let Some(rack) = self.racks.get(&own).cloned() else { return };
        let mut signers = Vec::new();
        for position in positions {
            let marks = key_at(&rack, *position).map_or(0, |key| self.chips.marks(&key, statement));
            signers.extend([*position, marks]);
        }
        let ask = AskVerdict {
            identity: part(statement, 1),
            rack,
            kind: statement[0],
            label: part(statement, 65),
            nonce,
            statement: statement.to_vec(),
            signers,
        };
        self.judge(ask);
    }

    fn judge(&mut self, ask: AskVerdict) {
        let reply = self.pairing.call(&mut good::only_area(0), &Call::Verdict(ask.clone()));
        let Reply::Verdict(verdict) = reply else { unreachable!() };
        if verdict.number != 0 {
            return;
        }
        if ask.kind == KIND_READ && part::<16>(&ask.statement, 121) != ask.nonce {
            self.pairing.fault("an accepted reading carries another nonce than the one asked for".to_string());
        }
        let told = (ask.identity, ask.label, verdict.height);
        let earlier = *self.told.entry(told).or_insert(verdict.tail);
        if earlier != verdict.tail {
            self.pairing.tally.demand_3 += 1;
            self.pairing.fault(format!(
                "demand 3: two accepted verdicts for one identity, label and height {} have different tails",
                verdict.height
            ));
        }
    }

    /// The positions of a statement's rack at which the chips find a valid signature.
    pub fn valid_positions(&self, statement: &[u8]) -> Vec<u8> {
        let own: [u8; 32] = part(statement, 33);
        let Some(rack) = self.racks.get(&own) else { return Vec::new() };
        (0..rack[0]).filter(|p| key_at(rack, *p).is_some_and(|key| self.chips.marks(&key, statement) == 3)).collect()
    }

    /// The scene of a prepared keeper's activation, with the old rolls and new positions given and no marks yet.
    pub fn scene(&self, keeper: usize, old: &[(u8, Vec<Row>)], new: &[u8]) -> Option<Scene> {
        let Lent { head, table, .. } = &self.keepers[keeper];
        let rows = table[..head.count as usize].to_vec();
        let previous = self.racks.get(&head.previous)?.clone();
        let own = self.racks.get(&head.own)?.clone();
        let old = old.iter().map(|(position, old_rows)| self.old_part(*position, old_rows, &rows)).collect();
        let new = new.iter().map(|position| (*position, 0)).collect();
        Some(Scene { head: *head, rows, previous, own, old, new, after: Vec::new(), cut: 0 })
    }

    fn old_part(&self, position: u8, old_rows: &[Row], ours: &[Row]) -> OldPart {
        // M-101: a row missing "shall count as height 0 with the zero tail".
        let held = |our: &Row| {
            let zero = Row { label: our.label, ..Row::ZERO };
            old_rows.iter().find(|row| row.label == our.label).copied().unwrap_or(zero)
        };
        let added = ours.iter().map(|our| self.way(&held(our), our)).collect();
        OldPart { position, marks: 0, rows: old_rows.to_vec(), number_of_blocks: None, blocks: None, added }
    }

    /// Marks each entry by what the chips say of the bytes that Bytes to check gives for it.
    pub fn mark(&mut self, keeper: usize, scene: &mut Scene) {
        for entry in 0..scene.old.len() {
            let key = key_at(&scene.previous, scene.old[entry].position);
            scene.old[entry].marks = self.marks_of(keeper, scene, 0, entry, key);
        }
        for entry in 0..scene.new.len() {
            let key = key_at(&scene.own, scene.new[entry].0);
            scene.new[entry].1 = self.marks_of(keeper, scene, 1, entry, key);
        }
    }

    fn marks_of(&mut self, keeper: usize, scene: &Scene, list: u8, entry: usize, key: Option<[u8; 32]>) -> u8 {
        let mut lent = self.keepers[keeper].clone();
        let reply = self.pairing.call(&mut lent, &scene.bytes_to_check(list, entry as u64));
        match key {
            Some(key) if reply.number() == 0 => self.chips.marks(&key, &lent.area[..129]),
            _ => 0,
        }
    }
}

pub fn key_at(rack: &[u8], position: u8) -> Option<[u8; 32]> {
    let start = 1 + 32 * position as usize;
    (rack.len() >= start + 32).then(|| part(rack, start))
}

pub fn part<const N: usize>(bytes: &[u8], start: usize) -> [u8; N] {
    let mut taken = [0; N];
    taken.copy_from_slice(&bytes[start..start + N]);
    taken
}
