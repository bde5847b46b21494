//! This file holds long histories by chance: foundings, lagging keepers, overlapping racks, competing handovers, repeats and verdicts.

use super::good;
use super::pairing::Pairing;
use super::prng::Prng;
use super::world::{key_at, part, Handed, World};
use crate::call::Call;
use crate::record::{ACTIVE, BLANK, FINALISED, PREPARED};
use crate::roll::in_blocks;
use crate::row::Row;
use crate::statement::KIND_READ;
use std::collections::HashMap;

/// The things from which a history draws.
struct Stage {
    racks: Vec<Vec<u8>>,
    labels: Vec<[u8; 16]>,
    entries: Vec<[u8; 32]>,
    nonces: Vec<[u8; 16]>,
    /// The roll proposed for an heir: by identity, previous and own rack.
    proposals: HashMap<[[u8; 32]; 3], Vec<Row>>,
}

/// One history; demand 3 and the other properties are watched all the way.
pub fn run_any(pairing: &mut Pairing, prng: &mut Prng) {
    let mut world = World::new(pairing, true);
    let mut stage = raise(&mut world, prng);
    for _ in 0..40 + prng.below(160) {
        step(&mut world, &mut stage, prng);
    }
    sweep(&mut world, &stage, prng);
}

/// Keepers and racks: a founding rack, heirs that compete and overlap, and keys that no chip made.
fn raise(world: &mut World, prng: &mut Prng) -> Stage {
    let mut keys: Vec<[u8; 32]> = (0..9).map(|_| prng.array()).collect();
    for key in &keys {
        world.wake(*key);
    }
    keys.extend([prng.array(), prng.array()]);
    let founders = 1 + prng.below(4);
    let mut racks = vec![world.rack(&keys[..founders])];
    for _ in 0..4 {
        let mut members: Vec<[u8; 32]> = Vec::new();
        for _ in 0..1 + prng.below(4) {
            members.push(keys[founders + prng.below(keys.len() - founders)]);
        }
        if prng.chance(1, 3) {
            members.push(*prng.pick(&keys[..founders]));
        }
        racks.push(world.rack(&members));
    }
    for keeper in 0..founders {
        if prng.chance(9, 10) {
            match founders {
                2 => world.found_before(keeper, &racks[0]),
                _ => found(world, keeper, &racks[0]),
            }
        }
    }
    Stage {
        racks,
        labels: (0..2).map(|_| good::label(prng)).collect(),
        entries: (0..2).map(|_| prng.array()).collect(),
        nonces: (0..3).map(|_| prng.array()).collect(),
        proposals: HashMap::new(),
    }
}

fn found(world: &mut World, keeper: usize, rack: &[u8]) {
    let call = Call::Initialise { identity: [7; 32], roll: Vec::new(), previous: Vec::new(), own: rack.to_vec() };
    world.call(keeper, &call);
}

fn step(world: &mut World, stage: &mut Stage, prng: &mut Prng) {
    match prng.below(24) {
        0 => {
            let keeper = prng.below(world.keepers.len());
            let rack = prng.pick(&stage.racks).clone();
            found(world, keeper, &rack);
        }
        1..=9 => spread(world, stage, prng),
        10..=11 => finalise(world, stage, prng),
        12..=14 => prepare(world, stage, prng),
        15..=17 => activate(world, prng),
        _ => ask(world, stage, prng),
    }
}

/// A keeper in this status, if there is one.
fn in_status(world: &World, prng: &mut Prng, status: u8) -> Option<usize> {
    let found: Vec<usize> = (0..world.keepers.len()).filter(|k| world.keepers[*k].head.status == status).collect();
    (!found.is_empty()).then(|| *prng.pick(&found))
}

/// The messenger sends one ledger call to most active keepers, now and then with another entry to some.
fn spread(world: &mut World, stage: &Stage, prng: &mut Prng) {
    let label = *prng.pick(&stage.labels);
    let entry = *prng.pick(&stage.entries);
    let nonce = *prng.pick(&stage.nonces);
    let list: Vec<[u8; 32]> = (0..prng.below(3)).map(|_| *prng.pick(&stage.entries)).collect();
    let kind = prng.below(12);
    for keeper in 0..world.keepers.len() {
        let idle = world.keepers[keeper].head.status != ACTIVE && !prng.chance(1, 10);
        if idle || prng.chance(1, 5) {
            continue;
        }
        let entry = if prng.chance(1, 4) { *prng.pick(&stage.entries) } else { entry };
        let height = height_at(world, keeper, &label);
        let expected = if prng.chance(1, 12) { prng.below(4) as u64 } else { height + 1 };
        let call = match kind {
            0 | 1 => Call::New { label },
            2 | 3 => Call::Read { label, nonce },
            4 | 5 => Call::AppendAndRead { label, entry, expected, nonce },
            6 => Call::AppendMany { label, list: [&list.concat()[..], &entry].concat(), expected },
            _ => Call::Append { label, entry, expected },
        };
        if kind > 3 && height == 0 {
            world.call(keeper, &Call::New { label });
        }
        world.call(keeper, &call);
    }
}

fn height_at(world: &World, keeper: usize, label: &[u8; 16]) -> u64 {
    world.keepers[keeper].table.iter().find(|row| row.label == *label).map_or(0, |row| row.height)
}

/// Finalise to an heir: mostly the same for all, sometimes another, sometimes once more at a finalised keeper.
fn finalise(world: &mut World, stage: &Stage, prng: &mut Prng) {
    let heir = 1 + prng.below(stage.racks.len() - 1);
    for keeper in 0..world.keepers.len() {
        let status = world.keepers[keeper].head.status;
        let chosen = match status {
            ACTIVE => prng.chance(1, 2),
            FINALISED => prng.chance(1, 4),
            _ => prng.chance(1, 20),
        };
        if chosen {
            let other = prng.chance(1, 6);
            let next = if other { prng.pick(&stage.racks).clone() } else { stage.racks[heir].clone() };
            world.call(keeper, &Call::Finalise { next });
        }
    }
}

/// Blank keepers of an heir take a roll made from what was handed over; the maker is not always honest.
fn prepare(world: &mut World, stage: &mut Stage, prng: &mut Prng) {
    if world.handed.is_empty() {
        return;
    }
    let seed = prng.pick(&world.handed).clone();
    let (Some(previous), Some(own)) = (world.racks.get(&seed.own), world.racks.get(&seed.next)) else { return };
    let (previous, own) = (previous.clone(), own.clone());
    let heir = [seed.identity, seed.own, seed.next];
    let rows = match stage.proposals.get(&heir) {
        Some(rows) if prng.chance(7, 8) => rows.clone(),
        _ => propose(world, &seed, prng),
    };
    stage.proposals.insert(heir, rows.clone());
    for keeper in 0..world.keepers.len() {
        let member = good_member(&own, &world.keepers[keeper].head.key);
        if world.keepers[keeper].head.status == BLANK && member && prng.chance(3, 4) {
            let (identity, roll) = (seed.identity, in_blocks(&rows));
            let call = Call::Initialise { identity, roll, previous: previous.clone(), own: own.clone() };
            world.call(keeper, &call);
        }
    }
}

fn good_member(rack: &[u8], key: &[u8; 32]) -> bool {
    (0..rack[0]).any(|position| key_at(rack, position) == Some(*key))
}

/// The highest rows or just one of the rolls handed to the heir; now and then a row is dropped.
fn propose(world: &World, seed: &Handed, prng: &mut Prng) -> Vec<Row> {
    let mut rows = if prng.chance(1, 3) { seed.rows.clone() } else { highest(world, seed) };
    if prng.chance(1, 6) && !rows.is_empty() {
        rows.remove(prng.below(rows.len()));
    }
    rows
}

/// The highest rows of all rolls handed to the same heir, also those that some of them lack.
fn highest(world: &World, seed: &Handed) -> Vec<Row> {
    let mut rows = seed.rows.clone();
    let same = world.handed.iter().filter(|h| h.own == seed.own && h.next == seed.next);
    for other in same.flat_map(|handed| &handed.rows) {
        for row in rows.iter_mut().filter(|row| row.label == other.label && row.height < other.height) {
            *row = *other;
        }
        if rows.iter().all(|row| row.label != other.label) {
            rows.push(*other);
        }
    }
    rows.sort_by_key(|row| row.label);
    rows
}

/// A prepared keeper gets a bundle: all entries, only the valid ones, or a valid one first and then whatever there is.
fn activate(world: &mut World, prng: &mut Prng) {
    let Some(keeper) = in_status(world, prng, PREPARED) else { return };
    let hostile = prng.chance(1, 3);
    let old = old_entries(world, keeper, hostile, prng);
    let own_size = world.racks.get(&world.keepers[keeper].head.own).map_or(0, |rack| rack[0]);
    let new: Vec<u8> = (0..own_size).collect();
    let Some(mut scene) = world.scene(keeper, &old, &new) else { return };
    world.mark(keeper, &mut scene);
    if prng.chance(9, 10) {
        scene.new.retain(|(_, marks)| *marks == 3);
    }
    match prng.below(8) {
        0 => {}
        1 | 2 => {
            let first = scene.old.iter().position(|part| part.marks == 3).unwrap_or(0);
            scene.old.drain(..first);
        }
        _ => scene.old.retain(|part| part.marks == 3),
    }
    if prng.chance(1, 10) && !scene.old.is_empty() {
        let place = prng.below(scene.old.len());
        scene.old.insert(place, scene.old[place].clone());
    }
    let call = scene.activate();
    world.call(keeper, &call);
}

/// For each position the roll its keeper handed over, or, from a hostile messenger, the prepared keeper's own.
fn old_entries(world: &World, keeper: usize, hostile: bool, prng: &mut Prng) -> Vec<(u8, Vec<Row>)> {
    let lent = &world.keepers[keeper];
    let Some(previous) = world.racks.get(&lent.head.previous) else { return Vec::new() };
    let mut entries = Vec::new();
    for position in 0..previous[0] {
        let key = key_at(previous, position);
        let rolls: Vec<&Handed> = world.handed.iter().filter(|handed| Some(handed.key) == key).collect();
        if !rolls.is_empty() {
            entries.push((position, prng.pick(&rolls).rows.clone()));
        } else if hostile {
            entries.push((position, lent.table[..lent.head.count as usize].to_vec()));
        }
    }
    entries
}

/// A verdict on some receipt: with all valid signers, or one of them twice, or any positions; perhaps another nonce.
fn ask(world: &mut World, stage: &Stage, prng: &mut Prng) {
    if world.receipts.is_empty() {
        return;
    }
    let statement = prng.pick(&world.receipts).clone();
    let mut positions = world.valid_positions(&statement);
    match prng.below(8) {
        0 => positions = (0..4).filter(|_| prng.chance(1, 2)).collect(),
        1 => positions = positions.iter().flat_map(|position| [*position; 2]).collect(),
        2 => drop(positions.pop()),
        _ => {}
    }
    let nonce = if prng.chance(3, 4) { nonce_of(&statement) } else { *prng.pick(&stage.nonces) };
    world.verdict(&statement, &positions, nonce);
}

fn nonce_of(statement: &[u8]) -> [u8; 16] {
    if statement[0] == KIND_READ {
        part(statement, 121)
    } else {
        [0; 16]
    }
}

/// At the end every receipt is put before the desk with all its valid signers, and with the first of them again and again.
fn sweep(world: &mut World, stage: &Stage, prng: &mut Prng) {
    let mut receipts = world.receipts.clone();
    receipts.sort();
    receipts.dedup();
    for statement in receipts {
        let positions = world.valid_positions(&statement);
        world.verdict(&statement, &positions, nonce_of(&statement));
        if let (Some(first), true) = (positions.first(), prng.chance(1, 4)) {
            world.verdict(&statement, &[*first; 3], *prng.pick(&stage.nonces));
        }
    }
}
