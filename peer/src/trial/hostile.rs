//! This file holds hostile histories aimed at the slips; sound rules refuse at the decisive step, broken ones are caught.

use super::good;
use super::pairing::Pairing;
use super::prng::Prng;
use super::world::{part, World};
use crate::call::Call;
use crate::record::ACTIVE;
use crate::roll::in_blocks;
use crate::row::{appended, Row};

pub fn run(pairing: &mut Pairing, prng: &mut Prng) {
    two_halves(pairing, prng);
    one_signer_twice(pairing, prng);
    one_finalised_of_three(pairing, prng, 0);
    one_finalised_of_three(pairing, prng, 1);
    lagging_first_old_entry(pairing, prng);
    missed_new(pairing, prng, 0);
    missed_new(pairing, prng, 1);
    second_heir(pairing, prng, true);
    second_heir(pairing, prng, false);
    replayed_reading(pairing, prng);
    rack_of_two(pairing, prng);
    heights_between(pairing, prng);
    crowding(pairing, prng);
}

const LABEL: [u8; 16] = [1; 16];
const FIRST: [u8; 32] = [0xaa; 32];
const SECOND: [u8; 32] = [0xbb; 32];

/// A founded rack of `count` keepers, 0 to count - 1, all with the ledger; keepers stand in the rack in this order.
fn founded(world: &mut World, prng: &mut Prng, count: usize) -> Vec<u8> {
    founded_but(world, prng, count, None)
}

/// The same, but for a keeper that misses the New call.
fn founded_but(world: &mut World, prng: &mut Prng, count: usize, missed: Option<usize>) -> Vec<u8> {
    let keys = good::keys(prng, count);
    let rack = world.rack(&keys);
    for key in keys {
        let keeper = world.wake(key);
        let call = Call::Initialise { identity: [0; 32], roll: vec![], previous: vec![], own: rack.clone() };
        world.call(keeper, &call);
        if Some(keeper) != missed {
            world.call(keeper, &Call::New { label: LABEL });
        }
    }
    rack
}

/// Appends the entry at height 1 and gives the statement.
fn append(world: &mut World, keeper: usize, entry: [u8; 32]) -> Vec<u8> {
    let before = world.receipts.len();
    world.call(keeper, &Call::Append { label: LABEL, entry, expected: 1 });
    world.receipts.get(before).cloned().unwrap_or_default()
}

fn judge(world: &mut World, statement: &[u8], positions: &[u8]) {
    if !statement.is_empty() {
        world.verdict(statement, positions, [0; 16]);
    }
}

/// "two of four pass, and two halves of a rack disagree"
fn two_halves(pairing: &mut Pairing, prng: &mut Prng) {
    let mut world = World::new(pairing, true);
    founded(&mut world, prng, 4);
    let statements: Vec<Vec<u8>> =
        (0..4).map(|keeper| append(&mut world, keeper, if keeper < 2 { FIRST } else { SECOND })).collect();
    judge(&mut world, &statements[0], &[0, 1]);
    judge(&mut world, &statements[2], &[2, 3]);
}

/// "One keeper's signature listed twice as two."
fn one_signer_twice(pairing: &mut Pairing, prng: &mut Prng) {
    let mut world = World::new(pairing, true);
    founded(&mut world, prng, 3);
    let alone = append(&mut world, 0, FIRST);
    let both = append(&mut world, 1, SECOND);
    append(&mut world, 2, SECOND);
    judge(&mut world, &both, &[1, 2]);
    judge(&mut world, &alone, &[0, 0]);
}

/// A rack of three of which keeper 0 lags, a verdict for the first entry by the others, and a lone heir, keeper 3.
fn lagging(world: &mut World, prng: &mut Prng, missed: Option<usize>) -> (Vec<u8>, Vec<u8>) {
    let previous = founded_but(world, prng, 3, missed);
    let statement = append(world, 1, FIRST);
    append(world, 2, FIRST);
    judge(world, &statement, &[1, 2]);
    let key = prng.array();
    world.wake(key);
    let own = world.rack(&[key]);
    (previous, own)
}

/// The heir takes keeper 0's lagging roll and is given these old entries, each with the roll named.
fn inherit(world: &mut World, heir: usize, racks: (&[u8], &[u8]), roll: &[Row], old: &[(u8, Vec<Row>)]) {
    let identity = good::digest(racks.0);
    let (previous, own) = (racks.0.to_vec(), racks.1.to_vec());
    world.call(heir, &Call::Initialise { identity, roll: in_blocks(roll), previous, own });
    let Some(mut scene) = world.scene(heir, old, &[0]) else { return };
    // Marks are asked for entry by entry, as if each stood alone, so that positions twice are no hindrance.
    for place in 0..scene.old.len() {
        let mut alone = scene.clone();
        alone.old = vec![scene.old[place].clone()];
        world.mark(heir, &mut alone);
        scene.old[place].marks = alone.old[0].marks;
        scene.new = alone.new;
    }
    let call = scene.activate();
    world.call(heir, &call);
}

/// If the heir became active it appends another entry at a height already told.
fn contradict(world: &mut World, heir: usize, entry: [u8; 32]) {
    let statement = append(world, heir, entry);
    judge(world, &statement, &[0]);
}

fn rows_of(world: &World, keeper: usize) -> Vec<Row> {
    let lent = &world.keepers[keeper];
    lent.table[..lent.head.count as usize].to_vec()
}

/// Keeper 0 alone finalised, and its roll stands as well at a second position: its own, listed twice as a majority of three,
/// or keeper 1's, who never signed it ("testing the first old entry only").
fn one_finalised_of_three(pairing: &mut Pairing, prng: &mut Prng, second: u8) {
    let mut world = World::new(pairing, true);
    let (previous, own) = lagging(&mut world, prng, None);
    world.call(0, &Call::Finalise { next: own.clone() });
    let roll = rows_of(&world, 0);
    inherit(&mut world, 3, (&previous, &own), &roll, &[(0, roll.clone()), (second, roll.clone())]);
    contradict(&mut world, 3, SECOND);
}

/// "Activating on the keeper's own roll alone, or testing the first old entry only": the second old roll is further.
fn lagging_first_old_entry(pairing: &mut Pairing, prng: &mut Prng) {
    let mut world = World::new(pairing, true);
    let (previous, own) = lagging(&mut world, prng, None);
    world.call(0, &Call::Finalise { next: own.clone() });
    world.call(1, &Call::Finalise { next: own.clone() });
    let (roll, further) = (rows_of(&world, 0), rows_of(&world, 1));
    inherit(&mut world, 3, (&previous, &own), &roll, &[(0, roll.clone()), (1, further)]);
    contradict(&mut world, 3, SECOND);
}

/// M-101: keeper 0 "had missed the New call". The heir takes keeper 1's roll and is accepted, or keeper 0's, in which the
/// ledger is lost, and must not be.
fn missed_new(pairing: &mut Pairing, prng: &mut Prng, taken: usize) {
    let mut world = World::new(pairing, true);
    let (previous, own) = lagging(&mut world, prng, Some(0));
    world.call(0, &Call::Finalise { next: own.clone() });
    world.call(1, &Call::Finalise { next: own.clone() });
    let rolls = [rows_of(&world, 0), rows_of(&world, 1)];
    let old = [(0, rolls[0].clone()), (1, rolls[1].clone())];
    inherit(&mut world, 3, (&previous, &own), &rolls[taken], &old);
    let active = world.keepers[3].head.status == ACTIVE;
    world.pairing.ask(active == (taken == 1), "the heir is active with the roll that has the ledger, and only with it");
    world.call(3, &Call::New { label: LABEL });
    contradict(&mut world, 3, SECOND);
}

/// "A second finalise that takes the new argument: one rack gets two heirs."
/// With erased keys the second request for a signature is the fault; without them both heirs contradict each other.
fn second_heir(pairing: &mut Pairing, prng: &mut Prng, erases: bool) {
    let mut world = World::new(pairing, erases);
    let previous = founded(&mut world, prng, 3);
    let roll = rows_of(&world, 0);
    for entry in [FIRST, SECOND] {
        let key = prng.array();
        let heir = world.wake(key);
        let own = world.rack(&[key]);
        for keeper in 0..3 {
            world.call(keeper, &Call::Finalise { next: own.clone() });
        }
        let old: Vec<(u8, Vec<Row>)> = (0..3).map(|position| (position, roll.clone())).collect();
        inherit(&mut world, heir, (&previous, &own), &roll, &old);
        contradict(&mut world, heir, entry);
    }
}

/// "A reading with another nonce taken because its signatures are good."
fn replayed_reading(pairing: &mut Pairing, prng: &mut Prng) {
    let mut world = World::new(pairing, true);
    founded(&mut world, prng, 3);
    let (old, asked) = (prng.array(), prng.array());
    for keeper in 0..3 {
        world.call(keeper, &Call::Read { label: LABEL, nonce: old });
    }
    let Some(reading) = world.receipts.last().cloned() else { return };
    for keeper in 0..3 {
        append(&mut world, keeper, FIRST);
    }
    world.verdict(&reading, &[0, 1, 2], part(&reading, 121));
    world.verdict(&reading, &[0, 1, 2], asked);
}

/// M-107: a rack of two, founded before it, is judged as before, may not hand over to two, and hands over to another size.
fn rack_of_two(pairing: &mut Pairing, prng: &mut Prng) {
    let mut world = World::new(pairing, true);
    let keys = good::keys(prng, 2);
    let previous = world.rack(&keys);
    let mut statement = Vec::new();
    for key in keys {
        let keeper = world.wake(key);
        world.found_before(keeper, &previous);
        world.call(keeper, &Call::New { label: LABEL });
        statement = append(&mut world, keeper, FIRST);
    }
    judge(&mut world, &statement, &[0, 1]);
    let key = prng.array();
    let heir = world.wake(key);
    let own = world.rack(&[key]);
    for keeper in [0, 1] {
        world.call(keeper, &Call::Finalise { next: previous.clone() });
        world.call(keeper, &Call::Finalise { next: own.clone() });
    }
    let roll = rows_of(&world, 0);
    inherit(&mut world, heir, (&previous, &own), &roll, &[(0, roll.clone()), (1, roll.clone())]);
    let active = world.keepers[heir].head.status == ACTIVE;
    world.pairing.ask(active, "a rack of two hands over to another size");
    contradict(&mut world, heir, SECOND);
}

/// M-100: "Heights in between are signed by nobody". Of two entries at one press the desk takes the second's height, not the first's.
fn heights_between(pairing: &mut Pairing, prng: &mut Prng) {
    let mut world = World::new(pairing, true);
    founded(&mut world, prng, 3);
    let list = [FIRST, SECOND].concat();
    for keeper in 0..3 {
        world.call(keeper, &Call::AppendMany { label: LABEL, list: list.clone(), expected: 1 });
    }
    let Some(last) = world.receipts.last().cloned() else { return };
    let mut between = last.clone();
    between[81..113].copy_from_slice(&appended(&[0; 32], &FIRST));
    between[120] = 1;
    let accepted = |world: &World| world.pairing.tally.accepted("Verdict");
    let before = accepted(&world);
    judge(&mut world, &between, &[0, 1, 2]);
    let none = accepted(&world) == before;
    world.pairing.ask(none, "no keeper has signed the height in between");
    judge(&mut world, &last, &[0, 1, 2]);
    let one = accepted(&world) == before + 1;
    world.pairing.ask(one, "the statement of the last height is accepted");
}

/// M-108: one company asks for far more rows than the keepers have; the other still gets its ledger, and a verdict on it.
fn crowding(pairing: &mut Pairing, prng: &mut Prng) {
    let mut world = World::new(pairing, true);
    founded(&mut world, prng, 3);
    for keeper in 0..3 {
        for byte in 2..100 {
            world.call(keeper, &Call::New { label: [byte; 16] });
        }
        let taken = rows_of(&world, keeper).len();
        world.pairing.ask(taken == 31, "one company gets 31 rows and no more");
        world.call(keeper, &Call::New { label: [200; 16] });
    }
    let Some(statement) = world.receipts.last().cloned() else { return };
    let before = world.pairing.tally.accepted("Verdict");
    judge(&mut world, &statement, &[0, 1, 2]);
    let told = statement[65..81] == [200; 16] && world.pairing.tally.accepted("Verdict") == before + 1;
    world.pairing.ask(told, "the other company's ledger is accepted");
}
