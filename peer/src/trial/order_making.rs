//! This file holds the refusals of the maker of bundles, in M-106's order, with the inputs that meet them.

use super::good;
use super::making::{Ledger, Making};
use super::order::{Case, Damages, Plan};
use super::order_calls::spoil_rack;
use super::order_handover::{spoil_lists, spoil_marks, spoil_rolls, APART, OWN, PREVIOUS, ROLL};
use super::prng::Prng;
use super::scene::Sizes;
use super::shelf::{said, Slot};
use crate::call::Call;
use crate::roll::in_blocks;
use crate::row::{Row, TOP};

const FRONT: &[&str] = &[
    "22 empty",
    "22 too long",
    "22 one after",
    "22 one short",
    "22 old position twice",
    "22 old position at size",
    "22 old marks 4",
    "22 no blocks",
    "22 eight blocks",
    "22 new position twice",
    "22 new position at size",
    "22 new marks 64",
];
const MAKE: &[&[&str]] = &[
    &["2 one byte more", "2 one byte fewer", "2 129 blocks"],
    PREVIOUS,
    OWN,
    FRONT,
    ROLL,
    &["16 old", "16 new"],
    &["17 old 0"],
    &["18 old 0"],
    &["17 old 1"],
    &["18 old 1"],
    &["17 old 2"],
    &["18 old 2"],
    &["17 new 0"],
    &["19 new 0"],
    &["17 new 1"],
    &["19 new 1"],
    &["36 gap", "36 damaged", "36 first of two", "36 differ", "36 far"],
    &["37 rows", "37 count"],
    &["1 roll short", "1 roll none", "1 bundle short", "1 bundle none"],
];

pub fn plans() -> Vec<Plan> {
    vec![Plan { name: "Make bundle", steps: MAKE, apart: APART, build: make }]
}

/// The ledger of which the store must answer for entries.
const LAGGING: [u8; 16] = [0x5a; 16];

/// A previous rack of five with three old rolls, an own rack of three with two new entries. The first roll has all; the others
/// lag in one ledger, and the last of them lacks another in half of the cases.
fn making(prng: &mut Prng, damages: &Damages) -> Making {
    let texts = if damages.has("37 count") { 65 } else { 3 };
    let lacking = if prng.chance(1, 2) { None } else { Some(0) };
    let mut ledgers = vec![
        Ledger::new(prng, LAGGING, texts, &[Some(texts), Some(0), Some(1)]),
        Ledger::new(prng, [0x20; 16], 2, &[Some(2), Some(2), lacking]),
    ];
    if damages.has("37 rows") {
        // 63 rows of the first roll, and one that the second alone has.
        for row in good::rows(prng, 61) {
            ledgers.push(Ledger::new(prng, row.label, 0, &[Some(0), None, None]));
        }
        ledgers.push(Ledger::new(prng, [0x21; 16], 0, &[None, Some(0), None]));
    }
    Making::new(prng, Sizes { previous: 5, own: 3, old: 3, new: 2, rows: 0 }, ledgers)
}

fn make(prng: &mut Prng, damages: &Damages) -> Case {
    let mut making = making(prng, damages);
    let mut roll_area = in_blocks(&making.scene.rows).len();
    let mut bundle_area = making.scene.bundle().len();
    for name in damages.0 {
        match *name {
            "1 roll short" => roll_area -= 1,
            "1 roll none" => roll_area = 0,
            "1 bundle short" => bundle_area -= 1,
            "1 bundle none" => bundle_area = 0,
            _ => {}
        }
    }
    spoil_way(prng, damages, &mut making);
    spoil_marks(damages, &mut making.scene);
    spoil_rolls(damages, &mut making.scene);
    spoil_lists(damages, &mut making.scene);
    spoil_rack(damages, "6 previous ", &mut making.scene.previous);
    spoil_rack(damages, "6 own ", &mut making.scene.own);
    let mut given = making.given();
    match () {
        _ if damages.has("2 one byte more") => given.store.push(0),
        _ if damages.has("2 one byte fewer") => given.store.truncate(given.store.len() - 1),
        _ if damages.has("2 129 blocks") => given.store.resize(129 * 512, 0),
        _ => {}
    }
    Case { lent: good::only_area(roll_area + bundle_area), call: Call::MakeBundle { given, roll_area }, height: 0 }
}

/// The second roll's way to the highest row is spoilt at its first text.
fn spoil_way(prng: &mut Prng, damages: &Damages, making: &mut Making) {
    let other = Slot::Used(said(prng, LAGGING, 1, b"another"));
    let mut block = other.bytes();
    block[510] ^= 1;
    for name in damages.0 {
        match *name {
            "36 gap" => making.slots_of(LAGGING, 1).for_each(|slot| *slot = Slot::Unused),
            "36 damaged" => making.slots_of(LAGGING, 1).for_each(|slot| *slot = Slot::Damaged(block.clone())),
            "36 first of two" => making.shelf.slots.insert(0, other.clone()),
            "36 differ" => {
                let row = making.scene.old[0].rows.iter().find(|row| row.label == LAGGING);
                let row = Row { tail: prng.array(), ..*row.expect("the first roll has all") };
                replace(&mut making.scene.old[1].rows, row);
            }
            "36 far" => {
                let row = Row { label: LAGGING, tail: prng.array(), height: TOP };
                replace(&mut making.scene.old[0].rows, row);
            }
            _ => {}
        }
    }
}

fn replace(rows: &mut [Row], other: Row) {
    for row in rows.iter_mut().filter(|row| row.label == other.label) {
        *row = other;
    }
}
