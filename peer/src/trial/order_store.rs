//! This file holds the refusals of the store's two calls, in M-104's order, with the inputs that meet them.

use super::good;
use super::order::{Case, Damages, Plan};
use super::prng::Prng;
use super::shelf::{block_of, said, Shelf, Slot};
use crate::call::{Call, Lent};
use crate::row::TOP;

const SIZES: &[&str] = &["2 one byte more", "2 one byte fewer", "2 129 blocks", "2 many blocks"];
const DAMAGED: &[&str] = &["2 damaged first", "2 damaged last", "2 damaged check"];
const ABSENT: &[&str] = &["10 label", "10 height", "10 zero label", "10 no blocks"];
const DAMAGE: &[&str] = &["35 first", "35 last", "35 itself"];
const APPEND: &[&[&str]] = &[
    &["33 419", "33 many"],
    SIZES,
    DAMAGED,
    &["14"],
    &["11 lower", "11 same", "11 higher", "11 zero", "11 greatest"],
    &["12"],
    &["34 full", "34 no blocks"],
];
const READ: &[&[&str]] = &[&["1 none", "1 511"], SIZES, DAMAGE, ABSENT];

/// The label of the calls and its height in the store.
const LABEL: [u8; 16] = [0x5a; 16];
const HEIGHT: u64 = 6;

pub fn plans() -> Vec<Plan> {
    // An area of no blocks holds nothing damaged, has no label at the top and is neither shorter nor longer; the store has no
    // height of the zero label.
    const APPEND_APART: &[(&str, &str)] = &[
        ("34 no blocks", "2 damaged*"),
        ("34 no blocks", "12"),
        ("34 no blocks", "2 one byte fewer"),
        ("34 no blocks", "2 129*"),
        ("34 no blocks", "2 many*"),
        ("14", "12"),
    ];
    // Where a block is damaged the answer is 35 and not 10.
    const READ_APART: &[(&str, &str)] = &[
        ("35*", "10*"),
        ("10 no blocks", "2 one byte fewer"),
        ("10 no blocks", "2 129*"),
        ("10 no blocks", "2 many*"),
    ];
    vec![
        Plan { name: "Store append", steps: APPEND, apart: APPEND_APART, build: append },
        Plan { name: "Store read", steps: READ, apart: READ_APART, build: read },
    ]
}

/// Two blocks of the label, one of another, and two unused ones.
fn shelf(prng: &mut Prng, height: u64) -> Vec<Slot> {
    let other = good::label(prng);
    let texts: [([u8; 16], u64, &[u8]); 3] =
        [(LABEL, height - 1, b""), (LABEL, height, b"stand by"), (other, 3, b"go")];
    let mut slots: Vec<Slot> =
        texts.into_iter().map(|(label, height, text)| Slot::Used(said(prng, label, height, text))).collect();
    slots.extend([Slot::Unused, Slot::Unused]);
    slots
}

fn spoil_size(damages: &Damages, mut slots: Vec<Slot>) -> Vec<u8> {
    if damages.has("2 129 blocks") || damages.has("2 many blocks") {
        let last = slots[slots.len() - 1].clone();
        slots.resize(if damages.has("2 129 blocks") { 129 } else { 300 }, last);
    }
    let mut area = Shelf::new(slots).bytes();
    if damages.has("2 one byte more") {
        area.push(0);
    }
    if damages.has("2 one byte fewer") {
        area.pop();
    }
    area
}

fn append(prng: &mut Prng, damages: &Damages) -> Case {
    let height = if damages.has("12") { TOP } else { HEIGHT };
    let mut slots = shelf(prng, height);
    let mut text = prng.bytes(418);
    let (mut label, mut present) = (LABEL, height);
    for name in damages.0 {
        match *name {
            "33 419" => text.push(0),
            "33 many" => text.resize(70_000, 1),
            "14" => (label, present) = ([0; 16], 0),
            "34 full" => slots.truncate(3),
            "34 no blocks" => (slots, present) = (Vec::new(), 0),
            _ => {}
        }
    }
    spoil_blocks(prng, damages, &mut slots);
    let expected = match damages.0.iter().find(|name| name.starts_with("11")) {
        Some(&"11 lower") => present.wrapping_sub(1),
        Some(&"11 same") => present,
        Some(&"11 higher") => present + 2,
        Some(&"11 zero") => 0,
        Some(_) => u64::MAX,
        None => present + 1,
    };
    let lent = Lent { area: spoil_size(damages, slots), ..good::only_area(0) };
    Case { lent, call: Call::StoreAppend { label, expected, text }, height: present }
}

fn spoil_blocks(prng: &mut Prng, damages: &Damages, slots: &mut [Slot]) {
    for name in damages.0 {
        match *name {
            "2 damaged first" => slots[0] = Slot::Damaged(prng.bytes(512)),
            "2 damaged last" => {
                let block = block_of(&said(prng, LABEL, 0, b"height 0"));
                slots[slots.len() - 1] = Slot::Damaged(block);
            }
            "2 damaged check" => {
                let mut block = slots[2].bytes();
                block[511] ^= 1;
                slots[2] = Slot::Damaged(block);
            }
            _ => {}
        }
    }
}

/// The label's block at its height is asked for; with 35 it is absent, or the damaged one itself.
fn read(prng: &mut Prng, damages: &Damages) -> Case {
    let mut slots = shelf(prng, HEIGHT);
    let (mut label, mut height, mut length) = (LABEL, HEIGHT, 512);
    for name in damages.0 {
        match *name {
            "1 none" => length = 0,
            "1 511" => length = 511,
            "35 first" => (slots[0], height) = (Slot::Damaged(prng.bytes(512)), HEIGHT + 1),
            "35 last" => (slots[4], height) = (Slot::Damaged(prng.bytes(512)), 0),
            "35 itself" => {
                let mut block = slots[1].bytes();
                block[prng.below(512)] ^= 1;
                slots[1] = Slot::Damaged(block);
            }
            "10 label" => label[15] ^= 1,
            "10 height" => height = *prng.pick(&[0, HEIGHT - 2, HEIGHT + 1, TOP, u64::MAX]),
            "10 zero label" => (label, height) = ([0; 16], 0),
            "10 no blocks" => slots.clear(),
            _ => {}
        }
    }
    let store = spoil_size(damages, slots);
    Case { lent: good::only_area(length), call: Call::StoreRead { store, label, height }, height: 0 }
}
