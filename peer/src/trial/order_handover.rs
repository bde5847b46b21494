//! This file holds the refusals of Activate and Bytes to check, in 01's order, with the inputs that meet them.

use super::good;
use super::order::{Case, Damages, Plan};
use super::order_calls::{area, spoil, spoil_rack, UNSOUND};
use super::prng::Prng;
use super::scene::{Scene, Sizes};
use crate::call::Lent;
use crate::record::{ACTIVE, BLANK, FINALISED};
use crate::roll::in_blocks;
use crate::row::{appended, Row};

const NOT_PREPARED: &[&str] = &["5 blank", "5 active", "5 finalised"];
pub const PREVIOUS: &[&str] = &["6 previous empty", "6 previous n 0", "6 previous n 16", "6 previous same key"];
pub const OWN: &[&str] = &["6 own empty", "6 own short", "6 own long", "6 own not rising"];
const OTHER_RACK: &[&str] = &["21 previous", "21 own"];
const BUNDLE: &[&str] = &[
    "22 empty",
    "22 too long",
    "22 one after",
    "22 one short",
    "22 old position twice",
    "22 old position at size",
    "22 old marks 4",
    "22 no blocks",
    "22 eight blocks",
    "22 new position twice",
    "22 new position at size",
    "22 new marks 64",
    "22 count 65",
];
pub const ROLL: &[&str] = &["15 check", "15 count", "15 label zero", "15 two rolls"];

const ACTIVATE: &[&[&str]] = &[
    UNSOUND,
    NOT_PREPARED,
    PREVIOUS,
    OWN,
    OTHER_RACK,
    BUNDLE,
    ROLL,
    &["16 old", "16 new"],
    &["17 old 0"],
    &["18 old 0"],
    &["17 old 1"],
    &["18 old 1"],
    &["17 old 2"],
    &["18 old 2"],
    &["17 new 0"],
    &["19 new 0"],
    &["17 new 1"],
    &["19 new 1"],
    &[
        "20 missing in all",
        "20 missing, digest",
        "20 missing, fewer",
        "20 missing, none adds none",
        "20 label more",
        "20 height",
        "20 tail",
        "20 digest more",
        "20 none adds none",
    ],
];
const BYTES_TO_CHECK: &[&[&str]] = &[
    &["1 short", "1 none"],
    UNSOUND,
    NOT_PREPARED,
    PREVIOUS,
    OWN,
    OTHER_RACK,
    BUNDLE,
    ROLL,
    &["22 no old entry", "22 no new entry", "22 far entry", "22 third list"],
];

/// An entry that 16 took away can't be marked badly.
pub const APART: &[(&str, &str)] =
    &[("16 old", "17 old 2"), ("16 old", "18 old 2"), ("16 new", "17 new 1"), ("16 new", "19 new 1")];

pub fn plans() -> Vec<Plan> {
    vec![
        Plan { name: "Activate", steps: ACTIVATE, apart: APART, build: activate },
        Plan { name: "Bytes to check", steps: BYTES_TO_CHECK, apart: &[], build: bytes_to_check },
    ]
}

fn activate(prng: &mut Prng, damages: &Damages) -> Case {
    let (scene, lent) = damaged_scene(prng, damages, 0);
    Case { lent, call: scene.activate(), height: 0 }
}

fn bytes_to_check(prng: &mut Prng, damages: &Damages) -> Case {
    let (scene, lent) = damaged_scene(prng, damages, 129);
    let (list, entry) = match () {
        _ if damages.has("22 no old entry") => (0, 3),
        _ if damages.has("22 no new entry") => (1, 2),
        _ if damages.has("22 far entry") => (0, 1 << 32),
        _ if damages.has("22 third list") => (2, 0),
        _ => *prng.pick(&[(0, 0), (0, 2), (1, 0), (1, 1)]),
    };
    Case { lent, call: scene.bytes_to_check(list, entry), height: 0 }
}

/// A previous rack of five with three old entries, an own rack of three with two new ones, three rows.
fn damaged_scene(prng: &mut Prng, damages: &Damages, number_above: usize) -> (Scene, Lent) {
    let mut scene = Scene::good(prng, Sizes { previous: 5, own: 3, old: 3, new: 2, rows: 3 }, 0);
    let lent_rows = lag(prng, damages, &mut scene);
    scene.rows = lent_rows;
    not_derived(prng, damages, &mut scene);
    spoil_marks(damages, &mut scene);
    spoil_rolls(damages, &mut scene);
    spoil_lists(damages, &mut scene);
    spoil_rack(damages, "6 previous ", &mut scene.previous);
    spoil_rack(damages, "6 own ", &mut scene.own);
    let mut lent = Lent { area: area(damages, number_above), ..scene.lent(0) };
    spoil_status(damages, &mut lent);
    spoil(prng, damages, &mut lent);
    if damages.has("21 previous") {
        lent.head.previous[31] ^= 1;
    }
    if damages.has("21 own") {
        lent.head.own[0] ^= 1;
    }
    (scene, lent)
}

/// The keeper's roll goes two digests beyond what the old rolls held; the first old roll goes along, the others lag, and the
/// last of them lacks the second row in half of the cases (M-101).
fn lag(prng: &mut Prng, damages: &Damages, scene: &mut Scene) -> Vec<Row> {
    let mut ours = scene.rows.clone();
    let none_adds_none = damages.has("20 none adds none") || damages.has("20 missing, none adds none");
    for (place, row) in ours.iter_mut().enumerate() {
        let digests: [[u8; 32]; 2] = [prng.array(), prng.array()];
        // Labels below ff…, so that one more finds room after them.
        row.label[0] = 0x20 * (place as u8 + 1);
        let base = Row { tail: [0; 32], height: 0, ..*row };
        let tail = appended(&appended(&base.tail, &digests[0]), &digests[1]);
        *row = Row { tail, height: 2, ..base };
        for (number, part) in scene.old.iter_mut().enumerate() {
            let along = number == 0 && !(none_adds_none && place == 1);
            part.rows[place] = if along { *row } else { base };
            part.added[place] = if along { Vec::new() } else { digests.to_vec() };
        }
    }
    if prng.chance(1, 2) {
        scene.old[2].rows.remove(1);
    }
    ours
}

fn not_derived(prng: &mut Prng, damages: &Damages, scene: &mut Scene) {
    if damages.has("20 missing in all") {
        let label = scene.rows[1].label;
        scene.old.iter_mut().for_each(|part| part.rows.retain(|row| row.label != label));
    }
    let part = &mut scene.old[1];
    for name in damages.0 {
        match *name {
            "20 missing, none adds none" => drop(part.rows.remove(1)),
            "20 missing, digest" => {
                part.rows.remove(1);
                part.added[1][0] = prng.array();
            }
            "20 missing, fewer" => {
                part.rows.remove(1);
                part.added[1].pop();
            }
            "20 label more" => {
                let row = Row { label: [0xff; 16], ..part.rows[0] };
                part.rows.push(row);
            }
            "20 height" => part.rows[0] = Row { height: 1, tail: prng.array(), ..part.rows[0] },
            "20 tail" => part.added[2][1] = prng.array(),
            "20 digest more" => part.added[2].push(prng.array()),
            _ => {}
        }
    }
}

pub fn spoil_marks(damages: &Damages, scene: &mut Scene) {
    for name in damages.0 {
        match *name {
            "17 old 0" => scene.old[0].marks &= !1,
            "18 old 0" => scene.old[0].marks &= !2,
            "17 old 1" => scene.old[1].marks &= !1,
            "18 old 1" => scene.old[1].marks &= !2,
            "17 old 2" => scene.old[2].marks &= !1,
            "18 old 2" => scene.old[2].marks &= !2,
            "17 new 0" => scene.new[0].1 &= !1,
            "19 new 0" => scene.new[0].1 &= !2,
            "17 new 1" => scene.new[1].1 &= !1,
            "19 new 1" => scene.new[1].1 &= !2,
            _ => {}
        }
    }
}

pub fn spoil_rolls(damages: &Damages, scene: &mut Scene) {
    let part = &mut scene.old[1];
    let mut blocks = in_blocks(&part.rows);
    match () {
        _ if damages.has("15 check") => blocks[511] ^= 1,
        _ if damages.has("15 count") => {
            blocks[2] += 1;
            good::check_again(&mut blocks);
        }
        _ if damages.has("15 label zero") => {
            part.rows[0].label = [0; 16];
            blocks = in_blocks(&part.rows);
        }
        _ if damages.has("15 two rolls") => blocks = [blocks.clone(), blocks].concat(),
        _ => return,
    }
    part.blocks = Some(blocks);
}

pub fn spoil_lists(damages: &Damages, scene: &mut Scene) {
    if damages.has("16 old") {
        scene.old.pop();
    }
    if damages.has("16 new") {
        scene.new.pop();
    }
    for name in damages.0 {
        match *name {
            "22 empty" => scene.cut = usize::MAX,
            "22 one short" => scene.cut = 1,
            "22 too long" => scene.after = good::area(65_536),
            "22 one after" => scene.after = vec![0],
            "22 old position twice" => scene.old[1].position = scene.old[0].position,
            "22 old position at size" => scene.old.last_mut().unwrap().position = 5,
            "22 old marks 4" => scene.old[1].marks |= 4,
            "22 no blocks" => (scene.old[1].number_of_blocks, scene.old[1].blocks) = (Some(0), Some(Vec::new())),
            "22 eight blocks" => {
                (scene.old[1].number_of_blocks, scene.old[1].blocks) = (Some(8), Some(vec![0; 4096]));
            }
            "22 new position twice" => scene.new.push((scene.new.last().unwrap().0, 3)),
            "22 new position at size" => scene.new.last_mut().unwrap().0 = 3,
            "22 new marks 64" => scene.new[0].1 |= 64,
            "22 count 65" => scene.old[1].added[1] = vec![[7; 32]; 65],
            _ => {}
        }
    }
}

fn spoil_status(damages: &Damages, lent: &mut Lent) {
    for (name, status) in [("5 active", ACTIVE), ("5 finalised", FINALISED)] {
        if damages.has(name) {
            lent.head.status = status;
        }
    }
    if damages.has("5 blank") {
        lent.head.status = BLANK;
        lent.head.count = 0;
        lent.table = good::table(&[]);
    }
}
