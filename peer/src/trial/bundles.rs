//! This file holds the trial of handover bundles and signer lists, good, damaged in each field, and at each bound.

use super::good;
use super::layouts::some_statement;
use super::pairing::Pairing;
use super::prng::Prng;
use super::scene::{any_sizes, OldPart, Scene, Sizes};
use crate::call::{AskVerdict, Call};
use crate::roll::{blocks, in_blocks};
use crate::row::{appended, Row};
use crate::statement::{self, Statement};

pub fn run(pairing: &mut Pairing, prng: &mut Prng) {
    long_bundles(pairing, prng);
    bundle_bounds(pairing, prng);
    for _ in 0..20 {
        bundle_bytes(pairing, prng);
    }
    signer_lists(pairing, prng);
}

/// "At most 65,536 bytes": good bundles of exactly this length and of lengths around it.
fn long_bundles(pairing: &mut Pairing, prng: &mut Prng) {
    for length in [65_504, 65_534, 65_535, 65_536, 65_537, 65_538, 65_568] {
        let Some(scene) = scene_of_length(prng, length) else {
            pairing.fault(format!("no good bundle of {length} bytes could be made"));
            continue;
        };
        pairing.ask(scene.bundle().len() == length, "the bundle has the length asked for");
        let number = if length > 65_536 { 22 } else { 0 };
        pairing.expect("a long bundle", &mut scene.lent(0), &scene.activate(), number);
        pairing.expect("a long bundle", &mut scene.lent(129), &scene.bytes_to_check(1, 0), number);
    }
}

/// Searches sizes for which whole digests fill the bundle to this length; one old roll of three or two adds none.
fn scene_of_length(prng: &mut Prng, length: usize) -> Option<Scene> {
    for (old, previous) in [(2, 2), (3, 4)] {
        for new in 8..=15 {
            for rows in 20..=63 {
                let sizes = Sizes { previous, own: 15, old, new, rows };
                let fixed = 2 + old * (3 + 512 * blocks(rows)) + 2 * new + 2 * old * rows;
                let left = length.checked_sub(fixed)?;
                if left % 32 == 0 && left / 32 <= 64 * rows {
                    return Some(filled_scene(prng, sizes, left / 32));
                }
            }
        }
    }
    None
}

/// The first old roll lags by all the digests, row after row 64 at most; the others stand where the keeper stands.
fn filled_scene(prng: &mut Prng, sizes: Sizes, mut digests: usize) -> Scene {
    let mut scene = Scene::good(prng, sizes, 0);
    for place in 0..sizes.rows {
        let count = digests.min(64);
        digests -= count;
        let mut row = Row { tail: [0; 32], height: 0, ..scene.rows[place] };
        scene.old[0].rows[place] = row;
        for _ in 0..count {
            let digest = prng.array();
            scene.old[0].added[place].push(digest);
            row.tail = appended(&row.tail, &digest);
            row.height += 1;
        }
        scene.rows[place] = row;
        for part in &mut scene.old[1..] {
            part.rows[place] = row;
        }
    }
    scene
}

/// Counts of 64 and 65, block counts of seven and eight, lists as long as the rack and longer.
fn bundle_bounds(pairing: &mut Pairing, prng: &mut Prng) {
    let sizes = Sizes { previous: 3, own: 3, old: 2, new: 2, rows: 1 };
    for (digests, number) in [(0, 0), (1, 0), (63, 0), (64, 0)] {
        let scene = filled_scene(prng, sizes, digests);
        pairing.expect("a count", &mut scene.lent(0), &scene.activate(), number);
    }
    let mut scene = filled_scene(prng, sizes, 64);
    scene.old[0].added[0].push(prng.array());
    pairing.expect("a count of 65", &mut scene.lent(0), &scene.activate(), 22);
    for (named, number) in [(0, 22), (1, 0), (2, 15), (7, 15), (8, 22), (255, 22)] {
        let mut scene = Scene::good(prng, sizes, 1);
        let mut bytes = in_blocks(&scene.old[1].rows);
        bytes.resize(512 * named, 0);
        (scene.old[1].number_of_blocks, scene.old[1].blocks) = (Some(named as u8), Some(bytes));
        pairing.expect("a block count", &mut scene.lent(0), &scene.activate(), number);
    }
    let scene = Scene::good(prng, Sizes { rows: 63, ..sizes }, 1);
    pairing.expect("seven blocks", &mut scene.lent(0), &scene.activate(), 0);
    let scene = Scene::good(prng, Sizes { previous: 15, own: 15, old: 15, new: 15, rows: 2 }, 3);
    pairing.expect("full lists", &mut scene.lent(0), &scene.activate(), 0);
    let mut longer = scene.clone();
    longer.new.push((15, 3));
    pairing.expect("a list longer than the rack", &mut longer.lent(0), &longer.activate(), 22);
    empty_keeper(pairing, prng);
}

/// A keeper with an empty roll has no counts in its bundle, whatever the old rolls hold (reading C16).
fn empty_keeper(pairing: &mut Pairing, prng: &mut Prng) {
    let mut scene = Scene::good(prng, Sizes { previous: 1, own: 1, old: 1, new: 1, rows: 0 }, 0);
    scene.old[0].rows = good::rows(prng, 1);
    pairing.expect("an old roll of one row", &mut scene.lent(0), &scene.activate(), 20);
    scene.after = vec![0, 0];
    pairing.expect("a count too many", &mut scene.lent(0), &scene.activate(), 22);
}

/// Every byte of the frame of a bundle damaged, blocks and digests at some places; also every way to cut it.
fn bundle_bytes(pairing: &mut Pairing, prng: &mut Prng) {
    let sizes = any_sizes(prng);
    let scene = Scene::good(prng, sizes, 2);
    let bundle = scene.bundle();
    let mut places: Vec<usize> = (0..bundle.len().min(12)).collect();
    places.extend(bundle.len().saturating_sub(300)..bundle.len());
    places.extend((0..60).map(|_| prng.below(bundle.len())));
    for place in places {
        let mut damaged = bundle.clone();
        damaged[place] = match prng.below(3) {
            0 => damaged[place].wrapping_add(1),
            1 => prng.byte(),
            _ => damaged[place] ^ 1 << prng.below(8),
        };
        try_bundle(pairing, prng, &scene, damaged);
        try_bundle(pairing, prng, &scene, bundle[..place].to_vec());
    }
    for list in 0..3 {
        for entry in [0, 1, 2, 14, 15, 255, 256, 1 << 32, u64::MAX] {
            pairing.call(&mut scene.lent(129), &scene.bytes_to_check(list, entry));
        }
    }
}

fn try_bundle(pairing: &mut Pairing, prng: &mut Prng, scene: &Scene, bundle: Vec<u8>) {
    let papers = scene.papers(bundle);
    let call = if prng.chance(1, 2) {
        Call::Activate(papers)
    } else {
        let list = prng.below(2) as u8;
        Call::BytesToCheck { papers, list, entry: prng.below(3) as u64 }
    };
    pairing.call(&mut scene.lent(129), &call);
}

/// A scene with damages to its parts before the bundle is put together, blocks checked again.
pub fn any_bundle(pairing: &mut Pairing, prng: &mut Prng) {
    let sizes = any_sizes(prng);
    let mut scene = Scene::good(prng, sizes, 3);
    for _ in 0..prng.below(3) {
        damage_scene(prng, &mut scene);
    }
    let call = if prng.chance(2, 3) {
        scene.activate()
    } else {
        scene.bytes_to_check(prng.below(2) as u8, prng.below(4) as u64)
    };
    let mut lent = scene.lent(129);
    pairing.call(&mut lent, &call);
}

fn damage_scene(prng: &mut Prng, scene: &mut Scene) {
    if scene.old.is_empty() || scene.new.is_empty() {
        return;
    }
    let number = prng.below(scene.old.len());
    let new = prng.below(scene.new.len());
    let part = &mut scene.old[number];
    match prng.below(12) {
        0 => part.marks = prng.below(8) as u8,
        1 => part.position = prng.below(17) as u8,
        2 => scene.new[new].1 = prng.below(8) as u8,
        3 => scene.new[new].0 = prng.below(17) as u8,
        4 => damage_blocks(prng, part),
        5 => drop(part.added.pop()),
        6 => part.added.push(Vec::new()),
        7 => scene.head.identity = prng.array(),
        8 => scene.after = vec![0; prng.below(3)],
        9 => scene.cut = prng.below(40),
        _ => damage_rows(prng, part),
    }
}

fn damage_blocks(prng: &mut Prng, part: &mut OldPart) {
    let mut blocks = in_blocks(&part.rows);
    let place = prng.below(64);
    blocks[place] ^= 1 << prng.below(8);
    good::check_again(&mut blocks);
    part.blocks = Some(blocks);
}

fn damage_rows(prng: &mut Prng, part: &mut OldPart) {
    if part.rows.is_empty() {
        return;
    }
    let place = prng.below(part.rows.len());
    match prng.below(5) {
        0 => drop(part.rows.remove(place)),
        1 => part.rows[place].height += 1,
        2 => part.rows[place].tail[0] ^= 1,
        3 => part.rows[place].label[15] ^= 2,
        _ => {
            if let Some(digests) = part.added.get_mut(place) {
                digests.push([3; 32]);
            }
        }
    }
}

fn judged(prng: &mut Prng, n: usize, kind: u8, signers: Vec<u8>) -> Call {
    let rack = good::rack(prng, n);
    let height = if kind == 1 { 0 } else { 5 };
    let statement = Statement { own: good::digest(&rack), ..some_statement(prng, kind, height) };
    Call::Verdict(AskVerdict {
        identity: statement.identity,
        rack,
        kind,
        label: statement.label,
        nonce: statement.nonce,
        statement: statement::bytes(&statement),
        signers,
    })
}

/// All lists of two and of three pairs of small positions and marks, and lists at the rack's size.
fn signer_lists(pairing: &mut Pairing, prng: &mut Prng) {
    for first in 0..4u8 {
        for second in 0..4u8 {
            for marks in 0..32u8 {
                let list = vec![first, marks & 3, second, marks >> 2];
                let call = judged(prng, 3, 1 + marks % 3, list);
                pairing.call(&mut good::only_area(0), &call);
            }
        }
    }
    for n in [1, 2, 14, 15] {
        for length in 0..=2 * n + 2 {
            let list: Vec<u8> = (0..=n as u8).flat_map(|position| [position, 3]).take(length).collect();
            let call = judged(prng, n, 3, list);
            pairing.call(&mut good::only_area(0), &call);
        }
    }
}

pub fn any_signers(pairing: &mut Pairing, prng: &mut Prng) {
    let n = 1 + prng.below(15);
    let mut list: Vec<u8> = Vec::new();
    for position in 0..n as u8 {
        if prng.chance(2, 3) {
            list.extend([position, if prng.chance(9, 10) { 3 } else { prng.below(6) as u8 }]);
        }
    }
    if prng.chance(1, 4) && !list.is_empty() {
        let place = prng.below(list.len());
        list[place] = prng.below(17) as u8;
    }
    let kind = 1 + prng.below(3) as u8;
    let call = judged(prng, n, kind, list);
    pairing.call(&mut good::only_area(0), &call);
}
