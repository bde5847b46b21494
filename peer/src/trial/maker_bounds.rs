//! This file holds the trial of the maker at its bounds: counts, heights, rows and the bundle's length.

use super::good;
use super::maker::{answer, lone, sizes, Way, LABEL, SEARCHED};
use super::making::{Ledger, Making};
use super::pairing::Pairing;
use super::prng::Prng;
use super::scene::Sizes;
use super::shelf::Slot;
use crate::row::{Row, TOP};

/// Needs of 63 to 66 entries, of as many as the store has blocks, and of one more.
pub fn counts(pairing: &mut Pairing, prng: &mut Prng) {
    for (needed, number) in [(63, 0), (64, 0), (65, 37), (66, 37), (128, 37)] {
        for second in [Some(0), None] {
            lone(prng, needed, &[Some(needed), second]).hold(pairing, "counts", number, 0);
        }
        let mut gap = lone(prng, needed, &[Some(needed), Some(0)]);
        answer(prng, &mut gap, LABEL, needed as u64, Way::Gap);
        gap.hold(pairing, "counts", 36, 0);
    }
    let mut more = lone(prng, 129, &[Some(129), Some(0)]);
    more.slots_of(LABEL, 129).for_each(|slot| *slot = Slot::Unused);
    more.shelf.slots.retain(|slot| matches!(slot, Slot::Used(_)));
    more.hold(pairing, "a need of more entries than the store has blocks", 36, 0);
}

/// All bundles of a need of 65 entries, one by one.
pub fn every_bundle_of_65(pairing: &mut Pairing, prng: &mut Prng) {
    lone(prng, 65, &[Some(65), Some(0)]).hold(pairing, "every bundle of 65", 37, 10_000);
}

/// Heights far apart, up to the top, and near the top.
pub fn far_apart(pairing: &mut Pairing, prng: &mut Prng) {
    for height in [200, 1 << 16, 1 << 31, TOP] {
        for low in [None, Some(0), Some(1)] {
            let mut making = lone(prng, 1, &[Some(1), low]);
            making.scene.old[0].rows = vec![Row { label: LABEL, tail: prng.array(), height }];
            making.hold(pairing, "far apart", 36, SEARCHED);
        }
    }
    for (seen, number) in
        [([Some(2), Some(2)], 0), ([Some(2), Some(0)], 0), ([Some(1), Some(2)], 0), ([Some(2), None], 36)]
    {
        let base = Row { label: LABEL, tail: prng.array(), height: TOP - 2 };
        let texts = vec![prng.bytes(3), prng.bytes(4)];
        let making = Making::new(prng, sizes(2), vec![Ledger { base, texts, seen: seen.to_vec() }]);
        making.hold(pairing, "near the top", number, SEARCHED);
    }
}

/// 62 to 70 rows of two old rolls; of 64 rows no keeper's roll can have all, and one that lacks a row is not derived. More than
/// 63 rows and a missing entry are 36.
pub fn row_counts(pairing: &mut Pairing, prng: &mut Prng) {
    for (both, first, second) in
        [(62, 0, 0), (63, 0, 0), (61, 1, 1), (62, 1, 1), (40, 12, 12), (1, 31, 31), (7, 31, 32)]
    {
        let labels = good::rows(prng, both + first + second).into_iter().map(|row| row.label);
        let seen = |place: usize| match place {
            _ if place < both => [Some(0), Some(0)],
            _ if place < both + first => [Some(0), None],
            _ => [None, Some(0)],
        };
        let mut ledgers: Vec<Ledger> =
            labels.enumerate().map(|(place, label)| Ledger::new(prng, label, 0, &seen(place))).collect();
        let making = Making::new(prng, sizes(2), ledgers.clone());
        making.hold(pairing, "rows", if both + first + second > 63 { 37 } else { 0 }, 0);
        if both + first + second == 64 {
            all_but_one(pairing, &making);
        }
        ledgers[0] = Ledger::new(prng, ledgers[0].base.label, 1, &[Some(1), Some(0)]);
        let mut gap = Making::new(prng, sizes(2), ledgers);
        gap.shelf.slots.clear();
        gap.hold(pairing, "rows and a missing entry", 36, 0);
    }
}

/// Each keeper's roll of 63 of the 64 rows is refused.
fn all_but_one(pairing: &mut Pairing, making: &Making) {
    for left_out in 0..64 {
        let mut scene = making.scene.clone();
        scene.rows.remove(left_out);
        scene.old.iter_mut().for_each(|part| drop(part.added.remove(left_out)));
        scene.head.count = 63;
        pairing.expect("63 of 64 rows", &mut scene.lent(0), &scene.activate(), 20);
    }
}

/// Fourteen rolls of 63 rows and 423 digests make a bundle of 65,536 bytes; one digest more is too many.
pub fn lengths(pairing: &mut Pairing, prng: &mut Prng) {
    for (lagging, length, number) in [(6, 65_504, 0), (7, 65_536, 0), (8, 65_568, 37)] {
        let mut labels = good::rows(prng, 63).into_iter().map(|row| row.label);
        let mut seen = |texts: usize, behind: usize| {
            let seen: Vec<Option<usize>> = (0..14).map(|roll| Some(if roll < behind { 0 } else { texts })).collect();
            Ledger::new(prng, labels.next().expect("63 labels"), texts, &seen)
        };
        let mut ledgers = vec![seen(32, 13), seen(1, lagging)];
        ledgers.extend((0..61).map(|_| seen(0, 0)));
        let sizes = Sizes { previous: 15, own: 15, old: 14, new: 8, rows: 0 };
        let making = Making::new(prng, sizes, ledgers);
        pairing.ask(making.scene.bundle().len() == length, "the bundle's length");
        making.hold(pairing, "the longest bundle", number, 0);
    }
}
