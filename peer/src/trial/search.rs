//! This file holds the search behind the maker's answers: every bundle of its entries and of the store's digests, at every keeper's roll.

use super::making::Making;
use super::pairing::Pairing;
use super::scene::Scene;
use crate::row::{appended, Row};
use std::collections::BTreeMap;

/// What can stand in the keeper's roll and in the bundle for one label.
struct Standing {
    /// The rows that the keeper may have: each old one, each that the store's digests lead to, and one at height 0.
    rows: Vec<Row>,
    /// For each old roll the store's digests above its row and up to the highest, as far as the store's read answers in turn;
    /// its list is as many of them as one likes, from the first on.
    digests: Vec<Vec<[u8; 32]>>,
}

impl Standing {
    fn new(making: &Making, label: [u8; 16]) -> Standing {
        let zero = Row { label, ..Row::ZERO };
        let has = |rows: &[Row]| rows.iter().find(|row| row.label == label).copied();
        let old: Vec<Row> = making.scene.old.iter().map(|part| has(&part.rows).unwrap_or(zero)).collect();
        let top = old.iter().map(|row| row.height).max().unwrap_or(0);
        let digests: Vec<Vec<[u8; 32]>> = old.iter().map(|row| answered(making, row, top)).collect();
        let mut rows = vec![zero];
        for (row, digests) in old.iter().zip(&digests) {
            let mut reached = *row;
            rows.push(reached);
            for digest in digests {
                reached = Row { tail: appended(&reached.tail, digest), height: reached.height + 1, ..reached };
                rows.push(reached);
            }
        }
        rows.sort_by_key(|row| (row.height, row.tail));
        rows.dedup();
        Standing { rows, digests }
    }

    /// The ways of all lists for one row.
    fn lists(&self) -> u64 {
        product(self.digests.iter().map(|digests| digests.len() as u64 + 1))
    }

    /// The ways for this label: no row, or any row with any lists.
    fn ways(&self) -> u64 {
        (self.rows.len() as u64).saturating_mul(self.lists()).saturating_add(1)
    }

    /// Puts the row and the lists of one way, if it has a row, at the end of the scene's.
    fn put(&self, scene: &mut Scene, way: u64) {
        let Some(way) = way.checked_sub(1) else { return };
        scene.rows.push(self.rows[(way / self.lists()) as usize]);
        let mut rest = way % self.lists();
        for (part, digests) in scene.old.iter_mut().zip(&self.digests) {
            let choices = digests.len() as u64 + 1;
            part.added.push(digests[..(rest % choices) as usize].to_vec());
            rest /= choices;
        }
    }
}

/// A product that is far too great stays so.
fn product(factors: impl Iterator<Item = u64>) -> u64 {
    factors.fold(1, u64::saturating_mul)
}

fn answered(making: &Making, old: &Row, top: u64) -> Vec<[u8; 32]> {
    let at = |height| making.shelf.answering(&old.label, height).map(|said| said.digest);
    (old.height + 1..=top).map_while(at).collect()
}

/// How many of all bundles "made of all those entries and such digests" Activate accepts "at a prepared keeper with these racks",
/// whatever its roll; `None` if there are more than so many to try.
pub fn accepted(pairing: &mut Pairing, making: &Making, most: u64) -> Option<u64> {
    let rows = making.scene.old.iter().flat_map(|part| &part.rows);
    let mut labels: BTreeMap<[u8; 16], Standing> =
        rows.map(|row| (row.label, Standing::new(making, row.label))).collect();
    // A ledger that no old roll has.
    labels.insert([0xee; 16], Standing::new(making, [0xee; 16]));
    let total = product(labels.values().map(Standing::ways));
    if total > most {
        return None;
    }
    pairing.tally.searched += total;
    let accepted = (0..total).filter(|way| is_accepted(pairing, making, &labels, *way)).count();
    Some(accepted as u64)
}

/// One of all the bundles, at the keeper with its roll.
fn is_accepted(pairing: &mut Pairing, making: &Making, labels: &BTreeMap<[u8; 16], Standing>, mut way: u64) -> bool {
    let mut scene = making.scene.clone();
    scene.rows.clear();
    scene.old.iter_mut().for_each(|part| part.added.clear());
    for standing in labels.values() {
        standing.put(&mut scene, way % standing.ways());
        way /= standing.ways();
    }
    scene.head.count = scene.rows.len() as u8;
    pairing.call(&mut scene.lent(0), &scene.activate()).number() == 0
}
