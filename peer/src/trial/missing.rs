//! This file holds the trial of M-101: bundles whose old rolls lack rows of the keeper's roll, in every way, with the answer named.

use super::good;
use super::pairing::Pairing;
use super::prng::Prng;
use super::scene::{Scene, Sizes};
use crate::refusals::Refusal;
use crate::row::{appended, Row};

/// A row that was carried from height 0 by so many digests. For each old roll: how many of them it has seen, if it has the row.
#[derive(Clone)]
pub struct Carried {
    pub steps: usize,
    pub seen: Vec<Option<usize>>,
}

impl Carried {
    /// "some roll that does have the row must add none"; then another has it for each that lacks it.
    fn is_kept(&self) -> bool {
        self.seen.contains(&Some(self.steps))
    }
}

pub fn run(pairing: &mut Pairing, prng: &mut Prng) {
    for rolls in 1..=3 {
        for steps in 0..=2 {
            every_standing(pairing, prng, rolls, steps);
        }
    }
    bounds(pairing, prng);
}

/// Every way in which so many old rolls can stand to one row among others, and each list where it is missing spoilt.
fn every_standing(pairing: &mut Pairing, prng: &mut Prng, rolls: usize, steps: usize) {
    let choices = steps + 2;
    for way in 0..choices.pow(rolls as u32) {
        let seen = (0..rolls).map(|roll| (way / choices.pow(roll as u32) % choices).checked_sub(1)).collect();
        let others = Carried { steps: 1, seen: vec![Some(1); rolls] };
        let rows = [others.clone(), Carried { steps, seen }, others];
        let scene = scene(prng, &rows);
        activate(pairing, &scene, number(&rows));
        for (roll, _) in lacking(&rows) {
            spoilt_lists(pairing, &scene, roll, 1);
        }
        ledger_more(pairing, &scene, prng.below(rolls));
    }
}

/// The number that M-101 gives: "accepted when another old roll has it, otherwise 20".
fn number(rows: &[Carried]) -> Refusal {
    if rows.iter().all(Carried::is_kept) {
        0
    } else {
        20
    }
}

/// Old roll and row, for each row missing.
fn lacking(rows: &[Carried]) -> Vec<(usize, usize)> {
    let all = rows.iter().enumerate().flat_map(|(place, row)| {
        row.seen.iter().enumerate().filter(|(_, seen)| seen.is_none()).map(move |(roll, _)| (roll, place))
    });
    all.collect()
}

fn activate(pairing: &mut Pairing, scene: &Scene, number: Refusal) {
    pairing.expect("missing rows", &mut scene.lent(0), &scene.activate(), number);
}

/// One digest more, one fewer, the first or the last another: the zero row no longer leads to ours.
fn spoilt_lists(pairing: &mut Pairing, scene: &Scene, roll: usize, place: usize) {
    let right = &scene.old[roll].added[place];
    let mut lists = vec![[&right[..], &[[7; 32]]].concat()];
    if let Some(last) = right.len().checked_sub(1) {
        lists.push(right[..last].to_vec());
        for place in [0, last] {
            let mut other = right.clone();
            other[place][31] ^= 1;
            lists.push(other);
        }
    }
    for list in lists.into_iter().filter(|list| list.len() <= 64) {
        let mut spoilt = scene.clone();
        spoilt.old[roll].added[place] = list;
        activate(pairing, &spoilt, 20);
    }
}

/// A ledger that this old roll has and the keeper's roll lacks (reading E1).
fn ledger_more(pairing: &mut Pairing, scene: &Scene, roll: usize) {
    let mut more = scene.clone();
    let label = [0xff; 16];
    if more.rows.iter().all(|row| row.label != label) && more.old[roll].rows.len() < 63 {
        more.old[roll].rows.push(Row { label, ..Row::ZERO });
        activate(pairing, &more, 20);
    }
}

/// 64 digests from the zero row, all of 63 rows missing, and one full old roll among fifteen that have nothing.
fn bounds(pairing: &mut Pairing, prng: &mut Prng) {
    for (rolls, count, steps) in [(2, 1, 64), (2, 63, 0), (2, 63, 3), (15, 2, 3)] {
        for full in [0, rolls - 1] {
            let seen = (0..rolls).map(|roll| (roll == full).then_some(steps)).collect();
            let mut rows = vec![Carried { steps, seen }; count];
            let scene = scene(prng, &rows);
            activate(pairing, &scene, 0);
            spoilt_lists(pairing, &scene, (full + 1) % rolls, count - 1);
            rows[count - 1].seen[full] = None;
            activate(pairing, &self::scene(prng, &rows), 20);
        }
    }
}

/// A handover to these rows in which every digest listed is right; each old roll of the previous rack stands in the bundle.
pub fn scene(prng: &mut Prng, rows: &[Carried]) -> Scene {
    let rolls = rows.first().map_or(1, |row| row.seen.len());
    let sizes = Sizes { previous: rolls, own: 3, old: rolls, new: 2, rows: rows.len() };
    let mut scene = Scene::good(prng, sizes, 0);
    for part in &mut scene.old {
        part.rows.clear();
    }
    for (place, carried) in rows.iter().enumerate() {
        let digests: Vec<[u8; 32]> = (0..carried.steps).map(|_| prng.array()).collect();
        let mut way = vec![Row { label: scene.rows[place].label, ..Row::ZERO }];
        for digest in &digests {
            let last = way[way.len() - 1];
            way.push(Row { tail: appended(&last.tail, digest), height: last.height + 1, ..last });
        }
        for (part, seen) in scene.old.iter_mut().zip(&carried.seen) {
            part.rows.extend(seen.map(|seen| way[seen]));
            part.added[place] = digests[seen.unwrap_or(0)..].to_vec();
        }
        scene.rows[place] = way[carried.steps];
    }
    scene
}

/// Any rows and any old rolls, and now and then one list of a missing row spoilt.
pub fn run_any(pairing: &mut Pairing, prng: &mut Prng) {
    let rolls = if prng.chance(1, 12) { 15 } else { 1 + prng.below(5) };
    let count = if prng.chance(1, 8) && rolls <= 5 { good::row_count(prng) } else { prng.below(5) };
    let rows: Vec<Carried> = (0..count).map(|_| carried(prng, rolls)).collect();
    let scene = scene(prng, &rows);
    activate(pairing, &scene, number(&rows));
    let lacking = lacking(&rows);
    if prng.chance(1, 4) && !lacking.is_empty() {
        let (roll, place) = *prng.pick(&lacking);
        spoilt_lists(pairing, &scene, roll, place);
    }
    if prng.chance(1, 4) {
        let roll = prng.below(scene.old.len());
        ledger_more(pairing, &scene, roll);
    }
}

fn carried(prng: &mut Prng, rolls: usize) -> Carried {
    let steps = prng.below(4);
    let mut seen: Vec<Option<usize>> = (0..rolls).map(|_| prng.chance(2, 3).then(|| prng.below(steps + 1))).collect();
    if prng.chance(7, 8) {
        seen[prng.below(rolls)] = Some(steps);
    }
    Carried { steps, seen }
}
