//! This file holds the scene of a handover, part by part, so that trials can damage a part before the bundle is put together.

use super::good;
use super::prng::Prng;
use crate::call::{Call, Lent, Papers};
use crate::record::{Head, PREPARED};
use crate::roll::in_blocks;
use crate::row::{appended, Row, TOP};

#[derive(Clone)]
pub struct OldPart {
    pub position: u8,
    pub marks: u8,
    pub rows: Vec<Row>,
    /// The block count byte and the blocks, if they shall not be those of the rows.
    pub number_of_blocks: Option<u8>,
    pub blocks: Option<Vec<u8>>,
    /// For each row of the keeper's roll the digests listed.
    pub added: Vec<Vec<[u8; 32]>>,
}

#[derive(Clone)]
pub struct Scene {
    pub head: Head,
    pub rows: Vec<Row>,
    pub previous: Vec<u8>,
    pub own: Vec<u8>,
    pub old: Vec<OldPart>,
    pub new: Vec<(u8, u8)>,
    /// Bytes after the bundle's end; a good one has none.
    pub after: Vec<u8>,
    /// Bytes cut off from the bundle's end.
    pub cut: usize,
}

/// The sizes of a scene: both racks, the entries of both lists, the rows.
#[derive(Clone, Copy, Debug)]
pub struct Sizes {
    pub previous: usize,
    pub own: usize,
    pub old: usize,
    pub new: usize,
    pub rows: usize,
}

impl Scene {
    /// A handover that Activate accepts if the entries are a majority.
    pub fn good(prng: &mut Prng, sizes: Sizes, most_added: usize) -> Scene {
        let own_keys = good::keys(prng, sizes.own);
        let previous = good::rack(prng, sizes.previous);
        let own = good::rack_of(&own_keys);
        let head = Head {
            status: PREPARED,
            count: sizes.rows as u8,
            key: *prng.pick(&own_keys),
            identity: prng.array(),
            own: good::digest(&own),
            previous: good::digest(&previous),
            next: [0; 32],
        };
        let positions = |count: usize| (0..count).map(|p| p as u8);
        let old = positions(sizes.old).map(OldPart::unmarked).collect();
        let new = positions(sizes.new).map(|position| (position, 3)).collect();
        let mut scene = Scene { head, rows: Vec::new(), previous, own, old, new, after: Vec::new(), cut: 0 };
        scene.fill_rows(prng, sizes.rows, most_added);
        scene
    }

    /// Each row is carried from a base by digests; every old roll stands somewhere on that way, one of them at its end.
    fn fill_rows(&mut self, prng: &mut Prng, count: usize, most_added: usize) {
        for base in good::rows(prng, count) {
            let steps = prng.below(most_added + 1).min((TOP - base.height) as usize);
            let mut way = vec![base];
            let digests: Vec<[u8; 32]> = (0..steps).map(|_| prng.array()).collect();
            for digest in &digests {
                let last = way[way.len() - 1];
                way.push(Row { tail: appended(&last.tail, digest), height: last.height + 1, ..last });
            }
            let keeper_of_all = prng.below(self.old.len().max(1));
            for (number, part) in self.old.iter_mut().enumerate() {
                let reached = if number == keeper_of_all { steps } else { prng.below(steps + 1) };
                part.rows.push(way[reached]);
                part.added.push(digests[reached..].to_vec());
            }
            self.rows.push(way[steps]);
        }
    }

    pub fn lent(&self, area_length: usize) -> Lent {
        Lent { head: self.head, table: good::table(&self.rows), area: good::area(area_length) }
    }

    pub fn bundle(&self) -> Vec<u8> {
        let mut bundle = vec![self.old.len() as u8];
        for part in &self.old {
            let blocks = part.blocks.clone().unwrap_or_else(|| in_blocks(&part.rows));
            let number_of_blocks = part.number_of_blocks.unwrap_or((blocks.len() / 512) as u8);
            bundle.extend_from_slice(&[part.position, part.marks, number_of_blocks]);
            bundle.extend_from_slice(&blocks);
        }
        bundle.push(self.new.len() as u8);
        for (position, marks) in &self.new {
            bundle.extend_from_slice(&[*position, *marks]);
        }
        for digests in self.old.iter().flat_map(|part| &part.added) {
            bundle.extend_from_slice(&(digests.len() as u16).to_be_bytes());
            bundle.extend_from_slice(&digests.concat());
        }
        bundle.extend_from_slice(&self.after);
        bundle.truncate(bundle.len().saturating_sub(self.cut));
        bundle
    }

    /// The racks of this scene with a bundle.
    pub fn papers(&self, bundle: Vec<u8>) -> Papers {
        Papers { previous: self.previous.clone(), own: self.own.clone(), bundle }
    }

    pub fn activate(&self) -> Call {
        Call::Activate(self.papers(self.bundle()))
    }

    pub fn bytes_to_check(&self, list: u8, entry: u64) -> Call {
        Call::BytesToCheck { papers: self.papers(self.bundle()), list, entry }
    }
}

impl OldPart {
    fn unmarked(position: u8) -> OldPart {
        OldPart { position, marks: 3, rows: Vec::new(), number_of_blocks: None, blocks: None, added: Vec::new() }
    }
}

/// Any sizes; the lists are a majority in most cases.
pub fn any_sizes(prng: &mut Prng) -> Sizes {
    let size = |prng: &mut Prng| if prng.chance(1, 8) { 15 } else { 1 + prng.below(5) };
    let (previous, own) = (size(prng), size(prng));
    let listed = |prng: &mut Prng, n: usize| {
        let least = if prng.chance(7, 8) { n / 2 + 1 } else { 0 };
        least + prng.below(n - least + 1)
    };
    let (old, new) = (listed(prng, previous), listed(prng, own));
    let rows = if prng.chance(1, 8) { good::row_count(prng) } else { prng.below(5) };
    Sizes { previous, own, old, new, rows }
}
