//! This file holds a night's file of which each block's meaning is known, with the report that M-103 names for it.

use super::good;
use super::prng::Prng;
use crate::row::TOP;
use crate::statement::{self, Statement, KIND_NEW, KIND_READ};

/// One block and what it means.
#[derive(Clone)]
pub struct Page {
    pub bytes: Vec<u8>,
    pub means: Means,
}

#[derive(Clone)]
pub enum Means {
    Damaged,
    /// The rack's own bytes.
    Rack(Vec<u8>),
    /// Accepted at the height given exactly if the nearest rack is this one.
    Receipt {
        label: [u8; 16],
        rack: Vec<u8>,
        height: Option<u64>,
    },
}

/// A receipt in parts, so that trials can say one of them otherwise before the block is put together.
#[derive(Clone)]
pub struct Parts {
    pub kind: u8,
    pub label: [u8; 16],
    pub nonce: [u8; 16],
    pub identity: [u8; 32],
    pub statement: Vec<u8>,
    pub pairs: Vec<[u8; 2]>,
    pub rack: Vec<u8>,
    pub height: u64,
}

/// A block of these bytes, filled up with zeros, its check right.
pub fn block(bytes: &[u8]) -> Vec<u8> {
    let mut block = bytes.to_vec();
    block.resize(512, 0);
    good::check_again(&mut block);
    block
}

pub fn damaged(bytes: Vec<u8>) -> Page {
    Page { bytes, means: Means::Damaged }
}

pub fn rack_page(rack: &[u8]) -> Page {
    Page { bytes: block(&[&[1], rack].concat()), means: Means::Rack(rack.to_vec()) }
}

impl Parts {
    /// A receipt that is accepted under this rack, with all its keepers as signers or just a majority.
    pub fn good(prng: &mut Prng, rack: &[u8], kind: u8, label: [u8; 16], height: u64) -> Parts {
        let height = if kind == KIND_NEW { 0 } else { height.clamp(u64::from(kind != KIND_READ), TOP) };
        let stated = Statement {
            kind,
            identity: prng.array(),
            own: good::digest(rack),
            label,
            tail: if height == 0 { [0; 32] } else { prng.array() },
            height,
            nonce: if kind == KIND_READ { prng.array() } else { [0; 16] },
            ..Statement::ZERO
        };
        let majority = rack[0] / 2 + 1;
        let signers = majority + prng.below((rack[0] - majority + 1) as usize) as u8;
        let first = prng.below((rack[0] - signers + 1) as usize) as u8;
        Parts {
            kind,
            label,
            // "The nonce counts for kind 3 only": for the others it may be anything.
            nonce: if kind == KIND_READ { stated.nonce } else { prng.array() },
            identity: stated.identity,
            statement: statement::bytes(&stated),
            pairs: (first..first + signers).map(|position| [position, 3]).collect(),
            rack: rack.to_vec(),
            height,
        }
    }

    pub fn bytes(&self) -> Vec<u8> {
        let mut statement = self.statement.clone();
        statement.resize(137, 0);
        let (length, count) = (self.statement.len() as u8, self.pairs.len() as u8);
        let front = [&[2, self.kind][..], &self.label, &self.nonce, &self.identity, &[length], &statement, &[count]];
        block(&[front.concat(), self.pairs.concat()].concat())
    }

    pub fn accepted(&self) -> Page {
        self.page(Some(self.height))
    }

    pub fn refused(&self) -> Page {
        self.page(None)
    }

    fn page(&self, height: Option<u64>) -> Page {
        let means = Means::Receipt { label: self.label, rack: self.rack.clone(), height };
        Page { bytes: self.bytes(), means }
    }

    /// A way in which the desk refuses it although the block is undamaged (reading F2).
    pub fn spoil(&mut self, prng: &mut Prng) {
        let size = self.rack[0];
        let last = self.pairs.len() - 1;
        match prng.below(19) {
            0 => self.kind = *prng.pick(&[0, 4, 5, 6, 17, 255]),
            1 => self.kind = self.kind % 3 + 1,
            2 => self.label[prng.below(16)] ^= 1 << prng.below(8),
            3 => self.label = [0; 16],
            4 => self.identity[prng.below(32)] ^= 1 << prng.below(8),
            5 => self.statement[33 + prng.below(32)] ^= 1 << prng.below(8),
            6 => self.statement[0] = *prng.pick(&[0, 4, 5, 6, 255]),
            7 => self.statement.truncate(prng.below(self.statement.len())),
            8 if self.kind != KIND_READ => self.statement.resize(122 + prng.below(16), 1),
            8 => self.nonce[prng.below(16)] ^= 1 << prng.below(8),
            9 => self.statement[113] = 1,
            10 => self.pairs.truncate(size as usize / 2),
            11 if size < 15 => self.pairs = (0..size + 1).map(|position| [position, 3]).collect(),
            12 => self.pairs[last][1] = *prng.pick(&[0, 1, 2]),
            13 => self.pairs[0][1] |= 4 << prng.below(6),
            14 => self.pairs[last][0] = size,
            15 => self.pairs[last][0] = 255,
            16 => self.pairs.clear(),
            17 if last < 14 => self.pairs.push(self.pairs[last]),
            _ => self.statement[65..81].fill(0),
        }
    }
}

/// The report of these blocks, of which the last may be cut: then it is damaged, whatever it means.
pub fn report(pages: &[Page]) -> String {
    let mut rack: Option<&[u8]> = None;
    let mut lines: Vec<([u8; 16], u64, u64, Option<u64>)> = Vec::new();
    let (mut racks, mut over, mut damaged) = (0, 0, 0);
    for page in pages {
        match &page.means {
            _ if page.bytes.len() < 512 => damaged += 1,
            Means::Damaged => damaged += 1,
            Means::Rack(bytes) => (racks, rack) = (racks + 1, Some(&bytes[..])),
            Means::Receipt { label, rack: of, height } => {
                let place = lines.iter().position(|line| line.0 == *label).unwrap_or(lines.len());
                if place == 63 {
                    over += 1;
                    continue;
                }
                if place == lines.len() {
                    lines.push((*label, 0, 0, None));
                }
                let line = &mut lines[place];
                match height {
                    Some(height) if rack == Some(of) => (line.1, line.3) = (line.1 + 1, line.3.max(Some(*height))),
                    _ => line.2 += 1,
                }
            }
        }
    }
    let mut text = String::from("label accepted refused top\n");
    for (label, accepted, refused, top) in lines {
        label.iter().for_each(|byte| text += &format!("{byte:02x}"));
        let top = top.map_or("-".to_string(), |height| format!("{height}"));
        text += &format!(" {accepted} {refused} {top}\n");
    }
    text + &format!("blocks {} racks {racks} over {over} damaged {damaged}\n", pages.len())
}

/// A good block, damaged in one of M-103's ways.
pub fn any_damage(prng: &mut Prng, rack: &[u8]) -> Page {
    let label = good::label(prng);
    let kind = 1 + prng.below(3) as u8;
    let receipt = Parts::good(prng, rack, kind, label, 9).bytes();
    let racked = rack_page(rack).bytes;
    let end = 1 + rack.len();
    let mut bytes = match prng.below(12) {
        0 => return damaged(flipped(prng, &receipt)),
        1 => return damaged(flipped(prng, &racked)),
        2 => return damaged(prng.bytes(512)),
        3 => with(&receipt, 0, *prng.pick(&[0, 3, 4, 128, 255])),
        4 => with(&racked, 0, *prng.pick(&[0, 3, 4, 128, 255])),
        5 => with(&receipt, 66, 138 + prng.below(118) as u8),
        6 => with(&receipt, 204, 16 + prng.below(240) as u8),
        7 => with(&receipt, 235 + prng.below(273), 1 + prng.below(255) as u8),
        8 => with(&receipt, 234, 1),
        9 if end < 508 => with(&racked, end + prng.below(508 - end), 1 + prng.below(255) as u8),
        10 => with(&racked, 1, *prng.pick(&[0, 16, 17, 255])),
        _ => {
            let falling = [&[1, 2][..], &[9; 32], &[*prng.pick(&[8, 9]); 32]].concat();
            block(&falling)
        }
    };
    // With 15 pairs byte 234 is used; the damage then stands at the end.
    if bytes[204] == 15 && bytes[0] == 2 {
        bytes = with(&receipt, 507, 1);
    }
    good::check_again(&mut bytes);
    damaged(bytes)
}

fn flipped(prng: &mut Prng, bytes: &[u8]) -> Vec<u8> {
    let mut flipped = bytes.to_vec();
    flipped[prng.below(512)] ^= 1 << prng.below(8);
    flipped
}

/// The block with one byte said otherwise and its check right again.
pub fn with(bytes: &[u8], place: usize, byte: u8) -> Vec<u8> {
    let mut other = bytes.to_vec();
    other[place] = byte;
    good::check_again(&mut other);
    other
}

/// A night of any blocks: few labels or more than there are lines, now and then the last block cut.
pub fn any_night(prng: &mut Prng) -> Vec<Page> {
    let many = prng.chance(1, 4);
    let blocks = if many { 60 + prng.below(200) } else { prng.below(40) };
    let racks: Vec<Vec<u8>> = (0..3).map(|_| any_rack(prng)).collect();
    let labels: Vec<[u8; 16]> = (0..if many { 70 } else { 3 }).map(|_| good::label(prng)).collect();
    let mut seated = prng.below(3);
    let mut pages = Vec::new();
    for number in 0..blocks {
        let first = number == 0 && prng.chance(7, 8);
        match prng.below(16) {
            _ if first => pages.push(rack_page(&racks[seated])),
            0 => {
                seated = prng.below(3);
                pages.push(rack_page(&racks[seated]));
            }
            1 | 2 => pages.push(any_damage(prng, &racks[seated])),
            way => {
                let rack = if way == 3 { prng.pick(&racks) } else { &racks[seated] };
                let label = *prng.pick(&labels);
                pages.push(any_receipt(prng, rack, label));
            }
        }
    }
    if let (true, Some(last)) = (prng.chance(1, 4), pages.last_mut()) {
        last.bytes.truncate(1 + prng.below(511));
    }
    pages
}

fn any_receipt(prng: &mut Prng, rack: &[u8], label: [u8; 16]) -> Page {
    let height = if prng.chance(1, 8) { prng.next() } else { prng.below(50) as u64 };
    let kind = 1 + prng.below(3) as u8;
    let mut parts = Parts::good(prng, rack, kind, label, height);
    if prng.chance(3, 4) {
        return parts.accepted();
    }
    parts.spoil(prng);
    parts.refused()
}

fn any_rack(prng: &mut Prng) -> Vec<u8> {
    let size = if prng.chance(1, 4) { 15 } else { 1 + prng.below(5) };
    good::rack(prng, size)
}

pub fn file(pages: &[Page]) -> Vec<u8> {
    pages.iter().flat_map(|page| page.bytes.clone()).collect()
}
