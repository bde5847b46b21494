//! This file holds the comparison of two reporters, anyone who makes M-103's report of a file, and the trial of the report.

use super::good;
use super::night::{self, block, damaged, file, rack_page, with, Page, Parts};
use super::prng::Prng;
use crate::broken_report::ReportSlip;
use crate::party::Peer;
use crate::report::{report, ReportOf02};
use crate::row::TOP;

pub trait Reporter {
    fn name(&self) -> String;
    /// What is printed, or what went wrong.
    fn report(&self, file: &[u8]) -> Result<Vec<u8>, String>;
}

impl Reporter for Peer {
    fn name(&self) -> String {
        "peer".to_string()
    }

    fn report(&self, file: &[u8]) -> Result<Vec<u8>, String> {
        Ok(report(&ReportOf02, file))
    }
}

impl Reporter for ReportSlip {
    fn name(&self) -> String {
        format!("broken {self:?}")
    }

    fn report(&self, file: &[u8]) -> Result<Vec<u8>, String> {
        Ok(report(self, file))
    }
}

/// At most so many differences and faults are printed in full.
const PRINTED: u64 = 5;

pub struct Reports<'a> {
    pub first: &'a dyn Reporter,
    pub second: &'a dyn Reporter,
    pub quiet: bool,
    pub files: u64,
    pub blocks: u64,
    pub differences: u64,
    /// Reports other than the one that M-103 names for a file whose blocks are known.
    pub faults: u64,
    pub first_fault: Option<String>,
}

impl<'a> Reports<'a> {
    pub fn new(first: &'a dyn Reporter, second: &'a dyn Reporter) -> Reports<'a> {
        Reports { first, second, quiet: false, files: 0, blocks: 0, differences: 0, faults: 0, first_fault: None }
    }

    /// Both reports of a file, byte for byte, and beside the one that is named for it.
    pub fn compare(&mut self, what: &str, file: &[u8], named: Option<&str>) {
        self.files += 1;
        self.blocks += file.len().div_ceil(512) as u64;
        let (first, second) = (self.first.report(file), self.second.report(file));
        if first != second {
            self.differences += 1;
            if !self.quiet && self.differences <= PRINTED {
                println!("DIFFERENCE: {what}, file {} of {} bytes", self.files, file.len());
                println!("  {}:\n{}", self.first.name(), text(&first));
                println!("  {}:\n{}", self.second.name(), text(&second));
            }
        }
        if named.is_some_and(|named| first.as_deref() != Ok(named.as_bytes())) {
            self.faults += 1;
            let fault =
                format!("{what}: M-103 gives\n{}{} prints\n{}", named.unwrap(), self.first.name(), text(&first));
            if !self.quiet && self.faults <= PRINTED {
                println!("FAULT: {fault}");
            }
            self.first_fault.get_or_insert(fault);
        }
    }

    fn pages(&mut self, what: &str, pages: &[Page]) {
        self.compare(what, &file(pages), Some(&night::report(pages)));
    }
}

fn text(printed: &Result<Vec<u8>, String>) -> String {
    match printed {
        Ok(bytes) => String::from_utf8_lossy(bytes).into_owned(),
        Err(what) => format!("({what})"),
    }
}

type Part = fn(&mut Reports, &mut Prng);

/// The parts of the trial, the short ones first.
pub const PARTS: [Part; 9] =
    [example, empty, short, readings, racks, labels, over, every_byte_of_a_rack, every_byte_of_a_receipt];

pub fn run(reports: &mut Reports, prng: &mut Prng) {
    for part in PARTS {
        part(reports, prng);
    }
}

const ONES: [u8; 16] = [1; 16];

/// 02's example, byte for byte.
fn example(reports: &mut Reports, prng: &mut Prng) {
    let printed =
        "label accepted refused top\n01010101010101010101010101010101 1 1 7\nblocks 3 racks 1 over 0 damaged 0\n";
    let rack = good::rack(prng, 3);
    let accepted = Parts::good(prng, &rack, 2, ONES, 7);
    let refused = Parts { pairs: vec![[0, 3]], ..accepted.clone() };
    for pages in [[accepted.accepted(), refused.refused()], [refused.refused(), accepted.accepted()]] {
        let bytes = [&rack_page(&rack).bytes[..], &file(&pages)].concat();
        reports.compare("02's example", &bytes, Some(printed));
    }
}

/// "An empty file gives the heading and a line of four zeros."
fn empty(reports: &mut Reports, _: &mut Prng) {
    let printed = "label accepted refused top\nblocks 0 racks 0 over 0 damaged 0\n";
    reports.compare("an empty file", &[], Some(printed));
}

/// Lengths around whole blocks, after good blocks and alone: a last short block is damaged.
fn short(reports: &mut Reports, prng: &mut Prng) {
    let rack = good::rack(prng, 3);
    let pages = [rack_page(&rack), Parts::good(prng, &rack, 3, ONES, 4).accepted(), rack_page(&rack)];
    for length in (0..=1536_usize).filter(|length| length % 512 < 3 || length % 512 > 509 || length % 97 == 0) {
        let mut cut: Vec<Page> = pages.to_vec();
        cut.truncate(length.div_ceil(512));
        if let Some(last) = cut.last_mut() {
            last.bytes.truncate(length - 512 * ((length - 1) / 512));
        }
        reports.pages("a last short block", &cut);
    }
    for length in [1, 4, 508, 511, 512, 513, 1023] {
        let named = format!(
            "label accepted refused top\nblocks {0} racks 0 over 0 damaged {0}\n",
            if length > 512 { 2 } else { 1 }
        );
        reports.compare("zeros", &vec![0; length], Some(&named));
    }
}

/// Readings F1, F2, F4, F5, each as a file in which only it decides.
fn readings(reports: &mut Reports, prng: &mut Prng) {
    let rack = good::rack(prng, 5);
    let under = |pages: &[Page]| [&[rack_page(&rack)], pages].concat();
    let good = |prng: &mut Prng, kind| Parts::good(prng, &rack, kind, ONES, 7);
    for kind in [1, 2] {
        let receipt = Parts { nonce: [7; 16], ..good(prng, kind) };
        reports.pages("F1: the nonce of kinds 1 and 2 is a field", &under(&[receipt.accepted()]));
    }
    let base = good(prng, 3);
    for kind in [0, 1, 2, 4, 5, 6, 255] {
        let receipt = Parts { kind, ..base.clone() };
        reports.pages("F2: another asked kind", &under(&[receipt.refused(), base.accepted()]));
    }
    for count in 0..=15 {
        let pairs: Vec<[u8; 2]> = (0..count).map(|position| [position, 3]).collect();
        let receipt = Parts { pairs, ..base.clone() };
        let page = if (3..=5).contains(&count) { receipt.accepted() } else { receipt.refused() };
        reports.pages("F2: a signer count", &under(&[page]));
    }
    for length in 0..=136 {
        let receipt = Parts { statement: base.statement[..length].to_vec(), ..base.clone() };
        reports.pages("F2: a statement of another length", &under(&[receipt.refused()]));
    }
    let mut zero = good(prng, 2);
    zero.label = [0; 16];
    zero.statement[65..81].fill(0);
    reports.pages("F2: the zero label has a line", &under(&[zero.refused(), base.accepted()]));
    for length in [138, 139, 255] {
        reports.pages("a longer statement", &under(&[damaged(with(&base.bytes(), 66, length)), base.accepted()]));
    }
    for count in [16, 17, 255] {
        reports.pages("more signers", &under(&[damaged(with(&base.bytes(), 204, count)), base.accepted()]));
    }
    for (height, kind) in [(0, 3), (1, 2), (TOP - 1, 3), (TOP, 2), (TOP, 3)] {
        let pages = [5, height, 6].map(|height| Parts::good(prng, &rack, kind, ONES, height).accepted());
        reports.pages("heights", &under(&pages));
    }
    // The desk asks of the identity only that the statement has it (F5): two of them stand side by side.
    let other = good(prng, 3);
    reports.pages("F5: the receipt's own identity", &under(&[base.accepted(), other.accepted()]));
    let wrong = Parts { identity: other.identity, ..base.clone() };
    reports.pages("F5: another identity", &under(&[wrong.refused(), base.accepted()]));
}

/// Under which rack a receipt is judged: the nearest undamaged one before it, of any size; none is a refusal.
fn racks(reports: &mut Reports, prng: &mut Prng) {
    for size in 1..=15 {
        let rack = good::rack(prng, size);
        let receipt = Parts::good(prng, &rack, 2, ONES, 3);
        reports.pages("a rack of any size", &[rack_page(&rack), receipt.accepted()]);
    }
    let (a, b) = (good::rack(prng, 3), good::rack(prng, 4));
    let (of_a, of_b) = (Parts::good(prng, &a, 2, ONES, 3).accepted(), Parts::good(prng, &b, 3, [2; 16], 9).accepted());
    let broken_rack = damaged(with(&rack_page(&b).bytes, 300, 1));
    let falling = damaged(block(&[&[1, 2][..], &[9; 32], &[8; 32]].concat()));
    let of_n = |n: u8| {
        damaged(block(
            &[&[1, n][..], &(0..16).flat_map(|key| [key; 32]).collect::<Vec<u8>>()[..505.min(32 * n as usize)]]
                .concat(),
        ))
    };
    let choices = [rack_page(&a), rack_page(&b), of_a, of_b, broken_rack, falling, of_n(0), of_n(16)];
    for way in 0..choices.len().pow(3) {
        let pages: Vec<Page> =
            (0..3).map(|place| choices[way / choices.len().pow(place) % choices.len()].clone()).collect();
        reports.pages("three blocks of racks and receipts", &pages);
    }
}

/// "in order of first appearance", which a damaged block is not; the highest height, not the last.
fn labels(reports: &mut Reports, prng: &mut Prng) {
    let rack = good::rack(prng, 3);
    let mut pages = vec![rack_page(&rack)];
    for (label, height) in [(9, 5), (0xab, 8), (1, 2), (9, 3), (0xab, 9), (1, 1), (9, 6), (1, 2)] {
        pages.push(Parts::good(prng, &rack, 2, [label; 16], height).accepted());
        reports.pages("labels", &pages);
        let mut spoilt = Parts::good(prng, &rack, 2, [label ^ 1; 16], 900).bytes();
        spoilt[511] ^= 1;
        pages.push(damaged(spoilt));
        reports.pages("a damaged block has no line", &pages);
    }
}

/// Files of 62 to 66 labels, then the known ones again, then further ones, with a rack before or after them, or none (F3).
fn over(reports: &mut Reports, prng: &mut Prng) {
    let rack = good::rack(prng, 3);
    for count in [62, 63, 64, 65, 66, 130] {
        for rack_at in [Some(0), Some(count), None] {
            let label = |number: usize| [(number + 1) as u8; 16];
            let mut pages: Vec<Page> =
                (0..count).map(|number| Parts::good(prng, &rack, 2, label(number), 7).accepted()).collect();
            for number in [0, 62, 63, 200, 0, count - 1] {
                let mut receipt = Parts::good(prng, &rack, 3, label(number), 8);
                pages.push(receipt.accepted());
                receipt.spoil(prng);
                pages.push(receipt.refused());
            }
            if let Some(place) = rack_at {
                pages.insert(place, rack_page(&rack));
            }
            reports.pages("63 labels and more", &pages);
        }
    }
}

/// Each byte of racks' blocks with a bit turned, its check as it was and made right again: then another rack, or damaged.
fn every_byte_of_a_rack(reports: &mut Reports, prng: &mut Prng) {
    for size in [1, 3, 15] {
        let rack = good::rack(prng, size);
        let receipt = Parts::good(prng, &rack, 3, ONES, 5);
        let bytes = rack_page(&rack).bytes;
        for place in 0..512 {
            let turned = bytes[place] ^ 1 << prng.below(8);
            let mut unchecked = bytes.clone();
            unchecked[place] = turned;
            let before = [rack_page(&rack), damaged(unchecked), receipt.accepted()];
            reports.pages("a byte of a rack's block", &before);
            if place >= 508 {
                continue;
            }
            let other = with(&bytes, place, turned);
            let keys: Vec<&[u8]> = other[2..2 + 32 * size].chunks(32).collect();
            let is_rack = (2..2 + 32 * size).contains(&place) && keys.windows(2).all(|pair| pair[0] < pair[1]);
            let page = match is_rack {
                true => Page { bytes: other.clone(), means: rack_page(&other[1..2 + 32 * size]).means },
                false => damaged(other),
            };
            reports.pages("a byte of a rack's block, checked", &[rack_page(&rack), page, receipt.accepted()]);
        }
    }
}

/// The same of receipts of each kind, what each place means being known.
fn every_byte_of_a_receipt(reports: &mut Reports, prng: &mut Prng) {
    let rack = good::rack(prng, 9);
    for kind in [1, 2, 3] {
        let good = Parts::good(prng, &rack, kind, ONES, 0x0102_0304);
        let bytes = good.bytes();
        for place in 0..512 {
            let turned = bytes[place] ^ 1 << prng.below(8);
            let mut unchecked = bytes.clone();
            unchecked[place] = turned;
            reports.pages("a byte of a receipt", &[rack_page(&rack), damaged(unchecked)]);
            if place < 508 {
                let other = with(&bytes, place, turned);
                let page = turned_page(&good, place, other);
                reports.pages("a byte of a receipt, checked", &[rack_page(&rack), page, good.accepted()]);
            }
        }
    }
}

/// What a receipt means of which one byte is another, its check being right.
fn turned_page(good: &Parts, place: usize, bytes: Vec<u8>) -> Page {
    let (length, pairs) = (good.statement.len(), 205 + 2 * good.pairs.len());
    let other = |parts: Parts, height: Option<u64>| {
        let means = if height.is_some() { parts.accepted().means } else { parts.refused().means };
        Page { bytes: bytes.clone(), means }
    };
    match place {
        0 | 235.. => damaged(bytes),
        1 => other(good.clone(), None),
        2..18 => other(Parts { label: bytes[2..18].try_into().unwrap(), ..good.clone() }, None),
        18..34 => other(good.clone(), (good.kind != 3).then_some(good.height)),
        34..66 => other(good.clone(), None),
        66 => {
            let now = bytes[66] as usize;
            let rest = now <= 137 && bytes[67 + now..204].iter().all(|byte| *byte == 0);
            if rest {
                other(good.clone(), None)
            } else {
                damaged(bytes)
            }
        }
        // Tail and height of an append and a read may be others; a new has height 0 and the zero tail.
        148..180 => other(good.clone(), (good.kind != 1).then_some(good.height)),
        184..188 if good.kind != 1 => {
            let height = u64::from(u32::from_be_bytes(bytes[184..188].try_into().unwrap()));
            other(Parts { height, ..good.clone() }, Some(height))
        }
        67..204 if place < 67 + length => other(good.clone(), None),
        67..204 => damaged(bytes),
        204 => {
            let now = bytes[204] as usize;
            let rest = now <= 15 && bytes[205 + 2 * now..235].iter().all(|byte| *byte == 0);
            // More pairs are of position 0 and no marks; fewer leave some after them.
            if rest {
                other(good.clone(), None)
            } else {
                damaged(bytes)
            }
        }
        _ if place < pairs => {
            let listed: Vec<&[u8]> = bytes[205..pairs].chunks(2).collect();
            let rising = listed.windows(2).all(|two| two[0][0] < two[1][0]) && listed.iter().all(|pair| pair[0] < 9);
            let valid = listed.iter().all(|pair| pair[1] == 3);
            other(good.clone(), (rising && valid).then_some(good.height))
        }
        _ => damaged(bytes),
    }
}

/// A night by chance, of known blocks or of any bytes; now and then bits of a known one are turned and some checks made right.
pub fn run_any(reports: &mut Reports, prng: &mut Prng) {
    match prng.below(8) {
        0 => {
            let length = prng.below(4000);
            let mut bytes = prng.bytes(length);
            bytes.chunks_mut(512).for_each(|block| block[0] = *prng.pick(&[0, 1, 1, 2, 2, 2]));
            check_some(prng, &mut bytes);
            reports.compare("any bytes", &bytes, None);
        }
        1 | 2 => {
            let mut bytes = file(&night::any_night(prng));
            for _ in 0..1 + prng.below(20) {
                if !bytes.is_empty() {
                    let place = prng.below(bytes.len());
                    bytes[place] ^= 1 << prng.below(8);
                }
            }
            check_some(prng, &mut bytes);
            bytes.truncate(bytes.len().saturating_sub(*prng.pick(&[0, 0, 1, 511, 512, 700])));
            reports.compare("a night with bits turned", &bytes, None);
        }
        _ => {
            let pages = night::any_night(prng);
            reports.pages("a night", &pages);
        }
    }
}

fn check_some(prng: &mut Prng, bytes: &mut [u8]) {
    for block in bytes.chunks_exact_mut(512) {
        if prng.chance(3, 4) {
            good::check_again(block);
        }
    }
}
