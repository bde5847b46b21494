//! This file holds makers of good keys, racks, rows, rolls, records and areas, from which the trials start.

use super::prng::Prng;
use crate::call::Lent;
use crate::rack;
use crate::record::Head;
use crate::roll::{Roll, MOST_ROWS};
use crate::row::{Row, TOP};
use crate::sha256::digest_of;

/// A byte that no call writes for long; areas are full of it.
pub const FILL: u8 = 0xa5;

/// `count` different keys, strictly rising.
pub fn keys(prng: &mut Prng, count: usize) -> Vec<[u8; 32]> {
    let mut keys: Vec<[u8; 32]> = (0..count).map(|_| prng.array()).collect();
    keys.sort();
    keys
}

/// The rack of these keys, in whatever order they are given.
pub fn rack_of(keys: &[[u8; 32]]) -> Vec<u8> {
    let mut sorted = keys.to_vec();
    sorted.sort();
    sorted.dedup();
    [vec![sorted.len() as u8], sorted.concat()].concat()
}

pub fn rack(prng: &mut Prng, count: usize) -> Vec<u8> {
    let keys = keys(prng, count);
    rack_of(&keys)
}

/// A label that is not zero; a few are the least and the greatest.
pub fn label(prng: &mut Prng) -> [u8; 16] {
    let mut label: [u8; 16] = prng.array();
    match prng.below(16) {
        0 => label = [0xff; 16],
        1 => label[..15].fill(0),
        2 => label[1..].fill(0),
        _ => {}
    }
    label[15] |= 1;
    label
}

/// A good row of this label; heights 0, 1 and the top are frequent.
pub fn row(prng: &mut Prng, label: [u8; 16]) -> Row {
    let height = match prng.below(8) {
        0 | 1 => 0,
        2 => 1,
        3 => TOP,
        4 => TOP - 1,
        5 => prng.next() & TOP,
        _ => prng.below(1000) as u64,
    };
    let tail = if height == 0 { [0; 32] } else { prng.array() };
    Row { label, tail, height }
}

/// `count` good rows, labels strictly rising.
pub fn rows(prng: &mut Prng, count: usize) -> Vec<Row> {
    let mut labels: Vec<[u8; 16]> = Vec::new();
    while labels.len() < count {
        let label = label(prng);
        if !labels.contains(&label) {
            labels.push(label);
        }
    }
    labels.sort();
    labels.into_iter().map(|label| row(prng, label)).collect()
}

/// A number of rows, often at a boundary of the blocks or of the table.
pub fn row_count(prng: &mut Prng) -> usize {
    match prng.below(4) {
        0 => *prng.pick(&[0, 1, 8, 9, 10, 18, 19, 54, 55, 62, 63]),
        1 => prng.below(64),
        _ => prng.below(6),
    }
}

pub fn table(rows: &[Row]) -> Vec<Row> {
    let mut table = rows.to_vec();
    table.resize(MOST_ROWS, Row::ZERO);
    table
}

pub fn roll(rows: &[Row]) -> Roll {
    let mut roll = Roll { count: rows.len() as u8, ..Roll::EMPTY };
    roll.rows[..rows.len()].copy_from_slice(rows);
    roll
}

/// Makes the check of every block right again, so that only the damage inside remains.
pub fn check_again(blocks: &mut [u8]) {
    for block in blocks.chunks_exact_mut(512) {
        let check = digest_of(&[&block[..508]]);
        block[508..].copy_from_slice(&check[..4]);
    }
}

pub fn area(length: usize) -> Vec<u8> {
    vec![FILL; length]
}

/// Nothing but an area, for calls without a record.
pub fn only_area(length: usize) -> Lent {
    Lent { head: Head::ZERO, table: Vec::new(), area: area(length) }
}

/// A sound record in any status (blank only with no rows), its digests arbitrary.
pub fn lent(prng: &mut Prng, status: u8, rows: &[Row], area_length: usize) -> Lent {
    let head = Head {
        status,
        count: rows.len() as u8,
        key: prng.array(),
        identity: prng.array(),
        own: prng.array(),
        previous: prng.array(),
        next: prng.array(),
    };
    Lent { head, table: table(rows), area: area(area_length) }
}

/// A woken keeper with this key.
pub fn woken(key: [u8; 32], area_length: usize) -> Lent {
    Lent { head: Head { key, ..Head::ZERO }, table: table(&[]), area: area(area_length) }
}

pub fn digest(rack: &[u8]) -> [u8; 32] {
    rack::digest(rack)
}
