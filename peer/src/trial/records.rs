//! This file holds the trial of arbitrary records: any status and count, rows of every kind, tables of any length, any call.

use super::good;
use super::many;
use super::pairing::Pairing;
use super::prng::Prng;
use super::scene::{any_sizes, Scene};
use crate::call::{AskVerdict, Call, Lent};
use crate::record::{Head, BLANK};
use crate::roll::in_blocks;
use crate::row::{Row, TOP};

/// One record and a few calls on it, each on the record as the call before left it.
pub fn run_any(pairing: &mut Pairing, prng: &mut Prng) {
    if prng.chance(1, 6) {
        return prepared(pairing, prng);
    }
    let mut lent = record(prng);
    for _ in 0..1 + prng.below(6) {
        let call = call(prng, &lent);
        let number_above = *prng.pick(&[121, 129, 137, 258, 3713]);
        let length = match prng.below(8) {
            0 => prng.below(300),
            1 => number_above - 1,
            2 => number_above,
            _ => 3713 + prng.below(3),
        };
        lent.area = good::area(length);
        pairing.call(&mut lent, &call);
    }
}

/// A prepared keeper with its own handover, its record damaged in half of the cases.
fn prepared(pairing: &mut Pairing, prng: &mut Prng) {
    let sizes = any_sizes(prng);
    let scene = Scene::good(prng, sizes, 2);
    let mut lent = scene.lent(128 + prng.below(3));
    if prng.chance(1, 2) {
        damage(prng, &mut lent);
    }
    let check = scene.bytes_to_check(prng.below(2) as u8, prng.below(3) as u64);
    pairing.call(&mut lent, &check);
    pairing.call(&mut lent, &scene.activate());
}

/// A record: sound in about half of the cases, otherwise with one damage, a few of them wholly arbitrary.
pub fn record(prng: &mut Prng) -> Lent {
    if prng.chance(1, 10) {
        return wild(prng);
    }
    let status = *prng.pick(&[0, 1, 2, 2, 2, 2, 3]);
    let count = if status == BLANK { 0 } else { good::row_count(prng) };
    let rows = good::rows(prng, count);
    let mut lent = good::lent(prng, status, &rows, 0);
    if prng.chance(1, 3) {
        lent.head.next = [0; 32];
    }
    if prng.chance(2, 5) {
        damage(prng, &mut lent);
    }
    lent
}

/// Anything: heads of random bytes, rows that follow no rule, tables of odd lengths.
fn wild(prng: &mut Prng) -> Lent {
    let mut lent = good::lent(prng, 0, &[], 0);
    lent.head.status = if prng.chance(1, 2) { prng.byte() } else { prng.below(5) as u8 };
    lent.head.count = if prng.chance(1, 2) { prng.byte() } else { prng.below(66) as u8 };
    let length = *prng.pick(&[0, 1, 62, 63, 63, 63, 64, 126]);
    lent.table = (0..length).map(|_| wild_row(prng)).collect();
    lent
}

fn wild_row(prng: &mut Prng) -> Row {
    let height = *prng.pick(&[0, 1, TOP, TOP + 1, u64::MAX]);
    let mut row = Row { label: prng.array(), tail: prng.array(), height };
    if prng.chance(1, 3) {
        row = Row::ZERO;
    }
    row
}

/// One damage to a sound record; some leave it sound, as a change of status or a zero tail above height 0.
fn damage(prng: &mut Prng, lent: &mut Lent) {
    let place = prng.below(63);
    let counted = prng.below(lent.head.count.max(1) as usize);
    match prng.below(14) {
        0 => lent.head.status = *prng.pick(&[0, 1, 2, 3, 4, 5, 128, 255]),
        1 => lent.head.count = *prng.pick(&[0, 1, 62, 63, 64, 65, 128, 255]),
        2 => lent.head.count = lent.head.count.saturating_sub(1),
        3 => lent.head.count += 1,
        4 => lent.table.truncate(prng.below(63)),
        5 => lent.table.push(Row::ZERO),
        6 => lent.table[counted].height = *prng.pick(&[0, TOP, TOP + 1, 1 << 33, u64::MAX]),
        7 => lent.table.swap(counted, place),
        8 => lent.table[place] = good_row(prng),
        9 => lent.table[counted].label = [0; 16],
        10 => lent.table[counted].tail = [0; 32],
        11 => lent.table[place].tail[31] ^= 1,
        12 => lent.table[counted].label = lent.table[place].label,
        _ => lent.table[place].height ^= 1,
    }
}

fn good_row(prng: &mut Prng) -> Row {
    let label = good::label(prng);
    good::row(prng, label)
}

/// A label of the table, or another, or zero.
pub fn some_label(prng: &mut Prng, table: &[Row]) -> [u8; 16] {
    match prng.below(8) {
        0 => [0; 16],
        1 | 2 => good::label(prng),
        _ if table.is_empty() => prng.array(),
        _ => {
            let used = table.iter().filter(|row| **row != Row::ZERO).count();
            table[prng.below(used.max(1))].label
        }
    }
}

/// An expected height that mostly fits the label's row.
pub fn expected(prng: &mut Prng, table: &[Row], label: &[u8; 16]) -> u64 {
    let height = table.iter().find(|row| row.label == *label).map_or(0, |row| row.height);
    match prng.below(8) {
        0 => prng.next(),
        1 => height,
        2 => height.wrapping_add(2),
        _ => height.wrapping_add(1),
    }
}

fn some_rack(prng: &mut Prng, key: &[u8; 32]) -> Vec<u8> {
    let count = prng.below(17);
    let mut keys = good::keys(prng, count);
    if prng.chance(3, 4) && !keys.is_empty() {
        keys[0] = *key;
    }
    let mut rack = good::rack_of(&keys);
    if prng.chance(1, 8) {
        let place = prng.below(rack.len());
        rack[place] ^= 1 << prng.below(8);
    }
    rack
}

fn call(prng: &mut Prng, lent: &Lent) -> Call {
    let label = some_label(prng, &lent.table);
    let (entry, nonce) = (prng.array(), prng.array());
    let expected = expected(prng, &lent.table, &label);
    match prng.below(18) {
        0 => Call::Wake { key: entry },
        1 | 2 => initialise(prng, &lent.head),
        3..=5 => Call::New { label },
        6..=8 => Call::Append { label, entry, expected },
        9 => Call::Read { label, nonce },
        10 | 11 => Call::AppendAndRead { label, entry, expected, nonce },
        16 | 17 => Call::AppendMany { label, list: many::any_list(prng), expected },
        12 => Call::Finalise { next: some_rack(prng, &lent.head.key) },
        13 | 14 => handover(prng),
        _ => verdict(prng, label, nonce),
    }
}

fn initialise(prng: &mut Prng, head: &Head) -> Call {
    let count = good::row_count(prng);
    let mut roll = in_blocks(&good::rows(prng, count));
    let mut previous = some_rack(prng, &head.key);
    match prng.below(4) {
        0 => roll.clear(),
        1 => previous.clear(),
        2 => (roll, previous) = (Vec::new(), Vec::new()),
        _ => {}
    }
    Call::Initialise { identity: prng.array(), roll, previous, own: some_rack(prng, &head.key) }
}

/// A good handover of another keeper, so mostly 5 or 21 here.
fn handover(prng: &mut Prng) -> Call {
    let sizes = any_sizes(prng);
    let scene = Scene::good(prng, sizes, 2);
    if prng.chance(1, 2) {
        return scene.activate();
    }
    scene.bytes_to_check(prng.below(3) as u8, prng.below(4) as u64)
}

fn verdict(prng: &mut Prng, label: [u8; 16], nonce: [u8; 16]) -> Call {
    let length = prng.below(140);
    let signers = prng.below(8);
    Call::Verdict(AskVerdict {
        identity: prng.array(),
        rack: some_rack(prng, &[1; 32]),
        kind: prng.below(6) as u8,
        label,
        nonce,
        statement: prng.bytes(length),
        signers: prng.bytes(signers),
    })
}
