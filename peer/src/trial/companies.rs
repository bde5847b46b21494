//! This file holds the trial of M-108: New at every two counts of rows, the border, rolls handed over, and pairs of runs that differ in one company's calls.

use super::good;
use super::many;
use super::pairing::Pairing;
use super::prng::Prng;
use super::records;
use super::scene::{Scene, Sizes};
use crate::call::{Call, Lent, Reply};
use crate::party::{Party, Peer};
use crate::record::ACTIVE;
use crate::refusals::Refusal;
use crate::roll::in_blocks;
use crate::row::Row;

type Part = fn(&mut Pairing, &mut Prng);

/// The parts of the trial, the short ones first.
pub const PARTS: [Part; 6] = [border, from_the_founding, rolls_handed_over, limits_of_others, every_two_counts, pairs];

pub fn run(pairing: &mut Pairing, prng: &mut Prng) {
    for part in PARTS {
        part(pairing, prng);
    }
}

/// "Labels whose first byte is below 128 belong to the first, the others to the second"
pub fn is_of_first(label: &[u8; 16]) -> bool {
    label[0] < 128
}

/// How many rows of a table the label's company has.
pub fn rows_beside(table: &[Row], label: &[u8; 16]) -> usize {
    let used = table.iter().filter(|row| **row != Row::ZERO);
    used.filter(|row| is_of_first(&row.label) == is_of_first(label)).count()
}

/// A label of the first company, or of the second; those at the border are frequent.
pub fn label_of(prng: &mut Prng, of_first: bool) -> [u8; 16] {
    let mut label = good::label(prng);
    label[0] = match prng.below(4) {
        0 => 127,
        _ => label[0] % 128,
    };
    if !of_first {
        label[0] = 255 - label[0];
    }
    label
}

/// A label of this first byte; the others are of chance, so that no two are the same.
pub fn label_at(prng: &mut Prng, byte: u8) -> [u8; 16] {
    let mut label = prng.array();
    label[0] = byte;
    label
}

/// A label of the company that no row has.
pub fn absent_label(prng: &mut Prng, rows: &[Row], of_first: bool) -> [u8; 16] {
    loop {
        let label = label_of(prng, of_first);
        if rows.iter().all(|row| row.label != label) {
            return label;
        }
    }
}

/// Good rows: so many of the first company, so many of the second.
pub fn rows(prng: &mut Prng, first: usize, second: usize) -> Vec<Row> {
    let mut rows: Vec<Row> = Vec::new();
    for place in 0..first + second {
        let label = absent_label(prng, &rows, place < first);
        rows.push(good::row(prng, label));
    }
    rows.sort_by_key(|row| row.label);
    rows
}

fn keeper(prng: &mut Prng, first: usize, second: usize) -> Lent {
    let rows = rows(prng, first, second);
    good::lent(prng, ACTIVE, &rows, 121)
}

/// The number that New gives a label that no row has: 39 at 31 rows of its company, 13 at 63 rows of both.
fn number(own: usize, other: usize) -> Refusal {
    match (own, own + other) {
        (31.., _) => 39,
        (_, 63) => 13,
        _ => 0,
    }
}

/// Every two counts that a roll may bring: a new label of each company, one that is there, and the zero label.
fn every_two_counts(pairing: &mut Pairing, prng: &mut Prng) {
    for first in 0..=63 {
        for second in 0..=63 - first {
            let lent = keeper(prng, first, second);
            for (of_first, own, other) in [(true, first, second), (false, second, first)] {
                let label = absent_label(prng, lent.used(), of_first);
                let mut after = lent.clone();
                pairing.expect("every two counts", &mut after, &Call::New { label }, number(own, other));
            }
            if first + second > 0 {
                let label = prng.pick(lent.used()).label;
                pairing.expect("a label that is there", &mut lent.clone(), &Call::New { label }, 9);
            }
            pairing.expect("the zero label", &mut lent.clone(), &Call::New { label: [0; 16] }, 14);
        }
    }
}

/// First bytes 0 to 255: below 128 the first company's rows count, from there on the second's.
fn border(pairing: &mut Pairing, prng: &mut Prng) {
    for byte in 0..=255 {
        for (first, second) in [(31, 0), (0, 31), (30, 31), (31, 30), (32, 31)] {
            let own = if byte < 128 { first } else { second };
            let call = Call::New { label: label_at(prng, byte) };
            pairing.expect("the border", &mut keeper(prng, first, second), &call, number(own, first + second - own));
        }
    }
    for (last, byte, number) in [(127, 127, 39), (127, 128, 0), (128, 128, 39), (128, 127, 0)] {
        let mut rows: Vec<Row> = (0..31).map(|_| Row { label: label_at(prng, last), ..Row::ZERO }).collect();
        rows.sort_by_key(|row| row.label);
        let call = Call::New { label: label_at(prng, byte) };
        pairing.expect("127 and 128", &mut good::lent(prng, ACTIVE, &rows, 121), &call, number);
    }
}

/// From the founding on: 31 rows of one company, then 39; the other gets its 31 as before, then 39; 13 is never met.
fn from_the_founding(pairing: &mut Pairing, prng: &mut Prng) {
    for of_first in [true, false] {
        let key = prng.array();
        let mut lent = good::woken(key, 129);
        let own = good::rack_of(&[key]);
        let found = Call::Initialise { identity: [0; 32], roll: vec![], previous: vec![], own };
        pairing.expect("founding", &mut lent, &found, 0);
        for company in [of_first, !of_first] {
            for had in 0..40 {
                let label = absent_label(prng, lent.used(), company);
                let number = if had < 31 { 0 } else { 39 };
                pairing.expect("31 rows of a company", &mut lent, &Call::New { label }, number);
                climb(pairing, prng, &mut lent, label);
            }
        }
        pairing.ask(lent.used().len() == 62, "62 rows by New, 31 of each company");
    }
}

/// Now and then the row is raised from height 0, which changes no count.
fn climb(pairing: &mut Pairing, prng: &mut Prng, lent: &mut Lent, label: [u8; 16]) {
    if prng.chance(1, 2) && lent.used().iter().any(|row| row.label == label) {
        pairing.expect("an append", lent, &Call::Append { label, entry: prng.array(), expected: 1 }, 0);
    }
}

/// A handover to these rows, which every old roll has.
fn handover(prng: &mut Prng, rows: &[Row]) -> Scene {
    let mut scene = Scene::good(prng, Sizes { previous: 3, own: 3, old: 2, new: 2, rows: 0 }, 0);
    for part in &mut scene.old {
        (part.rows, part.added) = (rows.to_vec(), vec![Vec::new(); rows.len()]);
    }
    scene.rows = rows.to_vec();
    scene
}

/// "An earlier roll may bring one company more than 31; it gets no new rows." Through Initialise and Activate.
fn rolls_handed_over(pairing: &mut Pairing, prng: &mut Prng) {
    for (first, second) in [(63, 0), (0, 63), (32, 31), (31, 32), (33, 30), (30, 33), (62, 1), (40, 5), (31, 0)] {
        let rows = rows(prng, first, second);
        let scene = handover(prng, &rows);
        let mut lent = good::woken(scene.head.key, 129);
        let (identity, roll) = (scene.head.identity, in_blocks(&rows));
        let call = Call::Initialise { identity, roll, previous: scene.previous.clone(), own: scene.own.clone() };
        pairing.expect("a roll is brought", &mut lent, &call, 0);
        pairing.expect("a roll is brought", &mut lent, &scene.activate(), 0);
        for row in &rows {
            pairing.expect("new of an existing label", &mut lent, &Call::New { label: row.label }, 9);
        }
        for (of_first, own, other) in [(true, first, second), (false, second, first)] {
            let label = absent_label(prng, &rows, of_first);
            pairing.expect("a roll is brought", &mut lent.clone(), &Call::New { label }, number(own, other));
        }
    }
}

/// The limit binds New alone: a company with 31 rows or more appends and reads as before.
fn limits_of_others(pairing: &mut Pairing, prng: &mut Prng) {
    for (first, second) in [(31, 31), (31, 32), (63, 0), (0, 63)] {
        let mut lent = Lent { area: good::area(258), ..keeper(prng, first, second) };
        for of_first in [true, false] {
            let Some(row) = lent.used().iter().find(|row| is_of_first(&row.label) == of_first) else { continue };
            let label = row.label;
            let place = lent.used().iter().position(|row| row.label == label).unwrap();
            lent.table[place] = Row { label, ..Row::ZERO };
            let (entry, nonce) = (prng.array(), prng.array());
            pairing.expect("append", &mut lent, &Call::Append { label, entry, expected: 1 }, 0);
            pairing.expect("read", &mut lent, &Call::Read { label, nonce }, 0);
            pairing.expect("both", &mut lent, &Call::AppendAndRead { label, entry, expected: 2, nonce }, 0);
            let list = prng.bytes(64);
            pairing.expect("append many", &mut lent, &Call::AppendMany { label, list, expected: 3 }, 0);
        }
    }
}

/// A call of a company, and the area that it is lent.
type Asked = (Call, Vec<u8>);

/// What one call answers, and the area after it.
type Told = (Reply, Vec<u8>);

fn pairs(pairing: &mut Pairing, prng: &mut Prng) {
    for _ in 0..60 {
        run_any(pairing, prng);
    }
}

/// "two runs from the same record that differ only in one company's New, Append and Read calls give the other company's such
/// calls the same answers and the same rows"
pub fn run_any(pairing: &mut Pairing, prng: &mut Prng) {
    let (told, rows) = two_runs(pairing, prng);
    pairing.ask(told, "the company's calls get the same answers and output bytes in both runs");
    pairing.ask(rows, "the company's rows are the same after both runs");
}

/// Two runs from one record that agree in the calls of one company; whether its answers and its rows agree.
pub fn two_runs(pairing: &mut Pairing, prng: &mut Prng) -> (bool, bool) {
    let (first, second) = any_counts(prng);
    let lent = keeper(prng, first, second);
    let of_first = prng.chance(1, 2);
    let most = if prng.chance(1, 4) { 40 } else { 8 };
    let ours = calls_of(prng, &lent, of_first, most);
    let [one, other] = [0, 1].map(|_| {
        let others = calls_of(prng, &lent, !of_first, most);
        let mixed = mix(prng, &ours, &others);
        run_of(pairing, &lent, &mixed, of_first)
    });
    (one.0 == other.0, one.1 == other.1)
}

/// Counts around the limits, also such as only an earlier roll brings.
fn any_counts(prng: &mut Prng) -> (usize, usize) {
    let limits = [(30, 30), (31, 30), (30, 31), (29, 31), (31, 31), (31, 32), (30, 32), (30, 33), (29, 33), (63, 0)];
    let (first, second) = match prng.below(4) {
        0 => (prng.below(4), prng.below(4)),
        1 => {
            let first = prng.below(64);
            (first, prng.below(64 - first))
        }
        _ => *prng.pick(&limits),
    };
    if prng.chance(1, 2) {
        (first, second)
    } else {
        (second, first)
    }
}

/// Calls of one company that mostly fit the record as they alone would lead it on.
fn calls_of(prng: &mut Prng, lent: &Lent, of_first: bool, most: usize) -> Vec<Asked> {
    let mut alone = lent.clone();
    let mut calls = Vec::new();
    for _ in 0..prng.below(most + 1) {
        let call = any_call(prng, &alone, of_first);
        let length = if prng.chance(1, 12) { prng.below(260) } else { 258 + prng.below(3) };
        alone.area = good::area(length);
        calls.push((call.clone(), alone.area.clone()));
        Peer.perform(&mut alone, &call);
    }
    calls
}

fn any_call(prng: &mut Prng, lent: &Lent, of_first: bool) -> Call {
    let has: Vec<[u8; 16]> =
        lent.used().iter().map(|row| row.label).filter(|label| is_of_first(label) == of_first).collect();
    let label = match prng.below(8) {
        0 if of_first => [0; 16],
        0..=3 => label_of(prng, of_first),
        _ if has.is_empty() => label_of(prng, of_first),
        _ => *prng.pick(&has),
    };
    let (entry, nonce) = (prng.array(), prng.array());
    let expected = records::expected(prng, &lent.table, &label);
    match prng.below(10) {
        0..=4 => Call::New { label },
        5 | 6 => Call::Append { label, entry, expected },
        7 => Call::Read { label, nonce },
        8 => Call::AppendAndRead { label, entry, expected, nonce },
        _ => Call::AppendMany { label, list: many::any_list(prng), expected },
    }
}

/// Both lists in one, each in its own order; true marks the first list's.
fn mix<'a>(prng: &mut Prng, ours: &'a [Asked], others: &'a [Asked]) -> Vec<(bool, &'a Asked)> {
    let (mut ours, mut others) = (ours.iter().peekable(), others.iter().peekable());
    let mut mixed = Vec::new();
    while ours.peek().is_some() || others.peek().is_some() {
        let turn = others.peek().is_none() || (ours.peek().is_some() && prng.chance(1, 2));
        let next = if turn { ours.next() } else { others.next() };
        mixed.extend(next.map(|asked| (turn, asked)));
    }
    mixed
}

/// What a run tells the company of whom the marked calls are, and its rows at the end.
fn run_of(pairing: &mut Pairing, lent: &Lent, calls: &[(bool, &Asked)], of_first: bool) -> (Vec<Told>, Vec<Row>) {
    let mut lent = lent.clone();
    let mut told = Vec::new();
    for (ours, (call, area)) in calls {
        lent.area = area.clone();
        let reply = pairing.call(&mut lent, call);
        if *ours {
            told.push((reply, lent.area.clone()));
        }
    }
    let rows = lent.used().iter().filter(|row| is_of_first(&row.label) == of_first).copied().collect();
    (told, rows)
}
