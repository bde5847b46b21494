//! This file holds the trial of M-106: every standing of few old rolls, every way in which the store may fail, the bounds, and makings by chance.

use super::companies;
use super::good;
use super::maker_bounds;
use super::making::{Ledger, Making};
use super::pairing::Pairing;
use super::prng::Prng;
use super::scene::{Scene, Sizes};
use super::shelf::{said, Slot};
use crate::call::Call;
use crate::refusals::Refusal;
use crate::roll::in_blocks;
use crate::row::{Row, TOP};
use crate::sha256::digest_of;

type Part = fn(&mut Pairing, &mut Prng);

/// The parts of the trial, the short ones first.
pub const PARTS: [Part; 11] = [
    by_hand,
    readings,
    entries_refused,
    stores,
    forks,
    maker_bounds::counts,
    maker_bounds::far_apart,
    maker_bounds::row_counts,
    maker_bounds::lengths,
    every_standing,
    maker_bounds::every_bundle_of_65,
];

pub fn run(pairing: &mut Pairing, prng: &mut Prng) {
    for part in PARTS {
        part(pairing, prng);
    }
}

/// A refused making is searched where no more bundles than so many can be made of it.
pub const SEARCHED: u64 = 400;

pub const LABEL: [u8; 16] = [0x40; 16];

/// A handover to a rack of three from one in which so many are just a majority.
pub fn sizes(rolls: usize) -> Sizes {
    Sizes { previous: 2 * rolls - 1, own: 3, old: rolls, new: 2, rows: 0 }
}

/// One ledger of so many texts, of which each old roll has seen so many, if it has the row.
pub fn lone(prng: &mut Prng, texts: usize, seen: &[Option<usize>]) -> Making {
    let ledger = Ledger::new(prng, LABEL, texts, seen);
    Making::new(prng, sizes(seen.len()), vec![ledger])
}

/// Two old rolls, of which the second lacks one text, put together by hand.
fn by_hand(pairing: &mut Pairing, prng: &mut Prng) {
    let mut making = lone(prng, 2, &[Some(2), Some(1)]);
    making.shelf.slots.insert(0, Slot::Unused);
    let lists = [&[0, 0, 0, 1][..], &digest_of(&[&making.ledgers[0].texts[1]])].concat();
    let bundle = [making.given().entries, lists].concat();
    let (made, area) = making.make(pairing, "by hand", (520, 2_000), 0);
    pairing.ask((made.roll, made.bundle) == (512, bundle.len()), "one block, and the entries with two lists");
    pairing.ask(area[520..].starts_with(&bundle), "the entries as they were given, then for each roll its list");
    let row = [&LABEL[..], &making.ledgers[0].row(2).tail, &[0, 0, 0, 0, 0, 0, 0, 2]].concat();
    pairing.ask(area[..4] == [0, 1, 1, 0] && area[4..60] == row, "the highest row alone");
    making.hold(pairing, "by hand", 0, 0);
    making.hold_areas(pairing, "by hand");
}

/// The ways in which the store may answer for a text.
#[derive(Clone, Copy)]
pub enum Way {
    Gap,
    Damaged,
    OtherText,
    /// Another text at its label and height, in a block before it or after it.
    DoubleBefore,
    DoubleAfter,
    /// A damaged block before it, which answers nothing.
    DamagedBefore,
}

const WAYS: [Way; 6] =
    [Way::Gap, Way::Damaged, Way::OtherText, Way::DoubleBefore, Way::DoubleAfter, Way::DamagedBefore];

/// The store answers in this way for a text.
pub fn answer(prng: &mut Prng, making: &mut Making, label: [u8; 16], height: u64, way: Way) {
    let other = Slot::Used(said(prng, label, height, b"another text"));
    let mut damaged = other.bytes();
    damaged[*prng.pick(&[30, 100, 511])] ^= 1;
    let damaged = Slot::Damaged(damaged);
    match way {
        Way::Gap => making.slots_of(label, height).for_each(|slot| *slot = Slot::Unused),
        Way::Damaged => making.slots_of(label, height).for_each(|slot| *slot = damaged.clone()),
        Way::OtherText => making.slots_of(label, height).for_each(|slot| *slot = other.clone()),
        Way::DoubleBefore => making.shelf.slots.insert(0, other),
        Way::DoubleAfter => making.shelf.slots.push(other),
        Way::DamagedBefore => making.shelf.slots.insert(0, damaged),
    }
}

/// Every way in which one to three old rolls can stand to a ledger of up to two texts, and each way in which the store may fail
/// for each text.
fn every_standing(pairing: &mut Pairing, prng: &mut Prng) {
    for (rolls, texts) in (1..=3).flat_map(|rolls| (0..=2).map(move |texts| (rolls, texts))) {
        let choices: usize = texts + 2;
        for number in 0..choices.pow(rolls as u32) {
            let seen: Vec<Option<usize>> =
                (0..rolls).map(|roll| (number / choices.pow(roll as u32) % choices).checked_sub(1)).collect();
            let making = lone(prng, texts, &seen);
            making.hold(pairing, "every standing", making.number(), SEARCHED);
            for (height, way) in (1..=texts as u64).flat_map(|height| WAYS.map(|way| (height, way))) {
                let mut other = making.clone();
                answer(prng, &mut other, LABEL, height, way);
                other.hold(pairing, "every standing", other.number(), SEARCHED);
            }
        }
    }
}

/// I2 to I14, each with the number taken.
fn readings(pairing: &mut Pairing, prng: &mut Prng) {
    let ready = lone(prng, 1, &[Some(1), Some(1)]);
    let lagging = lone(prng, 2, &[Some(2), Some(1)]);
    let mut hold = |what: &str, number: Refusal, making: &Making, change: &dyn Fn(&mut Making)| {
        let mut making = making.clone();
        change(&mut making);
        making.hold(pairing, what, number, SEARCHED);
    };
    let wild = Slot::Damaged(vec![7; 512]);
    hold("I7: nothing needed, no store", 0, &ready, &|m| m.shelf.slots.clear());
    hold("I7: nothing needed, all damaged", 0, &ready, &|m| m.shelf.slots = vec![wild.clone(); 128]);
    hold("I7: nothing needed, a store of bad size", 2, &ready, &|m| m.shelf.after = 1);
    hold("I7: needed, another damaged", 0, &lagging, &|m| m.shelf.slots.push(wild.clone()));
    hold("I7: needed, all damaged", 36, &lagging, &|m| m.shelf.slots = vec![wild.clone(); 3]);
    hold("needed, no store", 36, &lagging, &|m| m.shelf.slots.clear());
    hold("a text that nobody needs is missing", 0, &lagging, &|m| {
        m.slots_of(LABEL, 1).for_each(|slot| *slot = Slot::Unused)
    });
    let mut doubled = lagging.clone();
    answer(prng, &mut doubled, LABEL, 2, Way::DoubleBefore);
    hold("I14: the first of two leads elsewhere", 36, &doubled, &|_| {});
    hold("I14: the first of two leads right", 0, &doubled, &|m| m.shelf.slots.rotate_left(1));
    hold("two highest rows differ", 36, &ready, &|m| m.fork([7; 32], 1, LABEL));
    hold("the old row leads elsewhere", 36, &lagging, &|m| m.fork([7; 32], 1, LABEL));
    let two = Making::new(prng, Sizes { previous: 2, own: 2, old: 2, new: 2, rows: 0 }, lagging.ledgers.clone());
    hold("I8: racks of two", 0, &two, &|_| {});
    let crossed = vec![
        Ledger::new(prng, [0x20; 16], 1, &[None, Some(1)]),
        Ledger::new(prng, LABEL, 2, &[Some(2), None]),
        Ledger::new(prng, [0x60; 16], 0, &[None, Some(0)]),
    ];
    let crossed = Making::new(prng, sizes(2), crossed);
    hold("each roll has rows that the other lacks", 0, &crossed, &|_| {});
    hold("the same, and a text missing", 36, &crossed, &|m| drop(m.shelf.slots.pop()));
    let all = Making::of_one(prng, Sizes { previous: 3, old: 3, ..sizes(3) }, 2, &[Some(1), Some(2), None]);
    hold("more entries than a majority", 0, &all, &|_| {});
    let none = Making::new(prng, sizes(3), vec![]);
    hold("empty rolls", 0, &none, &|_| {});
    for (first, second) in [(40, 0), (0, 63), (32, 31)] {
        let rows = companies::rows(prng, first, second);
        let ledger = |row: &Row| Ledger { base: *row, texts: vec![], seen: vec![Some(0); 2] };
        let making = Making::new(prng, sizes(2), rows.iter().map(ledger).collect());
        hold("I13: more than 31 rows of a company", 0, &making, &|_| {});
    }
}

/// A making whose entries are refused as in Activate, each with the search behind it.
fn entries_refused(pairing: &mut Pairing, prng: &mut Prng) {
    type Change = fn(&mut Scene);
    let cases: [(Refusal, Change); 21] = [
        (6, |s| s.previous.clear()),
        (6, |s| s.own.push(0)),
        (6, |s| (s.previous[0], s.own[0]) = (0, 16)),
        (22, |s| s.old[1].marks = 7),
        (22, |s| s.new[1].1 = 128),
        (22, |s| s.old[1].position = 0),
        (22, |s| s.new[1].0 = 3),
        (22, |s| (s.old[0].number_of_blocks, s.old[0].blocks) = (Some(0), Some(Vec::new()))),
        (22, |s| (s.old[0].number_of_blocks, s.old[0].blocks) = (Some(8), Some(vec![0; 4_096]))),
        (15, |s| s.old[0].blocks = Some(vec![0; 512])),
        (15, |s| s.old[1].blocks = Some([in_blocks(&s.old[1].rows), in_blocks(&[])].concat())),
        (16, |s| drop(s.old.pop())),
        (16, |s| s.new.truncate(1)),
        (16, |s| s.old.clear()),
        (16, |s| (s.old[0].marks, _) = (0, s.new.pop())),
        (17, |s| s.old[1].marks = 2),
        (18, |s| (s.old[0].marks, s.old[1].marks) = (1, 0)),
        (18, |s| (s.old[1].marks, s.new[0].1) = (1, 0)),
        (17, |s| s.new[0].1 = 0),
        (19, |s| (s.new[0].1, s.new[1].1) = (1, 0)),
        (19, |s| s.new.push((2, 1))),
    ];
    for (number, change) in cases {
        let mut making = lone(prng, 1, &[Some(1), Some(0)]);
        change(&mut making.scene);
        making.hold(pairing, "entries as in Activate", number, SEARCHED);
    }
    for after in [vec![0], vec![0; 66_000]] {
        let mut making = lone(prng, 1, &[Some(1), Some(0)]);
        making.scene.after = after;
        making.hold(pairing, "bytes after the entries", 22, 0);
    }
    for cut in [1, 2, 3, 500, 1_000_000] {
        let mut making = lone(prng, 1, &[Some(1), Some(0)]);
        making.scene.cut = cut;
        making.hold(pairing, "entries cut short", 22, 0);
    }
}

/// Stores of whole blocks and of others, where one text is needed and where none is.
fn stores(pairing: &mut Pairing, prng: &mut Prng) {
    for count in [0, 1, 2, 127, 128, 129, 130, 256] {
        for after in [0, 1, 511] {
            for lacking in [0, 1] {
                let mut making = lone(prng, 1, &[Some(1), Some(1 - lacking)]);
                making.shelf.slots.resize_with(count, || Slot::Unused);
                making.shelf.slots.rotate_left(count.min(1));
                making.shelf.after = after;
                let number = if after > 0 || count > 128 { 2 } else { making.number() };
                making.hold(pairing, "sizes of stores", number, SEARCHED);
            }
        }
    }
}

/// Old rows that no text led to: as high as the highest, below it and above it.
fn forks(pairing: &mut Pairing, prng: &mut Prng) {
    for seen in [[1, 1, 1], [2, 1, 1], [1, 2, 1], [2, 2, 1], [1, 1, 2], [0, 1, 2], [2, 0, 0]] {
        for roll in 0..3 {
            let mut making = Making::of_one(prng, sizes(3), 2, &seen.map(Some));
            making.fork(prng.array(), roll, LABEL);
            making.hold(pairing, "forks", making.number(), 0);
            let mut making = lone(prng, 2, &seen.map(Some));
            making.fork(prng.array(), roll, LABEL);
            making.hold(pairing, "forks", making.number(), SEARCHED);
        }
    }
}

/// Any ledgers, any old rolls, a store with gaps, damage and doubles.
pub fn run_any(pairing: &mut Pairing, prng: &mut Prng) {
    let making = any_making(prng);
    if prng.chance(1, 8) {
        return anything(pairing, prng, &making);
    }
    let number = making.number();
    making.hold(pairing, "by chance", number, SEARCHED);
    if number == 0 && prng.chance(1, 4) {
        making.hold_areas(pairing, "by chance");
    }
}

fn any_making(prng: &mut Prng) -> Making {
    let old = 1 + prng.below(4);
    let previous = old + prng.below(old);
    let own = 1 + prng.below(5);
    let new = own / 2 + 1 + prng.below(own - own / 2);
    let count = if prng.chance(1, 20) { prng.below(70) } else { prng.below(4) };
    let ledgers = good::rows(prng, count).into_iter().map(|row| any_ledger(prng, row, old)).collect();
    let mut making = Making::new(prng, Sizes { previous, own, old, new, rows: 0 }, ledgers);
    making.shelf.slots.truncate(128);
    for _ in 0..prng.below(3) {
        any_change(prng, &mut making);
    }
    making
}

fn any_ledger(prng: &mut Prng, row: Row, rolls: usize) -> Ledger {
    let from_zero = row.height > TOP - 4 || prng.chance(2, 3);
    let base = if from_zero { Row { label: row.label, ..Row::ZERO } } else { row };
    let texts: Vec<Vec<u8>> = (0..prng.below(4)).map(|_| prng.bytes(9)).collect();
    let seen = (0..rolls).map(|_| prng.chance(3, 4).then(|| prng.below(texts.len() + 1))).collect();
    Ledger { base, texts, seen }
}

/// A gap, damage, a double, a block more or a fork.
fn any_change(prng: &mut Prng, making: &mut Making) {
    let texts: Vec<([u8; 16], u64)> = making
        .ledgers
        .iter()
        .flat_map(|ledger| (0..ledger.texts.len()).map(|place| (ledger.base.label, ledger.height(place))))
        .collect();
    let room = making.shelf.slots.len() < 128;
    match prng.below(6) {
        0 if room => making.shelf.slots.push(Slot::Unused),
        1 if room => making.shelf.slots.insert(0, Slot::Damaged(prng.bytes(512))),
        2 if making.scene.old.len() > 1 && !making.ledgers.is_empty() => {
            let roll = prng.below(making.scene.old.len());
            let label = prng.pick(&making.ledgers).base.label;
            making.fork(prng.array(), roll, label);
        }
        _ if room && !texts.is_empty() => {
            let (label, height) = *prng.pick(&texts);
            let way = *prng.pick(&WAYS);
            answer(prng, making, label, height, way);
        }
        _ => {}
    }
}

/// One bit of what is given turned, or an argument cut, under areas of any length.
fn anything(pairing: &mut Pairing, prng: &mut Prng, making: &Making) {
    let mut given = making.given();
    let argument = match prng.below(4) {
        0 => &mut given.previous,
        1 => &mut given.own,
        2 => &mut given.entries,
        _ => &mut given.store,
    };
    if prng.chance(1, 3) {
        argument.truncate(prng.below(argument.len() + 1));
    } else if !argument.is_empty() {
        let place = prng.below(argument.len());
        argument[place] ^= 1 << prng.below(8);
    }
    let (roll, bundle) = (prng.below(2_000), prng.below(8_000));
    let call = Call::MakeBundle { given, roll_area: roll };
    pairing.call(&mut good::only_area(roll + bundle), &call);
}
