//! This file holds M-106's maker: from the racks, the entries and the store it writes the new roll and the bundle.

use crate::bundle::{self, leads_to, Digests, Held, LONGEST, MOST_DIGESTS};
use crate::call::{Given, Made};
use crate::calls::ask_entries;
use crate::rack;
use crate::refusals::{Refusal, AREA_TOO_SHORT, DOES_NOT_FIT, NOT_LED_UP};
use crate::roll::{self, Roll, MOST_ROWS};
use crate::row::Row;
use crate::rules::Rules;
use crate::store::{self, Block, Said, StoreOf02, StoreRules};
use std::collections::BTreeSet;

/// The sentences of M-106 at which the slips aim, as they are said; `broken_maker.rs` says one of them otherwise.
pub trait MakerRules {
    /// The labels of the new roll: all that an old roll has, in order.
    fn labels(&self, rolls: &[Roll]) -> Vec<[u8; 16]> {
        let all: BTreeSet<[u8; 16]> = rolls.iter().flat_map(|roll| roll.used()).map(|row| row.label).collect();
        all.into_iter().collect()
    }

    /// The highest of the rows that the old rolls have of a label; of two that differ the first, and the other is 36.
    fn highest(&self, rows: &[Row]) -> Row {
        let height = rows.iter().map(|row| row.height).max();
        rows.iter().find(|row| Some(row.height) == height).copied().unwrap_or(Row::ZERO)
    }

    /// "the digests that the store's read answers"
    fn answered<'a>(&self, blocks: &'a [Block], label: &[u8; 16], height: u64) -> Option<&'a Said> {
        match &blocks[StoreOf02.answering(blocks, label, height)?] {
            Block::Used(said) => Some(said),
            _ => None,
        }
    }

    /// What an old row adds: the digests "each at its own height, above the old row and up to the highest", or `None` "when the
    /// store's read refuses a needed entry, two highest rows differ, or the digests don't lead to the highest tail". A need of
    /// more entries than the store has blocks ends at the first that no block answers (reading I4).
    fn added(&self, blocks: &[Block], old: &Row, highest: &Row) -> Option<Digests> {
        added_by(self, blocks, old, highest)
    }

    /// "the roll passes 63 rows"
    fn most_rows(&self) -> usize {
        MOST_ROWS
    }

    /// "a count 64"
    fn most_digests(&self) -> usize {
        MOST_DIGESTS
    }

    /// "or the bundle its length"
    fn longest(&self) -> usize {
        LONGEST
    }

    /// "All given entries go in", then for each old entry its lists, in the order of the rows.
    fn bundle(&self, entries: &[u8], lists: &[Vec<Digests>]) -> Vec<u8> {
        let lists: Vec<u8> = lists.iter().flatten().flat_map(|digests| listed(digests)).collect();
        [entries, &lists].concat()
    }
}

pub struct MakerOf02;

impl MakerRules for MakerOf02 {}

pub fn added_by<R: MakerRules + ?Sized>(rules: &R, blocks: &[Block], old: &Row, highest: &Row) -> Option<Digests> {
    let digests = way(rules, blocks, old, highest)?.iter().map(|said| said.digest).collect::<Digests>();
    leads_to(highest, &Held { row: Some(old), digests: &digests }).then_some(digests)
}

/// What the store answers above the old row and up to the highest, if it answers all of it.
pub fn way<'a, R: MakerRules + ?Sized>(
    rules: &R,
    blocks: &'a [Block],
    old: &Row,
    highest: &Row,
) -> Option<Vec<&'a Said>> {
    (old.height + 1..=highest.height).map(|height| rules.answered(blocks, &highest.label, height)).collect()
}

/// "a two-byte count of 0 to 64 and that many entry digests"
pub fn listed(digests: &[[u8; 32]]) -> Vec<u8> {
    [&(digests.len() as u16).to_be_bytes()[..], &digests.concat()].concat()
}

/// "the maker writes the new roll and the bundle", each into its own area; a refusal leaves both.
pub fn make_bundle(rules: &dyn Rules, given: &Given, roll_area: &mut [u8], bundle_area: &mut [u8]) -> Made {
    let made = made(rules, given).and_then(|(roll, bundle)| {
        // "1 last, for an area shorter than what goes in it"
        let fits = roll_area.len() >= roll.len() && bundle_area.len() >= bundle.len();
        fits.then_some((roll, bundle)).ok_or(AREA_TOO_SHORT)
    });
    match made {
        Ok((roll, bundle)) => {
            roll_area[..roll.len()].copy_from_slice(&roll);
            bundle_area[..bundle.len()].copy_from_slice(&bundle);
            Made { number: 0, roll: roll.len(), bundle: bundle.len() }
        }
        Err(number) => Made { number, ..Made::default() },
    }
}

/// The new roll's blocks and the bundle.
fn made(rules: &dyn Rules, given: &Given) -> Result<(Vec<u8>, Vec<u8>), Refusal> {
    // "2 for the store's size; 6, 22, 15, 16, 17, 18 and 19 as in Activate; 36 …; 37 …; 1 last"
    let blocks = store::look_at_all(rules.store(), &given.store)?;
    let (previous, own) = (rack::read(&given.previous)?, rack::read(&given.own)?);
    // The entries are the front of a bundle, with no lists: what a roll of no rows asks for.
    let front = bundle::read(rules, &given.entries, (previous.count, own.count), 0)?;
    let rolls = bundle::old_rolls(&front)?;
    ask_entries(rules, (previous.count, own.count), &front)?;
    let maker = rules.maker();
    let rows = new_rows(maker, &rolls);
    let lists = lists(maker, &blocks, &rolls, &rows).ok_or(NOT_LED_UP)?;
    let bundle = maker.bundle(&given.entries, &lists);
    let counts_fit = lists.iter().flatten().all(|digests| digests.len() <= maker.most_digests());
    if rows.len() > maker.most_rows() || !counts_fit || bundle.len() > maker.longest() {
        return Err(DOES_NOT_FIT);
    }
    Ok((roll::in_blocks(&rows), bundle))
}

/// Label by label in order, the highest old row.
pub fn new_rows(maker: &dyn MakerRules, rolls: &[Roll]) -> Vec<Row> {
    let of_label = |label: &[u8; 16]| -> Vec<Row> {
        rolls.iter().flat_map(|roll| roll.used()).filter(|row| row.label == *label).copied().collect()
    };
    maker.labels(rolls).iter().map(|label| maker.highest(&of_label(label))).collect()
}

/// For each old roll, for each row, what it adds; all of 36, over all rows and rolls, before any of 37 (reading I2).
fn lists(maker: &dyn MakerRules, blocks: &[Block], rolls: &[Roll], rows: &[Row]) -> Option<Vec<Vec<Digests>>> {
    let of_roll =
        |roll: &Roll| rows.iter().map(|row| maker.added(blocks, &held(roll, &row.label), row)).collect::<Option<_>>();
    rolls.iter().map(of_roll).collect()
}

/// The old roll's row of a label; by M-101 one that it lacks counts as height 0 with the zero tail.
fn held(roll: &Roll, label: &[u8; 16]) -> Row {
    let row = roll.used().iter().find(|row| row.label == *label);
    row.copied().unwrap_or(Row { label: *label, ..Row::ZERO })
}
