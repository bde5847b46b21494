//! This file holds the handover bundle: its layout, the rolls in it and the derivation of this keeper's roll.

use crate::block::BLOCK;
use crate::marks::{good_positions, other_bits_are_zero};
use crate::refusals::{Refusal, LIST_BROKEN};
use crate::roll::{self, Roll};
use crate::row::{appended, Row};
use crate::rules::Rules;

/// "At most 65,536 bytes"
pub const LONGEST: usize = 65_536;
/// "block count 1 to 7"
const MOST_BLOCKS: u8 = 7;
/// "a two-byte count of 0 to 64"
pub const MOST_DIGESTS: usize = 64;

/// The entry digests listed for one row.
pub type Digests = Vec<[u8; 32]>;

/// "a old entries (position in the previous rack, marks, block count 1 to 7, the roll blocks)"
pub struct OldEntry<'a> {
    pub position: u8,
    pub marks: u8,
    pub blocks: &'a [u8],
    /// One list for each row of this keeper's roll, in order.
    pub added: Vec<Digests>,
}

/// "b new entries (position in the own rack, marks)"
pub struct NewEntry {
    pub position: u8,
    pub marks: u8,
}

pub struct Bundle<'a> {
    pub old: Vec<OldEntry<'a>>,
    pub new: Vec<NewEntry>,
}

/// The part of the bundle not yet taken; what it lacks is a broken layout.
struct Rest<'a>(&'a [u8]);

impl<'a> Rest<'a> {
    fn take(&mut self, length: usize) -> Result<&'a [u8], Refusal> {
        if self.0.len() < length {
            return Err(LIST_BROKEN);
        }
        let (taken, after) = self.0.split_at(length);
        self.0 = after;
        Ok(taken)
    }

    fn byte(&mut self) -> Result<u8, Refusal> {
        Ok(self.take(1)?[0])
    }
}

/// The layout of the complete bundle, before any roll in it is looked at (reading C14), for the sizes of the previous and
/// own rack. `rows` is the row count of this keeper's own roll (reading C16).
pub fn read<'a>(rules: &dyn Rules, bytes: &'a [u8], sizes: (u8, u8), rows: u8) -> Result<Bundle<'a>, Refusal> {
    let bundle = read_lists(bytes, rows)?;
    // "Positions strictly rise within each list and lie below the rack's size."
    let old: Vec<u8> = bundle.old.iter().map(|entry| entry.position).collect();
    let new: Vec<u8> = bundle.new.iter().map(|entry| entry.position).collect();
    if !good_positions(rules, &old, sizes.0) || !good_positions(rules, &new, sizes.1) {
        return Err(LIST_BROKEN);
    }
    Ok(bundle)
}

/// All of the layout but the positions.
fn read_lists(bytes: &[u8], rows: u8) -> Result<Bundle<'_>, Refusal> {
    if bytes.len() > LONGEST {
        return Err(LIST_BROKEN);
    }
    let mut rest = Rest(bytes);
    // "One byte a; a old entries"
    let mut old = Vec::new();
    for _ in 0..rest.byte()? {
        old.push(read_old_entry(&mut rest)?);
    }
    // "one byte b; b new entries"
    let mut new = Vec::new();
    for _ in 0..rest.byte()? {
        new.push(read_new_entry(&mut rest)?);
    }
    // "then for each old entry, for each row of this keeper's roll in order"
    for entry in &mut old {
        for _ in 0..rows {
            entry.added.push(read_digests(&mut rest)?);
        }
    }
    // "nothing after"
    if !rest.0.is_empty() {
        return Err(LIST_BROKEN);
    }
    Ok(Bundle { old, new })
}

/// "positions, marks and block counts are one byte each"
fn read_old_entry<'a>(rest: &mut Rest<'a>) -> Result<OldEntry<'a>, Refusal> {
    let position = rest.byte()?;
    let marks = rest.byte()?;
    let number_of_blocks = rest.byte()?;
    if !other_bits_are_zero(marks) || !(1..=MOST_BLOCKS).contains(&number_of_blocks) {
        return Err(LIST_BROKEN);
    }
    let blocks = rest.take(BLOCK * number_of_blocks as usize)?;
    Ok(OldEntry { position, marks, blocks, added: Vec::new() })
}

fn read_new_entry(rest: &mut Rest) -> Result<NewEntry, Refusal> {
    let position = rest.byte()?;
    let marks = rest.byte()?;
    if !other_bits_are_zero(marks) {
        return Err(LIST_BROKEN);
    }
    Ok(NewEntry { position, marks })
}

/// "a two-byte count of 0 to 64 and that many entry digests"
fn read_digests(rest: &mut Rest) -> Result<Digests, Refusal> {
    let count = rest.take(2)?;
    let count = u16::from_be_bytes([count[0], count[1]]) as usize;
    if count > MOST_DIGESTS {
        return Err(LIST_BROKEN);
    }
    let mut digests = Digests::new();
    for bytes in rest.take(32 * count)?.chunks_exact(32) {
        let mut digest = [0; 32];
        digest.copy_from_slice(bytes);
        digests.push(digest);
    }
    Ok(digests)
}

/// The rolls of all old entries; 15 if one of them breaks the layout.
pub fn old_rolls(bundle: &Bundle) -> Result<Vec<Roll>, Refusal> {
    bundle.old.iter().map(|entry| roll::read(entry.blocks)).collect()
}

/// What one old roll has of one of our rows, if it has it, and the digests listed for it.
#[derive(Clone, Copy)]
pub struct Held<'a> {
    pub row: Option<&'a Row>,
    pub digests: &'a [[u8; 32]],
}

/// "The roll is derived exactly if, for each old roll: its labels are those of this keeper's roll, no more and no fewer;
/// and for each row, its height plus the count equals ours and appending the listed digests to its tail gives our tail.
/// Also, for each row, some old roll that has it adds none." Since M-101 there may be fewer.
pub fn is_derived<R: Rules + ?Sized>(rules: &R, ours: &[Row], old: &[OldEntry], rolls: &[Roll]) -> bool {
    let no_more_labels = rolls.iter().all(|roll| rules.no_more_labels(ours, roll.used()));
    let each_row_derived = ours.iter().enumerate().all(|(place, our)| {
        let held: Vec<Held> =
            old.iter().zip(rolls).map(|(entry, roll)| held(roll.used(), &our.label, &entry.added[place])).collect();
        rules.row_is_derived(our, &held)
    });
    no_more_labels && each_row_derived
}

fn held<'a>(old: &'a [Row], label: &[u8; 16], digests: &'a [[u8; 32]]) -> Held<'a> {
    Held { row: old.iter().find(|row| row.label == *label), digests }
}

/// M-101: "A row missing from an old roll shall count as height 0 with the zero tail, provided that another old roll in the
/// bundle has it; the rest of the derivation stays, so some roll that does have the row must add none." The proviso follows
/// from the last sentence, and both are kept (reading E4).
pub fn row_is_derived(our: &Row, held: &[Held]) -> bool {
    let another_has_it = held.iter().any(|held| held.row.is_some());
    let one_that_has_it_adds_none = held.iter().any(|held| held.row.is_some() && held.digests.is_empty());
    another_has_it && one_that_has_it_adds_none && held.iter().all(|held| leads_to(our, held))
}

/// "its height plus the count equals ours and appending the listed digests to its tail gives our tail"
pub fn leads_to(our: &Row, held: &Held) -> bool {
    let old = held.row.copied().unwrap_or(Row { label: our.label, ..Row::ZERO });
    let tail = held.digests.iter().fold(old.tail, |tail, digest| appended(&tail, digest));
    old.height + held.digests.len() as u64 == our.height && tail == our.tail
}
