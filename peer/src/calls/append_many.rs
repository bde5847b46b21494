//! This file holds M-100's Append many: "one append call with 1 to 32 entry digests and the expected height of the first".

use super::{ask_active, find, put, row_statement, Tried};
use crate::call::{Answer, Lent};
use crate::refusals::{AT_THE_TOP, NOT_1_TO_32, NO_SUCH_LEDGER};
use crate::row::{appended, Row, TOP};
use crate::statement::KIND_APPEND;

/// "1 to 32 entry digests"
pub const MOST_ENTRIES: usize = 32;
pub const DIGEST: usize = 32;

/// The sentences of M-100 at which the slips aim, as they are said; `broken_many.rs` says one of them otherwise.
pub trait ManyRules {
    /// "32 for a list of 0 or more than 32"; bytes that are not whole digests are no list either.
    fn is_list(&self, length: usize) -> bool {
        length % DIGEST == 0 && (1..=MOST_ENTRIES).contains(&(length / DIGEST))
    }

    /// "the expected height of the first"
    fn is_in_order(&self, height: u64, _entries: u64, expected: u64) -> bool {
        expected == height + 1
    }

    /// "12 if any entry would pass the top"
    fn passes_top(&self, height: u64, entries: u64) -> bool {
        height + entries > TOP
    }

    /// "Record … are those after appending them one by one."
    fn row_after(&self, row: &Row, entries: &[[u8; 32]]) -> Row {
        entries.iter().fold(*row, one_more)
    }

    /// "… and statement": one, of the row as it is then.
    fn stated(&self, _before: &Row, after: &Row, _entries: &[[u8; 32]]) -> Row {
        *after
    }
}

pub struct ManyOf02;

impl ManyRules for ManyOf02 {}

/// The row after one more entry, by 01's rule of appending.
pub fn one_more(row: Row, entry: &[u8; 32]) -> Row {
    Row { label: row.label, tail: appended(&row.tail, entry), height: row.height + 1 }
}

pub fn append_many(rules: &dyn ManyRules, lent: &mut Lent, label: &[u8; 16], list: &[u8], expected: u64) -> Tried {
    // "32 …, after 4; 12 if any entry would pass the top; otherwise append's order": 1, 2, 4, 32, 10, 11, 12
    ask_active(lent, 121)?;
    if !rules.is_list(list.len()) {
        return Err(NOT_1_TO_32.into());
    }
    let entries = taken_apart(list);
    let Some(place) = find(lent, label) else {
        return Err(NO_SUCH_LEDGER.into());
    };
    let row = lent.table[place];
    if !rules.is_in_order(row.height, entries.len() as u64, expected) {
        return Err(Answer::out_of_order(row.height));
    }
    if rules.passes_top(row.height, entries.len() as u64) {
        return Err(AT_THE_TOP.into());
    }
    lent.table[place] = rules.row_after(&row, &entries);
    let stated = rules.stated(&row, &lent.table[place], &entries);
    let statement = row_statement(&lent.head, KIND_APPEND, &stated, &[0; 16]);
    Ok(put(lent, &statement))
}

fn taken_apart(list: &[u8]) -> Vec<[u8; 32]> {
    list.chunks_exact(DIGEST).map(|digest| digest.try_into().expect("32 bytes")).collect()
}
