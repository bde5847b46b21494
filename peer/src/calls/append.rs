//! This file holds Append: "Append (label, entry digest, expected height as a 64-bit number; 121)".

use super::{ask_active, find, put, row_statement, Tried};
use crate::call::{Answer, Lent};
use crate::refusals::{AT_THE_TOP, NO_SUCH_LEDGER};
use crate::row::{appended, Row, TOP};
use crate::statement::KIND_APPEND;

pub fn append(lent: &mut Lent, label: &[u8; 16], entry: &[u8; 32], expected: u64) -> Tried {
    let row = append_row(lent, label, entry, expected, 121)?;
    let statement = row_statement(&lent.head, KIND_APPEND, &row, &[0; 16]);
    Ok(put(lent, &statement))
}

/// Tests and appends; gives the row as it is then. "Number above" is 121, or 258 for Append and read.
pub(super) fn append_row(
    lent: &mut Lent,
    label: &[u8; 16],
    entry: &[u8; 32],
    expected: u64,
    number_above: usize,
) -> Result<Row, Answer> {
    // "1, 2, 4, 10, 11, 12"
    ask_active(lent, number_above)?;
    let Some(place) = find(lent, label) else {
        return Err(NO_SUCH_LEDGER.into());
    };
    let row = &mut lent.table[place];
    // "Expected must be the row's height plus 1."
    if expected != row.height + 1 {
        return Err(Answer::out_of_order(row.height));
    }
    if row.height == TOP {
        return Err(AT_THE_TOP.into());
    }
    *row = Row { label: row.label, tail: appended(&row.tail, entry), height: expected };
    Ok(*row)
}
