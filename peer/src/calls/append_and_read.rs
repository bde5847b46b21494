//! This file holds Append and read: "Append and read (258: append's statement, then the read's)".

use super::append::append_row;
use super::{put, row_statement, Tried};
use crate::call::Lent;
use crate::statement::{KIND_APPEND, KIND_READ};

pub fn append_and_read(lent: &mut Lent, label: &[u8; 16], entry: &[u8; 32], expected: u64, nonce: &[u8; 16]) -> Tried {
    // "as append; if the append is refused the whole call is, unlike the paper"
    let row = append_row(lent, label, entry, expected, 258)?;
    let both = [KIND_APPEND, KIND_READ].map(|kind| row_statement(&lent.head, kind, &row, nonce));
    Ok(put(lent, &both.concat()))
}
