//! This file holds Wake: "Wake (own key)".

use super::Tried;
use crate::call::{Answer, Lent};
use crate::record::{has_63_rows, Head};
use crate::refusals::NOT_SOUND;
use crate::row::Row;

/// Accepted in any status and over any dirty record (reading B4).
pub fn wake(lent: &mut Lent, key: &[u8; 32]) -> Tried {
    // "2 here means only that the table hasn't 63 rows."
    if !has_63_rows(&lent.table) {
        return Err(NOT_SOUND.into());
    }
    // "the head gets status 0, the key, and zeros elsewhere; the table becomes zero"
    lent.head = Head { key: *key, ..Head::ZERO };
    lent.table.fill(Row::ZERO);
    Ok(Answer::accepted(0))
}
