//! This file holds the keeper's record, a head and a lent table, and when it is sound.

use crate::roll::{is_roll, MOST_ROWS};
use crate::row::Row;

/// "status (0 blank, 1 prepared, 2 active, 3 finalised)"
pub const BLANK: u8 = 0;
pub const PREPARED: u8 = 1;
pub const ACTIVE: u8 = 2;
pub const FINALISED: u8 = 3;

/// "status …, own key, identity, digests of own, previous and next rack, row count"
#[repr(C)]
#[derive(Clone, Copy, PartialEq, Eq, Debug)]
pub struct Head {
    pub status: u8,
    pub count: u8,
    pub key: [u8; 32],
    pub identity: [u8; 32],
    pub own: [u8; 32],
    pub previous: [u8; 32],
    pub next: [u8; 32],
}

impl Head {
    pub const ZERO: Head = Head {
        status: BLANK,
        count: 0,
        key: [0; 32],
        identity: [0; 32],
        own: [0; 32],
        previous: [0; 32],
        next: [0; 32],
    };
}

/// "The ledger table is 63 rows lent by the caller."
pub fn has_63_rows(table: &[Row]) -> bool {
    table.len() == MOST_ROWS
}

/// "The record is sound when the table has 63 rows, status is at most 3, count is at most 63 (0 when blank),
/// the first rows form a roll as above and the rest are zero." Nothing else is asked (reading B1).
pub fn is_sound(head: &Head, table: &[Row]) -> bool {
    let count = head.count as usize;
    has_63_rows(table)
        && head.status <= FINALISED
        && count <= MOST_ROWS
        && (head.status != BLANK || count == 0)
        && is_roll(&table[..count])
        && table[count..].iter().all(|row| *row == Row::ZERO)
}
