//! This file holds New: "New (label; 121)".

use super::{ask_active, find, put, row_statement, Tried};
use crate::call::Lent;
use crate::companies::{is_full, CompanyRules};
use crate::refusals::{COMPANY_FULL, LABEL_ZERO, LEDGER_EXISTS, TABLE_FULL};
use crate::roll::MOST_ROWS;
use crate::row::Row;
use crate::statement::KIND_NEW;

pub fn new(rules: &dyn CompanyRules, lent: &mut Lent, label: &[u8; 16]) -> Tried {
    // "1, 2, 4, 14, 9, 13", with 39 "after 9 and before 13"
    ask_active(lent, 121)?;
    if *label == [0; 16] {
        return Err(LABEL_ZERO.into());
    }
    if find(lent, label).is_some() {
        return Err(LEDGER_EXISTS.into());
    }
    if is_full(rules, lent.used(), label) {
        return Err(COMPANY_FULL.into());
    }
    let count = lent.head.count as usize;
    if count == MOST_ROWS {
        return Err(TABLE_FULL.into());
    }
    // "The row is added in label order at height 0."
    let row = Row { label: *label, ..Row::ZERO };
    let place = lent.used().iter().filter(|other| other.label < *label).count();
    lent.table.copy_within(place..count, place + 1);
    lent.table[place] = row;
    lent.head.count += 1;
    let statement = row_statement(&lent.head, KIND_NEW, &row, &[0; 16]);
    Ok(put(lent, &statement))
}
