//! This file holds Bytes to check: "(previous rack, own rack, bundle, old or new list, entry number from 0; 129)".

use super::finalise::finalise_statement;
use super::handover::{open_handover, Handover};
use super::initialise::initialise_statement;
use super::{ask_area, put, Tried};
use crate::call::{Lent, Papers};
use crate::refusals::{Refusal, LIST_BROKEN};
use crate::rules::Rules;

/// "old or new list": 0 is the old one, 1 the new one, and others have no entry (reading C27).
pub const OLD_LIST: u8 = 0;
pub const NEW_LIST: u8 = 1;

/// "head and table stay"
pub fn bytes_to_check(rules: &dyn Rules, lent: &mut Lent, papers: &Papers, list: u8, entry: u64) -> Tried {
    // "1, 2, 5, 6 (previous, then own), 21, 22, 15, then 22 if that list has no such entry"
    ask_area(lent, 129)?;
    let handover = open_handover(rules, lent, papers)?;
    let statement = statement_of_entry(lent, &handover, list, entry)?;
    Ok(put(lent, &statement))
}

/// "Gives the finalise or initialise statement that the entry's marks speak of"
fn statement_of_entry(lent: &Lent, handover: &Handover, list: u8, entry: u64) -> Result<Vec<u8>, Refusal> {
    let head = &lent.head;
    // "Marks of an old entry speak of the finalise statement with this identity, previous rack, own rack and that roll"
    if list == OLD_LIST && entry < handover.rolls.len() as u64 {
        let old_rows = handover.rolls[entry as usize].used();
        return Ok(finalise_statement(&head.identity, &head.previous, &head.own, old_rows));
    }
    // "of a new one, of the initialise statement with this keeper's own identity, racks and roll"
    if list == NEW_LIST && entry < handover.bundle.new.len() as u64 {
        return Ok(initialise_statement(head, lent.used()));
    }
    Err(LIST_BROKEN)
}
