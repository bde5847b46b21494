//! This file holds Finalise: "Finalise (next rack; 3,713)".

use super::{ask_area, ask_sound, put, take_rack, Tried};
use crate::call::{Answer, Lent};
use crate::rack;
use crate::record::{ACTIVE, FINALISED};
use crate::refusals::NOT_ACTIVE;
use crate::roll;
use crate::row::Row;
use crate::rules::Rules;
use crate::statement::{self, Statement, KIND_FINALISE};

pub fn finalise(rules: &dyn Rules, lent: &mut Lent, next: &[u8]) -> Tried {
    // "1, 2; if already finalised, …; then 4, 6", and 38 "directly after 6"
    ask_area(lent, 3_713)?;
    ask_sound(lent)?;
    // "if already finalised, the earlier statement and roll again, the argument not read, marked as a repeat with nothing to sign"
    if lent.head.status == FINALISED {
        return Ok(Answer { repeat: true, ..put_last_words(lent) });
    }
    if lent.head.status != ACTIVE {
        return Err(NOT_ACTIVE.into());
    }
    take_rack(rules, next)?;
    lent.head.next = rack::digest(next);
    lent.head.status = FINALISED;
    Ok(put_last_words(lent))
}

/// "Gives the statement, then the roll blocks"
fn put_last_words(lent: &mut Lent) -> Answer {
    let statement = finalise_statement(&lent.head.identity, &lent.head.own, &lent.head.next, lent.used());
    let words = [statement, roll::in_blocks(lent.used())].concat();
    put(lent, &words)
}

/// "4 finalise: own rack digest, next rack digest, roll digest."
pub(super) fn finalise_statement(identity: &[u8; 32], own: &[u8; 32], next: &[u8; 32], rows: &[Row]) -> Vec<u8> {
    statement::bytes(&Statement {
        kind: KIND_FINALISE,
        identity: *identity,
        own: *own,
        other: *next,
        roll: roll::digest(rows),
        ..Statement::ZERO
    })
}
