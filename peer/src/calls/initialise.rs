//! This file holds Initialise: "Initialise (identity, roll, previous rack, own rack; 129 bytes out)".

use super::{ask_area, ask_sound, put, take_rack, Tried};
use crate::call::Lent;
use crate::rack;
use crate::record::{Head, ACTIVE, BLANK, PREPARED};
use crate::refusals::{Refusal, NOT_BLANK, ONE_PRESENT_ALONE, OWN_KEY_MISSING};
use crate::roll::{self, Roll};
use crate::row::Row;
use crate::rules::Rules;
use crate::statement::{self, Statement, KIND_INITIALISE};

pub fn initialise(
    rules: &dyn Rules,
    lent: &mut Lent,
    identity: &[u8; 32],
    roll: &[u8],
    previous: &[u8],
    own: &[u8],
) -> Tried {
    // "1, 2, 3, own rack 6, 7, 8, previous rack 6, 15", with 38 "directly after 6 for the own rack"
    ask_area(lent, 129)?;
    ask_sound(lent)?;
    if lent.head.status != BLANK {
        return Err(NOT_BLANK.into());
    }
    let own_rack = take_rack(rules, own)?;
    if !own_rack.holds(&lent.head.key) {
        return Err(OWN_KEY_MISSING.into());
    }
    // "One present alone is 8." Judged by length alone (reading C4).
    if roll.is_empty() != previous.is_empty() {
        return Err(ONE_PRESENT_ALONE.into());
    }
    let founding = roll.is_empty();
    let key = &lent.head.key;
    let (head, roll) = if founding { founded(key, own) } else { prepared(key, identity, roll, previous, own)? };
    lent.head = head;
    lent.table.copy_from_slice(&roll.rows);
    Ok(put(lent, &initialise_statement(&head, roll.used())))
}

/// "With roll and previous rack both of length 0 the rack is founded: identity becomes the own rack digest,
/// the given identity isn't read, and the status is *active* at once." … "(previous zeros when founding)"
fn founded(key: &[u8; 32], own: &[u8]) -> (Head, Roll) {
    let digest = rack::digest(own);
    (Head { status: ACTIVE, key: *key, identity: digest, own: digest, ..Head::ZERO }, Roll::EMPTY)
}

/// "With both present the status is prepared and roll and identity are taken unproved.
/// Own and previous rack digests are set …, the next one to zeros."
fn prepared(
    key: &[u8; 32],
    identity: &[u8; 32],
    roll: &[u8],
    previous: &[u8],
    own: &[u8],
) -> Result<(Head, Roll), Refusal> {
    rack::read(previous)?;
    let roll = roll::read(roll)?;
    let head = Head {
        status: PREPARED,
        count: roll.count,
        key: *key,
        identity: *identity,
        own: rack::digest(own),
        previous: rack::digest(previous),
        next: [0; 32],
    };
    Ok((head, roll))
}

/// "5 initialise: previous rack digest (zeros when founding), own rack digest, roll digest."
pub(super) fn initialise_statement(head: &Head, rows: &[Row]) -> Vec<u8> {
    statement::bytes(&Statement {
        kind: KIND_INITIALISE,
        identity: head.identity,
        other: head.previous,
        own: head.own,
        roll: roll::digest(rows),
        ..Statement::ZERO
    })
}
