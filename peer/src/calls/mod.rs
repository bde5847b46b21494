//! This folder holds the keeper's calls, one file each; this file holds what several of them share.

mod activate;
mod append;
mod append_and_read;
mod append_many;
mod bytes_to_check;
mod finalise;
mod handover;
mod initialise;
mod new;
mod read;
mod wake;

pub use activate::activate;
pub use append::append;
pub use append_and_read::append_and_read;
pub use append_many::{append_many, one_more, ManyOf02, ManyRules, DIGEST, MOST_ENTRIES};
pub use bytes_to_check::bytes_to_check;
pub use finalise::finalise;
pub use handover::ask_entries;
pub use initialise::initialise;
pub use new::new;
pub use read::read;
pub use wake::wake;

use crate::call::{Answer, Lent};
use crate::rack::{self, Rack};
use crate::record::{is_sound, Head, ACTIVE};
use crate::refusals::{Refusal, AREA_TOO_SHORT, NOT_ACTIVE, NOT_SOUND, RACK_OF_TWO};
use crate::row::Row;
use crate::rules::Rules;
use crate::statement::{self, Statement, KIND_READ};

/// A call's way to its answer: `Err` is a refusal, met before anything lent was changed.
pub type Tried = Result<Answer, Answer>;

/// The label's row among the ledgers of a sound record.
fn find(lent: &Lent, label: &[u8; 16]) -> Option<usize> {
    lent.used().iter().position(|row| row.label == *label)
}

/// 1: "output area shorter than the number above" — a fixed number for each call, not the need (reading C1).
fn ask_area(lent: &Lent, number_above: usize) -> Result<(), Refusal> {
    if lent.area.len() < number_above {
        return Err(AREA_TOO_SHORT);
    }
    Ok(())
}

/// 2: "record not sound"
fn ask_sound(lent: &Lent) -> Result<(), Refusal> {
    if !is_sound(&lent.head, &lent.table) {
        return Err(NOT_SOUND);
    }
    Ok(())
}

/// The beginning of New, Append, Append many, Read and Append and read: "1, 2, 4".
fn ask_active(lent: &Lent, number_above: usize) -> Result<(), Refusal> {
    ask_area(lent, number_above)?;
    ask_sound(lent)?;
    if lent.head.status != ACTIVE {
        return Err(NOT_ACTIVE);
    }
    Ok(())
}

/// 6, then 38: the own rack of Initialise, the next one of Finalise.
fn take_rack(rules: &dyn Rules, bytes: &[u8]) -> Result<Rack, Refusal> {
    let rack = rack::read(bytes)?;
    if !rules.takes_rack_of(rack.count) {
        return Err(RACK_OF_TWO);
    }
    Ok(rack)
}

/// The new, append or read statement about a row of this keeper.
fn row_statement(head: &Head, kind: u8, row: &Row, nonce: &[u8; 16]) -> Vec<u8> {
    let nonce = if kind == KIND_READ { *nonce } else { [0; 16] };
    statement::bytes(&Statement {
        kind,
        identity: head.identity,
        own: head.own,
        label: row.label,
        tail: row.tail,
        height: row.height,
        nonce,
        ..Statement::ZERO
    })
}

/// "these are the first of the output area, and the rest of it stays"
fn put(lent: &mut Lent, bytes: &[u8]) -> Answer {
    lent.area[..bytes.len()].copy_from_slice(bytes);
    Answer::accepted(bytes.len())
}
