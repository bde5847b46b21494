//! This file holds the statement: the five kinds, how they are read and how they are written.

use crate::refusals::{Refusal, AREA_TOO_SHORT, OTHER_STATEMENT};
use crate::row::good_height;

pub const KIND_NEW: u8 = 1;
pub const KIND_APPEND: u8 = 2;
pub const KIND_READ: u8 = 3;
pub const KIND_FINALISE: u8 = 4;
pub const KIND_INITIALISE: u8 = 5;

/// "A parsed statement is one record whose last part depends on its kind."
/// Here every part has its place; the places that the kind hasn't are zero.
#[repr(C)]
#[derive(Clone, Copy, PartialEq, Eq, Debug)]
pub struct Statement {
    pub kind: u8,
    pub identity: [u8; 32],
    pub own: [u8; 32],
    /// The next rack's digest in finalise, the previous one's in initialise.
    pub other: [u8; 32],
    pub roll: [u8; 32],
    pub label: [u8; 16],
    pub tail: [u8; 32],
    pub nonce: [u8; 16],
    pub height: u64,
}

impl Statement {
    pub const ZERO: Statement = Statement {
        kind: 0,
        identity: [0; 32],
        own: [0; 32],
        other: [0; 32],
        roll: [0; 32],
        label: [0; 16],
        tail: [0; 32],
        nonce: [0; 16],
        height: 0,
    };
}

/// "121 bytes" for kinds 1 and 2, "137 bytes" for 3, "129 bytes" for 4 and 5; other kinds there are none.
pub fn length(kind: u8) -> Option<usize> {
    match kind {
        KIND_NEW | KIND_APPEND => Some(121),
        KIND_READ => Some(137),
        KIND_FINALISE | KIND_INITIALISE => Some(129),
        _ => None,
    }
}

/// Reading a statement "refuses with … 23, exactly when the layout is broken".
pub fn read(bytes: &[u8]) -> Result<Statement, Refusal> {
    let Some(&kind) = bytes.first() else {
        return Err(OTHER_STATEMENT);
    };
    if length(kind) != Some(bytes.len()) {
        return Err(OTHER_STATEMENT);
    }
    let statement = taken_apart(kind, &bytes[1..]);
    if !good_ledger_part(&statement) {
        return Err(OTHER_STATEMENT);
    }
    Ok(statement)
}

/// "kind, identity 32, then by kind", for a string of the kind's length.
fn taken_apart(kind: u8, mut rest: &[u8]) -> Statement {
    let mut statement = Statement { kind, ..Statement::ZERO };
    take(&mut rest, &mut statement.identity);
    match kind {
        // "4 finalise: own rack digest, next rack digest, roll digest."
        KIND_FINALISE => {
            take(&mut rest, &mut statement.own);
            take(&mut rest, &mut statement.other);
            take(&mut rest, &mut statement.roll);
        }
        // "5 initialise: previous rack digest (zeros when founding), own rack digest, roll digest."
        KIND_INITIALISE => {
            take(&mut rest, &mut statement.other);
            take(&mut rest, &mut statement.own);
            take(&mut rest, &mut statement.roll);
        }
        // "1 new, 2 append: own rack digest, label, tail, height."
        _ => {
            take(&mut rest, &mut statement.own);
            take(&mut rest, &mut statement.label);
            take(&mut rest, &mut statement.tail);
            let mut height = [0; 8];
            take(&mut rest, &mut height);
            statement.height = u64::from_be_bytes(height);
            // "3 read: the same and a nonce of 16 bytes."
            if kind == KIND_READ {
                take(&mut rest, &mut statement.nonce);
            }
        }
    }
    statement
}

fn take(rest: &mut &[u8], part: &mut [u8]) {
    let (taken, after) = rest.split_at(part.len());
    part.copy_from_slice(taken);
    *rest = after;
}

/// "Labels in statements are not all zero, heights as in a row."
fn good_ledger_part(statement: &Statement) -> bool {
    let good = statement.label != [0; 16] && good_height(&statement.tail, statement.height);
    match statement.kind {
        // "Kind 1 has height 0 and zero tail"
        KIND_NEW => good && statement.height == 0,
        // "kind 2 has height at least 1"
        KIND_APPEND => good && statement.height >= 1,
        // "Height 0 has zero tail."
        KIND_READ => good,
        _ => true,
    }
}

/// "writing one refuses with that number for contents no reading gives, then with 1 for an area too short"
pub fn write(statement: &Statement, area: &mut [u8]) -> Result<usize, Refusal> {
    let Some(length) = length(statement.kind) else {
        return Err(OTHER_STATEMENT);
    };
    if !good_ledger_part(statement) || !unused_places_are_zero(statement) {
        return Err(OTHER_STATEMENT);
    }
    if area.len() < length {
        return Err(AREA_TOO_SHORT);
    }
    area[..length].copy_from_slice(&bytes(statement));
    Ok(length)
}

/// A reading leaves zero what the kind hasn't (reading A5), so anything else is contents no reading gives.
fn unused_places_are_zero(statement: &Statement) -> bool {
    let mut rest = Statement { kind: 0, identity: [0; 32], own: [0; 32], ..*statement };
    match statement.kind {
        KIND_FINALISE | KIND_INITIALISE => rest = Statement { other: [0; 32], roll: [0; 32], ..rest },
        _ => rest = Statement { label: [0; 16], tail: [0; 32], height: 0, ..rest },
    }
    if statement.kind == KIND_READ {
        rest.nonce = [0; 16];
    }
    rest == Statement::ZERO
}

/// The bytes of a statement of kind 1 to 5.
pub fn bytes(statement: &Statement) -> Vec<u8> {
    let s = statement;
    let head: [&[u8]; 2] = [&[s.kind], &s.identity];
    let height = s.height.to_be_bytes();
    let parts: Vec<&[u8]> = match s.kind {
        KIND_FINALISE => vec![&s.own, &s.other, &s.roll],
        KIND_INITIALISE => vec![&s.other, &s.own, &s.roll],
        KIND_READ => vec![&s.own, &s.label, &s.tail, &height, &s.nonce],
        _ => vec![&s.own, &s.label, &s.tail, &height],
    };
    [head.concat(), parts.concat()].concat()
}
