//! This file holds the desk's verdict: "Verdict (retained identity, rack, asked kind 1 to 3, label, nonce, statement, signers)".

use crate::call::AskVerdict;
use crate::marks::{good_positions, other_bits_are_zero, test_marks};
use crate::rack;
use crate::refusals::{Refusal, LIST_BROKEN, NO_MAJORITY, OTHER_NONCE, OTHER_STATEMENT, SIGNATURE_NOT_VALID};
use crate::rules::Rules;
use crate::statement::{self, Statement, KIND_NEW, KIND_READ};

/// The accepted statement, of which the desk shows tail and height.
pub fn verdict(rules: &dyn Rules, ask: &AskVerdict) -> Result<Statement, Refusal> {
    // "6, 22, 23, 24, 16, then for each signer 17, 18"
    let size = rack::read(&ask.rack)?.count;
    let marks = read_signers(rules, &ask.signers, size)?;
    let statement = statement_asked_for(ask)?;
    if rules.nonce_counts(ask.kind) && statement.nonce != ask.nonce {
        return Err(OTHER_NONCE);
    }
    if marks.len() < rules.majority(size) {
        return Err(NO_MAJORITY);
    }
    for mark in marks {
        test_marks(mark, SIGNATURE_NOT_VALID)?;
    }
    Ok(statement)
}

/// "Signers are pairs of position and marks, one byte each, at most n whole pairs,
/// positions strictly rising and below n, otherwise 22."
fn read_signers(rules: &dyn Rules, signers: &[u8], size: u8) -> Result<Vec<u8>, Refusal> {
    let positions: Vec<u8> = signers.iter().step_by(2).copied().collect();
    let marks: Vec<u8> = signers.iter().skip(1).step_by(2).copied().collect();
    let good = signers.len() % 2 == 0
        && positions.len() <= size as usize
        && good_positions(rules, &positions, size)
        && marks.iter().all(|mark| other_bits_are_zero(*mark));
    if !good {
        return Err(LIST_BROKEN);
    }
    Ok(marks)
}

/// 23: "statement is not the one asked for: length, layout, kind, identity, rack digest or label"
fn statement_asked_for(ask: &AskVerdict) -> Result<Statement, Refusal> {
    // "Asked kinds outside 1 to 3 are 23."
    if !(KIND_NEW..=KIND_READ).contains(&ask.kind) {
        return Err(OTHER_STATEMENT);
    }
    let statement = statement::read(&ask.statement)?;
    let same = statement.kind == ask.kind
        && statement.identity == ask.identity
        && statement.own == rack::digest(&ask.rack)
        && statement.label == ask.label;
    if !same {
        return Err(OTHER_STATEMENT);
    }
    Ok(statement)
}
