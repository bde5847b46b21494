//! This file holds the trait of a party, anyone who answers 01's calls, and the peer, who answers by this library's rules.

use crate::call::{Answer, AskVerdict, Call, HashRead, Lent, RackRead, Reply, RollRead, StatementRead, Verdict};
use crate::calls::{self, Tried};
use crate::desk;
use crate::maker;
use crate::rack::{self, Rack};
use crate::refusals::Refusal;
use crate::report;
use crate::roll::{self, Roll};
use crate::rules::{Of01, Rules};
use crate::sha256;
use crate::statement::{self, Statement};
use crate::store;

/// One implementation of 01. It keeps nothing between calls.
pub trait Party {
    fn name(&self) -> String;
    fn perform(&self, lent: &mut Lent, call: &Call) -> Reply;
}

/// The party that answers by the rules of this library.
pub struct Peer;

impl Party for Peer {
    fn name(&self) -> String {
        "peer".to_string()
    }

    fn perform(&self, lent: &mut Lent, call: &Call) -> Reply {
        perform_by(&Of01, lent, call)
    }
}

/// Answers a call by these rules.
pub fn perform_by(rules: &dyn Rules, lent: &mut Lent, call: &Call) -> Reply {
    match call {
        Call::Hash { input } => hash(input),
        Call::ReadRack { bytes } => read_rack(bytes),
        Call::ReadRoll { bytes } => read_roll(bytes),
        Call::ReadStatement { bytes } => read_statement(bytes),
        Call::WriteRack { rack } => written(rack::write(rack, &mut lent.area)),
        Call::WriteRoll { roll } => written(roll::write(roll, &mut lent.area)),
        Call::WriteStatement { statement } => written(statement::write(statement, &mut lent.area)),
        Call::Wake { key } => tried(calls::wake(lent, key)),
        Call::Initialise { identity, roll, previous, own } => {
            tried(calls::initialise(rules, lent, identity, roll, previous, own))
        }
        Call::New { label } => tried(calls::new(rules.companies(), lent, label)),
        Call::Append { label, entry, expected } => tried(calls::append(lent, label, entry, *expected)),
        Call::Read { label, nonce } => tried(calls::read(lent, label, nonce)),
        Call::AppendAndRead { label, entry, expected, nonce } => {
            tried(calls::append_and_read(lent, label, entry, *expected, nonce))
        }
        Call::AppendMany { label, list, expected } => {
            tried(calls::append_many(rules.many(), lent, label, list, *expected))
        }
        Call::Finalise { next } => tried(calls::finalise(rules, lent, next)),
        Call::Activate(papers) => tried(calls::activate(rules, lent, papers)),
        Call::BytesToCheck { papers, list, entry } => tried(calls::bytes_to_check(rules, lent, papers, *list, *entry)),
        Call::Verdict(ask) => verdict(rules, ask),
        Call::StoreAppend { label, expected, text } => {
            tried(store::append(rules.store(), &mut lent.area, label, *expected, text))
        }
        Call::StoreRead { store, label, height } => {
            tried(store::read(rules.store(), store, label, *height, &mut lent.area))
        }
        Call::MakeBundle { given, roll_area } => {
            let (roll, bundle) = lent.area.split_at_mut(*roll_area);
            Reply::Made(maker::make_bundle(rules, given, roll, bundle))
        }
        Call::WriteRackBlock { rack } => written(report::write_rack_block(rack, &mut lent.area)),
        Call::WriteReceipt(receipt) => written(report::write_receipt(receipt, &mut lent.area)),
    }
}

fn tried(tried: Tried) -> Reply {
    Reply::Answer(tried.unwrap_or_else(|refusal| refusal))
}

fn written(written: Result<usize, Refusal>) -> Reply {
    tried(written.map(Answer::accepted).map_err(Answer::from))
}

fn hash(input: &[u8]) -> Reply {
    let (number, digest) = apart(sha256::sha256(input), [0; 32]);
    Reply::Hash(HashRead { number, digest })
}

fn read_rack(bytes: &[u8]) -> Reply {
    let (number, rack) = apart(rack::read(bytes), Rack::ZERO);
    Reply::Rack(Box::new(RackRead { number, rack }))
}

fn read_roll(bytes: &[u8]) -> Reply {
    let (number, roll) = apart(roll::read(bytes), Roll::EMPTY);
    Reply::Roll(Box::new(RollRead { number, roll }))
}

fn read_statement(bytes: &[u8]) -> Reply {
    let (number, statement) = apart(statement::read(bytes), Statement::ZERO);
    Reply::Statement(Box::new(StatementRead { number, statement }))
}

/// "Gives tail and height."
fn verdict(rules: &dyn Rules, ask: &AskVerdict) -> Reply {
    let (number, statement) = apart(desk::verdict(rules, ask), Statement::ZERO);
    Reply::Verdict(Verdict { number, tail: statement.tail, height: statement.height })
}

/// What was tried as its number and contents, the latter zero in a refusal.
fn apart<T>(tried: Result<T, Refusal>, zero: T) -> (Refusal, T) {
    match tried {
        Ok(contents) => (0, contents),
        Err(number) => (number, zero),
    }
}
