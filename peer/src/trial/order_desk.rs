//! This file holds the refusals of the verdict, in 01's order, with the inputs that meet them.

use super::good;
use super::order::{Case, Damages, Plan};
use super::order_calls::{case, some_statement, spoil_rack, RACK_DAMAGES};
use super::prng::Prng;
use crate::call::{AskVerdict, Call};
use crate::row::TOP;
use crate::statement::{self, Statement, KIND_APPEND, KIND_NEW, KIND_READ};

const SIGNERS: &[&str] =
    &["22 odd", "22 too many", "22 same position", "22 falling", "22 position n", "22 marks 4", "22 marks 128"];
const OTHER_STATEMENTS: &[&str] = &[
    "23 asked 0",
    "23 asked 4",
    "23 asked 5",
    "23 asked 255",
    "23 asked another",
    "23 length",
    "23 layout",
    "23 kind",
    "23 identity",
    "23 rack digest",
    "23 label",
    "23 label zero",
];
const VERDICT: &[&[&str]] = &[
    RACK_DAMAGES,
    SIGNERS,
    OTHER_STATEMENTS,
    &["24 first", "24 last"],
    &["16"],
    &["17 signer 0", "17 signer 0 valid"],
    &["18 signer 0"],
    &["17 signer 1"],
    &["18 signer 1"],
];

pub fn plans() -> Vec<Plan> {
    // "The nonce counts for kind 3 only": with the others there is no 24.
    const NO_24: &[(&str, &str)] = &[("24*", "24*")];
    vec![
        Plan { name: "Verdict of a new", steps: VERDICT, apart: NO_24, build: verdict_of_new },
        Plan { name: "Verdict of an append", steps: VERDICT, apart: NO_24, build: verdict_of_append },
        Plan { name: "Verdict of a read", steps: VERDICT, apart: &[], build: verdict_of_read },
    ]
}

fn verdict_of_new(prng: &mut Prng, damages: &Damages) -> Case {
    verdict(prng, damages, KIND_NEW)
}

fn verdict_of_append(prng: &mut Prng, damages: &Damages) -> Case {
    verdict(prng, damages, KIND_APPEND)
}

fn verdict_of_read(prng: &mut Prng, damages: &Damages) -> Case {
    verdict(prng, damages, KIND_READ)
}

/// A receipt under a rack of five with three signers, damaged part by part.
fn verdict(prng: &mut Prng, damages: &Damages, kind: u8) -> Case {
    let mut rack = good::rack(prng, 5);
    let mut statement = Statement { own: good::digest(&rack), ..some_statement(prng, kind) };
    let mut ask = AskVerdict {
        identity: statement.identity,
        rack: Vec::new(),
        kind,
        label: statement.label,
        // "The nonce counts for kind 3 only."
        nonce: if kind == KIND_READ { statement.nonce } else { prng.array() },
        statement: Vec::new(),
        signers: signers(damages),
    };
    spoil_asked(damages, &mut ask, &mut statement);
    ask.statement = statement::bytes(&statement);
    spoil_bytes(damages, &mut ask.statement);
    spoil_rack(damages, "6 ", &mut rack);
    ask.rack = rack;
    case(good::only_area(0), Call::Verdict(ask))
}

/// What is asked or stated otherwise: 23 and 24.
fn spoil_asked(damages: &Damages, ask: &mut AskVerdict, statement: &mut Statement) {
    for name in damages.0 {
        match *name {
            "23 asked 0" => ask.kind = 0,
            "23 asked 4" => ask.kind = 4,
            "23 asked 5" => ask.kind = 5,
            "23 asked 255" => ask.kind = 255,
            "23 asked another" => ask.kind = ask.kind % 3 + 1,
            "23 identity" => ask.identity[31] ^= 1,
            "23 rack digest" => statement.own[0] ^= 128,
            "23 label" => ask.label[0] ^= 1,
            "23 label zero" => (ask.label, statement.label) = ([0; 16], [0; 16]),
            "23 layout" => statement.height = TOP + 1,
            "24 first" => ask.nonce[0] ^= 1,
            "24 last" => ask.nonce[15] ^= 128,
            _ => {}
        }
    }
}

fn spoil_bytes(damages: &Damages, bytes: &mut Vec<u8>) {
    if damages.has("23 length") {
        bytes.push(0);
    }
    if damages.has("23 kind") {
        bytes[0] = 4;
    }
}

fn signers(damages: &Damages) -> Vec<u8> {
    let mut pairs: Vec<[u8; 2]> = vec![[0, 3], [2, 3], [4, 3]];
    for name in damages.0 {
        match *name {
            "16" => pairs.truncate(2),
            "17 signer 0" => pairs[0][1] &= !1,
            "17 signer 0 valid" => pairs[0][1] &= !1,
            "18 signer 0" => pairs[0][1] &= !2,
            "17 signer 1" => pairs[1][1] &= !1,
            "18 signer 1" => pairs[1][1] &= !2,
            _ => {}
        }
    }
    if damages.has("17 signer 0 valid") {
        pairs[0][1] |= 2;
    }
    spoil_signers(damages, pairs)
}

/// 22: the ways in which a signer list breaks the layout.
fn spoil_signers(damages: &Damages, mut pairs: Vec<[u8; 2]>) -> Vec<u8> {
    let last = pairs.len() - 1;
    for name in damages.0 {
        match *name {
            "22 too many" => pairs = (0..6).map(|position| [position, 3]).collect(),
            "22 same position" => pairs[1][0] = pairs[0][0],
            "22 falling" => pairs.swap(0, 1),
            "22 position n" => pairs[last][0] = 5,
            "22 marks 4" => pairs[last][1] |= 4,
            "22 marks 128" => pairs[0][1] |= 128,
            _ => {}
        }
    }
    let mut list = pairs.concat();
    if damages.has("22 odd") {
        list.pop();
    }
    list
}
