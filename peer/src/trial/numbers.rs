//! This file holds 01's numbers to try, all of them, each as calls with the answer that 01, or M-101, names.

use super::good;
use super::missing::{self, Carried};
use super::pairing::Pairing;
use super::prng::Prng;
use super::scene::{Scene, Sizes};
use crate::call::{AskVerdict, Call, Lent, Reply};
use crate::rack::Rack;
use crate::record::{ACTIVE, FINALISED};
use crate::refusals::Refusal;
use crate::row::{Row, TOP};
use crate::statement::{self, Statement, KIND_READ};

pub fn run(pairing: &mut Pairing, prng: &mut Prng) {
    hash_vectors(pairing);
    hash_bounds(pairing);
    known_answers(pairing, prng);
    majorities(pairing, prng);
    block_numbers(pairing, prng);
    rack_sizes(pairing, prng);
    blank_append(pairing, prng);
    existing_labels(pairing, prng);
    heights(pairing, prng);
    top_heights(pairing, prng);
    second_finalise(pairing, prng);
    three_signers(pairing, prng);
    roll_alone(pairing, prng);
    ledger_another_has(pairing, prng);
    ledger_no_other_has(pairing, prng);
    empty_handover(pairing, prng);
}

/// "Built: … a program that runs the published hash vectors": here the examples that fit in 65,536 bytes.
fn hash_vectors(pairing: &mut Pairing) {
    let vectors: [(&[u8], &str); 3] = [
        (b"", "e3b0c44298fc1c149afbf4c8996fb92427ae41e4649b934ca495991b7852b855"),
        (b"abc", "ba7816bf8f01cfea414140de5dae2223b00361a396177a9cb410ff61f20015ad"),
        (
            b"abcdbcdecdefdefgefghfghighijhijkijkljklmklmnlmnomnopnopq",
            "248d6a61d20638b8e5c026930c3e6039a33ce45964ff2167f6ecedd419db06c1",
        ),
    ];
    for (input, printed) in vectors {
        let reply = pairing.expect("hash", &mut good::only_area(0), &Call::Hash { input: input.to_vec() }, 0);
        let Reply::Hash(hash) = reply else { unreachable!() };
        pairing.ask(hex(&hash.digest) == printed, "the printed digest of a published example");
    }
}

fn hex(bytes: &[u8]) -> String {
    bytes.iter().map(|byte| format!("{byte:02x}")).collect()
}

/// The prefixes and orders of 01's four digests, against values worked out with Python's hashlib.
fn known_answers(pairing: &mut Pairing, prng: &mut Prng) {
    let own = good::rack_of(&[[0x11; 32]]);
    let mut lent = good::woken([0x11; 32], 129);
    let found = Call::Initialise { identity: [0; 32], roll: vec![], previous: vec![], own };
    pairing.expect("founding", &mut lent, &found, 0);
    let rack = "9b211f8aa0671381718e3177bf7786b8d26ab354d4ba108c970bb441abc2f246";
    pairing.ask(hex(&lent.head.own) == rack, "a known rack digest");
    let (mut lent, label) = one_row(prng, 0);
    pairing.expect("append", &mut lent, &Call::Append { label, entry: [0xaa; 32], expected: 1 }, 0);
    let tail = "92339e39ee6ae2edbd46c60e27dbbf51b7a8c14996500cf67bdcede705b0ba9b";
    pairing.ask(hex(&lent.table[0].tail) == tail, "a known tail");
    let row = Row { label: [1; 16], tail: [0x22; 32], height: 7 };
    let mut lent = good::lent(prng, ACTIVE, &[row], 3713);
    pairing.expect("finalise", &mut lent, &Call::Finalise { next: good::rack(prng, 3) }, 0);
    let roll = "f6049dd0121d470e296b116079228abf171dcb3e60483491166157748c4d4d51";
    pairing.ask(hex(&lent.area[97..129]) == roll, "a known roll digest");
    pairing.ask(lent.area[129..133] == [0, 1, 1, 0], "a known block header");
    pairing.ask(hex(&lent.area[637..641]) == "e44b644c", "a known block check");
}

/// "for inputs of 0 to 65,536 bytes; a longer one is refused with 25"
fn hash_bounds(pairing: &mut Pairing) {
    let mut lengths: Vec<usize> = (0..=200).collect();
    lengths.extend([65_535, 65_536, 65_537, 65_600, 131_072]);
    for length in lengths {
        let number = if length > 65_536 { 25 } else { 0 };
        let input: Vec<u8> = (0..length).map(|at| at as u8).collect();
        pairing.expect("hash", &mut good::only_area(0), &Call::Hash { input }, number);
    }
}

/// A receipt for a read under a rack of n, with the first `listed` keepers as good signers.
fn receipt(prng: &mut Prng, n: usize, listed: usize) -> AskVerdict {
    let rack = good::rack(prng, n);
    let (identity, nonce) = (prng.array(), prng.array());
    let label = good::label(prng);
    let row = good::row(prng, label);
    let statement = Statement {
        kind: KIND_READ,
        identity,
        own: good::digest(&rack),
        label: row.label,
        tail: row.tail,
        height: row.height,
        nonce,
        ..Statement::ZERO
    };
    let signers = (0..listed as u8).flat_map(|position| [position, 3]).collect();
    let statement = statement::bytes(&statement);
    AskVerdict { identity, rack, kind: KIND_READ, label: row.label, nonce, statement, signers }
}

/// "majorities of 1, 2, 3, 4, 15: 1, 2, 2, 3, 8", and those between.
fn majorities(pairing: &mut Pairing, prng: &mut Prng) {
    let majorities = [1, 2, 2, 3, 3, 4, 4, 5, 5, 6, 6, 7, 7, 8, 8];
    for (n, majority) in (1..=15).zip(majorities) {
        for listed in 0..=n {
            let number = if listed < majority { 16 } else { 0 };
            let call = Call::Verdict(receipt(prng, n, listed));
            pairing.expect("majority", &mut good::only_area(0), &call, number);
        }
    }
}

/// "blocks for 0, 9, 10, 63 rows: 1, 1, 2, 7"
fn block_numbers(pairing: &mut Pairing, prng: &mut Prng) {
    for (count, blocks) in [(0, 1), (9, 1), (10, 2), (63, 7)] {
        let roll = Box::new(good::roll(&good::rows(prng, count)));
        let reply = pairing.expect("blocks", &mut good::only_area(3584), &Call::WriteRoll { roll }, 0);
        pairing.ask(reply.written() == 512 * blocks, "the number of blocks");
    }
}

/// "a rack with n = 0 or 16: 6. A rack of 15 has 481 bytes."
fn rack_sizes(pairing: &mut Pairing, prng: &mut Prng) {
    for n in [0, 16] {
        let rack = good::rack(prng, n);
        pairing.expect("rack size", &mut good::only_area(0), &Call::ReadRack { bytes: rack.clone() }, 6);
        let rows = good::rows(prng, 2);
        let mut lent = good::lent(prng, ACTIVE, &rows, 3713);
        pairing.expect("rack size", &mut lent, &Call::Finalise { next: rack.clone() }, 6);
        let ask = AskVerdict { rack, ..receipt(prng, 3, 2) };
        pairing.expect("rack size", &mut good::only_area(0), &Call::Verdict(ask), 6);
        let written = Rack { count: n as u8, ..Rack::ZERO };
        pairing.expect("rack size", &mut good::only_area(600), &Call::WriteRack { rack: written }, 6);
    }
    let mut rack = Rack { count: 15, ..Rack::ZERO };
    rack.keys.copy_from_slice(&good::keys(prng, 15));
    let reply = pairing.expect("rack of 15", &mut good::only_area(481), &Call::WriteRack { rack }, 0);
    pairing.ask(reply.written() == 481, "a rack of 15 has 481 bytes");
    pairing.expect("rack of 15", &mut good::only_area(480), &Call::WriteRack { rack }, 1);
}

/// "append on a blank keeper: 4"
fn blank_append(pairing: &mut Pairing, prng: &mut Prng) {
    let call = Call::Append { label: good::label(prng), entry: prng.array(), expected: 1 };
    pairing.expect("append on a blank keeper", &mut good::woken(prng.array(), 121), &call, 4);
}

/// "new of an existing label: 9, also with 63 rows"
fn existing_labels(pairing: &mut Pairing, prng: &mut Prng) {
    for count in [1, 2, 62, 63] {
        let rows = good::rows(prng, count);
        let label = prng.pick(&rows).label;
        let mut lent = good::lent(prng, ACTIVE, &rows, 121);
        pairing.expect("new of an existing label", &mut lent, &Call::New { label }, 9);
    }
}

fn one_row(prng: &mut Prng, height: u64) -> (Lent, [u8; 16]) {
    let tail = if height == 0 { [0; 32] } else { prng.array() };
    let row = Row { label: good::label(prng), tail, height };
    (good::lent(prng, ACTIVE, &[row], 258), row.label)
}

/// "height 0, expected 2: 11 with 0; expected 1: accepted at height 1"
fn heights(pairing: &mut Pairing, prng: &mut Prng) {
    let (mut lent, label) = one_row(prng, 0);
    let entry = prng.array();
    let reply = pairing.expect("expected 2", &mut lent, &Call::Append { label, entry, expected: 2 }, 11);
    pairing.ask(reply.answer().height == 0, "11 with 0");
    pairing.expect("expected 1", &mut lent, &Call::Append { label, entry, expected: 1 }, 0);
    pairing.ask(lent.table[0].height == 1, "accepted at height 1");
    let reply = pairing.expect("expected 1 again", &mut lent, &Call::Append { label, entry, expected: 1 }, 11);
    pairing.ask(reply.answer().height == 1, "11 with 1");
}

/// "height 4,294,967,295: expected 4,294,967,296 gives 12, expected 5 gives 11"
fn top_heights(pairing: &mut Pairing, prng: &mut Prng) {
    for (expected, number) in [(TOP + 1, 12), (5, 11), (TOP, 11), (0, 11), (u64::MAX, 11)] {
        let (mut lent, label) = one_row(prng, TOP);
        let (entry, nonce) = (prng.array(), prng.array());
        let both = [Call::Append { label, entry, expected }, Call::AppendAndRead { label, entry, expected, nonce }];
        for call in both {
            let reply = pairing.expect("at the top", &mut lent, &call, number);
            let height = if number == 11 { TOP } else { 0 };
            pairing.ask(reply.answer().height == height, "the height is given with 11 only");
        }
    }
}

/// "second finalise naming another rack: the first statement again"
fn second_finalise(pairing: &mut Pairing, prng: &mut Prng) {
    for count in [0, 1, 10, 63] {
        let rows = good::rows(prng, count);
        let mut lent = good::lent(prng, ACTIVE, &rows, 3713);
        let first = pairing.expect("finalise", &mut lent, &Call::Finalise { next: good::rack(prng, 3) }, 0);
        let earlier = lent.clone();
        pairing.ask(!first.answer().repeat && lent.head.status == FINALISED, "the first is no repeat");
        for next in [good::rack(prng, 4), Vec::new(), vec![0], prng.bytes(70_000)] {
            lent.area = good::area(3713);
            let again = pairing.expect("second finalise", &mut lent, &Call::Finalise { next }, 0);
            pairing.ask(lent == earlier, "the first statement and roll again");
            pairing.ask(again.answer().repeat, "marked as a repeat");
        }
    }
}

/// "rack of 3, signer positions 1, 1: 22; one valid signer: 16; two: accepted"
fn three_signers(pairing: &mut Pairing, prng: &mut Prng) {
    for (signers, number) in [(vec![1, 3, 1, 3], 22), (vec![1, 3], 16), (vec![1, 3, 2, 3], 0)] {
        let ask = AskVerdict { signers, ..receipt(prng, 3, 0) };
        pairing.expect("rack of 3", &mut good::only_area(0), &Call::Verdict(ask), number);
    }
}

/// "roll without previous rack: 8"
fn roll_alone(pairing: &mut Pairing, prng: &mut Prng) {
    let keys = good::keys(prng, 3);
    let roll = crate::roll::in_blocks(&good::rows(prng, 2));
    let identity = prng.array();
    let call = Call::Initialise { identity, roll, previous: Vec::new(), own: good::rack_of(&keys) };
    pairing.expect("roll without previous rack", &mut good::woken(keys[1], 129), &call, 8);
}

/// Three ledgers of two entries; the second old roll lacks one of them, and the first stands to that one as named.
fn lacking_ledger(pairing: &mut Pairing, prng: &mut Prng, first: Option<usize>, number: Refusal) {
    for lacking in 0..3 {
        let mut rows = vec![Carried { steps: 2, seen: vec![Some(2), Some(1)] }; 3];
        let scene = missing::scene(prng, &rows);
        pairing.expect("a good handover", &mut scene.lent(0), &scene.activate(), 0);
        rows[lacking].seen = vec![first, None];
        let scene = missing::scene(prng, &rows);
        pairing.expect("an old roll lacking one", &mut scene.lent(0), &scene.activate(), number);
    }
}

/// "an old roll lacking one of our ledgers" is by M-101 "accepted when another old roll has it", and the rest holds.
fn ledger_another_has(pairing: &mut Pairing, prng: &mut Prng) {
    lacking_ledger(pairing, prng, Some(2), 0);
    lacking_ledger(pairing, prng, Some(1), 20);
}

/// "otherwise 20"
fn ledger_no_other_has(pairing: &mut Pairing, prng: &mut Prng) {
    lacking_ledger(pairing, prng, None, 20);
}

/// "An empty roll hands over to an empty roll."
fn empty_handover(pairing: &mut Pairing, prng: &mut Prng) {
    let scene = Scene::good(prng, Sizes { previous: 3, own: 3, old: 2, new: 2, rows: 0 }, 0);
    let mut lent = scene.lent(0);
    pairing.expect("an empty roll hands over", &mut lent, &scene.activate(), 0);
    pairing.ask(lent.head.status == ACTIVE && lent.head.count == 0, "active with an empty roll");
}
