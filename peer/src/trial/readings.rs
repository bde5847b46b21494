//! This file holds, for each reading of a doubtful sentence of 01 or 02, the input that tells the readings apart, with the answer taken.

use super::companies;
use super::good;
use super::missing::{self, Carried};
use super::pairing::Pairing;
use super::prng::Prng;
use super::scene::{Scene, Sizes};
use crate::call::{AskVerdict, Call, Lent};
use crate::rack::{Rack, MOST_KEYS};
use crate::record::{ACTIVE, BLANK, FINALISED, PREPARED};
use crate::refusals::Refusal;
use crate::roll::{self, in_blocks};
use crate::row::{appended, Row, TOP};
use crate::sha256::digest_of;
use crate::statement::{self, Statement, KIND_APPEND, KIND_FINALISE, KIND_INITIALISE, KIND_READ};

pub fn run(pairing: &mut Pairing, prng: &mut Prng) {
    layouts(pairing, prng);
    lengths(pairing, prng);
    row_rules(pairing, prng);
    records(pairing, prng);
    areas(pairing, prng);
    initialise(pairing, prng);
    founding(pairing, prng);
    ledgers(pairing, prng);
    repeats(pairing, prng);
    bundles(pairing, prng);
    handovers(pairing, prng);
    missing_rows(pairing, prng);
    verdicts(pairing, prng);
    rack_sizes(pairing, prng);
    racks_of_two(pairing, prng);
    two_stay_valid(pairing, prng);
    two_companies(pairing, prng);
}

fn row(prng: &mut Prng, height: u64) -> Row {
    let tail = if height == 0 { [0; 32] } else { prng.array() };
    Row { label: good::label(prng), tail, height }
}

/// A2 to A10.
fn layouts(pairing: &mut Pairing, prng: &mut Prng) {
    let lent = &mut good::only_area(600);
    let read_rack = |bytes: Vec<u8>| Call::ReadRack { bytes };
    pairing.expect("A2", lent, &read_rack([vec![1], vec![0; 32]].concat()), 0);
    let zero_tail = Row { tail: [0; 32], ..row(prng, 1) };
    pairing.expect("A3", lent, &Call::ReadRoll { bytes: in_blocks(&[zero_tail]) }, 0);
    for kind in [KIND_FINALISE, KIND_INITIALISE] {
        pairing.expect("A4", lent, &Call::ReadStatement { bytes: [vec![kind], vec![0; 128]].concat() }, 0);
    }
    let mut two = Rack { count: 1, ..Rack::ZERO };
    two.keys[..2].copy_from_slice(&good::keys(prng, 2));
    pairing.expect("A5", lent, &Call::WriteRack { rack: two }, 6);
    two.keys[1] = [0; 32];
    pairing.expect("A6", &mut good::only_area(33), &Call::WriteRack { rack: two }, 0);
    pairing.expect("A6", &mut good::only_area(32), &Call::WriteRack { rack: two }, 1);
    pairing.expect("A7", &mut good::only_area(0), &Call::WriteRack { rack: Rack::ZERO }, 6);
    pairing.expect("A9", lent, &Call::ReadRoll { bytes: Vec::new() }, 15);
    let mut roll = in_blocks(&good::rows(prng, 10));
    pairing.expect("A10", lent, &Call::ReadRoll { bytes: roll.clone() }, 0);
    roll[512 + 2] = 11;
    good::check_again(&mut roll);
    pairing.expect("A10", lent, &Call::ReadRoll { bytes: roll }, 15);
}

/// A11 and arguments far longer than any layout.
fn lengths(pairing: &mut Pairing, prng: &mut Prng) {
    let lent = &mut good::only_area(0);
    let about = |kind, length: usize| {
        let s = Statement { kind, label: [1; 16], height: 1, ..Statement::ZERO };
        let mut bytes = statement::bytes(&s);
        bytes.resize(length, 0);
        Call::ReadStatement { bytes }
    };
    pairing.expect("A11", lent, &about(KIND_READ, 121), 23);
    pairing.expect("A11", lent, &about(KIND_APPEND, 137), 23);
    pairing.expect("A3", lent, &about(KIND_APPEND, 121), 0);
    for length in [4_097, 65_537, 1_000_000] {
        let bytes = [vec![1], vec![1; length]].concat();
        pairing.expect("long", lent, &Call::ReadRack { bytes: bytes.clone() }, 6);
        pairing.expect("long", lent, &Call::ReadRoll { bytes: bytes.clone() }, 15);
        pairing.expect("long", lent, &Call::ReadStatement { bytes: bytes.clone() }, 23);
        let rows = good::rows(prng, 2);
        let mut active = good::lent(prng, ACTIVE, &rows, 3713);
        pairing.expect("long", &mut active, &Call::Finalise { next: bytes.clone() }, 6);
        let keys = good::keys(prng, 3);
        let (previous, own) = (good::rack_of(&keys), good::rack_of(&keys));
        let call = Call::Initialise { identity: [0; 32], roll: bytes, previous, own };
        pairing.expect("long", &mut good::woken(keys[0], 129), &call, 15);
    }
}

/// "Height 0 has the all-zero tail", "Kind 1 has height 0 and zero tail; kind 2 has height at least 1", heights to the top.
fn row_rules(pairing: &mut Pairing, prng: &mut Prng) {
    let lent = &mut good::only_area(0);
    let bounds = [(0, 0), (0, 1), (1, 0), (1, 1), (TOP, 1), (TOP + 1, 1), (u64::MAX, 1)];
    for (height, tail) in bounds.map(|(height, tail)| (height, [tail; 32])) {
        let good_row = height <= TOP && (height > 0 || tail == [0; 32]);
        let label = good::label(prng);
        let number = if good_row { 0 } else { 15 };
        pairing.expect("a row", lent, &Call::ReadRoll { bytes: in_blocks(&[Row { label, tail, height }]) }, number);
        for (kind, good_kind) in [(1, height == 0), (2, height >= 1), (3, true)] {
            let number = if good_row && good_kind { 0 } else { 23 };
            let stated = Statement { kind, label, tail, height, ..Statement::ZERO };
            pairing.expect("a statement", lent, &Call::WriteStatement { statement: stated }, number.max(1));
            pairing.expect("a statement", lent, &Call::ReadStatement { bytes: statement::bytes(&stated) }, number);
        }
    }
    let row = row(prng, 1);
    for rows in [vec![Row { label: [0; 16], ..row }], vec![row, row], vec![Row { label: [0xff; 16], ..row }, row]] {
        pairing.expect("labels", lent, &Call::ReadRoll { bytes: in_blocks(&rows) }, 15);
    }
}

/// B1 to B6.
fn records(pairing: &mut Pairing, prng: &mut Prng) {
    let keys = good::keys(prng, 3);
    let found = Call::Initialise { identity: [0; 32], roll: vec![], previous: vec![], own: good::rack_of(&keys) };
    let mut blank = good::lent(prng, BLANK, &[], 129);
    blank.head.key = keys[0];
    pairing.expect("B1", &mut blank.clone(), &found, 0);
    blank.table[62].tail[31] = 1;
    pairing.expect("B2", &mut blank, &found, 2);
    let rows = good::rows(prng, 3);
    let mut blank_with_rows = good::lent(prng, BLANK, &rows, 129);
    blank_with_rows.head.key = keys[0];
    pairing.expect("B2", &mut blank_with_rows, &found, 2);
    let call = Call::Read { label: rows[0].label, nonce: [0; 16] };
    for (count, number) in [(3, 0), (2, 2), (4, 2)] {
        let mut lent = good::lent(prng, ACTIVE, &rows, 137);
        lent.head.count = count;
        pairing.expect("B2", &mut lent, &call, number);
    }
    let mut dirty = good::lent(prng, 200, &rows, 0);
    dirty.head.count = 99;
    dirty.table[0].label = [0; 16];
    pairing.expect("B4", &mut dirty, &Call::Wake { key: [1; 32] }, 0);
    for length in [0, 62, 64] {
        let mut lent = good::lent(prng, ACTIVE, &[], 137);
        lent.table.resize(length, Row::ZERO);
        pairing.expect("B5", &mut lent, &Call::Wake { key: [1; 32] }, 2);
        pairing.expect("B5", &mut lent, &call, 2);
    }
    for height in [1 << 32, u64::MAX] {
        let high = row(prng, height);
        let call = Call::Append { label: high.label, entry: [0; 32], expected: height.wrapping_add(1) };
        pairing.expect("B6", &mut good::lent(prng, ACTIVE, &[high], 121), &call, 2);
    }
}

/// C1 to C3.
fn areas(pairing: &mut Pairing, prng: &mut Prng) {
    let call = Call::Finalise { next: good::rack(prng, 3) };
    pairing.expect("C1", &mut good::lent(prng, ACTIVE, &[], 3712), &call, 1);
    let mut lent = good::lent(prng, ACTIVE, &[], 3713);
    let reply = pairing.expect("C1", &mut lent, &call, 0);
    pairing.ask(reply.written() == 641, "C2: an empty roll gives 641 bytes");
    lent.area = good::area(3712);
    pairing.expect("C1", &mut lent, &call, 1);
    lent.head.status = 4;
    pairing.expect("C3", &mut lent, &call, 1);
}

/// C4 to C6.
fn initialise(pairing: &mut Pairing, prng: &mut Prng) {
    let keys = good::keys(prng, 3);
    let own = good::rack_of(&keys);
    let roll = in_blocks(&good::rows(prng, 2));
    let cases: [(&str, [u8; 32], &[u8], &[u8], Refusal); 6] = [
        ("C4", keys[0], &[], &[0], 8),
        ("C4", keys[0], &[1], &[], 8),
        ("C4", keys[0], &[1], &[0], 6),
        ("C4", keys[0], &[1], &own, 15),
        ("C5", [0; 32], &roll, &[], 7),
        ("C6", keys[0], &roll, &own, 0),
    ];
    for (name, key, roll, previous, number) in cases {
        let (roll, previous) = (roll.to_vec(), previous.to_vec());
        let call = Call::Initialise { identity: good::digest(&own), roll, previous, own: own.clone() };
        pairing.expect(name, &mut good::woken(key, 129), &call, number);
    }
    let mut lent = good::lent(prng, ACTIVE, &[], 3713);
    lent.head.own = good::digest(&own);
    pairing.expect("C6", &mut lent, &Call::Finalise { next: own }, 0);
}

/// C7.
fn founding(pairing: &mut Pairing, prng: &mut Prng) {
    let keys = good::keys(prng, 3);
    let own = good::rack_of(&keys);
    let mut lent = good::woken(keys[2], 129);
    let call = Call::Initialise { identity: prng.array(), roll: vec![], previous: vec![], own: own.clone() };
    pairing.expect("C7", &mut lent, &call, 0);
    let digest = digest_of(&[&[3], &own]);
    let stated = [&[5][..], &digest, &[0; 32], &digest, &digest_of(&[&[2, 0]])].concat();
    pairing.ask(lent.area == stated, "C7: the founding statement");
    pairing.ask(lent.head.status == ACTIVE && lent.head.identity == digest, "C7: active at once");
}

/// C8, C10, C11.
fn ledgers(pairing: &mut Pairing, prng: &mut Prng) {
    let rows = [row(prng, 4)];
    let (label, entry, nonce) = (rows[0].label, prng.array(), prng.array());
    let mut lent = good::lent(prng, ACTIVE, &rows, 258);
    let zero = [0; 16];
    pairing.expect("C8", &mut lent, &Call::New { label: zero }, 14);
    pairing.expect("C8", &mut lent, &Call::Append { label: zero, entry, expected: 1 }, 10);
    pairing.expect("C8", &mut lent, &Call::Read { label: zero, nonce }, 10);
    let reply = pairing.expect("C10", &mut lent, &Call::Append { label, entry, expected: 5 }, 0);
    pairing.ask(reply.answer().height == 0 && reply.written() == 121, "C10: no height on acceptance");
    let call = Call::AppendAndRead { label, entry, expected: 6, nonce };
    pairing.expect("C11", &mut Lent { area: good::area(257), ..lent.clone() }, &call, 1);
    let reply = pairing.expect("C11", &mut lent, &call, 0);
    pairing.ask(reply.written() == 258, "C11: 258 bytes");
    pairing.ask(lent.area[1..121] == lent.area[122..242], "C11: the read shows the new tail and height");
    let tail = appended(&appended(&rows[0].tail, &entry), &entry);
    pairing.ask(lent.table[0].tail == tail && lent.area[81..113] == tail, "C11: the tail of both appends");
    pairing.ask(lent.area[242..] == nonce, "C11: the nonce ends the read");
}

/// C12.
fn repeats(pairing: &mut Pairing, prng: &mut Prng) {
    let rows = good::rows(prng, 3);
    let mut lent = good::lent(prng, FINALISED, &rows, 3713);
    lent.head.next = [0; 32];
    let reply = pairing.expect("C12", &mut lent, &Call::Finalise { next: Vec::new() }, 0);
    pairing.ask(reply.answer().repeat && reply.written() == 641, "C12: a repeat with the bytes again");
    let stated = [&[4][..], &lent.head.identity, &lent.head.own, &[0; 32], &roll::digest(&rows)].concat();
    pairing.ask(lent.area[..129] == stated, "C12: worked out from the record");
}

const SMALL: Sizes = Sizes { previous: 3, own: 3, old: 2, new: 2, rows: 1 };

/// Changes a good scene in one way and expects Activate's answer.
fn activate(pairing: &mut Pairing, prng: &mut Prng, name: &str, number: Refusal, change: fn(&mut Scene)) {
    let mut scene = Scene::good(prng, SMALL, 1);
    change(&mut scene);
    pairing.expect(name, &mut scene.lent(129), &scene.activate(), number);
}

fn break_first_roll(scene: &mut Scene) {
    let mut blocks = in_blocks(&scene.old[0].rows);
    blocks[511] ^= 1;
    scene.old[0].blocks = Some(blocks);
}

/// C13 to C15, C17, C18, C20 to C22 in bundles.
fn bundles(pairing: &mut Pairing, prng: &mut Prng) {
    activate(pairing, prng, "C13", 6, |s| {
        s.head.previous[0] ^= 1;
        s.own.push(0);
    });
    activate(pairing, prng, "C14", 22, |s| {
        break_first_roll(s);
        s.after = vec![0];
    });
    activate(pairing, prng, "C14", 15, break_first_roll);
    activate(pairing, prng, "C15", 15, |s| {
        let blocks = in_blocks(&s.old[0].rows);
        s.old[0].blocks = Some([blocks.clone(), blocks].concat());
    });
    activate(pairing, prng, "C17", 22, |s| (s.old[0].marks, s.old[1].marks) = (0, 7));
    activate(pairing, prng, "C18", 16, |s| s.old.clear());
    activate(pairing, prng, "C18", 16, |s| s.new.clear());
    activate(pairing, prng, "C20", 19, |s| s.new.push((2, 1)));
    activate(pairing, prng, "C21", 18, |s| (s.old[0].marks, s.old[1].marks) = (1, 2));
    activate(pairing, prng, "C21", 17, |s| (s.old[0].marks, s.old[1].marks) = (2, 1));
    activate(pairing, prng, "C21", 18, |s| (s.old[1].marks, s.new[0].1) = (1, 0));
    activate(pairing, prng, "C21", 19, |s| (s.new[0].1, s.new[1].1) = (1, 0));
    activate(pairing, prng, "C22", 17, |s| s.new[1].1 = 2);
    activate(pairing, prng, "C23", 16, |s| (s.old[0].marks, s.new[0].1, _) = (0, 0, s.new.pop()));
}

/// C25 to C28.
fn handovers(pairing: &mut Pairing, prng: &mut Prng) {
    let mut scene = Scene::good(prng, Sizes { previous: 1, old: 1, ..SMALL }, 0);
    pairing.expect("C25", &mut scene.lent(0), &scene.activate(), 0);
    let old = row(prng, 1);
    let digest = prng.array();
    scene.old[0].rows = vec![old];
    scene.old[0].added = vec![vec![digest]];
    scene.rows = vec![Row { tail: appended(&old.tail, &digest), height: 2, ..old }];
    pairing.expect("C25", &mut scene.lent(0), &scene.activate(), 20);
    let scene = Scene::good(prng, SMALL, 1);
    for (list, entry) in [(0, 2), (1, 2), (2, 0), (255, 0), (0, 1 << 32), (1, u64::MAX)] {
        let mut broken = scene.clone();
        break_first_roll(&mut broken);
        pairing.expect("C27", &mut scene.lent(129), &scene.bytes_to_check(list, entry), 22);
        pairing.expect("C26", &mut scene.lent(129), &broken.bytes_to_check(list, entry), 15);
    }
    let head = scene.head;
    let old = [&[4][..], &head.identity, &head.previous, &head.own, &roll::digest(&scene.old[1].rows)].concat();
    let new = [&[5][..], &head.identity, &head.previous, &head.own, &roll::digest(&scene.rows)].concat();
    for (list, stated) in [(0, old), (1, new)] {
        let mut lent = scene.lent(129);
        pairing.expect("C28", &mut lent, &scene.bytes_to_check(list, 1), 0);
        pairing.ask(lent.area == stated, "C28: the statement of an entry's marks");
    }
}

/// E1 to E5: a row of so many digests, how many of them each old roll has seen, if it has the row, and the answer.
fn missing_rows(pairing: &mut Pairing, prng: &mut Prng) {
    let cases: [(&str, usize, &[Option<usize>], Refusal); 9] = [
        ("E2", 1, &[Some(0), None], 20),
        ("E2", 1, &[Some(1), None], 0),
        ("E3", 0, &[None, Some(0)], 0),
        ("E3", 2, &[None, Some(2)], 0),
        ("E4", 0, &[None, None], 20),
        ("E4", 1, &[None, None], 20),
        ("E5", 0, &[None], 20),
        ("E5", 1, &[None], 20),
        ("E5", 1, &[Some(1)], 0),
    ];
    for (name, steps, seen, number) in cases {
        let scene = missing::scene(prng, &[Carried { steps, seen: seen.to_vec() }]);
        pairing.expect(name, &mut scene.lent(0), &scene.activate(), number);
    }
    let good = missing::scene(prng, &[Carried { steps: 1, seen: vec![Some(1), None] }]);
    let mut more = good.clone();
    more.old[1].rows = vec![Row { label: [0xfe; 16], ..Row::ZERO }];
    pairing.expect("E1", &mut more.lent(0), &more.activate(), 20);
    let mut other = good.clone();
    other.old[1].added[0][0][0] ^= 1;
    pairing.expect("E3", &mut other.lent(0), &other.activate(), 20);
    let mut uncounted = good.clone();
    uncounted.old[1].added.clear();
    pairing.expect("E3", &mut uncounted.lent(0), &uncounted.activate(), 22);
}

/// C8, C20, C21, C29 to C31 at the desk.
fn verdicts(pairing: &mut Pairing, prng: &mut Prng) {
    let rack = good::rack(prng, 3);
    let stated = Statement {
        kind: KIND_READ,
        identity: prng.array(),
        own: good::digest(&rack),
        label: good::label(prng),
        tail: prng.array(),
        height: 9,
        nonce: prng.array(),
        ..Statement::ZERO
    };
    let ask = |kind: u8, stated: Statement, nonce: [u8; 16], signers: &[u8]| {
        let (identity, label) = (stated.identity, stated.label);
        let (statement, signers) = (statement::bytes(&stated), signers.to_vec());
        Call::Verdict(AskVerdict { identity, rack: rack.clone(), kind, label, nonce, statement, signers })
    };
    let (all, other) = ([0, 3, 1, 3, 2, 3], [7; 16]);
    let append = Statement { kind: KIND_APPEND, nonce: [0; 16], ..stated };
    let lent = &mut good::only_area(0);
    pairing.expect("C8", lent, &ask(3, Statement { label: [0; 16], ..stated }, stated.nonce, &all), 23);
    pairing.expect("C20", lent, &ask(3, stated, stated.nonce, &[0, 3, 1, 3, 2, 1]), 18);
    pairing.expect("C21", lent, &ask(3, stated, stated.nonce, &[0, 1, 1, 2]), 18);
    pairing.expect("C22", lent, &ask(3, stated, stated.nonce, &[0, 2, 1, 1]), 17);
    pairing.expect("C29", lent, &ask(3, stated, stated.nonce, &[]), 16);
    pairing.expect("C29", lent, &ask(4, stated, stated.nonce, &[0, 3, 1]), 22);
    pairing.expect("C30", lent, &ask(4, Statement { kind: KIND_FINALISE, ..stated }, stated.nonce, &all), 23);
    pairing.expect("C31", lent, &ask(3, stated, other, &[]), 24);
    pairing.expect("C31", lent, &ask(2, append, other, &all), 0);
}

/// M-107: of all sizes 38 is for two alone, in Initialise, founding or not, and in Finalise.
fn rack_sizes(pairing: &mut Pairing, prng: &mut Prng) {
    for n in 1..=MOST_KEYS {
        let number = if n == 2 { 38 } else { 0 };
        let keys = good::keys(prng, n);
        let own = good::rack_of(&keys);
        for (roll, previous) in [(Vec::new(), Vec::new()), (in_blocks(&[]), good::rack(prng, 3))] {
            let call = Call::Initialise { identity: prng.array(), roll, previous, own: own.clone() };
            pairing.expect("a size", &mut good::woken(keys[n - 1], 129), &call, number);
        }
        let mut lent = good::lent(prng, ACTIVE, &[], 3713);
        pairing.expect("a size", &mut lent, &Call::Finalise { next: own }, number);
    }
}

/// J1: 38 stands after 6 and before 7 and 8.
fn racks_of_two(pairing: &mut Pairing, prng: &mut Prng) {
    let keys = good::keys(prng, 2);
    let two = good::rack_of(&keys);
    let falling = [&[2][..], &keys[1], &keys[0]].concat();
    let roll = in_blocks(&good::rows(prng, 2));
    let cases: [(&[u8], [u8; 32], &[u8], Refusal); 5] = [
        (&two, keys[0], &[], 38),
        (&two, [0; 32], &[], 38),
        (&two, keys[0], &roll, 38),
        (&falling, keys[0], &[], 6),
        (&two[..64], keys[0], &[], 6),
    ];
    for (own, key, roll, number) in cases {
        let (roll, own) = (roll.to_vec(), own.to_vec());
        let call = Call::Initialise { identity: [0; 32], roll, previous: Vec::new(), own };
        pairing.expect("J1", &mut good::woken(key, 129), &call, number);
    }
    for (status, next, number) in [(ACTIVE, &two, 38), (ACTIVE, &falling, 6), (PREPARED, &two, 4)] {
        let mut lent = good::lent(prng, status, &[], 3713);
        pairing.expect("J1", &mut lent, &Call::Finalise { next: next.clone() }, number);
    }
}

/// J2, J3: "Those already prepared or active go on"; "receipts and previous racks of two stay valid"; a repeat reads no argument.
fn two_stay_valid(pairing: &mut Pairing, prng: &mut Prng) {
    let keys = good::keys(prng, 3);
    let two = good::rack(prng, 2);
    let (roll, own) = (in_blocks(&good::rows(prng, 2)), good::rack_of(&keys));
    let call = Call::Initialise { identity: prng.array(), roll, previous: two.clone(), own };
    pairing.expect("J2", &mut good::woken(keys[1], 129), &call, 0);
    let scene = Scene::good(prng, Sizes { previous: 2, own: 2, ..SMALL }, 1);
    pairing.expect("J2", &mut scene.lent(129), &scene.bytes_to_check(0, 1), 0);
    let mut lent = scene.lent(3713);
    pairing.expect("J2", &mut lent, &scene.activate(), 0);
    pairing.expect("J2", &mut lent, &Call::New { label: [0xfd; 16] }, 0);
    pairing.expect("J2", &mut lent, &Call::Finalise { next: scene.own.clone() }, 38);
    pairing.expect("J2", &mut lent, &Call::Finalise { next: good::rack(prng, 4) }, 0);
    lent.head.next = good::digest(&two);
    let reply = pairing.expect("J3", &mut lent, &Call::Finalise { next: two.clone() }, 0);
    pairing.ask(reply.answer().repeat, "J3: a repeat, whatever the argument");
    pairing.ask(lent.area[65..97] == good::digest(&two), "J3: the earlier next rack, of two");
    let (identity, label) = (prng.array(), good::label(prng));
    let stated =
        Statement { kind: KIND_APPEND, identity, own: good::digest(&two), label, height: 1, ..Statement::ZERO };
    let (statement, signers) = (statement::bytes(&stated), vec![0, 3, 1, 3]);
    let ask = AskVerdict { identity, rack: two, kind: KIND_APPEND, label, nonce: [0; 16], statement, signers };
    pairing.expect("J2", &mut good::only_area(0), &Call::Verdict(ask), 0);
}

/// K1 to K3: a label's first byte, the rows of the first and the second company, however they came, and the answer.
fn two_companies(pairing: &mut Pairing, prng: &mut Prng) {
    let cases: [(&str, u8, usize, usize, Refusal); 10] = [
        ("K1", 0, 31, 0, 39),
        ("K1", 0, 40, 0, 39),
        ("K1", 0, 30, 32, 0),
        ("K2", 0, 31, 32, 39),
        ("K2", 0, 30, 33, 13),
        ("K2", 255, 63, 0, 13),
        ("K3", 127, 31, 0, 39),
        ("K3", 128, 31, 0, 0),
        ("K3", 127, 0, 31, 0),
        ("K3", 128, 0, 31, 39),
    ];
    for (name, byte, first, second, number) in cases {
        let rows = companies::rows(prng, first, second);
        let label = companies::label_at(prng, byte);
        pairing.expect(name, &mut good::lent(prng, ACTIVE, &rows, 121), &Call::New { label }, number);
    }
}
