//! This file holds the trial of M-100: Append many beside the same entries appended one by one, at every length and height that matters.

use super::good;
use super::pairing::Pairing;
use super::prng::Prng;
use super::records;
use crate::call::{Call, Lent, Reply};
use crate::record::{ACTIVE, BLANK, FINALISED, PREPARED};
use crate::refusals::Refusal;
use crate::row::{Row, TOP};
use crate::sha256::digest_of;

type Part = fn(&mut Pairing, &mut Prng);

/// The parts of the trial, the short ones first.
pub const PARTS: [Part; 6] = [by_hand, bad_input, lengths, single_entries, expected_heights, around_the_top];

pub fn run(pairing: &mut Pairing, prng: &mut Prng) {
    for part in PARTS {
        part(pairing, prng);
    }
}

const LABEL: [u8; 16] = [0x5a; 16];

/// An active keeper with the label's row at this height, among others, and an area of so many bytes.
fn keeper(prng: &mut Prng, height: u64, area: usize) -> Lent {
    let others = prng.below(62);
    let mut rows = good::rows(prng, others);
    rows.retain(|row| row.label != LABEL);
    let tail = if height == 0 { [0; 32] } else { prng.array() };
    rows.push(Row { label: LABEL, tail, height });
    rows.sort_by_key(|row| row.label);
    good::lent(prng, ACTIVE, &rows, area)
}

fn list(prng: &mut Prng, entries: usize) -> Vec<u8> {
    prng.bytes(32 * entries)
}

fn call(label: [u8; 16], list: &[u8], expected: u64) -> Call {
    Call::AppendMany { label, list: list.to_vec(), expected }
}

/// The answer and all that is lent after the list's entries are appended one by one, up to the first that is refused.
fn one_by_one(pairing: &mut Pairing, lent: &Lent, label: [u8; 16], list: &[u8], expected: u64) -> (Reply, Lent) {
    let mut lent = lent.clone();
    let mut last = Reply::Answer(Default::default());
    for (number, entry) in list.chunks_exact(32).enumerate() {
        let (entry, expected) = (entry.try_into().unwrap(), expected.wrapping_add(number as u64));
        last = pairing.call(&mut lent, &Call::Append { label, entry, expected });
        if last.number() != 0 {
            break;
        }
    }
    (last, lent)
}

/// Holds the whole outcome to what M-100 names: a list of 1 to 32 gives what its entries give one by one, where one of them is
/// refused that answer and nothing changed; another list gives 32, unless 1, 2 or 4 comes first.
pub fn hold(pairing: &mut Pairing, lent: &Lent, label: [u8; 16], list: &[u8], expected: u64) -> Refusal {
    let is_list = list.len() % 32 == 0 && !list.is_empty() && list.len() <= 1024;
    let tried = if is_list { list } else { &[0; 32] };
    let (mut answer, mut after) = one_by_one(pairing, lent, label, tried, expected);
    if !is_list && ![1, 2, 4].contains(&answer.number()) {
        answer = Reply::Answer(32.into());
    }
    if answer.number() != 0 {
        after = lent.clone();
    }
    let mut many = lent.clone();
    let reply = pairing.expect("append many", &mut many, &call(label, list, expected), answer.number());
    pairing.ask(reply == answer, "the answer is that of the last append, or of the first refused");
    pairing.ask(many == after, "record and statement are those after appending them one by one");
    reply.number()
}

/// Two entries put together by hand.
fn by_hand(pairing: &mut Pairing, prng: &mut Prng) {
    let mut lent = good::lent(prng, ACTIVE, &[Row { label: LABEL, tail: [7; 32], height: 5 }], 130);
    let head = lent.head;
    let entries = [[0xaa; 32], [0xbb; 32]];
    let reply = pairing.expect("by hand", &mut lent, &call(LABEL, &entries.concat(), 6), 0);
    let between = digest_of(&[&[1], &[7; 32], &entries[0]]);
    let tail = digest_of(&[&[1], &between, &entries[1]]);
    let stated = [&[2][..], &head.identity, &head.own, &LABEL, &tail, &[0, 0, 0, 0, 0, 0, 0, 7]].concat();
    pairing.ask(lent.area[..121] == stated && lent.area[121..] == [good::FILL; 9], "one statement, of the last height");
    pairing.ask(lent.table[0] == Row { label: LABEL, tail, height: 7 }, "the row after both entries");
    pairing.ask(lent.head == head, "the head stays");
    pairing.ask(reply.written() == 121 && reply.answer().height == 0, "121 bytes and no height");
}

/// Each bad input alone and with the answer that M-100 gives it.
fn bad_input(pairing: &mut Pairing, prng: &mut Prng) {
    let three = list(prng, 3);
    let cases: [(&str, [u8; 16], Vec<u8>, u64, u64, usize, Refusal); 16] = [
        ("good", LABEL, three.clone(), 4, 5, 121, 0),
        ("an empty list", LABEL, Vec::new(), 4, 5, 121, 32),
        ("33 entries", LABEL, list(prng, 33), 4, 5, 121, 32),
        ("32 entries", LABEL, list(prng, 32), 4, 5, 121, 0),
        ("31 bytes", LABEL, prng.bytes(31), 4, 5, 121, 32),
        ("a byte more than a digest", LABEL, prng.bytes(33), 4, 5, 121, 32),
        ("an empty list of a missing ledger", [9; 16], Vec::new(), 4, 5, 121, 32),
        ("an empty list out of order", LABEL, Vec::new(), 4, 6, 121, 32),
        ("33 entries at the top", LABEL, list(prng, 33), TOP, TOP + 1, 121, 32),
        ("a ledger that is not there", [9; 16], three.clone(), 4, 5, 121, 10),
        ("the zero label", [0; 16], three.clone(), 4, 5, 121, 10),
        ("the height of the last", LABEL, three.clone(), 4, 7, 121, 11),
        ("the top reached", LABEL, three.clone(), TOP - 3, TOP - 2, 121, 0),
        ("the top passed by the last alone", LABEL, three.clone(), TOP - 2, TOP - 1, 121, 12),
        ("the top passed, out of order", LABEL, three.clone(), TOP - 2, TOP, 121, 11),
        ("an area one byte short", LABEL, three.clone(), 4, 5, 120, 1),
    ];
    for (what, label, list, height, expected, area, number) in cases {
        let lent = keeper(prng, height, area);
        let mut after = lent.clone();
        let reply = pairing.expect(what, &mut after, &call(label, &list, expected), number);
        let told = if number == 11 { height } else { 0 };
        pairing.ask(reply.answer().height == told, "the present height is given with 11 only");
        hold(pairing, &lent, label, &list, expected);
    }
}

/// Lists of every number of entries up to 40, with bytes more and fewer, and far longer ones, in every status.
fn lengths(pairing: &mut Pairing, prng: &mut Prng) {
    for entries in 0..=40 {
        for bytes in [32 * entries, 32 * entries + 1, 32 * entries + 31] {
            let lent = keeper(prng, 9, 121);
            let number = hold(pairing, &lent, LABEL, &prng.bytes(bytes), 10);
            let right = if bytes % 32 == 0 && (1..=32).contains(&entries) { 0 } else { 32 };
            pairing.ask(number == right, "1 to 32 whole digests are taken, and nothing else");
        }
    }
    for bytes in [32 * 64, 32 * 255, 32 * 256, 32 * 257, 65_536, 65_536 + 32, 1 << 20] {
        let lent = keeper(prng, 9, 121);
        let number = hold(pairing, &lent, LABEL, &prng.bytes(bytes), 10);
        pairing.ask(number == 32, "a far longer list");
    }
    for (status, area, label) in
        [(BLANK, 121, LABEL), (PREPARED, 121, LABEL), (FINALISED, 121, [9; 16]), (ACTIVE, 0, LABEL)]
    {
        for bytes in [0, 31, 32, 640, 1024, 1056] {
            let rows = if status == BLANK { vec![] } else { good::rows(prng, 3) };
            let lent = good::lent(prng, status, &rows, area);
            hold(pairing, &lent, label, &prng.bytes(bytes), 1);
        }
    }
}

/// "With one entry it is Append", in every answer and byte.
fn single_entries(pairing: &mut Pairing, prng: &mut Prng) {
    for height in [0, 1, 7, TOP - 1, TOP] {
        for expected in [0, 1, height, height + 1, height + 2, 1 << 32, u64::MAX] {
            for (label, area) in [(LABEL, 121), (LABEL, 120), (LABEL, 300), ([0; 16], 121), ([9; 16], 121)] {
                let mut one = keeper(prng, height, area);
                let mut many = one.clone();
                let entry: [u8; 32] = prng.array();
                let reply = pairing.call(&mut one, &Call::Append { label, entry, expected });
                let same = pairing.call(&mut many, &call(label, &entry, expected));
                pairing.ask(reply == same && one == many, "with one entry it is Append");
                pairing.ask(same.number() != 32, "with one entry 32 never arises");
            }
        }
    }
}

/// Expected heights around the first's and the last's.
fn expected_heights(pairing: &mut Pairing, prng: &mut Prng) {
    for entries in [1, 2, 20, 32] {
        for height in [0, 1, 255, 65_535, 1 << 31, TOP - 33] {
            let last = height + entries as u64;
            let wrap = height.wrapping_add(1 << 32) + 1;
            for expected in [0, height, height + 1, height + 2, last, last + 1, wrap, u64::MAX - 1, u64::MAX] {
                let lent = keeper(prng, height, 121);
                hold(pairing, &lent, LABEL, &list(prng, entries), expected);
            }
        }
    }
}

/// Every list from every height so near to the top that it may pass it.
fn around_the_top(pairing: &mut Pairing, prng: &mut Prng) {
    for below in 0..=33 {
        for entries in 1..=32 {
            let height = TOP - below;
            let lent = keeper(prng, height, 121);
            let mut after = lent.clone();
            let entries_list = list(prng, entries);
            let number = if entries as u64 > below { 12 } else { 0 };
            pairing.expect("around the top", &mut after, &call(LABEL, &entries_list, height + 1), number);
            if entries as u64 >= below {
                hold(pairing, &lent, LABEL, &entries_list, height + 1);
            }
        }
    }
}

/// Any record, any list, any expected height.
pub fn run_any(pairing: &mut Pairing, prng: &mut Prng) {
    let mut lent = records::record(prng);
    lent.area = good::area(if prng.chance(1, 8) { prng.below(130) } else { 121 + prng.below(3) });
    for _ in 0..3 {
        let label = records::some_label(prng, &lent.table);
        let expected = records::expected(prng, &lent.table, &label);
        let list = any_list(prng);
        hold(pairing, &lent, label, &list, expected);
        pairing.call(&mut lent, &call(label, &list, expected));
    }
}

/// Mostly a list of 1 to 32 entries.
pub fn any_list(prng: &mut Prng) -> Vec<u8> {
    let bytes = match prng.below(8) {
        0 => *prng.pick(&[0, 31, 33, 1023, 1024, 1025, 1056]),
        1 => prng.below(1200),
        2 => 32 * prng.below(40),
        _ => 32 * (1 + prng.below(6)),
    };
    prng.bytes(bytes)
}
