//! This file holds the trial of M-104: every byte of a block spoilt, every arrangement of few blocks, the bounds, and stores by chance.

use super::good;
use super::pairing::Pairing;
use super::prng::Prng;
use super::shelf::{block_of, said, Shelf, Slot};
use crate::call::{Call, Lent};
use crate::row::TOP;
use crate::sha256::digest_of;
use crate::store::Said;

const A: [u8; 16] = [0x5a; 16];
const B: [u8; 16] = [0xc3; 16];
const ZERO: [u8; 16] = [0; 16];

type Part = fn(&mut Pairing, &mut Prng);

/// The parts of the trial, the short ones first.
pub const PARTS: [Part; 9] =
    [by_hand, fields, outputs, heights, texts, every_lone_bit, sizes, every_arrangement, every_byte];

pub fn run(pairing: &mut Pairing, prng: &mut Prng) {
    for part in PARTS {
        part(pairing, prng);
    }
}

/// Each byte of blocks of three texts with one bit turned, its check left as it was and made right again.
fn every_byte(pairing: &mut Pairing, prng: &mut Prng) {
    for length in [0, 5, 418] {
        let text = prng.bytes(length);
        let good = said(prng, A, 0x0102_0304, &text);
        for place in 0..512 {
            let mut bytes = block_of(&good);
            bytes[place] ^= 1 << prng.below(8);
            around(pairing, prng, Slot::Damaged(bytes.clone()));
            if place < 508 {
                good::check_again(&mut bytes);
                around(pairing, prng, spoilt_under_check(&good, place, bytes));
            }
        }
    }
}

/// Under a right check another label, height (up to the top) or tail is no damage; all else is.
fn spoilt_under_check(good: &Said, place: usize, bytes: Vec<u8>) -> Slot {
    let mut other = good.clone();
    match place {
        0..=15 => other.label.copy_from_slice(&bytes[..16]),
        20..=23 => other.height = bytes[20..24].iter().fold(0, |height, byte| height << 8 | u64::from(*byte)),
        56..=87 => other.tail.copy_from_slice(&bytes[56..88]),
        _ => return Slot::Damaged(bytes),
    }
    Slot::Used(other)
}

/// The block beside a good one, under an append and reads that meet it or pass it by.
fn around(pairing: &mut Pairing, prng: &mut Prng, slot: Slot) {
    let good = Slot::Used(said(prng, B, 1, b"good"));
    let mut slots = vec![good, slot.clone(), Slot::Unused];
    slots.rotate_left(prng.below(3));
    let mut shelf = Shelf::new(slots);
    shelf.read(pairing, A, 0x0102_0304);
    shelf.read(pairing, B, 1);
    if let Slot::Used(said) = slot {
        shelf.read(pairing, said.label, said.height);
        shelf.append(pairing, said.label, said.height + 1, b"next");
    } else {
        shelf.append(pairing, B, 2, b"next");
    }
}

/// One byte that is not zero makes an unused block a damaged one; so does a right check under 508 zeros (reading G4).
fn every_lone_bit(pairing: &mut Pairing, prng: &mut Prng) {
    let mut blocks = vec![vec![0; 512]];
    good::check_again(&mut blocks[0]);
    for place in 0..512 {
        let mut bytes = vec![0; 512];
        bytes[place] = 1 << prng.below(8);
        blocks.push(bytes);
    }
    for bytes in blocks {
        let mut shelf = Shelf::new(vec![Slot::Unused, Slot::Damaged(bytes)]);
        shelf.append(pairing, A, 1, b"first");
        shelf.read(pairing, A, 1);
        // An unused block doesn't answer, whatever is asked (reading G3).
        shelf.read(pairing, ZERO, 0);
    }
}

/// Blocks under a right check whose fields stand at their bounds or say something else than the text.
fn fields(pairing: &mut Pairing, prng: &mut Prng) {
    let at = |prng: &mut Prng, height| said(prng, A, height, b"text\0\0");
    for height in [1, 2, TOP - 1, TOP] {
        let block = at(prng, height);
        around(pairing, prng, Slot::Used(block));
    }
    for height in [0, TOP + 1, 1 << 63, u64::MAX] {
        let block = at(prng, height);
        around(pairing, prng, Slot::Damaged(block_of(&block)));
    }
    let zero_label = said(prng, ZERO, 1, b"text");
    around(pairing, prng, Slot::Damaged(block_of(&zero_label)));
    let good = at(prng, 7);
    // The text's end is zeros, so a shorter length leaves only zeros after it: the digest tells.
    let shorter = Said { text: b"text\0".to_vec(), ..good.clone() };
    around(pairing, prng, Slot::Damaged(block_of(&shorter)));
    let its_own = Said { digest: digest_of(&[b"text\0"]), ..shorter };
    around(pairing, prng, Slot::Used(its_own));
    // "layout, check or entry digest": a tail that follows nothing is no damage (reading G1).
    for tail in [[0; 32], [7; 32]] {
        around(pairing, prng, Slot::Used(Said { tail, height: 1, ..good.clone() }));
    }
    for place in [96, 507, 508, 511] {
        let mut bytes = block_of(&good);
        bytes[place] ^= 1;
        if place < 508 {
            good::check_again(&mut bytes);
        }
        around(pairing, prng, Slot::Damaged(bytes));
    }
    for length in [419_u16, 420, 512, 0x0106, 0x8006, u16::MAX] {
        let mut bytes = block_of(&good);
        bytes[88..90].copy_from_slice(&length.to_be_bytes());
        good::check_again(&mut bytes);
        around(pairing, prng, Slot::Damaged(bytes));
    }
}

/// Areas of whole blocks and of others: empty, with one block left, and full. One of no blocks is good (reading G2).
fn sizes(pairing: &mut Pairing, prng: &mut Prng) {
    for count in [0_usize, 1, 2, 127, 128, 129, 130, 256] {
        for after in [0, 1, 511] {
            for unused in [count, 1, 0] {
                // The longest areas are tried empty, save at the bound.
                if unused == count || count <= 2 || (count <= 129 && after < 2) {
                    of_size(pairing, prng, count, after, count.saturating_sub(unused));
                }
            }
        }
    }
}

fn of_size(pairing: &mut Pairing, prng: &mut Prng, count: usize, after: usize, used: usize) {
    let mut slots: Vec<Slot> = (1..=used as u64).map(|height| Slot::Used(said(prng, A, height, b"cue"))).collect();
    slots.resize_with(count, || Slot::Unused);
    let mut shelf = Shelf { slots, after };
    let newest = used as u64;
    shelf.read(pairing, A, newest);
    shelf.append(pairing, B, 2, b"out of order");
    shelf.append(pairing, A, newest + 1, b"next");
    shelf.append(pairing, B, 1, b"perhaps full");
    shelf.read(pairing, A, newest + 1);
}

/// Outputs around a block's size, for a block that is there and one that is not, also where the area's size is wrong.
fn outputs(pairing: &mut Pairing, prng: &mut Prng) {
    for after in [0, 1] {
        let shelf = Shelf { slots: vec![Slot::Used(said(prng, A, 1, b"cue"))], after };
        for (height, length) in
            [1, 2].into_iter().flat_map(|height| [0, 1, 511, 512, 513].map(|length| (height, length)))
        {
            let number = match (length, after, height) {
                (..512, _, _) => 1,
                (_, 1, _) => 2,
                (_, _, 1) => 0,
                _ => 10,
            };
            shelf.read_into(pairing, A, height, length, number);
        }
    }
}

/// Texts of every length that matters, of any bytes and of zeros, also into a broken area ("33" comes first).
fn texts(pairing: &mut Pairing, prng: &mut Prng) {
    for length in [0, 1, 2, 37, 38, 54, 55, 56, 63, 64, 417, 418, 419, 420, 512, 65_535, 65_536, 65_537, 200_000] {
        let mut zero_at_end = prng.bytes(length);
        zero_at_end.iter_mut().rev().take(3).for_each(|byte| *byte = 0);
        for text in [prng.bytes(length), vec![0; length], zero_at_end] {
            let mut shelf = Shelf::new(vec![Slot::Unused; 3]);
            for height in 1..=2 {
                shelf.append(pairing, A, height, &text);
                shelf.read(pairing, A, height);
            }
            shelf.after = 1;
            shelf.append(pairing, ZERO, 9, &text);
        }
    }
}

/// Each expected height around the label's, low and at the top; then up to the top and no further.
fn heights(pairing: &mut Pairing, prng: &mut Prng) {
    for height in [1, 2, 255, 256, 65_535, 1 << 31, TOP - 2, TOP - 1, TOP] {
        let block = Slot::Used(said(prng, A, height, b"cue"));
        let shelf = Shelf::new(vec![block, Slot::Unused, Slot::Unused]);
        let wrap = height.wrapping_add(1 << 32) + 1;
        for expected in [0, 1, 5, height - 1, height, height + 1, height + 2, TOP, TOP + 1, wrap, u64::MAX] {
            shelf.clone().append(pairing, A, expected, b"next");
            shelf.clone().append(pairing, B, expected, b"other");
            shelf.clone().append(pairing, ZERO, expected, b"none");
            shelf.read(pairing, A, expected);
        }
        let mut climbing = shelf;
        for expected in height + 1..height + 5 {
            climbing.append(pairing, A, expected, b"next");
            climbing.read(pairing, A, expected);
        }
    }
}

/// Four blocks, each unused, damaged, or a text of one of two labels at this or that height: gaps and equals among them,
/// which are no damage (reading G5).
fn every_arrangement(pairing: &mut Pairing, prng: &mut Prng) {
    for way in 0..6_usize.pow(4) {
        let slots = (0..4).map(|place| match way / 6_usize.pow(place) % 6 {
            0 => Slot::Unused,
            1 => Slot::Damaged(prng.bytes(512)),
            2 => Slot::Used(said(prng, A, 1, b"one")),
            3 => Slot::Used(said(prng, A, 2, b"two")),
            4 => Slot::Used(said(prng, A, 9, b"nine")),
            _ => Slot::Used(said(prng, B, 2, b"two")),
        });
        let mut shelf = Shelf::new(slots.collect());
        for height in [1, 2, 9] {
            shelf.read(pairing, A, height);
        }
        shelf.read(pairing, ZERO, 0);
        let next = shelf.newest(&A).0 + 1;
        shelf.append(pairing, B, 2, b"out of order, or not");
        shelf.append(pairing, A, next, b"next");
        shelf.read(pairing, A, next);
    }
}

/// A block put together by hand, byte by byte as M-104 lists them.
fn by_hand(pairing: &mut Pairing, _: &mut Prng) {
    let mut lent = Lent { area: vec![0; 512], ..good::only_area(0) };
    let call = Call::StoreAppend { label: A, expected: 1, text: b"Go".to_vec() };
    pairing.expect("by hand", &mut lent, &call, 0);
    let digest = digest_of(&[b"Go"]);
    let tail = digest_of(&[&[1; 1], &[0; 32], &digest]);
    let fields: [(usize, &[u8]); 6] =
        [(0, &A), (16, &[0, 0, 0, 0, 0, 0, 0, 1]), (24, &digest), (56, &tail), (88, &[0, 2]), (90, b"Go")];
    for (start, bytes) in fields {
        pairing.ask(lent.area[start..start + bytes.len()] == *bytes, "a field of the block stands at its place");
    }
    pairing.ask(lent.area[92..508] == [0; 416], "zeros stand after the text");
    pairing.ask(lent.area[508..] == digest_of(&[&lent.area[..508]])[..4], "the check closes the block");
}

/// A store of any size in which texts are appended and read; what was appended reads back after all further calls.
pub fn run_any(pairing: &mut Pairing, prng: &mut Prng) {
    if prng.chance(1, 6) {
        return anything(pairing, prng);
    }
    let mut shelf = any_shelf(prng);
    let labels = [A, B, good::label(prng)];
    let mut appended: Vec<([u8; 16], u64, Vec<u8>)> = Vec::new();
    for _ in 0..1 + prng.below(24) {
        let label = *prng.pick(&labels);
        let expected = shelf.newest(&label).0 + 1;
        match prng.below(8) {
            0 => drop(shelf.append(pairing, label, any_height(prng), b"any height")),
            1 => drop(shelf.append(pairing, ZERO, any_height(prng), b"no label")),
            2 => drop(shelf.read(pairing, label, any_height(prng))),
            _ => {
                let length = any_length(prng);
                let text = prng.bytes(length);
                if shelf.append(pairing, label, expected, &text) == 0 {
                    appended.push((label, expected, text));
                }
            }
        }
    }
    for (label, height, text) in appended {
        let (_, output) = shelf.read_into(pairing, label, height, 512, 0);
        let is_it = output[..16] == label && output[16..24] == height.to_be_bytes() && output[90..].starts_with(&text);
        pairing.ask(is_it, "what is appended reads back until someone else writes the area");
    }
}

fn any_shelf(prng: &mut Prng) -> Shelf {
    let count = if prng.chance(1, 8) { *prng.pick(&[0, 1, 127, 128, 129]) } else { prng.below(12) };
    let damaged = prng.chance(1, 4);
    let slots = (0..count).map(|_| match prng.below(6) {
        0 | 1 => {
            let (height, length) = (any_height(prng).clamp(1, TOP), any_length(prng).min(418));
            let (label, text) = (*prng.pick(&[A, B]), prng.bytes(length));
            Slot::Used(said(prng, label, height, &text))
        }
        2 if damaged => any_damage(prng),
        _ => Slot::Unused,
    });
    let slots = slots.collect();
    Shelf { slots, after: if prng.chance(1, 20) { 1 + prng.below(511) } else { 0 } }
}

/// A good block with some bits turned where they damage it; the check is made right again now and then.
fn any_damage(prng: &mut Prng) -> Slot {
    let (length, height) = (prng.below(419), any_height(prng).clamp(1, TOP));
    let text = prng.bytes(length);
    let mut bytes = block_of(&said(prng, A, height, &text));
    let place = *prng.pick(&[16, 17, 18, 19, 24, 40, 55, 88, 89, 90, 300, 507]);
    bytes[place] ^= 1 << prng.below(8);
    if prng.chance(1, 2) {
        good::check_again(&mut bytes);
    }
    Slot::Damaged(bytes)
}

fn any_height(prng: &mut Prng) -> u64 {
    match prng.below(6) {
        0 => *prng.pick(&[0, TOP - 1, TOP, TOP + 1, u64::MAX]),
        1 => prng.next(),
        _ => prng.below(5) as u64,
    }
}

fn any_length(prng: &mut Prng) -> usize {
    match prng.below(4) {
        0 => *prng.pick(&[0, 1, 417, 418, 419]),
        _ => prng.below(440),
    }
}

/// Any bytes at all as a store, under both calls.
fn anything(pairing: &mut Pairing, prng: &mut Prng) {
    let length = if prng.chance(1, 2) { 512 * prng.below(5) } else { prng.below(2000) };
    let mut store = if prng.chance(1, 2) { prng.bytes(length) } else { vec![0; length] };
    if prng.chance(1, 2) {
        good::check_again(&mut store);
    }
    let (label, height) = (*prng.pick(&[A, ZERO]), any_height(prng));
    let length = any_length(prng);
    let text = prng.bytes(length);
    let mut lent = Lent { area: store.clone(), ..good::only_area(0) };
    pairing.call(&mut lent, &Call::StoreAppend { label, expected: height, text });
    pairing.call(&mut good::only_area(prng.below(1024)), &Call::StoreRead { store, label, height });
}
