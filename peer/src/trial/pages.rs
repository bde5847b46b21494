//! This file holds the trial of the two calls that write a block of M-103's file: each byte at its place, and read back as it was.

use super::good;
use super::night::{rack_page, Parts};
use super::pairing::Pairing;
use super::prng::Prng;
use crate::call::Call;
use crate::refusals::Refusal;
use crate::report::{look, Block, Receipt, ReportOf02};
use crate::sha256::digest_of;

pub fn run(pairing: &mut Pairing, prng: &mut Prng) {
    by_hand(pairing, prng);
    racks(pairing, prng);
    sizes(pairing, prng);
}

/// A receipt as the desk has it at hand.
pub fn receipt_of(parts: &Parts) -> Receipt {
    Receipt {
        kind: parts.kind,
        label: parts.label,
        nonce: parts.nonce,
        identity: parts.identity,
        statement: parts.statement.clone(),
        signers: parts.pairs.concat(),
    }
}

/// Writes a receipt and holds the outcome to its number, and where it is accepted to what the report reads.
fn hold(pairing: &mut Pairing, receipt: &Receipt, area: usize, number: Refusal) {
    let mut lent = good::only_area(area);
    let reply = pairing.expect("a receipt's block", &mut lent, &Call::WriteReceipt(receipt.clone()), number);
    if number == 0 {
        pairing.ask(reply.written() == 512, "512 bytes");
        let read = look(&ReportOf02, &lent.area[..512]);
        pairing.ask(read == Block::Receipt(receipt.clone()), "the report reads what was written");
    }
}

/// A receipt's block put together by hand, byte by byte as M-103 lists them.
fn by_hand(pairing: &mut Pairing, _: &mut Prng) {
    let receipt = Receipt {
        kind: 3,
        label: [1; 16],
        nonce: [2; 16],
        identity: [3; 32],
        statement: vec![4; 121],
        signers: vec![5, 6, 7, 8],
    };
    let mut lent = good::only_area(515);
    pairing.expect("by hand", &mut lent, &Call::WriteReceipt(receipt), 0);
    let fields: [(usize, &[u8]); 10] = [
        (0, &[2, 3]),
        (2, &[1; 16]),
        (18, &[2; 16]),
        (34, &[3; 32]),
        (66, &[121]),
        (67, &[4; 121]),
        (188, &[0; 16]),
        (204, &[2, 5, 6, 7, 8]),
        (209, &[0; 299]),
        (512, &[good::FILL; 3]),
    ];
    for (start, bytes) in fields {
        pairing.ask(lent.area[start..start + bytes.len()] == *bytes, "a field of the receipt stands at its place");
    }
    pairing.ask(lent.area[508..512] == digest_of(&[&lent.area[..508]])[..4], "the check closes the block");
}

/// Racks of every size, good and broken.
fn racks(pairing: &mut Pairing, prng: &mut Prng) {
    for size in 0..=16 {
        let rack = good::rack(prng, size);
        let number = if (1..=15).contains(&size) { 0 } else { 6 };
        for area in [512, 513, 511] {
            let mut lent = good::only_area(area);
            let number = if number == 0 && area < 512 { 1 } else { number };
            pairing.expect("a rack's block", &mut lent, &Call::WriteRackBlock { rack: rack.clone() }, number);
            if number == 0 {
                pairing.ask(lent.area[..512] == rack_page(&rack).bytes, "the type, the rack, zeros and the check");
            }
        }
    }
}

/// Statements and signers of every length up to some more than there is room for, into areas around a block.
fn sizes(pairing: &mut Pairing, prng: &mut Prng) {
    for length in (0..=140).chain([255, 256, 257, 393, 512, 65_536 + 121]) {
        let receipt = any_receipt(prng, length, 6);
        hold(pairing, &receipt, 512, if length > 137 { 23 } else { 0 });
        hold(pairing, &receipt, 511, if length > 137 { 23 } else { 1 });
    }
    for length in (0..=34).chain([255, 256, 512, 514, 65_536, 65_566]) {
        let receipt = any_receipt(prng, 121, length);
        let number = if length > 30 || length % 2 == 1 { 23 } else { 0 };
        hold(pairing, &receipt, 600, number);
        hold(pairing, &receipt, 0, number.max(1));
    }
}

/// Any values in all fields.
fn any_receipt(prng: &mut Prng, statement: usize, signers: usize) -> Receipt {
    Receipt {
        kind: prng.byte(),
        label: if prng.chance(1, 8) { [0; 16] } else { prng.array() },
        nonce: prng.array(),
        identity: prng.array(),
        statement: prng.bytes(statement),
        signers: prng.bytes(signers),
    }
}

pub fn run_any(pairing: &mut Pairing, prng: &mut Prng) {
    let area = if prng.chance(1, 6) { prng.below(530) } else { 512 + prng.below(3) };
    if prng.chance(1, 3) {
        let size = prng.below(17);
        let mut rack = good::rack(prng, size);
        if prng.chance(1, 3) {
            let place = prng.below(rack.len());
            rack[place] ^= 1 << prng.below(8);
        }
        pairing.call(&mut good::only_area(area), &Call::WriteRackBlock { rack });
        return;
    }
    let statement = if prng.chance(1, 2) { *prng.pick(&[121, 129, 137, 138]) } else { prng.below(150) };
    let signers = prng.below(34);
    let receipt = any_receipt(prng, statement, signers);
    let number = match () {
        _ if statement > 137 || signers > 30 || signers % 2 == 1 => 23,
        _ if area < 512 => 1,
        _ => 0,
    };
    hold(pairing, &receipt, area, number);
}
