//! This file holds the trial of layouts: racks, rolls and statements, good, damaged in each field, and at each bound.

use super::bundles;
use super::good;
use super::missing;
use super::pairing::Pairing;
use super::prng::Prng;
use crate::call::{Call, Reply};
use crate::rack::Rack;
use crate::roll::{in_blocks, Roll};
use crate::row::TOP;
use crate::statement::{self, Statement};

pub fn run(pairing: &mut Pairing, prng: &mut Prng) {
    for count in 1..=15 {
        racks(pairing, prng, count);
    }
    for count in [0, 1, 2, 8, 9, 10, 17, 18, 19, 27, 28, 36, 37, 45, 46, 54, 55, 62, 63] {
        rolls(pairing, prng, count);
    }
    for kind in 0..=6 {
        statements(pairing, prng, kind);
    }
    bundles::run(pairing, prng);
    missing::run(pairing, prng);
}

/// One damaged layout of a kind chosen by chance.
pub fn run_any(pairing: &mut Pairing, prng: &mut Prng) {
    match prng.below(7) {
        0 => any_rack(pairing, prng),
        1 => any_roll(pairing, prng),
        2 => any_statement(pairing, prng),
        3 => bundles::any_signers(pairing, prng),
        4 => missing::run_any(pairing, prng),
        _ => bundles::any_bundle(pairing, prng),
    }
}

fn read_rack(pairing: &mut Pairing, bytes: &[u8]) {
    let reply = pairing.call(&mut good::only_area(0), &Call::ReadRack { bytes: bytes.to_vec() });
    if let Reply::Rack(read) = reply {
        if read.number == 0 {
            write_again(pairing, Call::WriteRack { rack: read.rack }, bytes);
        }
    }
}

fn write_again(pairing: &mut Pairing, call: Call, bytes: &[u8]) {
    let mut lent = good::only_area(bytes.len() + 2);
    pairing.expect("writing what was read", &mut lent, &call, 0);
    pairing.ask(lent.area[..bytes.len()] == *bytes, "what is read and written is the same");
}

fn racks(pairing: &mut Pairing, prng: &mut Prng, count: usize) {
    let rack = good::rack(prng, count);
    read_rack(pairing, &rack);
    for length in (0..=rack.len()).step_by(8).chain([rack.len() - 1]) {
        read_rack(pairing, &rack[..length]);
    }
    read_rack(pairing, &[rack.clone(), vec![0]].concat());
    read_rack(pairing, &[rack.clone(), vec![0xff; 32]].concat());
    for place in 0..rack.len() {
        let mut damaged = rack.clone();
        damaged[place] ^= 1 << prng.below(8);
        read_rack(pairing, &damaged);
    }
    let mut written = Rack { count: count as u8, ..Rack::ZERO };
    written.keys[..count].copy_from_slice(&good::keys(prng, count));
    for named in 0..=255 {
        write_rack(pairing, Rack { count: named, ..written }, 481);
    }
    for place in 0..15 {
        written.keys[place][31] ^= 1;
        write_rack(pairing, written, 481);
        written.keys[place][31] ^= 1;
    }
    for length in [0, 1, 32 * count, 32 * count + 1] {
        write_rack(pairing, written, length);
    }
}

fn write_rack(pairing: &mut Pairing, rack: Rack, length: usize) {
    pairing.call(&mut good::only_area(length), &Call::WriteRack { rack });
}

fn any_rack(pairing: &mut Pairing, prng: &mut Prng) {
    let count = prng.below(17);
    let mut rack = good::rack(prng, count);
    if prng.chance(1, 2) && count >= 2 {
        // Two keys that share all but the last byte.
        let key: Vec<u8> = rack[1..32].to_vec();
        rack[33..64].copy_from_slice(&key);
    }
    read_rack(pairing, &rack);
}

fn read_roll(pairing: &mut Pairing, bytes: &[u8]) {
    let reply = pairing.call(&mut good::only_area(0), &Call::ReadRoll { bytes: bytes.to_vec() });
    if let Reply::Roll(read) = reply {
        if read.number == 0 {
            write_again(pairing, Call::WriteRoll { roll: Box::new(read.roll) }, bytes);
        }
    }
}

fn rolls(pairing: &mut Pairing, prng: &mut Prng, count: usize) {
    let rows = good::rows(prng, count);
    let roll = in_blocks(&rows);
    read_roll(pairing, &roll);
    for length in [0, 1, 511, roll.len() - 512, roll.len() - 1] {
        read_roll(pairing, &roll[..length]);
    }
    read_roll(pairing, &[roll.clone(), roll[..512].to_vec()].concat());
    read_roll(pairing, &[roll.clone(), vec![0]].concat());
    headers(pairing, &roll);
    for place in (0..roll.len()).step_by(if count > 20 { 7 } else { 1 }) {
        let mut damaged = roll.clone();
        damaged[place] ^= 1 << prng.below(8);
        read_roll(pairing, &damaged);
        good::check_again(&mut damaged);
        read_roll(pairing, &damaged);
    }
    written_rolls(pairing, prng, good::roll(&rows));
}

/// Each header byte of each block at several values, the check right.
fn headers(pairing: &mut Pairing, roll: &[u8]) {
    for block in 0..roll.len() / 512 {
        for place in 0..4 {
            let held = roll[512 * block + place];
            for value in [0, 1, 2, 7, 8, 63, 64, 255, held.wrapping_add(1), held.wrapping_sub(1)] {
                let mut damaged = roll.to_vec();
                damaged[512 * block + place] = value;
                good::check_again(&mut damaged);
                read_roll(pairing, &damaged);
            }
        }
    }
}

fn written_rolls(pairing: &mut Pairing, prng: &mut Prng, roll: Roll) {
    let length = 512 * crate::roll::blocks(roll.count as usize);
    for area in [0, length - 1, length, length + 1] {
        write_roll(pairing, roll, area);
    }
    for count in [0, roll.count.saturating_sub(1), roll.count + 1, 63, 64, 255] {
        write_roll(pairing, Roll { count, ..roll }, 3584);
    }
    for place in 0..63 {
        for way in 0..6 {
            let mut damaged = roll;
            let row = &mut damaged.rows[place];
            match way {
                0 => row.label = [0; 16],
                1 => row.label = roll.rows[(place + 62) % 63].label,
                2 => row.tail[prng.below(32)] ^= 1,
                3 => row.height = *prng.pick(&[0, 1, TOP]),
                4 => row.height = *prng.pick(&[TOP + 1, 1 << 40, u64::MAX]),
                _ => row.tail = [0; 32],
            }
            write_roll(pairing, damaged, 3584);
        }
    }
}

fn write_roll(pairing: &mut Pairing, roll: Roll, length: usize) {
    pairing.call(&mut good::only_area(length), &Call::WriteRoll { roll: Box::new(roll) });
}

fn any_roll(pairing: &mut Pairing, prng: &mut Prng) {
    let count = good::row_count(prng);
    let mut roll = in_blocks(&good::rows(prng, count));
    for _ in 0..prng.below(3) {
        let place = prng.below(roll.len());
        roll[place] = *prng.pick(&[0, 1, 9, 63, 64, 0x7f, 0x80, 0xff]);
    }
    if prng.chance(3, 4) {
        good::check_again(&mut roll);
    }
    read_roll(pairing, &roll);
}

fn read_statement(pairing: &mut Pairing, bytes: &[u8]) {
    let reply = pairing.call(&mut good::only_area(0), &Call::ReadStatement { bytes: bytes.to_vec() });
    if let Reply::Statement(read) = reply {
        if read.number == 0 {
            write_again(pairing, Call::WriteStatement { statement: read.statement }, bytes);
        }
    }
}

/// A statement of any kind with every part filled that the kind has, at one of the heights of interest.
pub fn some_statement(prng: &mut Prng, kind: u8, height: u64) -> Statement {
    let mut statement = Statement { kind, identity: prng.array(), own: prng.array(), ..Statement::ZERO };
    match kind {
        4 | 5 => (statement.other, statement.roll) = (prng.array(), prng.array()),
        _ => {
            statement.label = good::label(prng);
            statement.height = height;
            statement.tail = if height == 0 { [0; 32] } else { prng.array() };
        }
    }
    if kind == 3 {
        statement.nonce = prng.array();
    }
    statement
}

fn statements(pairing: &mut Pairing, prng: &mut Prng, kind: u8) {
    for height in [0, 1, 2, TOP - 1, TOP, TOP + 1, 1 << 63, u64::MAX] {
        let statement = some_statement(prng, kind, height);
        let bytes = statement::bytes(&statement);
        read_statement(pairing, &bytes);
        for length in [0, 1, 33, 120, 121, 122, 128, 129, 130, 136, 137, 138] {
            let mut other = bytes.clone();
            other.resize(length, 0);
            read_statement(pairing, &other);
            pairing.call(&mut good::only_area(length), &Call::WriteStatement { statement });
        }
        for place in 0..bytes.len() {
            let mut damaged = bytes.clone();
            damaged[place] ^= 1 << prng.below(8);
            read_statement(pairing, &damaged);
        }
        written_statements(pairing, statement);
    }
    read_statement(pairing, &[[kind].to_vec(), vec![0; 128]].concat());
}

/// Each part alone set to zero and to something else, also the parts that the kind hasn't.
fn written_statements(pairing: &mut Pairing, s: Statement) {
    for value in [0, 1, 0x80] {
        let long = [value; 32];
        let short = [value; 16];
        let damaged = [
            Statement { kind: value, ..s },
            Statement { identity: long, ..s },
            Statement { own: long, ..s },
            Statement { other: long, ..s },
            Statement { roll: long, ..s },
            Statement { label: short, ..s },
            Statement { tail: long, ..s },
            Statement { height: value as u64, ..s },
            Statement { nonce: short, ..s },
        ];
        for statement in damaged {
            pairing.call(&mut good::only_area(137), &Call::WriteStatement { statement });
        }
    }
}

fn any_statement(pairing: &mut Pairing, prng: &mut Prng) {
    let kind = prng.below(7) as u8;
    let height = *prng.pick(&[0, 1, TOP, TOP + 1, 1 << 32, 77]);
    let mut bytes = statement::bytes(&some_statement(prng, kind, height));
    if prng.chance(1, 2) {
        let place = prng.below(bytes.len());
        bytes[place] = *prng.pick(&[0, 1, 0x80, 0xff]);
    }
    read_statement(pairing, &bytes);
}
