//! This file holds the roll: its rules, its digest and the 512-byte blocks in which it travels.

use crate::block::{check_of, has_right_check, BLOCK, CHECKED};
use crate::refusals::{Refusal, AREA_TOO_SHORT, ROLL_BROKEN};
use crate::row::{Row, ROW_BYTES};
use crate::sha256::digest_of;

/// "Roll: 0 to 63 rows"
pub const MOST_ROWS: usize = 63;
/// "nine row places"
pub const ROWS_IN_BLOCK: usize = 9;

/// A roll taken apart; rows from the count on are zero.
#[repr(C)]
#[derive(Clone, Copy, PartialEq, Eq, Debug)]
pub struct Roll {
    pub count: u8,
    pub rows: [Row; MOST_ROWS],
}

impl Roll {
    pub const EMPTY: Roll = Roll { count: 0, rows: [Row::ZERO; MOST_ROWS] };

    pub fn used(&self) -> &[Row] {
        &self.rows[..self.count as usize]
    }
}

/// "0 to 63 rows, labels strictly rising", each row good.
pub fn is_roll(rows: &[Row]) -> bool {
    rows.len() <= MOST_ROWS
        && rows.iter().all(Row::is_good)
        && rows.windows(2).all(|pair| pair[0].label < pair[1].label)
}

/// "Roll digest = SHA-256 of 0x02, the count as one byte, the rows."
pub fn digest(rows: &[Row]) -> [u8; 32] {
    let places: Vec<u8> = rows.iter().flat_map(Row::bytes).collect();
    digest_of(&[&[0x02, rows.len() as u8], &places])
}

/// "The number of blocks is 1 for an empty roll, otherwise the count divided by 9, rounded up."
pub fn blocks(count: usize) -> usize {
    if count == 0 {
        1
    } else {
        count.div_ceil(ROWS_IN_BLOCK)
    }
}

/// Reading a roll "refuses with … 15 … exactly when the layout is broken".
pub fn read(bytes: &[u8]) -> Result<Roll, Refusal> {
    if bytes.len() < BLOCK {
        return Err(ROLL_BROKEN);
    }
    let count = bytes[2];
    let number_of_blocks = blocks(count as usize);
    if count as usize > MOST_ROWS || bytes.len() != BLOCK * number_of_blocks {
        return Err(ROLL_BROKEN);
    }
    let mut roll = Roll { count, ..Roll::EMPTY };
    for (number, block) in bytes.chunks_exact(BLOCK).enumerate() {
        if !good_frame(block, number, number_of_blocks, count) {
            return Err(ROLL_BROKEN);
        }
        take_rows(&mut roll, number, block)?;
    }
    if !is_roll(roll.used()) {
        return Err(ROLL_BROKEN);
    }
    Ok(roll)
}

/// "block number (from 0), number of blocks, row count of the whole roll, zero; … then the first 4 bytes of SHA-256 over the first 508"
fn good_frame(block: &[u8], number: usize, number_of_blocks: usize, count: u8) -> bool {
    block[..4] == [number as u8, number_of_blocks as u8, count, 0] && has_right_check(block)
}

/// "nine row places of 56 bytes, unused ones zero"
fn take_rows(roll: &mut Roll, number: usize, block: &[u8]) -> Result<(), Refusal> {
    for (place, bytes) in block[4..CHECKED].chunks_exact(ROW_BYTES).enumerate() {
        let index = number * ROWS_IN_BLOCK + place;
        if index < roll.count as usize {
            roll.rows[index] = Row::from_place(bytes);
        } else if bytes.iter().any(|byte| *byte != 0) {
            return Err(ROLL_BROKEN);
        }
    }
    Ok(())
}

/// "writing one refuses with that number for contents no reading gives, then with 1 for an area too short"
pub fn write(roll: &Roll, area: &mut [u8]) -> Result<usize, Refusal> {
    if !some_reading_gives(roll) {
        return Err(ROLL_BROKEN);
    }
    let travelling = in_blocks(roll.used());
    if area.len() < travelling.len() {
        return Err(AREA_TOO_SHORT);
    }
    area[..travelling.len()].copy_from_slice(&travelling);
    Ok(travelling.len())
}

/// A reading leaves the unused rows zero (reading A5), so others are contents no reading gives.
fn some_reading_gives(roll: &Roll) -> bool {
    let count = roll.count as usize;
    count <= MOST_ROWS && is_roll(&roll.rows[..count]) && roll.rows[count..].iter().all(|row| *row == Row::ZERO)
}

/// The blocks of a good roll.
pub fn in_blocks(rows: &[Row]) -> Vec<u8> {
    let number_of_blocks = blocks(rows.len());
    let mut travelling = Vec::with_capacity(BLOCK * number_of_blocks);
    for number in 0..number_of_blocks {
        let mut block = vec![number as u8, number_of_blocks as u8, rows.len() as u8, 0];
        for row in rows.iter().skip(number * ROWS_IN_BLOCK).take(ROWS_IN_BLOCK) {
            block.extend_from_slice(&row.bytes());
        }
        block.resize(CHECKED, 0);
        let check = check_of(&block);
        block.extend_from_slice(&check);
        travelling.extend_from_slice(&block);
    }
    travelling
}
