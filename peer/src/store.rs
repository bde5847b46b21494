//! This file holds M-104's cabinet store: its blocks, and the two calls on an area of them.

use crate::block::{check_of, has_right_check, BLOCK, CHECKED};
use crate::call::Answer;
use crate::calls::Tried;
use crate::refusals::{
    Refusal, AREA_TOO_SHORT, AT_THE_TOP, BLOCK_DAMAGED, LABEL_ZERO, NOT_SOUND, NO_SUCH_LEDGER, STORE_FULL,
    TEXT_TOO_LONG,
};
use crate::row::{appended, TOP};
use crate::sha256::digest_of;

/// "up to 128 blocks of 512 bytes"
pub const MOST_BLOCKS: usize = 128;
/// "up to 418 bytes of text"
pub const MOST_TEXT: usize = 418;

const LABEL: usize = 0;
const HEIGHT: usize = 16;
const DIGEST: usize = 24;
const TAIL: usize = 56;
const LENGTH: usize = 88;
const TEXT: usize = 90;

/// What a used block says.
#[derive(Clone, PartialEq, Eq, Debug)]
pub struct Said {
    pub label: [u8; 16],
    pub height: u64,
    pub digest: [u8; 32],
    pub tail: [u8; 32],
    pub text: Vec<u8>,
}

/// "A block of 512 zeros is unused; any other is damaged if its layout, check or entry digest is wrong."
#[derive(Clone, PartialEq, Eq, Debug)]
pub enum Block {
    Unused,
    Damaged,
    Used(Said),
}

/// The sentences of M-104 at which the slips aim, as they are said; `broken_store.rs` says one of them otherwise.
pub trait StoreRules {
    /// "a lent area of up to 128 blocks of 512 bytes"; one of no blocks is whole blocks too (reading G2).
    fn is_area(&self, length: usize) -> bool {
        length % BLOCK == 0 && length / BLOCK <= MOST_BLOCKS
    }

    /// "A block of 512 zeros is unused"
    fn is_unused(&self, block: &[u8]) -> bool {
        are_zero(block)
    }

    /// "the 4-byte check"
    fn has_check(&self, block: &[u8]) -> bool {
        has_right_check(block)
    }

    /// "text length in 2 bytes, up to 418 bytes of text"; an empty text is one (reading G7).
    fn is_text_length(&self, length: usize) -> bool {
        length <= MOST_TEXT
    }

    /// "up to 418 bytes of text, zeros"
    fn may_follow_text(&self, bytes: &[u8]) -> bool {
        are_zero(bytes)
    }

    /// "labels aren't all zero"
    fn is_label(&self, label: &[u8; 16]) -> bool {
        *label != [0; 16]
    }

    /// "heights are 1 to 4,294,967,295"
    fn is_height(&self, height: u64) -> bool {
        (1..=TOP).contains(&height)
    }

    /// "The entry digest is SHA-256 of the text"; the tail is not among what makes a block damaged (reading G1).
    fn has_digest(&self, said: &Said) -> bool {
        said.digest == digest_of(&[&said.text])
    }

    /// Append refuses with 2 where the area "holds a damaged one".
    fn stops_append(&self, blocks: &[Block]) -> bool {
        blocks.contains(&Block::Damaged)
    }

    /// "the label's first block of greatest height"
    fn newest<'a>(&self, blocks: &'a [Block], label: &'a [u8; 16]) -> Option<&'a Said> {
        let greatest = of_label(blocks, label).map(|said| said.height).max()?;
        of_label(blocks, label).find(|said| said.height == greatest)
    }

    /// "the tail follows 01"
    fn tail_after(&self, tail: &[u8; 32], digest: &[u8; 32]) -> [u8; 32] {
        appended(tail, digest)
    }

    /// "into the first unused block"
    fn place_for_next(&self, blocks: &[Block]) -> Option<usize> {
        blocks.iter().position(|block| *block == Block::Unused)
    }

    /// "the first undamaged block that has both answers"; an unused one has nothing (reading G3).
    fn answering(&self, blocks: &[Block], label: &[u8; 16], height: u64) -> Option<usize> {
        having(blocks, label, height).next()
    }

    /// "where no undamaged block answers 35 if the area holds a damaged block"
    fn tells_damage(&self, blocks: &[Block], answering: Option<usize>) -> bool {
        answering.is_none() && blocks.contains(&Block::Damaged)
    }
}

pub struct StoreOf02;

impl StoreRules for StoreOf02 {}

/// The used blocks that are not damaged, with their places.
fn used(blocks: &[Block]) -> impl DoubleEndedIterator<Item = (usize, &Said)> {
    blocks.iter().enumerate().filter_map(|(place, block)| match block {
        Block::Used(said) => Some((place, said)),
        _ => None,
    })
}

pub fn of_label<'a>(blocks: &'a [Block], label: &'a [u8; 16]) -> impl DoubleEndedIterator<Item = &'a Said> {
    used(blocks).map(|(_, said)| said).filter(move |said| said.label == *label)
}

/// The places of the blocks that have both.
pub fn having<'a>(
    blocks: &'a [Block],
    label: &'a [u8; 16],
    height: u64,
) -> impl DoubleEndedIterator<Item = usize> + 'a {
    used(blocks).filter(move |(_, said)| said.label == *label && said.height == height).map(|(place, _)| place)
}

/// What each block of an area says; 2 for the area's size.
pub fn look_at_all(rules: &dyn StoreRules, area: &[u8]) -> Result<Vec<Block>, Refusal> {
    if !rules.is_area(area.len()) {
        return Err(NOT_SOUND);
    }
    Ok(area.chunks_exact(BLOCK).map(|block| look(rules, block)).collect())
}

fn look(rules: &dyn StoreRules, block: &[u8]) -> Block {
    if rules.is_unused(block) {
        return Block::Unused;
    }
    take_apart(rules, block).filter(|said| is_right(rules, said)).map_or(Block::Damaged, Block::Used)
}

/// "label, height in 8 bytes, entry digest, tail, text length in 2 bytes, up to 418 bytes of text, zeros, the 4-byte check"
fn take_apart(rules: &dyn StoreRules, block: &[u8]) -> Option<Said> {
    let length = u16::from_be_bytes(part(block, LENGTH)) as usize;
    if !rules.is_text_length(length) || !rules.has_check(block) {
        return None;
    }
    let (text, rest) = block[TEXT..CHECKED].split_at(length);
    let said = Said {
        label: part(block, LABEL),
        height: u64::from_be_bytes(part(block, HEIGHT)),
        digest: part(block, DIGEST),
        tail: part(block, TAIL),
        text: text.to_vec(),
    };
    rules.may_follow_text(rest).then_some(said)
}

fn is_right(rules: &dyn StoreRules, said: &Said) -> bool {
    rules.is_label(&said.label) && rules.is_height(said.height) && rules.has_digest(said)
}

/// "It appends a text at an expected height": "33 …, 2 …, 14, 11, 12, 34".
pub fn append(rules: &dyn StoreRules, area: &mut [u8], label: &[u8; 16], expected: u64, text: &[u8]) -> Tried {
    if text.len() > MOST_TEXT {
        return Err(TEXT_TOO_LONG.into());
    }
    let blocks = look_at_all(rules, area)?;
    if rules.stops_append(&blocks) {
        return Err(NOT_SOUND.into());
    }
    if *label == [0; 16] {
        return Err(LABEL_ZERO.into());
    }
    // "one above the label's first block of greatest height (height 1 for a label it hasn't got)"
    let (height, tail) = rules.newest(&blocks, label).map_or((0, [0; 32]), |said| (said.height, said.tail));
    if expected != height + 1 {
        return Err(Answer::out_of_order(height));
    }
    if height == TOP {
        return Err(AT_THE_TOP.into());
    }
    let place = rules.place_for_next(&blocks).ok_or(STORE_FULL)?;
    // "The entry digest is SHA-256 of the text, the tail follows 01"
    let digest = digest_of(&[text]);
    let tail = rules.tail_after(&tail, &digest);
    let said = Said { label: *label, height: expected, digest, tail, text: text.to_vec() };
    area[place * BLOCK..][..BLOCK].copy_from_slice(&bytes(&said));
    Ok(Answer::accepted(0))
}

/// "It reads by label and height": "1 …, 2 for the area's size, and where no undamaged block answers 35 …, otherwise 10".
pub fn read(rules: &dyn StoreRules, area: &[u8], label: &[u8; 16], height: u64, output: &mut [u8]) -> Tried {
    if output.len() < BLOCK {
        return Err(AREA_TOO_SHORT.into());
    }
    let blocks = look_at_all(rules, area)?;
    let answering = rules.answering(&blocks, label, height);
    if rules.tells_damage(&blocks, answering) {
        return Err(BLOCK_DAMAGED.into());
    }
    let place = answering.ok_or(NO_SUCH_LEDGER)?;
    // "is copied out whole"
    output[..BLOCK].copy_from_slice(&area[place * BLOCK..][..BLOCK]);
    Ok(Answer::accepted(BLOCK))
}

/// The block that says this.
pub fn bytes(said: &Said) -> [u8; BLOCK] {
    let mut block = [0; BLOCK];
    block[LABEL..HEIGHT].copy_from_slice(&said.label);
    block[HEIGHT..DIGEST].copy_from_slice(&said.height.to_be_bytes());
    block[DIGEST..TAIL].copy_from_slice(&said.digest);
    block[TAIL..LENGTH].copy_from_slice(&said.tail);
    block[LENGTH..TEXT].copy_from_slice(&(said.text.len() as u16).to_be_bytes());
    block[TEXT..TEXT + said.text.len()].copy_from_slice(&said.text);
    let check = check_of(&block);
    block[CHECKED..].copy_from_slice(&check);
    block
}

fn are_zero(bytes: &[u8]) -> bool {
    bytes.iter().all(|byte| *byte == 0)
}

fn part<const N: usize>(bytes: &[u8], start: usize) -> [u8; N] {
    let mut taken = [0; N];
    taken.copy_from_slice(&bytes[start..start + N]);
    taken
}
