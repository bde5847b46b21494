//! This file holds M-103's morning report, from the bytes of a night's file to the bytes printed, and the writing of its blocks.

use crate::block::{check_of, has_right_check, BLOCK, CHECKED};
use crate::call::AskVerdict;
use crate::desk;
use crate::rack;
use crate::refusals::{Refusal, AREA_TOO_SHORT, OTHER_STATEMENT};
use crate::rules::Of01;

/// "The first byte is the type: 1 is a rack; 2 is a receipt"
pub const RACK: u8 = 1;
pub const RECEIPT: u8 = 2;
/// "137 bytes for the statement"
pub const MOST_STATEMENT: usize = 137;
/// "15 pairs"
pub const MOST_SIGNERS: usize = 15;
/// "From the 64th label on, receipts are counted only as `over`."
pub const MOST_LABELS: usize = 63;

/// "asked kind, label, nonce, identity, statement length, 137 bytes for the statement, signer count, 15 pairs"
const KIND: usize = 1;
const LABEL: usize = 2;
const NONCE: usize = 18;
const IDENTITY: usize = 34;
const LENGTH: usize = 66;
const STATEMENT: usize = 67;
const COUNT: usize = 204;
const PAIRS: usize = 205;
const END: usize = 235;

/// What an undamaged receipt says: a verdict's question, statement and signers.
#[derive(Clone, PartialEq, Eq, Debug)]
pub struct Receipt {
    pub kind: u8,
    pub label: [u8; 16],
    pub nonce: [u8; 16],
    pub identity: [u8; 32],
    pub statement: Vec<u8>,
    pub signers: Vec<u8>,
}

#[derive(Clone, PartialEq, Eq, Debug)]
pub enum Block {
    Damaged,
    Rack(Vec<u8>),
    Receipt(Receipt),
}

/// "one line per asked label …: label …, accepted, refused, highest accepted height or `-`"
#[derive(Clone, PartialEq, Eq, Debug)]
pub struct Line {
    pub label: [u8; 16],
    pub accepted: u64,
    pub refused: u64,
    pub top: Option<u64>,
}

/// What is known of the night after the blocks so far.
#[derive(Clone, Default)]
pub struct Night {
    pub blocks: u64,
    pub racks: u64,
    pub over: u64,
    pub damaged: u64,
    /// "the nearest undamaged rack before it"
    pub rack: Option<Vec<u8>>,
    /// "in order of first appearance"
    pub lines: Vec<Line>,
}

/// The places of a block that its contents leave unused.
#[derive(Clone, Copy, PartialEq, Eq, Debug)]
pub enum Unused {
    AfterRack,
    AfterStatement,
    AfterPairs,
    AfterReceipt,
}

/// The sentences of M-103 at which the slips aim, as they are said; `broken_report.rs` says one of them otherwise.
pub trait ReportRules {
    /// "a last short block" is damaged.
    fn is_whole(&self, block: &[u8]) -> bool {
        block.len() == BLOCK
    }

    /// "each ending in 01's 4-byte check"
    fn has_check(&self, block: &[u8]) -> bool {
        has_right_check(block)
    }

    /// "unused bytes zero"
    fn is_unused(&self, _place: Unused, bytes: &[u8]) -> bool {
        bytes.iter().all(|byte| *byte == 0)
    }

    /// "a rack that breaks 01" is damaged; one of two keepers is as good as any (M-107: "receipts … of two stay valid").
    fn is_rack(&self, bytes: &[u8]) -> bool {
        rack::read(bytes).is_ok()
    }

    /// "a statement length over 137" is damaged.
    fn is_statement_length(&self, length: usize) -> bool {
        length <= MOST_STATEMENT
    }

    /// "a signer count over 15" is damaged.
    fn is_signer_count(&self, count: usize) -> bool {
        count <= MOST_SIGNERS
    }

    /// Whatever else a receipt says is no damage (readings F1, F2).
    fn is_receipt(&self, _receipt: &Receipt) -> bool {
        true
    }

    /// "judged under the nearest undamaged rack before it"
    fn seat(&self, night: &mut Night, rack: Vec<u8>) {
        night.rack = Some(rack);
    }

    /// A damaged block has no label line and unseats no rack (reading F4).
    fn pass_over(&self, _night: &mut Night, _block: &[u8]) {}

    /// The line of a label, a new one at its first appearance; none "from the 64th label on".
    fn line<'a>(&self, night: &'a mut Night, label: &[u8; 16]) -> Option<&'a mut Line> {
        if night.lines.iter().all(|line| line.label != *label) && night.lines.len() < MOST_LABELS {
            night.lines.push(Line { label: *label, accepted: 0, refused: 0, top: None });
        }
        night.lines.iter_mut().find(|line| line.label == *label)
    }

    /// The height of an accepted receipt; "refused if there is none", that is, no rack before it.
    fn judge(&self, rack: Option<&[u8]>, receipt: &Receipt) -> Option<u64> {
        judged_by_desk(rack?, receipt)
    }

    /// "highest accepted height"
    fn top(&self, top: Option<u64>, height: u64) -> u64 {
        top.map_or(height, |top| top.max(height))
    }

    /// "It prints a heading, one line per asked label …, then a line of totals."
    fn printed(&self, night: &Night) -> String {
        let lines: String = night.lines.iter().map(printed_line).collect();
        let Night { blocks, racks, over, damaged, .. } = night;
        format!("label accepted refused top\n{lines}blocks {blocks} racks {racks} over {over} damaged {damaged}\n")
    }
}

pub struct ReportOf02;

impl ReportRules for ReportOf02 {}

/// The report of a file.
pub fn report(rules: &dyn ReportRules, file: &[u8]) -> Vec<u8> {
    let mut night = Night::default();
    for block in file.chunks(BLOCK) {
        night.blocks += 1;
        match look(rules, block) {
            Block::Damaged => {
                night.damaged += 1;
                rules.pass_over(&mut night, block);
            }
            Block::Rack(rack) => {
                night.racks += 1;
                rules.seat(&mut night, rack);
            }
            Block::Receipt(receipt) => count(rules, &mut night, &receipt),
        }
    }
    rules.printed(&night).into_bytes()
}

/// With 63 labels known a receipt of a further one is only over, and is not judged (reading F3).
fn count(rules: &dyn ReportRules, night: &mut Night, receipt: &Receipt) {
    let rack = night.rack.clone();
    let Some(line) = rules.line(night, &receipt.label) else {
        night.over += 1;
        return;
    };
    match rules.judge(rack.as_deref(), receipt) {
        Some(height) => {
            line.accepted += 1;
            line.top = Some(rules.top(line.top, height));
        }
        None => line.refused += 1,
    }
}

/// The retained identity is the receipt's own field (reading F5).
pub fn judged_by_desk(rack: &[u8], receipt: &Receipt) -> Option<u64> {
    let ask = AskVerdict {
        identity: receipt.identity,
        rack: rack.to_vec(),
        kind: receipt.kind,
        label: receipt.label,
        nonce: receipt.nonce,
        statement: receipt.statement.clone(),
        signers: receipt.signers.clone(),
    };
    desk::verdict(&Of01, &ask).ok().map(|statement| statement.height)
}

/// "label in lower-case hex, accepted, refused, highest accepted height or `-`"
pub fn printed_line(line: &Line) -> String {
    let label: String = line.label.iter().map(|byte| format!("{byte:02x}")).collect();
    let top = line.top.map_or("-".to_string(), |height| height.to_string());
    format!("{label} {} {} {top}\n", line.accepted, line.refused)
}

/// "Damaged are: a last short block, a bad check, another type, a rack that breaks 01, a statement length over 137, a signer
/// count over 15, an unused byte that isn't zero."
pub fn look(rules: &dyn ReportRules, block: &[u8]) -> Block {
    if !rules.is_whole(block) || !rules.has_check(block) {
        return Block::Damaged;
    }
    let found = match block[0] {
        RACK => look_at_rack(rules, block),
        RECEIPT => look_at_receipt(rules, block),
        _ => None,
    };
    found.unwrap_or(Block::Damaged)
}

/// The type, then the rack (reading F8).
fn look_at_rack(rules: &dyn ReportRules, block: &[u8]) -> Option<Block> {
    let end = 2 + 32 * block[1] as usize;
    let bytes = block[..CHECKED].get(1..end)?;
    let is_one = rules.is_rack(bytes) && rules.is_unused(Unused::AfterRack, &block[end..CHECKED]);
    is_one.then(|| Block::Rack(bytes.to_vec()))
}

fn look_at_receipt(rules: &dyn ReportRules, block: &[u8]) -> Option<Block> {
    let (length, count) = (block[LENGTH] as usize, block[COUNT] as usize);
    if !rules.is_statement_length(length) || !rules.is_signer_count(count) {
        return None;
    }
    let (statement, after_statement) = block[STATEMENT..COUNT].split_at(length);
    let (signers, after_pairs) = block[PAIRS..END].split_at(2 * count);
    let unused = rules.is_unused(Unused::AfterStatement, after_statement)
        && rules.is_unused(Unused::AfterPairs, after_pairs)
        && rules.is_unused(Unused::AfterReceipt, &block[END..CHECKED]);
    let receipt = Receipt {
        kind: block[KIND],
        label: part(block, LABEL),
        nonce: part(block, NONCE),
        identity: part(block, IDENTITY),
        statement: statement.to_vec(),
        signers: signers.to_vec(),
    };
    (unused && rules.is_receipt(&receipt)).then_some(Block::Receipt(receipt))
}

fn part<const N: usize>(bytes: &[u8], start: usize) -> [u8; N] {
    let mut taken = [0; N];
    taken.copy_from_slice(&bytes[start..start + N]);
    taken
}

/// A rack's block; 6 for a rack that breaks 01, then 1 for an area under a block.
pub fn write_rack_block(bytes: &[u8], area: &mut [u8]) -> Result<usize, Refusal> {
    rack::read(bytes)?;
    put(area, &[&[RACK], bytes])
}

/// A receipt's block; 23 for what its places cannot hold, then 1 for an area under a block.
pub fn write_receipt(receipt: &Receipt, area: &mut [u8]) -> Result<usize, Refusal> {
    let Receipt { kind, label, nonce, identity, statement, signers } = receipt;
    let whole_pairs = signers.len() % 2 == 0 && signers.len() / 2 <= MOST_SIGNERS;
    if statement.len() > MOST_STATEMENT || !whole_pairs {
        return Err(OTHER_STATEMENT);
    }
    let (length, count) = (statement.len() as u8, (signers.len() / 2) as u8);
    let after = vec![0; MOST_STATEMENT - statement.len()];
    put(area, &[&[RECEIPT, *kind], label, nonce, identity, &[length], statement, &after, &[count], signers])
}

/// "a file of 512-byte blocks, each ending in 01's 4-byte check, unused bytes zero"
fn put(area: &mut [u8], parts: &[&[u8]]) -> Result<usize, Refusal> {
    if area.len() < BLOCK {
        return Err(AREA_TOO_SHORT);
    }
    let mut block = parts.concat();
    block.resize(CHECKED, 0);
    let check = check_of(&block);
    area[..CHECKED].copy_from_slice(&block);
    area[CHECKED..BLOCK].copy_from_slice(&check);
    Ok(BLOCK)
}
