//! The desk's verdict.

use crate::{sys, Digest, Label, Nonce, Refusal};

/// The kinds of statement that a desk may ask for.
#[derive(Clone, Copy, PartialEq, Eq, Debug)]
pub enum Kind {
    /// a new ledger's receipt
    New = 1,
    /// an append's receipt
    Append = 2,
    /// a reading, which has a nonce
    Read = 3,
}

/// What a desk asks.
#[derive(Clone, Copy, PartialEq, Eq, Debug)]
pub struct Question {
    /// the identity that the desk has retained
    pub identity: Digest,
    /// the ledger
    pub label: Label,
    /// counts for readings only
    pub nonce: Nonce,
    /// the kind of statement
    pub kind: Kind,
}

impl Question {
    fn asked(&self) -> sys::Question {
        sys::Question { identity: self.identity, label: self.label, nonce: self.nonce, kind: self.kind as u8 }
    }
}

fn pairs_of(signers: &[(u8, u8)]) -> Vec<u8> {
    signers.iter().flat_map(|&(position, marks)| [position, marks]).collect()
}

/// What the desk may show.
#[derive(Clone, Copy, PartialEq, Eq, Debug)]
pub struct Found {
    /// the ledger's tail
    pub tail: Digest,
    /// the ledger's height
    pub height: u64,
}

/// Whether a rack vouches for a ledger's tail and height. Signers are positions in the rack, strictly rising, each with the marks that the desk's chip found of
/// that key's signature on the statement. With a refusal the desk shows nothing.
///
/// ```
/// use mahqurith::{verdict, Question, Kind, Refusal};
///
/// let question = Question { identity: [0; 32], label: [1; 16], nonce: [2; 16], kind: Kind::Read };
/// assert_eq!(verdict(&question, &[], &[], &[]), Err(Refusal::RackBroken));
/// ```
pub fn verdict(question: &Question, rack: &[u8], statement: &[u8], signers: &[(u8, u8)]) -> Result<Found, Refusal> {
    let pairs = pairs_of(signers);
    let finding = unsafe {
        sys::mahqurith_verdict(question.asked(), rack.as_ptr(), rack.len(), statement.as_ptr(), statement.len(), pairs.as_ptr(), pairs.len())
    };
    Refusal::unless_accepted(finding.number, 0)?;
    Ok(Found { tail: finding.tail, height: finding.height })
}

/// A block of the morning report's file, which the program `report` reads.
pub type ReportBlock = [u8; 512];

/// The block of a rack, under which the receipts behind it are judged.
///
/// ```
/// use mahqurith::{rack_block, Refusal};
///
/// assert_eq!(rack_block(&[0]), Err(Refusal::RackBroken));
/// ```
pub fn rack_block(rack: &[u8]) -> Result<ReportBlock, Refusal> {
    let mut block = [0; 512];
    let written = unsafe { sys::mahqurith_write_rack_block(rack.as_ptr(), rack.len(), block.as_mut_ptr(), block.len()) };
    Refusal::unless_accepted(written.number, 0).map(|()| block)
}

/// The block of a receipt, from what a verdict was asked with, whether or not it was accepted.
///
/// ```
/// use mahqurith::{receipt_block, Question, Kind, Refusal};
///
/// let question = Question { identity: [0; 32], label: [1; 16], nonce: [2; 16], kind: Kind::Append };
/// let block = receipt_block(&question, &[7; 121], &[(0, 3), (2, 3)])?;
/// assert_eq!((block[0], block[1], block[66], block[204]), (2, 2, 121, 2));
/// assert_eq!(receipt_block(&question, &[7; 138], &[]), Err(Refusal::StatementNotAsked));
/// # Ok::<(), Refusal>(())
/// ```
pub fn receipt_block(question: &Question, statement: &[u8], signers: &[(u8, u8)]) -> Result<ReportBlock, Refusal> {
    let pairs = pairs_of(signers);
    let mut block = [0; 512];
    let written = unsafe {
        sys::mahqurith_write_receipt(
            question.asked(),
            statement.as_ptr(),
            statement.len(),
            pairs.as_ptr(),
            pairs.len(),
            block.as_mut_ptr(),
            block.len(),
        )
    };
    Refusal::unless_accepted(written.number, 0).map(|()| block)
}
