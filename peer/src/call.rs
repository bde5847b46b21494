//! This file holds a call as data: what is asked, what is lent and what is answered. Records and answers lie as in the C header.

use crate::rack::Rack;
use crate::record::Head;
use crate::refusals::{Refusal, OUT_OF_ORDER};
use crate::report::Receipt;
use crate::roll::Roll;
use crate::row::Row;
use crate::statement::Statement;

/// The record and the output area that a call gets; the table may have any length.
#[derive(Clone, PartialEq, Eq, Debug)]
pub struct Lent {
    pub head: Head,
    pub table: Vec<Row>,
    pub area: Vec<u8>,
}

impl Lent {
    /// The rows that the head counts, of a sound record.
    pub fn used(&self) -> &[Row] {
        &self.table[..self.head.count as usize]
    }
}

#[derive(Clone, Debug)]
pub enum Call {
    Hash {
        input: Vec<u8>,
    },
    ReadRack {
        bytes: Vec<u8>,
    },
    WriteRack {
        rack: Rack,
    },
    ReadRoll {
        bytes: Vec<u8>,
    },
    WriteRoll {
        roll: Box<Roll>,
    },
    ReadStatement {
        bytes: Vec<u8>,
    },
    WriteStatement {
        statement: Statement,
    },
    Wake {
        key: [u8; 32],
    },
    Initialise {
        identity: [u8; 32],
        roll: Vec<u8>,
        previous: Vec<u8>,
        own: Vec<u8>,
    },
    New {
        label: [u8; 16],
    },
    Append {
        label: [u8; 16],
        entry: [u8; 32],
        expected: u64,
    },
    Read {
        label: [u8; 16],
        nonce: [u8; 16],
    },
    AppendAndRead {
        label: [u8; 16],
        entry: [u8; 32],
        expected: u64,
        nonce: [u8; 16],
    },
    /// M-100; the list is bytes, of which a length may be no whole digests.
    AppendMany {
        label: [u8; 16],
        list: Vec<u8>,
        expected: u64,
    },
    Finalise {
        next: Vec<u8>,
    },
    Activate(Papers),
    BytesToCheck {
        papers: Papers,
        list: u8,
        entry: u64,
    },
    Verdict(AskVerdict),
    /// M-104; the store is the area lent.
    StoreAppend {
        label: [u8; 16],
        expected: u64,
        text: Vec<u8>,
    },
    /// M-104; the block is copied to the area lent.
    StoreRead {
        store: Vec<u8>,
        label: [u8; 16],
        height: u64,
    },
    /// M-106; the first so many bytes of the area lent are the roll's area, the others the bundle's.
    MakeBundle {
        given: Given,
        roll_area: usize,
    },
    /// M-103; the rack's block of a night's file.
    WriteRackBlock {
        rack: Vec<u8>,
    },
    /// M-103; the receipt's block of a night's file.
    WriteReceipt(Receipt),
}

/// "previous rack, own rack, bundle"
#[derive(Clone, Debug)]
pub struct Papers {
    pub previous: Vec<u8>,
    pub own: Vec<u8>,
    pub bundle: Vec<u8>,
}

/// M-106: "both racks, the finalised rolls with their marks, the new entries and the cabinet store"; the entries are the front of
/// a bundle, up to the lists.
#[derive(Clone, Debug)]
pub struct Given {
    pub previous: Vec<u8>,
    pub own: Vec<u8>,
    pub entries: Vec<u8>,
    pub store: Vec<u8>,
}

/// "retained identity, rack, asked kind 1 to 3, label, nonce, statement, signers"
#[derive(Clone, Debug)]
pub struct AskVerdict {
    pub identity: [u8; 32],
    pub rack: Vec<u8>,
    pub kind: u8,
    pub label: [u8; 16],
    pub nonce: [u8; 16],
    pub statement: Vec<u8>,
    pub signers: Vec<u8>,
}

/// "On acceptance a call returns 0 and the number of bytes written" … "A refusal returns its number (11 also the height)"
/// … "Result fields not named for an answer are zero."
#[repr(C)]
#[derive(Clone, Copy, PartialEq, Eq, Debug, Default)]
pub struct Answer {
    pub number: Refusal,
    pub written: usize,
    pub height: u64,
    /// "marked as a repeat with nothing to sign"
    pub repeat: bool,
}

impl Answer {
    pub fn accepted(written: usize) -> Answer {
        Answer { written, ..Answer::default() }
    }

    /// 11: "out of order; the present height is given"
    pub fn out_of_order(height: u64) -> Answer {
        Answer { height, ..OUT_OF_ORDER.into() }
    }
}

impl From<Refusal> for Answer {
    fn from(number: Refusal) -> Answer {
        Answer { number, ..Answer::default() }
    }
}

/// The answer of the hash; the digest is zero in a refusal.
#[derive(Clone, Copy, PartialEq, Eq, Debug)]
pub struct HashRead {
    pub number: Refusal,
    pub digest: [u8; 32],
}

/// The answer of reading a rack, which is zero in a refusal.
#[repr(C)]
#[derive(Clone, Copy, PartialEq, Eq, Debug)]
pub struct RackRead {
    pub number: Refusal,
    pub rack: Rack,
}

/// The answer of reading a roll, which is zero in a refusal.
#[repr(C)]
#[derive(Clone, Copy, PartialEq, Eq, Debug)]
pub struct RollRead {
    pub number: Refusal,
    pub roll: Roll,
}

/// The answer of reading a statement, which is zero in a refusal.
#[repr(C)]
#[derive(Clone, Copy, PartialEq, Eq, Debug)]
pub struct StatementRead {
    pub number: Refusal,
    pub statement: Statement,
}

/// "Gives tail and height." Both are zero in a refusal.
#[repr(C)]
#[derive(Clone, Copy, PartialEq, Eq, Debug)]
pub struct Verdict {
    pub number: Refusal,
    pub tail: [u8; 32],
    pub height: u64,
}

/// The answer of the maker: the bytes written to the roll's area and to the bundle's, both 0 in a refusal.
#[repr(C)]
#[derive(Clone, Copy, PartialEq, Eq, Debug, Default)]
pub struct Made {
    pub number: Refusal,
    pub roll: usize,
    pub bundle: usize,
}

/// All that a call answers; with what is lent it is the whole outcome.
#[derive(Clone, PartialEq, Eq, Debug)]
pub enum Reply {
    Hash(HashRead),
    Rack(Box<RackRead>),
    Roll(Box<RollRead>),
    Statement(Box<StatementRead>),
    Answer(Answer),
    Verdict(Verdict),
    Made(Made),
}

impl Reply {
    pub fn number(&self) -> Refusal {
        match self {
            Reply::Hash(reply) => reply.number,
            Reply::Rack(reply) => reply.number,
            Reply::Roll(reply) => reply.number,
            Reply::Statement(reply) => reply.number,
            Reply::Answer(reply) => reply.number,
            Reply::Verdict(reply) => reply.number,
            Reply::Made(reply) => reply.number,
        }
    }

    /// The bytes written to the area; 0 for calls that have none.
    pub fn written(&self) -> usize {
        self.answer().written
    }

    /// What the maker wrote; nothing for other calls.
    pub fn made(&self) -> Made {
        match self {
            Reply::Made(made) => *made,
            _ => Made::default(),
        }
    }

    /// The answer of a call that writes or changes; zero for readers and verdicts.
    pub fn answer(&self) -> Answer {
        match self {
            Reply::Answer(answer) => *answer,
            _ => Answer::default(),
        }
    }
}
