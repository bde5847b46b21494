//! This file holds the C header's structs that no rule of 01 needs, as the header has them.

use crate::call::{Answer, AskVerdict};
use crate::report::Receipt;

#[repr(C)]
#[derive(Clone, Copy)]
pub struct Asked {
    pub key: [u8; 32],
    pub identity: [u8; 32],
    pub label: [u8; 16],
    pub entry: [u8; 32],
    pub nonce: [u8; 16],
    pub expected: u64,
    pub number: u64,
    pub list: u8,
}

impl Asked {
    /// "Each call reads the fields that it names and no other": the others hold what would be told from any input.
    pub const UNREAD: Asked = Asked {
        key: [0xc3; 32],
        identity: [0xc3; 32],
        label: [0xc3; 16],
        entry: [0xc3; 32],
        nonce: [0xc3; 16],
        expected: u64::MAX / 3,
        number: u64::MAX / 3,
        list: 0xc3,
    };
}

#[repr(C)]
#[derive(Clone, Copy)]
pub struct Question {
    pub identity: [u8; 32],
    pub label: [u8; 16],
    pub nonce: [u8; 16],
    pub kind: u8,
}

impl From<&AskVerdict> for Question {
    fn from(ask: &AskVerdict) -> Question {
        Question { identity: ask.identity, label: ask.label, nonce: ask.nonce, kind: ask.kind }
    }
}

impl From<&Receipt> for Question {
    fn from(receipt: &Receipt) -> Question {
        Question { identity: receipt.identity, label: receipt.label, nonce: receipt.nonce, kind: receipt.kind }
    }
}

#[repr(C)]
#[derive(Clone, Copy)]
pub struct Written {
    pub number: u32,
    pub written: usize,
}

impl From<Written> for Answer {
    fn from(Written { number, written }: Written) -> Answer {
        Answer { number, written, ..Answer::default() }
    }
}

#[repr(C)]
#[derive(Clone, Copy)]
pub struct Place {
    pub label: [u8; 16],
    pub height: u64,
}

#[repr(C)]
#[derive(Clone, Copy)]
pub struct Stored {
    pub number: u32,
    pub written: usize,
    pub height: u64,
}

impl From<Stored> for Answer {
    fn from(Stored { number, written, height }: Stored) -> Answer {
        Answer { number, written, height, ..Answer::default() }
    }
}
