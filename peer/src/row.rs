//! This file holds the row of a ledger, its rules and its 56 bytes, and the rule of appending.

use crate::sha256::digest_of;

/// "Heights are 0 to 4,294,967,295."
pub const TOP: u64 = 4_294_967_295;

/// "nine row places of 56 bytes"
pub const ROW_BYTES: usize = 56;

/// "label 16 bytes (not all zero), tail 32, height 8"
#[repr(C)]
#[derive(Clone, Copy, PartialEq, Eq, Debug)]
pub struct Row {
    pub label: [u8; 16],
    pub tail: [u8; 32],
    pub height: u64,
}

impl Row {
    pub const ZERO: Row = Row { label: [0; 16], tail: [0; 32], height: 0 };

    /// "label 16 bytes (not all zero)" … "Heights are 0 to 4,294,967,295. Height 0 has the all-zero tail."
    pub fn is_good(&self) -> bool {
        self.label != [0; 16] && good_height(&self.tail, self.height)
    }

    /// "Numbers are big-endian."
    pub fn bytes(&self) -> [u8; ROW_BYTES] {
        let mut bytes = [0; ROW_BYTES];
        bytes[..16].copy_from_slice(&self.label);
        bytes[16..48].copy_from_slice(&self.tail);
        bytes[48..].copy_from_slice(&self.height.to_be_bytes());
        bytes
    }

    /// The row that stands in a place of 56 bytes.
    pub fn from_place(place: &[u8]) -> Row {
        let mut row = Row::ZERO;
        row.label.copy_from_slice(&place[..16]);
        row.tail.copy_from_slice(&place[16..48]);
        let mut height = [0; 8];
        height.copy_from_slice(&place[48..ROW_BYTES]);
        row.height = u64::from_be_bytes(height);
        row
    }
}

/// "Heights are 0 to 4,294,967,295. Height 0 has the all-zero tail." One direction only (reading A3).
pub fn good_height(tail: &[u8; 32], height: u64) -> bool {
    height <= TOP && (height != 0 || *tail == [0; 32])
}

/// "Append: new tail = SHA-256 of 0x01, old tail, the entry's 32-byte digest."
pub fn appended(tail: &[u8; 32], entry: &[u8; 32]) -> [u8; 32] {
    digest_of(&[&[0x01], tail, entry])
}
