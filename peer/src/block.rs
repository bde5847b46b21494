//! This file holds the 512-byte block of rolls and store: its size and its check.

use crate::sha256::digest_of;

/// "512-byte blocks"
pub const BLOCK: usize = 512;
/// "SHA-256 over the first 508"
pub const CHECKED: usize = 508;

/// "then the first 4 bytes of SHA-256 over the first 508"
pub fn check_of(block: &[u8]) -> [u8; 4] {
    let mut check = [0; 4];
    check.copy_from_slice(&digest_of(&[&block[..CHECKED]])[..4]);
    check
}

pub fn has_right_check(block: &[u8]) -> bool {
    block[CHECKED..] == check_of(block)
}
