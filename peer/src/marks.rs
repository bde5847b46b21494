//! This file holds the marks byte of the chip's findings and the rule for positions in a list.

use crate::refusals::{Refusal, NOT_ATTESTED};
use crate::rules::Rules;

/// "bit 0 set means that the key is attested"
pub const ATTESTED: u8 = 1;
/// "bit 1 that its signature on the statement named below is valid"
pub const VALID: u8 = 2;

/// "other bits must be zero, otherwise 22"
pub fn other_bits_are_zero(marks: u8) -> bool {
    marks & !(ATTESTED | VALID) == 0
}

/// "positions strictly rising and below n"
pub fn good_positions(rules: &dyn Rules, positions: &[u8], size: u8) -> bool {
    positions.windows(2).all(|pair| rules.rises(pair[0], pair[1])) && positions.iter().all(|position| *position < size)
}

/// "for each … 17", then 18 or 19: every listed entry is tested, one after the other (readings C20, C21).
pub fn test_marks(marks: u8, not_valid: Refusal) -> Result<(), Refusal> {
    if marks & ATTESTED == 0 {
        return Err(NOT_ATTESTED);
    }
    if marks & VALID == 0 {
        return Err(not_valid);
    }
    Ok(())
}
