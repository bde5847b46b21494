//! This file holds the refusal numbers of 01's table, each with 01's meaning, and 02's.

/// A refusal is 01's number; 0 is acceptance and never stands as a refusal.
pub type Refusal = u32;

/// "output area shorter than the number above"
pub const AREA_TOO_SHORT: Refusal = 1;
/// "record not sound"
pub const NOT_SOUND: Refusal = 2;
/// "status is not blank"
pub const NOT_BLANK: Refusal = 3;
/// "not active"
pub const NOT_ACTIVE: Refusal = 4;
/// "not prepared"
pub const NOT_PREPARED: Refusal = 5;
/// "rack breaks the layout"
pub const RACK_BROKEN: Refusal = 6;
/// "own key not in own rack"
pub const OWN_KEY_MISSING: Refusal = 7;
/// "roll without previous rack, or the reverse"
pub const ONE_PRESENT_ALONE: Refusal = 8;
/// "ledger exists"
pub const LEDGER_EXISTS: Refusal = 9;
/// "no such ledger"
pub const NO_SUCH_LEDGER: Refusal = 10;
/// "out of order; the present height is given"
pub const OUT_OF_ORDER: Refusal = 11;
/// "height is 4,294,967,295"
pub const AT_THE_TOP: Refusal = 12;
/// "63 ledgers already"
pub const TABLE_FULL: Refusal = 13;
/// "label all zero"
pub const LABEL_ZERO: Refusal = 14;
/// "roll breaks the layout"
pub const ROLL_BROKEN: Refusal = 15;
/// "fewer entries than a majority"
pub const NO_MAJORITY: Refusal = 16;
/// "not attested"
pub const NOT_ATTESTED: Refusal = 17;
/// "finalise or receipt signature not valid"
pub const SIGNATURE_NOT_VALID: Refusal = 18;
/// "initialise signature not valid"
pub const INITIALISE_NOT_VALID: Refusal = 19;
/// "roll not derived"
pub const NOT_DERIVED: Refusal = 20;
/// "rack digest differs from the record's"
pub const OTHER_RACK: Refusal = 21;
/// "bundle or signer list breaks the layout"
pub const LIST_BROKEN: Refusal = 22;
/// "statement is not the one asked for: length, layout, kind, identity, rack digest or label"
pub const OTHER_STATEMENT: Refusal = 23;
/// "nonce differs"
pub const OTHER_NONCE: Refusal = 24;
/// "hash input over 65,536 bytes"
pub const HASH_INPUT_TOO_LONG: Refusal = 25;

/// M-100: "32 for a list of 0 or more than 32"
pub const NOT_1_TO_32: Refusal = 32;
/// M-104: "33 for text over 418 bytes"
pub const TEXT_TOO_LONG: Refusal = 33;
/// M-104: "34 exactly when every block is used"
pub const STORE_FULL: Refusal = 34;
/// M-104: "where no undamaged block answers 35 if the area holds a damaged block"
pub const BLOCK_DAMAGED: Refusal = 35;
/// M-106: "36 when the store's read refuses a needed entry, two highest rows differ, or the digests don't lead to the highest tail"
pub const NOT_LED_UP: Refusal = 36;
/// M-106: "37 when the roll passes 63 rows, a count 64 or the bundle its length"
pub const DOES_NOT_FIT: Refusal = 37;
/// M-107: "38 directly after 6 for the own rack in Initialise and for the next rack in Finalise"
pub const RACK_OF_TWO: Refusal = 38;
/// M-108: "neither may get more than 31 rows by New"
pub const COMPANY_FULL: Refusal = 39;
