//! The C interface as `include/mahqurith.h` declares it; "What a caller owes" stands there. Slices and borrows give all of it: an empty slice has a pointer that
//! is not null, which is more than is asked, and `&mut` lets one call at a time have a record.

/// A keeper's head.
#[repr(C)]
#[derive(Clone, Copy, PartialEq, Eq, Debug)]
pub struct Head {
    /// 0 blank, 1 prepared, 2 active, 3 finalised
    pub status: u8,
    /// rows in use
    pub count: u8,
    /// the box's own key
    pub key: [u8; 32],
    /// digest of the rack that was founded
    pub identity: [u8; 32],
    /// digest of the own rack
    pub own: [u8; 32],
    /// digest of the previous rack, or zero
    pub previous: [u8; 32],
    /// digest of the next rack, or zero
    pub next: [u8; 32],
}

/// A ledger's row.
#[repr(C)]
#[derive(Clone, Copy, PartialEq, Eq, Debug)]
pub struct Row {
    /// the ledger's name
    pub label: [u8; 16],
    /// its newest hash
    pub tail: [u8; 32],
    /// its height
    pub height: u64,
}

/// What a keeper is asked.
#[repr(C)]
#[derive(Clone, Copy, Default)]
#[allow(missing_docs)]
pub struct Asked {
    pub key: [u8; 32],
    pub identity: [u8; 32],
    pub label: [u8; 16],
    pub entry: [u8; 32],
    pub nonce: [u8; 16],
    pub expected: u64,
    pub number: u64,
    pub list: u8,
}

/// What a call answers.
#[repr(C)]
#[derive(Clone, Copy, PartialEq, Eq, Debug)]
#[allow(missing_docs)]
pub struct Answer {
    pub number: u32,
    pub written: usize,
    pub height: u64,
    pub repeat: bool,
}

/// What a desk asks.
#[repr(C)]
#[derive(Clone, Copy)]
#[allow(missing_docs)]
pub struct Question {
    pub identity: [u8; 32],
    pub label: [u8; 16],
    pub nonce: [u8; 16],
    pub kind: u8,
}

/// What a desk may show.
#[repr(C)]
#[derive(Clone, Copy, PartialEq, Eq, Debug)]
#[allow(missing_docs)]
pub struct Finding {
    pub number: u32,
    pub tail: [u8; 32],
    pub height: u64,
}

/// What a writing answers.
#[repr(C)]
#[derive(Clone, Copy, PartialEq, Eq, Debug)]
#[allow(missing_docs)]
pub struct Written {
    pub number: u32,
    pub written: usize,
}

/// A rack taken apart.
#[repr(C)]
#[derive(Clone, Copy, PartialEq, Eq, Debug)]
#[allow(missing_docs)]
pub struct Rack {
    pub count: u8,
    pub keys: [[u8; 32]; 15],
}

/// A roll taken apart.
#[repr(C)]
#[derive(Clone, Copy, PartialEq, Eq, Debug)]
#[allow(missing_docs)]
pub struct Roll {
    pub count: u8,
    pub rows: [Row; 63],
}

/// A statement taken apart; the fields that its kind has not are zero.
#[repr(C)]
#[derive(Clone, Copy, PartialEq, Eq, Debug, Default)]
pub struct Statement {
    /// 1 new, 2 append, 3 read, 4 finalise, 5 initialise
    pub kind: u8,
    /// the identity
    pub identity: [u8; 32],
    /// own rack digest
    pub own: [u8; 32],
    /// of a finalise the next rack's digest, of an initialise the previous one's
    pub other: [u8; 32],
    /// roll digest
    pub roll: [u8; 32],
    /// the ledger's name
    pub label: [u8; 16],
    /// the ledger's tail
    pub tail: [u8; 32],
    /// the nonce of a reading
    pub nonce: [u8; 16],
    /// the ledger's height
    pub height: u64,
}

/// A label and a height of the store.
#[repr(C)]
#[derive(Clone, Copy, PartialEq, Eq, Debug)]
#[allow(missing_docs)]
pub struct Place {
    pub label: [u8; 16],
    pub height: u64,
}

/// What a call of the store answers.
#[repr(C)]
#[derive(Clone, Copy, PartialEq, Eq, Debug)]
#[allow(missing_docs)]
pub struct Stored {
    pub number: u32,
    pub written: usize,
    pub height: u64,
}

/// What the maker of bundles answers.
#[repr(C)]
#[derive(Clone, Copy, PartialEq, Eq, Debug)]
#[allow(missing_docs)]
pub struct Made {
    pub number: u32,
    pub roll: usize,
    pub bundle: usize,
}

/// An entry's position in its rack: zero with a refusal.
#[repr(C)]
#[derive(Clone, Copy, PartialEq, Eq, Debug)]
#[allow(missing_docs)]
pub struct Position {
    pub number: u32,
    pub position: u8,
}

/// A reading: 0 and what was read, or a refusal and zeros.
#[repr(C)]
#[derive(Clone, Copy, PartialEq, Eq, Debug)]
#[allow(missing_docs)]
pub struct Reading<T> {
    pub number: u32,
    pub contents: T,
}

#[allow(missing_docs)]
extern "C" {
    pub fn mahqurith_wake(head: *mut Head, rows: *mut Row, row_count: usize, asked: Asked) -> Answer;
    pub fn mahqurith_initialise(
        head: *mut Head,
        rows: *mut Row,
        row_count: usize,
        asked: Asked,
        roll: *const u8,
        roll_length: usize,
        previous: *const u8,
        previous_length: usize,
        own: *const u8,
        own_length: usize,
        area: *mut u8,
        area_length: usize,
    ) -> Answer;
    pub fn mahqurith_new(head: *mut Head, rows: *mut Row, row_count: usize, asked: Asked, area: *mut u8, area_length: usize) -> Answer;
    pub fn mahqurith_append(head: *mut Head, rows: *mut Row, row_count: usize, asked: Asked, area: *mut u8, area_length: usize) -> Answer;
    pub fn mahqurith_append_many(
        head: *mut Head,
        rows: *mut Row,
        row_count: usize,
        asked: Asked,
        list: *const u8,
        list_length: usize,
        area: *mut u8,
        area_length: usize,
    ) -> Answer;
    pub fn mahqurith_read(head: *const Head, rows: *const Row, row_count: usize, asked: Asked, area: *mut u8, area_length: usize) -> Answer;
    pub fn mahqurith_append_and_read(
        head: *mut Head,
        rows: *mut Row,
        row_count: usize,
        asked: Asked,
        area: *mut u8,
        area_length: usize,
    ) -> Answer;
    pub fn mahqurith_finalise(
        head: *mut Head,
        rows: *const Row,
        row_count: usize,
        next: *const u8,
        next_length: usize,
        area: *mut u8,
        area_length: usize,
    ) -> Answer;
    pub fn mahqurith_activate(
        head: *mut Head,
        rows: *const Row,
        row_count: usize,
        previous: *const u8,
        previous_length: usize,
        own: *const u8,
        own_length: usize,
        bundle: *const u8,
        bundle_length: usize,
    ) -> Answer;
    pub fn mahqurith_bytes_to_check(
        head: *const Head,
        rows: *const Row,
        row_count: usize,
        asked: Asked,
        previous: *const u8,
        previous_length: usize,
        own: *const u8,
        own_length: usize,
        bundle: *const u8,
        bundle_length: usize,
        area: *mut u8,
        area_length: usize,
    ) -> Answer;
    pub fn mahqurith_bundle_position(bundle: *const u8, bundle_length: usize, list: u8, number: u64) -> Position;
    pub fn mahqurith_bundle_mark(bundle: *mut u8, bundle_length: usize, list: u8, number: u64, marks: u8) -> u32;
    pub fn mahqurith_verdict(
        question: Question,
        rack: *const u8,
        rack_length: usize,
        statement: *const u8,
        statement_length: usize,
        signers: *const u8,
        signers_length: usize,
    ) -> Finding;
    pub fn mahqurith_read_rack(bytes: *const u8, length: usize) -> Reading<Rack>;
    pub fn mahqurith_write_rack(rack: Rack, area: *mut u8, area_length: usize) -> Written;
    pub fn mahqurith_rack_digest(rack: *const u8, rack_length: usize, area: *mut u8, area_length: usize) -> Written;
    pub fn mahqurith_read_roll(bytes: *const u8, length: usize) -> Reading<Roll>;
    pub fn mahqurith_write_roll(roll: Roll, area: *mut u8, area_length: usize) -> Written;
    pub fn mahqurith_read_statement(bytes: *const u8, length: usize) -> Reading<Statement>;
    pub fn mahqurith_write_statement(statement: Statement, area: *mut u8, area_length: usize) -> Written;
    pub fn mahqurith_write_rack_block(rack: *const u8, rack_length: usize, area: *mut u8, area_length: usize) -> Written;
    pub fn mahqurith_write_receipt(
        question: Question,
        statement: *const u8,
        statement_length: usize,
        signers: *const u8,
        signers_length: usize,
        area: *mut u8,
        area_length: usize,
    ) -> Written;
    pub fn mahqurith_store_append(area: *mut u8, area_length: usize, asked: Place, text: *const u8, text_length: usize) -> Stored;
    pub fn mahqurith_store_read(area: *const u8, area_length: usize, asked: Place, output: *mut u8, output_length: usize) -> Stored;
    pub fn mahqurith_make_bundle(
        previous: *const u8,
        previous_length: usize,
        own: *const u8,
        own_length: usize,
        entries: *const u8,
        entries_length: usize,
        store: *const u8,
        store_length: usize,
        roll: *mut u8,
        roll_length: usize,
        bundle: *mut u8,
        bundle_length: usize,
    ) -> Made;
    pub fn mahqurith_sha256(message: *const u8, length: usize, digest: *mut [u8; 32]) -> u32;
    pub fn mahqurith_tail_after(tail: *mut [u8; 32], entry: *const [u8; 32]);
}
