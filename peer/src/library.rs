//! This file holds the library as a party, called through its C interface.

#![allow(unsafe_code)]

use crate::call::{Answer, Call, HashRead, Lent, Papers, RackRead, Reply, RollRead, StatementRead, Verdict};
use crate::header::{Asked, Place, Question, Stored, Written};
use crate::library_maker::make_bundle;
use crate::party::Party;
use crate::rack::Rack;
use crate::record::Head;
use crate::roll::Roll;
use crate::row::Row;
use crate::statement::Statement;

type In = *const u8;
type Out = *mut u8;

extern "C" {
    fn mahqurith_wake(head: *mut Head, rows: *mut Row, row_count: usize, asked: Asked) -> Answer;
    fn mahqurith_initialise(
        head: *mut Head,
        rows: *mut Row,
        row_count: usize,
        asked: Asked,
        roll: In,
        roll_length: usize,
        previous: In,
        previous_length: usize,
        own: In,
        own_length: usize,
        area: Out,
        area_length: usize,
    ) -> Answer;
    fn mahqurith_new(h: *mut Head, rows: *mut Row, count: usize, asked: Asked, area: Out, length: usize) -> Answer;
    fn mahqurith_append(h: *mut Head, rows: *mut Row, count: usize, asked: Asked, area: Out, length: usize) -> Answer;
    fn mahqurith_read(h: *mut Head, rows: *mut Row, count: usize, asked: Asked, area: Out, length: usize) -> Answer;
    fn mahqurith_append_and_read(
        head: *mut Head,
        rows: *mut Row,
        row_count: usize,
        asked: Asked,
        area: Out,
        area_length: usize,
    ) -> Answer;
    fn mahqurith_append_many(
        head: *mut Head,
        rows: *mut Row,
        row_count: usize,
        asked: Asked,
        list: In,
        list_length: usize,
        area: Out,
        area_length: usize,
    ) -> Answer;
    fn mahqurith_finalise(
        head: *mut Head,
        rows: *mut Row,
        row_count: usize,
        next: In,
        next_length: usize,
        area: Out,
        area_length: usize,
    ) -> Answer;
    fn mahqurith_activate(
        head: *mut Head,
        rows: *mut Row,
        row_count: usize,
        previous: In,
        previous_length: usize,
        own: In,
        own_length: usize,
        bundle: In,
        bundle_length: usize,
    ) -> Answer;
    fn mahqurith_bytes_to_check(
        head: *mut Head,
        rows: *mut Row,
        row_count: usize,
        asked: Asked,
        previous: In,
        previous_length: usize,
        own: In,
        own_length: usize,
        bundle: In,
        bundle_length: usize,
        area: Out,
        area_length: usize,
    ) -> Answer;
    fn mahqurith_verdict(
        question: Question,
        rack: In,
        rack_length: usize,
        statement: In,
        statement_length: usize,
        signers: In,
        signers_length: usize,
    ) -> Verdict;
    fn mahqurith_read_rack(bytes: In, length: usize) -> RackRead;
    fn mahqurith_write_rack(rack: Rack, area: Out, area_length: usize) -> Written;
    fn mahqurith_read_roll(bytes: In, length: usize) -> RollRead;
    fn mahqurith_write_roll(roll: Roll, area: Out, area_length: usize) -> Written;
    fn mahqurith_read_statement(bytes: In, length: usize) -> StatementRead;
    fn mahqurith_write_statement(statement: Statement, area: Out, area_length: usize) -> Written;
    fn mahqurith_write_rack_block(rack: In, rack_length: usize, area: Out, area_length: usize) -> Written;
    fn mahqurith_write_receipt(
        question: Question,
        statement: In,
        statement_length: usize,
        signers: In,
        signers_length: usize,
        area: Out,
        area_length: usize,
    ) -> Written;
    fn mahqurith_sha256(message: In, length: usize, digest: Out) -> u32;
    fn mahqurith_store_append(area: Out, area_length: usize, asked: Place, text: In, text_length: usize) -> Stored;
    fn mahqurith_store_read(area: In, area_length: usize, asked: Place, output: Out, output_length: usize) -> Stored;
}

pub struct Library;

/// Calls a function of the header in its order of arguments: `{head, table}`, what is asked, messages, areas; each slice goes
/// as pointer and length.
macro_rules! call {
    ($function:ident $({$head:expr, $table:expr})? [$($asked:expr)?] [$($message:expr),*] [$($area:expr)?]) => {
        // SAFETY: the header lists what a caller owes. Slices and references give pointers that are not null, are aligned and
        // have the memory that their lengths say; the borrows show that what is written overlaps nothing and is not shared.
        unsafe {
            $function(
                $($head, $table.as_mut_ptr(), $table.len(),)?
                $($asked,)?
                $($message.as_ptr(), $message.len(),)*
                $($area.as_mut_ptr(), $area.len(),)?
            )
        }
    };
}

impl Party for Library {
    fn name(&self) -> String {
        "library".to_string()
    }

    fn perform(&self, Lent { head, table, area }: &mut Lent, asked: &Call) -> Reply {
        let fixed = fixed_sizes(asked);
        Reply::Answer(match asked {
            Call::Hash { input } => return Reply::Hash(hash(input)),
            Call::ReadRack { bytes } => return Reply::Rack(Box::new(call!(mahqurith_read_rack [] [bytes] []))),
            Call::ReadRoll { bytes } => return Reply::Roll(Box::new(call!(mahqurith_read_roll [] [bytes] []))),
            Call::ReadStatement { bytes } => {
                return Reply::Statement(Box::new(call!(mahqurith_read_statement [] [bytes] [])))
            }
            Call::Verdict(ask) => {
                return Reply::Verdict(call!(mahqurith_verdict [ask.into()] [ask.rack, ask.statement, ask.signers] []))
            }
            Call::WriteRack { rack } => call!(mahqurith_write_rack [*rack] [] [area]).into(),
            Call::WriteRoll { roll } => call!(mahqurith_write_roll [**roll] [] [area]).into(),
            Call::WriteStatement { statement } => call!(mahqurith_write_statement [*statement] [] [area]).into(),
            Call::StoreAppend { label, expected, text } => {
                store_append(area, Place { label: *label, height: *expected }, text)
            }
            Call::StoreRead { store, label, height } => {
                store_read(store, Place { label: *label, height: *height }, area)
            }
            Call::MakeBundle { given, roll_area } => {
                let (roll, bundle) = area.split_at_mut(*roll_area);
                return Reply::Made(make_bundle(given, roll, bundle));
            }
            Call::WriteRackBlock { rack } => call!(mahqurith_write_rack_block [] [rack] [area]).into(),
            Call::WriteReceipt(receipt) => {
                call!(mahqurith_write_receipt [receipt.into()] [receipt.statement, receipt.signers] [area]).into()
            }
            Call::Wake { .. } => call!(mahqurith_wake {head, table} [fixed] [] []),
            Call::Initialise { roll, previous, own, .. } => {
                call!(mahqurith_initialise {head, table} [fixed] [roll, previous, own] [area])
            }
            Call::New { .. } => call!(mahqurith_new {head, table} [fixed] [] [area]),
            Call::Append { .. } => call!(mahqurith_append {head, table} [fixed] [] [area]),
            Call::Read { .. } => call!(mahqurith_read {head, table} [fixed] [] [area]),
            Call::AppendAndRead { .. } => call!(mahqurith_append_and_read {head, table} [fixed] [] [area]),
            Call::AppendMany { list, .. } => call!(mahqurith_append_many { head, table }[fixed][list][area]),
            Call::Finalise { next } => call!(mahqurith_finalise {head, table} [] [next] [area]),
            Call::Activate(Papers { previous, own, bundle }) => {
                call!(mahqurith_activate {head, table} [] [previous, own, bundle] [])
            }
            Call::BytesToCheck { papers: Papers { previous, own, bundle }, .. } => {
                call!(mahqurith_bytes_to_check {head, table} [fixed] [previous, own, bundle] [area])
            }
        })
    }
}

/// A refusal leaves the digest's place as it was; the answer then has zeros.
fn hash(input: &[u8]) -> HashRead {
    const BEFORE: [u8; 32] = [0xc3; 32];
    let mut digest = BEFORE;
    // SAFETY: the message is a slice, and the digest is a place of 32 bytes apart from it.
    let number = unsafe { mahqurith_sha256(input.as_ptr(), input.len(), digest.as_mut_ptr()) };
    if number != 0 && digest == BEFORE {
        digest = [0; 32];
    }
    HashRead { number, digest }
}

fn store_append(area: &mut [u8], asked: Place, text: &[u8]) -> Answer {
    // SAFETY: both are slices, and the borrow of the area shows that it overlaps nothing.
    unsafe { mahqurith_store_append(area.as_mut_ptr(), area.len(), asked, text.as_ptr(), text.len()) }.into()
}

fn store_read(area: &[u8], asked: Place, output: &mut [u8]) -> Answer {
    // SAFETY: both are slices, and the borrow of the output shows that it overlaps nothing.
    unsafe { mahqurith_store_read(area.as_ptr(), area.len(), asked, output.as_mut_ptr(), output.len()) }.into()
}

/// What a keeper is asked at fixed sizes.
fn fixed_sizes(asked: &Call) -> Asked {
    let unread = Asked::UNREAD;
    match *asked {
        Call::Wake { key } => Asked { key, ..unread },
        Call::Initialise { identity, .. } => Asked { identity, ..unread },
        Call::New { label } => Asked { label, ..unread },
        Call::Append { label, entry, expected } => Asked { label, entry, expected, ..unread },
        Call::Read { label, nonce } => Asked { label, nonce, ..unread },
        Call::AppendAndRead { label, entry, expected, nonce } => Asked { label, entry, expected, nonce, ..unread },
        Call::AppendMany { label, expected, .. } => Asked { label, expected, ..unread },
        Call::BytesToCheck { list, entry, .. } => Asked { list, number: entry, ..unread },
        _ => unread,
    }
}
