//! This file holds 01's list of refusals for each call, with 02's, to which every answer is held.

use crate::call::Call;
use crate::refusals::Refusal;

/// The call's name and the numbers that 01 lists for it, in 01's order.
pub const LISTS: &[(&str, &[Refusal])] = &[
    ("Hash", &[25]),
    ("Read rack", &[6]),
    ("Write rack", &[6, 1]),
    ("Read roll", &[15]),
    ("Write roll", &[15, 1]),
    ("Read statement", &[23]),
    ("Write statement", &[23, 1]),
    ("Wake", &[2]),
    ("Initialise", &[1, 2, 3, 6, 38, 7, 8, 15]),
    ("New", &[1, 2, 4, 14, 9, 39, 13]),
    ("Append", &[1, 2, 4, 10, 11, 12]),
    ("Read", &[1, 2, 4, 10]),
    ("Append and read", &[1, 2, 4, 10, 11, 12]),
    ("Append many", &[1, 2, 4, 32, 10, 11, 12]),
    ("Finalise", &[1, 2, 4, 6, 38]),
    ("Activate", &[2, 5, 6, 21, 22, 15, 16, 17, 18, 19, 20]),
    ("Bytes to check", &[1, 2, 5, 6, 21, 22, 15]),
    ("Verdict", &[6, 22, 23, 24, 16, 17, 18]),
    ("Store append", &[33, 2, 14, 11, 12, 34]),
    ("Store read", &[1, 2, 35, 10]),
    ("Make bundle", &[2, 6, 22, 15, 16, 17, 18, 19, 36, 37, 1]),
    ("Write rack block", &[6, 1]),
    ("Write receipt", &[23, 1]),
];

/// Wake to Bytes to check are calls on a record.
pub fn is_on_record(call: &Call) -> bool {
    (place_of("Wake")..=place_of("Bytes to check")).contains(&place(call))
}

/// The place of a call in the lists.
pub fn place(call: &Call) -> usize {
    place_of(name(call))
}

pub fn place_of(name: &str) -> usize {
    LISTS.iter().position(|(listed, _)| *listed == name).expect("each call has its list")
}

fn name(call: &Call) -> &'static str {
    match call {
        Call::Hash { .. } => "Hash",
        Call::ReadRack { .. } => "Read rack",
        Call::WriteRack { .. } => "Write rack",
        Call::ReadRoll { .. } => "Read roll",
        Call::WriteRoll { .. } => "Write roll",
        Call::ReadStatement { .. } => "Read statement",
        Call::WriteStatement { .. } => "Write statement",
        Call::Wake { .. } => "Wake",
        Call::Initialise { .. } => "Initialise",
        Call::New { .. } => "New",
        Call::Append { .. } => "Append",
        Call::Read { .. } => "Read",
        Call::AppendAndRead { .. } => "Append and read",
        Call::AppendMany { .. } => "Append many",
        Call::Finalise { .. } => "Finalise",
        Call::Activate(_) => "Activate",
        Call::BytesToCheck { .. } => "Bytes to check",
        Call::Verdict(_) => "Verdict",
        Call::StoreAppend { .. } => "Store append",
        Call::StoreRead { .. } => "Store read",
        Call::MakeBundle { .. } => "Make bundle",
        Call::WriteRackBlock { .. } => "Write rack block",
        Call::WriteReceipt(_) => "Write receipt",
    }
}
