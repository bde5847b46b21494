//! This file holds the refusals of the two calls that write a block of M-103's file, with the inputs that meet them.

use super::good;
use super::night::Parts;
use super::order::{Case, Damages, Plan};
use super::order_calls::{area, case, spoil_rack, RACK_DAMAGES};
use super::pages::receipt_of;
use super::prng::Prng;
use crate::call::{Call, Lent};

const AREA: &[&str] = &["1 short", "1 none"];
const RECEIPT: &[&[&str]] = &[
    &["23 statement 138", "23 long statement"],
    &["23 odd signers", "23 one byte of signers", "23 16 signers", "23 many signers"],
    AREA,
];

pub fn plans() -> Vec<Plan> {
    vec![
        Plan { name: "Write rack block", steps: &[RACK_DAMAGES, AREA], apart: &[], build: rack_block },
        Plan { name: "Write receipt", steps: RECEIPT, apart: &[], build: receipt },
    ]
}

fn rack_block(prng: &mut Prng, damages: &Damages) -> Case {
    let size = 1 + prng.below(15);
    let mut rack = good::rack(prng, size);
    spoil_rack(damages, "6 ", &mut rack);
    case(Lent { area: area(damages, 512), ..good::only_area(0) }, Call::WriteRackBlock { rack })
}

fn receipt(prng: &mut Prng, damages: &Damages) -> Case {
    let (rack, label) = (good::rack(prng, 15), good::label(prng));
    let kind = 1 + prng.below(3) as u8;
    let mut receipt = receipt_of(&Parts::good(prng, &rack, kind, label, 4));
    for name in damages.0 {
        match *name {
            "23 statement 138" => receipt.statement.resize(138, 0),
            "23 long statement" => receipt.statement.resize(256 + 121, 0),
            "23 odd signers" => receipt.signers.truncate(15),
            "23 one byte of signers" => receipt.signers.truncate(1),
            "23 16 signers" => receipt.signers = (0..16).flat_map(|position| [position, 3]).collect(),
            "23 many signers" => receipt.signers.resize(512 + 16, 0),
            _ => {}
        }
    }
    case(Lent { area: area(damages, 512), ..good::only_area(0) }, Call::WriteReceipt(receipt))
}
