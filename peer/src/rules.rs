//! This file holds the sentences of 01 and 02 at which the slips aim, as they are said; `broken.rs` says one of them otherwise.

use crate::bundle::{self, Bundle, Held};
use crate::calls::{ManyOf02, ManyRules};
use crate::companies::{CompaniesOf02, CompanyRules};
use crate::maker::{MakerOf02, MakerRules};
use crate::roll::Roll;
use crate::row::Row;
use crate::statement::KIND_READ;
use crate::store::{StoreOf02, StoreRules};

pub trait Rules {
    /// "Majority = n div 2, plus 1."
    fn majority(&self, n: u8) -> usize {
        n as usize / 2 + 1
    }

    /// M-107: "Initialise shall no longer take an own rack of two." … "Nor shall Finalise take a next rack of two".
    fn takes_rack_of(&self, n: u8) -> bool {
        n != 2
    }

    /// "positions strictly rising"
    fn rises(&self, position: u8, next: u8) -> bool {
        position < next
    }

    /// "The nonce counts for kind 3 only."
    fn nonce_counts(&self, kind: u8) -> bool {
        kind == KIND_READ
    }

    /// "for each old entry 17, 18": of so many listed, the first so many are tested.
    fn tested_old(&self, listed: usize) -> usize {
        listed
    }

    /// "The roll is derived exactly if, for each old roll: …"
    fn is_derived(&self, ours: &[Row], bundle: &Bundle, rolls: &[Roll]) -> bool {
        bundle::is_derived(self, ours, &bundle.old, rolls)
    }

    /// "its labels are those of this keeper's roll, no more"
    fn no_more_labels(&self, ours: &[Row], old: &[Row]) -> bool {
        old.iter().all(|row| ours.iter().any(|our| our.label == row.label))
    }

    /// "for each row, its height plus the count equals ours …", with M-101 where an old roll lacks it.
    fn row_is_derived(&self, our: &Row, held: &[Held]) -> bool {
        bundle::row_is_derived(our, held)
    }

    /// M-100
    fn many(&self) -> &dyn ManyRules {
        &ManyOf02
    }

    /// M-106
    fn maker(&self) -> &dyn MakerRules {
        &MakerOf02
    }

    /// M-108
    fn companies(&self) -> &dyn CompanyRules {
        &CompaniesOf02
    }

    /// M-104
    fn store(&self) -> &dyn StoreRules {
        &StoreOf02
    }
}

/// The rules as 01 has them, with the requests of 02 that have landed.
pub struct Of01;

impl Rules for Of01 {}
