//! This file holds what Activate and Bytes to check begin with, the racks, the bundle and its rolls, and what Activate asks of the entries.

use super::ask_sound;
use crate::bundle::{self, Bundle};
use crate::call::{Lent, Papers};
use crate::marks::test_marks;
use crate::rack::{self, Rack};
use crate::record::PREPARED;
use crate::refusals::{Refusal, INITIALISE_NOT_VALID, NOT_PREPARED, NO_MAJORITY, OTHER_RACK, SIGNATURE_NOT_VALID};
use crate::roll::Roll;
use crate::rules::Rules;

pub struct Handover<'a> {
    pub previous: Rack,
    pub own: Rack,
    pub bundle: Bundle<'a>,
    /// The rolls of the old entries, in their order.
    pub rolls: Vec<Roll>,
}

/// "2, 5, 6 (previous, then own), 21, 22, 15"
pub fn open_handover<'a>(rules: &dyn Rules, lent: &Lent, papers: &'a Papers) -> Result<Handover<'a>, Refusal> {
    ask_sound(lent)?;
    let head = &lent.head;
    if head.status != PREPARED {
        return Err(NOT_PREPARED);
    }
    let previous = rack::read(&papers.previous)?;
    let own = rack::read(&papers.own)?;
    // 21: "rack digest differs from the record's"; both are looked at after both passed 6 (reading C13).
    if rack::digest(&papers.previous) != head.previous || rack::digest(&papers.own) != head.own {
        return Err(OTHER_RACK);
    }
    let bundle = bundle::read(rules, &papers.bundle, (previous.count, own.count), head.count)?;
    let rolls = bundle::old_rolls(&bundle)?;
    Ok(Handover { previous, own, bundle, rolls })
}

/// "16, then for each old entry 17, 18, for each new entry 17, 19", for the sizes of the previous and own rack.
pub fn ask_entries(rules: &dyn Rules, sizes: (u8, u8), bundle: &Bundle) -> Result<(), Refusal> {
    let (old, new) = (&bundle.old, &bundle.new);
    if old.len() < rules.majority(sizes.0) || new.len() < rules.majority(sizes.1) {
        return Err(NO_MAJORITY);
    }
    for entry in &old[..rules.tested_old(old.len())] {
        test_marks(entry.marks, SIGNATURE_NOT_VALID)?;
    }
    for entry in new {
        test_marks(entry.marks, INITIALISE_NOT_VALID)?;
    }
    Ok(())
}
