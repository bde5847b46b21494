//! This file holds Activate: "Activate (previous rack, own rack, bundle)".

use super::handover::{ask_entries, open_handover};
use super::Tried;
use crate::call::{Answer, Lent, Papers};
use crate::record::ACTIVE;
use crate::refusals::NOT_DERIVED;
use crate::rules::Rules;

pub fn activate(rules: &dyn Rules, lent: &mut Lent, papers: &Papers) -> Tried {
    // "2, 5, 6 (previous, then own), 21, 22, 15, 16, then for each old entry 17, 18, for each new entry 17, 19, then 20"
    let handover = open_handover(rules, lent, papers)?;
    ask_entries(rules, (handover.previous.count, handover.own.count), &handover.bundle)?;
    if !rules.is_derived(lent.used(), &handover.bundle, &handover.rolls) {
        return Err(NOT_DERIVED.into());
    }
    // "Status becomes active; nothing else changes."
    lent.head.status = ACTIVE;
    Ok(Answer::accepted(0))
}
