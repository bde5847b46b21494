//! This file holds the peer with one rule deliberately broken, by which the tests show that each slip is caught.

use crate::bundle::{self, leads_to, Bundle, Held};
use crate::call::{Call, Lent, Reply, Verdict};
use crate::party::{perform_by, Party};
use crate::rack;
use crate::record::{ACTIVE, FINALISED};
use crate::refusals::{Refusal, OWN_KEY_MISSING, RACK_OF_TWO};
use crate::roll::Roll;
use crate::row::Row;
use crate::rules::{Of01, Rules};

/// 01's "Slips that look right", and those of 02's requests.
#[derive(Clone, Copy, PartialEq, Eq, Debug)]
pub enum Slip {
    /// "Majority as n/2 rounded up: two of four pass, and two halves of a rack disagree."
    MajorityUp,
    /// "One keeper's signature listed twice as two."
    SignerTwice,
    /// "… or testing the first old entry only."
    FirstOldOnly,
    /// "A second finalise that takes the new argument: one rack gets two heirs."
    SecondHeir,
    /// "A reading with another nonce taken because its signatures are good."
    NonceIgnored,
    /// "Activating on the keeper's own roll alone"
    OwnRollAlone,
    /// A ledger that an old roll has and the keeper's lacks, taken as a missing row too.
    LedgerLost,
    /// A missing row waved through: nothing is asked of it where it is missing, nor that another old roll has it.
    MissingUnasked,
    /// A roll that lacks the row taken as one that adds none.
    LackingAddsNone,
    /// The digests of a missing row counted, but not looked at.
    MissingUnread,
    /// A missing row refused, as before M-101.
    MissingRefused,
    /// A rack of two taken, as before M-107.
    TwoTaken,
    /// A rack of one refused as well.
    OneRefused,
    /// 38 wherever a rack of two is met, also where it "stays valid".
    TwoNowhere,
    /// 38 in Initialise after 7.
    TwoAfterKey,
    /// The argument of a repeated Finalise read for its size.
    TwoInRepeat,
}

pub const SLIPS: [Slip; 11] = [
    Slip::MajorityUp,
    Slip::SignerTwice,
    Slip::FirstOldOnly,
    Slip::SecondHeir,
    Slip::NonceIgnored,
    Slip::OwnRollAlone,
    Slip::LedgerLost,
    Slip::MissingUnasked,
    Slip::LackingAddsNone,
    Slip::MissingUnread,
    Slip::MissingRefused,
];

pub const SLIPS_OF_M_101: [Slip; 5] =
    [Slip::LedgerLost, Slip::MissingUnasked, Slip::LackingAddsNone, Slip::MissingUnread, Slip::MissingRefused];

impl Slip {
    /// A keeper without a row has signed nothing of it, so whatever is asked of it where it is missing, no two verdicts differ:
    /// the other trials must catch these.
    pub fn shows_in_histories(self) -> bool {
        self == Slip::LedgerLost || !SLIPS_OF_M_101.contains(&self)
    }
}

pub const SLIPS_OF_M_107: [Slip; 5] =
    [Slip::TwoTaken, Slip::OneRefused, Slip::TwoNowhere, Slip::TwoAfterKey, Slip::TwoInRepeat];

/// The rules but for the slip.
impl Rules for Slip {
    fn majority(&self, n: u8) -> usize {
        match self {
            Slip::MajorityUp => n.div_ceil(2) as usize,
            _ => Of01.majority(n),
        }
    }

    fn takes_rack_of(&self, n: u8) -> bool {
        match self {
            Slip::TwoTaken => true,
            Slip::OneRefused => n > 2,
            _ => Of01.takes_rack_of(n),
        }
    }

    fn rises(&self, position: u8, next: u8) -> bool {
        match self {
            Slip::SignerTwice => position <= next,
            _ => Of01.rises(position, next),
        }
    }

    fn nonce_counts(&self, kind: u8) -> bool {
        *self != Slip::NonceIgnored && Of01.nonce_counts(kind)
    }

    fn tested_old(&self, listed: usize) -> usize {
        match self {
            Slip::FirstOldOnly => listed.min(1),
            _ => Of01.tested_old(listed),
        }
    }

    fn is_derived(&self, ours: &[Row], bundle: &Bundle, rolls: &[Roll]) -> bool {
        match self {
            Slip::OwnRollAlone => true,
            Slip::FirstOldOnly => bundle::is_derived(self, ours, &bundle.old[..1], &rolls[..1]),
            _ => bundle::is_derived(self, ours, &bundle.old, rolls),
        }
    }

    fn no_more_labels(&self, ours: &[Row], old: &[Row]) -> bool {
        *self == Slip::LedgerLost || Of01.no_more_labels(ours, old)
    }

    fn row_is_derived(&self, our: &Row, held: &[Held]) -> bool {
        let lacking = held.iter().filter(|held| held.row.is_none()).count();
        match self {
            Slip::FirstOldOnly => leads_to(our, &held[0]),
            Slip::MissingRefused if lacking > 0 => false,
            Slip::MissingUnasked if lacking == held.len() => true,
            Slip::MissingUnasked => Of01.row_is_derived(our, &without(held, |held| held.row.is_none())),
            Slip::MissingUnread => {
                let counted = |held: &Held| held.row.is_none() && held.digests.len() as u64 == our.height;
                Of01.row_is_derived(our, &without(held, counted))
            }
            Slip::LackingAddsNone if (1..held.len()).contains(&lacking) => held.iter().all(|held| leads_to(our, held)),
            _ => Of01.row_is_derived(our, held),
        }
    }
}

fn without<'a>(held: &[Held<'a>], left_out: impl Fn(&Held) -> bool) -> Vec<Held<'a>> {
    held.iter().filter(|held| !left_out(held)).copied().collect()
}

impl Party for Slip {
    fn name(&self) -> String {
        format!("broken {self:?}")
    }

    fn perform(&self, lent: &mut Lent, call: &Call) -> Reply {
        if let (Slip::SecondHeir, Call::Finalise { .. }, FINALISED) = (self, call, lent.head.status) {
            let mut again = lent.clone();
            again.head.status = ACTIVE;
            let reply = perform_by(self, &mut again, call);
            if reply.number() == 0 {
                *lent = again;
                return reply;
            }
        }
        if let Some(number) = self.other_number(lent, call) {
            return match call {
                Call::Verdict(_) => Reply::Verdict(Verdict { number, tail: [0; 32], height: 0 }),
                _ => Reply::Answer(number.into()),
            };
        }
        perform_by(self, lent, call)
    }
}

impl Slip {
    /// The refusal that a slip of M-107 gives in the place of the rules' answer.
    fn other_number(&self, lent: &Lent, call: &Call) -> Option<Refusal> {
        let right = || perform_by(&Of01, &mut lent.clone(), call);
        match (self, call) {
            (Slip::TwoNowhere, _) => {
                let met = racks_that_stay(call).iter().any(|rack| of_two(rack));
                (met && right().number() == 0).then_some(RACK_OF_TWO)
            }
            (Slip::TwoAfterKey, Call::Initialise { own, .. }) => {
                let lacking = rack::read(own).is_ok_and(|rack| !rack.holds(&lent.head.key));
                (lacking && right().number() == RACK_OF_TWO).then_some(OWN_KEY_MISSING)
            }
            (Slip::TwoInRepeat, Call::Finalise { next }) => {
                (of_two(next) && right().answer().repeat).then_some(RACK_OF_TWO)
            }
            _ => None,
        }
    }
}

fn of_two(rack: &[u8]) -> bool {
    rack::read(rack).is_ok_and(|rack| rack.count == 2)
}

/// The racks of a call in which two keepers "stay valid".
fn racks_that_stay(call: &Call) -> Vec<&[u8]> {
    match call {
        Call::Initialise { previous, .. } => vec![previous],
        Call::Activate(papers) | Call::BytesToCheck { papers, .. } => vec![&papers.previous, &papers.own],
        Call::Verdict(ask) => vec![&ask.rack],
        _ => vec![],
    }
}
