//! This file holds M-100's rules with one sentence said otherwise: the slips of Append many, to test that they are caught.

use crate::call::{Answer, Call, Lent, Reply};
use crate::calls::{one_more, ManyOf02, ManyRules, DIGEST, MOST_ENTRIES};
use crate::party::{perform_by, Party};
use crate::refusals::{Refusal, AREA_TOO_SHORT, AT_THE_TOP, NOT_1_TO_32, NOT_ACTIVE, NO_SUCH_LEDGER, OUT_OF_ORDER};
use crate::row::{Row, TOP};
use crate::rules::{Of01, Rules};
use crate::sha256::digest_of;

slips! {
    pub enum ManySlip, all as MANY_SLIPS {
        /// An empty list taken: the row as it was, stated again.
        EmptyTaken,
        /// A list of 33 taken, or one of 32 refused.
        OneMoreTaken,
        LastRefused,
        /// Bytes after the last whole digest left aside.
        BytesLeftAside,
        /// 32 before 4, after 10, or after 11.
        ListBeforeStatus,
        ListAfterLedger,
        ListAfterHeight,
        /// 12 before 11.
        TopBeforeOrder,
        /// Only the first entry held to the top.
        FirstHeldToTop,
        /// A last entry at the top itself refused.
        TopRefused,
        /// The entries appended up to the top and the others dropped.
        RestDropped,
        /// The entries appended up to the top, and then 12.
        BegunAndRefused,
        /// 11 where not the first entry passes the top.
        TopOutOfOrder,
        /// The expected height taken as the last entry's.
        ExpectedOfLast,
        /// The last digest alone in the tail, the digests from last to first, or all in one hash.
        LastAlone,
        Backwards,
        AllAtOnce,
        /// The height raised by one.
        RaisedOnce,
        /// The first append's statement.
        StatementOfFirst,
        /// An area asked for as many statements as entries.
        AreaForEach,
        /// 11 without the height.
        PresentUntold,
    }
}

impl Rules for ManySlip {
    fn many(&self) -> &dyn ManyRules {
        self
    }
}

/// The rules but for the slip.
impl ManyRules for ManySlip {
    fn is_list(&self, length: usize) -> bool {
        match self {
            ManySlip::EmptyTaken => length == 0 || ManyOf02.is_list(length),
            ManySlip::OneMoreTaken => length == DIGEST * (MOST_ENTRIES + 1) || ManyOf02.is_list(length),
            ManySlip::LastRefused => length != DIGEST * MOST_ENTRIES && ManyOf02.is_list(length),
            ManySlip::BytesLeftAside => ManyOf02.is_list(length / DIGEST * DIGEST),
            _ => ManyOf02.is_list(length),
        }
    }

    fn is_in_order(&self, height: u64, entries: u64, expected: u64) -> bool {
        match self {
            ManySlip::ExpectedOfLast => expected == height + entries,
            _ => ManyOf02.is_in_order(height, entries, expected),
        }
    }

    fn passes_top(&self, height: u64, entries: u64) -> bool {
        match self {
            ManySlip::FirstHeldToTop | ManySlip::RestDropped => height == TOP,
            ManySlip::TopRefused => height + entries >= TOP,
            _ => ManyOf02.passes_top(height, entries),
        }
    }

    fn row_after(&self, row: &Row, entries: &[[u8; 32]]) -> Row {
        let right = ManyOf02.row_after(row, entries);
        match self {
            ManySlip::RestDropped => up_to_top(row, entries),
            ManySlip::LastAlone => {
                let tail = entries.last().map_or(row.tail, |last| one_more(*row, last).tail);
                Row { tail, ..right }
            }
            ManySlip::Backwards => entries.iter().rev().fold(*row, one_more),
            ManySlip::AllAtOnce => Row { tail: digest_of(&[&[1], &row.tail, &entries.concat()]), ..right },
            ManySlip::RaisedOnce => Row { height: row.height + 1, ..right },
            _ => right,
        }
    }

    fn stated(&self, before: &Row, after: &Row, entries: &[[u8; 32]]) -> Row {
        match (self, entries) {
            (ManySlip::StatementOfFirst, [first, ..]) => one_more(*before, first),
            _ => ManyOf02.stated(before, after, entries),
        }
    }
}

/// The row after as many entries as there are heights left.
fn up_to_top(row: &Row, entries: &[[u8; 32]]) -> Row {
    entries.iter().take((TOP - row.height) as usize).fold(*row, one_more)
}

impl Party for ManySlip {
    fn name(&self) -> String {
        format!("broken {self:?}")
    }

    fn perform(&self, lent: &mut Lent, call: &Call) -> Reply {
        let Call::AppendMany { label, list, expected } = call else { return perform_by(self, lent, call) };
        let before = lent.clone();
        let reply = perform_by(self, lent, call);
        if let (ManySlip::BegunAndRefused, AT_THE_TOP) = (self, reply.number()) {
            let entries: Vec<[u8; 32]> = list.chunks_exact(DIGEST).map(|digest| digest.try_into().unwrap()).collect();
            for row in lent.table.iter_mut().filter(|row| row.label == *label) {
                *row = up_to_top(row, &entries);
            }
        }
        match self.other_answer(&before, reply.answer(), (label, list, *expected)) {
            Some(other) => {
                *lent = before;
                Reply::Answer(other)
            }
            None => reply,
        }
    }
}

impl ManySlip {
    /// The refusal that a slip gives in the place of the right answer.
    fn other_answer(&self, lent: &Lent, right: Answer, asked: (&[u8; 16], &[u8], u64)) -> Option<Answer> {
        let (label, list, expected) = asked;
        let row = || lent.used().iter().find(|row| row.label == *label);
        let of_one = || {
            let call = Call::AppendMany { label: *label, list: vec![0; DIGEST], expected };
            perform_by(&Of01, &mut lent.clone(), &call).answer()
        };
        let when = |met: bool, number: Refusal| met.then(|| number.into());
        match (self, right.number) {
            (ManySlip::ListBeforeStatus, NOT_ACTIVE) => when(!ManyOf02.is_list(list.len()), NOT_1_TO_32),
            (ManySlip::ListAfterLedger, NOT_1_TO_32) => when(of_one().number == NO_SUCH_LEDGER, NO_SUCH_LEDGER),
            (ManySlip::ListAfterHeight, NOT_1_TO_32) => Some(of_one()).filter(|answer| answer.number == OUT_OF_ORDER),
            (ManySlip::TopBeforeOrder, OUT_OF_ORDER) => {
                let entries = (list.len() / DIGEST) as u64;
                when(row().is_some_and(|row| ManyOf02.passes_top(row.height, entries)), AT_THE_TOP)
            }
            (ManySlip::TopOutOfOrder, AT_THE_TOP) => {
                row().filter(|row| row.height < TOP).map(|row| Answer::out_of_order(row.height))
            }
            (ManySlip::AreaForEach, 0) => when(lent.area.len() < 121 * (list.len() / DIGEST), AREA_TOO_SHORT),
            (ManySlip::PresentUntold, OUT_OF_ORDER) => Some(OUT_OF_ORDER.into()),
            _ => None,
        }
    }
}
