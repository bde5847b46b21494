//! This file holds M-108's rules with one sentence said otherwise: the slips of the two companies, to test that they are caught.

use crate::call::{Call, Lent, Reply};
use crate::companies::{is_full, CompaniesOf02, Company, CompanyRules, MOST_OF_COMPANY};
use crate::party::{perform_by, Party};
use crate::refusals::{Refusal, COMPANY_FULL, LABEL_ZERO, LEDGER_EXISTS, TABLE_FULL};
use crate::roll::MOST_ROWS;
use crate::row::Row;
use crate::rules::Rules;

slips! {
    pub enum CompanySlip, all as COMPANY_SLIPS {
        /// No limit, as before M-108.
        Unlimited,
        /// The limit of 31 counted over both companies, or one of 62 for both together.
        BothCounted,
        BothTogether,
        /// The other company's rows counted.
        OtherCounted,
        /// The border at 127 or at 129, or drawn through the last byte.
        BorderBelow,
        BorderAbove,
        LastByte,
        /// A limit of 30 or of 32.
        OneFewer,
        OneMore,
        /// A company that has more than 31 gets new rows again.
        OnlyAt31,
        /// Only rows still at height 0 counted, as if the others had not come by New.
        FreshCounted,
        /// Only the first company, or only the second, held to the limit.
        FirstHeld,
        SecondHeld,
        /// 39 before 14, before 9, or after 13.
        LimitBeforeZero,
        LimitBeforeExists,
        LimitAfterTable,
        /// 13 never given: a full table said as 39.
        TableUnsaid,
        /// 39 in appends or in readings of a company that has 31 rows as well.
        AppendsLimited,
        ReadingsLimited,
    }
}

impl Rules for CompanySlip {
    fn companies(&self) -> &dyn CompanyRules {
        self
    }
}

/// The rules but for the slip.
impl CompanyRules for CompanySlip {
    fn company_of(&self, label: &[u8; 16]) -> Company {
        let (byte, border) = match self {
            CompanySlip::BorderBelow => (label[0], 127),
            CompanySlip::BorderAbove => (label[0], 129),
            CompanySlip::LastByte => (label[15], 128),
            _ => return CompaniesOf02.company_of(label),
        };
        if byte < border {
            Company::First
        } else {
            Company::Second
        }
    }

    fn counted(&self, rows: &[Row], label: &[u8; 16]) -> usize {
        let company = self.company_of(label);
        let of_company = |row: &&Row| self.company_of(&row.label) == company;
        match self {
            CompanySlip::BothCounted | CompanySlip::BothTogether => rows.len(),
            CompanySlip::OtherCounted => rows.iter().filter(|row| !of_company(row)).count(),
            CompanySlip::FreshCounted => rows.iter().filter(of_company).filter(|row| row.height == 0).count(),
            _ => rows.iter().filter(of_company).count(),
        }
    }

    fn takes_one_more(&self, counted: usize, label: &[u8; 16]) -> bool {
        let right = CompaniesOf02.takes_one_more(counted, label);
        match self {
            CompanySlip::Unlimited => true,
            CompanySlip::BothTogether => counted < 2 * MOST_OF_COMPANY,
            CompanySlip::OneFewer => counted + 1 < MOST_OF_COMPANY,
            CompanySlip::OneMore => counted <= MOST_OF_COMPANY,
            CompanySlip::OnlyAt31 => counted != MOST_OF_COMPANY,
            CompanySlip::FirstHeld => self.company_of(label) == Company::Second || right,
            CompanySlip::SecondHeld => self.company_of(label) == Company::First || right,
            _ => right,
        }
    }
}

impl Party for CompanySlip {
    fn name(&self) -> String {
        format!("broken {self:?}")
    }

    fn perform(&self, lent: &mut Lent, call: &Call) -> Reply {
        let before = lent.clone();
        let reply = perform_by(self, lent, call);
        match self.other_number(&before, reply.number(), call) {
            Some(number) => {
                *lent = before;
                Reply::Answer(number.into())
            }
            None => reply,
        }
    }
}

impl CompanySlip {
    /// The refusal that a slip gives in the place of this number.
    fn other_number(&self, lent: &Lent, number: Refusal, call: &Call) -> Option<Refusal> {
        // Asked only behind numbers that come after 2.
        let at_limit = |label| is_full(&CompaniesOf02, lent.used(), label);
        let (met, other) = match (self, call, number) {
            (CompanySlip::LimitBeforeZero, Call::New { label }, LABEL_ZERO) => (at_limit(label), COMPANY_FULL),
            (CompanySlip::LimitBeforeExists, Call::New { label }, LEDGER_EXISTS) => (at_limit(label), COMPANY_FULL),
            (CompanySlip::LimitAfterTable, Call::New { .. }, COMPANY_FULL) => {
                (lent.used().len() == MOST_ROWS, TABLE_FULL)
            }
            (CompanySlip::TableUnsaid, Call::New { .. }, TABLE_FULL) => (true, COMPANY_FULL),
            (CompanySlip::AppendsLimited, Call::Append { label, .. }, 0) => (at_limit(label), COMPANY_FULL),
            (CompanySlip::ReadingsLimited, Call::Read { label, .. }, 0) => (at_limit(label), COMPANY_FULL),
            _ => return None,
        };
        met.then_some(other)
    }
}
