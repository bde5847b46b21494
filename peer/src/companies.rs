//! This file holds M-108's two companies: whose a label is, and when its company may get one more row by New.

use crate::row::Row;

/// "neither may get more than 31 rows by New"
pub const MOST_OF_COMPANY: usize = 31;

#[derive(Clone, Copy, PartialEq, Eq, Debug)]
pub enum Company {
    First,
    Second,
}

/// The sentences of M-108 at which the slips aim, as they are said; `broken_companies.rs` says one of them otherwise.
pub trait CompanyRules {
    /// "Labels whose first byte is below 128 belong to the first, the others to the second"
    fn company_of(&self, label: &[u8; 16]) -> Company {
        if label[0] < 128 {
            Company::First
        } else {
            Company::Second
        }
    }

    /// All rows of the label's company in the table count, however they came (reading K1).
    fn counted(&self, rows: &[Row], label: &[u8; 16]) -> usize {
        let company = self.company_of(label);
        rows.iter().filter(|row| self.company_of(&row.label) == company).count()
    }

    /// "An earlier roll may bring one company more than 31; it gets no new rows."
    fn takes_one_more(&self, counted: usize, _label: &[u8; 16]) -> bool {
        counted < MOST_OF_COMPANY
    }
}

pub struct CompaniesOf02;

impl CompanyRules for CompaniesOf02 {}

/// Whether New refuses this label with 39 where no earlier refusal is met.
pub fn is_full(rules: &dyn CompanyRules, rows: &[Row], label: &[u8; 16]) -> bool {
    !rules.takes_one_more(rules.counted(rows, label), label)
}
