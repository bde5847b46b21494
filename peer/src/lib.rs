//! This library holds the rules of document 01, written a second time and alone, and the means to compare two parties that claim to follow them.

#![deny(unsafe_code)]

#[macro_use]
mod slips;

pub mod block;
pub mod broken;
pub mod broken_companies;
pub mod broken_maker;
pub mod broken_many;
pub mod broken_report;
pub mod broken_store;
pub mod bundle;
pub mod call;
pub mod calls;
pub mod companies;
pub mod desk;
pub mod header;
#[cfg(library)]
pub mod library;
#[cfg(library)]
pub mod library_maker;
pub mod maker;
pub mod marks;
pub mod party;
pub mod rack;
pub mod record;
pub mod refusals;
pub mod report;
pub mod roll;
pub mod row;
pub mod rules;
pub mod sha256;
pub mod statement;
pub mod store;
pub mod trial;
