//! This file holds Read: "Read (label, nonce; 137)".

use super::{ask_active, find, put, row_statement, Tried};
use crate::call::Lent;
use crate::refusals::NO_SUCH_LEDGER;
use crate::statement::KIND_READ;

pub fn read(lent: &mut Lent, label: &[u8; 16], nonce: &[u8; 16]) -> Tried {
    // "1, 2, 4, 10"
    ask_active(lent, 137)?;
    let Some(place) = find(lent, label) else {
        return Err(NO_SUCH_LEDGER.into());
    };
    let statement = row_statement(&lent.head, KIND_READ, &lent.table[place], nonce);
    Ok(put(lent, &statement))
}
