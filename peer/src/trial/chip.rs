//! This file holds the model of the key chips: it signs what a keeper returns for signing and marks honestly.

use std::collections::{HashMap, HashSet};

struct Signer {
    signed: HashSet<Vec<u8>>,
    erased: bool,
}

/// All chips together; a key that no chip made is not attested.
pub struct Chips {
    signers: HashMap<[u8; 32], Signer>,
    /// "the chip signs, then erases its key". A chip that fails to erase shows what a second heir would do.
    pub erases: bool,
    /// Statements returned for signing after the key was erased; sound keepers return none.
    pub asked_too_late: u64,
}

impl Chips {
    pub fn new(erases: bool) -> Chips {
        Chips { signers: HashMap::new(), erases, asked_too_late: 0 }
    }

    pub fn make(&mut self, key: [u8; 32]) {
        self.signers.insert(key, Signer { signed: HashSet::new(), erased: false });
    }

    /// "The chip signs once each statement that Initialise, New, Append, Read, Append and read or Finalise gives."
    pub fn sign(&mut self, key: &[u8; 32], statement: &[u8]) {
        let Some(signer) = self.signers.get_mut(key) else { return };
        if signer.erased {
            self.asked_too_late += 1;
        } else {
            signer.signed.insert(statement.to_vec());
        }
    }

    pub fn erase(&mut self, key: &[u8; 32]) {
        if let Some(signer) = self.signers.get_mut(key) {
            signer.erased = self.erases;
        }
    }

    /// "bit 0 set means that the key is attested, bit 1 that its signature on the statement … is valid"
    pub fn marks(&self, key: &[u8; 32], statement: &[u8]) -> u8 {
        match self.signers.get(key) {
            Some(signer) => 1 | (signer.signed.contains(statement) as u8) << 1,
            None => 0,
        }
    }
}
