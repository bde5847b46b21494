//! This file holds the rack: its layout and its digest.

use crate::refusals::{Refusal, AREA_TOO_SHORT, RACK_BROKEN};
use crate::sha256::digest_of;

/// "up to fifteen keys of 32 bytes"
pub const MOST_KEYS: usize = 15;

/// "A rack is taken apart into up to fifteen keys of 32 bytes." Places from the count on are zero.
#[repr(C)]
#[derive(Clone, Copy, PartialEq, Eq, Debug)]
pub struct Rack {
    pub count: u8,
    pub keys: [[u8; 32]; MOST_KEYS],
}

impl Rack {
    pub const ZERO: Rack = Rack { count: 0, keys: [[0; 32]; MOST_KEYS] };

    /// The keys that the count names.
    pub fn used(&self) -> &[[u8; 32]] {
        &self.keys[..self.count as usize]
    }

    pub fn holds(&self, key: &[u8; 32]) -> bool {
        self.used().contains(key)
    }
}

/// "one byte n, 1 to 15, then n keys of 32 bytes, strictly rising in byte order, nothing after"
pub fn read(bytes: &[u8]) -> Result<Rack, Refusal> {
    let Some((&count, keys)) = bytes.split_first() else {
        return Err(RACK_BROKEN);
    };
    if count < 1 || count as usize > MOST_KEYS || keys.len() != 32 * count as usize {
        return Err(RACK_BROKEN);
    }
    let mut rack = Rack { count, ..Rack::ZERO };
    for (place, key) in rack.keys.iter_mut().zip(keys.chunks_exact(32)) {
        place.copy_from_slice(key);
    }
    if !strictly_rising(rack.used()) {
        return Err(RACK_BROKEN);
    }
    Ok(rack)
}

/// "writing one refuses with that number for contents no reading gives, then with 1 for an area too short"
pub fn write(rack: &Rack, area: &mut [u8]) -> Result<usize, Refusal> {
    if !some_reading_gives(rack) {
        return Err(RACK_BROKEN);
    }
    let length = 1 + 32 * rack.count as usize;
    if area.len() < length {
        return Err(AREA_TOO_SHORT);
    }
    area[0] = rack.count;
    area[1..length].copy_from_slice(&rack.used().concat());
    Ok(length)
}

/// A reading leaves the unused places zero (reading A5), so others are contents no reading gives.
fn some_reading_gives(rack: &Rack) -> bool {
    let count = rack.count as usize;
    (1..=MOST_KEYS).contains(&count)
        && strictly_rising(rack.used())
        && rack.keys[count..].iter().all(|key| *key == [0; 32])
}

fn strictly_rising(keys: &[[u8; 32]]) -> bool {
    keys.windows(2).all(|pair| pair[0] < pair[1])
}

/// "Rack digest = SHA-256 of 0x03 then the rack."
pub fn digest(bytes: &[u8]) -> [u8; 32] {
    digest_of(&[&[0x03], bytes])
}
