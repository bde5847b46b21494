//! This file holds the library's maker of handover bundles, called through its C interface.

#![allow(unsafe_code)]

use crate::call::{Given, Made};

extern "C" {
    fn mahqurith_make_bundle(
        previous: *const u8,
        previous_length: usize,
        own: *const u8,
        own_length: usize,
        entries: *const u8,
        entries_length: usize,
        store: *const u8,
        store_length: usize,
        roll: *mut u8,
        roll_length: usize,
        bundle: *mut u8,
        bundle_length: usize,
    ) -> Made;
}

pub fn make_bundle(given: &Given, roll: &mut [u8], bundle: &mut [u8]) -> Made {
    let Given { previous, own, entries, store } = given;
    // SAFETY: all are slices, and the borrows of both areas show that they overlap nothing.
    unsafe {
        mahqurith_make_bundle(
            previous.as_ptr(),
            previous.len(),
            own.as_ptr(),
            own.len(),
            entries.as_ptr(),
            entries.len(),
            store.as_ptr(),
            store.len(),
            roll.as_mut_ptr(),
            roll.len(),
            bundle.as_mut_ptr(),
            bundle.len(),
        )
    }
}
