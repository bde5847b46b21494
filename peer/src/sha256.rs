//! This file holds SHA-256 by the rules of FIPS 180-4, for inputs of 0 to 65,536 bytes.

use crate::refusals::{Refusal, HASH_INPUT_TOO_LONG};

/// "for inputs of 0 to 65,536 bytes"
pub const LONGEST: usize = 65_536;

/// "The standard's 64 round constants stand as printed there." (FIPS 180-4, 4.2.2)
const K: [u32; 64] = [
    0x428a2f98, 0x71374491, 0xb5c0fbcf, 0xe9b5dba5, 0x3956c25b, 0x59f111f1, 0x923f82a4, 0xab1c5ed5, 0xd807aa98,
    0x12835b01, 0x243185be, 0x550c7dc3, 0x72be5d74, 0x80deb1fe, 0x9bdc06a7, 0xc19bf174, 0xe49b69c1, 0xefbe4786,
    0x0fc19dc6, 0x240ca1cc, 0x2de92c6f, 0x4a7484aa, 0x5cb0a9dc, 0x76f988da, 0x983e5152, 0xa831c66d, 0xb00327c8,
    0xbf597fc7, 0xc6e00bf3, 0xd5a79147, 0x06ca6351, 0x14292967, 0x27b70a85, 0x2e1b2138, 0x4d2c6dfc, 0x53380d13,
    0x650a7354, 0x766a0abb, 0x81c2c92e, 0x92722c85, 0xa2bfe8a1, 0xa81a664b, 0xc24b8b70, 0xc76c51a3, 0xd192e819,
    0xd6990624, 0xf40e3585, 0x106aa070, 0x19a4c116, 0x1e376c08, 0x2748774c, 0x34b0bcb5, 0x391c0cb3, 0x4ed8aa4a,
    0x5b9cca4f, 0x682e6ff3, 0x748f82ee, 0x78a5636f, 0x84c87814, 0x8cc70208, 0x90befffa, 0xa4506ceb, 0xbef9a3f7,
    0xc67178f2,
];

/// The initial hash value (FIPS 180-4, 5.3.3).
const START: [u32; 8] =
    [0x6a09e667, 0xbb67ae85, 0x3c6ef372, 0xa54ff53a, 0x510e527f, 0x9b05688c, 0x1f83d9ab, 0x5be0cd19];

/// "a longer one is refused with 25"
pub fn sha256(input: &[u8]) -> Result<[u8; 32], Refusal> {
    if input.len() > LONGEST {
        return Err(HASH_INPUT_TOO_LONG);
    }
    Ok(digest_of(&[input]))
}

/// SHA-256 of the parts one after another; the layouts of 01 never come near the longest input.
pub fn digest_of(parts: &[&[u8]]) -> [u8; 32] {
    let message = padded(&parts.concat());
    let mut state = START;
    let mut schedule = [0u32; 64];
    for chunk in message.chunks_exact(64) {
        fill(&mut schedule, chunk);
        run_rounds(&mut state, &schedule);
    }
    let mut digest = [0u8; 32];
    for (place, word) in digest.chunks_exact_mut(4).zip(state) {
        place.copy_from_slice(&word.to_be_bytes());
    }
    digest
}

/// The padding of FIPS 180-4, 5.1.1: one bit, zeros, the length in bits as 64-bit number.
fn padded(input: &[u8]) -> Vec<u8> {
    let mut message = input.to_vec();
    message.push(0x80);
    while message.len() % 64 != 56 {
        message.push(0);
    }
    message.extend_from_slice(&(8 * input.len() as u64).to_be_bytes());
    message
}

/// "The message schedule is an area of sixty-four 32-bit words, filled from each 64-byte chunk."
fn fill(schedule: &mut [u32; 64], chunk: &[u8]) {
    for (word, bytes) in schedule.iter_mut().zip(chunk.chunks_exact(4)) {
        *word = u32::from_be_bytes([bytes[0], bytes[1], bytes[2], bytes[3]]);
    }
    for t in 16..64 {
        // "All sums are taken modulo 2^32."
        schedule[t] = small_sigma1(schedule[t - 2])
            .wrapping_add(schedule[t - 7])
            .wrapping_add(small_sigma0(schedule[t - 15]))
            .wrapping_add(schedule[t - 16]);
    }
}

/// The 64 rounds of FIPS 180-4, 6.2.2, and the sum with the state before them.
fn run_rounds(state: &mut [u32; 8], schedule: &[u32; 64]) {
    let [mut a, mut b, mut c, mut d, mut e, mut f, mut g, mut h] = *state;
    for t in 0..64 {
        let first =
            h.wrapping_add(large_sigma1(e)).wrapping_add(choose(e, f, g)).wrapping_add(K[t]).wrapping_add(schedule[t]);
        let second = large_sigma0(a).wrapping_add(majority_of_bits(a, b, c));
        h = g;
        g = f;
        f = e;
        e = d.wrapping_add(first);
        d = c;
        c = b;
        b = a;
        a = first.wrapping_add(second);
    }
    for (word, added) in state.iter_mut().zip([a, b, c, d, e, f, g, h]) {
        *word = word.wrapping_add(added);
    }
}

// "Each word is mixed by the rotations and shifts of FIPS 180-4." (4.1.2)

fn choose(x: u32, y: u32, z: u32) -> u32 {
    (x & y) ^ (!x & z)
}

fn majority_of_bits(x: u32, y: u32, z: u32) -> u32 {
    (x & y) ^ (x & z) ^ (y & z)
}

fn large_sigma0(x: u32) -> u32 {
    x.rotate_right(2) ^ x.rotate_right(13) ^ x.rotate_right(22)
}

fn large_sigma1(x: u32) -> u32 {
    x.rotate_right(6) ^ x.rotate_right(11) ^ x.rotate_right(25)
}

fn small_sigma0(x: u32) -> u32 {
    x.rotate_right(7) ^ x.rotate_right(18) ^ (x >> 3)
}

fn small_sigma1(x: u32) -> u32 {
    x.rotate_right(17) ^ x.rotate_right(19) ^ (x >> 10)
}
