//! This file tests the peer's SHA-256 with published examples and at the bound of its input.

use peer::sha256::sha256;

fn hex(input: &[u8]) -> String {
    sha256(input).expect("short enough").iter().map(|byte| format!("{byte:02x}")).collect()
}

#[test]
fn published_examples() {
    assert_eq!(hex(b""), "e3b0c44298fc1c149afbf4c8996fb92427ae41e4649b934ca495991b7852b855");
    assert_eq!(hex(b"abc"), "ba7816bf8f01cfea414140de5dae2223b00361a396177a9cb410ff61f20015ad");
    assert_eq!(
        hex(b"abcdbcdecdefdefgefghfghighijhijkijkljklmklmnlmnomnopnopq"),
        "248d6a61d20638b8e5c026930c3e6039a33ce45964ff2167f6ecedd419db06c1"
    );
    assert_eq!(
        hex(b"abcdefghbcdefghicdefghijdefghijkefghijklfghijklmghijklmnhijklmnoijklmnopjklmnopqklmnopqrlmnopqrsmnopqrstnopqrstu"),
        "cf5b16a778af8380036ce59e7b0492370b249b11e8f07a51afac45037afee9d1"
    );
}

/// The digest over the digests of 1,001 strings of 0 to 1,000 bytes, worked out once with Python's hashlib.
#[test]
fn many_lengths() {
    let mut digests = Vec::new();
    for length in 0..=1_000usize {
        let input: Vec<u8> = (0..length).map(|at| (at * 7 + length) as u8).collect();
        digests.extend(sha256(&input).unwrap());
    }
    assert_eq!(hex(&digests), "bc2788cf303b31d72f87b0559a1d0cf08cff14a58a5b8e1f0909e49c0b9fdea7");
    assert_eq!(hex(&vec![b'a'; 65_536]), "bf718b6f653bebc184e1479f1935b8da974d701b893afcf49e701f3e2f9f9c5a");
}

#[test]
fn longest_input() {
    assert!(sha256(&vec![7; 65_536]).is_ok());
    assert_eq!(sha256(&vec![7; 65_537]), Err(25));
}
