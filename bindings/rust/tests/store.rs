//! The cabinet store: texts of two ledgers, damage, and each refusal.

use mahqurith::{sha256, Refusal, Store};

const A: [u8; 16] = [1; 16];
const B: [u8; 16] = [2; 16];

#[test]
fn texts_read_back_with_digests_and_tails() {
    let mut store = Store::new(4);
    store.append(&A, 1, b"one").unwrap();
    store.append(&B, 1, b"").unwrap();
    store.append(&A, 2, &[7; 418]).unwrap();
    let first = store.read(&A, 1).unwrap();
    let second = store.read(&A, 2).unwrap();
    assert_eq!((first.text(), second.text()), (&b"one"[..], &[7; 418][..]));
    assert_eq!(store.read(&B, 1).unwrap().digest(), sha256(b"").unwrap());
    let message = [&[1][..], &first.tail(), &second.digest()].concat();
    assert_eq!(second.tail(), sha256(&message).unwrap());
    assert_eq!(Store::from_bytes(store.as_bytes().to_vec()).read(&A, 2).unwrap(), second);
}

#[test]
fn refusals_change_nothing() {
    let mut store = Store::new(1);
    store.append(&A, 1, b"one").unwrap();
    let before = store.clone();
    assert_eq!(store.append(&A, 2, &[0; 419]), Err(Refusal::TextTooLong));
    assert_eq!(store.append(&[0; 16], 1, b""), Err(Refusal::LabelZero));
    assert_eq!(store.append(&B, 2, b""), Err(Refusal::OutOfOrder { height: 0 }));
    assert_eq!(store.append(&A, 2, b""), Err(Refusal::StoreFull));
    assert_eq!(store.read(&A, 2), Err(Refusal::NoSuchLedger));
    assert_eq!(store.read(&[0; 16], 0), Err(Refusal::NoSuchLedger));
    assert_eq!(store, before);
}

#[test]
fn damage_is_told() {
    let mut store = Store::new(2);
    store.append(&A, 1, b"one").unwrap();
    let mut bytes = store.as_bytes().to_vec();
    bytes[600] = 1;
    let mut damaged = Store::from_bytes(bytes);
    assert_eq!(damaged.read(&A, 1).unwrap().text(), b"one");
    assert_eq!(damaged.read(&A, 2), Err(Refusal::BlockDamaged));
    assert_eq!(damaged.append(&A, 2, b""), Err(Refusal::RecordNotSound));
    assert_eq!(Store::from_bytes(vec![0; 511]).read(&A, 1), Err(Refusal::RecordNotSound));
    assert_eq!(Store::from_bytes(vec![]).read(&A, 1), Err(Refusal::NoSuchLedger));
    assert_eq!(Store::from_bytes(vec![]).append(&A, 1, b""), Err(Refusal::StoreFull));
}
