//! Two racks, a handover between them, and what a desk is told before and after.

use mahqurith::{bundle_mark, bundle_position, rack_digest, sha256, tail_after, verdict};
use mahqurith::{Digest, Keeper, Kind, Label, List, Question, Rack, Refusal, Roll, Statement, ATTESTED, RECORD, VALID};

const LABEL: Label = *b"cues of tonight!";
const GOOD: u8 = ATTESTED | VALID;

fn rack_of(keys: &[u8]) -> Vec<u8> {
    let keys: Vec<[u8; 32]> = keys.iter().map(|&k| [k; 32]).collect();
    Rack::of(&keys).unwrap().to_bytes().unwrap()
}

fn founded(keys: &[u8]) -> Vec<Keeper> {
    let rack = rack_of(keys);
    let mut keepers: Vec<Keeper> = keys.iter().map(|&k| Keeper::wake(&[k; 32])).collect();
    for keeper in &mut keepers {
        keeper.found(&rack).unwrap();
        keeper.new_ledger(&LABEL).unwrap();
    }
    keepers
}

fn question(identity: Digest, kind: Kind, nonce: u8) -> Question {
    Question { identity, label: LABEL, nonce: [nonce; 16], kind }
}

/// A bundle of two old and two new entries, for a roll of one row, to which old entry 1 adds one digest.
fn bundle_of(rolls: [&[u8]; 2], missed: &Digest) -> Vec<u8> {
    let mut bundle = vec![2];
    for (position, roll) in rolls.iter().enumerate() {
        bundle.extend([position as u8, GOOD, 1]);
        bundle.extend_from_slice(roll);
    }
    bundle.extend([2, 0, GOOD, 1, GOOD]);
    bundle.extend([0, 0, 0, 1]);
    bundle.extend_from_slice(missed);
    bundle
}

#[test]
fn a_handover_keeps_the_tail() {
    let (old, new) = (rack_of(&[1, 2, 3]), rack_of(&[4, 5, 6]));
    let mut keepers = founded(&[1, 2, 3]);
    let identity = keepers[0].head().identity;
    let entry = sha256(b"Cue 1: house to half").unwrap();
    let receipt = keepers[0].append(&LABEL, &entry, 1).unwrap();
    let found = verdict(&question(identity, Kind::Append, 0), &old, &receipt, &[(0, GOOD), (2, GOOD)]).unwrap();
    assert_eq!((found.height, found.tail), (1, tail_after(&[0; 32], &entry)));
    assert_eq!(identity, rack_digest(&old).unwrap());

    let first = keepers[0].finalise(&new).unwrap();
    let second = keepers[1].finalise(&new).unwrap();
    assert!(!first.repeat && keepers[0].finalise(&old).unwrap() == mahqurith::Finalised { repeat: true, ..first.clone() });
    assert_eq!(keepers[0].append(&LABEL, &entry, 2), Err(Refusal::NotActive));

    let mut heir = Keeper::wake(&[4; 32]);
    let statement = heir.join(&identity, &first.roll, &old, &new).unwrap();
    let bundle = bundle_of([&first.roll, &second.roll], &entry);
    assert_eq!(heir.bytes_to_check(&old, &new, &bundle, List::Old, 1).unwrap(), second.statement);
    assert_eq!(heir.bytes_to_check(&old, &new, &bundle, List::New, 0).unwrap(), statement);
    assert_eq!(heir.bytes_to_check(&old, &new, &bundle, List::New, 2), Err(Refusal::ListBroken));
    heir.activate(&old, &new, &bundle).unwrap();

    let reading = heir.read(&LABEL, &[9; 16]).unwrap();
    let asked = question(identity, Kind::Read, 9);
    assert_eq!(verdict(&asked, &new, &reading, &[(0, GOOD), (1, GOOD)]).unwrap(), found);
    assert_eq!(verdict(&asked, &new, &reading, &[(0, GOOD)]), Err(Refusal::TooFew));
    assert_eq!(verdict(&asked, &new, &reading, &[(0, GOOD), (0, GOOD)]), Err(Refusal::ListBroken));
    assert_eq!(verdict(&question(identity, Kind::Read, 8), &new, &reading, &[(0, GOOD), (1, GOOD)]), Err(Refusal::NonceDiffers));
}

#[test]
fn a_forged_bundle_is_refused() {
    let (old, new) = (rack_of(&[1, 2, 3]), rack_of(&[4, 5, 6]));
    let mut keepers = founded(&[1, 2, 3]);
    let identity = keepers[0].head().identity;
    keepers[0].append(&LABEL, &[6; 32], 1).unwrap();
    let rolls: Vec<Vec<u8>> = keepers.iter_mut().take(2).map(|k| k.finalise(&new).unwrap().roll).collect();
    let mut heir = Keeper::wake(&[4; 32]);
    heir.join(&identity, &rolls[0], &old, &new).unwrap();
    let before = heir.clone();
    assert_eq!(heir.activate(&old, &new, &bundle_of([&rolls[0], &rolls[1]], &[7; 32])), Err(Refusal::NotDerived));
    let mut unsigned = bundle_of([&rolls[0], &rolls[1]], &[6; 32]);
    unsigned[2] = ATTESTED;
    assert_eq!(heir.activate(&old, &new, &unsigned), Err(Refusal::SignatureNotValid));
    assert_eq!(heir, before);
}

/// The marks of each entry that Bytes to check knows, set in a bundle whose marks a messenger chose.
#[test]
fn a_box_sets_its_own_marks() {
    let (old, new) = (rack_of(&[1, 2, 3]), rack_of(&[4, 5, 6]));
    let mut keepers = founded(&[1, 2, 3]);
    let identity = keepers[0].head().identity;
    keepers[0].append(&LABEL, &[6; 32], 1).unwrap();
    let rolls: Vec<Vec<u8>> = keepers.iter_mut().take(2).map(|k| k.finalise(&new).unwrap().roll).collect();
    let mut heir = Keeper::wake(&[4; 32]);
    heir.join(&identity, &rolls[0], &old, &new).unwrap();
    let marked = bundle_of([&rolls[0], &rolls[1]], &[6; 32]);
    let mut bundle = marked.clone();
    for (list, number) in [(List::Old, 0), (List::Old, 1), (List::New, 0), (List::New, 1)] {
        assert_eq!(bundle_position(&bundle, list, number), Ok(number as u8));
        bundle_mark(&mut bundle, list, number, 0).unwrap();
    }
    assert_eq!(heir.activate(&old, &new, &bundle), Err(Refusal::NotAttested));
    for list in [List::Old, List::New] {
        let mut number = 0;
        while heir.bytes_to_check(&old, &new, &bundle, list, number).is_ok() {
            bundle_mark(&mut bundle, list, number, GOOD).unwrap();
            number += 1;
        }
        assert_eq!(bundle_mark(&mut bundle, list, number, GOOD), Err(Refusal::ListBroken));
    }
    assert_eq!(bundle, marked);
    heir.activate(&old, &new, &bundle).unwrap();
}

#[test]
fn a_record_goes_to_bytes_and_back() {
    let mut keeper = founded(&[1]).remove(0);
    keeper.append(&LABEL, &[6; 32], 1).unwrap();
    let mut bytes = keeper.to_bytes();
    assert_eq!((bytes.len(), RECORD), (162 + 63 * 56, 3690));
    assert_eq!((bytes[0], bytes[1], &bytes[2..34], &bytes[34..66]), (2, 1, &[1; 32][..], &keeper.head().identity[..]));
    assert_eq!((&bytes[162..178], &bytes[178..210], &bytes[210..218]), (&LABEL[..], &keeper.rows()[0].tail[..], &1u64.to_be_bytes()[..]));
    let mut again = Keeper::from_bytes(&bytes).unwrap();
    assert_eq!(again, keeper);
    assert_eq!(again.append(&LABEL, &[7; 32], 2), keeper.append(&LABEL, &[7; 32], 2));
    for wrong in [&bytes[..RECORD - 1], &[&bytes[..], &[0]].concat(), &[]] {
        assert_eq!(Keeper::from_bytes(wrong), Err(Refusal::RecordNotSound));
    }
    bytes[0] = 4;
    assert_eq!(Keeper::from_bytes(&bytes), Err(Refusal::RecordNotSound));
}

#[test]
fn what_is_read_is_written_again() {
    let mut keeper = Keeper::wake(&[1; 32]);
    let statement = keeper.found(&rack_of(&[1])).unwrap();
    let read = Statement::from_bytes(&statement).unwrap();
    assert_eq!((read.kind, read.identity, read.own), (5, keeper.head().identity, keeper.head().own));
    assert_eq!(read.to_bytes().unwrap(), statement);
    let blocks = keeper.finalise(&rack_of(&[2])).unwrap().roll;
    assert_eq!(Roll::from_bytes(&blocks).unwrap().to_bytes().unwrap(), blocks);
    assert_eq!(Statement::from_bytes(&statement[1..]), Err(Refusal::StatementNotAsked));
}

#[test]
fn stored_records_are_taken_as_they_are() {
    let keeper = Keeper::wake(&[1; 32]);
    let mut head = *keeper.head();
    head.status = 4;
    assert_eq!(Keeper::from_parts(head, *keeper.rows()).read(&LABEL, &[0; 16]), Err(Refusal::RecordNotSound));
}

#[test]
fn no_rack_of_two_is_entered_or_handed_to() {
    let pair = rack_of(&[1, 2]);
    let mut keeper = Keeper::wake(&[1; 32]);
    assert_eq!(keeper.found(&pair), Err(Refusal::RackOfTwo));
    keeper.found(&rack_of(&[1])).unwrap();
    assert_eq!(keeper.finalise(&pair), Err(Refusal::RackOfTwo));
    let heirs = keeper.finalise(&rack_of(&[2])).unwrap();
    assert_eq!(keeper.finalise(&pair).unwrap(), mahqurith::Finalised { repeat: true, ..heirs });
}
