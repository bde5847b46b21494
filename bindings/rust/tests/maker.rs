//! The maker of bundles: a handover made from a store, what it refuses, and the areas that it leaves then.

use mahqurith::{make_bundle, sha256, sys, Keeper, Label, Made, Rack, Refusal, Roll, Row, Store, ATTESTED, VALID};

const LABEL: Label = *b"cues of tonight!";
const CUES: [&[u8]; 3] = [b"Cue 1: house to half", b"Cue 2: moonlight", b"Cue 3: blackout"];
const GOOD: u8 = ATTESTED | VALID;

fn rack_of(first: u8) -> Vec<u8> {
    Rack::of(&[[first; 32], [first + 1; 32], [first + 2; 32]]).unwrap().to_bytes().unwrap()
}

/// A store of the first cues.
fn store_of(cues: usize) -> Store {
    let mut store = Store::new(4);
    for (n, text) in CUES[..cues].iter().enumerate() {
        store.append(&LABEL, n as u64 + 1, text).unwrap();
    }
    store
}

/// The part of a bundle before its lists: two old entries, and two new ones with these marks.
fn entries_of(rolls: [&[u8]; 2], marks: u8) -> Vec<u8> {
    let mut entries = vec![2];
    for (position, roll) in rolls.iter().enumerate() {
        entries.extend([position as u8, GOOD, (roll.len() / 512) as u8]);
        entries.extend_from_slice(roll);
    }
    entries.extend([2, 0, marks, 1, marks]);
    entries
}

/// What a keeper of the old rack hands on that has the first cues; without any it lacks the ledger.
fn finalised(key: u8, cues: usize) -> Vec<u8> {
    let mut keeper = Keeper::wake(&[key; 32]);
    keeper.found(&rack_of(1)).unwrap();
    for (n, text) in CUES[..cues].iter().enumerate() {
        if n == 0 {
            keeper.new_ledger(&LABEL).unwrap();
        }
        keeper.append(&LABEL, &sha256(text).unwrap(), n as u64 + 1).unwrap();
    }
    keeper.finalise(&rack_of(4)).unwrap().roll
}

/// Rows of height 0, whose labels begin with these bytes.
fn roll_of(first_bytes: std::ops::Range<u8>) -> Vec<u8> {
    let rows: Vec<Row> = first_bytes.map(|n| Row { label: [n; 16], tail: [0; 32], height: 0 }).collect();
    Roll::of(&rows).unwrap().to_bytes().unwrap()
}

#[test]
fn a_handover_is_made_from_the_store() {
    let (old, new) = (rack_of(1), rack_of(4));
    for behind in 0..=3 {
        let rolls = [finalised(1, behind), finalised(2, 3)];
        let made = make_bundle(&old, &new, &entries_of([&rolls[0], &rolls[1]], GOOD), &store_of(3)).unwrap();
        assert_eq!(made.roll, rolls[1]);
        let mut heir = Keeper::wake(&[4; 32]);
        heir.join(&[9; 32], &made.roll, &old, &new).unwrap();
        heir.activate(&old, &new, &made.bundle).unwrap();
        assert_eq!(heir.rows()[0].height, 3);
    }
}

#[test]
fn the_roll_is_known_before_the_marks_are() {
    let rolls = [finalised(1, 1), finalised(2, 3)];
    let make = |marks| make_bundle(&rack_of(1), &rack_of(4), &entries_of([&rolls[0], &rolls[1]], marks), &store_of(3));
    let hoped = make(GOOD).unwrap();
    assert_eq!(make(ATTESTED), Err(Refusal::InitialiseNotValid));
    assert_eq!(make(0), Err(Refusal::NotAttested));
    assert_eq!(make(GOOD), Ok(Made { roll: rolls[1].clone(), ..hoped }));
}

#[test]
fn a_needed_entry_that_the_store_has_not() {
    let rolls = [finalised(1, 1), finalised(2, 3)];
    let entries = entries_of([&rolls[0], &rolls[1]], GOOD);
    let make = |store: &Store| make_bundle(&rack_of(1), &rack_of(4), &entries, store).map(|_| ());
    assert_eq!(make(&store_of(2)), Err(Refusal::NotLeading));
    let mut damaged = store_of(3).as_bytes().to_vec();
    damaged[0] ^= 1; // cue 1, which is not needed
    assert_eq!(make(&Store::from_bytes(damaged.clone())), Ok(()));
    damaged[512] ^= 1;
    assert_eq!(make(&Store::from_bytes(damaged)), Err(Refusal::NotLeading));
    assert_eq!(make(&Store::from_bytes(vec![0; 511])), Err(Refusal::RecordNotSound));
}

#[test]
fn more_rows_than_a_roll_has() {
    let make = |second| make_bundle(&rack_of(1), &rack_of(4), &entries_of([&roll_of(1..63), &roll_of(2..second)], GOOD), &Store::new(0));
    assert_eq!(Roll::from_bytes(&make(64).unwrap().roll).unwrap().rows().len(), 63);
    assert_eq!(make(65), Err(Refusal::BundleTooLarge));
}

#[test]
fn areas_too_short_are_left_alone() {
    let (old, new) = (rack_of(1), rack_of(4));
    let entries = entries_of([&finalised(1, 1), &finalised(2, 3)], GOOD);
    let store = store_of(3);
    let length = make_bundle(&old, &new, &entries, &store).unwrap().bundle.len();
    for (roll_length, bundle_length, number) in [(511, length, 1), (512, length - 1, 1), (0, 0, 1), (512, length, 0)] {
        let (mut roll, mut bundle) = (vec![7; roll_length], vec![7; bundle_length]);
        let made = unsafe {
            sys::mahqurith_make_bundle(
                old.as_ptr(),
                old.len(),
                new.as_ptr(),
                new.len(),
                entries.as_ptr(),
                entries.len(),
                store.as_bytes().as_ptr(),
                store.as_bytes().len(),
                roll.as_mut_ptr(),
                roll_length,
                bundle.as_mut_ptr(),
                bundle_length,
            )
        };
        let accepted = number == 0;
        assert_eq!((made.number, made.roll, made.bundle), (number, if accepted { 512 } else { 0 }, if accepted { length } else { 0 }));
        assert_eq!(roll.iter().chain(&bundle).all(|&byte| byte == 7), !accepted);
    }
}
