//! Append many beside Append: the same record and the last receipt, or nothing at all.

use mahqurith::{Digest, Keeper, Label, Rack, Refusal, Row};

const LABEL: Label = *b"cues of tonight!";
const TOP: u64 = 4_294_967_295;

fn founded() -> Keeper {
    let rack = Rack::of(&[[1; 32]]).unwrap().to_bytes().unwrap();
    let mut keeper = Keeper::wake(&[1; 32]);
    keeper.found(&rack).unwrap();
    keeper.new_ledger(&LABEL).unwrap();
    keeper
}

/// The keeper with its ledger at another height.
fn at(keeper: &Keeper, height: u64) -> Keeper {
    let mut rows = *keeper.rows();
    rows[0] = Row { height, tail: [3; 32], ..rows[0] };
    Keeper::from_parts(*keeper.head(), rows)
}

fn entries(count: u8) -> Vec<Digest> {
    (0..count).map(|n| [n; 32]).collect()
}

#[test]
fn many_are_the_same_as_one_by_one() {
    for count in 1..=32 {
        let (mut many, mut single) = (founded(), founded());
        let list = entries(count);
        let mut last = None;
        for (n, entry) in list.iter().enumerate() {
            last = Some(single.append(&LABEL, entry, n as u64 + 1).unwrap());
        }
        assert_eq!(many.append_many(&LABEL, &list, 1).ok(), last);
        assert_eq!(many, single);
    }
}

#[test]
fn a_list_is_taken_whole_or_refused() {
    let keeper = founded();
    let refused = |start: &Keeper, label: &Label, list: &[Digest], expected, refusal| {
        let mut keeper = start.clone();
        assert_eq!(keeper.append_many(label, list, expected), Err(refusal));
        assert_eq!(keeper, *start);
    };
    refused(&keeper, &LABEL, &[], 1, Refusal::ListOfWrongLength);
    refused(&keeper, &LABEL, &entries(33), 1, Refusal::ListOfWrongLength);
    refused(&keeper, b"a missing ledger", &[], 1, Refusal::ListOfWrongLength);
    refused(&keeper, b"a missing ledger", &entries(2), 1, Refusal::NoSuchLedger);
    refused(&keeper, &LABEL, &entries(2), 2, Refusal::OutOfOrder { height: 0 });
    let high = at(&keeper, TOP - 2);
    refused(&high, &LABEL, &entries(3), TOP - 1, Refusal::HeightAtTop);
    assert!(high.clone().append_many(&LABEL, &entries(2), TOP - 1).is_ok());
}
