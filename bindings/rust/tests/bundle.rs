//! The entries of a bundle on any bytes, against a second walk that is written from document 01 alone.

use mahqurith::{bundle_mark, bundle_position, List, Refusal};

/// Where an entry stands, if the bundle has it and it ends within.
fn walked(bundle: &[u8], list: List, number: u64) -> Option<usize> {
    let old_count = u64::from(*bundle.first()?);
    let mut at = 1;
    let (passed, size) = match list {
        List::Old => (number, 3),
        List::New => (old_count, 1),
    };
    if bundle.len() > 65_536 || passed > old_count {
        return None;
    }
    for _ in 0..passed {
        at += 3 + 512 * usize::from(*bundle.get(at + 2)?);
    }
    let end = match list {
        List::Old if number < old_count => at + size + 512 * usize::from(*bundle.get(at + 2)?),
        List::New if number < u64::from(*bundle.get(at)?) => {
            at += size + 2 * number as usize;
            at + 2
        }
        _ => return None,
    };
    (end <= bundle.len()).then_some(at)
}

/// Both calls, on one entry.
fn compared(bundle: &[u8], list: List, number: u64, marks: u8) -> bool {
    let place = walked(bundle, list, number);
    assert_eq!(bundle_position(bundle, list, number), place.map(|at| bundle[at]).ok_or(Refusal::ListBroken));
    let (mut ours, mut theirs) = (bundle.to_vec(), bundle.to_vec());
    let marked = bundle_mark(&mut theirs, list, number, marks);
    if let (Some(at), true) = (place, marks < 4) {
        ours[at + 1] = marks;
        assert_eq!(marked, Ok(()));
    } else {
        assert_eq!(marked, Err(Refusal::ListBroken));
    }
    assert_eq!(ours, theirs);
    place.is_some()
}

/// A row of numbers that look like chance, the same in each run.
struct Chance(u64);

impl Chance {
    fn below(&mut self, n: u64) -> u64 {
        self.0 = self.0.wrapping_mul(6_364_136_223_846_793_005).wrapping_add(1_442_695_040_888_963_407);
        (self.0 >> 33) % n
    }
}

#[test]
fn any_bytes_are_walked_as_document_01_says() {
    let (mut chance, mut found) = (Chance(1), 0);
    for _ in 0..100_000 {
        let length = chance.below(if chance.0 % 8 == 0 { 3000 } else { 40 });
        let bundle: Vec<u8> = (0..length).map(|_| [0, 0, 0, 1, 2, 3, 7, 255][chance.below(8) as usize]).collect();
        for list in [List::Old, List::New] {
            let number = if chance.below(50) == 0 { u64::MAX - chance.below(3) } else { chance.below(5) };
            found += u32::from(compared(&bundle, list, number, chance.below(6) as u8));
        }
    }
    assert!((10_000..190_000).contains(&found), "{found} of 200000 entries were there");
}

#[test]
fn a_bundle_cut_short_has_the_entries_that_are_left() {
    let mut bundle = vec![2, 0, 0, 1];
    bundle.extend([9; 512]);
    bundle.extend([3, 0, 2]);
    bundle.extend([9; 1024]);
    bundle.extend([2, 0, 0, 4, 0]);
    for length in 0..=bundle.len() {
        for (list, number) in [(List::Old, 0), (List::Old, 1), (List::Old, 2), (List::New, 0), (List::New, 1), (List::New, 2)] {
            compared(&bundle[..length], list, number, 3);
        }
    }
    let mut longest = bundle.clone();
    longest.resize(65_536, 0);
    assert!(compared(&longest, List::New, 1, 0));
    longest.push(0);
    assert!(!compared(&longest, List::New, 1, 0));
}
