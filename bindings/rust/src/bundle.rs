//! A handover's bundle: made by the messenger, its entries marked by a box.

use crate::sys;
use crate::{List, Refusal, Store};

const ROLL: usize = 3584;
const BUNDLE: usize = 65_536;

/// The position of an entry in its rack: of an old one in the previous rack, of a new one in the own rack. Any bytes may come as a bundle.
///
/// ```
/// use mahqurith::{bundle_mark, bundle_position, List, Refusal, ATTESTED};
///
/// let mut bundle = [0, 1, 7, 0]; // no old entry, and a new one at position 7
/// assert_eq!(bundle_position(&bundle, List::New, 0), Ok(7));
/// assert_eq!(bundle_position(&bundle, List::Old, 0), Err(Refusal::ListBroken));
/// bundle_mark(&mut bundle, List::New, 0, ATTESTED)?;
/// assert_eq!(bundle, [0, 1, 7, ATTESTED]);
/// assert_eq!(bundle_mark(&mut bundle, List::New, 0, 4), Err(Refusal::ListBroken));
/// # Ok::<(), Refusal>(())
/// ```
pub fn bundle_position(bundle: &[u8], list: List, number: u64) -> Result<u8, Refusal> {
    let found = unsafe { sys::mahqurith_bundle_position(bundle.as_ptr(), bundle.len(), list as u8, number) };
    Refusal::unless_accepted(found.number, 0).map(|()| found.position)
}

/// Sets the marks of an entry, and no other byte. The marks are what this box's own chip found.
pub fn bundle_mark(bundle: &mut [u8], list: List, number: u64, marks: u8) -> Result<(), Refusal> {
    Refusal::unless_accepted(unsafe { sys::mahqurith_bundle_mark(bundle.as_mut_ptr(), bundle.len(), list as u8, number, marks) }, 0)
}

/// What the maker writes.
#[derive(Clone, PartialEq, Eq, Debug)]
pub struct Made {
    /// The new roll in blocks, for `Keeper::join`.
    pub roll: Vec<u8>,
    /// The bundle, which `Keeper::activate` accepts of a keeper that joined with this roll and these racks.
    pub bundle: Vec<u8>,
}

/// The new roll and the bundle of a handover, from the entries (the part of a bundle before its lists) and the store. It checks no signature: the marks in the
/// entries are what the caller says.
///
/// ```
/// use mahqurith::{make_bundle, Rack, Refusal, Roll, Store, ATTESTED, VALID};
///
/// let (old, new) = (Rack::of(&[[1; 32]])?.to_bytes()?, Rack::of(&[[2; 32]])?.to_bytes()?);
/// let roll = Roll::of(&[])?.to_bytes()?;
/// let entries = [&[1, 0, ATTESTED | VALID, 1], &roll[..], &[1, 0, ATTESTED | VALID]].concat();
/// let made = make_bundle(&old, &new, &entries, &Store::new(0))?;
/// assert_eq!((made.roll, made.bundle), (roll, entries)); // no ledger, and so no list
/// # Ok::<(), Refusal>(())
/// ```
pub fn make_bundle(previous: &[u8], own: &[u8], entries: &[u8], store: &Store) -> Result<Made, Refusal> {
    let mut made = Made { roll: vec![0; ROLL], bundle: vec![0; BUNDLE] };
    let answer = unsafe {
        sys::mahqurith_make_bundle(
            previous.as_ptr(),
            previous.len(),
            own.as_ptr(),
            own.len(),
            entries.as_ptr(),
            entries.len(),
            store.as_bytes().as_ptr(),
            store.as_bytes().len(),
            made.roll.as_mut_ptr(),
            ROLL,
            made.bundle.as_mut_ptr(),
            BUNDLE,
        )
    };
    Refusal::unless_accepted(answer.number, 0)?;
    made.roll.truncate(answer.roll);
    made.bundle.truncate(answer.bundle);
    Ok(made)
}
