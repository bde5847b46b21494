//! Mahqurith from Rust: a keeper's record and its calls, a desk's verdict, the messenger's store and its maker of bundles, the layouts and the hash, over the static library
//! whose every function is proved. Nothing here decides anything: each function passes on what it is given and turns the answer into a `Result`.
//!
//! Areas are made here at sizes that suffice and a record always has 63 rows, so refusal 1 and a table of another length cannot occur.
//!
//! ```
//! use mahqurith::{Keeper, Question, Rack, Kind, verdict, sha256};
//!
//! let key = [7; 32];
//! let rack = Rack::of(&[key])?.to_bytes()?;
//! let mut keeper = Keeper::wake(&key);
//! let statement = keeper.found(&rack)?;          // the chip signs these 129 bytes
//! assert_eq!(statement.len(), 129);
//!
//! let label = *b"cues of tonight!";
//! keeper.new_ledger(&label)?;
//! let entry = sha256(b"Cue 12: the moon comes up")?;
//! let receipt = keeper.append(&label, &entry, 1)?; // the chip signs these 121 bytes
//!
//! // A desk whose chip found the key attested and its signature on the receipt valid:
//! let question = Question { identity: keeper.head().identity, label, nonce: [0; 16], kind: Kind::Append };
//! let found = verdict(&question, &rack, &receipt, &[(0, mahqurith::ATTESTED | mahqurith::VALID)])?;
//! assert_eq!(found.height, 1);
//! # Ok::<(), mahqurith::Refusal>(())
//! ```

#![warn(missing_docs)]

#[cfg(not(target_arch = "x86_64"))]
compile_error!("libmahqurith.a has code for x86-64 and for no other processor");

mod bundle;
mod desk;
mod keeper;
mod layouts;
mod refusal;
mod store;
pub mod sys;

pub use bundle::{bundle_mark, bundle_position, make_bundle, Made};
pub use desk::{rack_block, receipt_block, verdict, Found, Kind, Question, ReportBlock};
pub use keeper::{Finalised, Keeper, List, RECORD};
pub use layouts::{rack_digest, Rack, Roll, Statement};
pub use refusal::Refusal;
pub use store::{Block, Store};
pub use sys::{Head, Row};

/// A digest of SHA-256, a tail, or an identity.
pub type Digest = [u8; 32];
/// A box's public key.
pub type Key = [u8; 32];
/// A ledger's name; not all zero.
pub type Label = [u8; 16];
/// What makes a reading fresh.
pub type Nonce = [u8; 16];

/// The marks bit that says that the key is attested.
pub const ATTESTED: u8 = 1;
/// The marks bit that says that the key's signature is valid.
pub const VALID: u8 = 2;

/// The version of this crate, whose first two numbers are those of the C header: its MAJOR and MINOR.
pub const VERSION: &str = env!("CARGO_PKG_VERSION");

/// SHA-256 of a message of at most 65,536 bytes.
///
/// ```
/// assert_eq!(mahqurith::sha256(b"abc").unwrap()[..4], [0xba, 0x78, 0x16, 0xbf]);
/// assert_eq!(mahqurith::sha256(&[0; 65_537]), Err(mahqurith::Refusal::InputTooLong));
/// ```
pub fn sha256(message: &[u8]) -> Result<Digest, Refusal> {
    let mut digest = [0; 32];
    let number = unsafe { sys::mahqurith_sha256(message.as_ptr(), message.len(), &mut digest) };
    Refusal::unless_accepted(number, 0).map(|()| digest)
}

/// The tail of a ledger after an entry, which is given by its digest.
///
/// ```
/// use mahqurith::{sha256, tail_after};
///
/// let entry = sha256(b"Cue 12: the moon comes up")?;
/// assert_eq!(tail_after(&[0; 32], &entry), sha256(&[&[1][..], &[0; 32], &entry].concat())?);
/// # Ok::<(), mahqurith::Refusal>(())
/// ```
pub fn tail_after(tail: &Digest, entry: &Digest) -> Digest {
    let mut after = *tail;
    unsafe { sys::mahqurith_tail_after(&mut after, entry) };
    after
}
