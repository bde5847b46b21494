//! The cabinet store, in which a messenger keeps the texts of the entries.

use crate::sys::{self, Place};
use crate::{Digest, Label, Refusal};

const BLOCK: usize = 512;
const MOST: usize = 128;

/// A store: up to 128 blocks of 512 bytes, which may come from anywhere. What is appended reads back until someone else writes them.
///
/// ```
/// use mahqurith::{sha256, Refusal, Store};
///
/// let mut store = Store::new(2);
/// let label = *b"cues of tonight!";
/// store.append(&label, 1, b"Cue 12: the moon comes up")?;
/// assert_eq!(store.append(&label, 5, b""), Err(Refusal::OutOfOrder { height: 1 }));
/// let block = store.read(&label, 1)?;
/// assert_eq!(block.text(), b"Cue 12: the moon comes up");
/// assert_eq!(block.digest(), sha256(b"Cue 12: the moon comes up")?);
/// # Ok::<(), Refusal>(())
/// ```
#[derive(Clone, PartialEq, Eq, Debug)]
pub struct Store(Vec<u8>);

impl Store {
    /// An empty store of so many blocks, at most 128.
    pub fn new(blocks: usize) -> Store {
        Store(vec![0; BLOCK * blocks.min(MOST)])
    }

    /// A store that was kept as bytes; each call tests what it needs of them.
    pub fn from_bytes(bytes: Vec<u8>) -> Store {
        Store(bytes)
    }

    /// The bytes to keep.
    pub fn as_bytes(&self) -> &[u8] {
        &self.0
    }

    /// Appends a text at the height that the label has next.
    pub fn append(&mut self, label: &Label, height: u64, text: &[u8]) -> Result<(), Refusal> {
        let asked = Place { label: *label, height };
        let stored = unsafe { sys::mahqurith_store_append(self.0.as_mut_ptr(), self.0.len(), asked, text.as_ptr(), text.len()) };
        Refusal::unless_accepted(stored.number, stored.height)
    }

    /// The first undamaged block of a label and a height.
    pub fn read(&self, label: &Label, height: u64) -> Result<Block, Refusal> {
        let asked = Place { label: *label, height };
        let mut block = [0; BLOCK];
        let stored = unsafe { sys::mahqurith_store_read(self.0.as_ptr(), self.0.len(), asked, block.as_mut_ptr(), BLOCK) };
        Refusal::unless_accepted(stored.number, 0).map(|()| Block(block))
    }
}

/// A block that the store gave: undamaged.
#[derive(Clone, PartialEq, Eq, Debug)]
pub struct Block([u8; BLOCK]);

impl Block {
    /// SHA-256 of the text.
    pub fn digest(&self) -> Digest {
        std::array::from_fn(|i| self.0[24 + i])
    }

    /// The tail after this entry, as the store says; it is not tested against anything.
    pub fn tail(&self) -> Digest {
        std::array::from_fn(|i| self.0[56 + i])
    }

    /// The text.
    pub fn text(&self) -> &[u8] {
        let length = usize::from(u16::from_be_bytes([self.0[88], self.0[89]]));
        &self.0[90..90 + length]
    }

    /// All 512 bytes.
    pub fn as_bytes(&self) -> &[u8] {
        &self.0
    }
}
