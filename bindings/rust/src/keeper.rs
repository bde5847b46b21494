//! A keeper's record and its calls.

use crate::sys::{self, Answer, Asked, Head, Row};
use crate::{Digest, Key, Label, Nonce, Refusal};

const ROWS: usize = 63;
const RECEIPT: usize = 121;
const READING: usize = 137;
const HANDOVER: usize = 129;
const FINALISED: usize = 3713;
const DIGESTS: usize = 5;
const HEAD: usize = 2 + 32 * DIGESTS;
const ROW: usize = 16 + 32 + 8;

/// The bytes of a record: 162 of head, 3,528 of rows.
pub const RECORD: usize = HEAD + ROWS * ROW;

/// A keeper's record: head and 63 rows. It is durable before the chip signs what a call gave: `docs/INTEGRATION.md`, "For the firmware of a box".
///
/// ```
/// use mahqurith::{Keeper, Rack, Refusal};
///
/// let mut keeper = Keeper::wake(&[1; 32]);
/// assert_eq!(keeper.new_ledger(b"cues of tonight!"), Err(Refusal::NotActive));
/// let rack = Rack::of(&[[1; 32]])?.to_bytes()?;
/// keeper.found(&rack)?;
/// keeper.new_ledger(b"cues of tonight!")?;
/// assert_eq!(keeper.append(b"cues of tonight!", &[5; 32], 2), Err(Refusal::OutOfOrder { height: 0 }));
/// # Ok::<(), Refusal>(())
/// ```
#[derive(Clone, PartialEq, Eq, Debug)]
pub struct Keeper {
    head: Head,
    rows: [Row; ROWS],
}

/// What Finalise gives.
#[derive(Clone, PartialEq, Eq, Debug)]
pub struct Finalised {
    /// The statement. The chip signs it, unless this is a repeat, and erases its key once the signature is stored.
    pub statement: [u8; HANDOVER],
    /// The roll's blocks, which are not signed.
    pub roll: Vec<u8>,
    /// Whether the keeper was finalised already: then there is nothing to sign.
    pub repeat: bool,
}

/// The two lists of a bundle.
#[derive(Clone, Copy, PartialEq, Eq, Debug)]
pub enum List {
    /// the old entries
    Old = 0,
    /// the new entries
    New = 1,
}

fn accepted(answer: Answer) -> Result<Answer, Refusal> {
    Refusal::unless_accepted(answer.number, answer.height).map(|()| answer)
}

type OnLedger = unsafe extern "C" fn(*mut Head, *mut Row, usize, Asked, *mut u8, usize) -> Answer;

impl Keeper {
    /// A blank record with this key, which the chip has just made: a key that was woken before is never woken again.
    pub fn wake(key: &Key) -> Keeper {
        let row = Row { label: [0; 16], tail: [0; 32], height: 0 };
        let none = [0; 32];
        let mut keeper = Keeper { head: Head { status: 0, count: 0, key: *key, identity: none, own: none, previous: none, next: none }, rows: [row; ROWS] };
        let asked = Asked { key: *key, ..Asked::default() };
        let answer = unsafe { sys::mahqurith_wake(&mut keeper.head, keeper.rows.as_mut_ptr(), ROWS, asked) };
        assert_eq!(answer.number, 0, "a table of 63 rows is never refused");
        keeper
    }

    /// The record that was stored. Any bytes may come: a record that is not sound is refused by each call with 2.
    pub fn from_parts(head: Head, rows: [Row; ROWS]) -> Keeper {
        Keeper { head, rows }
    }

    /// The head, to be stored.
    pub fn head(&self) -> &Head {
        &self.head
    }

    /// The rows, to be stored.
    pub fn rows(&self) -> &[Row; ROWS] {
        &self.rows
    }

    /// The record as bytes, to be stored: status, count, key, identity, the digests of own, previous and next rack, then the 63 rows, each label 16, tail 32,
    /// height 8, big-endian.
    ///
    /// ```
    /// use mahqurith::{Keeper, Refusal, RECORD};
    ///
    /// let keeper = Keeper::wake(&[1; 32]);
    /// let mut bytes = keeper.to_bytes();
    /// assert_eq!(Keeper::from_bytes(&bytes)?, keeper);
    /// assert_eq!(Keeper::from_bytes(&bytes[1..]), Err(Refusal::RecordNotSound));
    /// bytes[0] = 4; // there is no such status
    /// assert_eq!(Keeper::from_bytes(&bytes), Err(Refusal::RecordNotSound));
    /// # Ok::<(), Refusal>(())
    /// ```
    pub fn to_bytes(&self) -> [u8; RECORD] {
        let h = &self.head;
        let mut bytes = vec![h.status, h.count];
        for part in [&h.key, &h.identity, &h.own, &h.previous, &h.next] {
            bytes.extend_from_slice(part);
        }
        for row in &self.rows {
            bytes.extend_from_slice(&row.label);
            bytes.extend_from_slice(&row.tail);
            bytes.extend_from_slice(&row.height.to_be_bytes());
        }
        bytes.try_into().expect("3690 bytes")
    }

    /// The record of these bytes. Bytes of another length, or with a status that no keeper has, are refused with 2; whether the rest is sound, each call tells.
    pub fn from_bytes(bytes: &[u8]) -> Result<Keeper, Refusal> {
        if bytes.len() != RECORD || bytes[0] > 3 {
            return Err(Refusal::RecordNotSound);
        }
        let part = |i: usize| bytes[2 + 32 * i..][..32].try_into().expect("32 bytes");
        let head = Head { status: bytes[0], count: bytes[1], key: part(0), identity: part(1), own: part(2), previous: part(3), next: part(4) };
        let rows = std::array::from_fn(|i| {
            let row = &bytes[HEAD + ROW * i..][..ROW];
            Row {
                label: row[..16].try_into().expect("16 bytes"),
                tail: row[16..48].try_into().expect("32 bytes"),
                height: u64::from_be_bytes(row[48..].try_into().expect("8 bytes")),
            }
        });
        Ok(Keeper { head, rows })
    }

    /// Initialise of a rack that is founded: the keeper is active at once.
    pub fn found(&mut self, own: &[u8]) -> Result<[u8; HANDOVER], Refusal> {
        self.initialise(&[0; 32], &[], &[], own)
    }

    /// Initialise of a rack that follows another: the keeper is prepared, and roll and identity are taken unproved until Activate.
    pub fn join(&mut self, identity: &Digest, roll: &[u8], previous: &[u8], own: &[u8]) -> Result<[u8; HANDOVER], Refusal> {
        self.initialise(identity, roll, previous, own)
    }

    fn initialise(&mut self, identity: &Digest, roll: &[u8], previous: &[u8], own: &[u8]) -> Result<[u8; HANDOVER], Refusal> {
        let mut area = [0; HANDOVER];
        let asked = Asked { identity: *identity, ..Asked::default() };
        accepted(unsafe {
            sys::mahqurith_initialise(
                &mut self.head,
                self.rows.as_mut_ptr(),
                ROWS,
                asked,
                roll.as_ptr(),
                roll.len(),
                previous.as_ptr(),
                previous.len(),
                own.as_ptr(),
                own.len(),
                area.as_mut_ptr(),
                HANDOVER,
            )
        })?;
        Ok(area)
    }

    fn on_ledger<const SIZE: usize>(&mut self, call: OnLedger, asked: Asked) -> Result<[u8; SIZE], Refusal> {
        let mut area = [0; SIZE];
        accepted(unsafe { call(&mut self.head, self.rows.as_mut_ptr(), ROWS, asked, area.as_mut_ptr(), SIZE) })?;
        Ok(area)
    }

    /// New: a ledger at height 0. The chip signs the receipt.
    pub fn new_ledger(&mut self, label: &Label) -> Result<[u8; RECEIPT], Refusal> {
        self.on_ledger(sys::mahqurith_new, Asked { label: *label, ..Asked::default() })
    }

    /// Append. The chip signs the receipt.
    pub fn append(&mut self, label: &Label, entry: &Digest, expected: u64) -> Result<[u8; RECEIPT], Refusal> {
        self.on_ledger(sys::mahqurith_append, Asked { label: *label, entry: *entry, expected, ..Asked::default() })
    }

    /// Append many: 1 to 32 entries from the expected height on, or none of them. The chip signs the one receipt, of the last.
    pub fn append_many(&mut self, label: &Label, entries: &[Digest], expected: u64) -> Result<[u8; RECEIPT], Refusal> {
        let asked = Asked { label: *label, expected, ..Asked::default() };
        let list = entries.as_flattened();
        let mut area = [0; RECEIPT];
        accepted(unsafe {
            sys::mahqurith_append_many(&mut self.head, self.rows.as_mut_ptr(), ROWS, asked, list.as_ptr(), list.len(), area.as_mut_ptr(), RECEIPT)
        })?;
        Ok(area)
    }

    /// Read. The chip signs the reading.
    pub fn read(&self, label: &Label, nonce: &Nonce) -> Result<[u8; READING], Refusal> {
        let mut area = [0; READING];
        let asked = Asked { label: *label, nonce: *nonce, ..Asked::default() };
        accepted(unsafe { sys::mahqurith_read(&self.head, self.rows.as_ptr(), ROWS, asked, area.as_mut_ptr(), READING) })?;
        Ok(area)
    }

    /// Append and read. The chip signs receipt and reading, each by itself.
    pub fn append_and_read(&mut self, label: &Label, entry: &Digest, expected: u64, nonce: &Nonce) -> Result<([u8; RECEIPT], [u8; READING]), Refusal> {
        let asked = Asked { label: *label, entry: *entry, expected, nonce: *nonce, ..Asked::default() };
        let both: [u8; RECEIPT + READING] = self.on_ledger(sys::mahqurith_append_and_read, asked)?;
        let (receipt, reading) = both.split_at(RECEIPT);
        Ok((receipt.try_into().expect("121 bytes"), reading.try_into().expect("137 bytes")))
    }

    /// Finalise. The chip signs the statement unless it is a repeat, the box stores the signature, and then the chip erases its key.
    pub fn finalise(&mut self, next: &[u8]) -> Result<Finalised, Refusal> {
        let mut area = [0; FINALISED];
        let answer = accepted(unsafe {
            sys::mahqurith_finalise(&mut self.head, self.rows.as_ptr(), ROWS, next.as_ptr(), next.len(), area.as_mut_ptr(), FINALISED)
        })?;
        let (statement, roll) = area[..answer.written].split_at(HANDOVER);
        Ok(Finalised { statement: statement.try_into().expect("129 bytes"), roll: roll.to_vec(), repeat: answer.repeat })
    }

    /// Activate. The marks in the bundle are what this box's own chip found.
    pub fn activate(&mut self, previous: &[u8], own: &[u8], bundle: &[u8]) -> Result<(), Refusal> {
        accepted(unsafe {
            sys::mahqurith_activate(
                &mut self.head,
                self.rows.as_ptr(),
                ROWS,
                previous.as_ptr(),
                previous.len(),
                own.as_ptr(),
                own.len(),
                bundle.as_ptr(),
                bundle.len(),
            )
        })
        .map(|_| ())
    }

    /// Bytes to check: the statement that an entry's marks speak of. The chip checks it and never signs it.
    pub fn bytes_to_check(&self, previous: &[u8], own: &[u8], bundle: &[u8], list: List, number: u64) -> Result<[u8; HANDOVER], Refusal> {
        let mut area = [0; HANDOVER];
        let asked = Asked { list: list as u8, number, ..Asked::default() };
        accepted(unsafe {
            sys::mahqurith_bytes_to_check(
                &self.head,
                self.rows.as_ptr(),
                ROWS,
                asked,
                previous.as_ptr(),
                previous.len(),
                own.as_ptr(),
                own.len(),
                bundle.as_ptr(),
                bundle.len(),
                area.as_mut_ptr(),
                HANDOVER,
            )
        })?;
        Ok(area)
    }
}
