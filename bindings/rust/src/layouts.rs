//! Racks, rolls and statements, read and written.

use crate::sys::{self, Reading, Row, Written};
use crate::{Digest, Key, Refusal};

pub use crate::sys::Statement;

fn read<T>(reading: Reading<T>) -> Result<T, Refusal> {
    Refusal::unless_accepted(reading.number, 0).map(|()| reading.contents)
}

fn written<const MOST: usize>(write: impl FnOnce(*mut u8, usize) -> Written) -> Result<Vec<u8>, Refusal> {
    let mut area = [0; MOST];
    let answer = write(area.as_mut_ptr(), MOST);
    Refusal::unless_accepted(answer.number, 0).map(|()| area[..answer.written].to_vec())
}

/// A rack: up to fifteen keys, strictly rising.
///
/// ```
/// use mahqurith::{Rack, Refusal};
///
/// let rack = Rack::of(&[[1; 32], [2; 32], [3; 32]])?;
/// let bytes = rack.to_bytes()?;
/// assert_eq!(Rack::from_bytes(&bytes)?, rack);
/// assert_eq!(Rack::of(&[[2; 32], [1; 32]])?.to_bytes(), Err(Refusal::RackBroken));
/// # Ok::<(), Refusal>(())
/// ```
#[derive(Clone, PartialEq, Eq, Debug)]
pub struct Rack(sys::Rack);

impl Rack {
    /// A rack of these keys; their order is tested when it is written.
    pub fn of(keys: &[Key]) -> Result<Rack, Refusal> {
        if keys.len() > 15 {
            return Err(Refusal::RackBroken);
        }
        let mut rack = sys::Rack { count: keys.len() as u8, keys: [[0; 32]; 15] };
        rack.keys[..keys.len()].copy_from_slice(keys);
        Ok(Rack(rack))
    }

    /// Its keys.
    pub fn keys(&self) -> &[Key] {
        &self.0.keys[..usize::from(self.0.count)]
    }

    /// Reads a rack.
    pub fn from_bytes(bytes: &[u8]) -> Result<Rack, Refusal> {
        read(unsafe { sys::mahqurith_read_rack(bytes.as_ptr(), bytes.len()) }).map(Rack)
    }

    /// Writes a rack.
    pub fn to_bytes(&self) -> Result<Vec<u8>, Refusal> {
        written::<481>(|area, length| unsafe { sys::mahqurith_write_rack(self.0, area, length) })
    }
}

/// The digest of a rack, which is given by its bytes.
///
/// ```
/// use mahqurith::{rack_digest, sha256, Rack, Refusal};
///
/// let rack = Rack::of(&[[1; 32]])?.to_bytes()?;
/// assert_eq!(rack_digest(&rack)?, sha256(&[&[3], &rack[..]].concat())?);
/// assert_eq!(rack_digest(&rack[1..]), Err(Refusal::RackBroken));
/// # Ok::<(), Refusal>(())
/// ```
pub fn rack_digest(rack: &[u8]) -> Result<Digest, Refusal> {
    let mut digest = [0; 32];
    let answer = unsafe { sys::mahqurith_rack_digest(rack.as_ptr(), rack.len(), digest.as_mut_ptr(), digest.len()) };
    Refusal::unless_accepted(answer.number, 0).map(|()| digest)
}

/// A roll: up to 63 rows, labels strictly rising.
///
/// ```
/// use mahqurith::{Roll, Row, Refusal};
///
/// let roll = Roll::of(&[Row { label: [1; 16], tail: [9; 32], height: 4 }])?;
/// let blocks = roll.to_bytes()?;
/// assert_eq!(blocks.len(), 512);
/// assert_eq!(Roll::from_bytes(&blocks)?, roll);
/// assert_eq!(Roll::from_bytes(&blocks[1..]), Err(Refusal::RollBroken));
/// # Ok::<(), Refusal>(())
/// ```
#[derive(Clone, PartialEq, Eq, Debug)]
pub struct Roll(sys::Roll);

impl Roll {
    /// A roll of these rows; their order is tested when it is written.
    pub fn of(rows: &[Row]) -> Result<Roll, Refusal> {
        if rows.len() > 63 {
            return Err(Refusal::RollBroken);
        }
        let mut roll = sys::Roll { count: rows.len() as u8, rows: [Row { label: [0; 16], tail: [0; 32], height: 0 }; 63] };
        roll.rows[..rows.len()].copy_from_slice(rows);
        Ok(Roll(roll))
    }

    /// Its rows.
    pub fn rows(&self) -> &[Row] {
        &self.0.rows[..usize::from(self.0.count)]
    }

    /// Reads a roll from its blocks.
    pub fn from_bytes(bytes: &[u8]) -> Result<Roll, Refusal> {
        read(unsafe { sys::mahqurith_read_roll(bytes.as_ptr(), bytes.len()) }).map(Roll)
    }

    /// Writes a roll's blocks.
    pub fn to_bytes(&self) -> Result<Vec<u8>, Refusal> {
        written::<3584>(|area, length| unsafe { sys::mahqurith_write_roll(self.0, area, length) })
    }
}

impl Statement {
    /// Reads a statement.
    pub fn from_bytes(bytes: &[u8]) -> Result<Statement, Refusal> {
        read(unsafe { sys::mahqurith_read_statement(bytes.as_ptr(), bytes.len()) })
    }

    /// Writes a statement.
    pub fn to_bytes(&self) -> Result<Vec<u8>, Refusal> {
        written::<137>(|area, length| unsafe { sys::mahqurith_write_statement(*self, area, length) })
    }
}
