//! This file holds a store whose contents are known block by block, with the whole outcome that M-104 names for each call on it.

use super::good;
use super::pairing::Pairing;
use super::prng::Prng;
use crate::call::{Call, Lent, Reply};
use crate::refusals::Refusal;
use crate::row::TOP;
use crate::sha256::digest_of;
use crate::store::Said;

#[derive(Clone)]
pub enum Slot {
    Unused,
    /// Whatever stands there, it is damaged.
    Damaged(Vec<u8>),
    Used(Said),
}

/// The blocks of an area, and the bytes after the last whole one.
#[derive(Clone)]
pub struct Shelf {
    pub slots: Vec<Slot>,
    pub after: usize,
}

/// The text at a label and height, with its right digest and any tail.
pub fn said(prng: &mut Prng, label: [u8; 16], height: u64, text: &[u8]) -> Said {
    Said { label, height, digest: digest_of(&[text]), tail: prng.array(), text: text.to_vec() }
}

/// A block's bytes, whatever it says, with a right check.
pub fn block_of(said: &Said) -> Vec<u8> {
    let length = said.text.len();
    let number = [(length >> 8) as u8, length as u8];
    let height = said.height.to_be_bytes();
    let mut block = [&said.label[..], &height, &said.digest, &said.tail, &number, &said.text].concat();
    block.resize(512, 0);
    good::check_again(&mut block);
    block
}

impl Slot {
    pub fn bytes(&self) -> Vec<u8> {
        match self {
            Slot::Unused => vec![0; 512],
            Slot::Damaged(bytes) => bytes.clone(),
            Slot::Used(said) => block_of(said),
        }
    }
}

impl Shelf {
    pub fn new(slots: Vec<Slot>) -> Shelf {
        Shelf { slots, after: 0 }
    }

    pub fn bytes(&self) -> Vec<u8> {
        let mut bytes: Vec<u8> = self.slots.iter().flat_map(Slot::bytes).collect();
        bytes.resize(bytes.len() + self.after, 0);
        bytes
    }

    fn is_of_size(&self) -> bool {
        self.after == 0 && self.slots.len() <= 128
    }

    fn has_damage(&self) -> bool {
        self.slots.iter().any(|slot| matches!(slot, Slot::Damaged(_)))
    }

    fn used(&self) -> impl Iterator<Item = &Said> {
        self.slots.iter().filter_map(|slot| match slot {
            Slot::Used(said) => Some(said),
            _ => None,
        })
    }

    /// The first undamaged block that has both.
    pub fn answering(&self, label: &[u8; 16], height: u64) -> Option<&Said> {
        self.used().find(|said| said.label == *label && said.height == height)
    }

    /// Greatest height of a label and the tail there; of two blocks at it the first one's.
    pub fn newest(&self, label: &[u8; 16]) -> (u64, [u8; 32]) {
        let of_label = self.used().filter(|said| said.label == *label);
        of_label.fold((0, [0; 32]), |best, said| if said.height > best.0 { (said.height, said.tail) } else { best })
    }

    fn first_unused(&self) -> Option<usize> {
        self.slots.iter().position(|slot| matches!(slot, Slot::Unused))
    }

    /// "33 …, 2 …, 14, 11, 12, 34 exactly when every block is used"
    fn append_number(&self, label: &[u8; 16], expected: u64, length: usize) -> Refusal {
        let height = self.newest(label).0;
        match () {
            _ if length > 418 => 33,
            _ if !self.is_of_size() || self.has_damage() => 2,
            _ if *label == [0; 16] => 14,
            _ if expected.checked_sub(1) != Some(height) => 11,
            _ if height == TOP => 12,
            _ if self.first_unused().is_none() => 34,
            _ => 0,
        }
    }

    /// Asks for the append and holds answer and area to what M-104 names; the shelf goes on with it.
    pub fn append(&mut self, pairing: &mut Pairing, label: [u8; 16], expected: u64, text: &[u8]) -> Refusal {
        let number = self.append_number(&label, expected, text.len());
        let (height, tail) = self.newest(&label);
        let mut lent = Lent { area: self.bytes(), ..good::only_area(0) };
        let call = Call::StoreAppend { label, expected, text: text.to_vec() };
        let reply = pairing.expect("append to the store", &mut lent, &call, number);
        let told = if number == 11 { height } else { 0 };
        pairing.ask(reply.answer().height == told, "11 gives the label's greatest height, 0 for a label it hasn't got");
        pairing.ask(reply.written() == 0, "an append to the store writes no output");
        if let (0, Some(place)) = (number, self.first_unused()) {
            let digest = digest_of(&[text]);
            let tail = digest_of(&[&[1], &tail, &digest]);
            self.slots[place] = Slot::Used(Said { label, height: expected, digest, tail, text: text.to_vec() });
        }
        pairing.ask(lent.area == self.bytes(), "the first unused block has what was appended, and the others stay");
        number
    }

    /// Asks for the block and holds answer and output to what M-104 names.
    pub fn read(&self, pairing: &mut Pairing, label: [u8; 16], height: u64) -> Refusal {
        let first = self.answering(&label, height);
        let number = match first {
            _ if !self.is_of_size() => 2,
            Some(_) => 0,
            None if self.has_damage() => 35,
            None => 10,
        };
        let (reply, output) = self.read_into(pairing, label, height, 600, number);
        if let (0, Some(said)) = (number, first) {
            let right = reply.written() == 512 && output[..512] == block_of(said);
            pairing.ask(right, "the first undamaged block that has both is copied out whole");
        }
        number
    }

    pub fn read_into(
        &self,
        pairing: &mut Pairing,
        label: [u8; 16],
        height: u64,
        length: usize,
        number: Refusal,
    ) -> (Reply, Vec<u8>) {
        let mut lent = good::only_area(length);
        let call = Call::StoreRead { store: self.bytes(), label, height };
        let reply = pairing.expect("read of the store", &mut lent, &call, number);
        pairing.ask(reply.answer().height == 0, "a read of the store gives no height");
        (reply, lent.area)
    }
}
