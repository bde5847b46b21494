//! This file holds what the maker is given, as ledgers of known texts, old rolls and a store of known blocks, with the outcome that M-106 names for it.

use super::good;
use super::pairing::Pairing;
use super::prng::Prng;
use super::scene::{Scene, Sizes};
use super::search;
use super::shelf::{said, Shelf, Slot};
use crate::call::{Call, Given, Lent, Made};
use crate::refusals::Refusal;
use crate::roll::in_blocks;
use crate::row::{appended, Row};
use crate::sha256::digest_of;

/// A ledger from a row on: the texts that followed, and for each old roll how many of them it has seen, if it has the row.
#[derive(Clone)]
pub struct Ledger {
    pub base: Row,
    pub texts: Vec<Vec<u8>>,
    pub seen: Vec<Option<usize>>,
}

impl Ledger {
    /// A ledger from its first text on.
    pub fn new(prng: &mut Prng, label: [u8; 16], texts: usize, seen: &[Option<usize>]) -> Ledger {
        let texts = (0..texts).map(|_| prng.bytes(12)).collect();
        Ledger { base: Row { label, ..Row::ZERO }, texts, seen: seen.to_vec() }
    }

    pub fn row(&self, seen: usize) -> Row {
        let after = |row: Row, text: &Vec<u8>| Row {
            tail: appended(&row.tail, &digest_of(&[text])),
            height: row.height + 1,
            ..row
        };
        self.texts[..seen].iter().fold(self.base, after)
    }

    /// How many texts the highest old row has seen, if any old roll has the row.
    pub fn top(&self) -> Option<usize> {
        self.seen.iter().flatten().max().copied()
    }

    pub fn height(&self, place: usize) -> u64 {
        self.base.height + place as u64 + 1
    }
}

/// All that the maker is given. The scene's rows and lists are those that it must write.
#[derive(Clone)]
pub struct Making {
    pub scene: Scene,
    pub shelf: Shelf,
    pub ledgers: Vec<Ledger>,
    /// An old row that no text led to.
    pub forked: bool,
}

impl Making {
    /// A good handover of these ledgers, with a store that holds every text.
    pub fn new(prng: &mut Prng, sizes: Sizes, mut ledgers: Vec<Ledger>) -> Making {
        ledgers.sort_by_key(|ledger| ledger.base.label);
        let mut scene = Scene::good(prng, Sizes { rows: 0, ..sizes }, 0);
        let mut slots = Vec::new();
        for ledger in &ledgers {
            put_in(&mut scene, ledger);
            for (place, text) in ledger.texts.iter().enumerate() {
                slots.push(Slot::Used(said(prng, ledger.base.label, ledger.height(place), text)));
            }
        }
        for place in (1..slots.len()).rev() {
            slots.swap(place, prng.below(place + 1));
        }
        scene.head.count = scene.rows.len() as u8;
        Making { scene, shelf: Shelf::new(slots), ledgers, forked: false }
    }

    /// One ledger among others that all have.
    pub fn of_one(prng: &mut Prng, sizes: Sizes, texts: usize, seen: &[Option<usize>]) -> Making {
        let all = vec![Some(1); seen.len()];
        let ledgers = vec![
            Ledger::new(prng, [0x20; 16], 1, &all),
            Ledger::new(prng, [0x40; 16], texts, seen),
            Ledger::new(prng, [0xc0; 16], 1, &all),
        ];
        Making::new(prng, sizes, ledgers)
    }

    /// The entries alone: a bundle without its lists.
    fn entries(&self) -> Vec<u8> {
        let mut front = self.scene.clone();
        front.old.iter_mut().for_each(|part| part.added.clear());
        front.bundle()
    }

    pub fn given(&self) -> Given {
        let Scene { previous, own, .. } = &self.scene;
        let (entries, store) = (self.entries(), self.shelf.bytes());
        Given { previous: previous.clone(), own: own.clone(), entries, store }
    }

    /// The number that M-106 gives good entries: "36 when the store's read refuses a needed entry, two highest rows differ, or the
    /// digests don't lead to the highest tail; 37 when the roll passes 63 rows, a count 64 or the bundle its length".
    pub fn number(&self) -> Refusal {
        let counts = self.scene.old.iter().flat_map(|part| &part.added).map(Vec::len);
        match () {
            _ if self.forked || !self.ledgers.iter().all(|ledger| self.leads_up(ledger)) => 36,
            _ if self.scene.rows.len() > 63 || counts.max() > Some(64) || self.scene.bundle().len() > 65_536 => 37,
            _ => 0,
        }
    }

    /// Whether the store answers with the ledger's own texts wherever an old roll needs one.
    fn leads_up(&self, ledger: &Ledger) -> bool {
        let Some(top) = ledger.top() else { return true };
        let answered = |place: usize| {
            let block = self.shelf.answering(&ledger.base.label, ledger.height(place));
            block.is_some_and(|said| said.text == ledger.texts[place])
        };
        ledger.seen.iter().all(|seen| match seen {
            // The texts before the base are nowhere.
            None if ledger.base.height > 0 => false,
            _ => (seen.unwrap_or(0)..top).all(answered),
        })
    }

    /// Asks the maker and holds the whole outcome to what is named, and to all the bundles that can be made, if there are no more
    /// than so many.
    pub fn hold(&self, pairing: &mut Pairing, what: &str, number: Refusal, searched: u64) {
        let (roll, bundle) = (in_blocks(&self.scene.rows), self.scene.bundle());
        if number != 0 {
            let (made, _) = self.make(pairing, what, (3_584, 65_536), number);
            pairing.ask(made.roll == 0 && made.bundle == 0, "a refusal writes nothing");
            let missed = number != 2 && search::accepted(pairing, self, searched).is_some_and(|found| found > 0);
            return pairing.ask(!missed, "where the maker refuses, Activate accepts no bundle that could be made");
        }
        let (made, area) = self.make(pairing, what, (roll.len(), bundle.len()), 0);
        if made.number == 0 {
            pairing.ask((made.roll, made.bundle) == (roll.len(), bundle.len()), "the lengths of roll and bundle");
            pairing.ask(area == [&roll[..], &bundle].concat(), "the roll and the bundle that M-106 names");
            self.take_over(pairing, what, &area[..made.roll], &area[made.roll..]);
        }
        let found = search::accepted(pairing, self, searched / 4);
        pairing.ask(
            found.is_none_or(|found| found == 1),
            "where the maker accepts, Activate accepts this one and no other",
        );
    }

    /// Areas that are longer, and such as are one byte too short or nothing.
    pub fn hold_areas(&self, pairing: &mut Pairing, what: &str) {
        let (roll, bundle) = (in_blocks(&self.scene.rows).len(), self.scene.bundle().len());
        self.make(pairing, what, (roll + 3, bundle + 5), 0);
        for lengths in [(roll - 1, bundle), (roll, bundle - 1), (0, bundle), (roll, 0), (0, 0)] {
            self.make(pairing, what, lengths, 1);
        }
    }

    pub fn make(
        &self,
        pairing: &mut Pairing,
        what: &str,
        (roll, bundle): (usize, usize),
        number: Refusal,
    ) -> (Made, Vec<u8>) {
        let mut lent = good::only_area(roll + bundle);
        let call = Call::MakeBundle { given: self.given(), roll_area: roll };
        let reply = pairing.expect(what, &mut lent, &call, number);
        (reply.made(), lent.area)
    }

    /// "What it writes is accepted there, with the new roll as the keeper's": Initialise takes the roll, Activate the bundle.
    fn take_over(&self, pairing: &mut Pairing, what: &str, roll: &[u8], bundle: &[u8]) {
        let Scene { head, previous, own, .. } = &self.scene;
        let mut lent = Lent { area: good::area(129), ..good::woken(head.key, 0) };
        if own[0] == 2 {
            // A rack of two was prepared before M-107.
            lent = self.scene.lent(0);
        } else {
            let (identity, roll, previous, own) = (head.identity, roll.to_vec(), previous.clone(), own.clone());
            pairing.expect(what, &mut lent, &Call::Initialise { identity, roll, previous, own }, 0);
        }
        pairing.expect(what, &mut lent, &Call::Activate(self.scene.papers(bundle.to_vec())), 0);
    }

    /// The store's blocks of a ledger's text.
    pub fn slots_of(&mut self, label: [u8; 16], height: u64) -> impl Iterator<Item = &mut Slot> {
        self.shelf
            .slots
            .iter_mut()
            .filter(move |slot| matches!(slot, Slot::Used(said) if said.label == label && said.height == height))
    }

    /// One old roll's row of a label gets a tail that nothing leads to and no other has; there are other rolls.
    pub fn fork(&mut self, tail: [u8; 32], roll: usize, label: [u8; 16]) {
        for row in self.scene.old[roll].rows.iter_mut().filter(|row| row.label == label && row.height > 0) {
            row.tail = tail;
            self.forked = true;
        }
    }
}

/// The ledger's highest row, what each old roll has of it and what it adds.
fn put_in(scene: &mut Scene, ledger: &Ledger) {
    let Some(top) = ledger.top() else { return };
    scene.rows.push(ledger.row(top));
    for (part, seen) in scene.old.iter_mut().zip(&ledger.seen) {
        part.rows.extend(seen.map(|seen| ledger.row(seen)));
        let texts = ledger.texts[seen.unwrap_or(0)..top].iter();
        part.added.push(texts.map(|text| digest_of(&[text])).collect());
    }
}
