//! This file holds M-106's rules with one sentence said otherwise: the maker's slips, to test that they are caught.

use crate::block::BLOCK;
use crate::bundle::{self, Bundle, Digests, LONGEST, MOST_DIGESTS};
use crate::call::{Call, Given, Lent, Made, Reply};
use crate::companies::MOST_OF_COMPANY;
use crate::maker::{added_by, listed, new_rows, way, MakerOf02, MakerRules};
use crate::party::{perform_by, Party};
use crate::rack;
use crate::refusals::{Refusal, AREA_TOO_SHORT, DOES_NOT_FIT, NOT_LED_UP, NOT_SOUND, RACK_BROKEN, RACK_OF_TWO};
use crate::roll::{self, Roll, MOST_ROWS};
use crate::row::{appended, Row};
use crate::rules::{Of01, Rules};
use crate::store::{self, having, Block, Said, StoreOf02, MOST_BLOCKS};

slips! {
    pub enum MakerSlip, all as MAKER_SLIPS {
        /// The lowest old row taken, or the first roll's.
        LowestTaken,
        FirstTaken,
        /// The labels of the first roll alone, without those at height 0, or in the order in which they are met.
        LabelsOfFirst,
        ZeroRowsLeftOut,
        LabelsAsMet,
        /// The tail after the digests not compared, or that of a row as high as the highest.
        TailUncompared,
        EqualsUncompared,
        /// The store's tails compared as well.
        StoreTailsCompared,
        /// The last of two blocks of one label and height, or whichever of them leads right.
        LastOfDoubles,
        FittingOfDoubles,
        /// A row that an old roll lacks refused, or given no digests.
        MissingRefused,
        MissingAddsNone,
        /// Damage in the store taken as 2, or as 36 wherever it is.
        DamageNotSound,
        DamageInTheWay,
        /// A store of no blocks refused, or bytes after its last whole block left aside.
        NoBlocksRefused,
        PartLeftAside,
        /// 2 after 6.
        SizeAfterRacks,
        /// A rack of two refused.
        TwoRefused,
        /// 37 before 36, and a need of more entries than the store can have said as 37.
        FitBeforeWay,
        FarDoesNotFit,
        /// 1 before 36, or before 37.
        AreaBeforeWay,
        AreaBeforeFit,
        /// Areas asked for the greatest roll and bundle.
        GreatestAreas,
        /// The roll written although the bundle's area is too short.
        RollWrittenFirst,
        /// A count of 65 taken, or one of 64 refused; so 64 and 63 rows; so a longer bundle, and one of 65,536 bytes.
        OneDigestMore,
        OneDigestFewer,
        OneRowMore,
        OneRowFewer,
        LongerTaken,
        LongestRefused,
        /// M-108's 31 rows held against the new roll.
        CompanyHeld,
        /// The marks of new entries not looked at.
        NewUnasked,
        /// The old entries over a majority left out.
        MajorityAlone,
        /// The lists row by row, or their counts with the low byte first.
        RowByRow,
        CountsTurned,
        /// The bundle's area cleared after the bundle.
        RestCleared,
    }
}

impl Rules for MakerSlip {
    fn maker(&self) -> &dyn MakerRules {
        self
    }
}

/// The rules but for the slip.
impl MakerRules for MakerSlip {
    fn labels(&self, rolls: &[Roll]) -> Vec<[u8; 16]> {
        match self {
            MakerSlip::LabelsOfFirst => MakerOf02.labels(&rolls[..1]),
            MakerSlip::ZeroRowsLeftOut => {
                let raised = new_rows(&MakerOf02, rolls).into_iter().filter(|row| row.height > 0);
                raised.map(|row| row.label).collect()
            }
            MakerSlip::LabelsAsMet => {
                let mut labels = MakerOf02.labels(rolls);
                let all = || rolls.iter().flat_map(|roll| roll.used());
                labels.sort_by_key(|label| all().position(|row| row.label == *label));
                labels
            }
            _ => MakerOf02.labels(rolls),
        }
    }

    fn highest(&self, rows: &[Row]) -> Row {
        match self {
            MakerSlip::LowestTaken => rows.iter().min_by_key(|row| row.height).copied().unwrap_or(Row::ZERO),
            MakerSlip::FirstTaken => rows[0],
            _ => MakerOf02.highest(rows),
        }
    }

    fn answered<'a>(&self, blocks: &'a [Block], label: &[u8; 16], height: u64) -> Option<&'a Said> {
        let last = having(blocks, label, height).last();
        match (self, last.map(|place| &blocks[place])) {
            (MakerSlip::LastOfDoubles, Some(Block::Used(said))) => Some(said),
            _ => MakerOf02.answered(blocks, label, height),
        }
    }

    fn added(&self, blocks: &[Block], old: &Row, highest: &Row) -> Option<Digests> {
        match self {
            MakerSlip::LowestTaken | MakerSlip::FirstTaken if old.height >= highest.height => Some(Vec::new()),
            MakerSlip::TailUncompared if old.height < highest.height => {
                Some(way(self, blocks, old, highest)?.iter().map(|said| said.digest).collect())
            }
            MakerSlip::EqualsUncompared if old.height == highest.height => Some(Vec::new()),
            MakerSlip::StoreTailsCompared if !have_their_tails(old, &way(self, blocks, old, highest)?) => None,
            MakerSlip::FittingOfDoubles => fitting(blocks, old, highest),
            MakerSlip::MissingAddsNone if old.height == 0 => Some(Vec::new()),
            MakerSlip::DamageInTheWay if blocks.contains(&Block::Damaged) => None,
            _ => added_by(self, blocks, old, highest),
        }
    }

    fn most_rows(&self) -> usize {
        match self {
            MakerSlip::OneRowMore => MOST_ROWS + 1,
            MakerSlip::OneRowFewer => MOST_ROWS - 1,
            _ => MOST_ROWS,
        }
    }

    fn most_digests(&self) -> usize {
        match self {
            MakerSlip::OneDigestMore => MOST_DIGESTS + 1,
            MakerSlip::OneDigestFewer => MOST_DIGESTS - 1,
            _ => MOST_DIGESTS,
        }
    }

    fn longest(&self) -> usize {
        match self {
            MakerSlip::LongerTaken => usize::MAX,
            MakerSlip::LongestRefused => LONGEST - 1,
            _ => LONGEST,
        }
    }

    fn bundle(&self, entries: &[u8], lists: &[Vec<Digests>]) -> Vec<u8> {
        let rows = lists.first().map_or(0, Vec::len);
        let lists: Vec<u8> = match self {
            MakerSlip::RowByRow => {
                (0..rows).flat_map(|row| lists.iter().flat_map(move |of| listed(&of[row]))).collect()
            }
            MakerSlip::CountsTurned => lists.iter().flatten().flat_map(|digests| turned(digests)).collect(),
            _ => return MakerOf02.bundle(entries, lists),
        };
        [entries, &lists].concat()
    }
}

/// A list whose count has its low byte first.
fn turned(digests: &[[u8; 32]]) -> Vec<u8> {
    let mut list = listed(digests);
    list.swap(0, 1);
    list
}

/// Whether each block's tail is the one that its digest leads to.
fn have_their_tails(old: &Row, way: &[&Said]) -> bool {
    let mut tail = old.tail;
    way.iter().all(|said| {
        tail = appended(&tail, &said.digest);
        said.tail == tail
    })
}

/// The digests of any blocks, each at its own height, that lead from the old row to the highest.
fn fitting(blocks: &[Block], old: &Row, highest: &Row) -> Option<Digests> {
    if old.height == highest.height {
        return (old.tail == highest.tail).then(Vec::new);
    }
    let height = old.height + 1;
    having(blocks, &highest.label, height).find_map(|place| {
        let Block::Used(said) = &blocks[place] else { return None };
        let next = Row { tail: appended(&old.tail, &said.digest), height, ..*old };
        let rest = fitting(blocks, &next, highest)?;
        Some([vec![said.digest], rest].concat())
    })
}

impl Party for MakerSlip {
    fn name(&self) -> String {
        format!("broken {self:?}")
    }

    fn perform(&self, lent: &mut Lent, call: &Call) -> Reply {
        let Call::MakeBundle { given, roll_area } = call else { return perform_by(self, lent, call) };
        let before = lent.clone();
        let asked = Call::MakeBundle { given: self.other_given(given), roll_area: *roll_area };
        let reply = perform_by(self, lent, &asked);
        if let Some(number) = self.other_number(&before, given, *roll_area, reply.number()) {
            *lent = before;
            return Reply::Made(Made { number, ..Made::default() });
        }
        self.overwrite(&mut lent.area, given, *roll_area, reply.made());
        reply
    }
}

/// The old rolls of what is given and the new roll's rows, where the entries can be read.
fn looked_at(given: &Given) -> Option<(Vec<Roll>, Vec<Row>)> {
    let rolls = bundle::old_rolls(&front_of(given)?).ok()?;
    let rows = new_rows(&MakerOf02, &rolls);
    Some((rolls, rows))
}

fn front_of(given: &Given) -> Option<Bundle<'_>> {
    let (previous, own) = (rack::read(&given.previous).ok()?, rack::read(&given.own).ok()?);
    bundle::read(&Of01, &given.entries, (previous.count, own.count), 0).ok()
}

/// The bytes of a front.
fn front_bytes(front: &Bundle) -> Vec<u8> {
    let mut bytes = vec![front.old.len() as u8];
    for entry in &front.old {
        bytes.extend([entry.position, entry.marks, (entry.blocks.len() / BLOCK) as u8]);
        bytes.extend(entry.blocks);
    }
    bytes.push(front.new.len() as u8);
    bytes.extend(front.new.iter().flat_map(|entry| [entry.position, entry.marks]));
    bytes
}

/// The greatest number of digests that an old roll needs for a row.
fn greatest_need(rolls: &[Roll], rows: &[Row]) -> u64 {
    let height = |roll: &Roll, label| roll.used().iter().find(|row| row.label == label).map_or(0, |row| row.height);
    let needs = rows.iter().flat_map(|row| rolls.iter().map(|roll| row.height - height(roll, row.label)));
    needs.max().unwrap_or(0)
}

impl MakerSlip {
    /// What the maker works on in the place of what is given.
    fn other_given(&self, given: &Given) -> Given {
        let mut other = given.clone();
        if *self == MakerSlip::PartLeftAside {
            other.store.truncate(given.store.len() / BLOCK * BLOCK);
        }
        let Some(mut front) = front_of(given) else { return other };
        match self {
            MakerSlip::NewUnasked => front.new.iter_mut().for_each(|entry| entry.marks = 3),
            MakerSlip::MajorityAlone => front.old.truncate(given.previous[0] as usize / 2 + 1),
            _ => return other,
        }
        Given { entries: front_bytes(&front), ..other }
    }

    /// The refusal that a slip gives in the place of this number.
    fn other_number(&self, lent: &Lent, given: &Given, roll_area: usize, number: Refusal) -> Option<Refusal> {
        let (met, other) = match (self, number) {
            (MakerSlip::DamageNotSound, _) => {
                let damaged =
                    store::look_at_all(&StoreOf02, &given.store).is_ok_and(|all| all.contains(&Block::Damaged));
                (damaged, NOT_SOUND)
            }
            (MakerSlip::NoBlocksRefused, _) => (given.store.is_empty(), NOT_SOUND),
            (MakerSlip::SizeAfterRacks, NOT_SOUND) => {
                let racks = [&given.previous, &given.own];
                (racks.iter().any(|rack| rack::read(rack).is_err()), RACK_BROKEN)
            }
            (MakerSlip::TwoRefused, 0) => (given.previous[0] == 2 || given.own[0] == 2, RACK_OF_TWO),
            (MakerSlip::GreatestAreas, 0) => {
                (roll_area < BLOCK * 7 || lent.area.len() - roll_area < LONGEST, AREA_TOO_SHORT)
            }
            _ => return self.other_fit(given, roll_area, number),
        };
        met.then_some(other)
    }

    /// The same, for slips that look at the rolls.
    fn other_fit(&self, given: &Given, roll_area: usize, number: Refusal) -> Option<Refusal> {
        let (rolls, rows) = looked_at(given)?;
        let roll_fits = roll_area >= BLOCK * roll::blocks(rows.len());
        let lacking = |roll: &Roll| roll.used().len() < rows.len();
        let of_first = rows.iter().filter(|row| row.label[0] < 128).count();
        let (met, other) = match (self, number) {
            (MakerSlip::FitBeforeWay, NOT_LED_UP) => {
                (rows.len() > MOST_ROWS || greatest_need(&rolls, &rows) > MOST_DIGESTS as u64, DOES_NOT_FIT)
            }
            (MakerSlip::FarDoesNotFit, NOT_LED_UP) => (greatest_need(&rolls, &rows) > MOST_BLOCKS as u64, DOES_NOT_FIT),
            (MakerSlip::AreaBeforeWay, NOT_LED_UP) | (MakerSlip::AreaBeforeFit, DOES_NOT_FIT) => {
                (!roll_fits, AREA_TOO_SHORT)
            }
            (MakerSlip::MissingRefused, 0) => (rolls.iter().any(lacking), NOT_LED_UP),
            (MakerSlip::CompanyHeld, 0) => (of_first.max(rows.len() - of_first) > MOST_OF_COMPANY, DOES_NOT_FIT),
            _ => return None,
        };
        met.then_some(other)
    }

    /// What a slip writes besides.
    fn overwrite(&self, area: &mut [u8], given: &Given, roll_area: usize, made: Made) {
        match (self, made.number, looked_at(given)) {
            (MakerSlip::RollWrittenFirst, AREA_TOO_SHORT, Some((_, rows))) => {
                let roll = roll::in_blocks(&rows);
                if roll.len() <= roll_area {
                    area[..roll.len()].copy_from_slice(&roll);
                }
            }
            (MakerSlip::RestCleared, 0, _) => area[roll_area + made.bundle..].fill(0),
            _ => {}
        }
    }
}
