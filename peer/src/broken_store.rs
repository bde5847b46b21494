//! This file holds M-104's rules with one sentence said otherwise: the store's slips, to test that they are caught.

use crate::block::{BLOCK, CHECKED};
use crate::call::{Answer, Call, Lent, Reply};
use crate::party::{perform_by, Party};
use crate::refusals::{AT_THE_TOP, LABEL_ZERO, NOT_SOUND, OUT_OF_ORDER, STORE_FULL, TEXT_TOO_LONG};
use crate::row::{appended, TOP};
use crate::rules::{Of01, Rules};
use crate::store::{having, of_label, Block, Said, StoreOf02, StoreRules};

slips! {
    pub enum StoreSlip, all as STORE_SLIPS {
        /// An area of no blocks refused.
        NoBlocksRefused,
        /// 129 blocks taken.
        OneBlockMore,
        /// Bytes after the last whole block left aside.
        PartLeftAside,
        /// 508 zeros under their right check taken as unused.
        ZerosUnderCheck,
        /// A wrong check, a wrong entry digest or bytes after the text not looked at.
        CheckUnread,
        DigestUnread,
        ZerosUnread,
        /// A block of a zero label, of height 0 or over the top taken.
        ZeroLabelTaken,
        HeightZeroTaken,
        HeightOverTaken,
        /// An empty text taken as damage.
        EmptyTextDamaged,
        /// The tail tested as well, at height 1.
        TailTested,
        /// The last block of greatest height followed, or the label's last block of whatever height.
        LastOfGreatest,
        LastOfLabel,
        /// Every tail begun from the zero tail.
        TailBegunAgain,
        /// The last unused block taken, or the one after the last used.
        LastUnused,
        AfterLastUsed,
        /// An unused block answers the zero label at height 0.
        UnusedAnswers,
        /// The last block that has both answers.
        LastAnswers,
        /// Append stops only at damage before the first unused block.
        DamageAfterUnused,
        /// Read refuses wherever there is damage, or tells of none.
        AnyDamageRead,
        DamageUntold,
        /// 33 after 2, 14 after 11, 12 before 11, 34 before 11 and 12.
        TextAfterArea,
        LabelAfterHeight,
        TopBeforeHeight,
        FullBeforeHeight,
        /// 11 without the height.
        HeightUntold,
        /// Read refuses the zero label.
        ZeroLabelRead,
        /// The output's rest cleared.
        RestCleared,
    }
}

impl Rules for StoreSlip {
    fn store(&self) -> &dyn StoreRules {
        self
    }
}

/// The rules but for the slip.
impl StoreRules for StoreSlip {
    fn is_area(&self, length: usize) -> bool {
        match self {
            StoreSlip::NoBlocksRefused => length > 0 && StoreOf02.is_area(length),
            StoreSlip::OneBlockMore => length == 129 * BLOCK || StoreOf02.is_area(length),
            StoreSlip::PartLeftAside => StoreOf02.is_area(length / BLOCK * BLOCK),
            _ => StoreOf02.is_area(length),
        }
    }

    fn is_unused(&self, block: &[u8]) -> bool {
        let zeros = *self == StoreSlip::ZerosUnderCheck && block[..CHECKED] == [0; CHECKED];
        StoreOf02.is_unused(block) || (zeros && StoreOf02.has_check(block))
    }

    fn has_check(&self, block: &[u8]) -> bool {
        *self == StoreSlip::CheckUnread || StoreOf02.has_check(block)
    }

    fn is_text_length(&self, length: usize) -> bool {
        StoreOf02.is_text_length(length) && (*self != StoreSlip::EmptyTextDamaged || length > 0)
    }

    fn may_follow_text(&self, bytes: &[u8]) -> bool {
        *self == StoreSlip::ZerosUnread || StoreOf02.may_follow_text(bytes)
    }

    fn is_label(&self, label: &[u8; 16]) -> bool {
        *self == StoreSlip::ZeroLabelTaken || StoreOf02.is_label(label)
    }

    fn is_height(&self, height: u64) -> bool {
        match self {
            StoreSlip::HeightZeroTaken => height <= TOP,
            StoreSlip::HeightOverTaken => height > 0,
            _ => StoreOf02.is_height(height),
        }
    }

    fn has_digest(&self, said: &Said) -> bool {
        match self {
            StoreSlip::DigestUnread => true,
            StoreSlip::TailTested if said.height == 1 && said.tail != appended(&[0; 32], &said.digest) => false,
            _ => StoreOf02.has_digest(said),
        }
    }

    fn stops_append(&self, blocks: &[Block]) -> bool {
        match (self, StoreOf02.place_for_next(blocks)) {
            (StoreSlip::DamageAfterUnused, Some(place)) => StoreOf02.stops_append(&blocks[..place]),
            _ => StoreOf02.stops_append(blocks),
        }
    }

    fn newest<'a>(&self, blocks: &'a [Block], label: &'a [u8; 16]) -> Option<&'a Said> {
        let last = of_label(blocks, label).last()?.height;
        let greatest = StoreOf02.newest(blocks, label)?.height;
        let height = if *self == StoreSlip::LastOfLabel { last } else { greatest };
        let mut at_height = of_label(blocks, label).filter(|said| said.height == height);
        match self {
            StoreSlip::LastOfGreatest | StoreSlip::LastOfLabel => at_height.next_back(),
            _ => at_height.next(),
        }
    }

    fn tail_after(&self, tail: &[u8; 32], digest: &[u8; 32]) -> [u8; 32] {
        match self {
            StoreSlip::TailBegunAgain => appended(&[0; 32], digest),
            _ => StoreOf02.tail_after(tail, digest),
        }
    }

    fn place_for_next(&self, blocks: &[Block]) -> Option<usize> {
        let is_unused = |block: &Block| *block == Block::Unused;
        match self {
            StoreSlip::LastUnused => blocks.iter().rposition(is_unused),
            StoreSlip::AfterLastUsed => {
                let after = blocks.iter().rposition(|block| !is_unused(block)).map_or(0, |place| place + 1);
                (after < blocks.len()).then_some(after)
            }
            _ => StoreOf02.place_for_next(blocks),
        }
    }

    fn answering(&self, blocks: &[Block], label: &[u8; 16], height: u64) -> Option<usize> {
        match self {
            StoreSlip::LastAnswers => having(blocks, label, height).last(),
            StoreSlip::UnusedAnswers if (*label, height) == ([0; 16], 0) => StoreOf02.place_for_next(blocks),
            _ => StoreOf02.answering(blocks, label, height),
        }
    }

    fn tells_damage(&self, blocks: &[Block], answering: Option<usize>) -> bool {
        match self {
            StoreSlip::AnyDamageRead => blocks.contains(&Block::Damaged),
            StoreSlip::DamageUntold => false,
            _ => StoreOf02.tells_damage(blocks, answering),
        }
    }
}

impl Party for StoreSlip {
    fn name(&self) -> String {
        format!("broken {self:?}")
    }

    fn perform(&self, lent: &mut Lent, call: &Call) -> Reply {
        let before = lent.clone();
        let reply = perform_by(self, lent, call);
        match call {
            Call::StoreAppend { label, expected, .. } => {
                self.other_append(&before, reply.answer(), label, *expected).map_or(reply, Reply::Answer)
            }
            Call::StoreRead { label, .. } if *self == StoreSlip::ZeroLabelRead && *label == [0; 16] => {
                Reply::Answer(LABEL_ZERO.into())
            }
            Call::StoreRead { .. } if *self == StoreSlip::RestCleared && reply.number() == 0 => {
                lent.area[BLOCK..].fill(0);
                reply
            }
            _ => reply,
        }
    }
}

impl StoreSlip {
    /// Whether it says the order of the refusals otherwise.
    pub fn is_of_order(self) -> bool {
        use StoreSlip::*;
        matches!(self, TextAfterArea | LabelAfterHeight | TopBeforeHeight | FullBeforeHeight)
    }

    /// The refusal that a slip gives in the place of Append's right one.
    fn other_append(&self, lent: &Lent, right: Answer, label: &[u8; 16], expected: u64) -> Option<Answer> {
        let without_text = || {
            let call = Call::StoreAppend { label: *label, expected, text: Vec::new() };
            perform_by(&Of01, &mut lent.clone(), &call).number()
        };
        let is_full = || lent.area.chunks(BLOCK).all(|block| !StoreOf02.is_unused(block));
        match (self, right.number) {
            (StoreSlip::TextAfterArea, TEXT_TOO_LONG) => (without_text() == NOT_SOUND).then(|| NOT_SOUND.into()),
            (StoreSlip::LabelAfterHeight, LABEL_ZERO) => (expected != 1).then(|| Answer::out_of_order(0)),
            (StoreSlip::TopBeforeHeight, OUT_OF_ORDER) => (right.height == TOP).then(|| AT_THE_TOP.into()),
            (StoreSlip::FullBeforeHeight, OUT_OF_ORDER | AT_THE_TOP) => is_full().then(|| STORE_FULL.into()),
            (StoreSlip::HeightUntold, OUT_OF_ORDER) => Some(OUT_OF_ORDER.into()),
            _ => None,
        }
    }
}
