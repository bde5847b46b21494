//! This file holds M-103's rules with one sentence said otherwise: the report's slips, to test that they are caught.

use crate::block::{check_of, BLOCK, CHECKED};
use crate::rack;
use crate::report::{judged_by_desk, printed_line, Line, Night, Receipt, ReportOf02, ReportRules, Unused, MOST_LABELS};

slips! {
    pub enum ReportSlip, all as REPORT_SLIPS {
        /// A last short block not counted.
        ShortUncounted,
        /// A bad check, or unused bytes of this or that place, not looked at.
        CheckUnread,
        AfterRackUnread,
        AfterStatementUnread,
        AfterPairsUnread,
        AfterReceiptUnread,
        /// The check taken over the whole block with zeros in its own place.
        CheckOverAll,
        /// A rack of two taken as damaged, or a rack that isn't rising taken.
        TwoDamaged,
        RisingUnread,
        /// A statement length that no kind has taken as damaged, or one of 138 as refused.
        OtherLengthDamaged,
        LongerRefused,
        /// A signer count over the rack's taken as damaged.
        CountDamaged,
        /// An asked kind outside 1 to 3, a zero label or a nonce that doesn't count taken as damaged.
        KindDamaged,
        ZeroLabelDamaged,
        NonceDamaged,
        /// A damaged block unseats the rack, or gives its label a line.
        DamageUnseats,
        DamageHasLine,
        /// The first rack kept.
        FirstRackKept,
        /// A receipt without a rack taken as accepted.
        NoRackAccepted,
        /// The identity held to the rack's digest.
        IdentityOfRack,
        /// The nonce not compared.
        NonceUnread,
        /// 62 or 64 labels known, or all receipts over from the 64th label on.
        OneLabelFewer,
        OneLabelMore,
        AllOver,
        /// The last accepted height in the place of the highest, or the lowest.
        LastHeight,
        LowestHeight,
        /// `0` where none was accepted.
        ZeroForNone,
        /// The lines in the order of the labels, or the newest first.
        LinesSorted,
        LinesBackwards,
        /// Upper-case hex.
        UpperCase,
        /// No heading for an empty file, no newline at the end, blocks rounded down.
        NoHeading,
        NoNewline,
        BlocksRoundedDown,
        /// Over counted among the damaged as well.
        OverInDamaged,
    }
}

/// The rules but for the slip.
impl ReportRules for ReportSlip {
    fn has_check(&self, block: &[u8]) -> bool {
        match self {
            ReportSlip::CheckUnread => true,
            ReportSlip::CheckOverAll => {
                let zeroed = [&block[..CHECKED], &[0; 4]].concat();
                block[CHECKED..] == crate::sha256::digest_of(&[&zeroed])[..4]
            }
            _ => block[CHECKED..] == check_of(block),
        }
    }

    fn is_unused(&self, place: Unused, bytes: &[u8]) -> bool {
        let unread = match self {
            ReportSlip::AfterRackUnread => Some(Unused::AfterRack),
            ReportSlip::AfterStatementUnread => Some(Unused::AfterStatement),
            ReportSlip::AfterPairsUnread => Some(Unused::AfterPairs),
            ReportSlip::AfterReceiptUnread => Some(Unused::AfterReceipt),
            _ => None,
        };
        unread == Some(place) || ReportOf02.is_unused(place, bytes)
    }

    fn is_rack(&self, bytes: &[u8]) -> bool {
        match self {
            ReportSlip::TwoDamaged => bytes[0] != 2 && ReportOf02.is_rack(bytes),
            ReportSlip::RisingUnread => (1..=15).contains(&bytes[0]),
            _ => ReportOf02.is_rack(bytes),
        }
    }

    fn is_statement_length(&self, length: usize) -> bool {
        match self {
            ReportSlip::OtherLengthDamaged => length == 121 || length == 137,
            _ => ReportOf02.is_statement_length(length),
        }
    }

    fn is_receipt(&self, receipt: &Receipt) -> bool {
        match self {
            ReportSlip::KindDamaged => (1..=3).contains(&receipt.kind),
            ReportSlip::ZeroLabelDamaged => receipt.label != [0; 16],
            ReportSlip::NonceDamaged => receipt.kind == 3 || receipt.nonce == [0; 16],
            ReportSlip::CountDamaged => receipt.signers.len() <= 10,
            _ => true,
        }
    }

    fn seat(&self, night: &mut Night, rack: Vec<u8>) {
        if *self != ReportSlip::FirstRackKept || night.rack.is_none() {
            ReportOf02.seat(night, rack);
        }
    }

    fn pass_over(&self, night: &mut Night, block: &[u8]) {
        match self {
            ReportSlip::DamageUnseats => night.rack = None,
            ReportSlip::ShortUncounted | ReportSlip::BlocksRoundedDown if block.len() < BLOCK => {
                night.blocks -= 1;
                night.damaged -= u64::from(*self == ReportSlip::ShortUncounted);
            }
            ReportSlip::DamageHasLine if block.len() == BLOCK && block[0] == 2 => {
                let label = block[2..18].try_into().expect("16 bytes");
                drop(ReportOf02.line(night, &label));
            }
            ReportSlip::LongerRefused if block.len() == BLOCK && block[0] == 2 && block[66] > 137 => {
                let label = block[2..18].try_into().expect("16 bytes");
                if let Some(line) = ReportOf02.line(night, &label) {
                    line.refused += 1;
                    night.damaged -= 1;
                }
            }
            _ => {}
        }
    }

    fn line<'a>(&self, night: &'a mut Night, label: &[u8; 16]) -> Option<&'a mut Line> {
        let known = night.lines.iter().position(|line| line.label == *label);
        let room = match self {
            ReportSlip::OneLabelFewer => MOST_LABELS - 1,
            ReportSlip::OneLabelMore => MOST_LABELS + 1,
            _ => MOST_LABELS,
        };
        if *self == ReportSlip::AllOver && night.over > 0 {
            return None;
        }
        if *self == ReportSlip::OverInDamaged && known.is_none() && night.lines.len() >= room {
            night.damaged += 1;
        }
        if known.is_none() && night.lines.len() < room {
            night.lines.push(Line { label: *label, accepted: 0, refused: 0, top: None });
        }
        night.lines.iter_mut().find(|line| line.label == *label)
    }

    fn judge(&self, rack: Option<&[u8]>, receipt: &Receipt) -> Option<u64> {
        let Some(rack) = rack else { return (*self == ReportSlip::NoRackAccepted).then_some(0) };
        match self {
            ReportSlip::IdentityOfRack => {
                judged_by_desk(rack, &Receipt { identity: rack::digest(rack), ..receipt.clone() })
            }
            ReportSlip::NonceUnread if receipt.statement.len() == 137 => {
                let nonce = receipt.statement[121..].try_into().expect("16 bytes");
                judged_by_desk(rack, &Receipt { nonce, ..receipt.clone() })
            }
            _ => judged_by_desk(rack, receipt),
        }
    }

    fn top(&self, top: Option<u64>, height: u64) -> u64 {
        match self {
            ReportSlip::LastHeight => height,
            ReportSlip::LowestHeight => top.map_or(height, |top| top.min(height)),
            _ => ReportOf02.top(top, height),
        }
    }

    fn printed(&self, night: &Night) -> String {
        let mut night = night.clone();
        match self {
            ReportSlip::LinesSorted => night.lines.sort_by_key(|line| line.label),
            ReportSlip::LinesBackwards => night.lines.reverse(),
            ReportSlip::ZeroForNone => night.lines.iter_mut().for_each(|line| line.top = line.top.or(Some(0))),
            _ => {}
        }
        let right = ReportOf02.printed(&night);
        match self {
            ReportSlip::UpperCase => {
                let labels = night.lines.iter().map(|line| printed_line(line)[..32].to_string());
                labels.fold(right, |text, label| text.replace(&label, &label.to_uppercase()))
            }
            ReportSlip::NoHeading if night.blocks == 0 => right.replace("label accepted refused top\n", ""),
            ReportSlip::NoNewline => right.trim_end().to_string(),
            _ => right,
        }
    }
}
