//! This file holds the comparison: one call on two parties over copies of the same data, and the tally of all of them.

use super::companies::rows_beside;
use super::lists::{is_on_record, place, place_of, LISTS};
use crate::block::BLOCK;
use crate::call::{Call, Lent, Reply};
use crate::party::Party;
use crate::record::is_sound;
use crate::refusals::Refusal;
use std::collections::BTreeMap;
use std::time::{Duration, Instant};

/// At most so many differences and faults are printed in full.
const PRINTED: u64 = 10;
/// Texts of calls and answers are cut after so many characters; the seed gives them whole.
const LONGEST_TEXT: usize = 4_000;

/// How often each number was answered.
pub type Numbers = BTreeMap<Refusal, u64>;

#[derive(Default)]
pub struct Tally {
    pub calls: u64,
    pub by_number: Numbers,
    /// The same for each call, in the order of the lists.
    pub by_call: [Numbers; LISTS.len()],
    pub differences: u64,
    /// Properties of 01 that an answer broke, or numbers other than 01's order gives.
    pub faults: u64,
    /// Those faults that are two accepted verdicts with different tails.
    pub demand_3: u64,
    /// Bundles put to Activate in the search behind the maker's answers.
    pub searched: u64,
    pub first_fault: Option<String>,
}

impl Tally {
    /// How often the call of this name was accepted.
    pub fn accepted(&self, name: &str) -> u64 {
        self.by_call[place_of(name)].get(&0).copied().unwrap_or(0)
    }
}

pub struct Pairing<'a> {
    pub first: &'a dyn Party,
    pub second: &'a dyn Party,
    pub seed: u64,
    pub tally: Tally,
    /// Tests of broken rules print nothing.
    pub quiet: bool,
    /// The calls made before this seed's first.
    before_seed: u64,
    told: Instant,
}

impl<'a> Pairing<'a> {
    pub fn new(first: &'a dyn Party, second: &'a dyn Party, seed: u64) -> Pairing<'a> {
        let tally = Tally::default();
        Pairing { first, second, seed, tally, quiet: false, before_seed: 0, told: Instant::now() }
    }

    /// From now on the calls are this seed's.
    pub fn begin(&mut self, seed: u64) {
        (self.seed, self.before_seed) = (seed, self.tally.calls);
    }

    /// The calls made with the present seed.
    pub fn calls_of_seed(&self) -> u64 {
        self.tally.calls - self.before_seed
    }

    /// Runs the call on both parties; what is lent goes on as the first left it.
    pub fn call(&mut self, lent: &mut Lent, call: &Call) -> Reply {
        let before = lent.clone();
        let mut other = lent.clone();
        let reply = self.first.perform(lent, call);
        let other_reply = self.second.perform(&mut other, call);
        self.count(call, reply.number());
        if reply != other_reply || *lent != other {
            self.tally.differences += 1;
            self.print_difference(call, &before, (&reply, lent), (&other_reply, &other));
        }
        self.hold_to_stays(call, &before, &reply, lent);
        self.tell_progress();
        reply
    }

    /// Counts the answer; a number that 01 doesn't list for the call is a fault.
    fn count(&mut self, call: &Call, number: Refusal) {
        self.tally.calls += 1;
        *self.tally.by_number.entry(number).or_default() += 1;
        *self.tally.by_call[place(call)].entry(number).or_default() += 1;
        let (name, list) = LISTS[place(call)];
        if number != 0 && !list.contains(&number) {
            self.fault(format!("{name} answered {number}, which 01 doesn't list for it; call {}", brief(call)));
        }
    }

    /// A call for which 01 names the number; another one is a fault even if both parties agree.
    pub fn expect(&mut self, what: &str, lent: &mut Lent, call: &Call, number: Refusal) -> Reply {
        let reply = self.call(lent, call);
        if reply.number() != number {
            self.fault(format!("{what}: 01 gives {number}, the answer is {}; call {}", reply.number(), brief(call)));
        }
        reply
    }

    pub fn fault(&mut self, text: String) {
        self.tally.faults += 1;
        if !self.quiet && self.tally.faults <= PRINTED {
            println!("FAULT (seed {}): {text}", self.seed);
        }
        self.tally.first_fault.get_or_insert(text);
    }

    pub fn ask(&mut self, holds: bool, what: &str) {
        if !holds {
            self.fault(format!("this does not hold: {what}"));
        }
    }

    /// "A refusal … changes nothing lent"; "these are the first of the output area, and the rest of it stays".
    fn hold_to_stays(&mut self, call: &Call, before: &Lent, reply: &Reply, after: &Lent) {
        let written = reply.written();
        if reply.number() != 0 && before != after {
            self.fault(format!("refusal {} changed what was lent; call {}", reply.number(), brief(call)));
        }
        let stays = match call {
            Call::StoreAppend { .. } => one_unused_block_changed(&before.area, &after.area) || reply.number() != 0,
            Call::MakeBundle { roll_area, .. } => {
                let (roll_before, bundle_before) = before.area.split_at(*roll_area);
                let (roll_after, bundle_after) = after.area.split_at(*roll_area);
                let made = reply.made();
                rest_stays(roll_before, roll_after, made.roll) && rest_stays(bundle_before, bundle_after, made.bundle)
            }
            _ => rest_stays(&before.area, &after.area, written),
        };
        if !stays {
            let what = "more or less of the area changed than the bytes written, or the store's block";
            self.fault(format!("{what}; {written} written; call {}", brief(call)));
        }
        if is_on_record(call) && reply.number() == 0 && !is_sound(&after.head, &after.table) {
            self.fault(format!("an accepted call left a record not sound; call {}", brief(call)));
        }
        // M-108: "neither may get more than 31 rows by New".
        if matches!(call, Call::New { label } if reply.number() == 0 && rows_beside(&after.table, label) > 31) {
            self.fault(format!("a company got more than 31 rows by New; call {}", brief(call)));
        }
    }

    fn print_difference(&self, call: &Call, before: &Lent, first: (&Reply, &Lent), second: (&Reply, &Lent)) {
        if self.quiet || self.tally.differences > PRINTED {
            return;
        }
        println!("DIFFERENCE (seed {}, call {}): {}", self.seed, self.calls_of_seed(), brief(call));
        println!("  before: {} area {}", record(before), before.area.len());
        for (party, (reply, after)) in [(self.first, first), (self.second, second)] {
            println!("  {}: {}", party.name(), shortened(&hex_lists(&format!("{reply:?}"))));
            println!("    after: {}", record(after));
        }
        println!("  {}", first_other_place(first.1, second.1));
    }

    /// A line each ten seconds.
    fn tell_progress(&mut self) {
        let Tally { calls, differences, faults, .. } = self.tally;
        if !self.quiet && calls % 256 == 0 && self.told.elapsed() >= Duration::from_secs(10) {
            let (seed, of_seed) = (self.seed, self.calls_of_seed());
            println!("… seed {seed}, call {of_seed}; {calls} calls, {differences} differences, {faults} faults");
            self.told = Instant::now();
        }
    }
}

/// The bytes after those written are as they were.
fn rest_stays(before: &[u8], after: &[u8], written: usize) -> bool {
    written <= after.len() && before[written..] == after[written..]
}

/// M-104: the store appends "into the first unused block" and writes nothing else.
fn one_unused_block_changed(before: &[u8], after: &[u8]) -> bool {
    let pairs = before.chunks(BLOCK).zip(after.chunks(BLOCK));
    let changed: Vec<&[u8]> = pairs.filter(|(before, after)| before != after).map(|(before, _)| before).collect();
    before.len() == after.len() && changed == [&[0; BLOCK]]
}

/// The call's text, shortened where arguments are long.
pub fn brief(call: &Call) -> String {
    shortened(&hex_lists(&format!("{call:?}")))
}

/// Number lists of the debug form as hexadecimal strings, which are easier to read and to use again.
fn hex_lists(text: &str) -> String {
    let mut out = String::new();
    let mut rest = text;
    while let Some(open) = rest.find('[') {
        out.push_str(&rest[..open]);
        let close = rest[open..].find(']').map_or(rest.len(), |at| open + at);
        let numbers: Option<Vec<u8>> = rest[open + 1..close].split(", ").map(|part| part.parse().ok()).collect();
        match numbers {
            Some(bytes) => {
                out.push_str(&bytes.iter().map(|byte| format!("{byte:02x}")).collect::<String>());
                rest = &rest[(close + 1).min(rest.len())..];
            }
            None => {
                out.push('[');
                rest = &rest[open + 1..];
            }
        }
    }
    out + rest
}

fn shortened(text: &str) -> String {
    match text.char_indices().nth(LONGEST_TEXT) {
        Some((end, _)) => format!("{}… ({} bytes of text)", &text[..end], text.len()),
        None => text.to_string(),
    }
}

fn record(lent: &Lent) -> String {
    let used = lent.table.iter().filter(|row| **row != crate::row::Row::ZERO).count();
    let head = hex_lists(&format!("{:?}", lent.head));
    format!("{head} table of {} rows, {used} not zero", lent.table.len())
}

fn first_other_place(first: &Lent, second: &Lent) -> String {
    if first.head != second.head {
        return "the heads differ".to_string();
    }
    if let Some(row) = first.table.iter().zip(&second.table).position(|(a, b)| a != b) {
        return hex_lists(&format!("row {row} differs: {:?} and {:?}", first.table[row], second.table[row]));
    }
    if let Some(byte) = first.area.iter().zip(&second.area).position(|(a, b)| a != b) {
        return format!("area byte {byte} differs: {} and {}", first.area[byte], second.area[byte]);
    }
    "head, table and area agree".to_string()
}
