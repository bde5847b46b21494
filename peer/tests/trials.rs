//! This file tests that the peer passes every trial, that each broken rule is caught, and that the comparison sees differences.

use peer::broken::{Slip, SLIPS, SLIPS_OF_M_101, SLIPS_OF_M_107};
use peer::broken_companies::{CompanySlip, COMPANY_SLIPS};
use peer::broken_maker::MAKER_SLIPS;
use peer::broken_many::MANY_SLIPS;
use peer::broken_store::STORE_SLIPS;
use peer::party::{Party, Peer};
use peer::trial::lists::{place_of, LISTS};
use peer::trial::pairing::Pairing;
use peer::trial::prng::Prng;
use peer::trial::{
    companies, history, hostile, layouts, maker, many, missing, numbers, order, readings, records, store,
};
use std::time::Instant;

fn quiet<'a>(first: &'a dyn Party, second: &'a dyn Party, seed: u64) -> Pairing<'a> {
    let mut pairing = Pairing::new(first, second, seed);
    pairing.quiet = true;
    pairing
}

fn assert_clean(pairing: &Pairing) {
    assert_eq!(pairing.tally.first_fault, None, "seed {}", pairing.seed);
    assert_eq!(pairing.tally.differences, 0);
}

#[test]
fn peer_answers_01s_numbers_in_01s_order() {
    let mut prng = Prng::new(11);
    let mut pairing = quiet(&Peer, &Peer, 11);
    numbers::run(&mut pairing, &mut prng);
    readings::run(&mut pairing, &mut prng);
    order::run(&mut pairing, &mut prng);
    for _ in 0..5_000 {
        order::run_any(&mut pairing, &mut prng);
    }
    assert_clean(&pairing);
}

#[test]
fn every_refusal_of_every_call_is_met() {
    let mut pairing = quiet(&Peer, &Peer, 12);
    order::run(&mut pairing, &mut Prng::new(12));
    for ((name, list), met) in LISTS.iter().zip(pairing.tally.by_call) {
        for number in *list {
            assert!(met.contains_key(number), "{number} of {name} was never met");
        }
    }
}

#[test]
fn peer_keeps_layouts_and_records() {
    let mut prng = Prng::new(13);
    let mut pairing = quiet(&Peer, &Peer, 13);
    layouts::run(&mut pairing, &mut prng);
    for _ in 0..3_000 {
        layouts::run_any(&mut pairing, &mut prng);
        records::run_any(&mut pairing, &mut prng);
    }
    assert_clean(&pairing);
}

#[test]
fn sound_rules_survive_hostile_histories() {
    let mut prng = Prng::new(14);
    let mut pairing = quiet(&Peer, &Peer, 14);
    hostile::run(&mut pairing, &mut prng);
    for _ in 0..600 {
        history::run_any(&mut pairing, &mut prng);
    }
    assert_clean(&pairing);
    let [activated, accepted] = ["Activate", "Verdict"].map(|call| pairing.tally.accepted(call));
    assert!(activated > 100 && accepted > 1_000, "{activated} activations, {accepted} accepted verdicts");
}

/// 01's numbers, the readings and the order alone, without a history.
#[test]
fn trials_catch_each_slip() {
    for slip in SLIPS {
        let mut prng = Prng::new(19);
        let mut pairing = quiet(&slip, &slip, 19);
        numbers::run(&mut pairing, &mut prng);
        readings::run(&mut pairing, &mut prng);
        order::run(&mut pairing, &mut prng);
        println!("{slip:?}: {} faults", pairing.tally.faults);
        assert!(pairing.tally.faults > 0, "{slip:?} was not caught");
    }
}

#[test]
fn missing_rows_catch_each_slip_of_m_101() {
    for slip in SLIPS_OF_M_101 {
        let mut pairing = quiet(&slip, &slip, 20);
        missing::run(&mut pairing, &mut Prng::new(20));
        println!("{slip:?}: {} of {} calls", pairing.tally.faults, pairing.tally.calls);
        assert!(pairing.tally.faults > 0, "{slip:?} was not caught");
    }
}

/// Each difference from the rule before M-101 is a handover that is accepted although an old roll lacks a row.
#[test]
fn histories_hand_over_missing_rows() {
    let mut prng = Prng::new(21);
    let mut pairing = quiet(&Peer, &Slip::MissingRefused, 21);
    for _ in 0..1_500 {
        history::run_any(&mut pairing, &mut prng);
    }
    println!("{} handovers with a missing row", pairing.tally.differences);
    assert_eq!(pairing.tally.first_fault, None);
    assert!(pairing.tally.differences > 10);
}

/// They break no verdict, so the numbers, the readings and the order must catch them.
#[test]
fn trials_catch_each_slip_of_m_107() {
    for slip in SLIPS_OF_M_107 {
        let mut prng = Prng::new(22);
        let mut pairing = quiet(&slip, &slip, 22);
        numbers::run(&mut pairing, &mut prng);
        readings::run(&mut pairing, &mut prng);
        order::run(&mut pairing, &mut prng);
        println!("{slip:?}: {} faults in {} calls", pairing.tally.faults, pairing.tally.calls);
        assert!(pairing.tally.faults > 0, "{slip:?} was not caught");
    }
}

#[test]
fn peer_keeps_the_store() {
    let mut prng = Prng::new(23);
    let mut pairing = quiet(&Peer, &Peer, 23);
    store::run(&mut pairing, &mut prng);
    for _ in 0..1_000 {
        store::run_any(&mut pairing, &mut prng);
    }
    assert_clean(&pairing);
    let [appended, read] = ["Store append", "Store read"].map(|call| pairing.tally.accepted(call));
    println!("{} calls, {appended} appends and {read} reads accepted", pairing.tally.calls);
    assert!(appended > 1_000 && read > 1_000);
}

/// Part by part until one of them catches the slip.
#[test]
fn trials_catch_each_slip_of_the_store() {
    for slip in STORE_SLIPS {
        let mut prng = Prng::new(24);
        let mut pairing = quiet(&slip, &slip, 24);
        for part in store::PARTS {
            if pairing.tally.faults == 0 {
                part(&mut pairing, &mut prng);
            }
        }
        println!("{slip:?}: {} faults in {} calls", pairing.tally.faults, pairing.tally.calls);
        assert!(pairing.tally.faults > 0, "{slip:?} was not caught");
    }
}

/// The order of the refusals alone catches those that say it otherwise.
#[test]
fn order_catches_each_slip_of_the_stores_order() {
    for slip in STORE_SLIPS.into_iter().filter(|slip| slip.is_of_order()) {
        let mut pairing = quiet(&slip, &slip, 25);
        order::run(&mut pairing, &mut Prng::new(25));
        assert!(pairing.tally.faults > 0, "{slip:?} was not caught");
    }
}

#[test]
fn peer_appends_many() {
    let mut prng = Prng::new(27);
    let mut pairing = quiet(&Peer, &Peer, 27);
    many::run(&mut pairing, &mut prng);
    for _ in 0..1_000 {
        many::run_any(&mut pairing, &mut prng);
    }
    assert_clean(&pairing);
    let accepted = pairing.tally.accepted("Append many");
    println!("{} calls, {accepted} appends of many accepted", pairing.tally.calls);
    assert!(accepted > 1_000);
}

#[test]
fn trials_catch_each_slip_of_append_many() {
    for slip in MANY_SLIPS {
        let mut pairing = quiet(&slip, &slip, 28);
        many::run(&mut pairing, &mut Prng::new(28));
        println!("{slip:?}: {} faults in {} calls", pairing.tally.faults, pairing.tally.calls);
        assert!(pairing.tally.faults > 0, "{slip:?} was not caught");
    }
}

#[test]
fn peer_keeps_two_companies_apart() {
    let mut prng = Prng::new(30);
    let mut pairing = quiet(&Peer, &Peer, 30);
    companies::run(&mut pairing, &mut prng);
    for _ in 0..1_000 {
        companies::run_any(&mut pairing, &mut prng);
    }
    assert_clean(&pairing);
    let met = &pairing.tally.by_call[place_of("New")];
    println!("{} calls, News {met:?}", pairing.tally.calls);
    assert!([0, 9, 39, 13].iter().all(|number| met.get(number).is_some_and(|times| *times > 500)));
}

/// Part by part until one of them catches the slip.
#[test]
fn trials_catch_each_slip_of_the_companies() {
    for slip in COMPANY_SLIPS {
        let mut prng = Prng::new(31);
        let mut pairing = quiet(&slip, &slip, 31);
        for part in companies::PARTS {
            if pairing.tally.faults == 0 {
                part(&mut pairing, &mut prng);
            }
        }
        println!("{slip:?}: {} faults in {} calls", pairing.tally.faults, pairing.tally.calls);
        assert!(pairing.tally.faults > 0, "{slip:?} was not caught");
    }
}

/// The order of the refusals alone catches those that say it otherwise.
#[test]
fn order_catches_each_slip_of_the_companies_order() {
    use CompanySlip::*;
    for slip in [LimitBeforeZero, LimitBeforeExists, LimitAfterTable, TableUnsaid] {
        let mut pairing = quiet(&slip, &slip, 32);
        order::run(&mut pairing, &mut Prng::new(32));
        assert!(pairing.tally.faults > 0, "{slip:?} was not caught");
    }
}

/// Where a rule lets one company's calls tell on the other's, the two runs themselves differ, whatever else is watched.
#[test]
fn pairs_of_runs_catch_what_one_company_tells_the_other() {
    use CompanySlip::*;
    for slip in [Unlimited, BothCounted, BothTogether, OtherCounted, OnlyAt31, FirstHeld, SecondHeld, LimitAfterTable] {
        let mut prng = Prng::new(33);
        let mut pairing = quiet(&slip, &slip, 33);
        while companies::two_runs(&mut pairing, &mut prng) == (true, true) && pairing.tally.calls < 100_000 {}
        println!("{slip:?}: {} calls", pairing.tally.calls);
        assert!(pairing.tally.calls < 100_000, "{slip:?} was not caught");
    }
}

#[test]
fn peer_makes_bundles() {
    let mut prng = Prng::new(35);
    let mut pairing = quiet(&Peer, &Peer, 35);
    maker::run(&mut pairing, &mut prng);
    for _ in 0..1_000 {
        maker::run_any(&mut pairing, &mut prng);
    }
    assert_clean(&pairing);
    let made = &pairing.tally.by_call[place_of("Make bundle")];
    let (calls, searched) = (pairing.tally.calls, pairing.tally.searched);
    println!("{calls} calls, makings {made:?}, {searched} bundles searched");
    assert!(made[&0] > 1_000 && made[&36] > 500 && searched > 10_000);
}

/// Part by part, and then the order, until the slip has shown.
fn put_to_makings(pairing: &mut Pairing, has_shown: fn(&Pairing) -> bool) {
    let mut prng = Prng::new(pairing.seed);
    let order: [fn(&mut Pairing, &mut Prng); 1] = [order::run];
    for part in maker::PARTS.into_iter().chain(order) {
        if !has_shown(pairing) {
            part(pairing, &mut prng);
        }
    }
}

#[test]
fn trials_catch_each_slip_of_the_maker() {
    for slip in MAKER_SLIPS {
        let mut pairing = quiet(&slip, &slip, 36);
        put_to_makings(&mut pairing, |pairing| pairing.tally.faults > 0);
        println!("{slip:?}: {} faults in {} calls", pairing.tally.faults, pairing.tally.calls);
        assert!(pairing.tally.faults > 0, "{slip:?} was not caught");
    }
}

fn slips_of_histories() -> impl Iterator<Item = Slip> {
    SLIPS.into_iter().filter(|slip| slip.shows_in_histories())
}

#[test]
fn aimed_histories_catch_each_slip() {
    for slip in slips_of_histories() {
        let mut pairing = quiet(&slip, &slip, 15);
        hostile::run(&mut pairing, &mut Prng::new(15));
        assert!(pairing.tally.faults > 0, "{slip:?} was not caught");
        println!("{slip:?}: {}", pairing.tally.first_fault.unwrap());
    }
}

/// By chance alone, without a history aimed at the slip, within a bound of calls.
#[test]
fn histories_by_chance_catch_each_slip() {
    for slip in slips_of_histories() {
        let start = Instant::now();
        let mut prng = Prng::new(16);
        let mut pairing = quiet(&slip, &slip, 16);
        while pairing.tally.faults == 0 && pairing.tally.calls < 400_000 {
            history::run_any(&mut pairing, &mut prng);
        }
        let seconds = start.elapsed().as_secs_f64();
        println!("{slip:?}: {} calls, {seconds:.2} s, {:?}", pairing.tally.calls, pairing.tally.first_fault);
        assert!(pairing.tally.faults > 0, "{slip:?} was not caught");
    }
}

/// Demand 3 itself, and not only the request to an erased key, is broken by each slip but the nonce's.
#[test]
fn aimed_histories_break_demand_3() {
    for slip in slips_of_histories().filter(|slip| *slip != Slip::NonceIgnored) {
        let mut pairing = quiet(&slip, &slip, 17);
        hostile::run(&mut pairing, &mut Prng::new(17));
        assert!(pairing.tally.demand_3 > 0, "{slip:?} never broke demand 3");
    }
}

#[test]
fn comparison_sees_each_slip_as_a_difference() {
    for slip in SLIPS.into_iter().chain(SLIPS_OF_M_107) {
        let mut pairing = quiet(&Peer, &slip, 18);
        let mut prng = Prng::new(18);
        numbers::run(&mut pairing, &mut prng);
        order::run(&mut pairing, &mut prng);
        assert!(pairing.tally.differences > 0, "{slip:?} made no difference");
    }
}

#[test]
fn comparison_sees_each_slip_of_the_store_as_a_difference() {
    for slip in STORE_SLIPS {
        let mut pairing = quiet(&Peer, &slip, 26);
        let mut prng = Prng::new(26);
        for part in store::PARTS {
            if pairing.tally.differences == 0 {
                part(&mut pairing, &mut prng);
            }
        }
        assert!(pairing.tally.differences > 0, "{slip:?} made no difference");
    }
}

#[test]
fn comparison_sees_each_slip_of_append_many_as_a_difference() {
    for slip in MANY_SLIPS {
        let mut pairing = quiet(&Peer, &slip, 29);
        many::run(&mut pairing, &mut Prng::new(29));
        assert!(pairing.tally.differences > 0, "{slip:?} made no difference");
    }
}

#[test]
fn comparison_sees_each_slip_of_the_companies_as_a_difference() {
    for slip in COMPANY_SLIPS {
        let mut pairing = quiet(&Peer, &slip, 34);
        companies::run(&mut pairing, &mut Prng::new(34));
        assert!(pairing.tally.differences > 0, "{slip:?} made no difference");
    }
}

#[test]
fn comparison_sees_each_slip_of_the_maker_as_a_difference() {
    for slip in MAKER_SLIPS {
        let mut pairing = quiet(&Peer, &slip, 37);
        put_to_makings(&mut pairing, |pairing| pairing.tally.differences > 0);
        assert!(pairing.tally.differences > 0, "{slip:?} made no difference");
    }
}
