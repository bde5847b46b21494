//! This file tests that the peer's report is the one that M-103 names, and that each slip of the report is caught.

use peer::broken_report::REPORT_SLIPS;
use peer::party::Peer;
use peer::trial::pages;
use peer::trial::pairing::Pairing;
use peer::trial::prng::Prng;
use peer::trial::reports::{self, Reporter, Reports};

fn quiet<'a>(first: &'a dyn Reporter, second: &'a dyn Reporter) -> Reports<'a> {
    Reports { quiet: true, ..Reports::new(first, second) }
}

#[test]
fn peer_makes_the_report() {
    let mut prng = Prng::new(41);
    let mut reports = quiet(&Peer, &Peer);
    reports::run(&mut reports, &mut prng);
    for _ in 0..2_000 {
        reports::run_any(&mut reports, &mut prng);
    }
    println!("{} files of {} blocks", reports.files, reports.blocks);
    assert_eq!(reports.first_fault, None);
    assert_eq!(reports.differences, 0);
}

/// Part by part until one of them catches the slip.
#[test]
fn trials_catch_each_slip_of_the_report() {
    for slip in REPORT_SLIPS {
        let mut prng = Prng::new(42);
        let mut reports = quiet(&slip, &slip);
        for part in reports::PARTS {
            if reports.faults == 0 {
                part(&mut reports, &mut prng);
            }
        }
        println!("{slip:?}: {} faults in {} files", reports.faults, reports.files);
        assert!(reports.faults > 0, "{slip:?} was not caught");
    }
}

/// By chance alone, within the number of files that the gate compares.
#[test]
fn nights_by_chance_tell_each_slip_from_the_peer() {
    for slip in REPORT_SLIPS {
        let mut prng = Prng::new(43);
        let mut reports = quiet(&Peer, &slip);
        while reports.differences == 0 && reports.files < 2_000 {
            reports::run_any(&mut reports, &mut prng);
        }
        println!("{slip:?}: {} files", reports.files);
        assert!(reports.differences > 0, "{slip:?} made no difference");
    }
}

#[test]
fn peer_writes_the_blocks_of_a_night() {
    let mut prng = Prng::new(44);
    let mut pairing = Pairing::new(&Peer, &Peer, 44);
    pairing.quiet = true;
    pages::run(&mut pairing, &mut prng);
    for _ in 0..5_000 {
        pages::run_any(&mut pairing, &mut prng);
    }
    assert_eq!(pairing.tally.first_fault, None);
    let [racks, receipts] = ["Write rack block", "Write receipt"].map(|call| pairing.tally.accepted(call));
    println!("{} calls, {racks} racks and {receipts} receipts written", pairing.tally.calls);
    assert!(racks > 500 && receipts > 500);
}
