//! Two companies in one building: each gets 31 rows by New, and neither sees what the other's calls do.

use mahqurith::{Keeper, Label, Rack, Refusal, Row};

fn founded() -> Keeper {
    let rack = Rack::of(&[[1; 32]]).unwrap().to_bytes().unwrap();
    let mut keeper = Keeper::wake(&[1; 32]);
    keeper.found(&rack).unwrap();
    keeper
}

/// A label by its first byte, which names the company, and one more.
fn label(first: u8, n: u8) -> Label {
    let mut label = [n; 16];
    label[0] = first;
    label
}

/// The rows of the first company.
fn first_rows(keeper: &Keeper) -> Vec<Row> {
    keeper.rows().iter().filter(|row| row.label != [0; 16] && row.label[0] < 128).copied().collect()
}

#[test]
fn each_company_gets_31_ledgers() {
    let mut keeper = founded();
    for n in 0..31 {
        keeper.new_ledger(&label(127, n)).unwrap();
    }
    assert_eq!(keeper.new_ledger(&label(0, 1)), Err(Refusal::CompanyFull));
    assert_eq!(keeper.new_ledger(&label(127, 31)), Err(Refusal::CompanyFull));
    for n in 0..31 {
        keeper.new_ledger(&label(128, n)).unwrap();
    }
    assert_eq!(keeper.new_ledger(&label(128, 31)), Err(Refusal::CompanyFull));
    assert_eq!(keeper.new_ledger(&label(255, 1)), Err(Refusal::CompanyFull));
    assert_eq!(keeper.new_ledger(&label(127, 0)), Err(Refusal::LedgerExists));
    assert_eq!((keeper.head().count, first_rows(&keeper).len()), (62, 31));
}

#[test]
fn an_earlier_roll_may_bring_more() {
    let mut rows = *founded().rows();
    for n in 0..63 {
        rows[n as usize].label = label(if n < 30 { 1 } else { 200 }, n);
    }
    let mut head = *founded().head();
    head.count = 63;
    let mut keeper = Keeper::from_parts(head, rows);
    assert_eq!(keeper.new_ledger(&label(200, 62)), Err(Refusal::LedgerExists));
    assert_eq!(keeper.new_ledger(&label(200, 63)), Err(Refusal::CompanyFull));
    assert_eq!(keeper.new_ledger(&label(1, 30)), Err(Refusal::TableFull));
    assert_eq!(keeper.head().count, 63);
}

#[test]
fn neither_sees_the_other() {
    let (opera, dance) = (label(7, 1), label(200, 1));
    let (mut alone, mut beside) = (founded(), founded());
    for n in 0..40 {
        assert_eq!(beside.new_ledger(&label(200, n)).is_ok(), n < 31);
    }
    assert_eq!(alone.new_ledger(&opera), beside.new_ledger(&opera));
    beside.append(&dance, &[9; 32], 1).unwrap();
    assert_eq!(alone.append(&opera, &[3; 32], 2), beside.append(&opera, &[3; 32], 2));
    assert_eq!(alone.append(&opera, &[3; 32], 1), beside.append(&opera, &[3; 32], 1));
    beside.append_many(&dance, &[[4; 32]; 20], 2).unwrap();
    assert_eq!(alone.read(&opera, &[5; 16]), beside.read(&opera, &[5; 16]));
    assert_eq!(alone.new_ledger(&label(7, 2)), beside.new_ledger(&label(7, 2)));
    assert_eq!(first_rows(&alone), first_rows(&beside));
}
