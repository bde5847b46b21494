//! This file tests that the structs shared with the C header lie as the header has them, by putting their places to a C compiler.

use peer::call::{Answer, Made, RackRead, RollRead, StatementRead, Verdict};
use peer::header::{Asked, Place, Question, Stored, Written};
use peer::rack::Rack;
use peer::record::Head;
use peer::roll::Roll;
use peer::row::Row;
use peer::statement::Statement;
use std::io::Write;
use std::mem::{offset_of, size_of};
use std::process::{Command, Stdio};

/// For each field the assertion that C has it at Rust's place, with the struct's size.
macro_rules! assertions {
    ($($kind:ident = $c:literal { $($field:ident),* })*) => {
        vec![$(
            format!("_Static_assert(sizeof({}) == {}, \"size\");", $c, size_of::<$kind>()),
            $(format!(
                "_Static_assert(offsetof({0}, {1}) == {2} && sizeof((({0} *)0)->{1}) == {3}, \"{1}\");",
                $c, stringify!($field), offset_of!($kind, $field), size_of_field(|it: &$kind| &it.$field)
            ),)*
        )*]
    };
}

fn size_of_field<T, F>(_: fn(&T) -> &F) -> usize {
    size_of::<F>()
}

fn all() -> Vec<String> {
    assertions! {
        Head = "mahqurith_head" { status, count, key, identity, own, previous, next }
        Row = "mahqurith_row" { label, tail, height }
        Asked = "mahqurith_asked" { key, identity, label, entry, nonce, expected, number, list }
        Answer = "mahqurith_answer" { number, written, height, repeat }
        Question = "mahqurith_question" { identity, label, nonce, kind }
        Verdict = "mahqurith_finding" { number, tail, height }
        Written = "mahqurith_written" { number, written }
        Rack = "mahqurith_rack" { count, keys }
        RackRead = "mahqurith_rack_read" { number, rack }
        Roll = "mahqurith_roll" { count, rows }
        RollRead = "mahqurith_roll_read" { number, roll }
        Statement = "mahqurith_statement" { kind, identity, own, other, roll, label, tail, nonce, height }
        StatementRead = "mahqurith_statement_read" { number, statement }
        Place = "mahqurith_place" { label, height }
        Stored = "mahqurith_stored" { number, written, height }
        Made = "mahqurith_made" { number, roll, bundle }
    }
}

fn compiles(lines: &[String]) -> bool {
    let header = concat!(env!("CARGO_MANIFEST_DIR"), "/../include");
    let mut gcc = Command::new("gcc")
        .args(["-std=c11", "-Wall", "-Wextra", "-Werror", "-fsyntax-only", "-x", "c", "-I", header, "-"])
        .stdin(Stdio::piped())
        .stderr(Stdio::null())
        .spawn()
        .expect("gcc is there");
    let text = format!("#include <mahqurith.h>\n{}\n", lines.join("\n"));
    gcc.stdin.take().unwrap().write_all(text.as_bytes()).expect("gcc reads");
    gcc.wait().expect("gcc ends").success()
}

#[test]
fn structs_lie_as_in_the_header() {
    assert!(compiles(&all()), "the header has other places:\n{}", all().join("\n"));
}

/// A place that is off by one is seen.
#[test]
fn another_place_is_seen() {
    assert!(!compiles(&["_Static_assert(offsetof(mahqurith_head, key) == 3, \"key\");".to_string()]));
}
