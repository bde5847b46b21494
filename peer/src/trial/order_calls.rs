//! This file holds the refusals, in 01's order, of all calls but the handover's and the verdict, with the inputs that meet them.

use super::companies;
use super::good;
use super::order::{Case, Damages, Plan};
use super::prng::Prng;
use crate::call::{Call, Lent};
use crate::rack::Rack;
use crate::record::{ACTIVE, BLANK, FINALISED, PREPARED};
use crate::roll::in_blocks;
use crate::row::{Row, TOP};
use crate::statement::{self, Statement, KIND_NEW, KIND_READ};

/// The ways in which a record is not sound.
pub const UNSOUND: &[&str] = &[
    "2 table 62",
    "2 table 64",
    "2 table 0",
    "2 status 4",
    "2 count 64",
    "2 other count",
    "2 height over top",
    "2 same label",
    "2 tail at height 0",
    "2 label zero",
];

/// The ways in which a rack breaks the layout, for any argument whose name follows.
pub const RACK_DAMAGES: &[&str] = &["6 empty", "6 n 0", "6 n 16", "6 short", "6 long", "6 not rising", "6 same key"];
const NOT_ACTIVE: &[&str] = &["4 blank", "4 prepared", "4 finalised"];

pub fn plans() -> Vec<Plan> {
    let mut plans = vec![
        Plan { name: "Hash", steps: &[&["25 one more", "25 many more"]], apart: &[], build: hash },
        Plan { name: "Wake", steps: &[&["2 table 62", "2 table 64", "2 table 0"]], apart: &[], build: wake },
    ];
    plans.extend(layout_plans());
    plans.extend(record_plans());
    plans
}

fn layout_plans() -> Vec<Plan> {
    const WRITE_RACK: &[&[&str]] = &[&["6 n 0", "6 n 16", "6 not rising", "6 unused place"], &["1 short", "1 none"]];
    const ROLL: &[&str] = &["15 check", "15 empty", "15 short", "15 long"];
    const WRITE_ROLL: &[&[&str]] =
        &[&["15 count 64", "15 not rising", "15 label zero", "15 unused row"], &["1 short", "1 none"]];
    const STATEMENT: &[&str] = &["23 empty", "23 kind 0", "23 kind 6", "23 short", "23 long", "23 label zero"];
    const WRITE_STATEMENT: &[&[&str]] =
        &[&["23 kind 0", "23 kind 6", "23 label zero", "23 unused place"], &["1 short", "1 none"]];
    vec![
        Plan { name: "Read rack", steps: &[RACK_DAMAGES], apart: &[], build: read_rack },
        Plan { name: "Write rack", steps: WRITE_RACK, apart: &[], build: write_rack },
        Plan { name: "Read roll", steps: &[ROLL], apart: &[], build: read_roll },
        Plan { name: "Write roll", steps: WRITE_ROLL, apart: &[], build: write_roll },
        Plan { name: "Read statement", steps: &[STATEMENT], apart: &[], build: read_statement },
        Plan { name: "Write statement", steps: WRITE_STATEMENT, apart: &[], build: write_statement },
    ]
}

fn record_plans() -> Vec<Plan> {
    const AREA: &[&str] = &["1 short", "1 none"];
    const INITIALISE: &[&[&str]] = &[
        AREA,
        UNSOUND,
        &["3 prepared", "3 active", "3 finalised"],
        RACK_DAMAGES,
        &["38 two"],
        &["7 own key"],
        &["8 roll alone", "8 rack alone"],
        &["6 previous n 0", "6 previous long", "6 previous not rising"],
        &["15 check", "15 short", "15 one byte"],
    ];
    const NEW: &[&[&str]] = &[AREA, UNSOUND, NOT_ACTIVE, &["14"], &["9"], &["39", "39 brought"], &["13"]];
    const APPEND: &[&[&str]] = &[
        AREA,
        UNSOUND,
        NOT_ACTIVE,
        &["10", "10 label zero"],
        &["11 ahead", "11 behind", "11 zero", "11 far"],
        &["12"],
    ];
    const APPEND_MANY: &[&[&str]] = &[
        AREA,
        UNSOUND,
        NOT_ACTIVE,
        &["32 none", "32 one more", "32 many more", "32 a part", "32 a byte over"],
        &["10", "10 label zero"],
        &["11 ahead", "11 behind", "11 zero", "11 far"],
        &["12", "12 last alone"],
    ];
    const READ: &[&[&str]] = &[AREA, UNSOUND, NOT_ACTIVE, &["10", "10 label zero"]];
    const FINALISE: &[&[&str]] = &[AREA, UNSOUND, &["0 repeat"], &["4 blank", "4 prepared"], RACK_DAMAGES, &["38 two"]];
    // A blank keeper has no ledgers; a label that is zero or absent has no row and no height.
    const NEW_APART: &[(&str, &str)] = &[("14", "9"), ("4 blank", "9"), ("4 blank", "39*"), ("4 blank", "13")];
    const APPEND_APART: &[(&str, &str)] = &[("10*", "11*"), ("10*", "12*"), ("4 blank", "11*"), ("4 blank", "12*")];
    // The argument that must be absent for 8 can't be broken as well.
    const INITIALISE_APART: &[(&str, &str)] = &[("8 roll alone", "6 previous*"), ("8 rack alone", "15*")];
    vec![
        Plan { name: "Initialise", steps: INITIALISE, apart: INITIALISE_APART, build: initialise },
        Plan { name: "New", steps: NEW, apart: NEW_APART, build: new },
        Plan { name: "Append", steps: APPEND, apart: APPEND_APART, build: append },
        Plan { name: "Read", steps: READ, apart: &[], build: read },
        Plan { name: "Append and read", steps: APPEND, apart: APPEND_APART, build: append_and_read },
        Plan { name: "Append many", steps: APPEND_MANY, apart: APPEND_APART, build: append_many },
        Plan { name: "Finalise", steps: FINALISE, apart: &[("0 repeat", "4*")], build: finalise },
    ]
}

/// The area of a call whose number above is `length`: exactly that, or shorter.
pub fn area(damages: &Damages, length: usize) -> Vec<u8> {
    let length = match () {
        _ if damages.has("1 short") => length - 1,
        _ if damages.has("1 none") => 0,
        _ => length,
    };
    good::area(length)
}

/// Makes a sound record unsound in the way named, whatever rows it has.
pub fn spoil(prng: &mut Prng, damages: &Damages, lent: &mut Lent) {
    let count = lent.head.count as usize;
    let last = if count == 0 { 62 } else { count - 1 };
    let spoilt = Row { label: good::label(prng), tail: prng.array(), height: 3 };
    for name in damages.0 {
        match *name {
            "2 table 62" => lent.table.truncate(62),
            "2 table 64" => lent.table.push(Row::ZERO),
            "2 table 0" => lent.table.clear(),
            "2 status 4" => lent.head.status = 4,
            "2 count 64" => lent.head.count = 64,
            "2 other count" => lent.head.count = if count == 63 { 62 } else { count as u8 + 1 },
            "2 height over top" => lent.table[last] = Row { height: TOP + 1, ..spoilt },
            "2 same label" if count >= 2 => lent.table[1].label = lent.table[0].label,
            "2 same label" => lent.table[62] = spoilt,
            "2 tail at height 0" => lent.table[last] = Row { height: 0, ..spoilt },
            "2 label zero" => lent.table[last] = Row { label: [0; 16], ..spoilt },
            _ => {}
        }
    }
}

/// A good rack, broken in the way named behind the prefix ("6 " or "6 previous ").
pub fn spoil_rack(damages: &Damages, prefix: &str, rack: &mut Vec<u8>) {
    for name in damages.0 {
        let Some(way) = name.strip_prefix(prefix) else { continue };
        match way {
            "empty" => rack.clear(),
            "n 0" => *rack = vec![0],
            "n 16" => *rack = [vec![16], (0..16).flat_map(|key| [key; 32]).collect()].concat(),
            "short" => rack.truncate(rack.len() - 1),
            "long" => rack.push(0),
            "not rising" => *rack = [vec![2], vec![9; 32], vec![8; 32]].concat(),
            "same key" => *rack = [vec![2], vec![9; 32], vec![9; 32]].concat(),
            _ => {}
        }
    }
}

pub fn case(lent: Lent, call: Call) -> Case {
    Case { lent, call, height: 0 }
}

fn hash(prng: &mut Prng, damages: &Damages) -> Case {
    let length = match () {
        _ if damages.has("25 one more") => 65_537,
        _ if damages.has("25 many more") => 100_000,
        _ => prng.below(200),
    };
    case(good::only_area(0), Call::Hash { input: prng.bytes(length) })
}

fn wake(prng: &mut Prng, damages: &Damages) -> Case {
    let rows = good::rows(prng, 3);
    let mut lent = good::lent(prng, prng_status(damages), &rows, 0);
    spoil(prng, damages, &mut lent);
    case(lent, Call::Wake { key: prng.array() })
}

/// Wake is accepted in any status; the damages don't touch it.
fn prng_status(damages: &Damages) -> u8 {
    if damages.0.is_empty() {
        200
    } else {
        ACTIVE
    }
}

fn read_rack(prng: &mut Prng, damages: &Damages) -> Case {
    let count = 1 + prng.below(15);
    let mut bytes = good::rack(prng, count);
    spoil_rack(damages, "6 ", &mut bytes);
    case(good::only_area(0), Call::ReadRack { bytes })
}

fn write_rack(prng: &mut Prng, damages: &Damages) -> Case {
    let count = 2 + prng.below(13);
    let mut rack = Rack { count: count as u8, ..Rack::ZERO };
    rack.keys[..count].copy_from_slice(&good::keys(prng, count));
    match () {
        _ if damages.has("6 n 0") => rack = Rack::ZERO,
        _ if damages.has("6 n 16") => rack.count = 16,
        _ if damages.has("6 not rising") => rack.keys.swap(0, 1),
        _ if damages.has("6 unused place") => rack.keys[14] = [0xff; 32],
        _ => {}
    }
    let lent = Lent { area: area(damages, 1 + 32 * count), ..good::only_area(0) };
    case(lent, Call::WriteRack { rack })
}

fn read_roll(prng: &mut Prng, damages: &Damages) -> Case {
    let count = good::row_count(prng);
    let mut bytes = in_blocks(&good::rows(prng, count));
    match () {
        _ if damages.has("15 check") => *bytes.last_mut().unwrap() ^= 1,
        _ if damages.has("15 empty") => bytes.clear(),
        _ if damages.has("15 short") => bytes.truncate(bytes.len() - 1),
        _ if damages.has("15 long") => bytes.push(0),
        _ => {}
    }
    case(good::only_area(0), Call::ReadRoll { bytes })
}

fn write_roll(prng: &mut Prng, damages: &Damages) -> Case {
    let count = 2 + prng.below(61);
    let mut roll = Box::new(good::roll(&good::rows(prng, count)));
    match () {
        _ if damages.has("15 count 64") => roll.count = 64,
        _ if damages.has("15 not rising") => roll.rows.swap(0, 1),
        _ if damages.has("15 label zero") => roll.rows[0].label = [0; 16],
        _ if damages.has("15 unused row") => roll.rows[62].height = 1,
        _ => {}
    }
    let lent = Lent { area: area(damages, 512 * crate::roll::blocks(count)), ..good::only_area(0) };
    case(lent, Call::WriteRoll { roll })
}

/// A good statement of the kind given, with the row's parts.
pub fn some_statement(prng: &mut Prng, kind: u8) -> Statement {
    let label = good::label(prng);
    let height = if kind == KIND_NEW { 0 } else { 1 + prng.below(9) as u64 };
    let tail = if kind == KIND_NEW { [0; 32] } else { prng.array() };
    let nonce = if kind == KIND_READ { prng.array() } else { [0; 16] };
    let (identity, own) = (prng.array(), prng.array());
    Statement { kind, identity, own, label, tail, height, nonce, ..Statement::ZERO }
}

fn read_statement(prng: &mut Prng, damages: &Damages) -> Case {
    let kind = *prng.pick(&[1, 2, 3]);
    let mut bytes = statement::bytes(&some_statement(prng, kind));
    match () {
        _ if damages.has("23 empty") => bytes.clear(),
        _ if damages.has("23 kind 0") => bytes[0] = 0,
        _ if damages.has("23 kind 6") => bytes[0] = 6,
        _ if damages.has("23 short") => bytes.truncate(bytes.len() - 1),
        _ if damages.has("23 long") => bytes.push(0),
        _ if damages.has("23 label zero") => bytes[65..81].fill(0),
        _ => {}
    }
    case(good::only_area(0), Call::ReadStatement { bytes })
}

fn write_statement(prng: &mut Prng, damages: &Damages) -> Case {
    let kind = *prng.pick(&[1, 2, 3]);
    let mut statement = some_statement(prng, kind);
    match () {
        _ if damages.has("23 kind 0") => statement.kind = 0,
        _ if damages.has("23 kind 6") => statement.kind = 6,
        _ if damages.has("23 label zero") => statement.label = [0; 16],
        _ if damages.has("23 unused place") => statement.roll[31] = 1,
        _ => {}
    }
    let lent = Lent { area: area(damages, statement::length(kind).unwrap()), ..good::only_area(0) };
    case(lent, Call::WriteStatement { statement })
}

fn initialise(prng: &mut Prng, damages: &Damages) -> Case {
    let keys = good::keys(prng, 3);
    let mut lent = Lent { area: area(damages, 129), ..good::woken(keys[prng.below(3)], 0) };
    lent.head.status = status(damages, "3", BLANK);
    spoil(prng, damages, &mut lent);
    if damages.has("7 own key") {
        lent.head.key = prng.array();
    }
    let mut own = if damages.has("38 two") { good::rack_of(&keys[..2]) } else { good::rack_of(&keys) };
    let own_ways: Vec<&str> = damages.0.iter().copied().filter(|name| !name.starts_with("6 previous")).collect();
    spoil_rack(&Damages(&own_ways), "6 ", &mut own);
    let mut previous = good::rack(prng, 3);
    spoil_rack(damages, "6 previous ", &mut previous);
    let mut roll = in_blocks(&good::rows(prng, 4));
    match () {
        _ if damages.has("15 check") => *roll.last_mut().unwrap() ^= 1,
        _ if damages.has("15 short") => roll.truncate(511),
        _ if damages.has("15 one byte") => roll.truncate(1),
        _ => {}
    }
    if damages.has("8 roll alone") {
        previous.clear();
    }
    if damages.has("8 rack alone") {
        roll.clear();
    }
    case(lent, Call::Initialise { identity: prng.array(), roll, previous, own })
}

/// The status that a damage of this number names, otherwise the good one.
fn status(damages: &Damages, number: &str, good: u8) -> u8 {
    let named = [("blank", BLANK), ("prepared", PREPARED), ("active", ACTIVE), ("finalised", FINALISED)];
    for (name, status) in named {
        if damages.has(&format!("{number} {name}")) {
            return status;
        }
    }
    good
}

/// A keeper in the status that 4 needs, with these rows unless it is blank.
fn keeper(prng: &mut Prng, damages: &Damages, rows: &[Row], number_above: usize) -> Lent {
    let status = status(damages, "4", ACTIVE);
    let rows = if status == BLANK { &[] } else { rows };
    let mut lent = Lent { area: area(damages, number_above), ..good::lent(prng, status, rows, 0) };
    spoil(prng, damages, &mut lent);
    lent
}

fn new(prng: &mut Prng, damages: &Damages) -> Case {
    // The zero label is the first company's.
    let of_first = damages.has("14") || prng.chance(1, 2);
    let (own, other) = counts(prng, damages);
    let rows = if of_first { companies::rows(prng, own, other) } else { companies::rows(prng, other, own) };
    let label = match () {
        _ if damages.has("14") => [0; 16],
        _ if damages.has("9") => {
            let there: Vec<Row> =
                rows.iter().filter(|row| companies::is_of_first(&row.label) == of_first).copied().collect();
            prng.pick(&there).label
        }
        _ => companies::absent_label(prng, &rows, of_first),
    };
    case(keeper(prng, damages, &rows, 121), Call::New { label })
}

/// How many rows the asking company has, and how many the other.
fn counts(prng: &mut Prng, damages: &Damages) -> (usize, usize) {
    let own = match () {
        _ if damages.has("39") => 31,
        _ if damages.has("39 brought") => 32 + prng.below(32),
        _ => 1 + prng.below(30),
    };
    let room = 63 - own;
    let other = match () {
        _ if damages.has("13") => room,
        _ if damages.has("39 brought") => prng.below(room + 1),
        _ => prng.below(room),
    };
    (own, other)
}

/// Label, expected height, rows and the height that 11 gives, for the appends.
fn append_parts(prng: &mut Prng, damages: &Damages) -> ([u8; 16], u64, Vec<Row>, u64) {
    let count = 1 + prng.below(63);
    let mut rows = good::rows(prng, count);
    let chosen = prng.below(count);
    let height = match () {
        _ if damages.has("12") => TOP,
        _ if damages.has("12 last alone") => TOP - MANY as u64 + 1,
        _ => prng.below(1000) as u64,
    };
    let tail = if height == 0 { [0; 32] } else { prng.array() };
    rows[chosen] = Row { tail, height, ..rows[chosen] };
    let expected = match () {
        _ if damages.has("11 ahead") => height + 2,
        _ if damages.has("11 behind") => height,
        _ if damages.has("11 zero") => 0,
        _ if damages.has("11 far") => u64::MAX,
        _ => height + 1,
    };
    (absent_or(prng, damages, rows[chosen].label), expected, rows, height)
}

/// 10: another label, or the zero one, which no ledger has.
fn absent_or(prng: &mut Prng, damages: &Damages, label: [u8; 16]) -> [u8; 16] {
    match () {
        _ if damages.has("10") => prng.array(),
        _ if damages.has("10 label zero") => [0; 16],
        _ => label,
    }
}

fn append(prng: &mut Prng, damages: &Damages) -> Case {
    let (label, expected, rows, height) = append_parts(prng, damages);
    let lent = keeper(prng, damages, &rows, 121);
    Case { lent, call: Call::Append { label, entry: prng.array(), expected }, height }
}

fn append_and_read(prng: &mut Prng, damages: &Damages) -> Case {
    let (label, expected, rows, height) = append_parts(prng, damages);
    let lent = keeper(prng, damages, &rows, 258);
    let (entry, nonce) = (prng.array(), prng.array());
    Case { lent, call: Call::AppendAndRead { label, entry, expected, nonce }, height }
}

/// So many entries has the list of Append many where its length is right.
const MANY: usize = 20;

fn append_many(prng: &mut Prng, damages: &Damages) -> Case {
    let (label, expected, rows, height) = append_parts(prng, damages);
    let lent = keeper(prng, damages, &rows, 121);
    let bytes = match () {
        _ if damages.has("32 none") => 0,
        _ if damages.has("32 one more") => 32 * 33,
        _ if damages.has("32 many more") => 32 * 300,
        _ if damages.has("32 a part") => 31,
        _ if damages.has("32 a byte over") => 32 * MANY + 1,
        _ => 32 * MANY,
    };
    Case { lent, call: Call::AppendMany { label, list: prng.bytes(bytes), expected }, height }
}

fn read(prng: &mut Prng, damages: &Damages) -> Case {
    let rows = good::rows(prng, 5);
    let label = absent_or(prng, damages, rows[2].label);
    case(keeper(prng, damages, &rows, 137), Call::Read { label, nonce: prng.array() })
}

fn finalise(prng: &mut Prng, damages: &Damages) -> Case {
    let count = good::row_count(prng);
    let rows = good::rows(prng, count);
    let mut lent = keeper(prng, damages, &rows, 3713);
    if damages.has("0 repeat") && lent.head.status == ACTIVE {
        lent.head.status = FINALISED;
    }
    let mut next = good::rack(prng, if damages.has("38 two") { 2 } else { 3 });
    spoil_rack(damages, "6 ", &mut next);
    case(lent, Call::Finalise { next })
}
