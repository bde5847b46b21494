//! This program runs the same calls on two parties and compares answer, head, table and output area in full.

use peer::broken::{SLIPS, SLIPS_OF_M_107};
use peer::broken_companies::COMPANY_SLIPS;
use peer::broken_maker::MAKER_SLIPS;
use peer::broken_many::MANY_SLIPS;
use peer::broken_store::STORE_SLIPS;
use peer::party::{Party, Peer};
use peer::trial::lists::LISTS;
use peer::trial::pairing::{Numbers, Pairing};
use peer::trial::prng::Prng;
use peer::trial::{companies, history, hostile, layouts, maker, many, numbers, order, pages, readings, records, store};
use std::fmt::Debug;
use std::process::ExitCode;
use std::time::Instant;

const USAGE: &str = "usage: compare [SEED ...] [--calls N] [--against NAME]
  SEED            a number; 1 if none is given
  --calls N       with each seed go on by chance until N calls are compared (200000 if not given)
  --against NAME  the second party: library (if not given; there if MAHQURITH_LIB named its folder at the build),
                  peer, or a broken one such as MajorityUp";

type Trial = fn(&mut Pairing, &mut Prng);

struct Order {
    seeds: Vec<u64>,
    calls: u64,
    against: String,
}

fn main() -> ExitCode {
    let Some(order) = read_order() else {
        eprintln!("{USAGE}");
        return ExitCode::from(2);
    };
    let Some(second) = party(&order.against) else {
        eprintln!("no party is named {} here\n{USAGE}", order.against);
        return ExitCode::from(2);
    };
    println!("peer against {}", second.name());
    let start = Instant::now();
    let mut pairing = Pairing::new(&Peer, second.as_ref(), order.seeds[0]);
    for seed in &order.seeds {
        pairing.begin(*seed);
        println!("seed {seed}");
        let mut prng = Prng::new(*seed);
        run_fixed(&mut pairing, &mut prng);
        run_by_chance(&mut pairing, &mut prng, order.calls);
    }
    close(&pairing, start)
}

fn read_order() -> Option<Order> {
    let mut order = Order { seeds: Vec::new(), calls: 200_000, against: "library".to_string() };
    let mut words = std::env::args().skip(1);
    while let Some(word) = words.next() {
        match word.as_str() {
            "--calls" => order.calls = words.next()?.parse().ok()?,
            "--against" => order.against = words.next()?,
            seed => order.seeds.push(seed.parse().ok()?),
        }
    }
    if order.seeds.is_empty() {
        order.seeds.push(1);
    }
    Some(order)
}

fn party(name: &str) -> Option<Box<dyn Party>> {
    match name {
        "peer" => Some(Box::new(Peer)),
        #[cfg(library)]
        "library" => Some(Box::new(peer::library::Library)),
        _ => named(SLIPS.into_iter().chain(SLIPS_OF_M_107), name)
            .or_else(|| named(MANY_SLIPS, name))
            .or_else(|| named(STORE_SLIPS, name))
            .or_else(|| named(COMPANY_SLIPS, name))
            .or_else(|| named(MAKER_SLIPS, name)),
    }
}

/// The slip of this name, if it is among these.
fn named<S: Party + Debug + 'static>(slips: impl IntoIterator<Item = S>, name: &str) -> Option<Box<dyn Party>> {
    let slip = slips.into_iter().find(|slip| format!("{slip:?}") == name)?;
    Some(Box::new(slip))
}

fn run_fixed(pairing: &mut Pairing, prng: &mut Prng) {
    let fixed: [(&str, Trial); 10] = [
        ("numbers to try", numbers::run),
        ("readings", readings::run),
        ("order of refusals", order::run),
        ("layouts", layouts::run),
        ("hostile histories", hostile::run),
        ("store", store::run),
        ("append many", many::run),
        ("blocks of a night", pages::run),
        ("two companies", companies::run),
        ("maker", maker::run),
    ];
    for (name, run) in fixed {
        let before = pairing.tally.calls;
        run(pairing, prng);
        println!("{name}: {} calls", pairing.tally.calls - before);
    }
}

/// Goes on until so many calls are made with this seed. A history makes hundreds of calls, so the others get more turns.
fn run_by_chance(pairing: &mut Pairing, prng: &mut Prng, calls: u64) {
    let by_chance: [(&str, usize, Trial); 9] = [
        ("order", 60, order::run_any),
        ("records", 30, records::run_any),
        ("layouts", 60, layouts::run_any),
        ("histories", 1, history::run_any),
        ("stores", 4, store::run_any),
        ("appends of many", 4, many::run_any),
        ("blocks of nights", 6, pages::run_any),
        ("pairs of runs", 2, companies::run_any),
        ("makings", 6, maker::run_any),
    ];
    let mut made = [0; 9];
    while pairing.calls_of_seed() < calls {
        for ((_, turns, run), count) in by_chance.iter().zip(&mut made) {
            let before = pairing.tally.calls;
            for _ in 0..*turns {
                run(pairing, prng);
            }
            *count += pairing.tally.calls - before;
        }
    }
    for ((name, _, _), count) in by_chance.iter().zip(made) {
        println!("{name} by chance: {count} calls");
    }
}

/// The closing lines; any difference, any fault and any number never met make the run fail.
fn close(pairing: &Pairing, start: Instant) -> ExitCode {
    let tally = &pairing.tally;
    let mut never: Vec<String> =
        (0..=25).filter(|number| !tally.by_number.contains_key(number)).map(|number| number.to_string()).collect();
    for ((name, list), numbers) in LISTS.iter().zip(&tally.by_call) {
        println!("{name}: {}", counts(numbers));
        let missing = [&0].into_iter().chain(*list).filter(|number| !numbers.contains_key(number));
        never.extend(missing.map(|number| format!("{number} of {name}")));
    }
    let seconds = start.elapsed().as_secs_f64();
    println!("never met: {}", if never.is_empty() { "none".to_string() } else { never.join(", ") });
    println!("calls {} in {seconds:.1} s ({:.0} a minute)", tally.calls, tally.calls as f64 / seconds * 60.0);
    println!("answers by number {}", counts(&tally.by_number));
    println!("differences {} faults {}", tally.differences, tally.faults);
    if tally.differences == 0 && tally.faults == 0 && never.is_empty() {
        println!("AGREED");
        return ExitCode::SUCCESS;
    }
    println!("FAILED");
    ExitCode::FAILURE
}

fn counts(numbers: &Numbers) -> String {
    numbers.iter().map(|(number, count)| format!("{number}:{count}")).collect::<Vec<_>>().join(" ")
}
