//! This program compares the report that another program prints of a night's file with the peer's, byte for byte.

use peer::party::Peer;
use peer::trial::night::{file, rack_page, Page, Parts};
use peer::trial::prng::Prng;
use peer::trial::reports::{self, Reporter, Reports};
use peer::trial::{good, night};
use std::cell::Cell;
use std::fs;
use std::io::Write;
use std::path::{Path, PathBuf};
use std::process::{Command, ExitCode, Output, Stdio};
use std::time::Instant;

const USAGE: &str = "usage: reports PROGRAM [SEED ...] [--files N]
  PROGRAM    what is run as `PROGRAM FILE`, and as `PROGRAM` with the file on standard input
  SEED       a number; 1 if none is given
  --files N  with each seed so many files by chance (2000 if not given), besides the fixed ones";

/// The program; it is given each fourth file on standard input, in pieces that are no whole blocks.
struct Program {
    path: PathBuf,
    folder: PathBuf,
    turn: Cell<u64>,
}

impl Program {
    fn on_file(&self, bytes: &[u8]) -> Output {
        let name = self.folder.join("night");
        fs::write(&name, bytes).expect("the folder can be written");
        self.on(&name)
    }

    fn on(&self, name: &Path) -> Output {
        Command::new(&self.path).arg(name).stdin(Stdio::null()).output().expect("the program runs")
    }

    fn on_input(&self, bytes: &[u8]) -> Output {
        let (input, output, error) = (Stdio::piped(), Stdio::piped(), Stdio::piped());
        let mut child =
            Command::new(&self.path).stdin(input).stdout(output).stderr(error).spawn().expect("the program runs");
        let mut input = child.stdin.take().expect("a pipe");
        let mut rest = bytes;
        for length in [1, 511, 513, 100, 4096, 7].into_iter().cycle() {
            let (piece, after) = rest.split_at(rest.len().min(length));
            if piece.is_empty() || input.write_all(piece).is_err() {
                break;
            }
            rest = after;
        }
        drop(input);
        child.wait_with_output().expect("the program ends")
    }
}

impl Reporter for Program {
    fn name(&self) -> String {
        self.path.display().to_string()
    }

    fn report(&self, file: &[u8]) -> Result<Vec<u8>, String> {
        self.turn.set(self.turn.get() + 1);
        let output = if self.turn.get() % 4 == 0 { self.on_input(file) } else { self.on_file(file) };
        match (output.status.code(), output.stderr.is_empty()) {
            (Some(0), true) => Ok(output.stdout),
            (code, _) => Err(format!("exit {code:?}, {:?}", String::from_utf8_lossy(&output.stderr))),
        }
    }
}

/// A file that isn't there or isn't one: exit 2, one line on standard error and nothing on standard output.
fn unreadable(program: &Program) -> Vec<String> {
    let names = [program.folder.join("not there"), program.folder.clone(), PathBuf::new()];
    let mut wrong = Vec::new();
    for name in names {
        let Output { status, stdout, stderr } = program.on(&name);
        let lines = stderr.iter().filter(|byte| **byte == b'\n').count();
        if status.code() != Some(2) || !stdout.is_empty() || lines != 1 || !stderr.ends_with(b"\n") {
            let stderr = String::from_utf8_lossy(&stderr).into_owned();
            wrong.push(format!("{name:?}: {status}, {} bytes printed, standard error {stderr:?}", stdout.len()));
        }
    }
    wrong
}

/// A file far longer than any piece in which it may be read.
fn long_file(prng: &mut Prng) -> Vec<Page> {
    let rack = good::rack(prng, 15);
    let mut pages = vec![rack_page(&rack)];
    for number in 0..20_000 {
        let label = [1 + (number % 80) as u8; 16];
        pages.push(Parts::good(prng, &rack, 1 + (number % 3) as u8, label, number).accepted());
    }
    pages
}

struct Order {
    program: PathBuf,
    seeds: Vec<u64>,
    files: u64,
}

fn read_order() -> Option<Order> {
    let mut words = std::env::args().skip(1);
    let mut order = Order { program: words.next()?.into(), seeds: Vec::new(), files: 2_000 };
    while let Some(word) = words.next() {
        match word.as_str() {
            "--files" => order.files = words.next()?.parse().ok()?,
            seed => order.seeds.push(seed.parse().ok()?),
        }
    }
    if order.seeds.is_empty() {
        order.seeds.push(1);
    }
    Some(order)
}

fn main() -> ExitCode {
    let Some(order) = read_order() else {
        eprintln!("{USAGE}");
        return ExitCode::from(2);
    };
    let folder = std::env::temp_dir().join(format!("reports-{}", std::process::id()));
    fs::create_dir_all(&folder).expect("a folder for the files");
    let program = Program { path: order.program.clone(), folder: folder.clone(), turn: Cell::new(0) };
    let agreed = compare(&program, &order);
    fs::remove_dir_all(&folder).expect("the folder is ours");
    println!("{}", if agreed { "AGREED" } else { "FAILED" });
    if agreed {
        ExitCode::SUCCESS
    } else {
        ExitCode::FAILURE
    }
}

fn compare(program: &Program, order: &Order) -> bool {
    let start = Instant::now();
    let mut reports = Reports::new(&Peer, program);
    let wrong = unreadable(program);
    wrong.iter().for_each(|what| println!("UNREADABLE FILE: {what}"));
    for seed in &order.seeds {
        let mut prng = Prng::new(*seed);
        reports::run(&mut reports, &mut prng);
        println!("seed {seed}: {} files fixed or before it", reports.files);
        for _ in 0..order.files {
            reports::run_any(&mut reports, &mut prng);
        }
        let long = long_file(&mut prng);
        for _ in 0..4 {
            reports.compare("a long file", &file(&long), Some(&night::report(&long)));
        }
    }
    let Reports { files, blocks, differences, faults, .. } = reports;
    let seconds = start.elapsed().as_secs_f64();
    println!(
        "{files} files of {blocks} blocks in {seconds:.1} s, {} by chance",
        order.files * order.seeds.len() as u64
    );
    println!("differences {differences} faults {faults} unreadable files answered otherwise {}", wrong.len());
    differences == 0 && faults == 0 && wrong.is_empty()
}
