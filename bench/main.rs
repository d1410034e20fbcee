//! Compares the library with a plain Rust twin: first the answers, then the time.
//!
//!     main DESIGNS                            compare, then print the table of ratios, and the
//!                                             times of a naive sorter;
//!                                             exit status 1 if an answer differs
//!     main DESIGNS --growth                   print the table of times by rows
//!     main DESIGNS --aiger FILE OUT           write a netlist file as binary AIGER
//!     main DESIGNS --abc PROGRAM FOLDER       fold the designs by ABC too; its files go to the folder
//!     main DESIGNS --list                     print the names of the measured operations
//!     main DESIGNS --one NUMBER library|twin  do one of them, for a count of instructions

mod abc;
mod aiger;
mod cases;
mod compare;
mod edges;
mod growth;
mod library;
mod netlist;
mod peer;
mod texts;
mod twin;

use cases::{Case, Side};
use std::hint::black_box;
use std::process::exit;
use std::time::Instant;

/// The designs of a folder, by name.
fn read_designs(folder: &str) -> Vec<(String, Vec<u8>)> {
    let mut paths: Vec<_> =
        std::fs::read_dir(folder).expect("designs").map(|entry| entry.unwrap().path()).collect();
    paths.retain(|path| path.extension().is_some_and(|e| e == "pf"));
    paths.sort();
    let name = |path: &std::path::Path| path.file_stem().unwrap().to_string_lossy().into_owned();
    paths.iter().map(|path| (name(path), std::fs::read(path).unwrap())).collect()
}

/// What a count of instructions is limited to.
#[no_mangle]
#[inline(never)]
fn measured_operation(case: &mut Case, side: Side) -> bool {
    case.once(side)
}

/// Microseconds of one operation, over a batch.
fn time_batch(case: &mut Case, side: Side, batch: u32) -> f64 {
    let start = Instant::now();
    for _ in 0..batch {
        black_box(case.once(side));
    }
    start.elapsed().as_secs_f64() * 1e6 / f64::from(batch)
}

/// The best time of each side, in turns: at least 40 batches and for a second, but of slow operations
/// as many batches as take three seconds, and five at least.
fn best_times(case: &mut Case) -> (f64, f64) {
    case.prepare();
    let first = time_batch(case, Side::Twin, 1).max(0.05);
    let batch = (300.0 / first).clamp(1.0, 2000.0) as u32;
    let (mut ours, mut twin) = (f64::MAX, f64::MAX);
    let start = Instant::now();
    let mut rounds = 0;
    let more =
        |rounds: u32, taken: u128| rounds < 5 || taken < if rounds < 40 { 3000 } else { 1000 };
    while more(rounds, start.elapsed().as_millis()) {
        ours = ours.min(time_batch(case, Side::Library, batch));
        twin = twin.min(time_batch(case, Side::Twin, batch));
        rounds += 1;
    }
    (ours, twin)
}

fn verdict(case: &Case, ours: f64, ratio: f64) -> String {
    let ratio = case.target.map(|target| (format!("at most {target}"), ratio <= target));
    let time = case.most.map(|most| (format!("at most {most} µs"), ours <= most));
    let told = |(goal, met): (String, bool)| goal + if met { "" } else { ": MISSED" };
    ratio.into_iter().chain(time).map(told).collect::<Vec<_>>().join(", ")
}

/// Microseconds of the naive sorter, if the file is to be sorted.
fn time_naively(case: &mut Case) -> Option<f64> {
    let start = Instant::now();
    black_box(case.once_naively()?);
    Some(start.elapsed().as_secs_f64() * 1e6)
}

/// The best of four times of the naive sorter, of slow ones the only time, and how often the library's
/// time that is.
fn print_naive(cases: &mut [(Case, f64)]) {
    println!("{:38} {:>11} {:>11} {:>6}", "", "library µs", "naive µs", "factor");
    for (case, ours) in cases {
        let Some(mut naive) = time_naively(case) else { continue };
        if naive < 1e5 {
            naive = (0..3).filter_map(|_| time_naively(case)).fold(naive, f64::min);
        }
        println!("{:38} {ours:11.2} {naive:11.2} {:6.1}", case.name, naive / *ours);
    }
}

fn print_table(cases: Vec<Case>) {
    println!("{:38} {:>11} {:>11} {:>6}  target", "", "library µs", "twin µs", "ratio");
    let mut timed = Vec::new();
    for mut case in cases {
        let (ours, twin) = best_times(&mut case);
        let ratio = ours / twin;
        println!(
            "{:38} {ours:11.2} {twin:11.2} {ratio:6.2}  {}",
            case.name,
            verdict(&case, ours, ratio)
        );
        timed.push((case, ours));
    }
    print_naive(&mut timed);
}

/// Each operation on netlists of one family; the last column is the library's time for each row.
fn print_growth() {
    let [library, twin, each] = ["library µs", "twin µs", "ns a row"];
    println!("{:6} {:>5} {library:>11} {twin:>11} {:>6} {each:>9}", "", "rows", "ratio");
    for (name, rows, mut case) in growth::all_cases() {
        assert!(case.once(Side::Library) && case.once(Side::Twin), "{name}, {rows} rows: refused");
        let (ours, twin) = best_times(&mut case);
        let (ratio, each) = (ours / twin, 1000.0 * ours / rows as f64);
        println!("{name:6} {rows:5} {ours:11.2} {twin:11.2} {ratio:6.2} {each:9.1}");
    }
    growth::print_folds();
    print_import_growth();
}

/// Import; the last column is the library's time for each byte of the text.
fn print_import_growth() {
    let [library, twin, each] = ["library µs", "twin µs", "ns a byte"];
    println!(
        "{:11} {:>6} {:>7} {library:>11} {twin:>11} {:>6} {each:>9}",
        "Import", "rows", "bytes", "ratio"
    );
    for (name, rows, bytes, mut case) in growth::import_cases() {
        let (ours, twin) = best_times(&mut case);
        let (ratio, each) = (ours / twin, 1000.0 * ours / bytes as f64);
        println!("{name:11} {rows:6} {bytes:7} {ours:11.2} {twin:11.2} {ratio:6.2} {each:9.1}");
    }
}

fn main() {
    let words: Vec<String> = std::env::args().skip(1).collect();
    let designs = read_designs(&words[0]);
    let mut cases = cases::all_cases(&designs);
    let rest: Vec<&str> = words[1..].iter().map(String::as_str).collect();
    match rest[..] {
        [] => {
            let differences = compare::compare_all(&designs);
            print_table(cases);
            exit((differences > 0) as i32);
        }
        ["--growth"] => print_growth(),
        ["--aiger", file, out] => {
            let rows = netlist::decode(&std::fs::read(file).expect("a file"));
            std::fs::write(out, aiger::write(&aiger::from_rows(&rows))).expect("a place for AIGER");
        }
        ["--abc", program, folder] => {
            let right = abc::print_table(&designs, program, folder);
            exit(!right as i32);
        }
        ["--list"] => cases.iter().for_each(|case| println!("{}", case.name)),
        ["--one", number, side] => {
            let side = if side == "library" { Side::Library } else { Side::Twin };
            let case = &mut cases[number.parse::<usize>().expect("a number")];
            case.prepare();
            black_box(measured_operation(case, side));
        }
        _ => exit(2),
    }
}
