//! ABC's `phase` beside Fold, on the designs: time, registers left, and what both folds show.

use crate::aiger::{self, Aiger};
use crate::best_times;
use crate::cases::{wish_of, Case, Task};
use crate::netlist::decode;
use crate::peer::{self, Comparison};
use std::path::Path;
use std::process::{exit, Command};

const ROUNDS: usize = 3;
const REPEATS: usize = 1000;

/// What ABC made, and the microseconds of one `phase`.
struct Made {
    fold: Aiger,
    time: f64,
}

/// In each round REPEATS times read, then REPEATS times read and fold; `time` tells the processor time
/// since the last `time`.
fn commands(phases: u32) -> String {
    let read = "read_aiger design.aig\n";
    let fold = format!("{read}phase -F {phases}\n");
    let round = format!("{}time\n{}time\n", read.repeat(REPEATS), fold.repeat(REPEATS));
    format!("time\n{}write_aiger folded.aig\n", round.repeat(ROUNDS))
}

/// The seconds that each `time` told.
fn elapsed(said: &str) -> Vec<f64> {
    let parts = said.split("elapse:").skip(1);
    parts.map(|part| part.split_whitespace().next().unwrap().parse().unwrap()).collect()
}

fn fold_by_abc(program: &str, folder: &Path, design: &Aiger, phases: u32) -> Made {
    let write = |name: &str, bytes: &[u8]| std::fs::write(folder.join(name), bytes).unwrap();
    write("design.aig", &aiger::write(design));
    write("commands", commands(phases).as_bytes());
    write("folded.aig", b"");
    let output = Command::new(program).args(["-f", "commands"]).current_dir(folder).output();
    let said = String::from_utf8_lossy(&output.expect("ABC").stdout).into_owned();
    let times = elapsed(&said);
    if times.len() != 1 + 2 * ROUNDS {
        eprintln!("{program} did not do as ABC does. It said: {said}");
        exit(1);
    }
    let best = |first: usize| times[first..].iter().step_by(2).copied().fold(f64::MAX, f64::min);
    let time = (best(2) - best(1)) * 1e6 / REPEATS as f64;
    Made { fold: aiger::read(&std::fs::read(folder.join("folded.aig")).unwrap()), time }
}

fn print_difference(seen: &Comparison, steps: &[usize]) {
    if let Some(&step) = steps.first() {
        let [design, ours, theirs] = seen.shown_in(step);
        println!(
            "    step {step}: the design shows {design}, Fold's result {ours}, ABC's {theirs}"
        );
    }
}

/// A line of the table, and one more if ABC's fold shows something else than the design. Answers
/// whether Fold's result shows what the design shows.
fn print_design(name: &str, file: &[u8], program: &str, folder: &Path) -> bool {
    let wish = wish_of(name);
    let design = aiger::from_rows(&decode(file));
    let (told, folded) = peer::fold(file, wish);
    let made = fold_by_abc(program, folder, &design, told.phases);
    let seen = peer::compare(file, &folded, told.phases as usize, &made.fold);
    let (ours, _) = best_times(&mut Case::new(name, 0.0, Task::Fold { wish }, file.to_vec()));
    let [before, after] = [design.latches.len(), aiger::from_rows(&decode(&folded)).latches.len()];
    let differing = seen.ours_differ().len();
    print!("{name:12} {:6} {before:9} {after:6} {ours:8.1} {differing:7} ", told.phases);
    match seen.theirs_differ() {
        None => println!("{:>6} {:>8} {:>7}", "-", "-", "-"),
        Some(steps) => {
            println!("{:6} {:8.0} {:7}", made.fold.latches.len(), made.time, steps.len());
            print_difference(&seen, &steps);
        }
    }
    differing == 0
}

/// For each design, phases and registers; then of Fold and of ABC the registers left, the time, and
/// the number of steps in which the result shows something else than the design. Answers whether that
/// is 0 for Fold.
pub fn print_table(designs: &[(String, Vec<u8>)], program: &str, folder: &str) -> bool {
    println!("{:30} {:>22} {:>25}", "", "Fold", "ABC");
    print!("{:12} {:>6} {:>9}", "", "phases", "registers");
    println!(
        " {:>6} {:>8} {:>7} {:>6} {:>8} {:>7}",
        "left", "µs", "differ", "left", "µs", "differ"
    );
    designs.iter().fold(true, |right, (name, file)| {
        print_design(name, file, program, Path::new(folder)) && right
    })
}
