//! Netlists of one family at several sizes, and texts, to see how time grows with the rows.

use crate::cases::{run_task, Case, Task};
use crate::library;
use crate::netlist::{
    constant, encode, input, output, random_gate, register, row, shuffled, Random, Row,
};
use crate::texts::{text_of, Style};
use crate::twin::Clock;

/// The smallest netlist there is, then ten times as many rows, up to Fold's limit; then the most rows
/// for which Run and Sort ask for 16,384 bytes of work, and the file's limit.
const SIZES: [usize; 6] = [2, 10, 100, 1008, 8064, 32_256];
const MOST_FOLDED: usize = 1008;
const STEPS: u32 = 64;

/// Rows of texts; those of the last two fit no file, and are refused for that alone.
const TEXT_SIZES: [usize; 7] = [10, 100, 1008, 8064, 32_256, 40_000, 200_000];

/// Literal of the clock, row 1.
const CLOCK: usize = 2;

/// A latch's next value: while `enable` is 1 a value from before, else its own.
fn latch_data(random: &mut Random, enable: usize, latch: usize) -> Row {
    row(5, 0, enable, random.below(2 * latch), 2 * latch)
}

/// Of ten rows two are latches, one is an input, six are gates and one is an output. The first latch
/// is a clock that changes in each step; half of the others follow while it is 1, half while it is 0.
fn family(rows: usize) -> Vec<Row> {
    let mut random = Random(9);
    let outputs = (rows / 10).max(1);
    let nodes = rows - outputs;
    let mut netlist: Vec<Row> = Vec::with_capacity(rows);
    for at in 0..nodes {
        let reset = [0, 0, 1, 1, 2][random.below(5)];
        let made = match (at, at % 9) {
            (0, _) => constant(),
            (1, _) => register(0, CLOCK + 1, at),
            (_, 1) => register(reset, 2 * (at + 2), at),
            (_, 2) => input(at, 0),
            (_, 3) => latch_data(&mut random, CLOCK, at - 2),
            (_, 4) => register(reset, 2 * (at + 1), at),
            (_, 5) => latch_data(&mut random, CLOCK + 1, at - 1),
            _ => random_gate(&mut random, at),
        };
        netlist.push(made);
    }
    netlist.extend((0..outputs).map(|label| output(random.below(2 * nodes), label, 0)));
    netlist
}

/// What Fold answers at each size.
pub fn print_folds() {
    let no_clock = Clock { label: 0, period: 0, word: 0, ones: 0 };
    for rows in SIZES.into_iter().filter(|&rows| rows <= MOST_FOLDED) {
        let file = encode(&family(rows));
        let [mut result, mut work] = [vec![0; 65_536], vec![0; 49_152]];
        let told = library::fold(&file, 0, &mut result, &mut work, &mut [no_clock; 256]).unwrap();
        println!(
            "Fold of {rows} rows: stem {}, cycle {}, {} phases, {} used, {} rows",
            told.stem, told.cycle, told.phases, told.used, told.after
        );
    }
}

/// Each operation at each size: the operation, the rows, the case.
pub fn all_cases() -> Vec<(&'static str, usize, Case)> {
    let mut cases = Vec::new();
    for name in ["Check", "Count", "Show", "Sort", "Run", "Fold"] {
        for rows in SIZES {
            let file = match name {
                "Sort" => encode(&shuffled(&mut Random(8), &family(rows))),
                _ => encode(&family(rows)),
            };
            let task = match name {
                "Check" => Task::Check,
                "Count" => Task::Count,
                "Show" => Task::Show { block: file.len() as u32 / 512 - 1 },
                "Sort" => Task::Sort,
                "Run" => run_task(&file, STEPS),
                _ if rows > MOST_FOLDED => continue,
                _ => Task::Fold { wish: 0 },
            };
            cases.push((name, rows, Case::new(name, 0.0, task, file)));
        }
    }
    cases
}

/// Import of texts whose definitions count up, and of such as are shuffled: the text, the rows, the
/// bytes, the case.
pub fn import_cases() -> Vec<(&'static str, usize, usize, Case)> {
    let mut cases = Vec::new();
    for (name, style) in [("counting up", Style::CountingUp), ("shuffled", Style::Shuffled)] {
        for rows in TEXT_SIZES {
            let text = text_of(16, rows, style);
            cases.push((name, rows, text.len(), Case::new(name, 0.0, Task::Import, text)));
        }
    }
    cases
}
