//! The operations that are measured: each on one file, by the library and by the twin.
//! No buffer is cleared before an operation; both sides get the same buffers.

use crate::netlist::{
    constant, encode, input, moved, output, random_netlist, register, row, shuffled, Random, Row,
    Shape,
};
use crate::texts::{self, Style};
use crate::twin::Clock;
use crate::{library, twin};

pub enum Task {
    Check,
    Count,
    Show { block: u32 },
    Sort,
    Import,
    Run { steps: u32, choices: Vec<u8>, inputs: Vec<u8> },
    Fold { wish: u32 },
    Trace { wish: u32, last: [u32; 2], choices: Vec<u8>, inputs: Vec<u8> },
}

/// Makes a text.
type Maker = Box<dyn FnOnce() -> Vec<u8>>;

pub struct Case {
    pub name: String,
    /// The highest ratio that is aimed at.
    pub target: Option<f64>,
    /// The highest time that is aimed at, in microseconds.
    pub most: Option<f64>,
    task: Task,
    /// The file, or the text.
    file: Vec<u8>,
    /// What the text is made by, until it is there.
    make: Option<Maker>,
    result: Vec<u8>,
    work: Vec<u8>,
    clocks: Vec<Clock>,
    /// Where a trace goes.
    trace: Vec<u8>,
}

#[derive(Clone, Copy, PartialEq)]
pub enum Side {
    Library,
    Twin,
}

impl Case {
    /// A target of 0 is none.
    pub fn new(name: &str, target: f64, task: Task, file: Vec<u8>) -> Case {
        Case {
            name: name.to_string(),
            target: (target > 0.0).then_some(target),
            most: None,
            task,
            file,
            make: None,
            result: vec![0; 262_144],
            work: vec![0; 196_608],
            clocks: vec![Clock { label: 0, period: 0, word: 0, ones: 0 }; 256],
            trace: Vec::new(),
        }
    }

    /// Of a text that is made when it is needed.
    fn of_text(name: &str, target: f64, make: impl FnOnce() -> Vec<u8> + 'static) -> Case {
        Case { make: Some(Box::new(make)), ..Case::new(name, target, Task::Import, Vec::new()) }
    }

    /// Makes the text, before the first operation.
    pub fn prepare(&mut self) {
        if let Some(make) = self.make.take() {
            self.file = make();
        }
    }

    /// The bytes of result and work that the operation is lent. Work is what it asks for, and no more.
    fn lent(&self) -> (usize, usize) {
        match self.task {
            Task::Sort => (self.file.len(), row_work(&self.file)),
            Task::Import => (262_144, 196_608),
            Task::Run { .. } => (262_144, row_work(&self.file)),
            _ => (65_536, 49_152),
        }
    }

    /// Sorts the file naively, if it is to be sorted at all.
    pub fn once_naively(&mut self) -> Option<bool> {
        let lent = self.lent();
        let Case { file, result, work, .. } = self;
        let Task::Sort = self.task else { return None };
        Some(twin::sort_naively(file, &mut result[..lent.0], &mut work[..lent.1]).is_ok())
    }

    /// Does the operation once; answers whether it was done.
    pub fn once(&mut self, side: Side) -> bool {
        let lent = self.lent();
        let Case { file, result, work, clocks, trace, .. } = self;
        let (result, work) = (&mut result[..lent.0], &mut work[..lent.1]);
        let ours = side == Side::Library;
        match &self.task {
            Task::Check if ours => library::check(file).is_ok(),
            Task::Check => twin::check(file).is_ok(),
            Task::Count if ours => library::count(file).is_ok(),
            Task::Count => twin::count(file).is_ok(),
            Task::Show { block } if ours => library::show(file, *block).is_ok(),
            Task::Show { block } => twin::show(file, *block).is_ok(),
            Task::Sort if ours => library::sort(file, result, work).is_ok(),
            Task::Sort => twin::sort(file, result, work).is_ok(),
            Task::Import if ours => library::import(file, result, work).is_ok(),
            Task::Import => twin::import(file, result, work).is_ok(),
            Task::Run { steps, choices, inputs } if ours => {
                library::run(file, *steps, choices, inputs, result, work).is_ok()
            }
            Task::Run { steps, choices, inputs } => {
                twin::run(file, *steps, choices, inputs, result, work).is_ok()
            }
            Task::Fold { wish } if ours => library::fold(file, *wish, result, work, clocks).is_ok(),
            Task::Fold { wish } => twin::fold(file, *wish, result, work, clocks).is_ok(),
            Task::Trace { wish, last, choices, inputs } if ours => {
                library::trace(file, *wish, *last, choices, inputs, result, work, trace).is_ok()
            }
            Task::Trace { wish, last, choices, inputs } => {
                twin::trace(file, *wish, *last, choices, inputs, result, work, trace).is_ok()
            }
        }
    }
}

/// The work that Run and Sort ask for: a file of more than 8,064 rows has more than 65,536 bytes.
pub fn row_work(file: &[u8]) -> usize {
    if file.len() > 65_536 {
        65_536
    } else {
        16_384
    }
}

fn random_file(nodes: usize, outputs: usize) -> Vec<u8> {
    let shape = Shape { nodes, outputs, registers: 3, inputs: 2, phases: true, rings: 0 };
    encode(&random_netlist(&mut Random(4), shape))
}

/// A run with random values.
pub fn run_task(file: &[u8], steps: u32) -> Task {
    let counts = twin::count(file).unwrap();
    let mut random = Random(5);
    let choices = random.bits(counts.unknown as usize);
    let inputs = random.bits(steps as usize * counts.inputs as usize);
    Task::Run { steps, choices, inputs }
}

fn run_case(nodes: usize, outputs: usize, steps: u32, target: f64) -> Case {
    let file = random_file(nodes, outputs);
    let name = format!("Run, {} rows x {steps}", nodes + outputs);
    Case::new(&name, target, run_task(&file, steps), file)
}

/// Binary counter from 0, its registers first.
fn push_counter(rows: &mut Vec<Row>, bits: usize, label: usize) {
    let first = rows.len();
    for i in 0..bits {
        rows.push(register(0, 2 * (first + bits + 2 * i), label + i));
    }
    let mut carry = 1;
    for i in 0..bits {
        rows.push(row(4, 0, 2 * (first + i), carry, 0));
        rows.push(row(3, 0, 2 * (first + i), carry, 0));
        carry = 2 * (rows.len() - 1);
    }
}

/// 1,008 rows, 256 registers, 256 states that differ in their last registers only, eight phases, and
/// nearly all made rows are kept: each stage has about as much to do as it can have.
fn longest_lasso() -> Vec<Row> {
    let (held, bits, all) = (248, 8, 1008);
    let mut rows = vec![constant()];
    for i in 0..held {
        rows.push(register(2, 2 * (all - 2 - i), i));
    }
    push_counter(&mut rows, bits, held);
    while rows.len() < all - 1 {
        let at = rows.len();
        rows.push(row(5, 0, 2 * (1 + at % held), 2 * (at - 1) + 1, 2 * (1 + (at * 7) % held)));
    }
    rows.push(output(2 * (all - 2), 0, 0));
    rows
}

/// Eight phases, and 247 registers that the cone reaches one after the other in ascending order, from
/// the one output that is not constant: 247 sweeps if the cone is found by sweeps from the last row.
fn longest_cone() -> Vec<Row> {
    let (ring, chain, all) = (8, 247, 1008);
    let step = (1..chain).find(|s| 8 * s % chain == 1).unwrap();
    let mut rows = vec![constant()];
    for i in 0..ring {
        rows.push(register((i == 0) as u8, 2 * (1 + (i + ring - 1) % ring), i));
    }
    let first = rows.len();
    for i in 0..chain {
        rows.push(register(2, 2 * (first + (i + step) % chain), ring + i));
    }
    rows.push(input(0, 0));
    while rows.len() < all - 2 {
        let at = rows.len();
        rows.push(row(3, 0, 2 * (at - 1), 2 * (first + at % chain) + 1, 0));
    }
    rows.push(row(3, 0, 2, 2 * first, 0));
    rows.push(output(2 * (all - 2), 0, 0));
    rows
}

/// A netlist of one input, gates and one output, which shows the last gate; gate i is made from i.
fn gates_alone(all: usize, gate: impl Fn(usize) -> Row) -> Vec<Row> {
    let mut rows = vec![constant(), input(0, 0)];
    rows.extend((2..all - 1).map(gate));
    rows.push(output(2 * (all - 2), 0, 0));
    rows
}

/// Each gate names the one before it.
fn chain(all: usize) -> Vec<Row> {
    gates_alone(all, |i| row(3, 0, 2 * (i - 1) + 1, 2, 0))
}

/// Three literals for each row, of any nodes before it.
fn earlier_literals(random: &mut Random, all: usize) -> impl Fn(usize) -> [usize; 3] {
    let draws: Vec<usize> = (0..3 * all).map(|_| random.next() as usize >> 1).collect();
    move |i| [0, 1, 2].map(|k| draws[3 * i + k] % (2 * i))
}

/// Gates that name any three earlier nodes, shuffled.
fn shuffled_muxes(all: usize) -> Vec<Row> {
    let mut random = Random(7);
    let literals = earlier_literals(&mut random, all);
    let rows = gates_alone(all, |i| {
        let [a, b, c] = literals(i);
        row(5, 0, a, b, c)
    });
    shuffled(&mut random, &rows)
}

/// Each gate names any two earlier nodes, and the one before it.
fn mux_chain(all: usize) -> Vec<Row> {
    let literals = earlier_literals(&mut Random(7), all);
    gates_alone(all, |i| {
        let [a, b, _] = literals(i);
        row(5, 0, a, b, 2 * (i - 1))
    })
}

/// The netlist with its gates in the places that `place` says, from 0 on.
fn placed(rows: &[Row], place: impl Fn(usize, usize) -> usize) -> Vec<Row> {
    let gates = rows.len() - 3;
    let places: Vec<usize> = (0..rows.len())
        .map(|i| if (2..gates + 2).contains(&i) { 2 + place(i - 2, gates) } else { i })
        .collect();
    moved(rows, &places)
}

/// The chain's gates stand at the end, at the front, and so on in turns towards the middle.
fn in_turns(all: usize) -> Vec<Row> {
    placed(&chain(all), |i, gates| if i % 2 == 0 { gates - 1 - i / 2 } else { i / 2 })
}

/// The MUX chain's gates stand in the upper and in the lower half in turns, anywhere there: from those
/// in the lower half the search for the next gate goes as far, in all, as it can.
fn in_two_halves(all: usize) -> Vec<Row> {
    let places = Random(19).two_halves(all - 3);
    placed(&mux_chain(all), |i, _| places[i])
}

/// The last gate is named by all others.
fn feeding_all(all: usize) -> Vec<Row> {
    gates_alone(all, |i| {
        let node = if i == all - 2 { 1 } else { all - 2 };
        row(3, 0, 2 * node, 2 * node + 1, 0)
    })
}

/// A chain whose last gate names itself.
fn loop_at_the_end(all: usize) -> Vec<Row> {
    let mut rows = chain(all);
    rows[all - 2].b = 2 * (all as u16 - 2);
    rows
}

/// Files of so many rows to be sorted.
fn sorted_files(all: usize) -> [(&'static str, Vec<u8>); 5] {
    let reversed = placed(&chain(all), |i, gates| gates - 1 - i);
    [
        ("in order", random_file(all - 64, 64)),
        ("shuffled MUXes", encode(&shuffled_muxes(all))),
        ("reversed chain", encode(&reversed)),
        ("chain in turns", encode(&in_turns(all))),
        ("MUXes in two halves", encode(&in_two_halves(all))),
    ]
}

/// Sorts of files of 8,064 rows, of one block, and of as many rows as a file may have.
fn sort_cases() -> Vec<Case> {
    let case = |name: String, file: Vec<u8>, most: f64| Case {
        most: Some(most),
        ..Case::new(&name, 1.5, Task::Sort, file)
    };
    let more = [
        ("one feeds all", encode(&feeding_all(8064))),
        ("loop at the end", encode(&loop_at_the_end(8064))),
    ];
    let small = sorted_files(8064).into_iter().chain(more);
    let small = small.map(|(name, file)| case(format!("Sort, {name}"), file, 4000.0));
    let block = Case::new("Sort, 63 rows", 3.0, Task::Sort, encode(&shuffled_muxes(63)));
    let large = sorted_files(32_256)
        .map(|(name, file)| case(format!("Sort 32256 rows, {name}"), file, 60_000.0));
    small.chain([block]).chain(large).collect()
}

/// Imports of texts of so many rows; names begin with `name`.
fn imports_of(name: &str, rows: usize) -> Vec<Case> {
    let case = |text: &str, target: f64, make: fn(usize) -> Vec<u8>| {
        Case::of_text(&format!("{name}, {text}"), target, move || make(rows))
    };
    let styled = |text: &str, target: f64, style: Style| {
        Case::of_text(&format!("{name}, {text}"), target, move || texts::text_of(10, rows, style))
    };
    vec![
        styled("counting up", 2.0, Style::CountingUp),
        styled("gaps", 8.0, Style::Gaps),
        styled("shuffled", 8.0, Style::Shuffled),
        styled("sparse, descending", 8.0, Style::Descending),
        styled("low bits agree", 8.0, Style::LowBitsAgree),
        case("shuffled latches", 8.0, texts::shuffled_latches),
        case("reversed chain", 8.0, texts::reversed_chain),
        case("chain in two halves", 8.0, texts::chain_in_two_halves),
    ]
}

/// Imports of texts of 8,064 rows, of one block, of more rows than a file may have, and of as many.
fn import_cases() -> Vec<Case> {
    let mut cases = imports_of("Import", 8064);
    cases.extend([
        Case::of_text("Import, 63 rows", 3.0, || texts::text_of(10, 63, Style::CountingUp)),
        Case::of_text("Import, 63 shuffled rows", 3.0, || texts::text_of(10, 63, Style::Shuffled)),
        Case::of_text("Import, 100,000 gates", 2.0, || texts::many_gates(100_000)),
    ]);
    cases.extend(imports_of("Import 32256 rows", 32_256));
    cases
}

/// Texts of about 1 MB that are refused.
fn long_import_cases() -> Vec<Case> {
    let texts: [(&str, fn() -> Vec<u8>); 11] = [
        ("counted lines", texts::counted_lines),
        ("one number", texts::digits_alone),
        ("sparse inputs", || texts::long_definitions(Style::Sparse)),
        ("shuffled inputs", || texts::long_definitions(Style::Shuffled)),
        ("low bits, inputs", || texts::long_definitions(Style::LowBitsAgree)),
        ("sparse gates", || texts::long_gates(Style::Sparse)),
        ("shuffled gates", || texts::long_gates(Style::Shuffled)),
        ("low bits, gates", || texts::long_gates(Style::LowBitsAgree)),
        ("defined twice", texts::defined_twice),
        ("undefined", texts::undefined_at_the_end),
        ("longest ways", texts::longest_ways),
    ];
    let case = |(name, make): (&str, fn() -> Vec<u8>)| Case {
        most: Some(500_000.0),
        ..Case::of_text(&format!("Import 1 MB, {name}"), 0.0, make)
    };
    texts.into_iter().map(case).collect()
}

/// The texts of all measured imports.
pub fn measured_texts() -> impl Iterator<Item = Vec<u8>> {
    import_cases().into_iter().chain(long_import_cases()).map(|mut case| {
        case.prepare();
        case.file
    })
}

/// The scope paper's sample.
pub fn sample() -> Vec<u8> {
    encode(&[
        constant(),
        input(0, 0),
        register(0, 5, 0),
        register(0, 10, 1),
        register(0, 12, 2),
        row(5, 0, 4, 2, 6),
        row(5, 0, 4, 8, 6),
        output(8, 0, 0),
    ])
}

/// So many inputs, all of which an output shows by a tree of XORs.
fn xor_tree(inputs: usize) -> Vec<Row> {
    let mut rows = vec![constant()];
    rows.extend((0..inputs).map(|label| input(label, 0)));
    for gate in 0..inputs - 1 {
        rows.push(row(4, 0, 2 * (2 * gate + 1), 2 * (2 * gate + 2), 0));
    }
    rows.push(output(2 * (rows.len() - 1), 0, 0));
    rows
}

/// What a trace asks for: phases, choices and inputs a group of the fold, and the bytes of a step and
/// of all choices.
pub struct TraceSizes {
    pub phases: usize,
    pub chosen: usize,
    pub given: usize,
    pub unknown: usize,
    pub inputs: usize,
}

impl TraceSizes {
    /// None where the file cannot be folded.
    pub fn of(file: &[u8], wish: u32) -> Option<TraceSizes> {
        let (mut result, mut work) = (vec![0; 65_536], vec![0; 49_152]);
        let mut clocks = vec![Clock { label: 0, period: 0, word: 0, ones: 0 }; 256];
        let folded = twin::fold(file, wish, &mut result, &mut work, &mut clocks).ok()?;
        let blocks = (folded.after as usize).div_ceil(63);
        let [before, after] = [file, &result[..512 * blocks]].map(|f| twin::count(f).unwrap());
        Some(TraceSizes {
            phases: folded.phases as usize,
            chosen: after.unknown as usize,
            given: after.inputs as usize,
            unknown: before.unknown as usize,
            inputs: before.inputs as usize,
        })
    }

    /// The bytes of a trace up to a phase of the last group.
    pub fn bytes(&self, groups: usize, phase: usize) -> usize {
        self.unknown + (groups.saturating_sub(1) * self.phases + phase + 1) * self.inputs
    }
}

/// A trace up to the last phase of so many groups, with random values.
fn trace_case(name: &str, target: f64, file: Vec<u8>, wish: u32, groups: usize) -> Case {
    let sizes = TraceSizes::of(&file, wish).expect("a fold");
    let last = [groups as u32, sizes.phases as u32 - 1];
    let mut random = Random(21);
    let (choices, inputs) = (random.bits(sizes.chosen), random.bits(groups * sizes.given));
    let task = Task::Trace { wish, last, choices, inputs };
    let trace = vec![0; sizes.bytes(groups, sizes.phases - 1)];
    Case { trace, ..Case::new(name, target, task, file) }
}

fn trace_cases(designs: &[(String, Vec<u8>)]) -> Vec<Case> {
    let tree = encode(&xor_tree(500));
    let mut cases = vec![
        trace_case("Trace, 500 inputs x 512", 1.5, tree, 8, 512),
        trace_case("Trace, sample x 2", 3.0, sample(), 0, 2),
        trace_case("Trace, sample x 512", 1.5, sample(), 0, 512),
    ];
    for (name, file) in designs.iter().filter(|(name, _)| name == "m8_onehot0") {
        cases.push(trace_case(&format!("Trace, {name} x 512"), 1.5, file.clone(), 0, 512));
    }
    cases
}

/// The wish that a design is measured with.
pub fn wish_of(design: &str) -> u32 {
    if design == "w8_fold" {
        8
    } else {
        0
    }
}

pub fn all_cases(designs: &[(String, Vec<u8>)]) -> Vec<Case> {
    let [whole, middle, block] =
        [(32_192, 64), (8000, 64), (60, 3)].map(|(nodes, outputs)| random_file(nodes, outputs));
    let mut cases = vec![
        Case::new("Check, 32256 rows", 1.5, Task::Check, whole.clone()),
        Case::new("Check, 8064 rows", 1.5, Task::Check, middle.clone()),
        Case::new("Check, 63 rows", 3.0, Task::Check, block.clone()),
        Case::new("Count, 32256 rows", 0.0, Task::Count, whole.clone()),
        Case::new("Count, 8064 rows", 0.0, Task::Count, middle.clone()),
        Case::new("Count, 63 rows", 0.0, Task::Count, block.clone()),
        Case::new("Show, 32256 rows", 0.0, Task::Show { block: 511 }, whole),
        Case::new("Show, 8064 rows", 0.0, Task::Show { block: 127 }, middle),
        Case::new("Show, 63 rows", 0.0, Task::Show { block: 0 }, block),
        run_case(32_192, 64, 64, 0.0),
        run_case(8000, 64, 64, 0.0),
        run_case(1000, 8, 4096, 1.2),
        run_case(60, 3, 1, 0.0),
    ];
    cases.extend(sort_cases());
    cases.extend(import_cases());
    cases.extend(long_import_cases());
    for (name, file) in designs {
        let wish = wish_of(name);
        let target = match name.as_str() {
            "w256_lasso" => 1.3,
            "c8" | "t_toggle1" => 0.0,
            _ => 1.5,
        };
        let task = Task::Fold { wish };
        cases.push(Case::new(&format!("Fold, {name}, wish {wish}"), target, task, file.clone()));
    }
    for (name, rows) in [("longest lasso", longest_lasso()), ("longest cone", longest_cone())] {
        let task = Task::Fold { wish: 0 };
        let mut case = Case::new(&format!("Fold, {name}"), 0.0, task, encode(&rows));
        case.most = Some(3000.0);
        cases.push(case);
    }
    cases.extend(trace_cases(designs));
    cases
}
