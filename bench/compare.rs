//! Compares the library's answers, and all memory lent to it, with the twin's.

use crate::cases::{self, measured_texts, row_work, TraceSizes};
use crate::netlist::{
    constant, damage, encode, input, output, random_netlist, random_shape, redrawn, register,
    shuffled, Random,
};
use crate::texts::{random_text, text_of, STYLES};
use crate::twin::{Clock, Folded, Refusal};
use crate::{edges, library, twin};

/// What was compared: how often the twin answered each number, 0 for success, and how often the
/// library differed.
#[derive(Default)]
struct Tally {
    answered: [usize; 29],
    differences: usize,
}

impl Tally {
    /// Counts one comparison; the first differences are told.
    fn add<T>(&mut self, twin: &Result<T, Refusal>, same: bool, story: impl FnOnce() -> String) {
        let number = twin.as_ref().err().map_or(0, |refusal| refusal.number);
        self.answered[number as usize] += 1;
        if !same {
            self.differences += 1;
            if self.differences <= 5 {
                println!("DIFFERENCE: {}", story());
            }
        }
    }

    fn print(&self, name: &str) {
        let all: usize = self.answered.iter().sum();
        print!(
            "{name:6} {all:6} compared, {} differences; {} accepted, refused by number:",
            self.differences, self.answered[0]
        );
        for (number, times) in
            self.answered.iter().enumerate().skip(1).filter(|(_, &times)| times > 0)
        {
            print!(" {number}: {times}");
        }
        println!();
    }
}

/// The most rows of a file: mostly `few`, but one time in `seldom` more, and one in five of these as
/// many as a file may have.
fn most_rows(random: &mut Random, seldom: usize, few: usize) -> usize {
    match random.below(5 * seldom) {
        0 => 32_256,
        1..=4 => 8064,
        _ => few,
    }
}

/// A file of at most `most` rows, sound or damaged.
fn random_file(random: &mut Random, most: usize, phases: bool) -> Vec<u8> {
    let shape = random_shape(random, most, phases);
    let file = encode(&random_netlist(random, shape));
    if random.one_in(2) {
        damage(&file, random)
    } else {
        file
    }
}

/// Check, Count and Show; of the blocks the last two are shown, and the first that is missing.
fn compare_checks(files: usize) -> [Tally; 3] {
    let mut random = Random(1);
    let [mut checks, mut counts, mut shows] = [(); 3].map(|_| Tally::default());
    let mut compare = |file: &[u8]| {
        let (ours, other) = (library::check(file), twin::check(file));
        checks.add(&other, ours == other, || format!("Check {ours:?}, twin {other:?}"));
        let (ours, other) = (library::count(file), twin::count(file));
        counts.add(&other, ours == other, || format!("Count {ours:?}, twin {other:?}"));
        let blocks = file.len() as u32 / 512;
        for block in blocks.saturating_sub(2)..=blocks {
            let (ours, other) = (library::show(file, block), twin::show(file, block));
            let same = ours.map(<[u8]>::as_ptr_range) == other.map(<[u8]>::as_ptr_range);
            shows.add(&other, same, || format!("Show {ours:?}, twin {other:?}, block {block}"));
        }
    };
    edges::make_files(&mut random, &mut compare);
    for _ in 0..files {
        let most = most_rows(&mut random, 20, 600);
        compare(&random_file(&mut random, most, true));
    }
    [checks, counts, shows]
}

/// Work about both lengths that Run and Sort ask for.
const WORKS: [usize; 4] = [16_383, 16_384, 65_535, 65_536];

/// Sort, also by the naive sorter; result and work of so many bytes.
fn compare_sort(tally: &mut Tally, file: &[u8], result: usize, work: usize) {
    let [mut mine, mut others, mut naive] = [(); 3].map(|_| (vec![0xA5; result], vec![0x5A; work]));
    let ours = library::sort(file, &mut mine.0, &mut mine.1);
    let other = twin::sort(file, &mut others.0, &mut others.1);
    let third = twin::sort_naively(file, &mut naive.0, &mut naive.1);
    let same = ours == other && mine == others && other == third && others == naive;
    tally.add(&other, same, || {
        let parts = [mine.0 == others.0, mine.1 == others.1, others == naive];
        format!(
            "Sort {ours:?}, twin {other:?}, naive {third:?}; result, work, naive same: {parts:?}"
        )
    });
}

/// Sort of files whose nodes stand in any order; some have loops.
fn compare_sorts(files: usize) -> Tally {
    let mut random = Random(6);
    let mut tally = Tally::default();
    for rows in [8064, 8065, 16_128, 16_129, 32_256] {
        let netlist = edges::netlist_of(&mut random, rows);
        let file = encode(&shuffled(&mut random, &netlist));
        for work in WORKS {
            compare_sort(&mut tally, &file, file.len(), work);
        }
        compare_sort(&mut tally, &file, file.len() - 1, 65_536);
    }
    for _ in 0..files {
        let most = most_rows(&mut random, 40, 600);
        let shape = random_shape(&mut random, most, true);
        let rows = random_netlist(&mut random, shape);
        let mixed = shuffled(&mut random, &rows);
        let mut file = encode(&redrawn(&mut random, mixed));
        if random.one_in(4) {
            file = damage(&file, &mut random);
        }
        let result = nearly(&mut random, file.len()) + 100 * random.below(2);
        let work = nearly(&mut random, row_work(&file));
        compare_sort(&mut tally, &file, result, work);
    }
    tally
}

/// Result and work of so many bytes.
fn compare_import(tally: &mut Tally, text: &[u8], result: usize, work: usize) {
    let [mut mine, mut others] = [(); 2].map(|_| (vec![0xA5; result], vec![0x5A; work]));
    let ours = library::import(text, &mut mine.0, &mut mine.1);
    let other = twin::import(text, &mut others.0, &mut others.1);
    tally.add(&other, ours == other && mine == others, || {
        let parts = [mine.0 == others.0, mine.1 == others.1];
        format!("Import {ours:?}, twin {other:?}; result, work same: {parts:?}")
    });
}

/// Import of the measured texts, of texts of about as many rows as a file may have, and of random ones.
fn compare_imports(texts: usize) -> Tally {
    let mut random = Random(15);
    let mut tally = Tally::default();
    for text in measured_texts() {
        compare_import(&mut tally, &text, 262_144, 196_608);
    }
    for rows in 32_255..=32_257 {
        for style in STYLES {
            compare_import(&mut tally, &text_of(20, rows, style), 262_144, 196_608);
        }
    }
    for result in [65_536, 262_143, 262_144] {
        for work in [49_152, 196_607, 196_608] {
            compare_import(&mut tally, b"aag 0 0 0 1 0\n0\n", result, work);
        }
    }
    for _ in 0..texts {
        let text = random_text(&mut random);
        let result = nearly(&mut random, 262_144);
        let work = nearly(&mut random, 196_608);
        compare_import(&mut tally, &text, result, work);
    }
    tally
}

/// A length, sometimes one off.
fn nearly(random: &mut Random, length: usize) -> usize {
    match random.below(24) {
        0 => length + 1,
        1 => length.saturating_sub(1),
        _ => length,
    }
}

fn values(random: &mut Random, length: usize) -> Vec<u8> {
    let count = nearly(random, length);
    let mut values = random.bits(count);
    if count > 0 && random.one_in(24) {
        values[random.below(count)] = 2;
    }
    values
}

/// What Run is called with, apart from result and work.
struct Given<'a> {
    file: &'a [u8],
    steps: usize,
    choices: Vec<u8>,
    inputs: Vec<u8>,
}

/// Result and work of so many bytes.
fn compare_run(tally: &mut Tally, given: &Given, result: usize, work: usize) {
    let Given { file, steps, choices, inputs } = given;
    let [mut mine, mut others] = [(); 2].map(|_| (vec![0xA5; result], vec![0x5A; work]));
    let ours = library::run(file, *steps as u32, choices, inputs, &mut mine.0, &mut mine.1);
    let other = twin::run(file, *steps as u32, choices, inputs, &mut others.0, &mut others.1);
    tally.add(&other, ours == other && mine == others, || {
        let parts = [mine.0 == others.0, mine.1 == others.1];
        format!("Run {ours:?}, twin {other:?}, {steps} steps; result, work same: {parts:?}")
    });
}

/// Unknown registers, inputs and outputs; one of each where the file is refused.
fn value_counts(file: &[u8]) -> [usize; 3] {
    match twin::count(file) {
        Ok(counts) => [counts.unknown, counts.inputs, counts.outputs].map(|n| n as usize),
        Err(_) => [1, 1, 1],
    }
}

fn compare_runs(files: usize) -> Tally {
    let mut random = Random(2);
    let mut tally = Tally::default();
    for rows in [8064, 8065, 32_256] {
        let file = &encode(&edges::netlist_of(&mut random, rows));
        let [unknown, inputs, outputs] = value_counts(file);
        let (choices, inputs) = (random.bits(unknown), random.bits(5 * inputs));
        let given = Given { file, steps: 5, choices, inputs };
        for work in WORKS {
            compare_run(&mut tally, &given, 5 * outputs, work);
        }
        compare_run(&mut tally, &given, 5 * outputs - 1, 65_536);
    }
    for _ in 0..files {
        let most = most_rows(&mut random, 20, 400);
        let file = &random_file(&mut random, most, true);
        let [unknown, inputs, outputs] = value_counts(file);
        let long = most == 400 && random.one_in(40);
        let steps = if long { 4096 + random.below(2) } else { random.below(20) };
        let choices = values(&mut random, unknown);
        let inputs = values(&mut random, steps * inputs);
        let result = nearly(&mut random, steps * outputs);
        let work = nearly(&mut random, row_work(file));
        compare_run(&mut tally, &Given { file, steps, choices, inputs }, result, work);
    }
    tally
}

const UNSET: Clock = Clock { label: 0xA5A5, period: 0xA5, word: 0xA5, ones: 0xA5A5_A5A5 };

fn compare_fold(tally: &mut Tally, random: &mut Random, file: &[u8], wish: u32) {
    let result = vec![0xA5; nearly(random, 65_536)];
    let work = vec![0x5A; nearly(random, 49_152)];
    let clocks = vec![UNSET; nearly(random, 256)];
    let [mut mine, mut others] =
        [(result.clone(), work.clone(), clocks.clone()), (result, work, clocks)];
    let ours = library::fold(file, wish, &mut mine.0, &mut mine.1, &mut mine.2);
    let other = twin::fold(file, wish, &mut others.0, &mut others.1, &mut others.2);
    let same = ours == other && mine == others;
    tally.add(&other, same, || {
        let parts = [mine.0 == others.0, mine.1 == others.1, mine.2 == others.2];
        format!("Fold {ours:?}, twin {other:?}, wish {wish}; result, work, clocks same: {parts:?}")
    });
}

/// A file to fold, and a wish.
fn random_fold(random: &mut Random) -> (Vec<u8>, u32) {
    let most = if random.one_in(8) { 1300 } else { 400 };
    let phases = random.one_in(8);
    let file = random_file(random, most, phases);
    let wish = if random.one_in(2) { 0 } else { random.below(10) as u32 };
    (file, wish)
}

fn compare_folds(files: usize, designs: &[(String, Vec<u8>)]) -> Tally {
    let mut random = Random(3);
    let mut tally = Tally::default();
    for (_, file) in designs {
        for wish in 0..=9 {
            compare_fold(&mut tally, &mut random, file, wish);
        }
    }
    for rows in [8065, 32_256, 32_257] {
        let file = encode(&edges::netlist_of(&mut random, rows));
        compare_fold(&mut tally, &mut random, &file, 0);
    }
    for _ in 0..files {
        let (file, wish) = random_fold(&mut random);
        compare_fold(&mut tally, &mut random, &file, wish);
    }
    tally
}

/// One to six groups, and sometimes a number at or past a limit.
fn any_groups(random: &mut Random, sizes: &TraceSizes) -> usize {
    let few = sizes.phases * sizes.inputs < 500;
    match random.below(24) {
        0 => 0,
        1 => 513,
        2 if few => 512,
        3 => u32::MAX as usize,
        _ => 1 + random.below(6),
    }
}

/// A phase, and sometimes one that is not there.
fn any_phase(random: &mut Random, phases: usize) -> usize {
    match random.below(24) {
        0 => phases,
        1 => u32::MAX as usize,
        2..=5 => phases - 1,
        _ => random.below(phases),
    }
}

/// Lists of the right lengths, if there may be so many groups; memory and lists are sometimes one off.
fn compare_trace(tally: &mut Tally, random: &mut Random, file: &[u8], wish: u32) {
    let none = TraceSizes { phases: 1, chosen: 0, given: 1, unknown: 0, inputs: 1 };
    let sizes = TraceSizes::of(file, wish).unwrap_or(none);
    let (groups, phase) = (any_groups(random, &sizes), any_phase(random, sizes.phases));
    let choices = values(random, sizes.chosen);
    let inputs = values(random, groups.min(513) * sizes.given);
    let size = sizes.bytes(groups.min(513), phase.min(8));
    let result = vec![0xA5; nearly(random, 65_536)];
    let work = vec![0x5A; nearly(random, 49_152)];
    let trace = vec![0x3C; nearly(random, size) + 100 * random.below(2)];
    let [mut mine, mut others] =
        [(result.clone(), work.clone(), trace.clone()), (result, work, trace)];
    let last = [groups as u32, phase as u32];
    let (r, w, t) = (&mut mine.0, &mut mine.1, &mut mine.2);
    let ours = library::trace(file, wish, last, &choices, &inputs, r, w, t);
    let (r, w, t) = (&mut others.0, &mut others.1, &mut others.2);
    let other = twin::trace(file, wish, last, &choices, &inputs, r, w, t);
    tally.add(&other, ours == other && mine == others, || {
        let parts = [mine.0 == others.0, mine.1 == others.1, mine.2 == others.2];
        format!("Trace {ours:?}, twin {other:?}, {last:?}; result, work, trace same: {parts:?}")
    });
}

fn compare_traces(files: usize, designs: &[(String, Vec<u8>)]) -> Tally {
    let mut random = Random(22);
    let mut tally = Tally::default();
    for (_, file) in designs {
        for wish in 0..=9 {
            compare_trace(&mut tally, &mut random, file, wish);
        }
    }
    for _ in 0..files {
        let (file, wish) = random_fold(&mut random);
        compare_trace(&mut tally, &mut random, &file, wish);
    }
    tally
}

/// The scope paper's sample, and its fold.
fn sample_is_right() -> bool {
    let sample = cases::sample();
    let folded = encode(&[
        constant(),
        register(0, 6, 1),
        register(0, 2, 2),
        input(0, 1),
        output(4, 0, 0),
        output(2, 0, 1),
    ]);
    let numbers = Folded { stem: 3, cycle: 2, phases: 2, used: 1, before: 8, after: 6 };
    let clock = Clock { label: 0, period: 2, word: 2, ones: 1 };
    [library::fold, twin::fold].iter().all(|fold| {
        let (mut result, mut work, mut clocks) =
            (vec![1; 65_536], vec![1; 49_152], vec![UNSET; 256]);
        let answer = fold(&sample, 0, &mut result, &mut work, &mut clocks);
        let rest_is_zero = result[folded.len()..].iter().chain(&work).all(|&byte| byte == 0);
        let listed = clocks[0] == clock && clocks[1..].iter().all(|&entry| entry == UNSET);
        answer == Ok(numbers) && result.starts_with(&folded) && rest_is_zero && listed
    })
}

/// Compares all operations; answers the number of differences.
pub fn compare_all(designs: &[(String, Vec<u8>)]) -> usize {
    let [checks, counts, shows] = compare_checks(10_000);
    let sorts = compare_sorts(4_000);
    let imports = compare_imports(10_000);
    let runs = compare_runs(4_000);
    let folds = compare_folds(6_000, designs);
    let traces = compare_traces(6_000, designs);
    let all = [
        ("Check", checks),
        ("Count", counts),
        ("Show", shows),
        ("Sort", sorts),
        ("Import", imports),
        ("Run", runs),
        ("Fold", folds),
        ("Trace", traces),
    ];
    for (name, tally) in &all {
        tally.print(name);
    }
    let sample = sample_is_right();
    println!(
        "The scope paper's sample is folded {} by both.",
        if sample { "right" } else { "NOT right" }
    );
    all.iter().map(|(_, tally)| tally.differences).sum::<usize>() + usize::from(!sample)
}
