//! A design, its fold, and another tool's fold of it, run side by side on the same random values.
//! Registers that reset to X start as 0.

use crate::aiger::{self, Aiger};
use crate::library;
use crate::netlist::{decode, Random, Row};
use crate::twin::{Clock, Folded};

const MOST_STEPS: usize = 4096;

/// What each shows, in the order of the design's steps and outputs.
pub struct Comparison {
    outputs: usize,
    design: Vec<u8>,
    ours: Vec<u8>,
    /// None if the inputs and outputs are not those of N phases.
    theirs: Option<Vec<u8>>,
}

impl Comparison {
    fn differing(&self, other: &[u8]) -> Vec<usize> {
        let [design, other] = [&self.design[..], other].map(|shown| shown.chunks(self.outputs));
        let steps = design.zip(other).enumerate();
        steps.filter(|(_, (a, b))| a != b).map(|(step, _)| step).collect()
    }

    /// In which steps Fold's result differs from the design.
    pub fn ours_differ(&self) -> Vec<usize> {
        self.differing(&self.ours)
    }

    pub fn theirs_differ(&self) -> Option<Vec<usize>> {
        self.theirs.as_ref().map(|shown| self.differing(shown))
    }

    /// What the design, Fold's result and the other's show in a step.
    pub fn shown_in(&self, step: usize) -> [String; 3] {
        let theirs = self.theirs.as_deref().unwrap_or(&self.design);
        [&self.design, &self.ours, theirs].map(|shown| {
            let bits = &shown[step * self.outputs..][..self.outputs];
            bits.iter().map(u8::to_string).collect()
        })
    }
}

/// What Fold answers, and the folded file.
pub fn fold(file: &[u8], wish: u32) -> (Folded, Vec<u8>) {
    let [mut result, mut work] = [vec![0; 65_536], vec![0; 49_152]];
    let mut clocks = [Clock { label: 0, period: 0, word: 0, ones: 0 }; 256];
    let told = library::fold(file, wish, &mut result, &mut work, &mut clocks).unwrap();
    result.truncate(512 * told.after.div_ceil(63) as usize);
    (told, result)
}

/// What the outputs show, step after step.
fn run(file: &[u8], given: &[u8], steps: usize) -> Vec<u8> {
    let counts = library::count(file).unwrap();
    let mut shown = vec![0; steps * counts.outputs as usize];
    let choices = vec![0; counts.unknown as usize];
    library::run(file, steps as u32, &choices, given, &mut shown, &mut [0; 16_384]).unwrap();
    shown
}

fn labels(rows: &[Row], kind: u8) -> Vec<u16> {
    let label = |row: &Row| if kind == 1 { row.a } else { row.b };
    rows.iter().filter(|row| row.kind == kind).map(label).collect()
}

/// What the fold shows, in the order of the design's steps and outputs.
fn run_fold(design: &[Row], folded: &[u8], phases: usize, given: &[u8], steps: usize) -> Vec<u8> {
    let rows = decode(folded);
    let (inputs, outputs) = (labels(design, 1), labels(design, 6));
    let place = |labels: &[u16], group: usize, phase: u16, label: u16| {
        let number = labels.iter().position(|&other| other == label).unwrap();
        (group * phases + usize::from(phase)) * labels.len() + number
    };
    let groups = steps / phases;
    let mut values = Vec::new();
    for group in 0..groups {
        let ports = rows.iter().filter(|row| row.kind == 1);
        values.extend(ports.map(|row| given[place(&inputs, group, row.b, row.a)]));
    }
    let mut shown = run(folded, &values, groups).into_iter();
    let mut ordered = vec![0; steps * outputs.len()];
    for group in 0..groups {
        for row in rows.iter().filter(|row| row.kind == 6) {
            ordered[place(&outputs, group, row.c, row.b)] = shown.next().unwrap();
        }
    }
    ordered
}

/// Runs all three over as many whole groups of phases as Run has steps for.
pub fn compare(file: &[u8], folded: &[u8], phases: usize, other: &Aiger) -> Comparison {
    let rows = decode(file);
    let (inputs, outputs) = (labels(&rows, 1).len(), labels(&rows, 6).len());
    let groups = MOST_STEPS / phases;
    let steps = groups * phases;
    let given = Random(7).bits(steps * inputs);
    let fits = other.inputs == phases * inputs && other.outputs.len() == phases * outputs;
    Comparison {
        outputs,
        design: run(file, &given, steps),
        ours: run_fold(&rows, folded, phases, &given, steps),
        theirs: fits.then(|| aiger::run(other, &given, groups)),
    }
}
