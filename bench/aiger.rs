//! AIGER: made from a netlist, written in binary or as text, read from binary, and run.

use crate::netlist::Row;
use std::io::Write;

/// Inputs are variables 1 and up, then the latches, then the ANDs.
pub struct Aiger {
    pub inputs: usize,
    /// Next value and reset; a reset that is neither 0 nor 1 is unknown.
    pub latches: Vec<(usize, usize)>,
    pub outputs: Vec<usize>,
    /// Operands, the larger first.
    pub ands: Vec<(usize, usize)>,
}

impl Aiger {
    /// A new AND's literal.
    fn and(&mut self, a: usize, b: usize) -> usize {
        self.ands.push((a.max(b), a.min(b)));
        2 * (self.inputs + self.latches.len() + self.ands.len())
    }

    /// `b` where `s` is 1, else `c`: three ANDs.
    fn mux(&mut self, s: usize, b: usize, c: usize) -> usize {
        let (then, other) = (self.and(s, b), self.and(s ^ 1, c));
        self.and(then ^ 1, other ^ 1) ^ 1
    }
}

fn image(literals: &[usize], literal: u16) -> usize {
    literals[usize::from(literal / 2)] ^ usize::from(literal & 1)
}

/// A netlist's inputs, registers and outputs in row order; XOR and MUX are made of ANDs.
pub fn from_rows(rows: &[Row]) -> Aiger {
    let places = |kind: u8| (0..rows.len()).filter(move |&at| rows[at].kind == kind);
    let mut literals = vec![0; rows.len()];
    for (number, at) in places(1).chain(places(2)).enumerate() {
        literals[at] = 2 * (number + 1);
    }
    let reset = |at: usize| [0, 1, literals[at]][usize::from(rows[at].reset)];
    let latches = places(2).map(|at| (0, reset(at))).collect();
    let mut aiger =
        Aiger { inputs: places(1).count(), latches, outputs: Vec::new(), ands: Vec::new() };
    for (at, row) in rows.iter().enumerate() {
        let of = |literal: u16| image(&literals, literal);
        match row.kind {
            3 => literals[at] = aiger.and(of(row.a), of(row.b)),
            4 => literals[at] = aiger.mux(of(row.a), of(row.b) ^ 1, of(row.b)),
            5 => literals[at] = aiger.mux(of(row.a), of(row.b), of(row.c)),
            6 => aiger.outputs.push(of(row.a)),
            _ => {}
        }
    }
    for (latch, at) in aiger.latches.iter_mut().zip(places(2)) {
        latch.0 = image(&literals, rows[at].a);
    }
    aiger
}

/// Seven bits a byte, the lowest first.
fn push_number(bytes: &mut Vec<u8>, mut number: usize) {
    while number >= 128 {
        bytes.push(number as u8 | 128);
        number >>= 7;
    }
    bytes.push(number as u8);
}

pub fn write(aiger: &Aiger) -> Vec<u8> {
    let Aiger { inputs, latches, outputs, ands } = aiger;
    let [l, o, a] = [latches.len(), outputs.len(), ands.len()];
    let mut bytes = format!("aig {} {inputs} {l} {o} {a}\n", inputs + l + a).into_bytes();
    for (next, reset) in latches {
        bytes.extend(format!("{next} {reset}\n").bytes());
    }
    for output in outputs {
        bytes.extend(format!("{output}\n").bytes());
    }
    for (number, &(larger, smaller)) in ands.iter().enumerate() {
        push_number(&mut bytes, 2 * (inputs + l + number + 1) - larger);
        push_number(&mut bytes, larger - smaller);
    }
    bytes
}

/// ASCII AIGER, where node n is variable `variables[n]`; every other reset of 0 is left out.
pub fn write_text(aiger: &Aiger, variables: &[usize]) -> Vec<u8> {
    let Aiger { inputs, latches, outputs, ands } = aiger;
    let [l, o, a] = [latches.len(), outputs.len(), ands.len()];
    let most = variables.iter().max().unwrap();
    let literal = |literal: usize| 2 * variables[literal / 2] + literal % 2;
    let mut text = format!("aag {most} {inputs} {l} {o} {a}\n").into_bytes();
    let mut definitions = variables[1..].iter().map(|variable| 2 * variable);
    for definition in definitions.by_ref().take(*inputs) {
        writeln!(text, "{definition}").unwrap();
    }
    for ((at, &(next, reset)), latch) in latches.iter().enumerate().zip(definitions.by_ref()) {
        write!(text, "{latch} {}", literal(next)).unwrap();
        match reset {
            0 if at % 2 == 0 => writeln!(text),
            0 | 1 => writeln!(text, " {reset}"),
            _ => writeln!(text, " {latch}"),
        }
        .unwrap();
    }
    for &output in outputs {
        writeln!(text, "{}", literal(output)).unwrap();
    }
    for (&(a, b), gate) in ands.iter().zip(definitions) {
        writeln!(text, "{gate} {} {}", literal(a), literal(b)).unwrap();
    }
    text
}

/// The numbers of the next line, after words that are none.
fn line(bytes: &mut std::slice::Iter<u8>) -> Vec<usize> {
    let text: Vec<u8> = bytes.by_ref().copied().take_while(|&byte| byte != b'\n').collect();
    String::from_utf8(text).unwrap().split(' ').filter_map(|word| word.parse().ok()).collect()
}

fn number(bytes: &mut std::slice::Iter<u8>) -> usize {
    let (mut number, mut shift) = (0, 0);
    loop {
        let byte = usize::from(*bytes.next().expect("an AND"));
        number |= (byte & 127) << shift;
        shift += 7;
        if byte < 128 {
            return number;
        }
    }
}

/// Outputs and bad states are taken alike: ABC writes either.
pub fn read(file: &[u8]) -> Aiger {
    let bytes = &mut file.iter();
    let head = line(bytes);
    let [inputs, latches, ands] = [head[1], head[2], head[4]];
    let outputs = head[3] + head.get(5).unwrap_or(&0);
    let latch = |words: Vec<usize>| (words[0], *words.get(1).unwrap_or(&0));
    let latches: Vec<_> = (0..latches).map(|_| latch(line(bytes))).collect();
    let outputs = (0..outputs).map(|_| line(bytes)[0]).collect();
    let first = inputs + latches.len() + 1;
    let mut and = |at: usize| {
        let larger = 2 * (first + at) - number(bytes);
        (larger, larger - number(bytes))
    };
    let ands = (0..ands).map(&mut and).collect();
    Aiger { inputs, latches, outputs, ands }
}

/// The outputs, step after step; a latch whose reset is unknown starts as 0.
pub fn run(aiger: &Aiger, given: &[u8], steps: usize) -> Vec<u8> {
    let Aiger { inputs, latches, outputs, ands } = aiger;
    let mut values = vec![0u8; 1 + inputs + latches.len() + ands.len()];
    let value = |values: &[u8], literal: usize| values[literal / 2] ^ (literal & 1) as u8;
    let mut state: Vec<u8> = latches.iter().map(|&(_, reset)| (reset == 1) as u8).collect();
    let mut shown = Vec::with_capacity(steps * outputs.len());
    for step in 0..steps {
        values[1..=*inputs].copy_from_slice(&given[step * inputs..][..*inputs]);
        values[1 + inputs..][..latches.len()].copy_from_slice(&state);
        for (at, &(a, b)) in ands.iter().enumerate() {
            values[1 + inputs + latches.len() + at] = value(&values, a) & value(&values, b);
        }
        shown.extend(outputs.iter().map(|&output| value(&values, output)));
        state = latches.iter().map(|&(next, _)| value(&values, next)).collect();
    }
    shown
}
