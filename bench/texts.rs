//! Makes AIGER texts: seeded random ones, damaged ones, and such as are hard to refuse.

use crate::aiger::{write_text, Aiger};
use crate::netlist::Random;
use std::collections::HashSet;

/// A long text has at most so many bytes.
const LONG: usize = 1 << 20;

/// The largest variable that a literal may have.
const LARGEST: usize = 2_147_483_647;

/// How many lines of each sort a text has.
#[derive(Clone, Copy)]
pub struct Counts {
    pub inputs: usize,
    pub latches: usize,
    pub outputs: usize,
    pub gates: usize,
}

impl Counts {
    /// Of eight nodes one is an input, one a latch and six are gates; of a hundred rows one is an output.
    pub fn of_rows(rows: usize) -> Counts {
        let outputs = (rows / 100).max(1);
        let nodes = rows - 1 - outputs;
        let [inputs, latches] = [nodes / 8; 2];
        Counts { inputs, latches, outputs, gates: nodes - inputs - latches }
    }

    /// The constant among them.
    pub fn nodes(self) -> usize {
        1 + self.inputs + self.latches + self.gates
    }
}

/// Any netlist whose gates name earlier nodes.
pub fn random_aiger(random: &mut Random, counts: Counts) -> Aiger {
    let Counts { inputs, latches, outputs, gates } = counts;
    let literals = 2 * counts.nodes();
    let first = 1 + inputs + latches;
    let latch = |random: &mut Random| (random.below(literals), random.below(3));
    let gate = |random: &mut Random, node: usize| (random.below(2 * node), random.below(2 * node));
    Aiger {
        inputs,
        latches: (0..latches).map(|_| latch(random)).collect(),
        outputs: (0..outputs).map(|_| random.below(literals)).collect(),
        ands: (0..gates).map(|at| gate(random, first + at)).collect(),
    }
}

/// How the variables of the nodes are chosen.
#[derive(Clone, Copy)]
pub enum Style {
    CountingUp,
    /// Multiples of 3.
    Gaps,
    Shuffled,
    /// Any of all variables, the greatest first.
    Descending,
    /// Any of all variables.
    Sparse,
    /// They agree in as many of their lowest bits as there is room for.
    LowBitsAgree,
    /// The first half counts up.
    HalfShuffled,
}

pub const STYLES: [Style; 7] = [
    Style::CountingUp,
    Style::Gaps,
    Style::Shuffled,
    Style::Descending,
    Style::Sparse,
    Style::LowBitsAgree,
    Style::HalfShuffled,
];

/// So many different variables of all that there are.
fn any_variables(random: &mut Random, count: usize) -> Vec<usize> {
    let mut seen = HashSet::new();
    let mut draws = std::iter::repeat_with(|| 1 + random.below(LARGEST));
    draws.by_ref().filter(|&variable| seen.insert(variable)).take(count).collect()
}

/// The variable of each node, the constant's first.
pub fn variables(random: &mut Random, style: Style, nodes: usize) -> Vec<usize> {
    let mut list: Vec<usize> = (1..nodes).collect();
    match style {
        Style::CountingUp => {}
        Style::Gaps => list.iter_mut().for_each(|variable| *variable *= 3),
        Style::Shuffled => random.shuffle(&mut list),
        Style::Descending => {
            list = any_variables(random, nodes - 1);
            list.sort_unstable_by(|a, b| b.cmp(a));
        }
        Style::Sparse => list = any_variables(random, nodes - 1),
        Style::LowBitsAgree => {
            let step = 1 << (LARGEST / nodes).ilog2();
            random.shuffle(&mut list);
            list.iter_mut().for_each(|variable| *variable *= step);
        }
        Style::HalfShuffled => random.shuffle(&mut list[nodes / 2..]),
    }
    list.insert(0, 0);
    list
}

/// A text of so many rows.
pub fn text_of(seed: u64, rows: usize, style: Style) -> Vec<u8> {
    let mut random = Random(seed);
    let counts = Counts::of_rows(rows);
    let aiger = random_aiger(&mut random, counts);
    write_text(&aiger, &variables(&mut random, style, counts.nodes()))
}

/// Latches alone, shuffled multiples of 4.
pub fn shuffled_latches(rows: usize) -> Vec<u8> {
    let counts = Counts { inputs: 0, latches: rows - 2, outputs: 1, gates: 0 };
    let mut random = Random(18);
    let aiger = random_aiger(&mut random, counts);
    let mut variables = variables(&mut random, Style::Shuffled, counts.nodes());
    variables.iter_mut().for_each(|variable| *variable *= 4);
    write_text(&aiger, &variables)
}

/// A chain of gates, the last of them in the first line.
pub fn reversed_chain(rows: usize) -> Vec<u8> {
    let gates = rows - 3;
    let next = |at: usize| if at + 1 == gates { 2 } else { 2 * (at + 3) + 1 };
    let ands = (0..gates).map(|at| (next(at), 2)).collect();
    let aiger = Aiger { inputs: 1, latches: Vec::new(), outputs: vec![4], ands };
    let variables: Vec<usize> = [0, 1].into_iter().chain((2..gates + 2).rev()).collect();
    write_text(&aiger, &variables)
}

/// A chain of gates whose lines stand in the upper and in the lower half in turns, anywhere there; each
/// also names any earlier gate, and the variables agree in their lowest bits.
pub fn chain_in_two_halves(rows: usize) -> Vec<u8> {
    let gates = rows - 3;
    let mut random = Random(21);
    let places = random.two_halves(gates);
    let node = |at: usize| if at == 0 { 1 } else { 2 + places[at - 1] };
    let mut ands = vec![(0, 0); gates];
    for (at, &place) in places.iter().enumerate() {
        ands[place] = (2 * node(random.below(at + 1)), 2 * node(at) + 1);
    }
    let outputs = vec![2 * node(gates)];
    let variables = variables(&mut random, Style::LowBitsAgree, gates + 2);
    write_text(&Aiger { inputs: 1, latches: Vec::new(), outputs, ands }, &variables)
}

/// Gates that count up.
pub fn many_gates(gates: usize) -> Vec<u8> {
    let counts = Counts { inputs: 1, latches: 0, outputs: 1, gates };
    let aiger = random_aiger(&mut Random(11), counts);
    write_text(&aiger, &variables(&mut Random(12), Style::CountingUp, counts.nodes()))
}

// ---- long texts that are refused ----

/// Inputs of these variables, and outputs of these literals.
fn inputs_alone(mut variables: Vec<usize>, outputs: Vec<usize>) -> Vec<u8> {
    variables.insert(0, 0);
    let inputs = variables.len() - 1;
    let text = write_text(&Aiger { inputs, latches: vec![], outputs, ands: vec![] }, &variables);
    assert!(text.len() <= LONG);
    text
}

/// So many inputs that the text is long.
fn long_inputs(style: Style) -> Vec<usize> {
    let count = match style {
        Style::Sparse | Style::LowBitsAgree => LONG / 11 - 5,
        _ => 156_000,
    };
    variables(&mut Random(13), style, count + 1).split_off(1)
}

pub fn long_definitions(style: Style) -> Vec<u8> {
    inputs_alone(long_inputs(style), vec![2])
}

/// The last input again.
pub fn defined_twice() -> Vec<u8> {
    let mut inputs = long_inputs(Style::Shuffled);
    let last = inputs.len() - 1;
    inputs[last] = inputs[last - 1];
    inputs_alone(inputs, vec![2])
}

/// The last line uses what no line defines.
pub fn undefined_at_the_end() -> Vec<u8> {
    let mut text = long_definitions(Style::Shuffled);
    text.truncate(text[..text.len() - 1].iter().rposition(|&byte| byte == b'\n').unwrap() + 1);
    text.extend(b"4294967295\n");
    text
}

pub fn long_gates(style: Style) -> Vec<u8> {
    let rows = match style {
        Style::Sparse | Style::LowBitsAgree => 35_000,
        _ => 64_000,
    };
    let text = text_of(14, rows, style);
    assert!(text.len() <= LONG);
    text
}

/// One number.
pub fn digits_alone() -> Vec<u8> {
    [&b"aag "[..], &[b'1'; LONG - 4]].concat()
}

/// The header counts as many lines as it can.
pub fn counted_lines() -> Vec<u8> {
    let most = u32::MAX;
    let mut text = format!("aag {most} {most} {most} {most} {most}\n").into_bytes();
    for variable in 1..150_000 {
        text.extend(format!("{}\n", 2 * variable).bytes());
    }
    assert!(text.len() <= LONG);
    text
}

/// As many entries as a tree of names may have.
const WINDOW: usize = 49_152;

/// Long ways in every tree of names: each begins with variables that agree with 0 or 1 in their lowest
/// bit, two bits, three and so on; the outputs, in the shortest lines there are, name these two.
pub fn longest_ways() -> Vec<u8> {
    let (inputs, outputs) = (WINDOW + 100, 378_000);
    let mut seen = HashSet::from([0, 1]);
    let mut path = |window: usize| -> Vec<usize> {
        let all = (0..62).map(|at| ((2 * window + 1) << (at / 2)) ^ (at % 2));
        all.filter(|&variable| variable <= LARGEST && seen.insert(variable)).collect()
    };
    let paths: Vec<_> = (0..inputs / WINDOW + 1).map(&mut path).collect();
    let mut others = (2..).filter(|variable| !seen.contains(variable));
    let mut list = Vec::new();
    for path in paths {
        let window = list.len() + WINDOW;
        list.extend(path);
        list.extend(others.by_ref().take(window - list.len()));
    }
    list.truncate(inputs - 1);
    list.push(1);
    let mut random = Random(17);
    let mut output = || 2 * inputs * random.below(2) + random.below(2);
    inputs_alone(list, (0..outputs).map(|_| output()).collect())
}

// ---- random texts ----

/// The gates in any order.
fn mix_gates(random: &mut Random, aiger: &mut Aiger) {
    let first = 1 + aiger.inputs + aiger.latches.len();
    let mut places: Vec<usize> = (0..aiger.ands.len()).collect();
    random.shuffle(&mut places);
    let moved = |literal: &mut usize| {
        if *literal / 2 >= first {
            *literal = 2 * (first + places[*literal / 2 - first]) + *literal % 2;
        }
    };
    aiger.latches.iter_mut().for_each(|(next, _)| moved(next));
    aiger.outputs.iter_mut().for_each(moved);
    let mut ands = aiger.ands.clone();
    for (&place, (mut a, mut b)) in places.iter().zip(aiger.ands.drain(..)) {
        moved(&mut a);
        moved(&mut b);
        ands[place] = (a, b);
    }
    aiger.ands = ands;
}

/// Some operands of gates are drawn again from all literals, so that there may be loops.
fn redraw(random: &mut Random, aiger: &mut Aiger, literals: usize) {
    let gates = aiger.ands.len();
    for _ in 0..random.below(4).min(gates) {
        aiger.ands[random.below(gates)].1 = random.below(literals);
    }
}

/// One byte changed, left out or put in, the end left out, or a number in place of the next line.
fn damage(random: &mut Random, text: &mut Vec<u8>) {
    const BYTES: &[u8] = b"0123456789 \n\r\t-ac\x00\xff";
    let at = random.below(text.len());
    let byte = BYTES[random.below(BYTES.len())];
    match random.below(6) {
        0 | 1 => text[at] = byte,
        2 => drop(text.remove(at)),
        3 => text.insert(at, byte),
        4 => text.truncate(at),
        _ => {
            let line =
                text[at..].iter().position(|&byte| byte == b'\n').map_or(at, |end| at + end + 1);
            let end = text[line..].iter().position(|&byte| b" \n".contains(&byte)).unwrap_or(0);
            let numbers =
                ["0", "1", "2", "3", "4294967294", "4294967295", "4294967296", "42949672950"];
            text.splice(line..line + end, numbers[random.below(numbers.len())].bytes());
        }
    }
}

/// M is a little less.
fn lower_maximum(random: &mut Random, text: &mut Vec<u8>) {
    let end = 4 + text[4..].iter().position(|&byte| byte == b' ').unwrap();
    let most: usize = std::str::from_utf8(&text[4..end]).unwrap().parse().unwrap();
    text.splice(4..end, most.saturating_sub(1 + random.below(2)).to_string().bytes());
}

/// A text of some rows, of some thousands, or of about as many as a file has, or more; right or not.
pub fn random_text(random: &mut Random) -> Vec<u8> {
    let most = match random.below(400) {
        0 => 16_000,
        1..=9 => 5000,
        _ => 20,
    };
    let mut count = || random.below(most);
    let counts = Counts { inputs: count(), latches: count(), outputs: 1 + count(), gates: count() };
    let mut nodes = counts.nodes();
    let mut aiger = random_aiger(random, counts);
    let style = STYLES[random.below(STYLES.len())];
    let mut names = variables(random, style, nodes + 1);
    match random.below(12) {
        0 => aiger.outputs.clear(),
        1 => names[1 + random.below(nodes)] = names[1 + random.below(nodes)],
        2 => nodes += 1,
        _ => {}
    }
    if random.one_in(2) {
        mix_gates(random, &mut aiger);
    }
    if random.one_in(2) {
        redraw(random, &mut aiger, 2 * nodes);
    }
    let mut text = write_text(&aiger, &names);
    if random.one_in(8) {
        lower_maximum(random, &mut text);
    }
    if random.one_in(2) {
        text.extend(b"i0 x\nc\nmade at random");
    }
    if random.one_in(3) {
        damage(random, &mut text);
    }
    text
}
