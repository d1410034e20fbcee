//! A plain Rust phase folder and importer, written from the scope paper and the change requests alone,
//! and a sorter by the same passes as the library's: the answers and the speed of the library are
//! compared with it. It allocates what it needs and clears `work` as the paper asks.

use std::collections::HashMap;

/// The number of the question that was answered no, and its place.
#[derive(Clone, Copy, PartialEq, Eq, Debug)]
pub struct Refusal {
    pub number: u32,
    pub place: u32,
}

#[derive(Clone, Copy, PartialEq, Eq, Debug)]
pub struct Counts {
    pub nodes: u32,
    pub inputs: u32,
    pub registers: u32,
    pub unknown: u32,
    pub outputs: u32,
}

#[derive(Clone, Copy, PartialEq, Eq, Debug)]
pub struct Folded {
    pub stem: u32,
    pub cycle: u32,
    pub phases: u32,
    pub used: u32,
    pub before: u32,
    pub after: u32,
}

#[repr(C)]
#[derive(Clone, Copy, PartialEq, Eq, Debug)]
pub struct Clock {
    pub label: u16,
    pub period: u8,
    pub word: u8,
    pub ones: u32,
}

const BLOCK: usize = 512;
const ROWS_A_BLOCK: usize = 63;
const MOST_BYTES: usize = 262_144;
const MOST_ROWS: usize = 32_256;

const CONSTANT: u8 = 0;
const INPUT: u8 = 1;
const REGISTER: u8 = 2;
const AND: u8 = 3;
const XOR: u8 = 4;
const MUX: u8 = 5;
const OUTPUT: u8 = 6;

#[derive(Clone, Copy)]
struct Row {
    kind: u8,
    reset: u8,
    a: u16,
    b: u16,
    c: u16,
}

fn refuse<T>(number: u32, place: usize) -> Result<T, Refusal> {
    Err(Refusal { number, place: place as u32 })
}

// ---- the file ----

fn decode(bytes: &[u8]) -> Row {
    let field = |at: usize| u16::from_le_bytes([bytes[at], bytes[at + 1]]);
    Row { kind: bytes[0], reset: bytes[1], a: field(2), b: field(4), c: field(6) }
}

/// The bytes of each row of a block, in order.
fn block_rows(block: &[u8]) -> std::slice::ChunksExact<'_, u8> {
    block[4..4 + 8 * usize::from(block[2])].chunks_exact(8)
}

/// All rows of a file.
fn decode_rows(file: &[u8]) -> Vec<Row> {
    let mut rows = Vec::with_capacity(row_count(file));
    for block in file.chunks_exact(BLOCK) {
        rows.extend(block_rows(block).map(decode));
    }
    rows
}

fn row_count(file: &[u8]) -> usize {
    let blocks = file.len() / BLOCK;
    ROWS_A_BLOCK * (blocks - 1) + file[BLOCK * (blocks - 1) + 2] as usize
}

fn kind_of(file: &[u8], row: usize) -> u8 {
    file[BLOCK * (row / ROWS_A_BLOCK) + 4 + 8 * (row % ROWS_A_BLOCK)]
}

fn word_sum(block: &[u8]) -> u32 {
    block
        .chunks_exact(4)
        .map(|word| u32::from_le_bytes([word[0], word[1], word[2], word[3]]))
        .fold(0, u32::wrapping_add)
}

/// Questions 2 to 5.
fn check_block(block: &[u8], index: usize, last: bool) -> Result<(), Refusal> {
    if word_sum(block) != u32::MAX {
        return refuse(2, index);
    }
    let number = u16::from_le_bytes([block[1], block[3]]);
    if block[0] != if last { 2 } else { 1 } || usize::from(number) != index {
        return refuse(3, index);
    }
    let rows = block[2] as usize;
    let least = if last { 1 } else { ROWS_A_BLOCK };
    if rows < least || rows > ROWS_A_BLOCK {
        return refuse(4, index);
    }
    if block[4 + 8 * rows..BLOCK - 4].iter().any(|&byte| byte != 0) {
        return refuse(5, index);
    }
    Ok(())
}

/// Labels seen so far: a short list for one block, a bit for each key for more.
enum Seen {
    Few(Vec<u32>),
    Many(Vec<u64>),
}

const KEYS: usize = 17 << 16;

impl Seen {
    fn new(rows: usize) -> Seen {
        if rows <= ROWS_A_BLOCK {
            Seen::Few(Vec::with_capacity(ROWS_A_BLOCK))
        } else {
            Seen::Many(vec![0; KEYS / 64])
        }
    }

    /// Adds a key; says whether it is new.
    fn add(&mut self, key: u32) -> bool {
        match self {
            Seen::Few(keys) => {
                let new = !keys.contains(&key);
                keys.push(key);
                new
            }
            Seen::Many(bits) => {
                let (word, bit) = (key as usize / 64, 1u64 << (key % 64));
                let new = bits[word] & bit == 0;
                bits[word] |= bit;
                new
            }
        }
    }
}

/// One number for kind, label and phase, if the row has a label.
fn label_key(row: Row) -> Option<u32> {
    match row.kind {
        INPUT => Some((u32::from(row.b) << 16) + u32::from(row.a)),
        OUTPUT => Some(((8 + u32::from(row.c)) << 16) + u32::from(row.b)),
        REGISTER => Some((16 << 16) + u32::from(row.b)),
        _ => None,
    }
}

/// Question 7.
fn fields_right(row: Row) -> bool {
    let Row { kind, reset, a, b, c } = row;
    match kind {
        CONSTANT => reset == 0 && a == 0 && b == 0 && c == 0,
        INPUT => reset == 0 && b <= 7 && c == 0,
        REGISTER => reset <= 2 && c == 0,
        AND | XOR => reset == 0 && c == 0,
        MUX => reset == 0,
        _ => reset == 0 && c <= 7,
    }
}

/// Which nodes a gate may name.
#[derive(Clone, Copy, PartialEq)]
enum Gates {
    InOrder,
    InAnyOrder,
}

/// Question 9.
fn literals_right(file: &[u8], rows: usize, index: usize, row: Row, gates: Gates) -> bool {
    let node = |literal: u16| usize::from(literal / 2);
    let any = |literal: u16| node(literal) < rows && kind_of(file, node(literal)) != OUTPUT;
    let operand = |literal: u16| match gates {
        Gates::InOrder => node(literal) < index,
        Gates::InAnyOrder => any(literal),
    };
    match row.kind {
        REGISTER | OUTPUT => any(row.a),
        AND | XOR => operand(row.a) && operand(row.b),
        MUX => operand(row.a) && operand(row.b) && operand(row.c),
        _ => true,
    }
}

/// Questions 6 to 9 of one row; `outputs` says whether an output came before, and is kept up.
fn check_row(
    file: &[u8],
    rows: usize,
    index: usize,
    row: Row,
    seen: &mut Seen,
    outputs: &mut bool,
    gates: Gates,
) -> Result<(), Refusal> {
    let output = row.kind == OUTPUT;
    if row.kind > OUTPUT || (row.kind == CONSTANT) != (index == 0) || (*outputs && !output) {
        return refuse(6, index);
    }
    *outputs |= output;
    if !fields_right(row) {
        return refuse(7, index);
    }
    if label_key(row).is_some_and(|key| !seen.add(key)) {
        return refuse(8, index);
    }
    if !literals_right(file, rows, index, row, gates) {
        return refuse(9, index);
    }
    Ok(())
}

/// Questions 6 to 10.
fn check_rows(file: &[u8], gates: Gates) -> Result<(), Refusal> {
    let rows = row_count(file);
    let mut seen = Seen::new(rows);
    let mut outputs = false;
    let mut index = 0;
    for block in file.chunks_exact(BLOCK) {
        for bytes in block_rows(block) {
            check_row(file, rows, index, decode(bytes), &mut seen, &mut outputs, gates)?;
            index += 1;
        }
    }
    if outputs {
        Ok(())
    } else {
        refuse(10, 0)
    }
}

/// Questions 1 to 10.
fn check_file(file: &[u8], gates: Gates) -> Result<(), Refusal> {
    if file.is_empty() || file.len() % BLOCK != 0 || file.len() > MOST_BYTES {
        return refuse(1, 0);
    }
    let blocks = file.len() / BLOCK;
    for (index, block) in file.chunks_exact(BLOCK).enumerate() {
        check_block(block, index, index + 1 == blocks)?;
    }
    check_rows(file, gates)
}

pub fn check(file: &[u8]) -> Result<(), Refusal> {
    check_file(file, Gates::InOrder)
}

fn count_rows(file: &[u8]) -> Counts {
    let mut of_kind = [0u32; 7];
    let mut unknown = 0;
    for bytes in file.chunks_exact(BLOCK).flat_map(block_rows) {
        of_kind[usize::from(bytes[0])] += 1;
        unknown += u32::from(bytes[1] == 2);
    }
    let rows: u32 = of_kind.iter().sum();
    let [_, inputs, registers, .., outputs] = of_kind;
    Counts { nodes: rows - outputs, inputs, registers, unknown, outputs }
}

pub fn count(file: &[u8]) -> Result<Counts, Refusal> {
    check(file)?;
    Ok(count_rows(file))
}

/// The row part of a block.
pub fn show(file: &[u8], block: u32) -> Result<&[u8], Refusal> {
    check(file)?;
    match file.chunks_exact(BLOCK).nth(block as usize) {
        Some(block) => Ok(&block[4..508]),
        None => refuse(21, 0),
    }
}

// ---- Run ----

fn value(values: &[u8], literal: u16) -> u8 {
    values[usize::from(literal / 2)] ^ (literal & 1) as u8
}

/// Where the rows of a kind stand.
fn places(rows: &[Row], kind: u8) -> Vec<usize> {
    (0..rows.len()).filter(|&i| rows[i].kind == kind).collect()
}

/// The work that Run and Sort ask for, by the file's rows.
fn least_work(rows: usize) -> usize {
    if rows > 8064 {
        65_536
    } else {
        16_384
    }
}

/// Questions 17 to 20.
fn run_questions(
    counts: Counts,
    steps: usize,
    choices: &[u8],
    inputs: &[u8],
    result: usize,
    work: usize,
) -> Result<(), Refusal> {
    if steps > 4096 {
        return refuse(17, 0);
    }
    if choices.len() != counts.unknown as usize || inputs.len() != steps * counts.inputs as usize {
        return refuse(18, 0);
    }
    if choices.iter().chain(inputs).any(|&v| v > 1) {
        return refuse(19, 0);
    }
    let rows = (counts.nodes + counts.outputs) as usize;
    if result < steps * counts.outputs as usize || work < least_work(rows) {
        return refuse(20, 0);
    }
    Ok(())
}

/// The gates' values, from the constant's, the inputs' and the registers'.
fn settle(nodes: &[Row], values: &mut [u8]) {
    for (i, row) in nodes.iter().enumerate() {
        values[i] = match row.kind {
            AND => value(values, row.a) & value(values, row.b),
            XOR => value(values, row.a) ^ value(values, row.b),
            MUX if value(values, row.a) == 1 => value(values, row.b),
            MUX => value(values, row.c),
            _ => continue,
        };
    }
}

fn simulate(
    file: &[u8],
    counts: Counts,
    steps: usize,
    choices: &[u8],
    inputs: &[u8],
    result: &mut [u8],
) {
    let rows = decode_rows(file);
    let (nodes, outputs) = rows.split_at(counts.nodes as usize);
    let (input_rows, registers) = (places(nodes, INPUT), places(nodes, REGISTER));
    let mut values = vec![0u8; nodes.len()];
    let mut choice = choices.iter();
    for &r in &registers {
        values[r] = if nodes[r].reset == 2 { *choice.next().unwrap() } else { nodes[r].reset };
    }
    let mut next = vec![0u8; registers.len()];
    for step in 0..steps {
        let given = &inputs[step * input_rows.len()..][..input_rows.len()];
        for (&i, &v) in input_rows.iter().zip(given) {
            values[i] = v;
        }
        settle(nodes, &mut values);
        let shown = &mut result[step * outputs.len()..][..outputs.len()];
        for (byte, output) in shown.iter_mut().zip(outputs) {
            *byte = value(&values, output.a);
        }
        for (v, &r) in next.iter_mut().zip(&registers) {
            *v = value(&values, nodes[r].a);
        }
        for (&v, &r) in next.iter().zip(&registers) {
            values[r] = v;
        }
    }
}

pub fn run(
    file: &[u8],
    steps: u32,
    choices: &[u8],
    inputs: &[u8],
    result: &mut [u8],
    work: &mut [u8],
) -> Result<(), Refusal> {
    work.fill(0);
    let counts = count(file)?;
    let steps = steps as usize;
    run_questions(counts, steps, choices, inputs, result.len(), work.len())?;
    simulate(file, counts, steps, choices, inputs, result);
    Ok(())
}

// ---- the lasso and the clocks ----

const X: u8 = 2;
const NOT3: [u8; 3] = [1, 0, 2];
const AND3: [[u8; 3]; 3] = [[0, 0, 0], [0, 1, 2], [0, 2, 2]];
const XOR3: [[u8; 3]; 3] = [[0, 1, 2], [1, 0, 2], [2, 2, 2]];

fn value3(values: &[u8], literal: u16) -> u8 {
    let v = values[usize::from(literal / 2)];
    if literal & 1 == 0 {
        v
    } else {
        NOT3[usize::from(v)]
    }
}

/// The gates' three-valued values; every input is X.
fn settle3(nodes: &[Row], values: &mut [u8]) {
    for (i, row) in nodes.iter().enumerate() {
        let operand = |literal: u16| usize::from(value3(values, literal));
        values[i] = match row.kind {
            AND => AND3[operand(row.a)][operand(row.b)],
            XOR => XOR3[operand(row.a)][operand(row.b)],
            MUX => match operand(row.a) {
                1 => value3(values, row.b),
                0 => value3(values, row.c),
                _ => match value3(values, row.b) {
                    X => X,
                    b if b == value3(values, row.c) => b,
                    _ => X,
                },
            },
            _ => continue,
        };
    }
}

/// States 0 to m − 1, a byte for each register, and the state that m equals.
struct Lasso {
    states: Vec<u8>,
    stem: usize,
    end: usize,
}

const MOST_STATES: usize = 256;

/// Question 16.
fn find_lasso(nodes: &[Row], registers: &[usize]) -> Result<Lasso, Refusal> {
    let size = registers.len();
    if size == 0 {
        return Ok(Lasso { states: Vec::new(), stem: 0, end: 1 });
    }
    let mut values = vec![0u8; nodes.len()];
    for &i in &places(nodes, INPUT) {
        values[i] = X;
    }
    let mut states = Vec::with_capacity(size * MOST_STATES);
    let mut state: Vec<u8> = registers.iter().map(|&r| nodes[r].reset).collect();
    for end in 0..=MOST_STATES {
        if let Some(stem) = states.chunks_exact(size).position(|earlier| earlier == &state[..]) {
            return Ok(Lasso { states, stem, end });
        }
        if end == MOST_STATES {
            break;
        }
        states.extend_from_slice(&state);
        for (&r, &v) in registers.iter().zip(&state) {
            values[r] = v;
        }
        settle3(nodes, &mut values);
        for (v, &r) in state.iter_mut().zip(registers) {
            *v = value3(&values, nodes[r].a);
        }
    }
    refuse(16, 0)
}

const MOST_PHASES: usize = 8;

/// The period of register j, if it is at most 8: a longer one divides no phase count.
fn period_of(lasso: &Lasso, size: usize, j: usize) -> Option<usize> {
    let at = |t: usize| lasso.states[t * size + j];
    let cycle = lasso.end - lasso.stem;
    if (0..lasso.end).any(|t| at(t) == X) {
        return None;
    }
    (1..=MOST_PHASES.min(cycle))
        .filter(|p| cycle % p == 0)
        .find(|&p| (p..lasso.end).all(|t| at(t) == at(t - p)))
}

fn phase_count(periods: &[Option<usize>], wish: usize) -> usize {
    if wish > 0 {
        return wish;
    }
    let count = |n: usize| periods.iter().flatten().filter(|&p| n % p == 0).count();
    let most = (1..=MOST_PHASES).map(count).max().unwrap();
    (1..=MOST_PHASES).find(|&n| count(n) == most).unwrap()
}

/// The clock of each register that has a used generator.
fn clocks_of(
    nodes: &[Row],
    registers: &[usize],
    lasso: &Lasso,
    periods: &[Option<usize>],
    phases: usize,
) -> Vec<Option<Clock>> {
    let size = registers.len();
    let clock = |j: usize, p: usize| {
        let word = (0..phases).fold(0, |word, k| word | lasso.states[(k % p) * size + j] << k);
        Clock { label: nodes[registers[j]].b, period: p as u8, word, ones: word.count_ones() }
    };
    (0..size).map(|j| periods[j].filter(|p| phases % p == 0).map(|p| clock(j, p))).collect()
}

// ---- the unrolling ----

/// The folded netlist's rows so far.
struct Builder {
    rows: Vec<Row>,
}

impl Builder {
    fn push(&mut self, kind: u8, reset: u8, a: u16, b: u16, c: u16) -> u16 {
        self.rows.push(Row { kind, reset, a, b, c });
        2 * (self.rows.len() - 1) as u16
    }

    fn and(&mut self, x: u16, y: u16) -> u16 {
        if x == 0 || y == 0 || x == y ^ 1 {
            0
        } else if x == 1 || x == y {
            y
        } else if y == 1 {
            x
        } else {
            self.push(AND, 0, x.min(y), x.max(y), 0)
        }
    }

    fn xor(&mut self, x: u16, y: u16) -> u16 {
        let (p, q, inverted) = (x & !1, y & !1, (x ^ y) & 1);
        if p == q {
            inverted
        } else if p == 0 {
            q | inverted
        } else if q == 0 {
            p | inverted
        } else {
            self.push(XOR, 0, p.min(q), p.max(q), 0) | inverted
        }
    }

    fn mux(&mut self, s: u16, b: u16, c: u16) -> u16 {
        if s == 1 || b == c {
            b
        } else if s == 0 {
            c
        } else if s & 1 == 1 {
            self.push(MUX, 0, s - 1, c, b)
        } else {
            self.push(MUX, 0, s, b, c)
        }
    }
}

fn image(images: &[u16], literal: u16) -> u16 {
    images[usize::from(literal / 2)] ^ (literal & 1)
}

/// The images of the nodes in one phase, from those of the phase before.
fn unroll_phase(
    builder: &mut Builder,
    nodes: &[Row],
    clocks: &[Option<Clock>],
    phase: usize,
    before: &[u16],
    now: &mut [u16],
) {
    let mut clock = clocks.iter();
    for (i, row) in nodes.iter().enumerate() {
        let of = |literal: u16| image(now, literal);
        now[i] = match row.kind {
            CONSTANT => 0,
            INPUT => builder.push(INPUT, 0, row.a, phase as u16, 0),
            REGISTER => match clock.next().unwrap() {
                Some(clock) => u16::from(clock.word >> phase & 1),
                None if phase == 0 => builder.push(REGISTER, row.reset, row.a, row.b, 0),
                None => image(before, row.a),
            },
            AND => builder.and(of(row.a), of(row.b)),
            XOR => builder.xor(of(row.a), of(row.b)),
            _ => builder.mux(of(row.a), of(row.b), of(row.c)),
        };
    }
}

/// All phases; then the new registers' next values, and the outputs.
fn unroll(nodes: &[Row], outputs: &[Row], clocks: &[Option<Clock>], phases: usize) -> Vec<Row> {
    let mut builder = Builder { rows: Vec::with_capacity(phases * (nodes.len() + outputs.len())) };
    builder.push(CONSTANT, 0, 0, 0, 0);
    let mut images = vec![vec![0u16; nodes.len()]; phases];
    for phase in 0..phases {
        let (earlier, rest) = images.split_at_mut(phase);
        let before = earlier.last().map_or(&[][..], |images| &images[..]);
        unroll_phase(&mut builder, nodes, clocks, phase, before, &mut rest[0]);
    }
    let last = &images[phases - 1];
    for row in builder.rows.iter_mut().filter(|row| row.kind == REGISTER) {
        row.a = image(last, row.a);
    }
    for (phase, images) in images.iter().enumerate() {
        for output in outputs {
            builder.push(OUTPUT, 0, image(images, output.a), output.b, phase as u16);
        }
    }
    builder.rows
}

// ---- cone of influence, compaction, the file ----

/// How many of fields a, b, c are literals.
fn literal_count(kind: u8) -> usize {
    match kind {
        REGISTER | OUTPUT => 1,
        AND | XOR => 2,
        MUX => 3,
        _ => 0,
    }
}

/// The rows that an output reaches, row 0 and the outputs.
fn cone(rows: &[Row]) -> Vec<bool> {
    let mut kept = vec![false; rows.len()];
    kept[0] = true;
    let mut left: Vec<usize> = places(rows, OUTPUT);
    for &i in &left {
        kept[i] = true;
    }
    while let Some(i) = left.pop() {
        let row = rows[i];
        for &literal in &[row.a, row.b, row.c][..literal_count(row.kind)] {
            let node = usize::from(literal / 2);
            if !kept[node] {
                kept[node] = true;
                left.push(node);
            }
        }
    }
    kept
}

/// The row with its literals renumbered.
fn renumbered(mut row: Row, number: impl Fn(usize) -> u16) -> Row {
    let renumber = |literal: u16| 2 * number(usize::from(literal / 2)) + (literal & 1);
    let literals = literal_count(row.kind);
    if literals > 0 {
        row.a = renumber(row.a);
    }
    if literals > 1 {
        row.b = renumber(row.b);
    }
    if literals > 2 {
        row.c = renumber(row.c);
    }
    row
}

/// The kept rows, in order and renumbered.
fn compact(rows: &[Row]) -> Vec<Row> {
    let kept = cone(rows);
    let mut numbers = vec![0u16; rows.len()];
    let mut count = 0;
    for (number, &keep) in numbers.iter_mut().zip(&kept) {
        *number = count;
        count += u16::from(keep);
    }
    let renumber = |row: Row| renumbered(row, |node| numbers[node]);
    rows.iter().zip(&kept).filter(|(_, &keep)| keep).map(|(&row, _)| renumber(row)).collect()
}

fn write_row(bytes: &mut [u8], row: Row) {
    bytes[0] = row.kind;
    bytes[1] = row.reset;
    bytes[2..4].copy_from_slice(&row.a.to_le_bytes());
    bytes[4..6].copy_from_slice(&row.b.to_le_bytes());
    bytes[6..8].copy_from_slice(&row.c.to_le_bytes());
}

/// The file of the rows, and zeros after it.
fn write_file(rows: &[Row], result: &mut [u8]) {
    result.fill(0);
    let blocks = rows.len().div_ceil(ROWS_A_BLOCK);
    for (index, (block, rows)) in
        result.chunks_exact_mut(BLOCK).zip(rows.chunks(ROWS_A_BLOCK)).enumerate()
    {
        block[0] = if index + 1 == blocks { 2 } else { 1 };
        [block[1], block[3]] = (index as u16).to_le_bytes();
        block[2] = rows.len() as u8;
        for (bytes, &row) in block[4..].chunks_exact_mut(8).zip(rows) {
            write_row(bytes, row);
        }
        let check = u32::MAX - word_sum(block);
        block[BLOCK - 4..].copy_from_slice(&check.to_le_bytes());
    }
}

// ---- Fold ----

/// Questions 11 to 15.
fn fold_questions(
    rows: &[Row],
    counts: Counts,
    wish: u32,
    result: usize,
    work: usize,
    clocks: usize,
) -> Result<(), Refusal> {
    if rows.len() > 1008 {
        return refuse(11, 0);
    }
    if counts.registers > 256 {
        return refuse(12, 0);
    }
    let phase = |row: &Row| match row.kind {
        INPUT => row.b,
        OUTPUT => row.c,
        _ => 0,
    };
    if let Some(index) = rows.iter().position(|row| phase(row) != 0) {
        return refuse(13, index);
    }
    if wish > 8 {
        return refuse(14, 0);
    }
    if result < 65_536 || work < 49_152 || clocks < 256 {
        return refuse(15, 0);
    }
    Ok(())
}

/// A fold before it is written: its numbers, the clocks of the original's registers, the original's rows
/// and its own.
struct Fold {
    numbers: Folded,
    clocks: Vec<Option<Clock>>,
    rows: Vec<Row>,
    folded: Vec<Row>,
}

/// Folds a file, with so much memory lent.
fn fold_rows(
    file: &[u8],
    wish: u32,
    result: usize,
    work: usize,
    list: usize,
) -> Result<Fold, Refusal> {
    let counts = count(file)?;
    let rows = decode_rows(file);
    fold_questions(&rows, counts, wish, result, work, list)?;
    let (nodes, outputs) = rows.split_at(counts.nodes as usize);
    let registers = places(nodes, REGISTER);
    let lasso = find_lasso(nodes, &registers)?;
    let periods: Vec<_> =
        (0..registers.len()).map(|j| period_of(&lasso, registers.len(), j)).collect();
    let phases = phase_count(&periods, wish as usize);
    let clocks = clocks_of(nodes, &registers, &lasso, &periods, phases);
    let folded = compact(&unroll(nodes, outputs, &clocks, phases));
    let numbers = Folded {
        stem: lasso.stem as u32,
        cycle: (lasso.end - lasso.stem) as u32,
        phases: phases as u32,
        used: clocks.iter().flatten().count() as u32,
        before: rows.len() as u32,
        after: folded.len() as u32,
    };
    Ok(Fold { numbers, clocks, rows, folded })
}

pub fn fold(
    file: &[u8],
    wish: u32,
    result: &mut [u8],
    work: &mut [u8],
    list: &mut [Clock],
) -> Result<Folded, Refusal> {
    work.fill(0);
    let fold = fold_rows(file, wish, result.len(), work.len(), list.len())?;
    write_file(&fold.folded, result);
    for (entry, &clock) in list.iter_mut().zip(fold.clocks.iter().flatten()) {
        *entry = clock;
    }
    Ok(fold.numbers)
}

// ---- Trace ----

/// The rows that a run needs a value of: registers that start unknown, or inputs.
fn valued(rows: &[Row], kind: u8) -> impl Iterator<Item = &Row> {
    rows.iter().filter(move |row| row.kind == kind && (kind == INPUT || row.reset == 2))
}

/// A row's label, and an input's phase.
fn name_of(row: &Row) -> (u16, u16) {
    if row.kind == INPUT {
        (row.a, row.b)
    } else {
        (row.b, 0)
    }
}

/// Of each such row of the original in a phase, the place of its value among the fold's.
fn columns(fold: &Fold, kind: u8, phases: u16) -> Vec<Vec<Option<usize>>> {
    let kept: HashMap<(u16, u16), usize> = valued(&fold.folded, kind)
        .enumerate()
        .map(|(column, row)| (name_of(row), column))
        .collect();
    let column = |row, phase| kept.get(&(name_of(row).0, phase)).copied();
    (0..phases)
        .map(|phase| valued(&fold.rows, kind).map(|row| column(row, phase)).collect())
        .collect()
}

/// Each value from its column; 0 where there is none.
fn put_values(columns: &[Option<usize>], values: &[u8], trace: &mut [u8]) {
    for (byte, column) in trace.iter_mut().zip(columns) {
        *byte = column.map_or(0, |column| values[column]);
    }
}

/// Questions 26 to 28; answers the steps and how many inputs a group has.
fn trace_questions(
    fold: &Fold,
    groups: u32,
    phase: u32,
    choices: &[u8],
    inputs: &[u8],
    room: usize,
) -> Result<(usize, usize), Refusal> {
    let phases = fold.numbers.phases;
    if !(1..=512).contains(&groups) || phase >= phases {
        return refuse(26, 0);
    }
    let group = valued(&fold.folded, INPUT).count();
    let lengths = choices.len() == valued(&fold.folded, REGISTER).count()
        && inputs.len() == groups as usize * group;
    if !lengths || choices.iter().chain(inputs).any(|&v| v > 1) {
        return refuse(27, 0);
    }
    let steps = ((groups - 1) * phases + phase + 1) as usize;
    let size = valued(&fold.rows, REGISTER).count() + steps * valued(&fold.rows, INPUT).count();
    if room < size {
        return refuse(28, 0);
    }
    Ok((steps, group))
}

pub fn trace(
    file: &[u8],
    wish: u32,
    [groups, phase]: [u32; 2],
    choices: &[u8],
    inputs: &[u8],
    result: &mut [u8],
    work: &mut [u8],
    trace: &mut [u8],
) -> Result<u32, Refusal> {
    result.fill(0);
    work.fill(0);
    let fold = fold_rows(file, wish, result.len(), work.len(), 256)?;
    let (steps, group) = trace_questions(&fold, groups, phase, choices, inputs, trace.len())?;
    let chosen = columns(&fold, REGISTER, 1);
    let (first, rest) = trace.split_at_mut(chosen[0].len());
    put_values(&chosen[0], choices, first);
    let phases = fold.numbers.phases as usize;
    let given = columns(&fold, INPUT, phases as u16);
    let each = given[0].len();
    for (step, bytes) in rest.chunks_exact_mut(each.max(1)).take(steps).enumerate() {
        put_values(&given[step % phases], &inputs[step / phases * group..], bytes);
    }
    Ok(steps as u32)
}

// ---- Sort ----

/// The nodes that a gate names; none of another row.
fn operands(row: Row) -> impl Iterator<Item = usize> {
    let count = match row.kind {
        AND | XOR => 2,
        MUX => 3,
        _ => 0,
    };
    [row.a, row.b, row.c].into_iter().take(count).map(|literal| usize::from(literal / 2))
}

fn is_gate(row: Row) -> bool {
    (AND..=MUX).contains(&row.kind)
}

/// While a gate is walked through, its slot holds 1 more than the row that led to it, and 1 at the root.
const SETTLED: u16 = u16::MAX;

/// Settles all that a gate waits for, and then the gate; false if it waits for a loop.
fn settle_gate(rows: &[Row], slots: &mut [u16], root: usize) -> bool {
    slots[root] = 1;
    let mut row = root;
    loop {
        match operands(rows[row]).find(|&node| slots[node] != SETTLED) {
            None => {
                let led = std::mem::replace(&mut slots[row], SETTLED);
                if led == 1 {
                    return true;
                }
                row = usize::from(led) - 1;
            }
            Some(next) if slots[next] != 0 => return false,
            Some(next) => {
                slots[next] = row as u16 + 1;
                row = next;
            }
        }
    }
}

/// The lowest gate that waits for a loop.
fn find_loop(rows: &[Row]) -> Option<usize> {
    let mut slots: Vec<u16> =
        rows.iter().map(|&row| if is_gate(row) { 0 } else { SETTLED }).collect();
    (0..rows.len()).find(|&row| slots[row] == 0 && !settle_gate(rows, &mut slots, row))
}

/// The gates that name a node, the highest first; 0 ends a list.
struct Users {
    heads: Vec<u16>,
    next: Vec<[u16; 3]>,
}

impl Users {
    fn of(rows: &[Row]) -> Users {
        let mut users = Users { heads: vec![0; rows.len()], next: vec![[0; 3]; rows.len()] };
        for (index, &row) in rows.iter().enumerate() {
            for (entry, node) in users.next[index].iter_mut().zip(operands(row)) {
                *entry = users.heads[node];
            }
            for node in operands(row) {
                users.heads[node] = index as u16;
            }
        }
        users
    }

    /// The next user of the node after this one.
    fn after(&self, rows: &[Row], user: usize, node: usize) -> usize {
        let entry = operands(rows[user]).position(|named| named == node).unwrap();
        usize::from(self.next[user][entry])
    }
}

const READY: u16 = 1;
const PLACED: u16 = 1 << 15;
const GROUP: usize = 64;

/// The slots of all rows, and a mark for each group of them that may have one that is ready.
struct Order {
    slots: Vec<u16>,
    marks: Vec<bool>,
    next: u16,
}

impl Order {
    fn place(&mut self, row: usize) {
        self.slots[row] = PLACED + self.next;
        self.next += 1;
    }

    fn place_kinds(&mut self, rows: &[Row], kinds: std::ops::RangeInclusive<u8>) {
        for (index, _) in rows.iter().enumerate().filter(|(_, row)| kinds.contains(&row.kind)) {
            self.place(index);
        }
    }

    /// Makes a gate ready, if all that it names is placed.
    fn wake(&mut self, rows: &[Row], gate: usize) -> bool {
        let ready = operands(rows[gate]).all(|node| self.slots[node] >= PLACED);
        if ready {
            self.slots[gate] = READY;
            self.marks[gate / GROUP] = true;
        }
        ready
    }

    /// The lowest gate that is ready, where none before `low` is.
    fn lowest_ready(&mut self, low: usize) -> Option<usize> {
        let end = self.slots.len();
        let ready_in = |slots: &[u16], from: usize, to: usize| {
            slots[from..to].iter().position(|&slot| slot == READY).map(|found| from + found)
        };
        let group = low / GROUP;
        let found = ready_in(&self.slots, low, (GROUP * (group + 1)).min(end));
        if found.is_some() {
            return found;
        }
        for group in group + 1..self.marks.len() {
            if self.marks[group] {
                let found = ready_in(&self.slots, GROUP * group, (GROUP * (group + 1)).min(end));
                if found.is_some() {
                    return found;
                }
                self.marks[group] = false;
            }
        }
        None
    }
}

/// The new number of each row, and 32,768 more; no gate waits for a loop.
fn number_rows(rows: &[Row]) -> Vec<u16> {
    let groups = rows.len().div_ceil(GROUP);
    let mut order = Order { slots: vec![0; rows.len()], marks: vec![false; groups], next: 0 };
    order.place_kinds(rows, CONSTANT..=REGISTER);
    let users = Users::of(rows);
    for gate in (0..rows.len()).filter(|&index| is_gate(rows[index])) {
        order.wake(rows, gate);
    }
    let mut low = 0;
    while let Some(gate) = order.lowest_ready(low) {
        order.place(gate);
        low = gate;
        let mut user = usize::from(users.heads[gate]);
        while user != 0 {
            if order.wake(rows, user) {
                low = low.min(user);
            }
            user = users.after(rows, user, gate);
        }
    }
    order.place_kinds(rows, OUTPUT..=OUTPUT);
    order.slots
}

/// The rows in their new order, renumbered.
fn move_rows(rows: &[Row], numbers: &[u16]) -> Vec<Row> {
    let mut moved = vec![rows[0]; rows.len()];
    for (&row, &number) in rows.iter().zip(numbers) {
        moved[usize::from(number - PLACED)] = renumbered(row, |node| numbers[node] - PLACED);
    }
    moved
}

/// Questions 1 to 10 for gates in any order, and 23; then the rows.
fn sort_questions(file: &[u8], result: usize, work: usize) -> Result<Vec<Row>, Refusal> {
    check_file(file, Gates::InAnyOrder)?;
    if result < file.len() || work < least_work(row_count(file)) {
        return refuse(23, 0);
    }
    Ok(decode_rows(file))
}

/// Question 22; then the file of the rows, sorted. Answers how many rows it has.
fn write_sorted(rows: &[Row], result: &mut [u8]) -> Result<u32, Refusal> {
    if let Some(row) = find_loop(rows) {
        return refuse(22, row);
    }
    write_file(&move_rows(rows, &number_rows(rows)), result);
    Ok(rows.len() as u32)
}

pub fn sort(file: &[u8], result: &mut [u8], work: &mut [u8]) -> Result<u32, Refusal> {
    work.fill(0);
    write_sorted(&sort_questions(file, result.len(), work.len())?, result)
}

/// The same, but after each gate that is placed it looks for the next from the first row on.
pub fn sort_naively(file: &[u8], result: &mut [u8], work: &mut [u8]) -> Result<u32, Refusal> {
    work.fill(0);
    let rows = sort_questions(file, result.len(), work.len())?;
    let mut order = Order { slots: vec![0; rows.len()], marks: Vec::new(), next: 0 };
    order.place_kinds(&rows, CONSTANT..=REGISTER);
    let left = |slots: &[u16], index: usize| is_gate(rows[index]) && slots[index] < PLACED;
    let placed =
        |slots: &[u16], index: usize| operands(rows[index]).all(|node| slots[node] >= PLACED);
    let all = 0..rows.len();
    while let Some(gate) = all.clone().find(|&i| left(&order.slots, i) && placed(&order.slots, i)) {
        order.place(gate);
    }
    if let Some(row) = all.clone().find(|&i| left(&order.slots, i)) {
        return refuse(22, row);
    }
    order.place_kinds(&rows, OUTPUT..=OUTPUT);
    write_file(&move_rows(&rows, &order.slots), result);
    Ok(rows.len() as u32)
}

// ---- Import ----

/// The node of each variable: in a table over all variables, if the text has as many bytes.
enum Names {
    Table(Vec<u32>),
    Map(HashMap<u32, u32>),
}

impl Names {
    fn new(most: usize, nodes: usize, bytes: usize) -> Names {
        if most <= bytes {
            Names::Table(vec![0; most + 1])
        } else {
            Names::Map(HashMap::with_capacity(nodes.min(bytes / 2)))
        }
    }

    /// Gives a variable its node; says whether it is the first.
    fn define(&mut self, variable: u32, node: u32) -> bool {
        match self {
            Names::Table(nodes) => std::mem::replace(&mut nodes[variable as usize], node) == 0,
            Names::Map(nodes) => nodes.insert(variable, node).is_none(),
        }
    }

    /// The literal with its node in place of its variable, if that is defined or constant.
    fn translate(&self, literal: u32) -> Option<u32> {
        let variable = literal / 2;
        let node = match self {
            _ if variable == 0 => 0,
            Names::Table(nodes) => *nodes.get(variable as usize).filter(|&&node| node > 0)?,
            Names::Map(nodes) => *nodes.get(&variable)?,
        };
        Some(2 * node + literal % 2)
    }
}

/// The bytes of a text that are not yet read.
struct Reader<'a>(std::slice::Iter<'a, u8>);

impl Reader<'_> {
    /// A number, and the byte that ends it.
    fn number(&mut self) -> Option<(u32, u8)> {
        let digit = |byte: u8| byte.is_ascii_digit().then(|| u32::from(byte - b'0'));
        let mut number = digit(*self.0.next()?)?;
        loop {
            let byte = *self.0.next()?;
            match digit(byte) {
                None => return Some((number, byte)),
                Some(_) if number == 0 => return None,
                Some(digit) => number = number.checked_mul(10)?.checked_add(digit)?,
            }
        }
    }

    /// A number that this byte ends.
    fn before(&mut self, end: u8) -> Option<u32> {
        self.number().filter(|&(_, byte)| byte == end).map(|(number, _)| number)
    }
}

/// The lines that the header counts, read one after the other.
struct Lines<'a> {
    reader: Reader<'a>,
    /// M.
    most: u32,
    names: Names,
    nodes: u32,
}

impl Lines<'_> {
    /// A new node's literal.
    fn definition(&mut self, end: u8) -> Option<u32> {
        let literal = self.reader.before(end)?;
        let variable = literal / 2;
        let right = literal % 2 == 0 && (1..=self.most).contains(&variable);
        self.nodes += 1;
        (right && self.names.define(variable, self.nodes)).then_some(literal)
    }

    fn input(&mut self) -> Option<()> {
        self.definition(b'\n').map(|_| ())
    }

    /// Next value and reset, which may be missing.
    fn latch(&mut self) -> Option<(u32, u8)> {
        let latch = self.definition(b' ')?;
        let (next, end) = self.reader.number()?;
        if end == b'\n' {
            return Some((next, 0));
        }
        match self.reader.before(b'\n').filter(|_| end == b' ')? {
            reset @ 0..=1 => Some((next, reset as u8)),
            reset => (reset == latch).then_some((next, 2)),
        }
    }

    fn gate(&mut self) -> Option<(u32, u32)> {
        self.definition(b' ')?;
        Some((self.reader.before(b' ')?, self.reader.before(b'\n')?))
    }
}

/// What a text says, by nodes.
struct Lists {
    inputs: usize,
    latches: Vec<(u32, u8)>,
    gates: Vec<(u32, u32)>,
    outputs: Vec<u32>,
}

/// Question 24.
fn read_text(text: &[u8]) -> Option<Lists> {
    let mut reader = Reader(text.strip_prefix(b"aag ")?.iter());
    let mut counts = [0u32; 5];
    for (count, end) in counts.iter_mut().zip(*b"    \n") {
        *count = reader.before(end)?;
    }
    let [most, inputs, latches, outputs, gates] = counts;
    if outputs == 0 {
        return None;
    }
    let nodes = [inputs, latches, gates].iter().map(|&count| count as usize).sum();
    let names = Names::new(most as usize, nodes, text.len());
    let mut lines = Lines { reader, most, names, nodes: 0 };
    (0..inputs).try_for_each(|_| lines.input())?;
    let mut latches: Vec<_> = (0..latches).map(|_| lines.latch()).collect::<Option<_>>()?;
    let mut outputs: Vec<_> =
        (0..outputs).map(|_| lines.reader.before(b'\n')).collect::<Option<_>>()?;
    let mut gates: Vec<_> = (0..gates).map(|_| lines.gate()).collect::<Option<_>>()?;
    for (next, _) in &mut latches {
        *next = lines.names.translate(*next)?;
    }
    for output in &mut outputs {
        *output = lines.names.translate(*output)?;
    }
    for (a, b) in &mut gates {
        (*a, *b) = (lines.names.translate(*a)?, lines.names.translate(*b)?);
    }
    Some(Lists { inputs: inputs as usize, latches, gates, outputs })
}

/// Constant, inputs, latches, gates and outputs; labels are positions.
fn rows_of(lists: &Lists) -> Vec<Row> {
    let row = |kind: u8, reset: u8, a: usize, b: usize| {
        let [a, b] = [a as u16, b as u16];
        Row { kind, reset, a, b, c: 0 }
    };
    let mut rows = vec![row(CONSTANT, 0, 0, 0)];
    rows.extend((0..lists.inputs).map(|label| row(INPUT, 0, label, 0)));
    let latches = lists.latches.iter().enumerate();
    rows.extend(latches.map(|(label, &(next, reset))| row(REGISTER, reset, next as usize, label)));
    rows.extend(lists.gates.iter().map(|&(a, b)| row(AND, 0, a as usize, b as usize)));
    let outputs = lists.outputs.iter().enumerate();
    rows.extend(outputs.map(|(label, &literal)| row(OUTPUT, 0, literal as usize, label)));
    rows
}

/// Questions 23, 24, 25 and 22.
pub fn import(text: &[u8], result: &mut [u8], work: &mut [u8]) -> Result<u32, Refusal> {
    work.fill(0);
    if result.len() < 262_144 || work.len() < 196_608 {
        return refuse(23, 0);
    }
    let Some(lists) = read_text(text) else { return refuse(24, 0) };
    let nodes = 1 + lists.inputs + lists.latches.len() + lists.gates.len();
    if nodes + lists.outputs.len() > MOST_ROWS {
        return refuse(25, 0);
    }
    write_sorted(&rows_of(&lists), result)
}
