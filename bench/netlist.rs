//! Makes netlist files: rows into blocks and back, seeded random netlists, damaged files.

#[derive(Clone, Copy)]
pub struct Row {
    pub kind: u8,
    pub reset: u8,
    pub a: u16,
    pub b: u16,
    pub c: u16,
}

pub fn row(kind: u8, reset: u8, a: usize, b: usize, c: usize) -> Row {
    Row { kind, reset, a: a as u16, b: b as u16, c: c as u16 }
}

pub fn constant() -> Row {
    row(0, 0, 0, 0, 0)
}

pub fn input(label: usize, phase: usize) -> Row {
    row(1, 0, label, phase, 0)
}

pub fn register(reset: u8, next: usize, label: usize) -> Row {
    row(2, reset, next, label, 0)
}

pub fn output(literal: usize, label: usize, phase: usize) -> Row {
    row(6, 0, literal, label, phase)
}

/// Sets the check of a block so that its sum is right.
pub fn seal(block: &mut [u8]) {
    let sum = block[..508]
        .chunks_exact(4)
        .fold(0u32, |sum, w| sum.wrapping_add(u32::from_le_bytes([w[0], w[1], w[2], w[3]])));
    block[508..].copy_from_slice(&(!sum).to_le_bytes());
}

/// The file of these rows.
pub fn encode(rows: &[Row]) -> Vec<u8> {
    let blocks = rows.chunks(63).count();
    let mut file = vec![0u8; 512 * blocks];
    for (index, (block, rows)) in file.chunks_exact_mut(512).zip(rows.chunks(63)).enumerate() {
        block[0] = if index + 1 == blocks { 2 } else { 1 };
        [block[1], block[3]] = (index as u16).to_le_bytes();
        block[2] = rows.len() as u8;
        for (place, row) in block[4..].chunks_exact_mut(8).zip(rows) {
            place[0] = row.kind;
            place[1] = row.reset;
            for (bytes, field) in place[2..].chunks_exact_mut(2).zip([row.a, row.b, row.c]) {
                bytes.copy_from_slice(&field.to_le_bytes());
            }
        }
        seal(block);
    }
    file
}

/// The rows of an accepted file.
pub fn decode(file: &[u8]) -> Vec<Row> {
    let field = |bytes: &[u8]| usize::from(u16::from_le_bytes([bytes[0], bytes[1]]));
    let blocks = file.chunks_exact(512);
    let rows = blocks.flat_map(|block| block[4..4 + 8 * usize::from(block[2])].chunks_exact(8));
    rows.map(|r| row(r[0], r[1], field(&r[2..]), field(&r[4..]), field(&r[6..]))).collect()
}

/// SplitMix64.
pub struct Random(pub u64);

impl Random {
    pub fn next(&mut self) -> u64 {
        self.0 = self.0.wrapping_add(0x9E37_79B9_7F4A_7C15);
        let mut z = self.0;
        z = (z ^ (z >> 30)).wrapping_mul(0xBF58_476D_1CE4_E5B9);
        z = (z ^ (z >> 27)).wrapping_mul(0x94D0_49BB_1331_11EB);
        z ^ (z >> 31)
    }

    /// A number below `limit`.
    pub fn below(&mut self, limit: usize) -> usize {
        (self.next() % limit as u64) as usize
    }

    pub fn one_in(&mut self, n: usize) -> bool {
        self.below(n) == 0
    }

    pub fn bits(&mut self, count: usize) -> Vec<u8> {
        (0..count).map(|_| self.below(2) as u8).collect()
    }

    pub fn shuffle<T>(&mut self, list: &mut [T]) {
        for at in 1..list.len() {
            list.swap(at, self.below(at + 1));
        }
    }

    /// The numbers below `count`, one of the upper half and one of the lower in turns, each half shuffled.
    pub fn two_halves(&mut self, count: usize) -> Vec<usize> {
        let mut numbers: Vec<usize> = (0..count).collect();
        let (lower, upper) = numbers.split_at_mut(count / 2);
        self.shuffle(lower);
        self.shuffle(upper);
        (0..count).map(|at| if at % 2 == 0 { upper[at / 2] } else { lower[at / 2] }).collect()
    }
}

/// How a random netlist is made.
#[derive(Clone, Copy)]
pub struct Shape {
    pub nodes: usize,
    pub outputs: usize,
    /// Of twelve nodes, how many are registers.
    pub registers: usize,
    /// Of twelve nodes, how many are inputs.
    pub inputs: usize,
    /// Phases other than 0.
    pub phases: bool,
    /// Rings of registers that need no input come first.
    pub rings: usize,
}

/// A ring: a one-hot or all-equal shift register, its last link plain or inverted.
fn push_ring(rows: &mut Vec<Row>, random: &mut Random, label: &mut usize) {
    let (first, size) = (rows.len(), 1 + random.below(6));
    let inverted = random.below(2);
    let hot = random.below(size);
    for i in 0..size {
        let from = if i == 0 { 2 * (first + size - 1) + inverted } else { 2 * (first + i - 1) };
        let reset = if random.one_in(40) { 2 } else { (i == hot) as u8 };
        rows.push(register(reset, from, *label));
        *label += 1;
    }
}

/// A binary counter from 0: each bit changes when all lower ones are 1.
fn push_counter(rows: &mut Vec<Row>, random: &mut Random, label: &mut usize) {
    let bits = 1 + random.below(9);
    let mut carry = 1;
    for _ in 0..bits {
        let at = rows.len();
        rows.push(register(0, 2 * (at + 1), *label));
        *label += 1;
        rows.push(row(4, 0, 2 * at, carry, 0));
        rows.push(row(3, 0, 2 * at, carry, 0));
        carry = 2 * (at + 2);
    }
}

/// A gate over rows before `at`, half of its operands near.
pub fn random_gate(random: &mut Random, at: usize) -> Row {
    let mut operand = || {
        let near = at.min(12);
        let node = if random.one_in(2) { random.below(at) } else { at - 1 - random.below(near) };
        2 * node + random.below(2)
    };
    let (a, b, c) = (operand(), operand(), operand());
    match random.below(3) {
        0 => row(3, 0, a, b, 0),
        1 => row(4, 0, a, b, 0),
        _ => row(5, 0, a, b, c),
    }
}

/// Labels and phases that no other row of the same kind has; other kinds have the same labels.
struct Names {
    base: usize,
    phases: bool,
    given: [usize; 7],
}

impl Names {
    fn next(&mut self, random: &mut Random, kind: usize) -> (usize, usize) {
        let number = self.given[kind];
        self.given[kind] += 1;
        if self.phases {
            (self.base + number / 2, 2 * random.below(4) + number % 2)
        } else {
            (self.base + number, 0)
        }
    }
}

/// A netlist that Check accepts, if it has an output. Labels count up from any number, modulo 65,536.
pub fn random_netlist(random: &mut Random, shape: Shape) -> Vec<Row> {
    let mut rows = vec![constant()];
    let base = random.below(65_536);
    let mut register_label = base;
    let mut names = Names { base, phases: shape.phases, given: [0; 7] };
    for _ in 0..shape.rings {
        if random.one_in(4) {
            push_counter(&mut rows, random, &mut register_label);
        } else {
            push_ring(&mut rows, random, &mut register_label);
        }
    }
    while rows.len() < shape.nodes {
        let at = rows.len();
        let sort = random.below(12);
        rows.push(if sort < shape.registers {
            let reset = [0, 0, 1, 1, 2][random.below(5)];
            register_label += 1;
            register(reset, random.below(2 * shape.nodes), register_label)
        } else if sort < shape.registers + shape.inputs {
            let (label, phase) = names.next(random, 1);
            input(label, phase)
        } else {
            random_gate(random, at)
        });
    }
    let nodes = rows.len();
    for _ in 0..shape.outputs {
        let (label, phase) = names.next(random, 6);
        rows.push(output(random.below(2 * nodes), label, phase));
    }
    rows
}

/// How many of the fields a, b, c are literals.
fn literals(kind: u8) -> usize {
    [0, 0, 1, 2, 2, 3, 1][usize::from(kind)]
}

/// The netlist with row i in place `places[i]`.
pub fn moved(rows: &[Row], places: &[usize]) -> Vec<Row> {
    let mut moved = rows.to_vec();
    for (row, &place) in rows.iter().zip(places) {
        let mut row = *row;
        for field in [&mut row.a, &mut row.b, &mut row.c].into_iter().take(literals(row.kind)) {
            *field = 2 * places[usize::from(*field / 2)] as u16 + *field % 2;
        }
        moved[place] = row;
    }
    moved
}

/// The netlist with its nodes in any order; row 0 and the outputs stay.
pub fn shuffled(random: &mut Random, rows: &[Row]) -> Vec<Row> {
    let nodes = rows.iter().filter(|row| row.kind != 6).count();
    let mut places: Vec<usize> = (0..rows.len()).collect();
    for i in 2..nodes {
        places.swap(i, 1 + random.below(i));
    }
    moved(rows, &places)
}

/// The netlist with some operands of gates drawn again from all nodes, so that there may be loops.
pub fn redrawn(random: &mut Random, mut rows: Vec<Row>) -> Vec<Row> {
    let nodes = rows.iter().filter(|row| row.kind != 6).count();
    for _ in 0..random.below(4) {
        let at = random.below(nodes);
        if (3..=5).contains(&rows[at].kind) {
            rows[at].a = random.below(2 * nodes) as u16;
        }
    }
    rows
}

/// A shape for a netlist of at most `most` rows.
pub fn random_shape(random: &mut Random, most: usize, phases: bool) -> Shape {
    let rings = random.below(5);
    let room = most.saturating_sub(160).max(1);
    let size =
        if random.one_in(3) { 1 + random.below(room) } else { 1 + random.below(room.min(60)) };
    Shape {
        nodes: size,
        outputs: random.below(9),
        registers: random.below(6),
        inputs: random.below(4),
        phases: phases && random.one_in(2),
        rings,
    }
}

/// A literal close to the end of the file, or to the row's own number.
fn limit_literal(file: &[u8], row: usize, random: &mut Random) -> [u8; 2] {
    let last = file.len() / 512 - 1;
    let rows = 63 * last + file[512 * last + 2] as usize;
    let limit = if random.one_in(2) { rows } else { row };
    ((2 * limit + random.below(8)).saturating_sub(4) as u16).to_le_bytes()
}

fn change_row(file: &mut [u8], random: &mut Random) {
    let block = random.below(file.len() / 512);
    let count = (file[512 * block + 2] as usize).clamp(1, 63);
    let number = random.below(count);
    let place = 512 * block + 4 + 8 * number;
    let field = place + 2 + 2 * random.below(3);
    match random.below(7) {
        0 => file[place] = random.below(8) as u8,
        1 => file[place + 1] = random.below(4) as u8,
        2 => file[field] = random.below(256) as u8,
        3 => file[field] = random.below(16) as u8,
        4 => file[field + 1] = random.below(2) as u8,
        5 => {
            let literal = limit_literal(file, 63 * block + number, random);
            file[field..field + 2].copy_from_slice(&literal);
        }
        _ => {
            let other = 512 * block + 4 + 8 * random.below(count);
            file.copy_within(other..other + 8, place);
        }
    }
    seal(&mut file[512 * block..512 * block + 512]);
}

pub fn exchange_blocks(file: &mut [u8], one: usize, other: usize) {
    for at in 0..512 {
        file.swap(512 * one + at, 512 * other + at);
    }
}

fn change_frame(file: &mut [u8], random: &mut Random) {
    let blocks = file.len() / 512;
    let block = random.below(blocks);
    let start = 512 * block;
    match random.below(5) {
        0 => file[start + random.below(4)] = random.below(4) as u8,
        1 => file[start + 2] = random.below(70) as u8,
        2 => file[start + 4 + random.below(504)] ^= 1 << random.below(8),
        3 => file[start + 500 + random.below(12)] ^= 1,
        _ => exchange_blocks(file, block, random.below(blocks)),
    }
    if !random.one_in(3) {
        seal(&mut file[start..start + 512]);
    }
}

/// A file with something changed; not always refused.
pub fn damage(file: &[u8], random: &mut Random) -> Vec<u8> {
    let mut file = file.to_vec();
    match random.below(12) {
        0 => file.truncate(random.below(file.len() + 1)),
        1 => file.truncate(512 * random.below(file.len() / 512 + 1)),
        2 => file.extend(vec![0; 1 + random.below(1024)]),
        3..=5 => change_frame(&mut file, random),
        _ => {
            for _ in 0..1 + random.below(2) {
                change_row(&mut file, random);
            }
        }
    }
    file
}
