//! Files about the limits of blocks and rows: sound, with heads damaged, and with blocks exchanged.

use crate::netlist::{encode, exchange_blocks, random_netlist, seal, Random, Row, Shape};

/// About the blocks of 8,064 rows, the first whose number needs byte 3, and the most of a file.
const BLOCKS: [usize; 9] = [127, 128, 129, 255, 256, 257, 511, 512, 513];

/// Blocks whose heads are damaged, and the last.
const DAMAGED: [usize; 9] = [0, 1, 127, 128, 129, 255, 256, 257, 510];

/// Blocks that are exchanged; the numbers of some differ in one byte alone.
const EXCHANGED: [(usize, usize); 8] =
    [(0, 1), (0, 128), (0, 256), (1, 256), (1, 257), (127, 128), (255, 256), (254, 510)];

/// A netlist of so many rows, at least 200.
pub fn netlist_of(random: &mut Random, rows: usize) -> Vec<Row> {
    let nodes = rows - 1;
    let shape = Shape { nodes, outputs: 1, registers: 3, inputs: 3, phases: true, rings: 4 };
    random_netlist(random, shape)
}

/// Other values for bytes 1 and 3 of a head.
fn other_numbers([low, high]: [u8; 2]) -> impl Iterator<Item = [u8; 2]> {
    let numbers = [
        [low.wrapping_add(1), high],
        [low.wrapping_sub(1), high],
        [low ^ 128, high],
        [low, high.wrapping_add(1)],
        [low, high.wrapping_sub(1)],
        [low, high ^ 128],
        [high, low],
        [low, 0],
        [0, high],
    ];
    numbers.into_iter().filter(move |&number| number != [low, high])
}

/// The file with another block number in one head, the block's check right.
fn damage_heads(file: &[u8], mut take: impl FnMut(&[u8])) {
    let last = file.len() / 512 - 1;
    for block in DAMAGED.into_iter().filter(|&block| block < last).chain([last]) {
        let head = 512 * block;
        for [low, high] in other_numbers([file[head + 1], file[head + 3]]) {
            let mut damaged = file.to_vec();
            (damaged[head + 1], damaged[head + 3]) = (low, high);
            seal(&mut damaged[head..head + 512]);
            take(&damaged);
        }
    }
}

/// Files of 0 and 511 bytes; then of so many blocks, the last with one row and with all, and each of
/// them with heads damaged, with blocks exchanged, with a block of zeros at the end and without the
/// last block.
pub fn make_files(random: &mut Random, mut take: impl FnMut(&[u8])) {
    take(&[]);
    take(&[0; 511]);
    for rows in BLOCKS.into_iter().flat_map(|blocks| [63 * blocks - 62, 63 * blocks]) {
        let file = encode(&netlist_of(random, rows));
        take(&file);
        damage_heads(&file, &mut take);
        for (one, other) in EXCHANGED.into_iter().filter(|pair| 512 * pair.1 < file.len()) {
            let mut exchanged = file.clone();
            exchange_blocks(&mut exchanged, one, other);
            take(&exchanged);
        }
        take(&[&file[..], &[0; 512]].concat());
        take(&file[..file.len() - 512]);
    }
}
