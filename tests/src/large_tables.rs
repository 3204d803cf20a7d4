//! Tables that are deep, wide or shared, as large as a table may be, and long lists for them.

use crate::table::{argument_count, function, pointer, variable, words, MOST_PAIRS, MOST_WORDS};

/// Chains of functions of one argument, one behind the other, each of this number of blocks and with its last
/// argument given. Pointers name the next block, or the one before; then a chain ends with its first
/// block.
pub fn chains(ends: &[u32], blocks: usize, ahead: bool) -> Vec<u32> {
    let mut table = words(&[]);
    for &end in ends {
        for block in 0..blocks {
            let at = table.len() as u16;
            let last = block == if ahead { blocks - 1 } else { 0 };
            let argument = match (last, ahead) {
                (true, _) => end,
                (false, true) => pointer(at + 3),
                (false, false) => pointer(at - 3),
            };
            table.extend([function(1), argument_count(1), argument]);
        }
    }
    table
}

/// Two towers of terms g(t,t) of terms g(t,t), each on a variable of its own: 2^levels leaves.
pub fn towers(levels: usize, ahead: bool) -> Vec<u32> {
    let mut table = words(&[]);
    for tower in 0..2 {
        for level in 0..levels {
            let at = table.len() as u16;
            let last = level == if ahead { levels - 1 } else { 0 };
            let arguments = match (last, ahead) {
                (true, _) => [variable(tower), pointer(at + 2)],
                (false, true) => [pointer(at + 4); 2],
                (false, false) => [pointer(at - 4); 2],
            };
            table.extend([function(9), argument_count(2)]);
            table.extend(arguments);
        }
    }
    table
}

/// Where each of the wide blocks starts.
pub fn wide_start(block: u16) -> u16 {
    257 * block + 1
}

/// Fifteen functions of 255 arguments, the most of them that a table holds, by the argument of a block at
/// a place; and the pairs of each with the next.
pub fn wide_blocks(argument: impl Fn(u16, u16) -> u32) -> (Vec<u32>, Vec<(u16, u16)>) {
    let mut table = words(&[]);
    for block in 0..15 {
        table.extend([function(1), argument_count(255)]);
        table.extend((0..255).map(|i| argument(block, i)));
    }
    let pairs = (0..14).map(|b| (wide_start(b), wide_start(b + 1)));
    (table, pairs.collect())
}

/// A table of variables, and the pairs of each with the next as far as a list goes.
pub fn row_of_variables() -> (Vec<u32>, Vec<(u16, u16)>) {
    let items: Vec<u32> = (0..MOST_WORDS as u16 - 1).map(variable).collect();
    let pairs = (1..=MOST_PAIRS as u16).map(|x| (x, x + 1));
    (words(&items), pairs.collect())
}
