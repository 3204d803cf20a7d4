//! Random jobs: a table of some shape, a list for it, damage to either, and rooms.

use super::faults;
use super::{damage, filed, lists, tables};
use crate::random::Numbers;
use crate::table::{constant, MOST_WORDS};

pub struct Job {
    pub table: Vec<u32>,
    pub list: Vec<u16>,
    pub class_room: usize,
    pub work_room: usize,
}

/// A job of the sizes that most jobs have; once in a while a large one.
pub fn job(numbers: &mut Numbers) -> Job {
    let large = numbers.one_in(300);
    let mut table = shape(numbers, large);
    let mut copy = 0;
    if table.len() > 1 && numbers.one_in(3) {
        copy = table.len();
        table = tables::with_copy(numbers, &table);
    }
    let most = match (large, numbers.below(40)) {
        (true, 0..=9) | (false, 0..=2) => 256,
        (true, _) => 40,
        (false, 3..=11) => 20,
        (false, _) => 6,
    };
    let length = numbers.below(most + 1);
    // Only a good table can be asked which pairs it accepts.
    let good = faults::of_table(&table, table.len(), 4 * table.len()).is_none();
    let mut list = if good && numbers.one_in(2) {
        lists::long(numbers, &table, length, copy)
    } else {
        lists::any(numbers, &table, length, copy)
    };
    if numbers.one_in(5) {
        for _ in 0..1 + numbers.below(3) {
            damage::table(numbers, &mut table);
        }
    }
    if numbers.one_in(15) {
        damage::list(numbers, &mut list, table.len());
    }
    if numbers.one_in(100) {
        table.resize(size(numbers, table.len()), constant(1));
    }
    let n = table.len();
    Job {
        class_room: filed::room(numbers, n),
        work_room: filed::room(numbers, 4 * n),
        table,
        list,
    }
}

/// Numbers of words at the limit of a table, of a file, and of 16 bits.
fn size(numbers: &mut Numbers, n: usize) -> usize {
    match numbers.below(16) {
        0..=4 => 0,
        5 => MOST_WORDS,
        6..=8 => MOST_WORDS + 1,
        9 | 10 => MOST_WORDS + 1 + numbers.below(4_000),
        11..=13 => 8_192 - numbers.below(5),
        14 => 65_536 - numbers.below(2),
        _ => 65_536 + n,
    }
}

fn shape(numbers: &mut Numbers, large: bool) -> Vec<u32> {
    match (large, numbers.below(16)) {
        (true, 0..=4) => tables::deep(numbers, 120),
        (true, 5..=9) => tables::wide(numbers, 255),
        (true, _) => tables::mixed(numbers, 60),
        (false, 0..=2) => tables::deep(numbers, 9),
        (false, 3..=4) => tables::wide(numbers, 9),
        (false, 5) => tables::doubling(numbers),
        (false, 6..=10) => tables::mixed(numbers, 5),
        (false, _) => tables::mixed(numbers, 12),
    }
}
