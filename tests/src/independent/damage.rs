//! Ways in which a good job becomes one to refuse, or nearly.

use crate::jobs::MOST_BYTES;
use crate::random::Numbers;
use crate::table::{argument_count, constant, function, pointer, variable};

/// One word changes, comes in or goes; or two words change places.
pub fn table(numbers: &mut Numbers, table: &mut Vec<u32>) {
    let n = table.len();
    let at = numbers.below(n);
    match numbers.below(8) {
        0 if n > 1 => table.truncate(1 + numbers.below(n - 1)),
        1 => table.insert(at, any_word(numbers, n)),
        2 if n > 1 => {
            table.remove(at);
        }
        3 => table.swap(at, numbers.below(n)),
        4 => another_content(numbers, table),
        5 => shared_label(numbers, table),
        6 => table[at] ^= 1 << numbers.below(32),
        _ => table[at] = any_word(numbers, n),
    }
}

fn any_word(numbers: &mut Numbers, n: usize) -> u32 {
    let small = numbers.below(n + 2) as u16;
    let all = [
        variable(small),
        constant(small),
        function(small),
        pointer(small),
        argument_count(small),
        argument_count(256),
        numbers.number(),
        numbers.number() % 0x20_0000,
        0,
    ];
    all[numbers.below(all.len())]
}

/// A pointer that may lead back, or a count that may be of no block's length.
fn another_content(numbers: &mut Numbers, table: &mut [u32]) {
    let n = table.len();
    let may_change = |&x: &usize| [20, 24].contains(&(table[x] >> 16));
    let changed: Vec<usize> = (1..n).filter(may_change).collect();
    if !changed.is_empty() {
        let at = changed[numbers.below(changed.len())];
        table[at] = match table[at] >> 16 {
            20 => pointer(numbers.below(n + 2) as u16),
            _ => argument_count(numbers.below(5) as u16),
        };
    }
}

/// Two variables with one label; a constant or function may have it too, which is no fault. Nor is it one
/// where the label is 0 (document 02, E1).
fn shared_label(numbers: &mut Numbers, table: &mut [u32]) {
    let variables: Vec<usize> = (1..table.len()).filter(|&x| table[x] >> 16 == 16).collect();
    if variables.len() < 2 {
        return;
    }
    let first = numbers.below(variables.len());
    let second = first + 1 + numbers.below(variables.len() - 1);
    let [from, to] = [first, second].map(|i| variables[i % variables.len()]);
    let named = variable([1, 5, 65_535][numbers.below(3)]);
    match numbers.below(6) {
        0 => table[from] = variable(0),
        // The one label that repeats stands among unnamed variables.
        1 | 2 => {
            for &x in &variables {
                table[x] = variable(0);
            }
            table[from] = named;
        }
        _ if table[from] == variable(0) => table[from] = named,
        _ => {}
    }
    table[to] = table[from];
}

/// A side, the number of entries, or both.
pub fn list(numbers: &mut Numbers, list: &mut Vec<u16>, n: usize) {
    let any = numbers.below(n + 2) as u16;
    match numbers.below(6) {
        0 => list.push(any),
        1 => *list = vec![1; 511 + numbers.below(4)],
        _ if list.is_empty() => list.extend([any, any]),
        kind => {
            let at = numbers.below(list.len());
            list[at] = [any, any, 0, 65_535][kind - 2];
        }
    }
}

/// What the writer is sent: an odd or another row of sizes, or bodies of another length.
pub fn sent(numbers: &mut Numbers, sizes: &mut Vec<u16>, bodies: &mut Vec<u8>) {
    let at = numbers.below(sizes.len());
    match numbers.below(8) {
        0 => sizes.clear(),
        1 => sizes.push(0),
        2 => sizes.extend([0, 0]),
        3 => sizes.resize(127 + numbers.below(4), 0),
        4 => sizes.swap(at, at ^ 1),
        5 => sizes[at] = near(numbers, sizes[at]),
        6 => bodies.push(0),
        _ => bodies.truncate(bodies.len() - bodies.len().min(1 + numbers.below(4))),
    }
}

/// A file of at least one job: its count, one number or byte of its contents, a byte of a body, its
/// end; or it becomes nearly nothing, or as long as a file may be and one longer.
pub fn file(numbers: &mut Numbers, file: &mut Vec<u8>) {
    let jobs = usize::from(file[0]).min((file.len() - 2) / 6);
    let contents = 2 + 6 * jobs;
    let at = 2 * numbers.below(contents / 2);
    match numbers.below(10) {
        0 => set(file, 0, [0, 65, 256, 65_535][numbers.below(4)]),
        1 => {
            let old = u16::from_le_bytes([file[at], file[at + 1]]);
            set(file, at, near(numbers, old));
        }
        2 => file[at] ^= 1 << numbers.below(8),
        3..=5 => {
            let at = numbers.below(file.len());
            file[at] = numbers.number() as u8;
        }
        6 => file.extend(vec![0; 1 + numbers.below(5)]),
        7 => file.truncate(numbers.below(file.len())),
        8 => file.truncate(numbers.below(4)),
        _ => file.resize(MOST_BYTES + numbers.below(3), 0),
    }
}

fn near(numbers: &mut Numbers, number: u16) -> u16 {
    match numbers.below(3) {
        0 => number.wrapping_sub(1),
        1 => number.wrapping_add(1),
        _ => numbers.number() as u16,
    }
}

fn set(file: &mut [u8], at: usize, number: u16) {
    file[at..at + 2].copy_from_slice(&number.to_le_bytes());
}
