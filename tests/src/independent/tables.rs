//! Random tables, good but for loops: of mixed items, deep, wide, with shared subterms, and with a copy. Some
//! have variables of label 0, which are unnamed (document 02, E1).

use crate::random::Numbers;
use crate::table::{argument_count, constant, function, pointer, variable, words};

/// Where a pointer to a function leads. Only one that may lead anywhere can close a loop.
#[derive(Clone, Copy, PartialEq)]
enum Aim {
    Ahead,
    Back,
    Anywhere,
}

/// A table under construction. Its pointers are aimed when all nodes are there.
struct Row {
    table: Vec<u32>,
    /// The pointers, each with the function word of its block.
    pointers: Vec<(usize, usize)>,
    /// How many labels there are for constants and functions each: few make agreement likely.
    labels: usize,
    next_variable: u16,
    /// How many of ten variables are unnamed.
    unnamed: usize,
}

/// None in half of the tables; else few, half or all.
fn unnamed_of_ten(numbers: &mut Numbers) -> usize {
    [0, 0, 0, 2, 5, 10][numbers.below(6)]
}

impl Row {
    fn new(numbers: &mut Numbers) -> Row {
        Row {
            table: words(&[]),
            pointers: Vec::new(),
            labels: [1, 1, 2, 3, 40][numbers.below(5)],
            next_variable: [0, 0, 60_000][numbers.below(3)],
            unnamed: unnamed_of_ten(numbers),
        }
    }

    /// One label comes up more often than the others.
    fn label(&self, numbers: &mut Numbers) -> u16 {
        numbers.below(self.labels).min(numbers.below(self.labels)) as u16
    }

    fn leaf(&mut self, numbers: &mut Numbers, constants: usize) {
        let word = if numbers.below(10) < constants {
            constant(self.label(numbers))
        } else if numbers.below(10) < self.unnamed {
            variable(0)
        } else {
            self.next_variable += 1;
            variable(self.next_variable)
        };
        self.table.push(word);
    }

    fn head(&mut self, numbers: &mut Numbers, count: usize) -> usize {
        let word = function(self.label(numbers));
        self.table.extend([word, argument_count(count as u16)]);
        self.table.len() - 2
    }

    fn pointer(&mut self, of: usize, to: usize) {
        self.pointers.push((self.table.len(), of));
        self.table.push(pointer(to as u16));
    }

    fn block(&mut self, numbers: &mut Numbers, count: usize, pointers: usize, constants: usize) {
        let head = self.head(numbers, count);
        for _ in 0..count {
            if numbers.below(10) < pointers {
                self.pointer(head, 0);
            } else {
                self.leaf(numbers, constants);
            }
        }
    }

    /// Gives every pointer that names nothing yet a node: a leaf anywhere, or a function by the aim.
    fn aimed(mut self, numbers: &mut Numbers, aim: Aim) -> Vec<u32> {
        let nodes = nodes(&self.table);
        let is_function = |x: usize| self.table[x] >> 16 == 19;
        let (functions, leaves): (Vec<usize>, Vec<usize>) =
            nodes.iter().partition(|&&x| is_function(x));
        for &(at, of) in &self.pointers {
            if self.table[at] != pointer(0) {
                continue;
            }
            let allowed: Vec<usize> = functions
                .iter()
                .copied()
                .filter(|&f| match aim {
                    Aim::Ahead => f > of,
                    Aim::Back => f < of,
                    Aim::Anywhere => true,
                })
                .collect();
            // Without a leaf there is at least the function itself: then the table loops.
            let named = if !allowed.is_empty() && (leaves.is_empty() || !numbers.one_in(2)) {
                allowed[numbers.below(allowed.len())]
            } else if leaves.is_empty() {
                of
            } else {
                leaves[numbers.below(leaves.len())]
            };
            self.table[at] = pointer(named as u16);
        }
        self.table
    }
}

/// The addresses of variables, constants and functions.
pub fn nodes(table: &[u32]) -> Vec<usize> {
    let is_node = |&at: &usize| [16, 18, 19].contains(&(table[at] >> 16));
    (1..table.len()).filter(is_node).collect()
}

fn aim(numbers: &mut Numbers) -> Aim {
    [Aim::Ahead, Aim::Ahead, Aim::Back, Aim::Back, Aim::Anywhere][numbers.below(5)]
}

/// Items of all kinds, with pointers mostly without loops.
pub fn mixed(numbers: &mut Numbers, most_items: usize) -> Vec<u32> {
    let mut row = Row::new(numbers);
    let most_count = 1 + numbers.below(4);
    let (pointers, constants) = (numbers.below(10), numbers.below(6));
    for _ in 0..numbers.below(most_items + 1) {
        if numbers.one_in(3) {
            row.leaf(numbers, constants);
        } else {
            let count = 1 + numbers.below(most_count);
            row.block(numbers, count, pointers, constants);
        }
    }
    let aim = aim(numbers);
    row.aimed(numbers, aim)
}

/// Two chains of functions in functions. Each ends in a leaf, or in a node of the other.
pub fn deep(numbers: &mut Numbers, most_depth: usize) -> Vec<u32> {
    let mut row = Row::new(numbers);
    row.labels = row.labels.min(2);
    let ahead = numbers.one_in(2);
    let count = 1 + numbers.below(2);
    let size = 2 + count;
    let constants = numbers.below(3);
    for _ in 0..2 {
        let depth = 1 + numbers.below(most_depth);
        for i in 0..depth {
            let head = row.table.len();
            row.head(numbers, count);
            let last = if ahead { i + 1 == depth } else { i == 0 };
            match (last, ahead) {
                (true, _) if numbers.one_in(3) => row.pointer(head, 0),
                (true, _) => row.leaf(numbers, constants),
                (false, true) => row.pointer(head, head + size),
                (false, false) => row.pointer(head, head - size),
            }
            if count == 2 && numbers.one_in(2) {
                row.pointer(head, 0);
            } else if count == 2 {
                row.leaf(numbers, constants);
            }
        }
    }
    let aim = if ahead { Aim::Ahead } else { Aim::Back };
    row.aimed(numbers, aim)
}

/// A few blocks of one wide count, or of two that differ by one.
pub fn wide(numbers: &mut Numbers, most_count: usize) -> Vec<u32> {
    let mut row = Row::new(numbers);
    let count = 1 + numbers.below(most_count);
    let (pointers, constants) = (numbers.below(8), numbers.below(3));
    for _ in 0..2 + numbers.below(4) {
        let less = usize::from(count > 1 && numbers.one_in(8));
        row.block(numbers, count - less, pointers, constants);
    }
    let aim = aim(numbers);
    row.aimed(numbers, aim)
}

/// Functions with the next one as each of their arguments, so that terms double at every step; and
/// variables, which a list can chain in the same way.
pub fn doubling(numbers: &mut Numbers) -> Vec<u32> {
    let mut row = Row::new(numbers);
    let steps = 1 + numbers.below(18);
    for i in 0..steps {
        let head = row.head(numbers, 2);
        let next = if i + 1 < steps { head + 4 } else { 0 };
        row.pointer(head, next);
        row.pointer(head, next);
    }
    for _ in 0..numbers.below(16) {
        row.leaf(numbers, 1);
        let variable = row.table.len() - 1;
        let head = row.head(numbers, 2);
        row.pointer(head, variable);
        row.pointer(head, variable);
    }
    row.leaf(numbers, 2);
    row.aimed(numbers, Aim::Ahead)
}

/// The table with a copy of its items behind them: other variables, some in the place of leaves and
/// pointers, and some unnamed, whatever they are copies of. A node and its copy can often be unified.
pub fn with_copy(numbers: &mut Numbers, table: &[u32]) -> Vec<u32> {
    let shift = table.len() as u32 - 1;
    let looser = 1 + numbers.below(12);
    let unnamed = unnamed_of_ten(numbers);
    let mut both = table.to_vec();
    for &word in &table[1..] {
        // Below 65,536 for every table that is copied, and no label of the first half.
        let label = 20_000 + both.len() as u16;
        let fresh = variable(if numbers.below(10) < unnamed {
            0
        } else {
            label
        });
        both.push(match word >> 16 {
            16 => fresh,
            18 | 20 if numbers.one_in(looser) => fresh,
            20 => word + shift,
            _ => word,
        });
    }
    both
}
