//! Random lists of pairs for a table.

use super::graph::Graph;
use super::partition::Partition;
use super::tables::nodes;
use crate::random::Numbers;
use crate::table::MOST_PAIRS;

/// Where the sides of pairs are taken from.
struct Sides<'a> {
    table: &'a [u32],
    nodes: Vec<usize>,
    variables: Vec<usize>,
    /// The left side is any node once in this many times, and else a variable.
    any_node_in: usize,
    /// The first address of a copy of all before it, or 0.
    copy: usize,
}

impl<'a> Sides<'a> {
    fn of(numbers: &mut Numbers, table: &'a [u32], copy: usize) -> Sides<'a> {
        let nodes = nodes(table);
        let is_variable = |&x: &usize| table[x] >> 16 == 16;
        let variables = nodes.iter().copied().filter(is_variable).collect();
        let any_node_in = 1 + numbers.below(6);
        Sides {
            table,
            nodes,
            variables,
            any_node_in,
            copy,
        }
    }

    /// Two nodes, or what an earlier pair had.
    fn pair(&self, numbers: &mut Numbers, before: &[u16]) -> [u16; 2] {
        let mut pair = self.new_pair(numbers);
        match numbers.below(12) {
            0 => pair[1] = pair[0],
            1 | 2 if !before.is_empty() => {
                let at = 2 * numbers.below(before.len() / 2);
                pair = [before[at], before[at + 1]];
            }
            _ => {}
        }
        numbers.shuffle(&mut pair);
        pair
    }

    fn new_pair(&self, numbers: &mut Numbers) -> [u16; 2] {
        let mut one_of = |from: &[usize]| from[numbers.below(from.len())];
        let mut left = one_of(&self.nodes);
        let mut right = one_of(&self.nodes);
        let is_function = self.table[left] >> 16 == 19;
        // Two functions with one symbol: what becomes of them is seen only further down.
        let like = |&x: &usize| {
            self.table[x] == self.table[left] && self.table[x + 1] == self.table[left + 1]
        };
        if is_function && !numbers.one_in(4) {
            let alike: Vec<usize> = self.nodes.iter().copied().filter(like).collect();
            right = alike[numbers.below(alike.len())];
        }
        if !self.variables.is_empty() && !numbers.one_in(self.any_node_in) {
            left = self.variables[numbers.below(self.variables.len())];
        }
        if self.copy > 0 && numbers.one_in(2) {
            // Each node before the copy has a node for its own copy.
            let before = self.nodes.iter().take_while(|&&x| x < self.copy).count();
            left = self.nodes[numbers.below(before)];
            right = left + self.copy - 1;
        }
        [left as u16, right as u16]
    }
}

/// So many pairs, whatever comes of them.
pub fn any(numbers: &mut Numbers, table: &[u32], length: usize, copy: usize) -> Vec<u16> {
    let sides = Sides::of(numbers, table, copy);
    let mut list = Vec::new();
    if !sides.nodes.is_empty() {
        for _ in 0..length {
            let pair = sides.pair(numbers, &list);
            list.extend(pair);
        }
    }
    list
}

/// Up to `length` pairs that a good table accepts, made by leaving out what it would refuse. Half of the
/// lists then go on with a bad pair, if one is soon found, and with others that must not matter.
pub fn long(numbers: &mut Numbers, table: &[u32], length: usize, copy: usize) -> Vec<u16> {
    let sides = Sides::of(numbers, table, copy);
    let graph = Graph::of(table);
    let mut partition = Partition::new(&graph);
    let mut list = Vec::new();
    if sides.nodes.is_empty() {
        return list;
    }
    for _ in 0..length {
        let pair = sides.pair(numbers, &list);
        let next = after(&partition, pair);
        if next.fault().is_none() {
            list.extend(pair);
            partition = next;
        }
    }
    if numbers.one_in(2) && list.len() < 2 * MOST_PAIRS {
        let tried: Vec<[u16; 2]> = (0..10).map(|_| sides.new_pair(numbers)).collect();
        let bad = |pair: &&[u16; 2]| after(&partition, **pair).fault().is_some();
        if let Some(&pair) = tried.iter().find(bad) {
            list.extend(pair);
            for _ in 0..numbers.below(3).min(MOST_PAIRS - list.len() / 2) {
                list.extend(sides.new_pair(numbers));
            }
        }
    }
    list
}

fn after<'a>(partition: &Partition<'a>, pair: [u16; 2]) -> Partition<'a> {
    let mut next = partition.clone();
    next.add(usize::from(pair[0]), usize::from(pair[1]));
    next
}
