//! Document 01's partition, as a row that gives each node the number of its set. Putting two sets
//! together goes over the whole row; closing goes over all functions by twos until nothing changes.

use super::graph::{some_reaches_itself, Graph};
use crate::table::{CLASH, CYCLE};

#[derive(Clone)]
pub struct Partition<'a> {
    graph: &'a Graph,
    set: Vec<usize>,
}

impl<'a> Partition<'a> {
    /// Every node alone.
    pub fn new(graph: &'a Graph) -> Partition<'a> {
        let set = (0..graph.words()).collect();
        Partition { graph, set }
    }

    fn together(&mut self, left: usize, right: usize) -> bool {
        let (old, new) = (self.set[left], self.set[right]);
        if old == new {
            return false;
        }
        for set in &mut self.set {
            if *set == old {
                *set = new;
            }
        }
        true
    }

    /// The smallest such equivalence that has this pair together as well.
    pub fn add(&mut self, left: usize, right: usize) {
        let functions = self.graph.functions();
        let mut changed = self.together(left, right);
        while changed {
            changed = false;
            for &f in &functions {
                for &g in &functions {
                    let together = f < g && self.set[f] == self.set[g];
                    if together && self.graph.symbol(f) == self.graph.symbol(g) {
                        for (&x, &y) in self.graph.children(f).iter().zip(self.graph.children(g)) {
                            changed |= self.together(x, y);
                        }
                    }
                }
            }
        }
    }

    /// The nodes of each set, in order.
    fn classes(&self) -> Vec<Vec<usize>> {
        let mut classes = vec![Vec::new(); self.set.len()];
        for &node in &self.graph.nodes {
            classes[self.set[node]].push(node);
        }
        classes
    }

    /// The number of the fault that the partition has: a clash before a cycle.
    pub fn fault(&self) -> Option<u16> {
        let classes = self.classes();
        for class in &classes {
            let mut symbols = class.iter().filter_map(|&node| self.graph.symbol(node));
            if let Some(first) = symbols.next() {
                if symbols.any(|other| other != first) {
                    return Some(CLASH);
                }
            }
        }
        let below = |&node: &usize| self.graph.children(node).iter().map(|&x| self.set[x]);
        let steps: Vec<Vec<usize>> = classes
            .iter()
            .map(|class| class.iter().flat_map(below).collect())
            .collect();
        if some_reaches_itself(&steps) {
            return Some(CYCLE);
        }
        None
    }

    /// The class table.
    pub fn entries(&self) -> Vec<u16> {
        let mut entries = vec![0; self.graph.words()];
        for class in self.classes() {
            let terms = class.iter().filter(|&&node| !self.graph.is_variable(node));
            if let Some(&name) = terms.min().or_else(|| class.iter().min()) {
                for node in class {
                    entries[node] = name as u16;
                }
            }
        }
        entries
    }

    /// Nodes less classes.
    pub fn joins(&self) -> usize {
        let classes = self.classes();
        let used = classes.iter().filter(|class| !class.is_empty()).count();
        self.graph.nodes.len() - used
    }
}
