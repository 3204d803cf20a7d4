//! A match by the definitions of document 01, with no care for speed: the classes of the first k
//! pairs for k = 0, 1, 2, .. until they have a clash or a cycle.

use crate::matching::{accepted, refused, Given};
use crate::table::{ADDRESS, CLASH, CYCLE, LIST, MOST_PAIRS, ROOM, SIZE};
use crate::table_reference::Graph;

/// What document 01 says that a match gives, in buffers of these lengths.
pub fn reference(table: &[u32], list: &[u16], class_room: usize, work_room: usize) -> Given {
    let n = table.len();
    let checked = Graph::of(table);
    if let Err((SIZE, place)) = checked {
        return refused(SIZE, place);
    }
    if class_room < n || work_room < 4 * n {
        return refused(ROOM, 0);
    }
    match checked {
        Err((answer, place)) => refused(answer, place),
        Ok(graph) => list_reference(&graph, n, list),
    }
}

fn list_reference(graph: &Graph, n: usize, list: &[u16]) -> Given {
    if list.len() % 2 == 1 || list.len() > 2 * MOST_PAIRS {
        return refused(LIST, 0);
    }
    let pairs: Vec<[usize; 2]> = list.chunks(2).map(|p| [p[0].into(), p[1].into()]).collect();
    let bad = |p: &[usize; 2]| p.iter().any(|&side| !graph.is_node(side));
    if let Some(k) = pairs.iter().position(bad) {
        return refused(ADDRESS, k + 1);
    }
    for k in 0..=pairs.len() {
        let class = partition(graph, n, &pairs[..k]);
        if has_clash(graph, &class) {
            return refused(CLASH, k);
        }
        if graph.some_class_reaches_itself(&class) {
            return refused(CYCLE, k);
        }
        if k == pairs.len() {
            return named(graph, n, &class);
        }
    }
    unreachable!("all pairs were looked at")
}

/// The smallest partition, by a class number for each node: each node by itself, then the sides of
/// each pair together, then children place by place until nothing changes.
fn partition(graph: &Graph, n: usize, pairs: &[[usize; 2]]) -> Vec<usize> {
    let mut class: Vec<usize> = (0..n).collect();
    for &[left, right] in pairs {
        together(&mut class, left, right);
    }
    let functions: Vec<usize> = graph
        .nodes()
        .into_iter()
        .filter(|&x| !graph.children(x).is_empty())
        .collect();
    loop {
        let before = class.clone();
        for &f in &functions {
            for &g in &functions {
                if class[f] == class[g] && graph.symbol(f) == graph.symbol(g) {
                    for (x, y) in graph.children(f).into_iter().zip(graph.children(g)) {
                        together(&mut class, x, y);
                    }
                }
            }
        }
        if class == before {
            return class;
        }
    }
}

fn together(class: &mut [usize], x: usize, y: usize) {
    let (from, to) = (class[x], class[y]);
    for entry in class.iter_mut().filter(|entry| **entry == from) {
        *entry = to;
    }
}

fn has_clash(graph: &Graph, class: &[usize]) -> bool {
    let symbols: Vec<(usize, (u16, usize))> = graph
        .nodes()
        .into_iter()
        .filter_map(|x| graph.symbol(x).map(|s| (class[x], s)))
        .collect();
    let clash = |one: &(usize, (u16, usize))| {
        symbols
            .iter()
            .any(|other| one.0 == other.0 && one.1 != other.1)
    };
    symbols.iter().any(clash)
}

/// The class table and the joins.
fn named(graph: &Graph, n: usize, class: &[usize]) -> Given {
    let nodes = graph.nodes();
    let name = |of: usize| {
        let members = || nodes.iter().copied().filter(|&x| class[x] == of);
        let of_a_term = members().find(|&x| !graph.is_variable(x));
        of_a_term.or_else(|| members().next()).unwrap_or(0)
    };
    let mut table = vec![0_u16; n];
    for &x in &nodes {
        table[x] = name(class[x]) as u16;
    }
    let classes = nodes
        .iter()
        .filter(|&&x| usize::from(table[x]) == x)
        .count();
    accepted(&table, (nodes.len() - classes) as u16)
}
