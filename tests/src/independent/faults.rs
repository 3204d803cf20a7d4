//! What is wrong with a table (1 to 7) and with a list (8 and 9), each number by its line of document 01,
//! and 6 as document 02, E1, has it.

use super::graph::{read, some_reaches_itself, Graph, Kind};
use crate::table::{ADDRESS, LAYOUT, LIST, LOOP, NAME, POINTER, ROOM, SIZE, WORD};

/// An answer and its place.
pub type Fault = (u16, usize);

/// What is wrong with a table and the rooms lent with it: the lowest number that applies.
pub fn of_table(table: &[u32], class_room: usize, work_room: usize) -> Option<Fault> {
    let n = table.len();
    if n == 0 || n > 4_096 {
        return Some((SIZE, 0));
    }
    if class_room < n || work_room < 4 * n {
        return Some((ROOM, 0));
    }
    if let Some(at) = no_word(table) {
        return Some((WORD, at));
    }
    // Word 0 is of no kind. It stands here as a count, which nothing may name and which is no node.
    let mut row = vec![(Kind::Count, 0)];
    row.extend(table[1..].iter().filter_map(|&word| read(word)));
    if let Some(at) = broken_row(&row) {
        return Some((LAYOUT, at));
    }
    if let Some(at) = (1..n).find(|&at| bad_pointer(&row, at)) {
        return Some((POINTER, at));
    }
    if let Some(at) = (1..n).find(|&at| taken_name(&row, at)) {
        return Some((NAME, at));
    }
    let graph = Graph::of(table);
    let steps: Vec<Vec<usize>> = (0..n).map(|x| graph.children(x).to_vec()).collect();
    if some_reaches_itself(&steps) {
        return Some((LOOP, 0));
    }
    None
}

fn no_word(table: &[u32]) -> Option<usize> {
    (0..table.len()).find(|&at| match at {
        0 => table[0] != 0,
        _ => read(table[at]).is_none(),
    })
}

/// The first word that cannot stand where it is; the end where a block runs past it.
fn broken_row(row: &[(Kind, usize)]) -> Option<usize> {
    let mut at = 1;
    while at < row.len() {
        let mut expected = vec![[Kind::Variable, Kind::Constant, Kind::Function]];
        if row[at].0 == Kind::Function {
            expected.push([Kind::Count; 3]);
            if let Some(&(Kind::Count, count)) = row.get(at + 1) {
                let argument = [Kind::Variable, Kind::Constant, Kind::Pointer];
                expected.extend(vec![argument; count]);
            }
        }
        for may_stand in expected {
            if at == row.len() || !may_stand.contains(&row[at].0) {
                return Some(at);
            }
            at += 1;
        }
    }
    None
}

fn bad_pointer(row: &[(Kind, usize)], at: usize) -> bool {
    let (kind, named) = row[at];
    kind == Kind::Pointer && (named == 0 || named >= row.len() || !row[named].0.is_node())
}

/// Document 02, E1: "such words may repeat", those of label 0; "other labels still may not repeat".
fn taken_name(row: &[(Kind, usize)], at: usize) -> bool {
    let (kind, label) = row[at];
    kind == Kind::Variable && label != 0 && row[1..at].contains(&row[at])
}

/// What is wrong with a list for a good table.
pub fn of_list(graph: &Graph, list: &[u16]) -> Option<Fault> {
    if list.len() % 2 == 1 || list.len() > 512 {
        return Some((LIST, 0));
    }
    let bad = |&side: &u16| !graph.is_node(usize::from(side));
    for (i, pair) in list.chunks(2).enumerate() {
        if pair.iter().any(bad) {
            return Some((ADDRESS, i + 1));
        }
    }
    None
}
