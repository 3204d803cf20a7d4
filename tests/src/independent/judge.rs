//! What a job must be answered, and what an accepted job's class table must do as a replacement.

use super::faults;
use super::graph::Graph;
use super::partition::Partition;
use super::replacement;
use super::robinson::{unify, Obstacle, Unified};
use super::terms::{Replacement, TooLarge};
use crate::matching::{accepted, refused, Given};
use crate::table::{CLASH, CYCLE};

/// How far the trees went with a job.
#[derive(Debug)]
pub enum Trees {
    /// The table or the list is refused, so there is nothing to unify.
    NotAsked,
    /// The terms are too large: the answer is the partition's alone.
    TooLarge,
    Apart(Obstacle),
    Unified(Replacement),
}

/// What a job must be answered.
pub fn judge(table: &[u32], list: &[u16], class_room: usize, work_room: usize) -> (Given, Trees) {
    if let Some((answer, place)) = faults::of_table(table, class_room, work_room) {
        return (refused(answer, place), Trees::NotAsked);
    }
    let graph = Graph::of(table);
    if let Some((answer, place)) = faults::of_list(&graph, list) {
        return (refused(answer, place), Trees::NotAsked);
    }
    let pairs = pairs(list);
    match unify(&graph, &pairs) {
        Err(TooLarge) => (by_partition(&graph, &pairs), Trees::TooLarge),
        Ok(Unified::By(unifier)) => {
            let mut partition = Partition::new(&graph);
            for &(left, right) in &pairs {
                partition.add(left, right);
            }
            assert_eq!(partition.fault(), None, "trees unify, nodes do not");
            (class_table(&partition), Trees::Unified(unifier))
        }
        Ok(Unified::Not(place, obstacle)) => {
            let wanted = by_partition(&graph, &pairs);
            assert_eq!(usize::from(wanted.place), place, "the first bad pair");
            // An occurrence may have been met before a clash of the same pair, but not in its stead.
            if obstacle == Obstacle::Symbols {
                assert_eq!(wanted.answer, CLASH, "trees clash, nodes do not");
            }
            (wanted, Trees::Apart(obstacle))
        }
    }
}

/// What the check of a table must give. Where it accepts, too, the class entries are 0.
pub fn check(table: &[u32], class_room: usize, work_room: usize) -> Given {
    match faults::of_table(table, class_room, work_room) {
        Some((answer, place)) => refused(answer, place),
        None => accepted(&vec![0; table.len()], 0),
    }
}

pub fn pairs(list: &[u16]) -> Vec<(usize, usize)> {
    let address = |i: usize| usize::from(list[i]);
    (0..list.len() / 2)
        .map(|i| (address(2 * i), address(2 * i + 1)))
        .collect()
}

/// The answer to a list by the definitions on nodes: the first number of pairs that has a fault.
pub fn by_partition(graph: &Graph, pairs: &[(usize, usize)]) -> Given {
    let mut partition = Partition::new(graph);
    for (i, &(left, right)) in pairs.iter().enumerate() {
        partition.add(left, right);
        if let Some(answer) = partition.fault() {
            assert!(answer == CLASH || answer == CYCLE);
            return refused(answer, i + 1);
        }
    }
    class_table(&partition)
}

fn class_table(partition: &Partition) -> Given {
    accepted(&partition.entries(), partition.joins() as u16)
}

/// What a class table of an accepted job does wrong as a replacement, against a most general unifier.
/// Too large where a term that would have to be looked at is.
pub fn wrong_as_replacement(
    table: &[u32],
    list: &[u16],
    classes: &[u16],
    unifier: &Replacement,
) -> Result<Option<String>, TooLarge> {
    let graph = Graph::of(table);
    let answer = replacement::of_classes(&graph, classes)?;
    if let Some(pair) = replacement::first_left_apart(&graph, &pairs(list), &answer)? {
        return Ok(Some(format!("pair {pair} is not made one term")));
    }
    if let Some(x) = replacement::first_changed(&graph, &answer, unifier)? {
        return Ok(Some(format!("variable {x} is bound more than it must be")));
    }
    if let Some(x) = replacement::first_changed(&graph, unifier, &answer)? {
        return Ok(Some(format!("variable {x} is bound less than it must be")));
    }
    if let Some(node) = replacement::first_unlike_its_name(&graph, classes, unifier)? {
        return Ok(Some(format!("node {node} has not its class name's term")));
    }
    if let Some((x, y)) = replacement::first_needlessly_apart(&graph, classes, unifier)? {
        return Ok(Some(format!(
            "variables {x} and {y} are one, in two classes"
        )));
    }
    Ok(None)
}
