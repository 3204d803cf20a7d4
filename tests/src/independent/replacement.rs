//! The answer as a replacement, made from a class table by document 01's rule, and what it must do: make
//! both sides of each pair one term, and leave open all that a most general unifier leaves open.

use super::graph::Graph;
use super::terms::{below, Replacement, Symbols, Term, TooLarge};
use super::MOST_SYMBOLS;

/// What a class table says of every variable. A wrong class table may have no such answer; it is then
/// too large, since its terms never end.
pub fn of_classes(graph: &Graph, classes: &[u16]) -> Result<Replacement, TooLarge> {
    let mut left = Symbols(MOST_SYMBOLS);
    let variables = graph.variables().into_iter();
    variables
        .map(|x| Ok((x, answer(graph, classes, x, &mut left)?)))
        .collect()
}

fn answer(graph: &Graph, classes: &[u16], x: usize, left: &mut Symbols) -> Result<Term, TooLarge> {
    let name = usize::from(classes[x]);
    if graph.is_variable(name) {
        left.take_one()?;
        return Ok(Term::Var(name));
    }
    resolved(graph, classes, name, left)
}

/// The term below a node with each variable replaced by its answer.
fn resolved(
    graph: &Graph,
    classes: &[u16],
    node: usize,
    left: &mut Symbols,
) -> Result<Term, TooLarge> {
    let symbol = match graph.symbol(node) {
        None => return answer(graph, classes, node, left),
        Some(symbol) => symbol,
    };
    left.take_one()?;
    let children = graph.children(node).iter();
    let arguments: Result<_, _> = children
        .map(|&child| resolved(graph, classes, child, left))
        .collect();
    Ok(Term::App(symbol, arguments?))
}

fn under(graph: &Graph, node: usize, by: &Replacement) -> Result<Term, TooLarge> {
    let term = below(graph, node, &mut Symbols(MOST_SYMBOLS))?;
    term.under(by, &mut Symbols(MOST_SYMBOLS))
}

/// The first pair whose sides the replacement leaves different, by its number.
pub fn first_left_apart(
    graph: &Graph,
    pairs: &[(usize, usize)],
    by: &Replacement,
) -> Result<Option<usize>, TooLarge> {
    for (i, &(left, right)) in pairs.iter().enumerate() {
        if under(graph, left, by)? != under(graph, right, by)? {
            return Ok(Some(i + 1));
        }
    }
    Ok(None)
}

/// The first variable that becomes another term by `first` and then `second` than by `second` alone.
/// Where there is none, `second` is `first` with more replaced.
pub fn first_changed(
    graph: &Graph,
    first: &Replacement,
    second: &Replacement,
) -> Result<Option<usize>, TooLarge> {
    for x in graph.variables() {
        let both = under(graph, x, first)?.under(second, &mut Symbols(MOST_SYMBOLS))?;
        if both != under(graph, x, second)? {
            return Ok(Some(x));
        }
    }
    Ok(None)
}

/// The first node that a replacement gives another term than the name of its class.
pub fn first_unlike_its_name(
    graph: &Graph,
    classes: &[u16],
    by: &Replacement,
) -> Result<Option<usize>, TooLarge> {
    let named_by_another = |&&node: &&usize| usize::from(classes[node]) != node;
    for &node in graph.nodes.iter().filter(named_by_another) {
        if under(graph, node, by)? != under(graph, usize::from(classes[node]), by)? {
            return Ok(Some(node));
        }
    }
    Ok(None)
}

/// The first two variables in different classes of variables only that a replacement makes one term.
pub fn first_needlessly_apart(
    graph: &Graph,
    classes: &[u16],
    by: &Replacement,
) -> Result<Option<(usize, usize)>, TooLarge> {
    let open = |&x: &usize| usize::from(classes[x]) == x;
    let mut seen: Vec<(usize, Term)> = Vec::new();
    for x in graph.variables().into_iter().filter(open) {
        let term = under(graph, x, by)?;
        if let Some((y, _)) = seen.iter().find(|(_, other)| *other == term) {
            return Ok(Some((*y, x)));
        }
        seen.push((x, term));
    }
    Ok(None)
}
