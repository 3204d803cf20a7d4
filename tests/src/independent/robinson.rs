//! Robinson's algorithm: find the leftmost place where two terms differ, replace the variable there in
//! everything, and begin again.

use super::graph::Graph;
use super::terms::{below, Replacement, Symbols, Term, TooLarge};
use super::MOST_SYMBOLS;

/// Why two terms have no unifier, by the first difference that none can remove. Another difference
/// might have been found first by another order, so this is not yet document 01's number.
#[derive(Clone, Copy, Debug, PartialEq)]
pub enum Obstacle {
    Symbols,
    Occurs,
}

#[derive(Debug)]
pub enum Unified {
    /// A most general unifier of all pairs, already applied to its own terms.
    By(Replacement),
    /// The number of the first pair that cannot be unified together with those before it.
    Not(usize, Obstacle),
}

/// The unifier of a list of pairs, taken one after the other.
pub fn unify(graph: &Graph, pairs: &[(usize, usize)]) -> Result<Unified, TooLarge> {
    let mut unifier = Replacement::new();
    for (i, &(left, right)) in pairs.iter().enumerate() {
        if let Some(obstacle) = add_pair(graph, left, right, &mut unifier)? {
            return Ok(Unified::Not(i + 1, obstacle));
        }
    }
    Ok(Unified::By(unifier))
}

fn add_pair(
    graph: &Graph,
    left: usize,
    right: usize,
    unifier: &mut Replacement,
) -> Result<Option<Obstacle>, TooLarge> {
    let term = |node: usize| {
        let unfolded = below(graph, node, &mut Symbols(MOST_SYMBOLS))?;
        unfolded.under(unifier, &mut Symbols(MOST_SYMBOLS))
    };
    let (mut left, mut right) = (term(left)?, term(right)?);
    while let Some(found) = difference(&left, &right) {
        let (x, term) = match found {
            (Term::Var(x), term) | (term, Term::Var(x)) => (*x, term.clone()),
            _ => return Ok(Some(Obstacle::Symbols)),
        };
        if term.holds(x) {
            return Ok(Some(Obstacle::Occurs));
        }
        let step = Replacement::from([(x, term)]);
        left = left.under(&step, &mut Symbols(MOST_SYMBOLS))?;
        right = right.under(&step, &mut Symbols(MOST_SYMBOLS))?;
        then(unifier, step)?;
    }
    Ok(None)
}

/// The leftmost two subterms at one place that are neither one variable nor under one symbol.
fn difference<'a>(left: &'a Term, right: &'a Term) -> Option<(&'a Term, &'a Term)> {
    match (left, right) {
        (Term::Var(x), Term::Var(y)) if x == y => None,
        (Term::App(f, lefts), Term::App(g, rights)) if f == g => {
            let mut both = lefts.iter().zip(rights);
            both.find_map(|(left, right)| difference(left, right))
        }
        _ => Some((left, right)),
    }
}

/// The unifier followed by one more step. Its variables are replaced already, so the step's is new.
fn then(unifier: &mut Replacement, step: Replacement) -> Result<(), TooLarge> {
    let mut left = Symbols(MOST_SYMBOLS);
    for image in unifier.values_mut() {
        *image = image.under(&step, &mut left)?;
    }
    unifier.extend(step);
    Ok(())
}
