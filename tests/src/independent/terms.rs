//! First-order terms as trees. Variables are told apart by their addresses.

use super::graph::{Graph, Symbol};
use std::collections::BTreeMap;

#[derive(Clone, Debug, PartialEq)]
pub enum Term {
    Var(usize),
    /// A constant is a symbol of count 0 on no terms.
    App(Symbol, Vec<Term>),
}

/// What stands for each variable; one that is not in it stands for itself.
pub type Replacement = BTreeMap<usize, Term>;

/// More symbols than there may be.
#[derive(Debug, PartialEq)]
pub struct TooLarge;

/// How many symbols may still be made.
pub struct Symbols(pub usize);

impl Symbols {
    pub fn take_one(&mut self) -> Result<(), TooLarge> {
        self.0 = self.0.checked_sub(1).ok_or(TooLarge)?;
        Ok(())
    }
}

/// The term below a node.
pub fn below(graph: &Graph, node: usize, left: &mut Symbols) -> Result<Term, TooLarge> {
    left.take_one()?;
    let symbol = match graph.symbol(node) {
        None => return Ok(Term::Var(node)),
        Some(symbol) => symbol,
    };
    let children = graph.children(node).iter();
    let arguments: Result<_, _> = children.map(|&child| below(graph, child, left)).collect();
    Ok(Term::App(symbol, arguments?))
}

impl Term {
    /// The term with every variable replaced, all at once.
    pub fn under(&self, by: &Replacement, left: &mut Symbols) -> Result<Term, TooLarge> {
        match self {
            Term::Var(x) => match by.get(x) {
                Some(image) => image.copy(left),
                None => self.copy(left),
            },
            Term::App(symbol, arguments) => {
                left.take_one()?;
                let arguments: Result<_, _> =
                    arguments.iter().map(|term| term.under(by, left)).collect();
                Ok(Term::App(*symbol, arguments?))
            }
        }
    }

    fn copy(&self, left: &mut Symbols) -> Result<Term, TooLarge> {
        left.0 = left.0.checked_sub(self.size()).ok_or(TooLarge)?;
        Ok(self.clone())
    }

    /// The number of symbols, variables among them.
    pub fn size(&self) -> usize {
        match self {
            Term::Var(_) => 1,
            Term::App(_, arguments) => 1 + arguments.iter().map(Term::size).sum::<usize>(),
        }
    }

    pub fn holds(&self, x: usize) -> bool {
        match self {
            Term::Var(y) => x == *y,
            Term::App(_, arguments) => arguments.iter().any(|term| term.holds(x)),
        }
    }
}
