//! The table of document 01, read word by word as the document says it and with no care for speed; names as
//! document 02, E1, amends them.

use crate::table::{LAYOUT, LOOP, MOST_WORDS, NAME, POINTER, SIZE, WORD};

#[derive(Clone, Copy, Debug, PartialEq)]
pub enum Word {
    Variable(u16),
    Constant(u16),
    Function(u16),
    Pointer(usize),
    Count(usize),
}

/// A word by its tag; nothing where there is no such word. A count is 1 to 255.
fn word(number: u32) -> Option<Word> {
    let content = number as u16;
    match number >> 16 {
        16 => Some(Word::Variable(content)),
        18 => Some(Word::Constant(content)),
        19 => Some(Word::Function(content)),
        20 => Some(Word::Pointer(usize::from(content))),
        24 if (1..256).contains(&content) => Some(Word::Count(usize::from(content))),
        _ => None,
    }
}

/// A table that passes its check: its words from address 1, behind a word that is none.
pub struct Graph {
    words: Vec<Option<Word>>,
}

impl Graph {
    /// The table, or the answer 1 or 3 to 7 with its place. Room is not looked at.
    pub fn of(table: &[u32]) -> Result<Graph, (u16, usize)> {
        let n = table.len();
        if n == 0 || n > MOST_WORDS {
            return Err((SIZE, 0));
        }
        let graph = Graph {
            words: table.iter().map(|&number| word(number)).collect(),
        };
        let bad = |a: &usize| {
            if *a == 0 {
                table[0] != 0
            } else {
                graph.words[*a].is_none()
            }
        };
        if let Some(a) = (0..n).find(bad) {
            return Err((WORD, a));
        }
        graph.layout(1).map_err(|a| (LAYOUT, a))?;
        let to_no_node =
            |a: &usize| matches!(graph.words[*a], Some(Word::Pointer(to)) if !graph.is_node(to));
        if let Some(a) = (1..n).find(to_no_node) {
            return Err((POINTER, a));
        }
        // Document 02, E1: "6 is no longer given for label 0."
        let repeats = |a: &usize| match graph.words[*a] {
            Some(Word::Variable(0)) => false,
            Some(Word::Variable(_)) => graph.words[1..*a].iter().any(|w| *w == graph.words[*a]),
            _ => false,
        };
        if let Some(a) = (1..n).find(repeats) {
            return Err((NAME, a));
        }
        let own: Vec<usize> = (0..n).collect();
        if graph.some_class_reaches_itself(&own) {
            return Err((LOOP, 0));
        }
        Ok(graph)
    }

    /// Whether items stand from an address on, or the first word that cannot stand where it does.
    fn layout(&self, at: usize) -> Result<(), usize> {
        let n = self.words.len();
        if at == n {
            return Ok(());
        }
        match self.words[at] {
            Some(Word::Variable(_) | Word::Constant(_)) => self.layout(at + 1),
            Some(Word::Function(_)) => match self.words.get(at + 1) {
                Some(Some(Word::Count(k))) => {
                    let is_argument = |a: usize| {
                        let argument = self.words.get(a).copied().flatten();
                        !matches!(argument, None | Some(Word::Function(_) | Word::Count(_)))
                    };
                    match (at + 2..at + 2 + k).find(|&a| !is_argument(a)) {
                        Some(a) => Err(a),
                        None => self.layout(at + 2 + k),
                    }
                }
                _ => Err(at + 1),
            },
            _ => Err(at),
        }
    }

    pub fn is_node(&self, address: usize) -> bool {
        use Word::{Constant, Function, Variable};
        let word = self.words.get(address).copied().flatten();
        matches!(word, Some(Variable(_) | Constant(_) | Function(_)))
    }

    pub fn is_variable(&self, address: usize) -> bool {
        matches!(self.words[address], Some(Word::Variable(_)))
    }

    pub fn nodes(&self) -> Vec<usize> {
        (0..self.words.len()).filter(|&a| self.is_node(a)).collect()
    }

    /// The label with the argument count; nothing for a variable.
    pub fn symbol(&self, node: usize) -> Option<(u16, usize)> {
        match self.words[node] {
            Some(Word::Constant(label)) => Some((label, 0)),
            Some(Word::Function(label)) => Some((label, self.children(node).len())),
            _ => None,
        }
    }

    pub fn children(&self, node: usize) -> Vec<usize> {
        if !matches!(self.words[node], Some(Word::Function(_))) {
            return Vec::new();
        }
        let count = match self.words[node + 1] {
            Some(Word::Count(k)) => k,
            _ => unreachable!("a function's next word is its count"),
        };
        let arguments = node + 2..node + 2 + count;
        let named = |a: usize| match self.words[a] {
            Some(Word::Pointer(to)) => to,
            _ => a,
        };
        arguments.map(named).collect()
    }

    /// Whether a class reaches itself through children, where each node's class is given: all that
    /// is reached from a class is collected step by step.
    pub fn some_class_reaches_itself(&self, class: &[usize]) -> bool {
        let below = |of: usize| -> Vec<usize> {
            let members = self.nodes().into_iter().filter(|&x| class[x] == of);
            let children = members.flat_map(|x| self.children(x));
            children.map(|child| class[child]).collect()
        };
        self.nodes().into_iter().any(|x| {
            let mut reached = below(class[x]);
            let mut looked_at = 0;
            while looked_at < reached.len() {
                for next in below(reached[looked_at]) {
                    if !reached.contains(&next) {
                        reached.push(next);
                    }
                }
                looked_at += 1;
            }
            reached.contains(&class[x])
        })
    }
}
