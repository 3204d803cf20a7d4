//! A table that passed its check, as nodes with symbols and children.

#[derive(Clone, Copy, Debug, PartialEq)]
pub enum Kind {
    Variable,
    Constant,
    Function,
    Pointer,
    Count,
}

impl Kind {
    pub fn is_node(self) -> bool {
        [Kind::Variable, Kind::Constant, Kind::Function].contains(&self)
    }
}

/// The kind and the content of a word behind word 0; nothing where document 01 knows no such word.
pub fn read(word: u32) -> Option<(Kind, usize)> {
    let content = (word % 65_536) as usize;
    // A bit above the tag makes this quotient greater than every tag.
    let kind = match word / 65_536 {
        16 => Kind::Variable,
        18 => Kind::Constant,
        19 => Kind::Function,
        20 => Kind::Pointer,
        24 => Kind::Count,
        _ => return None,
    };
    if kind == Kind::Count && (content == 0 || content > 255) {
        return None;
    }
    Some((kind, content))
}

/// A label with its argument count; a constant counts 0.
#[derive(Clone, Copy, Debug, PartialEq)]
pub struct Symbol {
    pub label: usize,
    pub count: usize,
}

pub struct Graph {
    /// The addresses of the nodes, in order.
    pub nodes: Vec<usize>,
    /// By address: the symbol of a constant or function.
    symbols: Vec<Option<Symbol>>,
    /// By address: the children of a function.
    children: Vec<Vec<usize>>,
}

impl Graph {
    /// The nodes of a table whose words, layout and pointers are good.
    pub fn of(table: &[u32]) -> Graph {
        let word = |at: usize| read(table[at]).expect("a good word");
        let mut graph = Graph {
            nodes: Vec::new(),
            symbols: vec![None; table.len()],
            children: vec![Vec::new(); table.len()],
        };
        for at in 1..table.len() {
            let (kind, label) = word(at);
            if !kind.is_node() {
                continue;
            }
            graph.nodes.push(at);
            if kind == Kind::Constant {
                graph.symbols[at] = Some(Symbol { label, count: 0 });
            }
            if kind == Kind::Function {
                let (_, count) = word(at + 1);
                graph.symbols[at] = Some(Symbol { label, count });
                for argument in at + 2..at + 2 + count {
                    graph.children[at].push(match word(argument) {
                        (Kind::Pointer, named) => named,
                        _ => argument,
                    });
                }
            }
        }
        graph
    }

    pub fn words(&self) -> usize {
        self.symbols.len()
    }

    pub fn is_node(&self, address: usize) -> bool {
        self.nodes.contains(&address)
    }

    /// The symbol of a node; a variable has none.
    pub fn symbol(&self, node: usize) -> Option<Symbol> {
        self.symbols[node]
    }

    pub fn is_variable(&self, node: usize) -> bool {
        self.symbols[node].is_none()
    }

    pub fn children(&self, node: usize) -> &[usize] {
        &self.children[node]
    }

    pub fn variables(&self) -> Vec<usize> {
        let all = self.nodes.iter().copied();
        all.filter(|&x| self.is_variable(x)).collect()
    }

    pub fn functions(&self) -> Vec<usize> {
        let all = self.nodes.iter().copied();
        all.filter(|&x| !self.children[x].is_empty()).collect()
    }
}

/// Whether something reaches itself by one or more steps: from each in turn, all that it reaches.
pub fn some_reaches_itself(steps: &[Vec<usize>]) -> bool {
    let mut starts = (0..steps.len()).filter(|&x| !steps[x].is_empty());
    starts.any(|start| {
        let mut reached = vec![false; steps.len()];
        let mut open = steps[start].clone();
        while let Some(next) = open.pop() {
            if !reached[next] {
                reached[next] = true;
                open.extend(&steps[next]);
            }
        }
        reached[start]
    })
}
