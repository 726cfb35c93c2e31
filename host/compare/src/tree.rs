//! Terms as trees, and the fields of problems and texts that are made of them.

use crate::random::Random;

/// A term of a problem or of a text.
#[derive(Clone, Debug, PartialEq, Eq)]
pub enum Tree {
    /// A symbol.
    Symbol(u32),
    /// A variable.
    Variable(u16),
    /// An application of 1 or more terms.
    Apply(Vec<Tree>),
    /// A binder: its number, the variable that it binds, its body.
    Bind(u16, u16, Box<Tree>),
    /// A metavariable.
    Meta(u8),
    /// A function application m(t).
    Call(u8, Box<Tree>),
    /// A hole of a body.
    Hole,
}

/// What a text says of one metavariable.
#[derive(Clone, Debug, PartialEq, Eq)]
pub enum Entry {
    /// It has a value.
    Value(u8, Tree),
    /// It is a function and has a body.
    Body(u8, Tree),
    /// It is open.
    Open(u8),
}

/// A field: tag, length, content.
///
/// # Panics
/// Where the content is longer than a field can be.
pub fn field(tag: u8, content: &[u8]) -> Vec<u8> {
    let length = u16::try_from(content.len()).expect("a field has at most 65,535 bytes");
    let mut bytes = vec![tag];
    bytes.extend(length.to_be_bytes());
    bytes.extend(content);
    bytes
}

impl Tree {
    /// Its bytes, by document 01's table of fields; a symbol has four bytes where two cannot say its number.
    pub fn bytes(&self) -> Vec<u8> {
        match self {
            Tree::Symbol(s) => match u16::try_from(*s) {
                Ok(narrow) => field(1, &narrow.to_be_bytes()),
                Err(_) => field(1, &s.to_be_bytes()),
            },
            Tree::Variable(v) => field(2, &v.to_be_bytes()),
            Tree::Apply(terms) => field(3, &terms.iter().flat_map(Tree::bytes).collect::<Vec<u8>>()),
            Tree::Bind(b, v, body) => field(4, &[&b.to_be_bytes()[..], &v.to_be_bytes(), &body.bytes()].concat()),
            Tree::Meta(m) => field(5, &[*m]),
            Tree::Call(m, argument) => field(6, &[&[*m][..], &argument.bytes()].concat()),
            Tree::Hole => field(10, &[]),
        }
    }

    /// The terms directly inside.
    pub fn inner(&self) -> Vec<&Tree> {
        match self {
            Tree::Apply(terms) => terms.iter().collect(),
            Tree::Bind(_, _, term) | Tree::Call(_, term) => vec![term],
            _ => vec![],
        }
    }

    /// The same, to be changed.
    pub fn inner_mut(&mut self) -> Vec<&mut Tree> {
        match self {
            Tree::Apply(terms) => terms.iter_mut().collect(),
            Tree::Bind(_, _, term) | Tree::Call(_, term) => vec![term],
            _ => vec![],
        }
    }

    /// All its nodes, from the top, left to right.
    pub fn all(&self) -> Vec<&Tree> {
        let inner = self.inner().into_iter().flat_map(Tree::all);
        std::iter::once(self).chain(inner).collect()
    }

    /// How many nodes it has.
    pub fn nodes(&self) -> usize {
        1 + self.inner().into_iter().map(Tree::nodes).sum::<usize>()
    }

    /// The k-th node from the top, left to right, to be changed. There must be one.
    pub fn node_mut(&mut self, k: usize) -> &mut Tree {
        let mut left = k;
        let mut at = self;
        while left > 0 {
            left -= 1;
            at = at
                .inner_mut()
                .into_iter()
                .find(|inner| {
                    let nodes = inner.nodes();
                    let here = left < nodes;
                    if !here {
                        left -= nodes;
                    }
                    here
                })
                .expect("the tree has such a node");
        }
        at
    }
}

/// The bytes of a problem: a pattern and an expression for each constraint.
pub fn problem(constraints: &[(Tree, Tree)]) -> Vec<u8> {
    constraints
        .iter()
        .flat_map(|(pattern, expression)| field(7, &[pattern.bytes(), expression.bytes()].concat()))
        .collect()
}

/// The bytes of a text.
pub fn text(entries: &[Entry]) -> Vec<u8> {
    entries.iter().flat_map(Entry::bytes).collect()
}

impl Entry {
    /// Its field.
    pub fn bytes(&self) -> Vec<u8> {
        match self {
            Entry::Value(m, term) => field(8, &[&[*m][..], &term.bytes()].concat()),
            Entry::Body(m, term) => field(9, &[&[*m][..], &term.bytes()].concat()),
            Entry::Open(m) => field(11, &[*m]),
        }
    }

    /// The number of its metavariable.
    pub fn number(&self) -> u8 {
        match self {
            Entry::Value(m, _) | Entry::Body(m, _) | Entry::Open(m) => *m,
        }
    }

    /// The same, to be changed.
    pub fn number_mut(&mut self) -> &mut u8 {
        match self {
            Entry::Value(m, _) | Entry::Body(m, _) | Entry::Open(m) => m,
        }
    }
}

/// The fields of a text that was written as one.
///
/// # Panics
/// Where it is not one.
pub fn read_text(text: &[u8]) -> Vec<Entry> {
    fields(text)
        .map(|(tag, content)| match tag {
            8 => Entry::Value(content[0], read(&content[1..])),
            9 => Entry::Body(content[0], read(&content[1..])),
            11 => Entry::Open(content[0]),
            _ => panic!("a text has no field of tag {tag}"),
        })
        .collect()
}

/// The expressions of an accepted problem, one for each constraint.
pub fn expressions(problem: &[u8]) -> Vec<Tree> {
    fields(problem)
        .filter_map(|(_, constraint)| fields(constraint).nth(1))
        .map(|(tag, content)| read(&field(tag, content)))
        .collect()
}

/// The one term that the bytes are.
fn read(bytes: &[u8]) -> Tree {
    let (tag, content) = fields(bytes).next().expect("a term has a field");
    let number = |at: usize| u16::from_be_bytes([content[at], content[at + 1]]);
    match tag {
        1 => Tree::Symbol(content.iter().fold(0, |n, byte| n << 8 | u32::from(*byte))),
        2 => Tree::Variable(number(0)),
        3 => Tree::Apply(fields(content).map(|(tag, inner)| read(&field(tag, inner))).collect()),
        4 => Tree::Bind(number(0), number(2), Box::new(read(&content[4..]))),
        10 => Tree::Hole,
        _ => panic!("an expression has no field of tag {tag}"),
    }
}

/// The fields that fill the bytes, each as its tag and content, up to the first that goes past their end.
pub fn fields(bytes: &[u8]) -> impl Iterator<Item = (u8, &[u8])> {
    let mut rest = bytes;
    std::iter::from_fn(move || {
        let (head, after) = rest.split_at_checked(3)?;
        let (content, later) = after.split_at_checked(usize::from(u16::from_be_bytes([head[1], head[2]])))?;
        rest = later;
        Some((head[0], content))
    })
}

/// Where the fields begin, inner ones too, of a problem or a text that was made as one.
pub fn heads(bytes: &[u8]) -> Vec<usize> {
    let mut heads = Vec::new();
    let mut at = 0;
    while at < bytes.len() {
        heads.push(at);
        at += match bytes[at] {
            3 | 7 => 3,
            4 => 7,
            6 | 8 | 9 => 4,
            _ => 3 + usize::from(bytes[at + 2]),
        };
    }
    heads
}

/// Where the high halves of four-byte symbols stand in a problem or a text that was made as one.
pub fn high_halves(bytes: &[u8]) -> Vec<usize> {
    let wide = |at: &usize| bytes[*at..].starts_with(&[1, 0, 4]);
    heads(bytes).into_iter().filter(wide).map(|at| at + 3).collect()
}

/// Leaves a symbol its four bytes and only the low half of its number; false where none has four.
pub fn spell_wide(random: &mut Random, bytes: &mut [u8]) -> bool {
    let wide = high_halves(bytes);
    if wide.is_empty() {
        return false;
    }
    let at = *random.pick(&wide);
    bytes[at..at + 2].fill(0);
    true
}

/// The letters that an accepted problem uses both ways, each with another that does not occur, as long as there are any.
pub fn both_ways(problem: &[u8]) -> Vec<(u8, u8)> {
    let heads = heads(problem);
    let stands = |tag: u8, m: u8| heads.iter().any(|at| problem[*at] == tag && problem[*at + 3] == m);
    let both = (0..32).filter(|m| stands(5, *m) && stands(6, *m));
    let others = (0..32).filter(|m| !stands(5, *m) && !stands(6, *m));
    both.zip(others).collect()
}

/// The problem with the other letter wherever such a letter stands alone.
pub fn apart(problem: &[u8], letters: &[(u8, u8)]) -> Vec<u8> {
    let mut bytes = problem.to_vec();
    for at in heads(problem).into_iter().filter(|at| problem[*at] == 5) {
        if let Some((_, other)) = letters.iter().find(|(m, _)| *m == problem[at + 3]) {
            bytes[at + 3] = *other;
        }
    }
    bytes
}
