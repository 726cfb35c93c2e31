//! Wrong comparers of two nodes, over the second implementation: a comparison of pairs that lets one pass says nothing
//! about it.

use crate::nodes::{nodes, Binder, Node};
use crate::pairs::inside_one;
use crate::tree::{self, Tree};
use crate::vectors;
use second::Compared;

/// A way to be wrong.
#[derive(Clone, Copy, Debug, PartialEq, Eq)]
pub enum WrongPairs {
    /// Counts one pair too few at a disagreement.
    CountsTooFew,
    /// Counts at a disagreement as if the loop went on to the end of the smaller one.
    CountsAll,
    /// Compares bound names.
    ComparesNames,
    /// Compares symbols of four bytes by their low half.
    ComparesLowHalves,
    /// Compares variables that are bound outside by their names.
    NamesOutside,
    /// Compares them by how many binders their binder stands under.
    DepthsOutside,
    /// Takes two variables of one binder as equal, although it stands inside one node and outside the other.
    InsideIsOutside,
    /// Says yes to all.
    SaysYes,
    /// Says no to all, at the first pair.
    SaysNo,
    /// Does not know the last node.
    MissesTheLast,
}

impl WrongPairs {
    /// All of them.
    pub const ALL: [WrongPairs; 10] = [
        WrongPairs::CountsTooFew,
        WrongPairs::CountsAll,
        WrongPairs::ComparesNames,
        WrongPairs::ComparesLowHalves,
        WrongPairs::NamesOutside,
        WrongPairs::DepthsOutside,
        WrongPairs::InsideIsOutside,
        WrongPairs::SaysYes,
        WrongPairs::SaysNo,
        WrongPairs::MissesTheLast,
    ];

    /// What it prints in place of `vectors_texts`.
    pub fn prints(self, input: &str) -> String {
        printed(input, |two| self.says(two))
    }

    /// What it says of two nodes: what is right where its fault does not show.
    fn says(self, two: &Two) -> Option<Compared> {
        if self == WrongPairs::MissesTheLast && two.has_the_last() {
            return None;
        }
        let [left, right] = two.both();
        let smaller = left.size.min(right.size);
        let wrong = match self {
            WrongPairs::CountsTooFew if !two.answer.equal => Some(no(two.answer.pairs - 1)),
            WrongPairs::CountsAll if !two.answer.equal => Some(no(smaller)),
            WrongPairs::ComparesNames => two.changed(number_by_name),
            WrongPairs::ComparesLowHalves => two.changed(narrow),
            WrongPairs::NamesOutside => apart(left.tree, right.tree),
            WrongPairs::DepthsOutside => apart(&left.alone(Binder::depth_symbol), &right.alone(Binder::depth_symbol)),
            WrongPairs::InsideIsOutside => two.inside_as_outside(),
            WrongPairs::SaysYes => Some(yes(smaller)),
            WrongPairs::SaysNo => Some(no(1)),
            _ => None,
        };
        wrong.or(Some(two.answer))
    }
}

/// What is printed by one that is not wrong, and takes two subexpressions out of their problem as the wrong ones do: what
/// these are caught for is their fault and nothing else.
pub fn right(input: &str) -> String {
    printed(input, |two| {
        let [left, right] = two.both();
        apart(&left.alone(Binder::symbol), &right.alone(Binder::symbol)).or(Some(two.answer))
    })
}

/// What is printed where this is said of two nodes that are there, and all else is right.
fn printed(input: &str, says: impl Fn(&Two) -> Option<Compared>) -> String {
    vectors::texts_with(input, |problem, a, b| {
        let said = vectors::compared(problem, a, b);
        let Ok(Some(answer)) = said else { return said };
        let expressions = &tree::expressions(problem);
        let nodes = &nodes(expressions);
        Ok(says(&Two {
            expressions,
            nodes,
            a,
            b,
            answer,
        }))
    })
}

fn yes(pairs: usize) -> Compared {
    Compared { equal: true, pairs }
}

fn no(pairs: usize) -> Compared {
    Compared { equal: false, pairs }
}

/// Two nodes of a problem, and what is right to say of them.
struct Two<'t> {
    expressions: &'t [Tree],
    nodes: &'t [Node<'t>],
    a: usize,
    b: usize,
    answer: Compared,
}

impl Two<'_> {
    fn both(&self) -> [&Node<'_>; 2] {
        [&self.nodes[self.a], &self.nodes[self.b]]
    }

    fn has_the_last(&self) -> bool {
        self.nodes.len() == self.a.max(self.b) + 1
    }

    /// What is right after a change of each node of the expressions.
    fn changed(&self, change: fn(&mut Tree)) -> Option<Compared> {
        let mut expressions = self.expressions.to_vec();
        expressions.iter_mut().for_each(|tree| everywhere(tree, change));
        compared(&expressions, self.a, self.b)
    }

    /// What is right after two variables of one binder, which stands inside one node and outside the other, are made to
    /// agree wherever they are the first that do not.
    fn inside_as_outside(&self) -> Option<Compared> {
        let [mut left, mut right] = self.both().map(|node| node.alone(Binder::symbol));
        loop {
            let compared = apart(&left, &right)?;
            let k = compared.pairs - 1;
            if compared.equal || !self.one_binder_inside_one(k) {
                return Some(compared);
            }
            *left.node_mut(k) = AGREED;
            *right.node_mut(k) = AGREED;
        }
    }

    fn one_binder_inside_one(&self, k: usize) -> bool {
        let [left, right] = [self.a, self.b].map(|node| self.nodes[node + k].binder());
        left == right && left.is_some_and(|binder| inside_one(self.a, self.b, binder.node))
    }
}

/// Nodes of these expressions compared; nothing where they are too long for a problem.
fn compared(expressions: &[Tree], a: usize, b: usize) -> Option<Compared> {
    let constraints = expressions.iter().map(|tree| (Tree::Meta(0), tree.clone()));
    let problem = tree::problem(&constraints.collect::<Vec<_>>());
    vectors::compared(&problem, a, b).ok().flatten()
}

/// Two terms compared that stand apart, with nothing outside.
fn apart(left: &Tree, right: &Tree) -> Option<Compared> {
    compared(&[left.clone(), right.clone()], 0, left.nodes())
}

/// A symbol that no problem has, unless by chance, nor stands for a binder.
const AGREED: Tree = Tree::Symbol(0x3FFF_FFFF);

/// Changes each node.
pub fn everywhere(tree: &mut Tree, change: fn(&mut Tree)) {
    change(tree);
    tree.inner_mut().into_iter().for_each(|inner| everywhere(inner, change));
}

/// Makes the bound name part of a binder's number.
fn number_by_name(tree: &mut Tree) {
    if let Tree::Bind(b, name, _) = tree {
        *b = *b << 8 | *name;
    }
}

/// Leaves a symbol the low half of its number.
pub fn narrow(tree: &mut Tree) {
    if let Tree::Symbol(s) = tree {
        *s %= 65_536;
    }
}
