//! The nodes of a problem's expressions, numbered as `vectors_texts` numbers them: from 0 through the expressions of all
//! constraints in order, each from the top, left to right.
//!
//! Two nodes are compared from the top as well. As long as the pairs agree so do their numbers of children: the k-th pair of
//! nodes a and b, from 0, is a + k and b + k.

use crate::tree::Tree;

/// A node, and where it stands.
#[derive(Clone, Debug)]
pub struct Node<'t> {
    /// Its subexpression.
    pub tree: &'t Tree,
    /// How many nodes that has.
    pub size: usize,
    /// The binders that it stands under, the innermost last: the name that each binds, and its number as a node.
    above: Vec<(u16, usize)>,
}

/// The binder that a variable belongs to.
#[derive(Clone, Copy, Debug, PartialEq, Eq)]
pub struct Binder {
    /// Its number as a node.
    pub node: usize,
    /// How many binders it stands under.
    pub depth: usize,
}

/// Symbols from here on stand for binders: no problem has them, unless by chance.
const FIRST_BINDER: u32 = 0x4000_0000;

impl Binder {
    /// A symbol for this binder, and no other.
    pub fn symbol(self) -> Tree {
        Tree::Symbol(FIRST_BINDER + self.node as u32)
    }

    /// A symbol for all binders that stand under as many.
    pub fn depth_symbol(self) -> Tree {
        Tree::Symbol(FIRST_BINDER + self.depth as u32)
    }
}

/// The nodes of these expressions.
pub fn nodes(expressions: &[Tree]) -> Vec<Node<'_>> {
    let mut nodes = Vec::new();
    for expression in expressions {
        enter(expression, &[], &mut nodes);
    }
    nodes
}

fn enter<'t>(tree: &'t Tree, above: &[(u16, usize)], nodes: &mut Vec<Node<'t>>) {
    let mut inner = above.to_vec();
    if let Tree::Bind(_, name, _) = tree {
        inner.push((*name, nodes.len()));
    }
    nodes.push(Node {
        tree,
        size: tree.nodes(),
        above: above.to_vec(),
    });
    for part in tree.inner() {
        enter(part, &inner, nodes);
    }
}

impl Node<'_> {
    /// Whether it agrees with the other one if nothing but the two themselves is looked at, and no name.
    pub fn like(&self, other: &Node) -> bool {
        match (self.tree, other.tree) {
            (Tree::Symbol(s), Tree::Symbol(t)) => s == t,
            (Tree::Apply(terms), Tree::Apply(others)) => terms.len() == others.len(),
            (Tree::Bind(b, _, _), Tree::Bind(c, _, _)) => b == c,
            (Tree::Variable(_), Tree::Variable(_)) => true,
            _ => false,
        }
    }

    /// How many binders it stands under.
    pub fn depth(&self) -> usize {
        self.above.len()
    }

    /// The binder of a variable; nothing where it is free, or no variable.
    pub fn binder(&self) -> Option<Binder> {
        match self.tree {
            Tree::Variable(v) => self.binder_of(*v),
            _ => None,
        }
    }

    /// The binder that the name has here.
    fn binder_of(&self, name: u16) -> Option<Binder> {
        let depth = self.above.iter().rposition(|(bound, _)| *bound == name)?;
        let (_, node) = self.above[depth];
        Some(Binder { node, depth })
    }

    /// Its subexpression as it can stand alone: something else for each variable that is bound outside.
    pub fn alone(&self, instead: impl Fn(Binder) -> Tree) -> Tree {
        let mut tree = self.tree.clone();
        self.replace(&mut tree, &[], &instead);
        tree
    }

    /// Replaces variables bound outside; `inside` are the names bound since.
    fn replace(&self, tree: &mut Tree, inside: &[u16], instead: &impl Fn(Binder) -> Tree) {
        match tree {
            Tree::Variable(v) if !inside.contains(v) => {
                if let Some(binder) = self.binder_of(*v) {
                    *tree = instead(binder);
                }
            }
            Tree::Bind(_, name, body) => self.replace(body, &[inside, &[*name]].concat(), instead),
            _ => {
                for part in tree.inner_mut() {
                    self.replace(part, inside, instead);
                }
            }
        }
    }
}

#[cfg(test)]
mod tests {
    use super::{nodes, Binder};
    use crate::tree::Tree;

    fn bind(name: u16, body: Tree) -> Tree {
        Tree::Bind(0, name, Box::new(body))
    }

    /// In all x (x all y (x y)) the nodes are 0 all x, 1 (..), 2 x, 3 all y, 4 (..), 5 x, 6 y.
    #[test]
    fn numbers_sizes_and_binders() {
        let (x, y) = (Tree::Variable(8), Tree::Variable(9));
        let inner = bind(9, Tree::Apply(vec![x.clone(), y.clone()]));
        let expressions = [bind(8, Tree::Apply(vec![x.clone(), inner])), x];
        let nodes = nodes(&expressions);
        let sizes: Vec<usize> = nodes.iter().map(|node| node.size).collect();
        assert_eq!(sizes, [7, 6, 1, 4, 3, 1, 1, 1]);
        let outer = Some(Binder { node: 0, depth: 0 });
        let inner = Some(Binder { node: 3, depth: 1 });
        let binders: Vec<Option<Binder>> = nodes.iter().map(|node| node.binder()).collect();
        assert_eq!(binders, [None, None, outer, None, None, outer, inner, None]);
        let symbol = |binder: Binder| Tree::Symbol(binder.node as u32);
        let alone = bind(9, Tree::Apply(vec![Tree::Symbol(0), y]));
        assert_eq!(nodes[3].alone(symbol), alone);
    }
}
