//! Problems whose expressions have much that is alike, and pairs of nodes that are: a comparison of any two nodes of a random
//! problem most often ends at the first pair.

use crate::damage;
use crate::generate::{self, Made};
use crate::nodes::Node;
use crate::random::Random;
use crate::report::Tally;
use crate::texts::rename;
use crate::tree::{self, Tree};

/// The longest problem that a line of `vectors_texts` may have; one that is cut off there is too long as well.
const LONGEST_PROBLEM: usize = 8193;

/// A random problem, now and then a damaged one, and else with more to find in its expressions.
pub fn problem(random: &mut Random) -> Vec<u8> {
    let made = generate::problem(random);
    let mut problem = if random.once_in(12) {
        damage::damaged(random, made, &mut Tally::default())
    } else {
        tree::problem(&richer(random, made).constraints)
    };
    problem.truncate(LONGEST_PROBLEM);
    problem
}

/// The problem with bound variables and nearly equal subexpressions in its expressions.
fn richer(random: &mut Random, mut made: Made) -> Made {
    for (_, expression) in &mut made.constraints {
        if random.once_in(2) {
            bind(random, expression, &[]);
        }
        match random.below(3) {
            0 => double(random, expression),
            1 => nest(random, expression),
            _ => (),
        }
    }
    made
}

/// Makes many leaves variables of the binders around them, which have these names.
fn bind(random: &mut Random, tree: &mut Tree, names: &[u16]) {
    match tree {
        Tree::Bind(_, name, body) => bind(random, body, &[names, &[*name]].concat()),
        Tree::Apply(terms) => terms.iter_mut().for_each(|term| bind(random, term, names)),
        leaf if !names.is_empty() && random.once_in(2) => *leaf = Tree::Variable(*random.pick(names)),
        _ => (),
    }
}

/// Puts a copy beside a node, with other bound names and perhaps another node somewhere in it.
fn double(random: &mut Random, expression: &mut Tree) {
    let Some(node) = some(random, expression, |node| node.nodes() > 3) else {
        return;
    };
    let mut copy = node.clone();
    for _ in 0..random.between(0, 3) {
        rename(random, &mut copy);
    }
    if random.once_in(3) {
        let (from, to) = (random.below(copy.nodes()), random.below(copy.nodes()));
        *copy.node_mut(to) = copy.node_mut(from).clone();
    }
    *node = Tree::Apply(vec![node.clone(), copy]);
}

/// Puts a copy of a binder into its own body, at the end, with another name for some of its variables: the others belong to
/// the outer one, which stands outside the copy.
fn nest(random: &mut Random, expression: &mut Tree) {
    let binder = some(random, expression, |node| matches!(node, Tree::Bind(..)));
    let Some(Tree::Bind(number, name, body)) = binder else {
        return;
    };
    let (outer, inner) = (Tree::Variable(*name), name.wrapping_add(1));
    let mut copy = Tree::Apply(vec![*body.clone(), outer.clone()]);
    for k in 0..copy.nodes() {
        let node = copy.node_mut(k);
        if *node == outer && random.once_in(2) {
            *node = Tree::Variable(inner);
        }
    }
    let copy = Tree::Bind(*number, inner, Box::new(copy));
    **body = Tree::Apply(vec![*body.clone(), copy]);
}

/// A random node of those that are so.
fn some<'t>(random: &mut Random, tree: &'t mut Tree, is: impl Fn(&Tree) -> bool) -> Option<&'t mut Tree> {
    let all: Vec<usize> = (0..tree.nodes()).filter(|k| is(tree.node_mut(*k))).collect();
    (!all.is_empty()).then(|| tree.node_mut(*random.pick(&all)))
}

/// Two nodes, either first; now and then one that is not there.
pub fn pair(random: &mut Random, nodes: &[Node]) -> (usize, usize) {
    let (a, b) = if nodes.is_empty() || random.once_in(30) {
        let beyond = [nodes.len(), nodes.len() + 1, 65_535];
        (random.below(nodes.len() + 2), *random.pick(&beyond))
    } else {
        present(random, nodes)
    };
    if random.once_in(2) {
        (b, a)
    } else {
        (a, b)
    }
}

/// Two nodes that are there: most of them with subexpressions of one size or alike at the top, since any two most often
/// disagree at once.
fn present(random: &mut Random, nodes: &[Node]) -> (usize, usize) {
    let same_size = |a: usize, b: usize| nodes[a].size == nodes[b].size;
    let like = |a: usize, b: usize| nodes[a].like(&nodes[b]);
    let inside = |a: usize, b: usize| (a..a + nodes[a].size).contains(&b);
    let bound = |a: usize, b: usize| nodes[a].binder().is_some() && nodes[b].binder().is_some();
    match random.below(16) {
        0 | 1 => two(random, nodes, same_size),
        2 | 3 => two(random, nodes, |a, b| same_size(a, b) && like(a, b)),
        4..=6 => {
            let around = two(random, nodes, |a, b| same_size(a, b) && like(a, b));
            within(random, nodes, around)
        }
        7 => two(random, nodes, like),
        8 => two(random, nodes, inside),
        9..=11 => two(random, nodes, |a, b| inside(a, b) && like(a, b)),
        12 | 13 => two(random, nodes, bound),
        14 if random.once_in(2) => {
            let (a, _) = two(random, nodes, like);
            (a, a)
        }
        _ => two(random, nodes, |_, _| true),
    }
}

/// A node and another that fits it, or any nodes where none does. The first is the largest of three, since most nodes are
/// leaves.
fn two(random: &mut Random, nodes: &[Node], fits: impl Fn(usize, usize) -> bool) -> (usize, usize) {
    let numbers = 0..nodes.len();
    let fits = |a: usize, b: usize| a != b && fits(a, b);
    let first: Vec<usize> = numbers
        .clone()
        .filter(|a| numbers.clone().any(|b| fits(*a, b)))
        .collect();
    if first.is_empty() {
        return (random.below(nodes.len()), random.below(nodes.len()));
    }
    let some = [(); 3].map(|()| *random.pick(&first));
    let a = some
        .into_iter()
        .max_by_key(|a| nodes[*a].size)
        .expect("there are three");
    let second: Vec<usize> = numbers.filter(|b| fits(a, *b)).collect();
    (a, *random.pick(&second))
}

/// Nodes at the same place below these two.
fn within(random: &mut Random, nodes: &[Node], (a, b): (usize, usize)) -> (usize, usize) {
    let k = random.below(nodes[a].size.min(nodes[b].size));
    (a + k, b + k)
}
