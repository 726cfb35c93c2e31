//! What is measured.

use compare::tree::Tree;

/// Patterns with their expressions.
pub type Constraints = Vec<(Tree, Tree)>;

pub fn symbol(number: u32) -> Tree {
    Tree::Symbol(number)
}

pub fn call(m: u8, argument: &Tree) -> Tree {
    Tree::Call(m, Box::new(argument.clone()))
}

/// An application of n symbols 0.
pub fn equal_symbols(n: usize) -> Tree {
    Tree::Apply(vec![symbol(0); n])
}

/// An application of n symbols, each another one.
pub fn different_symbols(n: usize) -> Tree {
    Tree::Apply((0..n).map(|k| symbol(k as u32)).collect())
}

/// An application of 15 terms of 17 nodes each, applications of one term over the symbol that has this number for it.
pub fn branches(number: fn(u32) -> u32) -> Tree {
    let branch = |k: u32| (0..16).fold(symbol(number(k)), |inner, _| Tree::Apply(vec![inner]));
    Tree::Apply((0..15).map(branch).collect())
}

/// An application of 255 symbols: 0 at four nodes, one for each 64 that follow each other, and else each another one.
pub fn four_equal() -> Tree {
    let number = |node: u32| if [1, 64, 150, 255].contains(&node) { 0 } else { node };
    Tree::Apply((1..256).map(|node| symbol(number(node))).collect())
}

/// An application of 256 nodes: nested binders, as deep as they may be.
pub fn all_nested() -> Tree {
    Tree::Apply([15, 15, 15, 5].map(nested).into_iter().chain([symbol(3)]).collect())
}

/// An application of n symbols 0, but that the last is symbol 1.
fn last_differs(n: usize) -> Tree {
    let mut symbols = vec![symbol(0); n];
    symbols[n - 1] = symbol(1);
    Tree::Apply(symbols)
}

/// A formula of n nested binders with an equation below each, of the binder's variable and a free one.
fn nested(n: u16) -> Tree {
    (0..n).fold(symbol(1), |inner, k| {
        let equation = Tree::Apply(vec![symbol(2), Tree::Variable(k), Tree::Variable(100), inner]);
        Tree::Bind(1, k, Box::new(equation))
    })
}

/// An application of patterns against one of expressions.
fn together(patterns: &[Tree], expressions: &[Tree]) -> Constraints {
    vec![(Tree::Apply(patterns.to_vec()), Tree::Apply(expressions.to_vec()))]
}

/// Problems whose whole lists are measured.
pub fn listed() -> Vec<(&'static str, Constraints)> {
    let (x, y) = (Tree::Meta(10), Tree::Meta(11));
    let (p, q) = (|t: &Tree| call(0, t), |t: &Tree| call(1, t));
    let around = |term: u32| Tree::Apply(vec![symbol(3), symbol(term), symbol(4)]);
    let sevens = [equal_symbols(7), equal_symbols(7)];
    let substituted = [around(5), around(6), symbol(5)];
    let fourteens = [equal_symbols(14), last_differs(14)];
    vec![
        ("(P(X), s)", vec![(p(&x), symbol(5))]),
        ("(P(X), 10 equal symbols)", vec![(p(&x), equal_symbols(10))]),
        ("(P(X), 60 different symbols)", vec![(p(&x), different_symbols(60))]),
        ("(P(X), 9 nested binders)", vec![(p(&x), nested(9))]),
        ("(P(X) Q(Y), 7 and 7 equal symbols)", together(&[p(&x), q(&y)], &sevens)),
        (
            "(P(X) P(Y) X), a step of substitution",
            together(&[p(&x), p(&y), x.clone()], &substituted),
        ),
        (
            "(P(0) P(1), 14 symbols each), 16,385 rows",
            together(&[p(&symbol(0)), p(&symbol(1))], &fourteens),
        ),
        (
            "16 constraints (X, 20 symbols)",
            vec![(x.clone(), different_symbols(20)); 16],
        ),
        ("(P(X), 256 nodes, 4 of them equal)", vec![(p(&x), four_equal())]),
        (
            "(P(0), 256 nodes, 4 of them equal), 268 rows",
            vec![(p(&symbol(0)), four_equal())],
        ),
    ]
}

/// Two constraints whose expressions have 20 nodes: 258 rows and no solution.
pub fn no_solution() -> Constraints {
    let eight = |symbols: [u32; 2]| {
        let [all, last] = symbols;
        let mut terms = vec![symbol(10)];
        terms.extend(vec![symbol(all); 7]);
        terms.push(symbol(last));
        Tree::Apply(terms)
    };
    vec![
        (call(0, &symbol(1)), eight([1, 1])),
        (call(0, &symbol(2)), eight([2, 3])),
    ]
}
