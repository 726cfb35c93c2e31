//! What a random problem has that a matcher could get wrong.

use crate::generate::Made;
use crate::tree::Tree;
use std::collections::BTreeSet;

/// A feature's name, and whether a problem has it.
type Feature = (&'static str, fn(&Made) -> bool);

/// All that the random problems must have, each often.
pub const FEATURES: [Feature; 10] = [
    ("several constraints", |made| made.constraints.len() > 1),
    ("several functions", |made| distinct(calls(made)) > 1),
    ("a function applied again", |made| {
        calls(made).len() > distinct(calls(made))
    }),
    ("a name that shadows another", |made| {
        made.constraints.iter().any(|(p, e)| shadows(p, &[]) || shadows(e, &[]))
    }),
    ("a binder over a face", |made| {
        made.constraints.iter().any(|(pattern, _)| binds_over_a_call(pattern))
    }),
    ("a metavariable in several places", |made| {
        metas(made).len() > distinct(metas(made))
    }),
    ("equal subterms under a binder", |made| {
        made.constraints.iter().any(|(_, e)| repeats_under_a_binder(e))
    }),
    ("symbols of both widths", |made| {
        let symbols = symbols(made);
        symbols.iter().any(|s| *s < FIRST_WIDE) && symbols.iter().any(|s| *s >= FIRST_WIDE)
    }),
    ("symbols that share their low half", |made| {
        let symbols = symbols(made);
        let low_halves: BTreeSet<u32> = symbols.iter().map(|s| s % FIRST_WIDE).collect();
        low_halves.len() < symbols.len()
    }),
    (BOTH_WAYS, |made| {
        let metas = metas(made);
        calls(made).iter().any(|m| metas.contains(m))
    }),
];

/// What T-09 is about.
pub const BOTH_WAYS: &str = "a letter used both ways";

/// Whether a problem has a feature.
pub fn has(made: &Made, feature: &str) -> bool {
    FEATURES.iter().any(|(name, has)| *name == feature && has(made))
}

/// The first number of a symbol that has four bytes.
const FIRST_WIDE: u32 = 65_536;

fn pattern_nodes(made: &Made) -> impl Iterator<Item = &Tree> {
    made.constraints.iter().flat_map(|(pattern, _)| pattern.all())
}

fn calls(made: &Made) -> Vec<u8> {
    pattern_nodes(made)
        .filter_map(|node| if let Tree::Call(m, _) = node { Some(*m) } else { None })
        .collect()
}

fn metas(made: &Made) -> Vec<u8> {
    pattern_nodes(made)
        .filter_map(|node| if let Tree::Meta(m) = node { Some(*m) } else { None })
        .collect()
}

/// The different symbols of its expressions and patterns.
fn symbols(made: &Made) -> BTreeSet<u32> {
    let expressions = made.constraints.iter().flat_map(|(_, expression)| expression.all());
    expressions
        .chain(pattern_nodes(made))
        .filter_map(|node| if let Tree::Symbol(s) = node { Some(*s) } else { None })
        .collect()
}

fn distinct(mut numbers: Vec<u8>) -> usize {
    numbers.sort_unstable();
    numbers.dedup();
    numbers.len()
}

/// Whether a binder has the name of one that it stands under.
fn shadows(term: &Tree, above: &[u16]) -> bool {
    let Tree::Bind(_, name, body) = term else {
        return term.inner().into_iter().any(|inner| shadows(inner, above));
    };
    above.contains(name) || shadows(body, &[above, &[*name]].concat())
}

fn binds_over_a_call(term: &Tree) -> bool {
    let under = |node: &&Tree| matches!(node, Tree::Bind(..)) && node.all().iter().any(|n| matches!(n, Tree::Call(..)));
    term.all().iter().any(under)
}

/// Whether two nodes of more than a letter are spelled alike under one binder.
fn repeats_under_a_binder(term: &Tree) -> bool {
    term.all()
        .into_iter()
        .filter(|node| matches!(node, Tree::Bind(..)))
        .any(|binder| {
            let large: Vec<&Tree> = binder.all().into_iter().filter(|node| node.nodes() > 1).collect();
            large.iter().enumerate().any(|(k, node)| large[..k].contains(node))
        })
}
