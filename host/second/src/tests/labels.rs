//! Two nodes compared, for pseudo-random problems, against lists of labels.
//!
//! A label says all of a node that a comparison looks at. It is read off the
//! tree as it was spelled: nothing is renamed and no two terms are walked
//! together.

use super::naming::respelled;
use super::random::{binder, constraint_bytes, leaf, problem_bytes, Random};
use crate::rename::canonical;
use crate::term::{Meta, Name, Term};
use crate::{Compared, Problem};

/// What a node is by itself.
#[derive(Debug, Clone, PartialEq)]
enum Label {
    Symbol(u32),
    /// With the number of its children.
    Application(usize),
    /// With the binder number; the bound name doesn't count.
    Binder(u16),
    /// A variable free in the whole expression.
    Free(Name),
    /// A variable of a binder inside the subexpression. The binder goes by its
    /// place there: this is its canonical name.
    Inside(usize),
    /// A variable of a binder outside, which goes by its node number.
    Outside(usize),
}

/// A node of the expressions, with the binders around it: their node numbers and
/// bound names, the innermost last.
struct Node<'t> {
    term: &'t Term,
    around: Vec<(usize, Name)>,
}

/// All nodes of the problem's expressions, by number.
fn nodes(problem: &Problem) -> Vec<Node<'_>> {
    let mut nodes = Vec::new();
    for constraint in problem.constraints() {
        add_nodes(&constraint.expression, Vec::new(), &mut nodes);
    }
    nodes
}

/// Adds a term's nodes, itself first.
fn add_nodes<'t>(term: &'t Term, around: Vec<(usize, Name)>, nodes: &mut Vec<Node<'t>>) {
    let mut inside = around.clone();
    if let Term::Binder(_, name, _) = term {
        inside.push((nodes.len(), *name));
    }
    nodes.push(Node { term, around });
    for child in term.children() {
        add_nodes(child, inside.clone(), nodes);
    }
}

impl Node<'_> {
    /// Its label in the subexpression at the first node.
    fn label(&self, first: usize) -> Label {
        match self.term {
            Term::Symbol(number) => Label::Symbol(*number),
            Term::Application(terms) => Label::Application(terms.len()),
            Term::Binder(number, ..) => Label::Binder(*number),
            Term::Variable(name) => self.variable(*name, first),
            other => panic!("{other} in an expression"),
        }
    }

    /// "A variable belongs to the nearest enclosing binder of its number, else
    /// it is free." A binder around it is inside when it doesn't come before the
    /// first node.
    fn variable(&self, name: Name, first: usize) -> Label {
        match self.around.iter().rev().find(|(_, bound)| *bound == name) {
            Some((binder, _)) if *binder >= first => Label::Inside(binder - first),
            Some((binder, _)) => Label::Outside(*binder),
            None => Label::Free(name),
        }
    }
}

/// The labels of all subexpressions, each in reading order.
fn labels(problem: &Problem) -> Vec<Vec<Label>> {
    let nodes = nodes(problem);
    let of = |first: usize| {
        let all = &nodes[first..first + nodes[first].term.size()];
        all.iter().map(|node| node.label(first)).collect()
    };
    (0..nodes.len()).map(of).collect()
}

/// The answer that the labels give. As long as they agree, child counts too, the
/// same places in the lists are the same places in the two terms.
fn expected(left: &[Label], right: &[Label]) -> Compared {
    match left.iter().zip(right).position(|(l, r)| l != r) {
        Some(at) => Compared {
            equal: false,
            pairs: at + 1,
        },
        None => Compared {
            equal: true,
            pairs: left.len().max(right.len()),
        },
    }
}

/// A random expression with many binders, in which parts stand beside copies of
/// themselves and inside others that begin alike.
fn formula(random: &mut Random, depth: u32) -> Term {
    let inner = |random: &mut Random| formula(random, depth - 1);
    match random.below(12) {
        0..=1 if depth > 0 => {
            let children = (0..1 + random.below(2)).map(|_| inner(random));
            Term::Application(children.collect())
        }
        2..=3 if depth > 0 => {
            let part = inner(random);
            let copy = respelled(random, &canonical(&part));
            Term::Application(vec![part, disturbed(random, &copy)])
        }
        4..=8 if depth > 0 => {
            let part = inner(random);
            let both = Term::Application(vec![leaf(random), part]);
            binder(random, both)
        }
        9..=10 if depth > 0 => {
            let inside = inner(random);
            binder(random, inside)
        }
        _ => leaf(random),
    }
}

/// The term with now and then another leaf.
fn disturbed(random: &mut Random, term: &Term) -> Term {
    match term {
        Term::Symbol(_) | Term::Variable(_) if random.below(6) == 0 => leaf(random),
        other => other.rebuild(|child| disturbed(random, child)),
    }
}

/// The bytes of a random problem, most often one of such expressions, with
/// binders around them.
fn bytes(random: &mut Random) -> Vec<u8> {
    if random.below(4) == 0 {
        return problem_bytes(random);
    }
    let pattern = Term::Metavariable(Meta(0));
    let constraints = (0..1 + random.below(2)).map(|_| {
        let inside = formula(random, 5);
        let expression = (0..random.below(3)).fold(inside, |inside, _| binder(random, inside));
        constraint_bytes(&pattern, &expression)
    });
    constraints.collect::<Vec<_>>().concat()
}

/// A random problem that is accepted and has a few nodes, but not many.
fn problem(random: &mut Random) -> Problem {
    loop {
        match Problem::read(&bytes(random)) {
            Ok(problem) if (6..36).contains(&problem.expression_nodes()) => return problem,
            _ => {}
        }
    }
}

/// The problem's own answer for two of its nodes.
fn answer(problem: &Problem, a: usize, b: usize) -> Compared {
    problem.compare(a, b).expect("two nodes")
}

/// All answers of a problem, by the two nodes.
fn table(problem: &Problem) -> Vec<Vec<Compared>> {
    let all = 0..problem.expression_nodes();
    let row = |a| all.clone().map(|b| answer(problem, a, b)).collect();
    all.clone().map(row).collect()
}

/// What the comparisons of two different nodes were like, counted so that none
/// of these is missing.
#[derive(Debug, Default)]
struct Seen {
    /// Yes after four pairs or more, with a variable bound outside.
    equal_outside: usize,
    /// The same with a variable bound inside.
    equal_inside: usize,
    /// No at the first pair.
    first: usize,
    /// No at the fourth pair or a later one, the last of both terms.
    last: usize,
    /// No at the fourth pair or a later one, with nodes left.
    between: usize,
    /// No because of two binders outside.
    two_outside: usize,
    /// No because of a binder that is inside the one and outside the other.
    inside_and_outside: usize,
    /// No because of a free variable and a bound one.
    free_and_bound: usize,
}

impl Seen {
    /// Counts a yes.
    fn add_yes(&mut self, labels: &[Label]) {
        let has = |test: fn(&Label) -> bool| usize::from(labels.len() > 3 && labels.iter().any(test));
        self.equal_outside += has(|label| matches!(label, Label::Outside(_)));
        self.equal_inside += has(|label| matches!(label, Label::Inside(_)));
    }

    /// Counts a no by where it was said.
    fn add_no(&mut self, left: &[Label], right: &[Label], pairs: usize) {
        let at_end = pairs == left.len() && pairs == right.len();
        self.first += usize::from(pairs == 1);
        self.last += usize::from(pairs > 3 && at_end);
        self.between += usize::from(pairs > 3 && !at_end);
    }

    /// Counts a no by its labels; the left term begins at that node.
    fn add_reason(&mut self, first: usize, left: &Label, right: &Label) {
        match (left, right) {
            (Label::Outside(_), Label::Outside(_)) => self.two_outside += 1,
            (Label::Inside(l), Label::Outside(r)) if first + l == *r => self.inside_and_outside += 1,
            (Label::Free(_), Label::Inside(_) | Label::Outside(_)) => self.free_and_bound += 1,
            _ => {}
        }
    }

    /// Whether each kind was there more than fifty times.
    fn enough(&self) -> bool {
        let equal = [self.equal_outside, self.equal_inside];
        let places = [self.first, self.last, self.between];
        let reasons = [self.two_outside, self.inside_and_outside, self.free_and_bound];
        let mut counts = equal.into_iter().chain(places).chain(reasons);
        counts.all(|count| count > 50)
    }
}

#[test]
fn answers_are_those_of_the_labels() {
    let mut random = Random(0x3C6E_F372_FE94_F82B);
    let mut seen = Seen::default();
    for _ in 0..1_500 {
        let problem = problem(&mut random);
        let labels = labels(&problem);
        let all = 0..labels.len();
        for (a, b) in all.clone().flat_map(|a| all.clone().map(move |b| (a, b))) {
            let (left, right) = (&labels[a], &labels[b]);
            let compared = answer(&problem, a, b);
            assert_eq!(compared, expected(left, right), "{a} {b} in {problem}");
            assert_eq!(compared.equal, left == right, "{a} {b} in {problem}");
            if !compared.equal {
                let at = compared.pairs - 1;
                seen.add_no(left, right, compared.pairs);
                seen.add_reason(a, &left[at], &right[at]);
            } else if a != b {
                seen.add_yes(left);
            }
        }
    }
    assert!(seen.enough(), "{seen:?}");
}

#[test]
fn equality_is_reflexive_symmetric_and_transitive() {
    let mut random = Random(0x510E_527F_ADE6_82D1);
    let mut triples = 0;
    for _ in 0..500 {
        let problem = problem(&mut random);
        let table = table(&problem);
        let all = 0..table.len();
        for (a, b) in all.clone().flat_map(|a| all.clone().map(move |b| (a, b))) {
            assert_eq!(table[a][b], table[b][a], "{a} {b} in {problem}");
            for c in all.clone().filter(|c| table[a][b].equal && table[b][*c].equal) {
                assert!(table[a][c].equal, "{a} {b} {c} in {problem}");
                triples += usize::from(a != b && b != c && a != c);
            }
        }
        for (node, labels) in labels(&problem).iter().enumerate() {
            let equal = true;
            let pairs = labels.len();
            assert_eq!(table[node][node], Compared { equal, pairs }, "{node} in {problem}");
        }
    }
    assert!(triples > 1_000, "{triples}");
}

#[test]
fn whatever_bytes_and_numbers_come_nothing_breaks() {
    let mut random = Random(0x1F83_D9AB_FB41_BD6B);
    let (mut refused, mut none, mut some) = (0, 0, 0);
    for _ in 0..20_000 {
        let mut bytes = bytes(&mut random);
        for _ in 0..random.below(4) {
            let place = random.below(bytes.len() as u32) as usize;
            bytes[place] = random.below(12) as u8;
        }
        let Ok(problem) = Problem::read(&bytes) else {
            refused += 1;
            continue;
        };
        let count = problem.expression_nodes();
        let near = (count as u32 + 2).min(40);
        let numbers = [random.below(near) as usize, count - 1, count, usize::MAX];
        let [a, b] = [(); 2].map(|()| numbers[random.below(4) as usize]);
        let compared = problem.compare(a, b);
        assert_eq!(compared.is_some(), a < count && b < count, "{a} {b} in {problem}");
        match compared {
            Some(_) => some += 1,
            None => none += 1,
        }
    }
    assert!(
        refused > 1_000 && none > 1_000 && some > 1_000,
        "{refused} {none} {some}"
    );
}
