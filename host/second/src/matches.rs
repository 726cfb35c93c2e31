//! The Huet–Lang procedure.
//!
//! Document 001, section 4: "Given a matching challenge
//! C = {(p1, e1), ..., (pn, en)}, with each pi a pattern and each ei an
//! expression, we compute Matches(C)". The numbers of the cases are 001's.
//!
//! Names keep everything from being caught. Each binder of a pattern gets a
//! name of its own at the start, and each binder of a body when the body is
//! made. Where a pair of binders is entered, the expression's bound variable
//! takes the name which the pattern's has.

use crate::compare::{equal, meetings};
use crate::read::Constraint;
use crate::rename::{rename_bound, rename_free, Names};
use crate::term::{Meta, Name, Term};
use std::collections::BTreeMap;
use std::rc::Rc;

/// Bodies of functions.
pub type Bodies = BTreeMap<Meta, Term>;

/// A pair of case 4: a function application, and what it has to become.
#[derive(Clone)]
struct Waiting {
    function: Meta,
    argument: Term,
    expression: Term,
}

/// A matching challenge with its notes.
#[derive(Clone)]
struct Challenge {
    /// Pairs still to be taken apart, the next one last.
    pairs: Vec<(Term, Term)>,
    /// Pairs of case 4, in reading order.
    waiting: Vec<Waiting>,
    /// 001's sub(C), of which only the functions' bodies are wanted later.
    notes: BTreeMap<Meta, Rc<Term>>,
    fresh: Fresh,
}

/// The bodies of all solutions, or nothing if there are more than the limit.
/// A function with a fixed body is tried with no other. No metavariable of the
/// constraints is used both ways.
pub fn matches(constraints: &[Constraint], fixed: &Bodies, limit: usize) -> Option<Vec<Bodies>> {
    let mut agenda = vec![Challenge::new(constraints)];
    let mut found = Vec::new();
    while let Some(mut challenge) = agenda.pop() {
        if !challenge.settle() {
            continue;
        }
        if !challenge.waiting.is_empty() {
            agenda.extend(challenge.branches(fixed).into_iter().rev());
        } else if found.len() == limit {
            return None;
        } else {
            found.push(challenge.bodies());
        }
    }
    Some(found)
}

impl Challenge {
    /// The challenge of a problem.
    fn new(constraints: &[Constraint]) -> Challenge {
        let mut names = Names::of(Name::Apart);
        let pair = |c: &Constraint| (rename_bound(&c.pattern, &mut names), c.expression.clone());
        Challenge {
            pairs: constraints.iter().rev().map(pair).collect(),
            waiting: Vec::new(),
            notes: BTreeMap::new(),
            fresh: Fresh::new(),
        }
    }

    /// Cases 1 to 3 as long as there are pairs for them: "prioritize items
    /// from Case 4 lowest". False is case 6.
    fn settle(&mut self) -> bool {
        while let Some((pattern, expression)) = self.pairs.pop() {
            if !self.step(pattern, expression) {
                return false;
            }
        }
        true
    }

    /// Takes one pair; false if it can't match.
    fn step(&mut self, pattern: Term, expression: Term) -> bool {
        if !pattern.has_metavariables() {
            return equal(&pattern, &expression);
        }
        match (pattern, expression) {
            (Term::Metavariable(meta), value) => return self.assign(meta, &value),
            (Term::Function(function, argument), expression) => self.waiting.push(Waiting {
                function,
                argument: *argument,
                expression,
            }),
            (Term::Application(patterns), Term::Application(expressions)) if patterns.len() == expressions.len() => {
                let pairs = patterns.into_iter().zip(expressions);
                self.pairs.extend(pairs.rev());
            }
            (Term::Binder(left, name, inside), Term::Binder(right, other, expression)) if left == right => {
                let expression = rename_free(&expression, other, name);
                self.pairs.push((*inside, expression));
            }
            _ => return false,
        }
        true
    }

    /// Case 2. A value has no variable bound outside itself: any name but a
    /// given one stands for a binder around the metavariable's place.
    fn assign(&mut self, meta: Meta, value: &Term) -> bool {
        let closed = value.free_names().into_iter().all(is_free);
        if closed {
            let patterns = self.pairs.iter_mut().map(|(pattern, _)| pattern);
            let arguments = self.waiting.iter_mut().map(|waiting| &mut waiting.argument);
            for pattern in patterns.chain(arguments) {
                put(pattern, meta, value);
            }
        }
        closed
    }

    /// Case 4 for the first waiting pair: the challenge with each body that
    /// its function may have.
    fn branches(mut self, fixed: &Bodies) -> Vec<Challenge> {
        let Some(first) = self.waiting.first() else {
            return Vec::new();
        };
        let function = first.function;
        let bodies = match fixed.get(&function) {
            Some(body) => vec![rename_bound(body, &mut self.fresh.names)],
            None => self.fresh.bodies(&first.argument, &first.expression),
        };
        let challenges = vec![self; bodies.len()];
        let branch = |(mut challenge, body): (Challenge, Term)| {
            challenge.assign_function(function, body);
            challenge
        };
        challenges.into_iter().zip(bodies).map(branch).collect()
    }

    /// `C[f := λv.body]`. At this time all applications of f are waiting.
    fn assign_function(&mut self, function: Meta, body: Term) {
        let concerned = self.waiting.extract_if(.., |w| w.function == function);
        let pair = |w: Waiting| (plug(&body, &w.argument), w.expression);
        let pairs: Vec<_> = concerned.map(pair).collect();
        self.pairs.extend(pairs.into_iter().rev());
        self.notes.insert(function, Rc::new(body));
    }

    /// Case 5: the bodies of the problem's own functions.
    fn bodies(&self) -> Bodies {
        let given = self.notes.iter().filter(|(meta, _)| meta.is_given());
        given.map(|(meta, body)| (*meta, self.resolve(body))).collect()
    }

    /// "If we substitute the temporary variables into the body of P": the new
    /// function metavariables replaced by their own bodies.
    fn resolve(&self, body: &Term) -> Term {
        match body {
            Term::Function(meta, _) => match self.notes.get(meta) {
                Some(inner) => self.resolve(inner),
                None => body.clone(),
            },
            other => other.rebuild(|child| self.resolve(child)),
        }
    }
}

/// What is new in bodies.
#[derive(Clone)]
struct Fresh {
    /// Names for their binders.
    names: Names,
    /// The number of the next new function metavariable.
    next_meta: u32,
}

impl Fresh {
    /// Nothing used yet.
    fn new() -> Fresh {
        Fresh {
            names: Names::of(Name::Imitated),
            next_meta: Meta::GIVEN,
        }
    }

    /// The bodies that a function may have by case 4: (b) the projection,
    /// unless its pair would fail at once, and (a) a constant or (c) an
    /// imitation. A constant with children is an imitation with constants
    /// inside; tried as a constant too, it would be found twice.
    fn bodies(&mut self, argument: &Term, expression: &Term) -> Vec<Term> {
        let mut bodies = Vec::new();
        if meetings(argument, expression).is_some() {
            bodies.push(Term::Hole);
        }
        match expression {
            Term::Variable(name) if !may_stay(*name) => {}
            Term::Binder(number, _, _) => {
                let name = self.names.fresh();
                bodies.push(Term::Binder(*number, name, Box::new(self.function())));
            }
            other => bodies.push(other.rebuild(|_| self.function())),
        }
        bodies
    }

    /// `h(v)` for a new function metavariable h; the hole is v.
    fn function(&mut self) -> Term {
        let meta = Meta(self.next_meta);
        self.next_meta += 1;
        Term::Function(meta, Box::new(Term::Hole))
    }
}

/// Whether a variable of that name is free in the whole expression.
fn is_free(name: Name) -> bool {
    matches!(name, Name::Given(_))
}

/// Whether a body may have a variable of that name: one that is free, or one
/// that the body itself binds. Where a part of a body is looked for, the
/// imitated names around are all that body's own, since no function stands in
/// an argument.
fn may_stay(name: Name) -> bool {
    is_free(name) || matches!(name, Name::Imitated(_))
}

/// Puts a value in all places of a metavariable. The binders around have made
/// names, and so catch nothing in it.
fn put(pattern: &mut Term, meta: Meta, value: &Term) {
    if *pattern == Term::Metavariable(meta) {
        *pattern = value.clone();
    } else {
        for child in pattern.children_mut() {
            put(child, meta, value);
        }
    }
}

/// Puts an argument in all holes. The body's binders have names that the
/// argument doesn't use, and so catch nothing in it.
fn plug(body: &Term, argument: &Term) -> Term {
    match body {
        Term::Hole => argument.clone(),
        other => other.rebuild(|child| plug(child, argument)),
    }
}
