//! Pseudo-random problems: the procedure against brute force.

use super::notation::problem;
use crate::apply::Filling;
use crate::encode;
use crate::matches::{matches, Bodies};
use crate::read::tag;
use crate::rename::{rename_bound, Names};
use crate::term::{Meta, Name, Term};
use crate::text::{self, Field};
use crate::{read_term, Choice, Kind, Problem, Row, Solution};
use std::collections::BTreeSet;

/// A generator of pseudo-random numbers (xorshift).
pub struct Random(pub u64);

impl Random {
    pub fn below(&mut self, n: u32) -> u32 {
        self.0 ^= self.0 << 13;
        self.0 ^= self.0 >> 7;
        self.0 ^= self.0 << 17;
        ((self.0 >> 33) % u64::from(n)) as u32
    }

    /// True once in n times.
    fn once_in(&mut self, n: u32) -> bool {
        self.below(n) == 0
    }
}

/// What may stand in a random term.
#[derive(Clone, Copy, PartialEq)]
enum Sort {
    Expression,
    Body,
    Argument,
    Pattern,
}

/// A random term with few different leaves, so that equal parts are common.
fn term(random: &mut Random, sort: Sort, depth: u32) -> Term {
    match (random.below(10), sort) {
        (0..=3, Sort::Body) => Term::Hole,
        (0..=1, Sort::Pattern) | (0..=3, Sort::Argument) => Term::Metavariable(plain(random)),
        (2..=5, Sort::Pattern) => {
            let argument = term(random, Sort::Argument, depth.min(1));
            Term::Function(function(random), Box::new(argument))
        }
        (6..=7, _) if depth > 0 => {
            let children = (0..1 + random.below(3)).map(|_| term(random, sort, depth - 1));
            Term::Application(children.collect())
        }
        (8, _) if depth > 0 => {
            let inside = term(random, sort, depth - 1);
            binder(random, inside)
        }
        _ => leaf(random),
    }
}

/// Symbols of both widths; 0 and 65,536 have the same low half.
const SYMBOLS: [u32; 3] = [0, 1, 65_536];

pub fn leaf(random: &mut Random) -> Term {
    match random.below(5) {
        0..=1 => Term::Symbol(SYMBOLS[random.below(3) as usize]),
        _ => Term::Variable(Name::Given(random.below(2) as u16)),
    }
}

pub fn binder(random: &mut Random, inside: Term) -> Term {
    let name = Name::Given(random.below(2) as u16);
    Term::Binder(random.below(6) as u16 / 5, name, Box::new(inside))
}

/// A metavariable to stand alone, now and then a function's.
fn plain(random: &mut Random) -> Meta {
    match random.once_in(12) {
        true => function(random),
        false => Meta(2 + random.below(2)),
    }
}

fn function(random: &mut Random) -> Meta {
    Meta(random.below(2))
}

/// A copy of the expression with metavariables in some places.
fn abstracted(random: &mut Random, expression: &Term) -> Term {
    match random.below(8) {
        0 => Term::Metavariable(plain(random)),
        1..=2 => {
            let nodes = expression.nodes();
            let argument = match random.below(3) {
                0 => Term::Metavariable(plain(random)),
                1 => nodes[random.below(nodes.len() as u32) as usize].clone(),
                _ => term(random, Sort::Argument, 1),
            };
            Term::Function(function(random), Box::new(argument))
        }
        _ => expression.rebuild(|child| abstracted(random, child)),
    }
}

/// A random pattern, filled at random. The given names of the binders may catch
/// a free variable; then the two hardly match, and such problems are wanted too.
fn filled(random: &mut Random, filling: &Filling) -> (Term, Term) {
    let pattern = term(random, Sort::Pattern, 2);
    let expression = filling.apply(&pattern, &mut Names::of(Name::Apart));
    let given = |n| Name::Given(1 + n as u16);
    (pattern, rename_bound(&expression, &mut Names::of(given)))
}

/// A random filling of the four metavariables. The functions get values as well,
/// for where they stand alone.
fn filling(random: &mut Random) -> Filling {
    let mut filling = Filling::default();
    for meta in [0, 1].map(Meta) {
        filling.bodies.insert(meta, term(random, Sort::Body, 2));
    }
    for meta in [0, 1, 2, 3].map(Meta) {
        filling.values.insert(meta, term(random, Sort::Expression, 1));
    }
    filling
}

/// The bytes of a random problem of one to three constraints.
pub fn problem_bytes(random: &mut Random) -> Vec<u8> {
    let filling = filling(random);
    let whole = random.once_in(2);
    let mut bytes = Vec::new();
    for _ in 0..1 + random.below(3) {
        let (pattern, expression) = if whole {
            filled(random, &filling)
        } else {
            let expression = term(random, Sort::Expression, 3);
            (abstracted(random, &expression), expression)
        };
        bytes.extend(constraint_bytes(&pattern, &expression));
    }
    bytes
}

/// The bytes of a constraint.
pub fn constraint_bytes(pattern: &Term, expression: &Term) -> Vec<u8> {
    let sides = [pattern, expression].map(encode::term);
    encode::field(tag::CONSTRAINT, &sides.concat())
}

/// The list by brute force: each row's bodies and values are built by position
/// and handed to the checker.
fn brute_force(problem: &Problem, rows: Vec<Row>) -> Vec<Solution> {
    let solution = |row: Row| {
        let text = problem.spell(&row)?;
        let good = problem.check(&text) == Ok(true);
        good.then_some(Solution { row, text })
    };
    rows.into_iter().filter_map(solution).collect()
}

#[test]
fn the_procedure_agrees_with_brute_force_over_rows() {
    let mut random = Random(0x2545_F491_4F6C_DD1D);
    let (mut none, mut one, mut several) = (0, 0, 0);
    for _ in 0..12_000 {
        let bytes = problem_bytes(&mut random);
        let Ok(problem) = Problem::read(&bytes) else {
            continue;
        };
        let Some(rows) = problem.rows(2_000) else {
            continue;
        };
        let expected = brute_force(&problem, rows.clone());
        assert_eq!(problem.solutions(expected.len()), Some(expected.clone()), "{problem}");
        if let Some(fewer) = expected.len().checked_sub(1) {
            assert_eq!(problem.solutions(fewer), None, "{problem}");
        }
        for row in rows.iter().take(50) {
            let listed = expected.iter().find(|solution| solution.row == *row);
            let text = listed.map(|solution| solution.text.clone()).ok_or(17);
            assert_eq!(problem.write(row), text, "{problem}");
        }
        let room = bytes.len() + 4 * problem.metavariables().len();
        assert!(expected.iter().all(|s| s.text.len() <= room), "{problem}");
        match expected.len() {
            0 => none += 1,
            1 => one += 1,
            _ => several += 1,
        }
    }
    assert!(none > 900 && one > 900 && several > 900, "{none} {one} {several}");
}

/// All sets of nodes, as bits.
fn all_sets(nodes: usize) -> Vec<Choice> {
    let set = |bits: usize| (0..nodes).filter(|i| bits >> i & 1 == 1).collect();
    (0..1 << nodes).map(set).collect()
}

/// Document 01's order, told by numbers: the lower a node, the more it weighs.
fn weight(choice: &Choice) -> usize {
    choice.iter().map(|node| 1 << (20 - node)).sum()
}

#[test]
fn all_sets_of_nodes_lead_to_the_same_list() {
    let mut random = Random(0x9E37_79B9_7F4A_7C15);
    let mut seen = 0;
    while seen < 1_500 {
        let bytes = problem_bytes(&mut random);
        let Ok(problem) = Problem::read(&bytes) else {
            continue;
        };
        let sizes = problem.face_sizes().unwrap_or_default();
        if sizes.len() != 1 || !(2..=9).contains(&sizes[0]) {
            continue;
        }
        seen += 1;
        let mut sets = all_sets(sizes[0]);
        sets.sort_by_key(|set| std::cmp::Reverse(weight(set)));
        let every: Vec<Row> = sets.into_iter().map(|set| vec![set]).collect();
        let rows = every.iter().filter(|row| problem.is_row(row)).cloned();
        assert_eq!(problem.rows(usize::MAX), Some(rows.collect()), "{problem}");
        // A set with a node below another has the other's body: leave it out.
        let proper = every.into_iter().filter(|row| problem.is_proper(row));
        let expected = brute_force(&problem, proper.collect());
        assert_eq!(problem.solutions(usize::MAX), Some(expected), "{problem}");
    }
}

impl Problem {
    /// The numbers of nodes of the functions' faces.
    fn face_sizes(&self) -> Option<Vec<usize>> {
        let faces = self.function_faces()?;
        Some(faces.iter().map(|face| face.spelled.size()).collect())
    }

    /// Whether the row is that of its own bodies.
    fn is_proper(&self, row: &Row) -> bool {
        let bodies = self.bodies_of(row).expect("shapes agree");
        self.row_of(&bodies).as_ref() == Some(row)
    }
}

#[test]
fn sizes_are_known_before_filling() {
    let mut random = Random(0x0123_4567_89AB_CDEF);
    for _ in 0..2_000 {
        let filling = filling(&mut random);
        let pattern = term(&mut random, Sort::Pattern, 3);
        let filled = filling.apply(&pattern, &mut Names::of(Name::Apart));
        assert_eq!(filling.size(&pattern), filled.size(), "{pattern}");
    }
}

#[test]
fn nothing_found_is_lost() {
    let mut random = Random(0xD1B5_4A32_D192_ED03);
    for _ in 0..3_000 {
        let bytes = problem_bytes(&mut random);
        let Ok(problem) = Problem::read(&bytes) else {
            continue;
        };
        if uses_a_letter_both_ways(&problem) {
            continue;
        }
        let found = matches(problem.constraints(), &Bodies::new(), 500);
        let listed = problem.solutions(500);
        assert_eq!(found.map(|f| f.len()), listed.map(|l| l.len()), "{problem}");
    }
}

/// Whether a random problem uses a letter both ways, told by how it is shown.
fn uses_a_letter_both_ways(problem: &Problem) -> bool {
    let shown = problem.to_string();
    let count = |text: String| shown.matches(&text).count();
    let both_ways = |n| (1..count(format!("?{n}"))).contains(&count(format!("?{n}{{")));
    (0..4).any(both_ways)
}

/// The pattern with other letters for functions that stand alone: 8 and 9 for 0
/// and 1.
fn told_apart(pattern: &Term) -> Term {
    match pattern {
        Term::Metavariable(Meta(n @ 0..=1)) => Term::Metavariable(Meta(n + 8)),
        other => other.rebuild(told_apart),
    }
}

/// The field with the letter that was told apart.
fn put_back(field: Field) -> Field {
    let back = |Meta(n)| Meta(n % 8);
    match field {
        Field::Value(meta, value) => Field::Value(back(meta), value),
        Field::Body(meta, body) => Field::Body(back(meta), body),
        Field::Open(meta) => Field::Open(back(meta)),
    }
}

/// Some solutions that the problem would have with its letters told apart, as
/// fields with its own letters, in number order, doubled ones side by side.
fn nearly_solutions(problem: &Problem) -> Vec<Vec<Field>> {
    let constraints = problem.constraints().iter();
    let bytes = constraints.flat_map(|c| constraint_bytes(&told_apart(&c.pattern), &c.expression));
    let apart = Problem::read(&bytes.collect::<Vec<u8>>()).expect("an accepted problem");
    let listed = apart.solutions(20).unwrap_or_default().into_iter();
    let fields = listed.map(|solution| text::read(&solution.text).expect("a well-formed text"));
    fields
        .map(|fields| {
            let mut fields: Vec<Field> = fields.into_iter().map(put_back).collect();
            fields.sort_by_key(Field::meta);
            fields
        })
        .collect()
}

/// Whether numbers rise from field to field: they are in order and none is
/// there twice, as in a set of them.
pub fn rise(fields: &[Field]) -> bool {
    let numbers = || fields.iter().map(|field| field.meta().number());
    numbers().eq(numbers().collect::<BTreeSet<u8>>())
}

#[test]
fn a_letter_used_both_ways_fits_nothing_whatever_else_there_is() {
    let mut random = Random(0xA076_1D64_78BD_642F);
    let (mut seen, mut near) = (0, 0);
    for _ in 0..20_000 {
        let bytes = problem_bytes(&mut random);
        let Ok(problem) = Problem::read(&bytes) else {
            continue;
        };
        if !uses_a_letter_both_ways(&problem) {
            continue;
        }
        seen += 1;
        assert!(!problem.has_rows(), "{problem}");
        assert_eq!(problem.rows(0), Some(vec![]), "{problem}");
        assert_eq!(problem.solutions(0), Some(vec![]), "{problem}");
        for fields in nearly_solutions(&problem) {
            near += 1;
            for set in all_sets(fields.len()) {
                let chosen: Vec<Field> = set.iter().map(|i| fields[*i].clone()).collect();
                let answer = if rise(&chosen) { Ok(false) } else { Err(27) };
                assert_eq!(problem.check(&text::write(&chosen)), answer, "{problem}");
            }
        }
    }
    assert!(seen > 500 && near > 1_000, "{seen} {near}");
}

#[test]
fn whatever_bytes_come_nothing_breaks() {
    let mut random = Random(0x1234_5678_9ABC_DEF1);
    let (mut accepted, mut refused, mut too_wide) = (0, 0, 0);
    let readings = problem("(?0{?1} ?2) = ([b0 v1 (v1 s2)] s3)");
    for _ in 0..40_000 {
        let mut bytes = problem_bytes(&mut random);
        for _ in 0..random.below(3) {
            let place = random.below(bytes.len() as u32) as usize;
            bytes[place] = random.below(12) as u8;
        }
        match Problem::read(&bytes) {
            Ok(problem) => {
                accepted += 1;
                problem.solutions(20);
                assert_eq!(problem.check(&bytes), Err(20));
            }
            Err(25) => too_wide += 1,
            Err(number) => {
                refused += 1;
                assert!((1..=14).contains(&number) && number != 12);
            }
        }
        for kind in [Kind::Pattern, Kind::Expression, Kind::Body] {
            let _ = read_term(kind, &bytes[3..]);
        }
        let _ = readings.check(&bytes[3..]);
    }
    let seen = [accepted, refused, too_wide];
    assert!(accepted > 1_000 && refused > 1_000 && too_wide > 20, "{seen:?}");
}
