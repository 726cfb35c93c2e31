//! What texts name, for pseudo-random problems. T-07: "Two passing texts of one
//! problem then differ only in bound names exactly when they name the same
//! solution."

use super::random::{problem_bytes, rise, Random};
use crate::rename::{canonical, rename_free};
use crate::term::{Name, Term};
use crate::text::{self, Field};
use crate::{Problem, Row};

/// The fields of each listed solution, if they are few.
fn listed(problem: &Problem) -> Vec<Vec<Field>> {
    let solutions = problem.solutions(8).unwrap_or_default();
    let fields = solutions.iter().map(|solution| text::read(&solution.text));
    fields.map(|fields| fields.expect("a well-formed text")).collect()
}

/// The field with its term changed, if it has one.
fn with_term(field: &Field, change: impl FnOnce(&Term) -> Term) -> Field {
    match field {
        Field::Value(meta, value) => Field::Value(*meta, change(value)),
        Field::Body(meta, body) => Field::Body(*meta, change(body)),
        Field::Open(meta) => Field::Open(*meta),
    }
}

/// The fields with canonical names, so that only bound names are lost.
fn nameless(fields: &[Field]) -> Vec<Field> {
    fields.iter().map(|field| with_term(field, canonical)).collect()
}

/// A canonical term with bound names taken at random: binders may share a name,
/// or have that of a variable which is free elsewhere. The binders inside still
/// have their canonical names when one gets its new name, and so don't catch it.
pub fn respelled(random: &mut Random, term: &Term) -> Term {
    let Term::Binder(number, name, inside) = term else {
        return term.rebuild(|child| respelled(random, child));
    };
    let free = term.free_names();
    let mut names = (random.below(3) as u16..).map(Name::Given);
    let new = names.find(|name| !free.contains(name)).expect("a name");
    let inside = rename_free(inside, *name, new);
    Term::Binder(*number, new, Box::new(respelled(random, &inside)))
}

/// A solution's fields with other bound names, and often changed besides: two
/// exchanged, one doubled, one replaced or one left out.
fn disturbed(random: &mut Random, solution: &[Field], replacement: &Field) -> Vec<Field> {
    let named = nameless(solution).into_iter();
    let mut fields: Vec<Field> = named.map(|f| with_term(&f, |term| respelled(random, term))).collect();
    let [one, other] = [(); 2].map(|()| random.below(fields.len() as u32) as usize);
    match random.below(6) {
        0..=1 => {}
        2 => fields.swap(one, other),
        3 => fields.insert(one, fields[other].clone()),
        4 => fields[one] = replacement.clone(),
        _ => drop(fields.remove(one)),
    }
    fields
}

/// The listed solutions and others made from them, as fields.
fn candidates(random: &mut Random, listed: &[Vec<Field>]) -> Vec<Vec<Field>> {
    let mut candidates = listed.to_vec();
    let all = listed.concat();
    for solution in listed.iter().filter(|fields| !fields.is_empty()) {
        for _ in 0..4 {
            let replacement = &all[random.below(all.len() as u32) as usize];
            candidates.push(disturbed(random, solution, replacement));
        }
    }
    candidates
}

/// The row whose solution passing fields name, in whatever order they are: that
/// solution is the only one with these bodies.
fn named_row(problem: &Problem, fields: &[Field]) -> Row {
    let body = |field: &Field| match field {
        Field::Body(meta, body) => Some((*meta, body.clone())),
        _ => None,
    };
    let bodies = fields.iter().filter_map(body).collect();
    problem.row_of(&bodies).expect("a body for each function")
}

#[test]
fn what_passes_is_a_listed_text_up_to_bound_names() {
    let mut random = Random(0x6A09_E667_F3BC_C908);
    let (mut listed_again, mut renamed, mut others, mut refused) = (0, 0, 0, 0);
    for _ in 0..6_000 {
        let Ok(problem) = Problem::read(&problem_bytes(&mut random)) else {
            continue;
        };
        let listed = listed(&problem);
        let good: Vec<Vec<Field>> = listed.iter().map(|fields| nameless(fields)).collect();
        for fields in candidates(&mut random, &listed) {
            let expected = match rise(&fields) {
                true => Ok(good.contains(&nameless(&fields))),
                false => Err(27),
            };
            assert_eq!(problem.check(&text::write(&fields)), expected, "{problem}");
            match expected {
                Ok(true) if listed.contains(&fields) => listed_again += 1,
                Ok(true) => renamed += 1,
                Ok(false) => others += 1,
                Err(_) => refused += 1,
            }
        }
    }
    let seen = [listed_again, renamed, others, refused];
    assert!(seen.iter().all(|count| *count > 1_000), "{seen:?}");
}

#[test]
fn passing_texts_differ_only_in_bound_names_exactly_when_they_name_the_same_solution() {
    let mut random = Random(0xBB67_AE85_84CA_A73B);
    let (mut same, mut different) = (0, 0);
    for _ in 0..6_000 {
        let Ok(problem) = Problem::read(&problem_bytes(&mut random)) else {
            continue;
        };
        let mut passing = candidates(&mut random, &listed(&problem));
        passing.retain(|fields| problem.check(&text::write(fields)) == Ok(true));
        let told: Vec<(Vec<Field>, Row)> = passing
            .iter()
            .map(|fields| (nameless(fields), named_row(&problem, fields)))
            .collect();
        for (i, (fields, row)) in told.iter().enumerate() {
            for (other_fields, other_row) in &told[..i] {
                assert_eq!(fields == other_fields, row == other_row, "{problem}");
                match row == other_row {
                    true => same += 1,
                    false => different += 1,
                }
            }
        }
    }
    assert!(same > 1_000 && different > 1_000, "{same} {different}");
}
