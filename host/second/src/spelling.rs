//! The solution of a row, spelled with the problem's own names.
//!
//! Document 01: "A value comes from the metavariable's first occurrence outside
//! arguments, else from the first application whose function has a hole and
//! whose argument has that metavariable: in the subexpression which this
//! application faces, at the position of the body's lowest hole (the
//! metavariable's first place there)."

use crate::body;
use crate::faces::Face;
use crate::matches::Bodies;
use crate::row::Row;
use crate::term::{Meta, Term};
use crate::text::Field;
use std::collections::BTreeSet;

/// One field for each metavariable, ascending. Nothing if some value has no
/// position, which no solution's bodies lead to.
pub fn fields(metas: &BTreeSet<Meta>, faces: &[Face], bodies: &Bodies) -> Option<Vec<Field>> {
    let field = |meta: &Meta| match bodies.get(meta) {
        Some(body) => Some(Field::Body(*meta, body.clone())),
        None => value_or_open(*meta, faces, bodies),
    };
    metas.iter().map(field).collect()
}

/// The field of a metavariable that is no function.
fn value_or_open(meta: Meta, faces: &[Face], bodies: &Bodies) -> Option<Field> {
    let outside = faces.iter().find(|face| face.meta == meta);
    if let Some(face) = outside {
        return Some(Field::Value(meta, face.spelled.clone()));
    }
    match faces.iter().find_map(|face| way_to(meta, face, bodies)) {
        Some((face, way)) => Some(Field::Value(meta, face.spelled.at(&way)?.clone())),
        None => Some(Field::Open(meta)),
    }
}

/// If the face is that of an application whose function has a hole and whose
/// argument has the metavariable: the way down to the value.
fn way_to<'f>(meta: Meta, face: &'f Face, bodies: &Bodies) -> Option<(&'f Face, Vec<usize>)> {
    let body = bodies.get(&face.meta)?;
    let mut way = body.find(&|term| *term == Term::Hole)?;
    let argument = face.argument.as_ref()?;
    way.extend(argument.find(&|term| *term == Term::Metavariable(meta))?);
    Some((face, way))
}

/// The bodies of a row's choices for the functions' faces, spelled.
pub fn bodies<'f>(faces: impl Iterator<Item = &'f Face>, row: &Row) -> Bodies {
    faces
        .zip(row)
        .map(|(face, choice)| (face.meta, body::of_choice(&face.spelled, choice)))
        .collect()
}
