//! Single terms: `read_term`.

use super::notation::{hex, term};
use crate::{encode, read_term, Kind};

#[test]
fn bytes_and_nodes_are_counted() {
    let mut bytes = encode::term(&term("(?1 [b2 v3 ?0{(v3 s5)}])"));
    let length = bytes.len();
    bytes.extend([1, 2, 3]);
    assert_eq!(read_term(Kind::Pattern, &bytes), Ok((length, 7)));
    assert_eq!(read_term(Kind::Expression, &bytes), Err(8));
    assert_eq!(read_term(Kind::Body, &bytes), Err(8));
}

#[test]
fn holes_stand_in_bodies_only() {
    let hole = hex("0A0000");
    assert_eq!(read_term(Kind::Body, &hole), Ok((3, 1)));
    assert_eq!(read_term(Kind::Body, &hex("0A000100")), Err(6));
    assert_eq!(read_term(Kind::Pattern, &hole), Err(4));
    assert_eq!(read_term(Kind::Expression, &hole), Err(4));
    let body = encode::term(&term("[b0 v1 (_ v1 _)]"));
    assert_eq!(read_term(Kind::Body, &body), Ok((body.len(), 5)));
}

#[test]
fn heads_are_checked_first() {
    for kind in [Kind::Pattern, Kind::Expression, Kind::Body] {
        assert_eq!(read_term(kind, &[]), Err(7));
        assert_eq!(read_term(kind, &[1, 0]), Err(2));
        assert_eq!(read_term(kind, &[99, 0, 1]), Err(3));
        assert_eq!(read_term(kind, &[7, 0, 0]), Err(4));
        assert_eq!(read_term(kind, &[0, 0, 0]), Err(4));
    }
}

#[test]
fn symbols_have_two_or_four_bytes() {
    for kind in [Kind::Pattern, Kind::Expression, Kind::Body] {
        assert_eq!(read_term(kind, &hex("010002 FFFF")), Ok((5, 1)));
        assert_eq!(read_term(kind, &hex("010004 00010000")), Ok((7, 1)));
        assert_eq!(read_term(kind, &hex("010004 0000FFFF")), Err(25));
        assert_eq!(read_term(kind, &hex("010003 000000")), Err(6));
    }
}

#[test]
fn each_number_has_one_spelling() {
    let spelled = |text| encode::term(&term(text));
    assert_eq!(spelled("s0"), hex("010002 0000"));
    assert_eq!(spelled("s65535"), hex("010002 FFFF"));
    assert_eq!(spelled("s65536"), hex("010004 00010000"));
    assert_eq!(spelled("s4294967295"), hex("010004 FFFFFFFF"));
}

#[test]
fn the_first_term_has_depth_1() {
    let nested = |depth: usize| format!("{}s1{}", "(".repeat(depth - 1), ")".repeat(depth - 1));
    let [deep, deeper] = [32, 33].map(|depth| encode::term(&term(&nested(depth))));
    assert_eq!(read_term(Kind::Expression, &deep), Ok((deep.len(), 32)));
    assert_eq!(read_term(Kind::Expression, &deeper), Err(5));
}
