//! Refusals 1 to 14 without 12, 19, 20, 25 and 27.

use super::notation::{bytes, hex, problem, term};
use crate::encode;
use crate::read::tag;
use crate::Problem;

/// The refusal of these bytes, or 0 if they are accepted.
fn refusal(bytes: &[u8]) -> u8 {
    Problem::read(bytes).err().unwrap_or(0)
}

/// The refusal of bytes in hexadecimal.
fn refusal_of(digits: &str) -> u8 {
    refusal(&hex(digits))
}

/// The refusal of a problem in readable notation.
fn refusal_in(text: &str) -> u8 {
    refusal(&bytes(text))
}

/// A term of that depth.
fn nested(depth: usize, inside: &str) -> String {
    format!("{}{inside}{}", "(".repeat(depth - 1), ")".repeat(depth - 1))
}

#[test]
fn refusal_1_input_too_long() {
    assert_eq!(refusal(&[0; 4097]), 1);
    assert_eq!(refusal(&[0; 4096]), 4);
    let longest = format!("?0 = ((({})))", vec!["s1"; 816].join(" "));
    assert_eq!((bytes(&longest).len(), refusal_in(&longest)), (4096, 0));
}

#[test]
fn refusal_2_head_cut() {
    assert_eq!(refusal_of("07"), 2);
    assert_eq!(refusal_of("0700"), 2);
    assert_eq!(refusal_of("070002 0100"), 2);
    assert_eq!(refusal_of("07000A 0100020001 030002 0100"), 2);
    // Before 4: the tag of a cut head is not looked at.
    assert_eq!(refusal_of("FF00"), 2);
}

#[test]
fn refusal_3_past_the_enclosing_end() {
    assert_eq!(refusal_of("070001"), 3);
    assert_eq!(refusal_of("070005 0100030001"), 3);
    // The input has more bytes, but the enclosing field has not.
    assert_eq!(refusal_of("070004 01000200 01"), 3);
    // Before 4.
    assert_eq!(refusal_of("FF0001"), 3);
}

#[test]
fn refusal_4_misplaced_tag() {
    for tag in ["00", "01", "05", "06", "08", "0A", "FF"] {
        assert_eq!(refusal_of(&format!("{tag}0000")), 4);
    }
    for tag in ["00", "07", "08", "0A", "FF"] {
        assert_eq!(refusal_of(&format!("070003 {tag}0000")), 4);
        assert_eq!(refusal_of(&format!("070008 0100020001 {tag}0000")), 4);
    }
}

#[test]
fn refusal_5_too_deep() {
    let [deep, deeper] = [32, 33].map(|depth| nested(depth, "s1"));
    assert_eq!(refusal_in(&format!("{deep} = s1")), 0);
    assert_eq!(refusal_in(&format!("{deeper} = s1")), 5);
    assert_eq!(refusal_in(&format!("s1 = {deep}")), 0);
    assert_eq!(refusal_in(&format!("s1 = {deeper}")), 5);
    // An argument is one deeper than its function application.
    assert_eq!(refusal_in(&format!("{} = s1", nested(31, "?0{s1}"))), 0);
    assert_eq!(refusal_in(&format!("{} = s1", nested(32, "?0{s1}"))), 5);
    // After 4, 8 and 9, before 6.
    assert_eq!(refusal_in(&format!("{} = s1", nested(33, "_"))), 4);
    assert_eq!(refusal_in(&format!("s1 = {}", nested(33, "?0"))), 8);
    assert_eq!(refusal_in(&format!("?1{{{}}} = s1", nested(32, "?0{s1}"))), 9);
    let empty = bytes(&format!("s1 = {}", nested(33, "_")));
    let application = |byte| if byte == 10 { 3 } else { byte };
    let empty: Vec<u8> = empty.into_iter().map(application).collect();
    assert_eq!(refusal(&empty), 5);
}

#[test]
fn refusal_6_bad_content() {
    assert_eq!(refusal_of("070003 010000"), 6);
    assert_eq!(refusal_of("070004 01000100"), 6);
    assert_eq!(refusal_of("070006 010003000000"), 6);
    assert_eq!(refusal_of("070008 0100050000000000"), 6);
    assert_eq!(refusal_of("070008 0100050001000000"), 6);
    assert_eq!(refusal_of("070004 02000100"), 6);
    assert_eq!(refusal_of("070007 02000400000000"), 6);
    assert_eq!(refusal_of("070007 02000400010000"), 6);
    assert_eq!(refusal_of("070003 030000"), 6);
    assert_eq!(refusal_of("070006 040003000000"), 6);
    assert_eq!(refusal_of("070003 050000"), 6);
    assert_eq!(refusal_of("070003 060000"), 6);
    // Before 10.
    assert_eq!(refusal_of("070005 0500022020"), 6);
}

#[test]
fn refusal_7_missing_or_left() {
    assert_eq!(refusal_of("070000"), 7);
    assert_eq!(refusal_of("070005 0100020001"), 7);
    assert_eq!(refusal_of("07000B 0100020001 0100020001 00"), 7);
    assert_eq!(refusal_of("070007 04000400000000"), 7);
    assert_eq!(refusal_of("070004 06000100"), 7);
    assert_eq!(refusal_of("07000D 04000A 00000000 0100020001 00"), 7);
    assert_eq!(refusal_of("07000A 060007 00 0100020001 00"), 7);
}

#[test]
fn refusal_8_metavariable_in_an_expression() {
    assert_eq!(refusal_in("s1 = ?0"), 8);
    assert_eq!(refusal_in("s1 = (s1 ?0{s1})"), 8);
    // Before 6 and 10.
    assert_eq!(refusal_of("070008 0100020001 050000"), 8);
}

#[test]
fn refusal_9_function_in_an_argument() {
    assert_eq!(refusal_in("?0{?1{?2}} = s1"), 9);
    assert_eq!(refusal_in("?0{[b0 v0 (s1 ?1{s1})]} = s1"), 9);
    assert_eq!(refusal_in("?0{?1} = s1"), 0);
}

#[test]
fn refusal_10_metavariable_number() {
    assert_eq!(refusal_in("?31 = s1"), 0);
    assert_eq!(refusal_in("?32 = s1"), 10);
    assert_eq!(refusal_in("?31{s1} = s1"), 0);
    assert_eq!(refusal_in("?32{s1} = s1"), 10);
    // Before the inner fields.
    assert_eq!(refusal_of("070004 06000120"), 10);
}

#[test]
fn refusal_11_a_17th_constraint() {
    let repeated = |n: usize| vec!["s1 = s1"; n].join(" ; ");
    assert_eq!(refusal_in(&repeated(16)), 0);
    assert_eq!(refusal_in(&repeated(17)), 11);
    // A 17th field of another tag is 4, a 17th constraint is not read.
    let sixteen = bytes(&repeated(16));
    assert_eq!(refusal(&[&sixteen[..], &[1, 0, 0]].concat()), 4);
    assert_eq!(refusal(&[&sixteen[..], &[7, 0, 0]].concat()), 11);
}

#[test]
fn refusal_12_is_withdrawn() {
    assert_eq!(refusal_in("?0{?0} = s1"), 0);
    assert_eq!(refusal_in("?0{s1} = s1 ; ?0 = s1"), 0);
    assert_eq!(refusal_in("?0 = s1 ; ?1{?0} = s1 ; ?0{s1} = s1"), 0);
    // Whether shapes agree or not.
    assert_eq!(refusal_in("(s1 ?0{?0}) = s2"), 0);
}

#[test]
fn a_letter_used_both_ways_hides_no_refusal_of_reading() {
    let both = |after: &str| refusal(&[bytes("?0{?0} = s1"), hex(after)].concat());
    assert_eq!(both(""), 0);
    assert_eq!(refusal(&[bytes("?0{?0} = s1"), vec![0; 4096]].concat()), 1);
    assert_eq!(both("07"), 2);
    assert_eq!(both("070001"), 3);
    assert_eq!(both("010000"), 4);
    assert_eq!(refusal_in(&format!("?0{{?0}} = {}", nested(33, "s1"))), 5);
    assert_eq!(both("070003 010000"), 6);
    assert_eq!(both("070000"), 7);
    assert_eq!(refusal_in("?0{?0} = ?0"), 8);
    assert_eq!(refusal_in("?0{?0{?0}} = s1"), 9);
    assert_eq!(refusal_in("?32{?32} = s1"), 10);
    assert_eq!(refusal_in(&vec!["?0{?0} = s1"; 16].join(" ; ")), 0);
    assert_eq!(refusal_in(&vec!["?0{?0} = s1"; 17].join(" ; ")), 11);
    assert_eq!(both("07000C 0100020001 010004 0000FFFF"), 25);
}

/// A problem with so many functions.
fn functions(n: usize) -> String {
    let functions: Vec<String> = (0..n).map(|i| format!("?{i}{{s1}}")).collect();
    format!("({}) = ({})", functions.join(" "), vec!["s1"; n].join(" "))
}

#[test]
fn refusal_13_too_many_functions() {
    assert_eq!(refusal_in(&functions(8)), 0);
    assert_eq!(refusal_in(&functions(9)), 13);
    assert_eq!(refusal_in(&format!("{} ; s1 = s2", functions(9))), 13);
    assert_eq!(refusal_in("(?0{s1} ?0{s2} ?0{s3}) = s9"), 0);
}

#[test]
fn refusal_13_counts_functions_used_both_ways() {
    assert_eq!(refusal_in(&format!("{} ; ?0 = s1", functions(9))), 13);
    assert_eq!(refusal_in(&format!("{} ; ?8{{?8}} = s1", functions(8))), 13);
    assert_eq!(refusal_in(&format!("{} ; ?0 = s1", functions(8))), 0);
    // What stands alone only is no function.
    assert_eq!(refusal_in(&format!("{} ; ?0{{?8}} = s1", functions(8))), 0);
    assert_eq!(refusal_in(&format!("{} ; ?0{{(?0 ?8)}} = s1", functions(8))), 0);
}

/// An expression of so many nodes.
fn face(nodes: usize) -> String {
    format!("({})", vec!["s1"; nodes - 1].join(" "))
}

#[test]
fn refusal_14_face_too_large() {
    let [fits, too_large] = [256, 257].map(face);
    for nodes in [63, 64, 65, 128, 255] {
        assert_eq!(refusal_in(&format!("?0{{s1}} = {}", face(nodes))), 0);
    }
    assert_eq!(refusal_in(&format!("?0{{s1}} = {fits}")), 0);
    assert_eq!(refusal_in(&format!("?0{{s1}} = {too_large}")), 14);
    // Not if shapes disagree, in any constraint.
    assert_eq!(refusal_in(&format!("?0{{s1}} = {too_large} ; s1 = s2")), 0);
    // Not what a metavariable or a later application faces.
    assert_eq!(refusal_in(&format!("?0 = {too_large}")), 0);
    assert_eq!(refusal_in(&format!("?0{{s1}} = s1 ; ?0{{s1}} = {too_large}")), 0);
    // Any function's.
    assert_eq!(refusal_in(&format!("?0{{s1}} = s1 ; ?1{{s1}} = {too_large}")), 14);
}

#[test]
fn refusal_14_is_not_looked_for_where_a_letter_is_used_both_ways() {
    let too_large = face(257);
    let another = format!("?1{{?2}} = {too_large}");
    assert_eq!(refusal_in(&another), 14);
    assert_eq!(refusal_in(&format!("{another} ; ?0{{?0}} = s1")), 0);
    assert_eq!(refusal_in(&format!("?0{{?0}} = s1 ; {another}")), 0);
    assert_eq!(refusal_in(&format!("{another} ; ?1 = s1")), 0);
    assert_eq!(refusal_in(&format!("{another} ; ?2{{s1}} = s1")), 0);
    assert_eq!(refusal_in(&format!("?0{{?0}} = {too_large}")), 0);
    assert_eq!(
        problem(&format!("{another} ; ?0{{?0}} = s1")).solutions(0),
        Some(vec![])
    );
}

/// A problem whose letter ?0 is used both ways; of it too, texts are read first.
const BOTH_WAYS: &str = "?0{?1} = s1 ; ?0 = s1";

#[test]
fn refusal_19_text_too_long() {
    for any in ["?0 = s1", BOTH_WAYS].map(problem) {
        assert_eq!(any.check(&[0; 8193]), Err(19));
        assert_eq!(any.check(&[0; 8192]), Err(20));
        // However well-formed: a value of 1,637 symbols, and an open one more.
        let value = encode::term(&term(&format!("({})", vec!["s1"; 1637].join(" "))));
        let longest = encode::field(tag::VALUE, &[&[0], &value[..]].concat());
        assert_eq!((longest.len(), any.check(&longest)), (8192, Ok(false)));
        assert_eq!(any.check(&[&longest[..], &hex("0B000101")].concat()), Err(19));
        // Before 27: a metavariable 2,048 times open, and once more.
        let open = hex("0B000100").repeat(2048);
        assert_eq!(any.check(&open), Err(27));
        assert_eq!(any.check(&[&open[..], &hex("0B000100")].concat()), Err(19));
    }
}

/// Texts with a fault.
const FAULTS: [&str; 23] = [
    "09",                              // a head that is cut
    "090005 00 0A0000",                // a length past the end
    "010002 0001",                     // no field of a text
    "0A0000",                          // a hole that is no term
    "0C0001 00",                       // an unknown tag
    "080004 01 0A0000",                // a hole in a value
    "090008 00 010002 0001 00",        // a byte left
    "080001 01",                       // no term
    "080000",                          // no number
    "0B0002 01 00",                    // a byte left
    "080006 20 010002 0001",           // a number over 31
    "0B0001 20",                       // a number over 31
    "090005 00 050001 01",             // a metavariable in a body
    "09000A 00 060006 00 010002 0001", // a function in a body
    "090005 00 0A0001 00",             // a hole with content
    "090004 00 030000",                // an empty application
    "080004 01 010000",                // a symbol without number
    "080005 01 010001 00",             // a symbol of one byte
    "080007 01 010003 000001",         // a symbol of three bytes
    "090009 00 010005 0001000000",     // a symbol of five bytes
    "080008 01 010004 0000FFFF",       // 65,535 in four bytes
    "090008 00 010004 00000001",       // 1 in four bytes
    "080008 01 020004 00010000",       // a variable of four bytes
];

#[test]
fn refusal_20_bad_text() {
    for any in ["?0{?1} = s1", BOTH_WAYS].map(problem) {
        for fault in FAULTS {
            assert_eq!(any.check(&hex(fault)), Err(20), "{fault}");
        }
        // Both widths of a symbol are well-formed.
        for good in ["080006 01 010002 FFFF", "080008 01 010004 00010000"] {
            assert_eq!(any.check(&hex(good)), Ok(false), "{good}");
        }
        // A later field's fault counts, also where the earlier ones say no.
        assert_eq!(any.check(&hex("0B0001 07 09")), Err(20));
        assert_eq!(any.check(&hex("0B0001 07")), Ok(false));
    }
}

#[test]
fn refusal_20_text_too_deep() {
    for tag in [tag::VALUE, tag::BODY] {
        let field = |depth: usize| {
            let term = encode::term(&term(&nested(depth, "s1")));
            encode::field(tag, &[&[0], &term[..]].concat())
        };
        for any in ["?0{?1} = s1", BOTH_WAYS].map(problem) {
            assert_eq!(any.check(&field(32)), Ok(false));
            assert_eq!(any.check(&field(33)), Err(20));
            // Before 27, the second field's depth too.
            let doubled = |depths: [usize; 2]| depths.map(field).concat();
            assert_eq!(any.check(&doubled([32, 32])), Err(27));
            assert_eq!(any.check(&doubled([32, 33])), Err(20));
            assert_eq!(any.check(&doubled([33, 32])), Err(20));
        }
    }
}

/// The checker's answer to open metavariables of these numbers.
fn answer_to_open(problem: &Problem, numbers: &[u8]) -> Result<bool, u8> {
    let fields = numbers.iter().map(|number| encode::field(tag::OPEN, &[*number]));
    problem.check(&fields.flatten().collect::<Vec<u8>>())
}

/// Problems to whose texts the checker would say nothing but no: the shapes of
/// the first disagree.
const NEVER_YES: [&str; 2] = ["s1 = s2", BOTH_WAYS];

#[test]
fn refusal_27_a_number_not_above_the_one_before() {
    for never in NEVER_YES.map(problem) {
        // The first two, the last two, or two with others between them.
        let falling: [&[u8]; 9] = [
            &[1, 0],
            &[31, 0],
            &[31, 30],
            &[1, 0, 2],
            &[2, 0, 1],
            &[0, 2, 1],
            &[1, 2, 0],
            &[5, 6, 7, 8, 4],
            &[5, 6, 8, 7, 9],
        ];
        let doubled: [&[u8]; 6] = [&[0, 0], &[31, 31], &[0, 0, 1], &[0, 1, 1], &[0, 1, 0], &[7, 7, 7]];
        for numbers in falling.into_iter().chain(doubled) {
            assert_eq!(answer_to_open(&never, numbers), Err(27), "{numbers:?}");
        }
        // They may begin and leave out as they like.
        let rising: [&[u8]; 7] = [&[], &[0], &[31], &[0, 1], &[30, 31], &[0, 31], &[3, 7, 8, 20]];
        for numbers in rising {
            assert_eq!(answer_to_open(&never, numbers), Ok(false), "{numbers:?}");
        }
        let mut all: Vec<u8> = (0..32).collect();
        assert_eq!(answer_to_open(&never, &all), Ok(false));
        all.push(31);
        assert_eq!(answer_to_open(&never, &all), Err(27));
    }
}

#[test]
fn refusal_27_whatever_the_tags() {
    let tags = ["080006 N 0100020001", "090004 N 0A0000", "0B0001 N"];
    let pairs = tags.iter().flat_map(|first| tags.map(|second| (first, second)));
    for (first, second) in pairs {
        let text = |n: &str, m: &str| hex(&[first.replace('N', n), second.replace('N', m)].concat());
        for never in NEVER_YES.map(problem) {
            assert_eq!(never.check(&text("00", "01")), Ok(false), "{first} {second}");
            assert_eq!(never.check(&text("01", "01")), Err(27), "{first} {second}");
            assert_eq!(never.check(&text("01", "00")), Err(27), "{first} {second}");
        }
    }
}

#[test]
fn refusal_27_only_where_20_applies_nowhere() {
    // Two fields of one number, and two of a falling one.
    for [first, second] in [["0B0001 01"; 2], ["0B0001 01", "0B0001 00"]] {
        for any in ["?0{?1} = s1", BOTH_WAYS].map(problem) {
            assert_eq!(any.check(&hex(&[first, second].concat())), Err(27));
            for fault in FAULTS {
                let before = [fault, first, second];
                let between = [first, fault, second];
                let after = [first, second, fault];
                for text in [before, between, after].map(|parts| parts.concat()) {
                    assert_eq!(any.check(&hex(&text)), Err(20), "{text}");
                }
            }
            // Both faults in one field: a value 0 or 1 with a byte left.
            for number in ["00", "01"] {
                let text = format!("{first} 080007 {number} 0100020001 00");
                assert_eq!(any.check(&hex(&text)), Err(20), "{text}");
            }
        }
    }
    // A number over 31, twice.
    assert_eq!(answer_to_open(&problem("?0 = s1"), &[32, 32]), Err(20));
}

/// A problem whose pattern and expression are this symbol.
fn twice(symbol: &str) -> Vec<u8> {
    let symbol = encode::field(tag::SYMBOL, &hex(symbol));
    encode::field(tag::CONSTRAINT, &symbol.repeat(2))
}

#[test]
fn refusal_25_a_symbol_spelled_too_wide() {
    for wide in ["00000000", "00000001", "000000FF", "00000100", "0000FFFF"] {
        assert_eq!(refusal(&twice(wide)), 25, "{wide}");
    }
    for good in ["0000", "FFFF", "00010000", "01000000", "FFFFFFFF"] {
        assert_eq!(refusal(&twice(good)), 0, "{good}");
    }
    let number = |digits| Problem::read(&twice(digits)).unwrap().to_string();
    assert_eq!(number("FFFF"), "s65535 = s65535");
    assert_eq!(number("00010000"), "s65536 = s65536");
    assert_eq!(number("12345678"), "s305419896 = s305419896");
    assert_eq!(number("FFFFFFFF"), "s4294967295 = s4294967295");
    // In an expression, an argument, an application and a binder.
    assert_eq!(refusal_of("07000C 0100020001 0100040000FFFF"), 25);
    assert_eq!(refusal_of("070010 060008 00 0100040000FFFF 0100020001"), 25);
    assert_eq!(refusal_of("070014 03000C 0100020001 0100040000FFFF 0100020001"), 25);
    assert_eq!(refusal_of("070013 04000B 00000000 0100040000FFFF 0100020001"), 25);
}

/// A problem whose symbols 4,294,967,295 are made 0, in four bytes still.
fn narrowed(text: &str) -> Vec<u8> {
    let zero = |byte| if byte == 0xFF { 0 } else { byte };
    bytes(text).into_iter().map(zero).collect()
}

#[test]
fn refusal_25_before_what_is_met_later() {
    // With 65,536 as NUMBER the later fault shows.
    let faults = [
        ("070008 010004 NUMBER 00", 2),                      // the next head is cut
        ("07000A 010004 NUMBER 010001", 3),                  // the next length is past the end
        ("07000A 010004 NUMBER 070000", 4),                  // the next tag has no place
        ("07000A 010004 NUMBER 010000", 6),                  // the next symbol has no number
        ("070007 010004 NUMBER", 7),                         // no expression
        ("07000D 0100020001 010004 NUMBER 00", 7),           // a byte left in the constraint
        ("07000F 04000C 00000000 010004 NUMBER 00", 7),      // a byte left in the binder
        ("07000C 060009 00 010004 NUMBER 00", 7),            // a byte left after the argument
        ("07000B 010004 NUMBER 05000100", 8),                // a metavariable as expression
        ("070011 06000E 00 03000A 010004 NUMBER 060000", 9), // a function in the argument
        ("07000E 03000B 010004 NUMBER 05000120", 10),        // a metavariable over 31
        ("07000C 010004 NUMBER 0100020001 FF0000", 4),       // a bad tag after the constraint
    ];
    for (fault, later) in faults {
        assert_eq!(refusal_of(&fault.replace("NUMBER", "00010000")), later, "{fault}");
        assert_eq!(refusal_of(&fault.replace("NUMBER", "0000FFFF")), 25, "{fault}");
    }
    let many = format!("{} ; s1 = s4294967295", functions(9));
    assert_eq!((refusal_in(&many), refusal(&narrowed(&many))), (13, 25));
    let large = format!("?0{{s4294967295}} = {}", face(257));
    assert_eq!((refusal_in(&large), refusal(&narrowed(&large))), (14, 25));
}

#[test]
fn refusal_25_after_what_is_met_earlier() {
    let faults = [
        ("070006 010004 0000FF", 3),                                // its own length is past the end
        ("010004 0000FFFF", 4),                                     // its own tag has no place
        ("07000D 03000A 010000 0100040000FFFF", 6),                 // the symbol before has no number
        ("070014 04000A 00000000 0100020001 00 0100040000FFFF", 7), // a byte left in the binder before
        ("070013 0100020001 03000B 05000100 0100040000FFFF", 8),    // a metavariable before
        ("07000B 060008 20 0100040000FFFF", 10),                    // the function around is over 31
    ];
    for (fault, earlier) in faults {
        assert_eq!(refusal_of(fault), earlier, "{fault}");
    }
    // Its own depth belongs to the head.
    let deep = |depth| narrowed(&format!("s1 = {}", nested(depth, "s4294967295")));
    assert_eq!((refusal(&deep(32)), refusal(&deep(33))), (25, 5));
    // The whole input, and a 17th constraint around it.
    let wide = twice("00000000");
    assert_eq!(refusal(&[&wide[..], &[0; 4096]].concat()), 1);
    assert_eq!(refusal(&[bytes("s1 = s1").repeat(16), wide].concat()), 11);
}
