//! The refusals, by document 01's table "Where each check is made", 25 by
//! request T-05, 27 by T-07, 28 and 29 by T-13. Request T-09: "Refusal 12 is
//! withdrawn and its number stays unused." T-10: "refusal 14 now begins at 257".

/// 1: the input is over 4,096 bytes.
pub const INPUT_TOO_LONG: u8 = 1;
/// 2: only 1 or 2 bytes are left for a field's head.
pub const HEAD_CUT: u8 = 2;
/// 3: a length goes past the enclosing end.
pub const PAST_END: u8 = 3;
/// 4: a tag has no place there.
pub const MISPLACED_TAG: u8 = 4;
/// 5: the depth is over 32.
pub const TOO_DEEP: u8 = 5;
/// 6: the fixed part has a wrong length for its tag, or an application is empty.
pub const BAD_CONTENT: u8 = 6;
/// 7: no inner field is left where one is due, or bytes are left.
pub const BAD_COUNT: u8 = 7;
/// 8: a metavariable or a function application in an expression.
pub const META_IN_EXPRESSION: u8 = 8;
/// 9: a function application in an argument.
pub const FUNCTION_IN_ARGUMENT: u8 = 9;
/// 10: a metavariable's number is over 31.
pub const META_NUMBER: u8 = 10;
/// 11: a 17th constraint.
pub const TOO_MANY_CONSTRAINTS: u8 = 11;
/// 13: over 8 functions, those included that stand alone too.
pub const TOO_MANY_FUNCTIONS: u8 = 13;
/// 14: a face over 256 nodes.
pub const FACE_TOO_LARGE: u8 = 14;
/// 16: no such row.
pub const NO_SUCH_ROW: u8 = 16;
/// 17: not a solution row.
pub const NO_SOLUTION_ROW: u8 = 17;
/// 19: the text is over 8,192 bytes.
pub const TEXT_TOO_LONG: u8 = 19;
/// 20: the text's fields are not as they should be.
pub const BAD_TEXT: u8 = 20;
/// 25: a symbol's number below 65,536 has four bytes.
pub const SPELLED_TOO_WIDE: u8 = 25;
/// 27: a field's number in a text is not above the one before it.
pub const NOT_RISING: u8 = 27;
/// 28: the number of nodes is outside 1 to 256.
pub const NODES_OUT_OF_RANGE: u8 = 28;
/// 29: the buffer is shorter than the problem, checked after 28.
pub const NO_ROOM_FOR_PROBLEM: u8 = 29;
