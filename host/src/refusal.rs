//! Why a call is refused.

use std::fmt;

/// Makes the enum, its numbers and its words from one table, so that they cannot fall apart.
macro_rules! refusals {
    ($($name:ident = $number:literal, $words:literal;)*) => {
        /// Why a call is refused: document 01's table "Where each check is made", 25 by its change T-05, 27 by T-07, 28 and 29
        /// by T-13. A refused call changes nothing. No refusal has the number 12, which T-09 withdrew: a problem in which a
        /// metavariable stands both as a function and alone is accepted, and has no solutions.
        ///
        /// Of several reasons that apply the first one met is given: a problem is read field by field from the front (1 to
        /// 11 and 25), then looked at as a whole (13 and 14), and only then is what else the call was given.
        #[derive(Clone, Copy, Debug, PartialEq, Eq, Hash)]
        #[repr(u8)]
        #[non_exhaustive]
        pub enum Refusal {
            $(#[doc = $words] $name = $number,)*
        }

        impl Refusal {
            /// Every refusal, in the order of the numbers.
            pub const ALL: &'static [Refusal] = &[$(Refusal::$name,)*];

            /// What it means, in document 01's words.
            #[must_use]
            pub fn meaning(self) -> &'static str {
                match self {
                    $(Refusal::$name => $words,)*
                }
            }
        }
    };
}

refusals! {
    ProblemTooLong = 1, "the problem has over 4,096 bytes";
    HeadCutOff = 2, "only 1 or 2 bytes are left where a field begins";
    LengthPastEnd = 3, "a field's length goes past the enclosing end";
    TagOutOfPlace = 4, "a tag has no place where it stands";
    TooDeep = 5, "a term stands deeper than 32";
    FixedPart = 6, "a field's fixed part has a length that its tag does not allow, or an application is empty";
    InnerFields = 7, "no inner field is left where one is due, or bytes are left after the last";
    PatternInExpression = 8, "a metavariable or function application stands in an expression";
    FunctionInArgument = 9, "a function application stands in an argument";
    MetavariableOver31 = 10, "a metavariable's number is over 31";
    TooManyConstraints = 11, "there is a 17th constraint";
    TooManyFunctions = 13, "there are over 8 functions";
    FaceTooLarge = 14, "a function's first application faces over 256 nodes";
    NoAllowance = 15, "the allowance is 0";
    NoSuchPlace = 16, "there is no such place or row in this problem";
    NotASolution = 17, "the row is not a solution row";
    BufferTooShort = 18, "the buffer is too short";
    TextTooLong = 19, "the text has over 8,192 bytes";
    TextMalformed = 20, "the text is not values, bodies and open metavariables with their contents, at most 32 deep and numbered at most 31";
    SymbolTooWide = 25, "a symbol's number below 65,536 has four bytes";
    TextOutOfOrder = 27, "a metavariable's number in the text is not above the one before it";
    NodesOutOfRange = 28, "the number of nodes is not from 1 to 256";
    ProblemBufferTooShort = 29, "the buffer is shorter than the problem";
}

impl Refusal {
    /// Document 01's number for it.
    #[must_use]
    pub fn number(self) -> u8 {
        self as u8
    }

    /// The refusal that has the number, if one has.
    #[must_use]
    pub fn numbered(number: u32) -> Option<Refusal> {
        Refusal::ALL.iter().copied().find(|r| u32::from(r.number()) == number)
    }
}

impl fmt::Display for Refusal {
    fn fmt(&self, f: &mut fmt::Formatter) -> fmt::Result {
        write!(f, "refused {}: {}", self.number(), self.meaning())
    }
}

impl std::error::Error for Refusal {}

#[cfg(test)]
mod tests {
    use super::Refusal;

    /// The numbers are 1 to 20 without 12, 25, and 27 to 29, and each leads back to its refusal.
    #[test]
    fn numbers_lead_back() {
        let numbers: Vec<u32> = (1..=11).chain(13..=20).chain([25]).chain(27..=29).collect();
        let refused: Vec<u32> = Refusal::ALL.iter().map(|refusal| refusal.number().into()).collect();
        assert_eq!(refused, numbers);
        for number in 0..300 {
            let refusal = Refusal::numbered(number);
            assert_eq!(refusal.is_some(), numbers.contains(&number), "{number}");
            assert!(refusal.is_none_or(|refusal| u32::from(refusal.number()) == number));
        }
    }
}
