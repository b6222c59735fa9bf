//! Why a call did nothing.

use crate::calls;
use std::error::Error;
use std::fmt::{self, Display, Formatter};

/// Names, numbers and when each is given are those of the header; a test holds them to it.
macro_rules! refusals {
    ($($name:ident = $number:literal, $when:literal;)*) => {
        /// Why a call did nothing. It prints as one line in a technician's words.
        #[derive(Clone, Copy, Debug, PartialEq, Eq, Hash)]
        #[non_exhaustive]
        pub enum Refusal {
            $(#[doc = concat!($number, ": ", $when)] $name,)*
            /// A number that this release does not know.
            Unknown(u32),
        }

        impl Refusal {
            /// Every refusal of this release, by rising numbers.
            pub const ALL: &'static [Self] = &[$(Self::$name),*];

            /// Its number in `include/gorbihesh.h`.
            #[must_use]
            pub const fn number(self) -> u32 {
                match self {
                    $(Self::$name => $number,)*
                    Self::Unknown(number) => number,
                }
            }

            /// The refusal of this number; 0 is none.
            #[must_use]
            pub const fn from_number(number: u32) -> Option<Self> {
                match number {
                    0 => None,
                    $($number => Some(Self::$name),)*
                    number => Some(Self::Unknown(number)),
                }
            }
        }
    };
}

refusals! {
    LongText = 1, "text over 1,024 bytes";
    NotAscii = 2, "text has a byte 0x80 or above";
    BadSetup = 3, "operator, analyzers or field names break the rules of gorbihesh_parse";
    OpenQuote = 4, "unterminated quote";
    NothingEscaped = 5, "nothing after \\";
    RangeBracket = 6, "one of [ ] { }";
    Wildcard = 7, "* or ?";
    FuzzyTerm = 8, "~ after a term";
    SloppyPhrase = 9, "~ after a quoted phrase";
    UnexpectedEnd = 10, "the text ends where a clause should stand";
    UnexpectedToken = 11, "a token stands where it cannot";
    OpenBracket = 12, ") missing";
    BadNumeral = 13, "bad boost numeral";
    NoNumeral = 14, "no term after ^";
    LongField = 15, "field name before : over 32 bytes, unescaped";
    ManyBrackets = 16, "a 25th open (";
    LongNumeral = 17, "boost numeral over 40 bytes, unescaped";
    LongAnswer = 18, "answer longer than the lent output";
    LongQuery = 19, "stored query too long";
    MalformedQuery = 20, "stored query malformed";
    DeepQuery = 21, "stored query too deep";
    LongList = 22, "catalogue list over 65,536 bytes";
    MalformedList = 23, "catalogue list malformed";
    ShortRoom = 32, "working room shorter than the call's constant";
}

impl Refusal {
    /// One line in a technician's words, with no full stop.
    #[must_use]
    pub fn words(self) -> &'static str {
        calls::words(self.number())
    }
}

impl Display for Refusal {
    fn fmt(&self, f: &mut Formatter<'_>) -> fmt::Result {
        f.write_str(self.words())
    }
}

impl Error for Refusal {}
