//! What lies inside the comparison with the original: what refusals 1 to 3, 15 to 17 and 19 to 21 of
//! document 01 leave. Document 01's limits are not the original's.

use crate::answers::Setup;
use crate::shape::depth;
use crate::stored::decode;

pub const TEXT: usize = 1_024;
pub const NAME: usize = 32;
pub const NUMERAL: usize = 40;
pub const BRACKETS: usize = 24;
pub const ENTRIES: usize = 8;
pub const QUERY: usize = 32_768;
pub const DEPTH: usize = 64;

fn is_name(name: &[u8]) -> bool {
    name.len() <= NAME && name.is_ascii()
}

/// Whether document 01 takes the setup: else it gives refusal 3.
#[must_use]
pub fn setup_is_sound(setup: &Setup) -> bool {
    let is_analyzer = |n: u8| (1..=5).contains(&n);
    setup.operator <= 1
        && is_analyzer(setup.analyzer)
        && is_name(&setup.field)
        && setup.entries().is_some_and(|e| {
            e.len() <= ENTRIES && e.iter().all(|(a, name)| is_analyzer(*a) && is_name(name))
        })
}

/// Whether parsing is compared: the answer is surely none of 1, 2, 3, 15, 16 and 17. It may say no
/// of a text that has none of these: brackets are counted though they be closed, and quotes are not
/// looked for.
#[must_use]
pub fn parse_is_compared(setup: &Setup, text: &[u8]) -> bool {
    setup_is_sound(setup)
        && text.len() <= TEXT
        && text.is_ascii()
        && text.iter().filter(|&&b| b == b'(').count() <= BRACKETS
        && names_and_numerals_fit(text)
}

/// What a text is made of, quotes not looked for: runs of bytes that end no term, an escaped byte
/// counted once, and the bytes between them, blanks left out.
enum Piece {
    Run(usize),
    Between(u8),
}

fn pieces(text: &[u8]) -> Vec<Piece> {
    let mut out = Vec::new();
    let mut open = false; // whether the last run goes on
    let mut bytes = text.iter();
    while let Some(&b) = bytes.next() {
        match b {
            9..=13 | b' ' => open = false,
            _ if b"!():^\"~[]{}*?".contains(&b) => {
                out.push(Piece::Between(b));
                open = false;
            }
            _ => {
                if b == b'\\' {
                    bytes.next();
                }
                match out.last_mut() {
                    Some(Piece::Run(n)) if open => *n += 1,
                    _ => out.push(Piece::Run(1)),
                }
                open = true;
            }
        }
    }
    out
}

/// No run over 32 before a colon, none over 40 after a caret.
fn names_and_numerals_fit(text: &[u8]) -> bool {
    pieces(text).windows(2).all(|two| match two {
        [Piece::Run(n), Piece::Between(b':')] => *n <= NAME,
        [Piece::Between(b'^'), Piece::Run(n)] => *n <= NUMERAL,
        _ => true,
    })
}

/// Whether rewriting is compared, NaN apart: none of 19, 20 and 21.
#[must_use]
pub fn rewrite_is_compared(stored: &[u8]) -> bool {
    stored.len() <= QUERY && decode(stored).is_some_and(|q| depth(&q) <= DEPTH)
}
