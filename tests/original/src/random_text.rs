//! Random setups, texts made by the grammar, damaged copies of texts, and numerals. Not all of them
//! lie inside the comparison: `limits::parse_is_compared` tells.

use crate::answers::Setup;
use crate::random::Random;

const FIELDS: [&str; 8] = [
    "f",
    "f",
    "g",
    "note",
    "",
    "F",
    "a b",
    "name-of-thirty-two-bytes-in-all!",
];

/// A setup with few entries, names often repeated.
pub fn setup(r: &mut Random) -> Setup {
    let analyzer = r.pick(&[2, 2, 1, 3, 4, 5, 5]);
    let mut setup = Setup::new(r.pick(&[0, 0, 1]), analyzer, r.pick(&FIELDS).as_bytes());
    let entries = r.pick(&[0, 0, 0, 1, 2, 3, 8]);
    for _ in 0..entries {
        setup = setup.entry(r.pick(&[1, 2, 3, 4, 5]), r.pick(&FIELDS).as_bytes());
    }
    setup
}

/// A text that the grammar makes, of at most `longest` bytes.
pub fn text(r: &mut Random, longest: usize) -> Vec<u8> {
    loop {
        let mut out = String::new();
        query(r, 3, &mut out);
        if out.len() <= longest && (!out.is_empty() || r.one_in(20)) {
            return out.into_bytes();
        }
    }
}

const BETWEEN: [&str; 16] = [
    " ", " ", " ", " ", " ", "  ", "\t", "", " AND ", " AND ", " OR ", " OR ", "&&", " || ",
    " \\AND ", "\r\n",
];

fn query(r: &mut Random, deepest: usize, out: &mut String) {
    let clauses = r.pick(&[0, 1, 1, 2, 2, 2, 3, 3, 4]);
    for i in 0..clauses {
        if i > 0 {
            out.push_str(r.pick(&BETWEEN));
        }
        clause(r, deepest, out);
    }
}

const BEFORE: [&str; 12] = ["", "", "", "", "", "", "", "+", "-", "!", "NOT ", "+ "];
const NAMES: [&str; 9] = [
    "f:",
    "g:",
    "note:",
    "note :",
    "F: ",
    "a\\ b:",
    "\\f:",
    "AND:",
    "name-of-thirty-two-bytes-in-all\\!:",
];

fn clause(r: &mut Random, deepest: usize, out: &mut String) {
    out.push_str(r.pick(&BEFORE));
    if r.one_in(4) {
        out.push_str(r.pick(&NAMES));
    }
    match r.below(10) {
        0 | 1 if deepest > 0 => {
            out.push('(');
            query(r, deepest - 1, out);
            out.push(')');
        }
        2 | 3 => quoted(r, out),
        _ => out.push_str(r.pick(&WORDS)),
    }
    if r.one_in(6) {
        out.push_str(r.pick(&["^", "^", "^ "]));
        out.push_str(r.pick(&BOOSTS));
    }
    if r.one_in(80) {
        out.push('~');
    }
}

const WORDS: [&str; 60] = [
    "a", "a", "a", "b", "b", "c", "red", "red", "Fox", "fox", "wi-fi", "A1", "1", "42", "3.5kg",
    "don't", "x_y", "a+b", "a-b", "a&b", "a&&b", "a|b", "|x", "&y", "&", "\\AND", "\\+a", "a\\ b",
    "a\\:b", "\\(", "\\\\", "a\x1cb", "\x1d", "a\x7fb", "andy", "And", "NOT1", "a/b", "tape#7",
    ",", ".", "a=b", "ZZ-top", "\\*", "the", "The", "of", "then", "o'clock", "x.y", "1,5", "a'",
    "'a", "_", "_1", "3.", "a\\:b.c", "1;2", "the-lid", "not",
];

fn quoted(r: &mut Random, out: &mut String) {
    const INSIDE: [&str; 26] = [
        "red", "red", "fox", "Fox", "a", "b", "1", "B2", "AND", "(", "^2", "\\\"", "\\\\", "\\a",
        "*", "wi-fi", "the", "of", "don't", "3.5", "x:y", "1,000", "a_b", "'", "_", "to",
    ];
    out.push('"');
    for i in 0..r.pick(&[0, 1, 1, 2, 2, 2, 3, 4]) {
        if i > 0 {
            out.push_str(r.pick(&[" ", " ", " ", "\t", "\x1c", "-", "'", ".", ",", "\r\n"]));
        }
        out.push_str(r.pick(&INSIDE));
    }
    out.push('"');
}

const BOOSTS: [&str; 24] = [
    "2", "2", "2", "1", "1.0", "0.5", "0.1", "0", "\\-1", "\\-0", "1e+5", "1e\\-5", "nan", "inf",
    "\\-inf", "\\-NaN", ".5", "5.", "1e39", "1e-46", "16777217", "x", "1e", "\\+3",
];

/// A copy with one to three faults: a byte dropped, doubled, or changed to another ASCII byte.
pub fn damaged(r: &mut Random, text: &[u8]) -> Vec<u8> {
    const OFTEN: &[u8] = b"\"\\:()^~+-!&| *?[a1";
    let mut text = text.to_vec();
    for _ in 0..r.pick(&[1, 1, 1, 2, 3]) {
        if text.is_empty() {
            break;
        }
        let at = r.below(text.len());
        match r.below(4) {
            0 => drop(text.remove(at)),
            1 => text.insert(at, text[at]),
            2 => text[at] = r.pick(OFTEN),
            _ => text[at] = u8::try_from(r.below(128)).expect("ASCII"),
        }
    }
    text
}

/// A numeral of at most 40 bytes: sign, digits, point and exponent, each in some of them.
pub fn numeral(r: &mut Random) -> String {
    let mut out = String::from(r.pick(&["", "", "", "-", "+"]));
    let whole = r.pick(&[0, 1, 1, 2, 7, 8, 9, 17, 20]);
    digits(r, whole, &mut out);
    if whole == 0 || r.one_in(2) {
        out.push('.');
        let least = usize::from(whole == 0);
        let most = r.pick(&[1, 2, 8, 9, 15]);
        let n = least + r.below(most);
        digits(r, n, &mut out);
    }
    if r.one_in(2) {
        out.push_str(r.pick(&["e", "E", "e-", "e+", "e-0"]));
        out.push_str(&r.below(60).to_string());
    }
    out
}

fn digits(r: &mut Random, n: usize, out: &mut String) {
    for _ in 0..n {
        out.push(char::from(
            b'0' + u8::try_from(r.below(10)).expect("a digit"),
        ));
    }
}
