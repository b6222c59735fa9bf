//! Holds the original, and so the oracle, to what document 01 writes out: 'Both sides of each line',
//! the bytes, bits and rounds literally.

use original::answers::{Setup, numeral, parse, rewrite};
use original::search::{BooleanQuery, Query};
use original::stored::encode;

pub fn all() {
    bytes();
    clauses();
    refusals();
    boosts();
    rewriting();
    shown();
    println!("document 01's statements hold of the original");
}

fn or_simple() -> Setup {
    Setup::new(0, 2, b"f")
}

/// The bytes that hex digits write, blanks left out.
fn unhex(digits: &str) -> Vec<u8> {
    let digits: Vec<u8> = digits.bytes().filter(|b| *b != b' ').collect();
    let byte = |two: &[u8]| std::str::from_utf8(two).map(|two| u8::from_str_radix(two, 16));
    let bytes = digits.chunks(2).map(|two| byte(two).expect("ASCII"));
    bytes.map(|b| b.expect("two hex digits")).collect()
}

fn gives(setup: &Setup, text: &str, q: &Query) {
    assert_eq!(parse(setup, text.as_bytes()), Ok(encode(q)), "{text}");
}

fn refuses(setup: &Setup, text: &str, refusal: u32) {
    assert_eq!(parse(setup, text.as_bytes()), Err(refusal), "{text}");
}

fn term(text: &str) -> Query {
    Query::term("f", text)
}

fn bytes() {
    const A: &str = "01 0008 10 0001 66 11 0001 61";
    let negative = format!("03 0013 13 0002 0000 22 000B {A}");
    for (text, stored) in [("", "07 0000"), ("a", A), ("-a", &negative)] {
        let answer = parse(&or_simple(), text.as_bytes());
        assert_eq!(answer, Ok(unhex(stored)), "{text}");
    }
}

fn clauses() {
    let or = or_simple();
    let (a, b, c) = (term("a"), term("b"), term("c"));
    let new = BooleanQuery::new;
    let wi_fi = new().should(term("wi")).should(term("fi")).build();
    gives(&or, "wi-fi", &wi_fi);
    gives(&Setup::new(0, 1, b"f"), "wi-fi", &term("wi-fi"));
    gives(&Setup::new(0, 1, b"f"), "a&&b", &term("a&&b"));
    let first = new().must(a.clone()).must(b.clone()).should(c.clone());
    gives(&or, "a AND b OR c", &first.build());
    let second = new().should(a.clone()).must(b.clone()).must(c);
    gives(&or, "a OR b AND c", &second.build());
    let both = new().should(a).should(b).build();
    gives(&Setup::new(1, 2, b"f"), "a OR b", &both);
}

fn refusals() {
    let cases = [
        ("1 AND b", 11),
        ("\\AND", 11),
        ("a^-1", 14),
        ("a^2^3", 11),
        ("()^x", 13),
        ("\"a\\", 5),
    ];
    for (text, refusal) in cases {
        refuses(&or_simple(), text, refusal);
    }
}

fn boosts() {
    let boosted = |bits| encode(&term("a").boost(f32::from_bits(bits)));
    let parsed = |text: &str| parse(&or_simple(), text.as_bytes());
    assert_eq!(parsed("a^\\-1"), Ok(boosted(0xBF80_0000)));
    assert_eq!(parsed("a^1e+5"), Ok(boosted(0x47C3_5000)));
    let numerals = [
        ("16777217", 16_777_216_f32.to_bits()),
        ("16777219", 16_777_220_f32.to_bits()),
        ("1e39", 0x7F80_0000),
        // (2^25-1)*2^103 and above is infinity
        ("340282356779733661637539395458142568448", 0x7F80_0000),
        ("340282356779733661637539395458142568447", 0x7F7F_FFFF),
        // 2^-150 and below is zero, sign kept; 40 bytes cannot write it whole
        ("-7.006492321624085354618647916449580e-46", 0x8000_0000),
        ("-7.006492321624085354618647916449581e-46", 0x8000_0001),
        ("nan", 0x7FC0_0000),
        ("-NaN", 0x7FC0_0000),
    ];
    for (text, bits) in numerals {
        assert_eq!(numeral(text), Ok(bits), "{text}");
        assert!(text.len() <= 40, "{text}");
    }
}

fn rewrites(q: &Query, rounds: u32, result: &Query) {
    let answer = rewrite(&encode(q));
    assert_eq!(answer.stored, encode(result), "{q:?}");
    assert_eq!(answer.rounds, rounds, "{q:?}");
    assert!(!answer.nan, "{q:?}");
}

fn rewriting() {
    let a = || term("a");
    let filter = BooleanQuery::new().filter(a()).build();
    rewrites(&filter, 2, &a().constant_score().boost(0.0));
    let twice = BooleanQuery::new().should(a()).should(a());
    let twice = twice.minimum_should_match(2).build();
    rewrites(&twice, 3, &Query::MatchNone);
}

/// The text that the show program is shown with.
fn shown() {
    let a = Query::term("note", "a");
    let half = a.clone().boost(f32::from_bits(0x3F00_0000));
    let written = BooleanQuery::new().must(half.clone()).must(half).build();
    gives(&Setup::new(0, 2, b"note"), "+a^0.5 +a^0.5", &written);
    rewrites(&written, 3, &a);
}
