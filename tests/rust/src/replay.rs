//! The fixed lists of tests/original, through the archive: parse.txt and document.txt, rewrite.txt, and
//! numerals.txt as boosts of a term.
//!
//!     replay DIRECTORY

use desk::Desk;
use gorbihesh::calls::Setup;
use std::process::exit;

/// An output that every answer of the lists fits.
const OUTPUT: usize = 65_535;

fn main() {
    let Some(lists) = std::env::args().nth(1) else {
        eprintln!("the directory of the lists is wanted");
        exit(2);
    };
    let mut desk = Desk::new();
    let path = |name: &str| format!("{lists}/{name}");
    replay(&path("parse.txt"), |columns| parsing(&mut desk, columns));
    replay(&path("document.txt"), |columns| parsing(&mut desk, columns));
    replay(&path("rewrite.txt"), |columns| {
        rewriting(&mut desk, columns)
    });
    replay(&path("numerals.txt"), |columns| {
        numerals(&mut desk, columns)
    });
}

/// Each line's columns; the case says how it differs.
fn replay(path: &str, mut case: impl FnMut(&[&str]) -> Option<String>) {
    let Ok(list) = std::fs::read_to_string(path) else {
        eprintln!("{path} cannot be read");
        exit(2);
    };
    let lines = list.lines().filter(|line| !line.starts_with('#'));
    let mut count = 0;
    for line in lines {
        count += 1;
        let columns: Vec<&str> = line.split(' ').collect();
        if let Some(difference) = case(&columns) {
            println!("{path} DIFFERS\n  case: {line}\n  archive: {difference}");
            exit(1);
        }
    }
    println!("{path}: {count} cases as kept");
}

fn unhex(digits: &str) -> Vec<u8> {
    if digits == "-" {
        return Vec::new();
    }
    let pairs = digits.as_bytes().chunks(2);
    let byte = |two| u8::from_str_radix(std::str::from_utf8(two).expect("ASCII"), 16);
    pairs
        .map(|two| byte(two).expect("two hex digits"))
        .collect()
}

fn number(digits: &str) -> u32 {
    digits.parse().expect("a number")
}

/// None where they are alike, else what the archive says.
fn told<T: PartialEq + std::fmt::Debug>(archive: &T, expected: &T) -> Option<String> {
    (archive != expected).then(|| format!("{archive:02x?}"))
}

fn parsing(desk: &mut Desk, columns: &[&str]) -> Option<String> {
    let [operator, analyzer, field, fields, text, refusal, stored] = columns else {
        return Some("seven columns are wanted".into());
    };
    let (field, fields) = (unhex(field), unhex(fields));
    let setup = Setup {
        operator: u8::try_from(number(operator)).expect("a byte"),
        analyzer: u8::try_from(number(analyzer)).expect("a byte"),
        field: &field,
        fields: &fields,
    };
    let expected = match number(refusal) {
        0 => Ok(unhex(stored)),
        refusal => Err(refusal),
    };
    told(&desk.parse(setup, &unhex(text), OUTPUT), &expected)
}

fn rewriting(desk: &mut Desk, columns: &[&str]) -> Option<String> {
    let [query, rounds, rewritten] = columns else {
        return Some("three columns are wanted".into());
    };
    let expected = Ok((unhex(rewritten), number(rounds)));
    told(&desk.rewrite(&unhex(query), OUTPUT), &expected)
}

/// `a^` and the numeral with every byte escaped. A text of no bytes is no term, and so not compared.
fn numerals(desk: &mut Desk, columns: &[&str]) -> Option<String> {
    let [text, refusal, bits] = columns else {
        return Some("three columns are wanted".into());
    };
    let numeral = unhex(text);
    if numeral.is_empty() {
        return None;
    }
    let setup = Setup {
        operator: 0,
        analyzer: 2,
        field: b"f",
        fields: &[],
    };
    let escaped: Vec<u8> = numeral.iter().flat_map(|b| [b'\\', *b]).collect();
    let archive = desk.parse(setup, &[b"a^", &escaped[..]].concat(), OUTPUT);
    let expected = match number(refusal) {
        0 => Ok([
            &unhex("04000f")[..],
            &unhex(bits),
            &unhex("0100081000016611000161"),
        ]
        .concat()),
        refusal => Err(refusal),
    };
    told(&archive, &expected)
}
