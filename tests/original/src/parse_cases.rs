//! The cases of parse.txt.

use crate::lists::{self, List};
use crate::parse_tables as tables;
use original::answers::Setup;
use original::limits::parse_is_compared;
use original::random::Random;
use original::random_text;

const RANDOM: usize = 250;
const DAMAGED: usize = 100;
const LONG: usize = 10;

pub fn list(seed: u64) -> List {
    let mut list = List::new(
        "parse.txt",
        &[
            "The original's answers to parsing.",
            lists::PARSING,
            lists::ENTRIES,
            lists::BYTES,
            &format!("Made by `tests/original/run --keep`; seed {seed}."),
        ],
    );
    short_texts(&mut list);
    every_byte(&mut list);
    by_hand(&mut list);
    clauses(&mut list);
    chunks(&mut list);
    fields(&mut list);
    words(&mut list);
    longest(&mut list);
    random(&mut list, seed);
    list
}

const OR: u8 = 0;
const AND: u8 = 1;
const WHITESPACE: u8 = 1;
const SIMPLE: u8 = 2;
const KEYWORD: u8 = 3;
const WORDS: u8 = 4;
const ENGLISH: u8 = 5;

fn setup(operator: u8, analyzer: u8) -> Setup {
    Setup::new(operator, analyzer, b"f")
}

/// Every text of up to three bytes over twelve: a word that is kept, a digit that analyzes to nothing
/// and is a numeral, a blank, and one byte of each way to make a token. `+` and `!` parse much like
/// `-`, and `|` like `&`; the bytes that are refused wherever they are met need no company.
fn short_texts(list: &mut List) {
    const BYTES: &[u8; 12] = b"a1 -\"\\:()^~&";
    let setup = setup(OR, SIMPLE);
    let mut texts = vec![Vec::new()];
    for length in 0..=3 {
        for text in &texts {
            list.parsed(&setup, text);
        }
        if length < 3 {
            let longer = |text: &Vec<u8>| BYTES.map(|b| [text.as_slice(), &[b]].concat());
            texts = texts.iter().flat_map(longer).collect();
        }
    }
    assert_eq!(list.len(), 1_885);
}

/// Every byte between letters, and those that are no letter alone and in a quote too: the classes of
/// all 128.
fn every_byte(list: &mut List) {
    let whitespace = setup(OR, WHITESPACE);
    for b in 0..128_u8 {
        list.parsed(&setup(OR, SIMPLE), &[b'a', b, b'b']);
        if !b.is_ascii_alphabetic() {
            list.parsed(&whitespace, &[b]);
            list.parsed(&whitespace, &[b'a', b, b'b']);
        }
        if b <= b' ' {
            list.parsed(&whitespace, &[b'"', b'a', b, b'b', b'"']);
        }
    }
}

fn ask(list: &mut List, setup: &Setup, texts: &[&str]) {
    for text in texts {
        list.parsed(setup, text.as_bytes());
    }
}

fn by_hand(list: &mut List) {
    let or = setup(OR, SIMPLE);
    let and = setup(AND, SIMPLE);
    let whitespace = setup(OR, WHITESPACE);
    let keyword = setup(OR, KEYWORD);
    let of_or = [
        tables::DOCUMENT,
        tables::LEXING,
        tables::TILDES,
        tables::GRAMMAR,
        tables::BAD_BOOSTS,
        tables::BOOSTS,
        tables::OPERATORS,
        tables::NOTHING,
        tables::ESCAPES,
        tables::QUOTES,
        tables::SEPARATORS,
    ];
    for texts in of_or {
        ask(list, &or, texts);
    }
    for texts in [tables::DOCUMENT_AND, tables::NOTHING] {
        ask(list, &and, texts);
    }
    for texts in [
        tables::DOCUMENT_WHITESPACE,
        tables::OPERATORS,
        tables::SEPARATORS,
    ] {
        ask(list, &whitespace, texts);
    }
    ask(list, &keyword, tables::SEPARATORS);
    for texts in [tables::ESCAPES, tables::QUOTES] {
        ask(list, &whitespace, texts);
        ask(list, &keyword, texts);
    }
}

/// Every way to join two clauses, and three; with a clause that is not kept between.
fn clauses(list: &mut List) {
    let signs = ["", "+", "-"];
    let joints = [" ", " AND ", " OR "];
    for operator in [OR, AND] {
        let setup = setup(operator, SIMPLE);
        let mut texts = Vec::new();
        for joint in joints {
            for first in signs {
                texts.extend(signs.map(|sign| format!("{first}a{joint}{sign}b")));
            }
            texts.extend(joints.map(|next| format!("a{joint}b{next}c")));
            texts.extend(joints.map(|next| format!("a{joint}1{next}b")));
            texts.push(format!("a{joint}(b{joint}c)"));
            texts.push(format!("wi-fi{joint}\"a b\""));
        }
        for text in texts {
            list.parsed(&setup, text.as_bytes());
        }
    }
}

/// Words of 254 to 511 bytes, cut into chunks of 255 or, by the keyword analyzer, not cut.
fn chunks(list: &mut List) {
    for length in [254, 255, 256, 510, 511] {
        let word = "aB".repeat(256)[..length].to_string();
        for analyzer in [WHITESPACE, SIMPLE, KEYWORD] {
            let setup = setup(OR, analyzer);
            list.parsed(&setup, word.as_bytes());
            list.parsed(&setup, format!("\"{word}\"").as_bytes());
        }
    }
    let word = "a".repeat(256);
    for analyzer in [WHITESPACE, SIMPLE, KEYWORD] {
        let setup = setup(AND, analyzer);
        list.parsed(&setup, format!("-g:{word}^2 b").as_bytes());
        list.parsed(&setup, format!("\"c {word}-{word} d\"").as_bytes());
    }
    list.parsed(&setup(OR, WHITESPACE), "1".repeat(256).as_bytes());
}

/// Analyzers for single fields: entries that replace earlier ones, the default field's own entry,
/// empty names, names of 32 bytes, eight entries.
fn fields(list: &mut List) {
    let or = || setup(OR, SIMPLE);
    let two = or().entry(WHITESPACE, b"g").entry(KEYWORD, b"k");
    let replaced = two.clone().entry(KEYWORD, b"g").entry(WHITESPACE, b"k");
    let again = replaced.clone().entry(SIMPLE, b"g");
    let of_default = setup(AND, KEYWORD)
        .entry(WHITESPACE, b"f")
        .entry(SIMPLE, b"g");
    let empty = Setup::new(OR, SIMPLE, b"").entry(WHITESPACE, b"");
    let empty_name = or().entry(KEYWORD, b"");
    let mut eight = or();
    for name in ["a", "b", "c", "d", "e", "f", "g", "name-of-eight"] {
        eight = eight.entry(WHITESPACE, name.as_bytes());
    }
    for setup in [two, replaced, again, of_default, empty, empty_name, eight] {
        ask(list, &setup, tables::FIELDS);
    }
    let long = b"name-of-thirty-two-bytes-in-all!";
    let long = Setup::new(OR, SIMPLE, long).entry(WHITESPACE, long);
    let texts = ["", "A-1", r"name-of-thirty-two-bytes-in-all\!:A-1", "g:A-1"];
    ask(list, &long, &texts);
    for field in ["", "AND", "a b", "f:", "\x7f\x00"] {
        let setup = Setup::new(OR, SIMPLE, field.as_bytes());
        ask(list, &setup, &["a", "\"a b\"", "wi-fi^2", "f:a b"]);
    }
}

/// Words, and the clauses that stop words leave: one of several is a term, none is no clause, a phrase
/// starts from its first kept token.
fn words(list: &mut List) {
    for operator in [OR, AND] {
        for analyzer in [WORDS, ENGLISH] {
            ask(list, &setup(operator, analyzer), tables::WORDS);
        }
    }
    let note = setup(OR, SIMPLE).entry(ENGLISH, b"note").entry(WORDS, b"g");
    ask(
        list,
        &note,
        &[
            "note:the-lid note:The g:The",
            "note:\"of the rack\" g:\"of the rack\"",
        ],
    );
    let long = "x".repeat(255);
    for behind in ["the", "'the", "a'b", "_"] {
        let text = format!("{long}{behind} \"The {long}{behind} lid\"");
        list.parsed(&setup(OR, ENGLISH), text.as_bytes());
    }
}

/// Texts of 1,024 bytes: the longest answers, and the deepest one that 24 brackets make.
fn longest(list: &mut List) {
    let long = Setup::new(OR, SIMPLE, b"name-of-thirty-two-bytes-in-all!");
    list.parsed(&long, "a ".repeat(512).as_bytes());
    list.parsed(&setup(AND, SIMPLE), "-a^2".repeat(256).as_bytes());
    let deep = format!("{}wi-fi^2{}", "-(".repeat(24), ")^2".repeat(24));
    list.parsed(&setup(OR, SIMPLE), deep.as_bytes());
}

/// Texts by the grammar under random setups, damaged ones, and a few long ones.
fn random(list: &mut List, seed: u64) {
    let mut r = Random::new(seed);
    add_random(list, &mut r, RANDOM, |r| random_text::text(r, 60));
    add_random(list, &mut r, DAMAGED, |r| {
        let text = random_text::text(r, 60);
        random_text::damaged(r, &text)
    });
    add_random(list, &mut r, LONG, |r| {
        let texts: Vec<_> = (0..8).map(|_| random_text::text(r, 60)).collect();
        texts.join(&b' ')
    });
}

fn add_random(
    list: &mut List,
    r: &mut Random,
    count: usize,
    make: impl Fn(&mut Random) -> Vec<u8>,
) {
    let wanted = list.len() + count;
    while list.len() < wanted {
        let setup = random_text::setup(r);
        let text = make(r);
        if parse_is_compared(&setup, &text) {
            list.parsed(&setup, &text);
        }
    }
}
