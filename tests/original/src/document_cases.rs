//! The cases of document.txt: what lies outside the comparison, where document 01 decides. Its
//! sentences stand in quotes above the cases. Refusals are written by hand; where a case on the near
//! side of a line passes, the stored bytes are the original's.

use crate::document_limits;
use crate::lists::{self, List};
use original::answers::{Setup, parse};
use original::limits::parse_is_compared;

pub fn list() -> List {
    let mut list = List::new(
        "document.txt",
        &[
            "Answers to parsing that document 01 decides: refusals 1, 2, 3, 15, 16, 17 and their order.",
            lists::PARSING,
            lists::ENTRIES,
            lists::BYTES,
            "Made by `tests/original/run --keep`; refusals written by hand (document_cases.rs, document_limits.rs).",
        ],
    );
    setups(&mut list);
    entries(&mut list);
    broken_entries(&mut list);
    texts(&mut list);
    texts_among_faults(&mut list);
    document_limits::add(&mut list);
    list
}

pub fn or_simple() -> Setup {
    Setup::new(0, 2, b"f")
}

/// A refusal that document 01 gives. Where it is one of the original's own, 4 to 14, the first fault
/// met is the original's first fault too.
pub fn refused(list: &mut List, setup: &Setup, text: &[u8], refusal: u32) {
    if (4..=14).contains(&refusal) {
        assert_eq!(parse(setup, text), Err(refusal), "{text:?}");
    } else {
        assert!(!parse_is_compared(setup, text), "{text:?}");
    }
    list.parsing(setup, text, &Err(refusal));
}

/// A case on the near side of a line, which the original answers.
pub fn passes(list: &mut List, setup: &Setup, text: &[u8]) {
    let answer = parse(setup, text);
    assert!(answer.is_ok(), "{text:?}");
    list.parsing(setup, text, &answer);
}

fn setups(list: &mut List) {
    // "operator (0 Or, 1 And), default field, default analyzer (1 whitespace, 2 simple, 3 keyword)";
    // order 1: "3 now accepts analyzers 4 and 5"
    for operator in [2, 3, 255] {
        refused(list, &Setup::new(operator, 2, b"f"), b"a", 3);
    }
    for analyzer in [0, 6, 7, 255] {
        refused(list, &Setup::new(0, analyzer, b"f"), b"a", 3);
    }
    // "A field name has 0 to 32 ASCII bytes."
    passes(list, &Setup::new(0, 2, b""), b"a");
    passes(list, &Setup::new(0, 2, &[b'n'; 32]), b"a");
    passes(list, &Setup::new(0, 2, &[0, 0x7f]), b"a");
    refused(list, &Setup::new(0, 2, &[b'n'; 33]), b"a", 3);
    refused(list, &Setup::new(0, 2, &[b'n'; 33]), b"g:a", 3);
    refused(list, &Setup::new(0, 2, &[0x80]), b"a", 3);
    refused(list, &Setup::new(0, 2, &[b'n', 0xff]), b"g:a", 3);
    // "Parse order: 3, 1, 2"
    let bad = Setup::new(2, 2, b"f");
    refused(list, &bad, &[b'a'; 1_025], 3);
    refused(list, &bad, &[0x80], 3);
    refused(list, &bad, &[0x80; 1_025], 3);
    refused(list, &bad, b"\"", 3);
    refused(list, &bad, b"", 3);
}

fn entries(list: &mut List) {
    // "up to eight field names, each with an analyzer of its own; a later entry for the same name
    // replaces the earlier, and a ninth entry is refused"
    let names = [b"a", b"b", b"c", b"d", b"e", b"f", b"g", b"h", b"i"];
    let first = |n: usize| {
        let names = names.iter().take(n);
        names.fold(or_simple(), |setup, name| setup.entry(1, *name))
    };
    passes(list, &first(8), b"h:A-1 i:A-1");
    refused(list, &first(9), b"h:A-1 i:A-1", 3);
    passes(list, &first(7).entry(3, b"a"), br"a:A\ B b:A\ B");
    refused(list, &first(8).entry(3, b"a"), br"a:A\ B b:A\ B", 3);
    let same = |n: usize| (0..n).fold(or_simple(), |setup, _| setup.entry(1, b"f"));
    passes(list, &same(8), b"A-1");
    refused(list, &same(9), b"A-1", 3);
    // Eight entries and a byte of a ninth.
    let mut setup = first(8);
    setup.fields.push(1);
    refused(list, &setup, b"a", 3);
}

fn broken_entries(list: &mut List) {
    // "A field name has 0 to 32 ASCII bytes."
    passes(list, &or_simple().entry(1, b""), b"A-1");
    passes(list, &or_simple().entry(1, &[b'n'; 32]), b"A-1");
    refused(list, &or_simple().entry(1, &[b'n'; 33]), b"A-1", 3);
    refused(list, &or_simple().entry(1, &[0x80]), b"A-1", 3);
    // An analyzer that is none, though replaced.
    for analyzer in [0, 6, 255] {
        refused(list, &or_simple().entry(analyzer, b"g"), b"a", 3);
        refused(
            list,
            &or_simple().entry(analyzer, b"g").entry(1, b"g"),
            b"a",
            3,
        );
    }
    // An entry that breaks off: after its analyzer, before its name, inside its name.
    for fields in [
        &[1][..],
        &[1, 1],
        &[1, 2, b'g'],
        &[1, 1, b'g', 2],
        &[1, 32, b'g'],
        &[1, 255],
    ] {
        let mut setup = or_simple();
        setup.fields = fields.to_vec();
        refused(list, &setup, b"a", 3);
        refused(list, &setup, &[0x80; 1_025], 3);
    }
}

fn texts(list: &mut List) {
    let setup = or_simple();
    // "1 | text over 1,024 bytes"
    for byte in [b'a', b' ', b'+'] {
        refused(list, &setup, &[byte; 1_025], 1);
    }
    for byte in *b"a 1" {
        passes(list, &setup, &[byte; 1_024]);
    }
    refused(list, &setup, &[b'a'; 2_000], 1);
    // "2 | text has a byte 0x80 or above"
    for text in [
        &b"\x80"[..],
        b"\xff",
        b"a \xc3\xa9",
        b"\"a\x80b\"",
        b"\\\x80",
        b"a^\x80",
        b"\x80:a",
    ] {
        refused(list, &setup, text, 2);
    }
    passes(list, &setup, b"\x7f");
    passes(list, &setup, b"a\x7f");
}

fn texts_among_faults(list: &mut List) {
    // "Parse order: 3, 1, 2; then the whole text is lexed"
    let setup = or_simple();
    let mut long = vec![b'a'; 1_024];
    long[1_023] = 0x80;
    refused(list, &setup, &long, 2);
    long.push(b'a');
    refused(list, &setup, &long, 1);
    refused(list, &setup, &[0x80; 1_025], 1);
    refused(list, &setup, &[b'"'; 1_025], 1);
    for text in [
        &b"\"\x80"[..],
        b"[\x80",
        b"\x80\"",
        b"* \x80",
        b") \x80",
        b"a~\x80",
        b"\\\x80\\",
    ] {
        refused(list, &setup, text, 2);
    }
}
