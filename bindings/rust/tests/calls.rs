//! The wrapper itself: what it makes of setups, records and answers. That the calls are right is held by
//! `tests/rust` of the repository.

use gorbihesh::{
    Analyzer, FIELD_MOST, LIST_MOST, List, Operator, PARSE_ROOM, Query, Record, Refusal, Setup,
    TEXT_MOST, Unfit, calls,
};

fn setup() -> Setup {
    Setup::new("f", Analyzer::Simple)
}

/// The term `f:a`, as document 01 stores it.
const TERM: [u8; 11] = *b"\x01\x00\x08\x10\x00\x01f\x11\x00\x01a";

#[test]
fn parses_rewrites_and_selects() {
    let query = setup().parse("a").expect("a selector");
    assert_eq!(query.as_bytes(), TERM);
    let rewritten = query.rewrite().expect("a query");
    assert_eq!((rewritten.query, rewritten.rounds), (query.clone(), 1));
    let mut list = List::new();
    for word in ["b", "a", "c", "a"] {
        list.push(&Record::new().word("f", 0, word)).expect("space");
    }
    assert_eq!(list.count(), 4);
    assert_eq!(query.select(&list).expect("rows"), [1, 3]);
    assert_eq!(query.select(List::new()).expect("no rows"), []);
}

/// Minimum 2 and Should `f:a` twice, the case of document 01: it matches a record with `a`, and the original rewriting drops one.
#[test]
fn strict_keeps_what_repeats() {
    let clause = [b"\x21\x00\x0B", &TERM[..]].concat();
    let twice = [b"\x03\x00\x21\x13\x00\x02\x00\x02", &clause[..], &clause].concat();
    let query = Query::from_bytes(twice);
    let mut list = List::new();
    list.push(&Record::new().word("f", 0, "a")).expect("space");
    assert_eq!(query.select(&list), Ok(vec![0]));
    let strict = query.rewrite_strict().expect("a query");
    assert_eq!((&strict.query, strict.rounds), (&query, 1));
    let original = query.rewrite().expect("a query");
    assert_eq!(
        (original.query.as_bytes(), original.rounds),
        (&b"\x07\x00\x00"[..], 3)
    );
    assert_eq!(original.query.select(&list), Ok(vec![]));
    let cut = Query::from_bytes(&TERM[..10]);
    assert_eq!(cut.rewrite_strict(), Err(Refusal::MalformedQuery));
    let narrow = calls::rewrite_strict(
        &TERM,
        &mut [0; 10],
        &mut vec![0; calls::rewrite_strict_room()],
    );
    assert_eq!(narrow.done(), Err(Refusal::LongAnswer));
}

#[test]
fn the_setup_reaches_the_call() {
    let both = setup().joined_by(Operator::And).parse("a b");
    assert_eq!(both, setup().parse("+a +b"));
    let keyword = Setup::new("f", Analyzer::Keyword).parse("A1");
    assert_eq!(keyword, setup().with("f", Analyzer::Keyword).parse("A1"));
    assert_ne!(keyword, setup().parse("A1"));
    let latest = setup()
        .with("f", Analyzer::Whitespace)
        .with("f", Analyzer::Keyword);
    assert_eq!(keyword, latest.parse("A1"));
    assert_eq!(
        Setup::new("g", Analyzer::Simple).parse("f:a"),
        setup().parse("a")
    );
}

#[test]
fn setups_are_refused() {
    for length in [FIELD_MOST + 1, 255, 256, 300, 256 + FIELD_MOST] {
        let long = "n".repeat(length);
        let named = setup().with(&long, Analyzer::Simple).parse("a");
        assert_eq!(named, Err(Refusal::BadSetup), "{length}");
        let of = Setup::new(&long, Analyzer::Simple).parse("a");
        assert_eq!(of, Err(Refusal::BadSetup), "{length}");
    }
    let eight = (0..8).fold(setup(), |s, _| s.with("f", Analyzer::Simple));
    assert_eq!(eight.parse("a").expect("eight entries").as_bytes(), TERM);
    let ninth = eight.with("f", Analyzer::Simple).parse("a");
    assert_eq!(ninth, Err(Refusal::BadSetup));
}

#[test]
fn refusals_have_words() {
    let long = "a".repeat(TEXT_MOST + 1);
    for (text, refusal, at) in [
        (&*long, Refusal::LongText, 0),
        ("caf\u{e9}", Refusal::NotAscii, 0),
        ("a \"a", Refusal::OpenQuote, 2),
        ("a AND", Refusal::UnexpectedEnd, 5),
    ] {
        let refused = setup().parse(text).expect_err("a refusal");
        assert_eq!(refused, refusal);
        assert_eq!(setup().parse_placed(text), Err((refusal, at)));
        assert_eq!(refused.to_string(), refusal.words());
    }
    let mut all: Vec<_> = Refusal::ALL.iter().map(|refusal| refusal.words()).collect();
    all.push(Refusal::Unknown(99).words());
    let count = all.len();
    all.sort_unstable();
    all.dedup();
    assert_eq!(all.len(), count, "each has words of its own");
}

#[test]
fn refusals_and_numbers() {
    assert_eq!(Refusal::from_number(0), None);
    for refusal in Refusal::ALL {
        assert_eq!(Refusal::from_number(refusal.number()), Some(*refusal));
    }
    assert_eq!(Refusal::from_number(99), Some(Refusal::Unknown(99)));
    assert_eq!(Refusal::Unknown(99).number(), 99);
}

#[test]
fn damaged_bytes_are_refused() {
    let cut = Query::from_bytes(&TERM[..10]);
    assert_eq!(cut.rewrite(), Err(Refusal::MalformedQuery));
    assert_eq!(cut.select([]), Err(Refusal::MalformedQuery));
    let query = Query::from_bytes(TERM);
    assert_eq!(query.select([0x40]), Err(Refusal::MalformedList));
    let long = vec![0; LIST_MOST + 1];
    assert_eq!(query.select(&long), Err(Refusal::LongList));
}

#[test]
fn lists_of_bare_records_have_rows_enough() {
    let mut list = List::new();
    while list.push(&Record::new()).is_ok() {}
    assert_eq!(list.as_bytes().len(), LIST_MOST - LIST_MOST % 3);
    let all = Query::from_bytes(*b"\x06\x00\x00");
    let rows = all.select(&list).expect("rows");
    assert!(rows.iter().copied().eq(0..list.count()));
}

/// A range with both bounds inside, as document 01 stores it.
fn between(tag: u8, field: &str, bounds: [[u8; 8]; 2]) -> Query {
    let mut body = vec![0x10, 0, u8::try_from(field.len()).expect("a short name")];
    body.extend(field.bytes());
    for bound in bounds {
        body.extend([0x31, 0, 8]);
        body.extend(bound);
    }
    let length = u8::try_from(body.len()).expect("a short query");
    Query::from_bytes([&[tag, 0, length], &body[..]].concat())
}

#[test]
fn numbers_are_found_by_ranges() {
    let mut list = List::new();
    for (size, age) in [(-5, 0.5), (7, -0.5)] {
        let record = Record::new().whole("size", size).float("age", age);
        list.push(&record).expect("space");
    }
    let sizes = between(0x08, "size", [-9, 0].map(i64::to_be_bytes));
    assert_eq!(sizes.select(&list), Ok(vec![0]));
    let ages = between(0x09, "age", [-1.0, 0.0].map(f64::to_be_bytes));
    assert_eq!(ages.select(&list), Ok(vec![1]));
}

#[test]
fn entries_of_each_kind_are_sound() {
    let mut list = List::new();
    let record = Record::new()
        .word("f", u32::MAX, "a")
        .whole("size", -1)
        .float("age", f64::NAN)
        .word("", 0, "")
        .whole("n".repeat(FIELD_MOST), i64::MIN);
    list.push(&record).expect("space");
    assert_eq!(Query::from_bytes(TERM).select(&list), Ok(vec![0]));
}

#[test]
fn records_that_do_not_fit() {
    let mut list = List::new();
    let name = "n".repeat(FIELD_MOST + 1);
    let cases = [
        (Record::new().whole(&name, 1), Unfit::LongField),
        (Record::new().float(&name, 1.0), Unfit::LongField),
        (Record::new().word("\u{e9}", 0, "a"), Unfit::NotAscii),
        (Record::new().word("f", 0, "\u{e9}"), Unfit::NotAscii),
        (
            Record::new().word("f", 0, "\u{e9}").whole("f", 1),
            Unfit::NotAscii,
        ),
        (
            Record::new().word("f", 0, "a".repeat(70_000)),
            Unfit::LongRecord,
        ),
    ];
    for (record, fault) in cases {
        assert_eq!(list.push(&record), Err(fault), "{record:?}");
    }
    assert_eq!((list.count(), list.as_bytes()), (0, &[][..]));
}

/// The longest word that a record takes fills its list to the byte: four headers, the field's name and the
/// word's place stand beside it.
#[test]
fn the_longest_record() {
    let most = LIST_MOST - 4 * 3 - 1 - 4;
    let longest = Record::new().word("f", 0, "a".repeat(most));
    let mut list = List::new();
    assert_eq!(list.push(&longest), Ok(0));
    assert_eq!(list.as_bytes().len(), LIST_MOST);
    assert_eq!(list.push(&Record::new()), Err(Unfit::FullList));
    assert_eq!(Query::from_bytes(TERM).select(&list), Ok(vec![]));
    let longer = Record::new().word("f", 0, "a".repeat(most + 1));
    assert_eq!(List::new().push(&longer), Err(Unfit::LongRecord));
}

#[test]
fn lent_slices() {
    let (mut out, mut room) = ([0xA5; 16], [0xEE; PARSE_ROOM]);
    let setup = setup();
    let answer = calls::parse(setup.lent(), b"a", &mut out, &mut room);
    assert_eq!(answer.done().map(|a| a.length), Ok(11));
    assert_eq!((&out[..11], out[11]), (&TERM[..], 0xA5));
    assert_eq!(room, [0; PARSE_ROOM]);
    let short = calls::parse(setup.lent(), b"a", &mut out, &mut room[1..]);
    assert_eq!(short.done(), Err(Refusal::ShortRoom));
    let narrow = calls::rewrite(&TERM, &mut out[..10], &mut vec![0; calls::rewrite_room()]);
    assert_eq!(narrow.done(), Err(Refusal::LongAnswer));
}
