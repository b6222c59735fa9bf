//! The cases of rewrite.txt: small trees for each rule, deep and long ones, random ones.

use crate::lists::{self, List};
use crate::rewrite_sums;
use original::answers::parse;
use original::random::Random;
use original::search::{BooleanQuery, Occur, PhraseQuery, Query};
use original::stored::{decode, encode};
use original::{limits, random_query, random_text};
use std::ops::Bound;

const RANDOM: usize = 200;
const PARSED: usize = 60;

pub fn list(seed: u64) -> List {
    let mut list = List::new(
        "rewrite.txt",
        &[
            "The original's answers to rewriting.",
            "Columns: query rounds rewritten",
            lists::BYTES,
            &format!("Made by `tests/original/run --keep`; seed {seed}."),
        ],
    );
    leaves(&mut list);
    boosts(&mut list);
    constant_scores(&mut list);
    lone_clauses(&mut list);
    two_clauses(&mut list);
    dropped(&mut list);
    rewrite_sums::add(&mut list);
    equal_after_rewriting(&mut list);
    deep(&mut list);
    long(&mut list);
    random(&mut list, seed);
    list
}

const KINDS: [Occur; 4] = [Occur::Must, Occur::Should, Occur::MustNot, Occur::Filter];

pub fn a() -> Query {
    Query::term("f", "a")
}

pub fn b() -> Query {
    Query::term("f", "b")
}

pub fn boolean(minimum: usize, clauses: &[(Occur, Query)]) -> Query {
    let new = BooleanQuery::new().minimum_should_match(minimum);
    let clauses = clauses.iter().cloned();
    clauses.fold(new, |b, (kind, q)| b.clause(q, kind)).build()
}

/// Words with their positions.
fn phrase(words: &[(&str, u32)]) -> Query {
    let words = words.iter();
    words
        .fold(PhraseQuery::new("f"), |p, (text, at)| p.term_at(text, *at))
        .build()
}

fn bounds<T: Copy>(value: T) -> [Bound<T>; 3] {
    let (included, excluded) = (Bound::Included(value), Bound::Excluded(value));
    [Bound::Unbounded, included, excluded]
}

fn whole(lower: Bound<i64>, upper: Bound<i64>) -> Query {
    let field = "f".into();
    Query::I64Range {
        field,
        lower,
        upper,
    }
}

fn float(lower: Bound<f64>, upper: Bound<f64>) -> Query {
    let field = "f".into();
    Query::F64Range {
        field,
        lower,
        upper,
    }
}

/// Queries without an inner one: phrases of no, one and two words, ranges with every pair of bounds.
fn leaves(list: &mut List) {
    let phrases: [&[(&str, u32)]; 8] = [
        &[],
        &[("a", 0)],
        &[("a", 3)],
        &[("", u32::MAX)],
        &[("a", 0), ("b", 1)],
        &[("a", 0), ("a", 0)],
        &[("b", 7), ("a", 0)],
        &[("a", 0), ("b", 1), ("c", 2)],
    ];
    let others = [a(), Query::term("", ""), Query::MatchAll, Query::MatchNone];
    for q in others.iter().cloned().chain(phrases.map(phrase)) {
        list.rewritten(&q);
    }
    for lower in bounds(0) {
        for upper in bounds(1) {
            list.rewritten(&whole(lower, upper));
            list.rewritten(&boolean(0, &[(Occur::Must, whole(upper, lower))]));
        }
    }
    for lower in bounds(-0.0) {
        for upper in bounds(f64::INFINITY) {
            list.rewritten(&float(lower, upper));
            list.rewritten(&boolean(0, &[(Occur::Should, float(upper, lower))]));
        }
    }
}

/// Queries of every kind that an outer one may treat in its own way.
fn inner() -> Vec<Query> {
    vec![
        a(),
        Query::MatchNone,
        Query::MatchAll,
        phrase(&[]),
        phrase(&[("a", 3)]),
        a().constant_score(),
        a().boost(3.0),
        a().boost(1.0),
        boolean(0, &[(Occur::Must, a())]),
        boolean(0, &[(Occur::Filter, a())]),
        boolean(0, &[(Occur::Must, a()), (Occur::MustNot, b())]),
    ]
}

const BOOSTS: [f32; 9] = [
    1.0,
    2.0,
    0.1,
    0.0,
    -0.0,
    -1.0,
    f32::INFINITY,
    f32::MAX,
    f32::from_bits(1),
];

/// A boost around each of them, nested boosts as one product of 32 bits.
fn boosts(list: &mut List) {
    for boost in BOOSTS {
        for q in inner() {
            list.rewritten(&q.boost(boost));
        }
        for other in [0.5, 0.1, 1e-30, f32::from_bits(0x3F80_0001), f32::INFINITY] {
            list.rewritten(&a().boost(boost).boost(other));
        }
        list.rewritten(&a().boost(0.1).boost(boost).boost(0.3));
    }
}

fn constant_scores(list: &mut List) {
    for q in inner() {
        list.rewritten(&q.clone().constant_score());
        list.rewritten(&q.clone().constant_score().constant_score());
        list.rewritten(&q.clone().boost(2.0).constant_score());
        list.rewritten(&q.constant_score().boost(2.0).constant_score().boost(0.5));
    }
}

/// No clause, and one of each kind, at minimum 0, 1 and 2.
fn lone_clauses(list: &mut List) {
    for minimum in [0, 1, 2] {
        list.rewritten(&boolean(minimum, &[]));
        for kind in KINDS {
            for q in [a(), Query::MatchNone, a().boost(2.0), a().constant_score()] {
                list.rewritten(&boolean(minimum, &[(kind, q)]));
            }
        }
    }
    for q in inner() {
        list.rewritten(&boolean(0, &[(Occur::Filter, q.clone())]));
        list.rewritten(&boolean(1, &[(Occur::Should, q)]));
    }
}

/// Two clauses of every two kinds: the same, different, the same but for a boost.
fn two_clauses(list: &mut List) {
    for first in KINDS {
        for second in KINDS {
            for minimum in [0, 2] {
                list.rewritten(&boolean(minimum, &[(first, a()), (second, a())]));
            }
            let boosted = [(first, a().boost(2.0)), (second, a())];
            list.rewritten(&boolean(1, &boosted));
            let boosted = [(first, a().boost(2.0)), (second, a().boost(2.0))];
            list.rewritten(&boolean(0, &boosted));
            list.rewritten(&boolean(0, &[(first, a()), (second, b())]));
        }
    }
}

/// MatchNone among the clauses.
fn dropped(list: &mut List) {
    for none in KINDS {
        for kind in KINDS {
            for minimum in [0, 1] {
                let clauses = [(none, Query::MatchNone), (kind, a())];
                list.rewritten(&boolean(minimum, &clauses));
            }
            let clauses = [(kind, a()), (none, phrase(&[])), (Occur::Must, b())];
            list.rewritten(&boolean(0, &clauses));
        }
    }
    let inner = boolean(2, &[(Occur::Should, a())]);
    for kind in KINDS {
        let clauses = [(Occur::Should, a()), (kind, inner.clone().boost(2.0))];
        list.rewritten(&boolean(0, &clauses));
    }
}

/// Pairs that become equal when they are rewritten, pairs that never do, and ranges whose equality is
/// that of their bits.
fn pairs() -> Vec<(Query, Query)> {
    let quiet = |bits| Bound::Included(f64::from_bits(bits));
    vec![
        (a(), phrase(&[("a", 9)])),
        (a(), a().boost(1.0)),
        (a(), boolean(1, &[(Occur::Should, a())])),
        (a().constant_score(), a().boost(2.0).constant_score()),
        (a().boost(2.0).boost(0.5), a()),
        (phrase(&[("a", 0), ("b", 1)]), phrase(&[("a", 1), ("b", 2)])),
        (phrase(&[("a", 0), ("b", 1)]), phrase(&[("a", 0), ("b", 1)])),
        (
            float(quiet(0), Bound::Unbounded),
            float(quiet(1 << 63), Bound::Unbounded),
        ),
        (
            float(quiet(u64::MAX), quiet(0)),
            float(quiet(u64::MAX), quiet(0)),
        ),
        (
            float(quiet(u64::MAX), quiet(0)),
            float(quiet(u64::MAX - 1), quiet(0)),
        ),
        (
            whole(Bound::Included(0), Bound::Unbounded),
            whole(Bound::Excluded(0), Bound::Unbounded),
        ),
        (
            whole(Bound::Included(7), Bound::Unbounded),
            whole(Bound::Included(7), Bound::Unbounded),
        ),
        (Query::term("f", "a"), Query::term("g", "a")),
        (Query::term("f", "a"), Query::term("f", "A")),
        (Query::MatchAll, Query::MatchAll.boost(3.0)),
    ]
}

fn equal_after_rewriting(list: &mut List) {
    for (first, second) in pairs() {
        for kind in KINDS {
            let clauses = [(kind, first.clone()), (kind, second.clone())];
            list.rewritten(&boolean(0, &clauses));
        }
        let clauses = [(Occur::Must, first), (Occur::Filter, second)];
        list.rewritten(&boolean(0, &clauses));
    }
}

/// Chains to depth 64. The last one comes out deeper than it went in.
fn deep(list: &mut List) {
    let chain = |outer: &dyn Fn(Query) -> Query, n: usize| (0..n).fold(a(), |q, _| outer(q));
    list.rewritten(&chain(&|q| q.boost(1.0), 63));
    list.rewritten(&chain(&|q| q.boost(2.0), 63));
    list.rewritten(&chain(&|q| q.boost(1.000_000_1), 63));
    list.rewritten(&chain(&Query::constant_score, 63));
    for kind in KINDS {
        list.rewritten(&chain(&|q| boolean(0, &[(kind, q)]), 63));
    }
    list.rewritten(&chain(
        &|q| boolean(0, &[(Occur::Must, q), (Occur::MustNot, b())]),
        63,
    ));
    let filtered = |q| {
        let lone = boolean(0, &[(Occur::Filter, q)]);
        boolean(0, &[(Occur::Must, lone), (Occur::MustNot, b())])
    };
    list.rewritten(&chain(&filtered, 31));
}

/// A query of 32,768 bytes whose rewriting is longer: in each inner Boolean two clauses of six bytes
/// become one with a boost of seven.
fn long(list: &mut List) {
    let twice = [
        (Occur::Must, Query::MatchAll),
        (Occur::Must, Query::MatchAll),
    ];
    let inner = |text: &str| {
        let third = (Occur::Must, Query::term("", text));
        boolean(0, &[&twice[..], &[third]].concat())
    };
    let length = |clauses: &[(Occur, Query)]| encode(&boolean(0, clauses)).len();
    let mut clauses = Vec::new();
    while length(&clauses) < limits::QUERY - 100 {
        clauses.push((Occur::MustNot, inner(&format!("{:03}", clauses.len()))));
    }
    clauses.push((Occur::Should, a()));
    let rest = limits::QUERY - length(&clauses);
    clauses[0].1 = inner(&"x".repeat(3 + rest));
    assert_eq!(length(&clauses), limits::QUERY);
    list.rewritten(&boolean(0, &clauses));
}

/// Random trees, and what random texts parse to.
fn random(list: &mut List, seed: u64) {
    let mut r = Random::new(seed);
    let wanted = list.len() + RANDOM;
    while list.len() < wanted {
        let deepest = r.pick(&[3, 3, 4, 5]);
        list.rewritten(&random_query::boolean(&mut r, deepest));
    }
    let wanted = list.len() + PARSED;
    while list.len() < wanted {
        let setup = random_text::setup(&mut r);
        let text = random_text::text(&mut r, 60);
        if let Ok(stored) = parse(&setup, &text) {
            list.rewritten(&decode(&stored).expect("a stored query"));
        }
    }
}
