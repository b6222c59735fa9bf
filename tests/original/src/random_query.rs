//! Random queries for the rewriter, from a small vocabulary so that duplicates are common.

use crate::random::Random;
use crate::search::{BooleanQuery, Occur, PhraseQuery, Query};
use std::ops::Bound;

const TEXTS: [&str; 3] = ["a", "a", "b"];
const FIELDS: [&str; 4] = ["f", "f", "f", "g"];
const BOOSTS: [f32; 20] = [
    1.0,
    1.0,
    2.0,
    2.0,
    0.5,
    0.5,
    0.25,
    0.0,
    -0.0,
    -1.0,
    0.1,
    3.0,
    f32::INFINITY,
    f32::MAX,
    f32::EPSILON,
    5.960_464_5e-8, // 2^-24
    1e-45,          // the least subnormal
    1e-30,
    16_777_216.0,
    0.999_999_94,
];
const KINDS: [Occur; 7] = [
    Occur::Must,
    Occur::Must,
    Occur::Should,
    Occur::Should,
    Occur::Should,
    Occur::MustNot,
    Occur::Filter,
];
const MINIMA: [usize; 10] = [0, 0, 0, 0, 1, 1, 1, 2, 2, 3];

/// A query of at most this depth.
pub fn query(r: &mut Random, deepest: usize) -> Query {
    if deepest <= 1 {
        return leaf(r);
    }
    match r.below(10) {
        0..=3 => boolean(r, deepest),
        4 | 5 => query(r, deepest - 1).boost(r.pick(&BOOSTS)),
        6 => query(r, deepest - 1).constant_score(),
        _ => leaf(r),
    }
}

/// A Boolean; one clause in four is a copy of one before it, boosted anew or of another kind.
pub fn boolean(r: &mut Random, deepest: usize) -> Query {
    let mut b = BooleanQuery::new().minimum_should_match(r.pick(&MINIMA));
    for _ in 0..r.pick(&[0, 1, 1, 2, 2, 3, 3, 4, 5]) {
        let mut kind = r.pick(&KINDS);
        let mut q = query(r, deepest - 1);
        if !b.clauses.is_empty() && r.one_in(4) {
            let at = r.below(b.clauses.len());
            let (old, old_kind) = b.clauses[at].clone();
            kind = if r.one_in(3) { kind } else { old_kind };
            q = match old {
                Query::Boost(inner, _) if r.one_in(2) => inner.boost(r.pick(&BOOSTS)),
                old => old,
            };
        }
        b = b.clause(q, kind);
    }
    b.build()
}

fn leaf(r: &mut Random) -> Query {
    let field = r.pick(&FIELDS);
    match r.below(12) {
        0 => Query::MatchAll,
        1 => Query::MatchNone,
        2 | 3 => phrase(r, field),
        4 => Query::I64Range {
            field: field.into(),
            lower: bound(r, &[0, -1, i64::MIN]),
            upper: bound(r, &[0, 7, i64::MAX]),
        },
        5 => Query::F64Range {
            field: field.into(),
            lower: bound(r, &[0.0, -0.0, f64::NEG_INFINITY]),
            upper: bound(r, &[0.5, f64::NAN]),
        },
        _ => Query::term(field, r.pick(&TEXTS)),
    }
}

fn phrase(r: &mut Random, field: &str) -> Query {
    let mut p = PhraseQuery::new(field);
    for _ in 0..r.below(4) {
        let position = r.pick(&[0, 1, 3]);
        p = p.term_at(r.pick(&TEXTS), position);
    }
    p.build()
}

fn bound<T: Copy>(r: &mut Random, values: &[T]) -> Bound<T> {
    match r.below(3) {
        0 => Bound::Unbounded,
        1 => Bound::Included(r.pick(values)),
        _ => Bound::Excluded(r.pick(values)),
    }
}
