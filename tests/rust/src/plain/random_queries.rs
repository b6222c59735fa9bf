//! Random queries as trees, from a small vocabulary, so that duplicates and matches are common.

use crate::queries::{Bound, Kind, Numbers, Query};
use crate::random::Random;

pub const FIELDS: [&[u8]; 5] = [b"f", b"f", b"f", b"g", b""];
pub const TEXTS: [&[u8]; 6] = [b"a", b"a", b"b", b"b", b"c", b""];
pub const POSITIONS: [u32; 9] = [0, 0, 1, 1, 2, 3, 7, u32::MAX, u32::MAX - 1];
pub const WHOLES: [i64; 8] = [0, 0, 1, -1, 7, -8, i64::MIN, i64::MAX];
pub const FLOATS: [f64; 9] = [
    0.0,
    -0.0,
    1.0,
    -1.0,
    0.5,
    5e-324,
    f64::INFINITY,
    f64::NEG_INFINITY,
    f64::NAN,
];

const KINDS: [Kind; 8] = [
    Kind::Must,
    Kind::Must,
    Kind::Should,
    Kind::Should,
    Kind::Should,
    Kind::Should,
    Kind::MustNot,
    Kind::Filter,
];
const BOOSTS: [u32; 9] = [
    0x3F80_0000, // 1
    0x3F80_0000,
    0x4000_0000, // 2
    0x3F00_0000, // 0.5
    0xBF80_0000, // -1
    0,
    0x7F80_0000, // infinity
    0x0000_0001, // the least subnormal
    0x7FC0_0000, // NaN
];
const MINIMA: [u16; 12] = [0, 0, 0, 0, 1, 1, 1, 2, 2, 3, 4, u16::MAX];
/// Of Booleans whose clauses repeat.
pub const LARGER_MINIMA: [u16; 10] = [0, 1, 2, 2, 2, 3, 3, 4, 4, u16::MAX];

/// A query of at most this depth.
pub fn query(r: &mut Random, deepest: usize) -> Query {
    if deepest <= 1 {
        return leaf(r);
    }
    match r.below(10) {
        0..=4 => boolean(r, deepest),
        5 => Query::Boost(r.pick(&BOOSTS), Box::new(query(r, deepest - 1))),
        6 => Query::ConstantScore(Box::new(query(r, deepest - 1))),
        _ => leaf(r),
    }
}

/// A query inside so many more records.
pub fn deepened(r: &mut Random, mut query: Query, records: usize) -> Query {
    for _ in 0..records {
        query = match r.below(4) {
            0 => Query::Boost(r.pick(&BOOSTS), Box::new(query)),
            1 => Query::ConstantScore(Box::new(query)),
            _ => Query::Boolean(r.pick(&[0, 0, 1]), vec![(r.pick(&KINDS), query)]),
        };
    }
    query
}

fn boolean(r: &mut Random, deepest: usize) -> Query {
    let minimum = r.pick(&MINIMA);
    let mut clauses: Vec<(Kind, Query)> = Vec::new();
    for _ in 0..r.pick(&[0, 1, 1, 2, 2, 3, 3, 4, 6]) {
        let kind = r.pick(&KINDS);
        let copied = !clauses.is_empty() && r.one_in(4);
        let inner = if copied {
            clauses[r.below(clauses.len())].1.clone()
        } else {
            query(r, deepest - 1)
        };
        clauses.push((kind, inner));
    }
    Query::Boolean(minimum, clauses)
}

/// A Boolean whose clauses repeat: most are Should clauses, made of a few queries, with boosts and MatchNone among them.
pub fn repeating(r: &mut Random, deepest: usize) -> Query {
    let mut few = Vec::new();
    for _ in 0..r.pick(&[1, 1, 2, 2, 3, 5]) {
        few.push(if deepest > 2 && r.one_in(3) {
            repeating(r, deepest.div_ceil(2))
        } else {
            query(r, deepest - 1)
        });
    }
    let mut clauses = Vec::new();
    for _ in 0..r.pick(&[1, 2, 2, 3, 4, 5, 6, 9]) {
        let inner = few[r.below(few.len())].clone();
        let inner = match r.below(10) {
            0 => Query::MatchNone,
            1 => Query::Boost(r.pick(&BOOSTS), Box::new(inner)),
            _ => inner,
        };
        let any = r.pick(&KINDS);
        let kind = r.pick(&[Kind::Should, Kind::Should, Kind::Should, any]);
        clauses.push((kind, inner));
    }
    Query::Boolean(r.pick(&LARGER_MINIMA), clauses)
}

fn leaf(r: &mut Random) -> Query {
    let field = r.pick(&FIELDS).to_vec();
    match r.below(12) {
        0 => Query::MatchAll,
        1 => Query::MatchNone,
        2..=4 => Query::Phrase(field, words(r)),
        5 => Query::Range(Numbers::Whole, field, whole_bound(r), whole_bound(r)),
        6 => Query::Range(Numbers::Float, field, float_bound(r), float_bound(r)),
        _ => Query::Term(field, r.pick(&TEXTS).to_vec()),
    }
}

fn words(r: &mut Random) -> Vec<(u32, Vec<u8>)> {
    let count = r.pick(&[0, 1, 1, 2, 2, 2, 3]);
    (0..count)
        .map(|_| (r.pick(&POSITIONS), r.pick(&TEXTS).to_vec()))
        .collect()
}

fn whole_bound(r: &mut Random) -> Bound {
    let bits = r.pick(&WHOLES).cast_unsigned();
    bound(r, bits)
}

fn float_bound(r: &mut Random) -> Bound {
    let bits = r.pick(&FLOATS).to_bits();
    bound(r, bits)
}

fn bound(r: &mut Random, bits: u64) -> Bound {
    match r.below(3) {
        0 => Bound::Open,
        1 => Bound::Included(bits),
        _ => Bound::Excluded(bits),
    }
}
