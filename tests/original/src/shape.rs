//! What can be seen of a query's shape: its inner queries, depth, weight, NaN boosts, duplicates.

use crate::search::{Occur, Query};

/// The queries directly inside.
#[must_use]
pub fn inside(q: &Query) -> Vec<&Query> {
    match q {
        Query::Boost(inner, _) | Query::ConstantScore(inner) => vec![inner],
        Query::Boolean(b) => b.clauses.iter().map(|(q, _)| q).collect(),
        _ => Vec::new(),
    }
}

/// Depth counts query records from 1.
#[must_use]
pub fn depth(q: &Query) -> usize {
    1 + inside(q).into_iter().map(depth).max().unwrap_or(0)
}

/// Document 01's weight, which bounds the rounds.
#[must_use]
pub fn weight(q: &Query) -> usize {
    let inner: usize = inside(q).into_iter().map(weight).sum();
    match q {
        Query::Boost(..) | Query::ConstantScore(_) => 1 + inner,
        Query::Phrase(_) => 2,
        Query::Boolean(b) => 3 + b.clauses.len() + inner,
        _ => 1,
    }
}

/// Whether the query, or one inside, has this of it.
pub fn some(q: &Query, test: &impl Fn(&Query) -> bool) -> bool {
    test(q) || inside(q).into_iter().any(|q| some(q, test))
}

/// Whether a boost is NaN.
#[must_use]
pub fn has_nan(q: &Query) -> bool {
    some(q, &|q| matches!(q, Query::Boost(_, b) if b.is_nan()))
}

/// Whether a Boolean has two Must clauses, or two Should clauses with a minimum of at most 1, that
/// are equal after one outer boost is taken off: in no result of rewriting.
#[must_use]
pub fn has_duplicates(q: &Query) -> bool {
    some(q, &|q| {
        let Query::Boolean(b) = q else { return false };
        let mut bases = Vec::new();
        b.clauses.iter().any(|(q, occur)| {
            let summable =
                *occur == Occur::Must || (*occur == Occur::Should && b.minimum_should_match <= 1);
            let base = match q {
                Query::Boost(inner, _) => &**inner,
                q => q,
            };
            let twice = summable && bases.contains(&(base, *occur));
            bases.push((base, *occur));
            twice
        })
    })
}
