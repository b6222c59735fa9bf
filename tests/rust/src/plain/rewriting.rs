//! Rewriting over trees, round after round until one changes nothing: as document 01 says it, and as order 3 changes it.

use crate::queries::{Kind, Query};

/// Under a minimum above 1, what becomes of a Should clause that equals a kept one: it is dropped, as in the Rust, or it stays.
#[derive(Clone, Copy, Debug, PartialEq, Eq)]
pub enum Way {
    Original,
    Strict,
}

const ONE: u32 = 0x3F80_0000;
const NAN: u32 = 0x7FC0_0000;

/// The query of the last round, and how many rounds were made, the last unchanged one included.
#[must_use]
pub fn rewrite(way: Way, query: &Query) -> (Query, u32) {
    let mut query = query.clone();
    for rounds in 1.. {
        let next = once(way, &query);
        if next == query {
            return (query, rounds);
        }
        query = next;
    }
    unreachable!("rounds end")
}

/// One round, children first.
fn once(way: Way, query: &Query) -> Query {
    match query {
        Query::Phrase(_, words) if words.is_empty() => Query::MatchNone,
        Query::Phrase(field, words) if words.len() == 1 => {
            Query::Term(field.clone(), words[0].1.clone())
        }
        Query::Boost(bits, inner) => boosted(*bits, once(way, inner)),
        Query::ConstantScore(inner) => scored(once(way, inner)),
        Query::Boolean(minimum, clauses) => {
            let rewritten = clauses.iter().map(|(kind, q)| (*kind, once(way, q)));
            boolean(way, *minimum, rewritten.collect())
        }
        other => other.clone(),
    }
}

fn boosted(bits: u32, inner: Query) -> Query {
    match inner {
        inner if bits == ONE => inner,
        Query::MatchNone => Query::MatchNone,
        Query::Boost(other, inner) => {
            let product = f32::from_bits(other) * f32::from_bits(bits);
            Query::Boost(one_nan(product), inner)
        }
        inner => Query::Boost(bits, Box::new(inner)),
    }
}

fn scored(inner: Query) -> Query {
    match inner {
        Query::MatchNone => Query::MatchNone,
        Query::ConstantScore(inner) | Query::Boost(_, inner) => Query::ConstantScore(inner),
        inner => Query::ConstantScore(Box::new(inner)),
    }
}

/// There is one NaN, and every NaN becomes it.
const fn one_nan(boost: f32) -> u32 {
    if boost.is_nan() { NAN } else { boost.to_bits() }
}

fn boolean(way: Way, minimum: u16, clauses: Vec<(Kind, Query)>) -> Query {
    let (empty, live): (Vec<_>, Vec<_>) = clauses
        .into_iter()
        .partition(|(_, query)| *query == Query::MatchNone);
    let is_needed = |kind| matches!(kind, Kind::Must | Kind::Filter);
    let of = |kind| live.iter().filter(move |(k, _)| *k == kind).count();
    if empty.iter().any(|(kind, _)| is_needed(*kind))
        || of(Kind::MustNot) == live.len()
        || of(Kind::Should) < usize::from(minimum)
    {
        return Query::MatchNone;
    }
    match &live[..] {
        [(Kind::Filter, query)] if minimum <= 1 => {
            let score = Query::ConstantScore(Box::new(query.clone()));
            Query::Boost(0, Box::new(score))
        }
        [(_, query)] if minimum <= 1 => query.clone(),
        _ => Query::Boolean(minimum, merged(way, minimum, live)),
    }
}

/// A clause that was kept, and the boosts that it stands for, in clause order.
struct Kept {
    kind: Kind,
    query: Query,
    boosts: Vec<u32>,
}

/// Does a kept clause of one kind stand for an equal one of the other?
fn stands_for(way: Way, minimum: u16, kept: Kind, other: Kind) -> bool {
    match (kept, other) {
        (Kind::Should, Kind::Should) => way == Way::Original || minimum <= 1,
        (Kind::Must, Kind::Filter) => true,
        _ => kept == other,
    }
}

fn merged(way: Way, minimum: u16, clauses: Vec<(Kind, Query)>) -> Vec<(Kind, Query)> {
    let mut all: Vec<Kept> = Vec::new();
    for (kind, query) in clauses {
        let is_summed = kind == Kind::Must || (kind == Kind::Should && minimum <= 1);
        let (boosts, query) = match query {
            Query::Boost(bits, inner) if is_summed => (vec![bits], *inner),
            query if is_summed => (vec![ONE], query),
            query => (Vec::new(), query),
        };
        let like = |k: &&mut Kept| stands_for(way, minimum, k.kind, kind) && k.query == query;
        match all.iter_mut().find(like) {
            Some(kept) => kept.boosts.extend(boosts),
            None => all.push(Kept {
                kind,
                query,
                boosts,
            }),
        }
    }
    all.into_iter()
        .map(|kept| (kept.kind, summed(kept)))
        .collect()
}

/// The sum runs in 64 bits and is rounded once; it is put back where it is not 1.
fn summed(kept: Kept) -> Query {
    let boosts = kept.boosts.iter();
    let sum = boosts
        .map(|bits| f64::from(f32::from_bits(*bits)))
        .reduce(|a, b| a + b);
    match sum {
        Some(sum) if sum != 1.0 => {
            #[allow(clippy::cast_possible_truncation)] // to nearest, ties to even
            let rounded = sum as f32;
            Query::Boost(one_nan(rounded), Box::new(kept.query))
        }
        _ => kept.query,
    }
}
