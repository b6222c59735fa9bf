//! Which records a query is true of, as document 01 defines it.

use crate::lists::{Entry, Record};
use crate::queries::{Bound, Kind, Numbers, Query};
use std::cmp::Ordering;

/// The numbers of the records for which the query is true.
#[must_use]
pub fn chosen(query: &Query, records: &[Record]) -> Vec<u32> {
    let numbered = (0_u32..).zip(records);
    let mine = numbered.filter(|(_, record)| is_true(query, record));
    mine.map(|(number, _)| number).collect()
}

#[must_use]
pub fn is_true(query: &Query, record: &[Entry]) -> bool {
    match query {
        Query::Term(field, text) => places(record, field, text).next().is_some(),
        Query::Phrase(field, words) => has_phrase(record, field, words),
        Query::Boolean(minimum, clauses) => is_boolean_true(*minimum, clauses, record),
        Query::Boost(_, inner) | Query::ConstantScore(inner) => is_true(inner, record),
        Query::MatchAll => true,
        Query::MatchNone => false,
        Query::Range(numbers, field, lower, upper) => record.iter().any(|entry| match entry {
            Entry::Value(kind, name, bits) => {
                kind == numbers && name == field && lies_inside(*numbers, *bits, *lower, *upper)
            }
            Entry::Place(..) => false,
        }),
    }
}

/// Where the text stands in the field.
fn places(record: &[Entry], field: &[u8], text: &[u8]) -> impl Iterator<Item = i64> {
    record.iter().filter_map(move |entry| match entry {
        Entry::Place(name, position, words) if name == field && words == text => {
            Some(i64::from(*position))
        }
        _ => None,
    })
}

/// The whole numbers that put each word on an entry, word after word; some must be left.
fn has_phrase(record: &[Entry], field: &[u8], words: &[(u32, Vec<u8>)]) -> bool {
    let Some(((position, text), others)) = words.split_first() else {
        return false;
    };
    let first = i64::from(*position);
    let mut shifts: Vec<i64> = places(record, field, text).map(|at| at - first).collect();
    for (position, text) in others {
        let from = i64::from(*position);
        shifts.retain(|shift| places(record, field, text).any(|at| at == from + shift));
    }
    !shifts.is_empty()
}

fn is_boolean_true(minimum: u16, clauses: &[(Kind, Query)], record: &[Entry]) -> bool {
    let of = |kind: Kind| {
        clauses
            .iter()
            .filter(move |(k, _)| *k == kind)
            .map(|(_, q)| q)
    };
    let needed = of(Kind::Must).chain(of(Kind::Filter)).count() > 0;
    let should = of(Kind::Should).filter(|q| is_true(q, record)).count();
    of(Kind::Must)
        .chain(of(Kind::Filter))
        .all(|q| is_true(q, record))
        && !of(Kind::MustNot).any(|q| is_true(q, record))
        && should >= usize::from(minimum)
        && (needed || should >= 1)
}

fn lies_inside(numbers: Numbers, bits: u64, lower: Bound, upper: Bound) -> bool {
    if numbers == Numbers::Float && f64::from_bits(bits).is_nan() {
        return false;
    }
    let at_least = match lower {
        Bound::Open => true,
        Bound::Included(low) => compare(numbers, low, bits).is_some_and(Ordering::is_le),
        Bound::Excluded(low) => compare(numbers, low, bits).is_some_and(Ordering::is_lt),
    };
    let at_most = match upper {
        Bound::Open => true,
        Bound::Included(high) => compare(numbers, bits, high).is_some_and(Ordering::is_le),
        Bound::Excluded(high) => compare(numbers, bits, high).is_some_and(Ordering::is_lt),
    };
    at_least && at_most
}

/// Whole numbers are signed; floats compare by IEEE, a NaN with nothing.
fn compare(numbers: Numbers, a: u64, b: u64) -> Option<Ordering> {
    match numbers {
        Numbers::Whole => Some(a.cast_signed().cmp(&b.cast_signed())),
        Numbers::Float => f64::from_bits(a).partial_cmp(&f64::from_bits(b)),
    }
}
