//! Which records a query is true of, over trees, in the words of the rules.

use crate::tree::{Bound, Entry, Kind, Query, Record};

/// What a phrase may be shifted by. The second is a shortcut that loses records.
#[derive(Clone, Copy, PartialEq)]
pub enum Shifts {
    Any,
    StartAtZero,
}

/// Some whole number, possibly negative, added to all positions finds every one; a phrase with no words is false.
fn phrase(record: &Record, field: &[u8], words: &[(u32, Vec<u8>)], shifts: Shifts) -> bool {
    let places = |text: &[u8]| -> Vec<i64> {
        record
            .iter()
            .filter_map(|e| match e {
                Entry::Text(f, y, t) if f == field && t == text => Some(*y as i64),
                _ => None,
            })
            .collect()
    };
    let found: Vec<(i64, Vec<i64>)> = words.iter().map(|(p, t)| (*p as i64, places(t))).collect();
    // a number that finds every word finds the last one
    let Some((last, at)) = found.last() else { return false };
    at.iter().map(|y| y - last).any(|k| (shifts == Shifts::Any || k >= 0) && found.iter().all(|(p, ys)| ys.contains(&(p + k))))
}

fn inside<T: PartialOrd + Copy>(x: T, lower: &Bound, upper: &Bound, of: fn(u64) -> T) -> bool {
    let over = match lower {
        Bound::Open => true,
        Bound::Included(b) => of(*b) <= x,
        Bound::Excluded(b) => of(*b) < x,
    };
    let under = match upper {
        Bound::Open => true,
        Bound::Included(b) => x <= of(*b),
        Bound::Excluded(b) => x < of(*b),
    };
    over && under
}

pub fn holds(record: &Record, q: &Query, shifts: Shifts) -> bool {
    match q {
        Query::Term(f, t) => record.iter().any(|e| matches!(e, Entry::Text(g, _, u) if g == f && u == t)),
        Query::Phrase(f, ws) => phrase(record, f, ws, shifts),
        Query::Boolean(least, cs) => {
            let answers: Vec<(Kind, bool)> = cs.iter().map(|(k, c)| (*k, holds(record, c, shifts))).collect();
            let all = |kind: Kind, want: bool| answers.iter().filter(|(k, _)| *k == kind).all(|(_, b)| *b == want);
            let should = answers.iter().filter(|(k, b)| *k == Kind::Should && *b).count();
            let needed = answers.iter().any(|(k, _)| matches!(k, Kind::Must | Kind::Filter));
            all(Kind::Must, true) && all(Kind::Filter, true) && all(Kind::MustNot, false) && should >= *least as usize && (needed || should >= 1)
        }
        Query::Boost(_, q) | Query::ConstantScore(q) => holds(record, q, shifts),
        Query::MatchAll => true,
        Query::MatchNone => false,
        Query::Whole(f, l, u) => record.iter().any(|e| matches!(e, Entry::Whole(g, x) if g == f && inside(*x as i64, l, u, |b| b as i64))),
        Query::Float(f, l, u) => {
            record.iter().any(|e| matches!(e, Entry::Float(g, x) if g == f && !f64::from_bits(*x).is_nan() && inside(f64::from_bits(*x), l, u, f64::from_bits)))
        }
    }
}

pub fn chosen(q: &Query, records: &[Record], shifts: Shifts) -> Vec<u32> {
    (0..records.len() as u32).filter(|i| holds(&records[*i as usize], q, shifts)).collect()
}
