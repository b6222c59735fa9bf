//! Stored queries of shapes that random trees seldom have: as deep, as wide or as long as the rewriter takes, and such that need
//! many rounds.

use crate::queries::{Kind, Query, stored};
use crate::random::Random;
use crate::random_queries::{deepened, query};

/// About as deep as the rewriter takes.
pub fn deep(r: &mut Random) -> Vec<u8> {
    let inner = query(r, 3);
    let records = r.pick(&[5, 20, 60, 61, 62, 63, 64]);
    stored(&deepened(r, inner, records))
}

/// Many rounds: a level's clauses are equal only when the level inside has been merged.
pub fn chain(r: &mut Random) -> Vec<u8> {
    let word = || Query::Term(b"f".to_vec(), b"a".to_vec());
    let mut made = word();
    for _ in 0..r.below(66) {
        let kind = r.pick(&[Kind::Must, Kind::Should, Kind::Should]);
        let beside = if r.one_in(40) { query(r, 2) } else { word() };
        made = Query::Boolean(r.pick(&[0, 1]), vec![(kind, made), (kind, beside)]);
    }
    stored(&made)
}

/// A Boolean of up to so many small clauses; with many, about as long as the rewriter takes.
pub fn wide(r: &mut Random, clauses: usize, minima: &[u16]) -> Vec<u8> {
    let count = clauses - r.below(clauses / 3);
    let mut inner = Vec::new();
    for i in 0..count {
        let few = query(r, 2);
        let name = b"abcdefghijklmnopqrstuvwxyz"[i % 26];
        let term = Query::Term(b"f".to_vec(), vec![name]);
        let clause = if r.one_in(4) { few } else { term };
        inner.push((
            r.pick(&[Kind::Must, Kind::Should, Kind::Should, Kind::MustNot]),
            clause,
        ));
    }
    stored(&Query::Boolean(r.pick(minima), inner))
}

/// MatchAll beside MatchAll, in one kind or in several, filled to the byte: two of them take 12 bytes, and one with the sum
/// of their boosts takes 13. Some stand in Booleans of their own, beside a word, so that the whole grows by a byte for each.
pub fn pile(r: &mut Random, bytes: usize, minima: &[u16]) -> Vec<u8> {
    let all = [Kind::Must, Kind::Should, Kind::MustNot, Kind::Filter];
    let one = r.pick(&all);
    let kind = |r: &mut Random| if r.one_in(8) { r.pick(&all) } else { one };
    let pairs = r.one_in(3);
    let mut clauses = Vec::new();
    let mut left = bytes - 8;
    while left > 60 {
        let clause = if pairs {
            let word = Query::Term(
                Vec::new(),
                vec![b'a' + u8::try_from(left % 26).expect("a letter")],
            );
            let inside = vec![
                (Kind::Should, Query::MatchAll),
                (Kind::Should, Query::MatchAll),
                (Kind::Must, word),
            ];
            Query::Boolean(0, inside)
        } else {
            Query::MatchAll
        };
        let clause = (kind(r), clause);
        left -= 3 + stored(&clause.1).len();
        clauses.push(clause);
    }
    let rest = Query::Term(Vec::new(), vec![b'a'; left - 12]);
    clauses.push((kind(r), rest));
    stored(&Query::Boolean(r.pick(minima), clauses))
}
