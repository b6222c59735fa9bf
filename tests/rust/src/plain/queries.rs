//! Stored queries as trees: reading, with the refusals 19, 20 and 21, and writing.

use crate::parts::{Reader, put, put_word};

#[derive(Clone, Debug, PartialEq, Eq)]
pub enum Query {
    Term(Vec<u8>, Vec<u8>),
    Phrase(Vec<u8>, Vec<(u32, Vec<u8>)>),
    Boolean(u16, Vec<(Kind, Query)>),
    Boost(u32, Box<Query>),
    ConstantScore(Box<Query>),
    MatchAll,
    MatchNone,
    Range(Numbers, Vec<u8>, Bound, Bound),
}

#[derive(Clone, Copy, Debug, PartialEq, Eq)]
pub enum Kind {
    Must,
    Should,
    MustNot,
    Filter,
}

#[derive(Clone, Copy, Debug, PartialEq, Eq)]
pub enum Numbers {
    Whole,
    Float,
}

/// A bound of a range, with the 64 bits of its number.
#[derive(Clone, Copy, Debug, PartialEq, Eq)]
pub enum Bound {
    Open,
    Included(u64),
    Excluded(u64),
}

/// Most bytes and greatest depth: as the rewriter and as selection take a query.
pub const REWRITER: (usize, usize) = (32_768, 64);
pub const SELECTION: (usize, usize) = (65_535, 192);

const KINDS: [Kind; 4] = [Kind::Must, Kind::Should, Kind::MustNot, Kind::Filter];
const TAGS: [u8; 9] = [1, 2, 3, 4, 5, 6, 7, 8, 9];

/// The query that these bytes are.
///
/// # Errors
/// 19 where they are too many; 20 and 21 in reading order.
pub fn read(bytes: &[u8], (most, deepest): (usize, usize)) -> Result<Query, u32> {
    if bytes.len() > most {
        return Err(19);
    }
    read_one(Reader::new(bytes, 20), deepest)
}

/// One query that fills the slice, of at most `left` records one in another.
fn read_one(mut from: Reader, left: usize) -> Result<Query, u32> {
    let (tag, body) = from.part(&TAGS)?;
    let left = left.checked_sub(1).ok_or(21_u32)?;
    let query = match tag {
        1 => read_term(body)?,
        2 => read_phrase(body)?,
        3 => read_boolean(body, left)?,
        4 => read_boost(body, left)?,
        5 => Query::ConstantScore(Box::new(read_one(body, left)?)),
        6 | 7 => {
            body.end()?;
            if tag == 6 {
                Query::MatchAll
            } else {
                Query::MatchNone
            }
        }
        8 => read_range(body, Numbers::Whole)?,
        _ => read_range(body, Numbers::Float)?,
    };
    from.end()?;
    Ok(query)
}

fn read_term(mut body: Reader) -> Result<Query, u32> {
    let field = body.field()?;
    let text = body.part(&[0x11])?.1.text()?;
    body.end()?;
    Ok(Query::Term(field, text))
}

fn read_phrase(mut body: Reader) -> Result<Query, u32> {
    let field = body.field()?;
    let mut words = Vec::new();
    while !body.is_done() {
        words.push(body.word()?);
    }
    Ok(Query::Phrase(field, words))
}

fn read_boolean(mut body: Reader, left: usize) -> Result<Query, u32> {
    let (_, mut part) = body.part(&[0x13])?;
    let minimum = u16::try_from(part.number(2)?).expect("two bytes");
    part.end()?;
    let mut clauses = Vec::new();
    while !body.is_done() {
        let (tag, clause) = body.part(&[0x20, 0x21, 0x22, 0x23])?;
        clauses.push((KINDS[usize::from(tag - 0x20)], read_one(clause, left)?));
    }
    Ok(Query::Boolean(minimum, clauses))
}

fn read_boost(mut body: Reader, left: usize) -> Result<Query, u32> {
    let bits = u32::try_from(body.number(4)?).expect("four bytes");
    body.need(bits == 0x7FC0_0000 || !f32::from_bits(bits).is_nan())?;
    Ok(Query::Boost(bits, Box::new(read_one(body, left)?)))
}

fn read_range(mut body: Reader, numbers: Numbers) -> Result<Query, u32> {
    let field = body.field()?;
    let lower = read_bound(&mut body)?;
    let upper = read_bound(&mut body)?;
    body.end()?;
    Ok(Query::Range(numbers, field, lower, upper))
}

fn read_bound(from: &mut Reader) -> Result<Bound, u32> {
    let (tag, mut body) = from.part(&[0x30, 0x31, 0x32])?;
    let bound = match tag {
        0x30 => Bound::Open,
        0x31 => Bound::Included(body.number(8)?),
        _ => Bound::Excluded(body.number(8)?),
    };
    body.end()?;
    Ok(bound)
}

/// The stored form. Panics where a part would pass 65,535 bytes.
#[must_use]
pub fn stored(query: &Query) -> Vec<u8> {
    let mut out = Vec::new();
    put(&mut out, tag(query), &body(query));
    out
}

const fn tag(query: &Query) -> u8 {
    match query {
        Query::Term(..) => 1,
        Query::Phrase(..) => 2,
        Query::Boolean(..) => 3,
        Query::Boost(..) => 4,
        Query::ConstantScore(_) => 5,
        Query::MatchAll => 6,
        Query::MatchNone => 7,
        Query::Range(Numbers::Whole, ..) => 8,
        Query::Range(Numbers::Float, ..) => 9,
    }
}

fn body(query: &Query) -> Vec<u8> {
    let mut body = Vec::new();
    if let Query::Term(field, _) | Query::Phrase(field, _) | Query::Range(_, field, ..) = query {
        put(&mut body, 0x10, field);
    }
    match query {
        Query::Term(_, text) => put(&mut body, 0x11, text),
        Query::Phrase(_, words) => {
            for (position, text) in words {
                put_word(&mut body, *position, text);
            }
        }
        Query::Boolean(minimum, clauses) => {
            put(&mut body, 0x13, &minimum.to_be_bytes());
            for (kind, inner) in clauses {
                put(&mut body, 0x20 + *kind as u8, &stored(inner));
            }
        }
        Query::Boost(bits, inner) => {
            body.extend([&bits.to_be_bytes(), &stored(inner)[..]].concat())
        }
        Query::ConstantScore(inner) => body.extend(stored(inner)),
        Query::MatchAll | Query::MatchNone => {}
        Query::Range(_, _, lower, upper) => {
            put_bound(&mut body, *lower);
            put_bound(&mut body, *upper);
        }
    }
    body
}

fn put_bound(out: &mut Vec<u8>, bound: Bound) {
    match bound {
        Bound::Open => put(out, 0x30, &[]),
        Bound::Included(bits) => put(out, 0x31, &bits.to_be_bytes()),
        Bound::Excluded(bits) => put(out, 0x32, &bits.to_be_bytes()),
    }
}

/// The queries directly inside.
#[must_use]
pub fn inside(query: &Query) -> Vec<&Query> {
    match query {
        Query::Boost(_, inner) | Query::ConstantScore(inner) => vec![inner],
        Query::Boolean(_, clauses) => clauses.iter().map(|(_, inner)| inner).collect(),
        _ => Vec::new(),
    }
}

/// The greatest minimum_should_match; 0 where there is none.
#[must_use]
pub fn greatest_minimum(query: &Query) -> u16 {
    let own = if let Query::Boolean(minimum, _) = query {
        *minimum
    } else {
        0
    };
    inside(query)
        .into_iter()
        .map(greatest_minimum)
        .fold(own, u16::max)
}

/// Document 01's weight, which bounds the rounds.
#[must_use]
pub fn weight(query: &Query) -> u32 {
    let inner: u32 = inside(query).into_iter().map(weight).sum();
    match query {
        Query::Boost(..) | Query::ConstantScore(_) => 1 + inner,
        Query::Phrase(..) => 2,
        Query::Boolean(_, clauses) => 3 + u32::try_from(clauses.len()).expect("few") + inner,
        _ => 1,
    }
}

/// Whether some Boolean has two Must clauses, or two Should clauses with a minimum of at most 1, that
/// are equal after one outer boost is taken off.
#[must_use]
pub fn has_duplicates(query: &Query) -> bool {
    let own = match query {
        Query::Boolean(minimum, clauses) => {
            let summed = |kind| kind == Kind::Must || (kind == Kind::Should && *minimum <= 1);
            let clauses: Vec<_> = clauses.iter().filter(|(kind, _)| summed(*kind)).collect();
            let same =
                |(j, p): &(Kind, Query), (k, q): &(Kind, Query)| j == k && base(p) == base(q);
            (1..clauses.len()).any(|i| clauses[..i].iter().any(|c| same(c, clauses[i])))
        }
        _ => false,
    };
    own || inside(query).into_iter().any(has_duplicates)
}

fn base(query: &Query) -> &Query {
    match query {
        Query::Boost(_, inner) => inner,
        other => other,
    }
}
