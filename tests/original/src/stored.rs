//! Document 01's stored form: a query of the original to its bytes, and back.

use crate::index::Term;
use crate::search::{BooleanQuery, Occur, PhraseQuery, Query};
use std::ops::Bound;

/// The one NaN of the stored form, as a boost.
pub const NAN: u32 = 0x7FC0_0000;

const KINDS: [(Occur, u8); 4] = [
    (Occur::Must, 0x20),
    (Occur::Should, 0x21),
    (Occur::MustNot, 0x22),
    (Occur::Filter, 0x23),
];

/// The bits of a boost, every NaN made the one NaN.
#[must_use]
pub const fn boost_bits(b: f32) -> u32 {
    if b.is_nan() { NAN } else { b.to_bits() }
}

/// The stored form of a query. Panics where a part passes 65,535 bytes.
#[must_use]
pub fn encode(q: &Query) -> Vec<u8> {
    let mut out = Vec::new();
    write_query(&mut out, q);
    out
}

fn write_part(out: &mut Vec<u8>, tag: u8, body: impl FnOnce(&mut Vec<u8>)) {
    let start = out.len();
    out.extend([tag, 0, 0]);
    body(out);
    let length = u16::try_from(out.len() - start - 3).expect("a part of at most 65,535 bytes");
    out[start + 1..start + 3].copy_from_slice(&length.to_be_bytes());
}

fn write_bytes(out: &mut Vec<u8>, tag: u8, bytes: &[u8]) {
    write_part(out, tag, |out| out.extend(bytes));
}

fn write_query(out: &mut Vec<u8>, q: &Query) {
    match q {
        Query::Term(t) => write_part(out, 1, |out| {
            write_bytes(out, 0x10, t.field.as_bytes());
            write_bytes(out, 0x11, &t.bytes);
        }),
        Query::Phrase(p) => write_part(out, 2, |out| write_phrase(out, p)),
        Query::Boolean(b) => write_part(out, 3, |out| write_boolean(out, b)),
        Query::Boost(inner, b) => write_part(out, 4, |out| {
            out.extend(boost_bits(*b).to_be_bytes());
            write_query(out, inner);
        }),
        Query::ConstantScore(inner) => write_part(out, 5, |out| write_query(out, inner)),
        Query::MatchAll => write_bytes(out, 6, &[]),
        Query::MatchNone => write_bytes(out, 7, &[]),
        Query::I64Range {
            field,
            lower,
            upper,
        } => write_part(out, 8, |out| {
            write_bytes(out, 0x10, field.as_bytes());
            write_bound(out, lower.map(i64::to_be_bytes));
            write_bound(out, upper.map(i64::to_be_bytes));
        }),
        Query::F64Range {
            field,
            lower,
            upper,
        } => write_part(out, 9, |out| {
            write_bytes(out, 0x10, field.as_bytes());
            write_bound(out, lower.map(|v| v.to_bits().to_be_bytes()));
            write_bound(out, upper.map(|v| v.to_bits().to_be_bytes()));
        }),
    }
}

fn write_phrase(out: &mut Vec<u8>, p: &PhraseQuery) {
    write_bytes(out, 0x10, p.field.as_bytes());
    for (text, position) in &p.terms {
        write_part(out, 0x12, |out| {
            out.extend(position.to_be_bytes());
            out.extend(text);
        });
    }
}

fn write_boolean(out: &mut Vec<u8>, b: &BooleanQuery) {
    let minimum = u16::try_from(b.minimum_should_match).expect("a minimum of two bytes");
    write_bytes(out, 0x13, &minimum.to_be_bytes());
    for (q, occur) in &b.clauses {
        let (_, tag) = KINDS.iter().find(|(o, _)| o == occur).expect("a kind");
        write_part(out, *tag, |out| write_query(out, q));
    }
}

fn write_bound(out: &mut Vec<u8>, bound: Bound<[u8; 8]>) {
    match bound {
        Bound::Unbounded => write_bytes(out, 0x30, &[]),
        Bound::Included(v) => write_bytes(out, 0x31, &v),
        Bound::Excluded(v) => write_bytes(out, 0x32, &v),
    }
}

/// The query of which these bytes are the stored form; none where they are malformed. Lengths and
/// depth as such are not limited here.
#[must_use]
pub fn decode(bytes: &[u8]) -> Option<Query> {
    let mut bytes = bytes;
    let q = read_query(&mut bytes)?;
    bytes.is_empty().then_some(q)
}

fn read_part<'a>(from: &mut &'a [u8]) -> Option<(u8, &'a [u8])> {
    let (header, rest) = from.split_first_chunk::<3>()?;
    let length = usize::from(u16::from_be_bytes([header[1], header[2]]));
    let (body, rest) = rest.split_at_checked(length)?;
    *from = rest;
    Some((header[0], body))
}

fn read_tagged<'a>(from: &mut &'a [u8], tag: u8) -> Option<&'a [u8]> {
    let (found, body) = read_part(from)?;
    (found == tag).then_some(body)
}

fn read_field(from: &mut &[u8]) -> Option<String> {
    let name = read_tagged(from, 0x10)?;
    (name.is_ascii() && name.len() <= 32).then(|| String::from_utf8_lossy(name).into_owned())
}

fn read_query(from: &mut &[u8]) -> Option<Query> {
    let (tag, mut body) = read_part(from)?;
    let body = &mut body;
    let q = match tag {
        1 => {
            let field = read_field(body)?;
            let text = read_tagged(body, 0x11).filter(|t| t.is_ascii())?;
            Query::Term(Term::from_bytes(field, text))
        }
        2 => read_phrase(body)?,
        3 => read_boolean(body)?,
        4 => {
            let (bits, rest) = body.split_first_chunk::<4>()?;
            *body = rest;
            let b = f32::from_bits(u32::from_be_bytes(*bits));
            (b.to_bits() == boost_bits(b)).then_some(())?;
            read_query(body)?.boost(b)
        }
        5 => read_query(body)?.constant_score(),
        6 => Query::MatchAll,
        7 => Query::MatchNone,
        8 => Query::I64Range {
            field: read_field(body)?,
            lower: read_bound(body)?.map(i64::from_be_bytes),
            upper: read_bound(body)?.map(i64::from_be_bytes),
        },
        9 => Query::F64Range {
            field: read_field(body)?,
            lower: read_bound(body)?.map(f64::from_be_bytes),
            upper: read_bound(body)?.map(f64::from_be_bytes),
        },
        _ => return None,
    };
    body.is_empty().then_some(q)
}

fn read_phrase(body: &mut &[u8]) -> Option<Query> {
    let mut p = PhraseQuery::new(read_field(body)?);
    while !body.is_empty() {
        let (position, text) = read_tagged(body, 0x12)?.split_first_chunk::<4>()?;
        text.is_ascii().then_some(())?;
        p.terms.push((text.to_vec(), u32::from_be_bytes(*position)));
    }
    Some(p.build())
}

fn read_boolean(body: &mut &[u8]) -> Option<Query> {
    let minimum = <[u8; 2]>::try_from(read_tagged(body, 0x13)?).ok()?;
    let mut b = BooleanQuery::new().minimum_should_match(usize::from(u16::from_be_bytes(minimum)));
    while !body.is_empty() {
        let (tag, mut clause) = read_part(body)?;
        let (occur, _) = KINDS.iter().find(|(_, t)| *t == tag)?;
        let q = read_query(&mut clause)?;
        clause.is_empty().then_some(())?;
        b.clauses.push((q, *occur));
    }
    Some(b.build())
}

fn read_bound(from: &mut &[u8]) -> Option<Bound<[u8; 8]>> {
    let (tag, body) = read_part(from)?;
    match (tag, body) {
        (0x30, []) => Some(Bound::Unbounded),
        (0x31, v) => Some(Bound::Included(v.try_into().ok()?)),
        (0x32, v) => Some(Bound::Excluded(v.try_into().ok()?)),
        _ => None,
    }
}
