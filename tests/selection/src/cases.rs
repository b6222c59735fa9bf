//! Random queries and lists from a fixed start, over few fields and words, so that many queries are true of many records.

use crate::tree::{Bound, Entry, Kind, Query, Record};

pub struct Random(pub u64);

impl Random {
    pub fn next(&mut self) -> u64 {
        // splitmix64
        self.0 = self.0.wrapping_add(0x9e37_79b9_7f4a_7c15);
        let mut z = self.0;
        z = (z ^ (z >> 30)).wrapping_mul(0xbf58_476d_1ce4_e5b9);
        z = (z ^ (z >> 27)).wrapping_mul(0x94d0_49bb_1331_11eb);
        z ^ (z >> 31)
    }

    pub fn below(&mut self, n: usize) -> usize {
        (self.next() % n as u64) as usize
    }

    pub fn one_in(&mut self, n: usize) -> bool {
        self.below(n) == 0
    }

    pub fn pick<'a, T>(&mut self, of: &'a [T]) -> &'a T {
        &of[self.below(of.len())]
    }
}

const FIELDS: [&[u8]; 5] = [b"f", b"note", b"", b"ff", b"fg"];
const WORDS: [&[u8]; 8] = [b"a", b"b", b"red", b"fox", b"", b"ab", b"1same", b"2same"];
const WHOLES: [u64; 12] = [0, 1, 2, 7, 1 << 62, i64::MAX as u64, 1 << 63, (1 << 63) + 1, u64::MAX, u64::MAX - 1, u64::MAX - 6, 1 << 40];

fn floats() -> [u64; 16] {
    let of = |x: f64| x.to_bits();
    [
        of(0.0), of(-0.0), of(1.0), of(-1.0), of(1.5), of(f64::INFINITY), of(f64::NEG_INFINITY), of(f64::MIN_POSITIVE), 1, (1 << 63) + 1,
        0x7ff8_0000_0000_0000, 0xfff8_0000_0000_0000, 0x7ff0_0000_0000_0001, 0xffff_ffff_ffff_ffff, of(f64::MAX), of(-2.5),
    ]
}

fn field(r: &mut Random) -> Vec<u8> {
    r.pick(&FIELDS).to_vec()
}

fn text(r: &mut Random) -> Vec<u8> {
    r.pick(&WORDS).to_vec()
}

/// Small positions, and a few at the ends of 32 bits.
fn position(r: &mut Random) -> u32 {
    match r.below(12) {
        0 => u32::MAX - r.below(4) as u32,
        1 => 0x8000_0000 + r.below(3) as u32,
        _ => r.below(6) as u32,
    }
}

fn bound(r: &mut Random, of: &[u64]) -> Bound {
    match r.below(3) {
        0 => Bound::Open,
        1 => Bound::Included(*r.pick(of)),
        _ => Bound::Excluded(*r.pick(of)),
    }
}

fn leaf(r: &mut Random) -> Query {
    match r.below(12) {
        0 => Query::MatchAll,
        1 => Query::MatchNone,
        2 | 3 => Query::Whole(field(r), bound(r, &WHOLES), bound(r, &WHOLES)),
        4 | 5 => Query::Float(field(r), bound(r, &floats()), bound(r, &floats())),
        6..=8 => {
            let n = if r.one_in(10) { 0 } else { 1 + r.below(3) };
            Query::Phrase(field(r), (0..n).map(|_| (position(r), text(r))).collect())
        }
        _ => Query::Term(field(r), text(r)),
    }
}

fn boost(r: &mut Random) -> u32 {
    *r.pick(&[0, 0x3f80_0000, 0x7fc0_0000, 0x7f80_0000, 0xff80_0000, 0x8000_0000, 0x4000_0000])
}

pub fn query(r: &mut Random, deep: usize) -> Query {
    if deep == 0 {
        return leaf(r);
    }
    match r.below(8) {
        0 | 1 => leaf(r),
        2 => Query::Boost(boost(r), Box::new(query(r, deep - 1))),
        3 => Query::ConstantScore(Box::new(query(r, deep - 1))),
        _ => {
            let least = match r.below(6) {
                0 => 2,
                1 => 1,
                2 => r.below(5) as u16,
                _ => 0,
            };
            let n = r.below(5);
            Query::Boolean(least, (0..n).map(|_| (*r.pick(&[Kind::Must, Kind::Should, Kind::Should, Kind::MustNot, Kind::Filter]), query(r, deep - 1))).collect())
        }
    }
}

fn entry(r: &mut Random) -> Entry {
    match r.below(5) {
        0 => Entry::Whole(field(r), *r.pick(&WHOLES)),
        1 => Entry::Float(field(r), *r.pick(&floats())),
        _ => Entry::Text(field(r), position(r), text(r)),
    }
}

pub fn records(r: &mut Random, most: usize) -> Vec<Record> {
    let n = r.below(most + 1);
    (0..n).map(|_| { let k = r.below(9); (0..k).map(|_| entry(r)).collect() }).collect()
}

/// One of some hundred texts, a third of which share their length and their last four bytes with others.
fn rare(r: &mut Random) -> Vec<u8> {
    let n = r.below(300);
    match n % 3 {
        0 => format!("{n:03}tail").into_bytes(),
        1 => format!("w{n}").into_bytes(),
        _ => vec![b'a' + (n % 26) as u8; n % 7],
    }
}

/// A query of many clauses, few of which are true of a record.
pub fn wide_query(r: &mut Random) -> Query {
    let clauses = 12 + r.below(60);
    let clause = |r: &mut Random| {
        let kind = *r.pick(&[Kind::Should, Kind::Should, Kind::Should, Kind::Should, Kind::Should, Kind::MustNot]);
        let query = match r.below(24) {
            0 => Query::Phrase(field(r), (0..1 + r.below(3)).map(|_| (position(r), rare(r))).collect()),
            1 => Query::Phrase(field(r), Vec::new()),
            2 => Query::Boost(boost(r), Box::new(Query::Term(field(r), rare(r)))),
            3 if r.one_in(4) => Query::Whole(field(r), bound(r, &WHOLES), bound(r, &WHOLES)),
            _ => Query::Term(field(r), rare(r)),
        };
        (kind, query)
    };
    let mut cs: Vec<(Kind, Query)> = (0..clauses).map(|_| clause(r)).collect();
    if r.one_in(4) {
        cs.push((Kind::Filter, Query::MatchAll));
    }
    Query::Boolean(r.below(2) as u16, cs)
}

/// Records whose texts are mostly others than a query's.
pub fn wide_records(r: &mut Random, most: usize) -> Vec<Record> {
    let entry = |r: &mut Random| if r.one_in(8) { entry(r) } else { Entry::Text(field(r), position(r), rare(r)) };
    let n = r.below(most + 1);
    (0..n).map(|_| { let k = r.below(12); (0..k).map(|_| entry(r)).collect() }).collect()
}

/// A byte changed, taken away or put in, a stretch cut off or a length made wrong.
pub fn damaged(r: &mut Random, bytes: &[u8]) -> Vec<u8> {
    let mut out = bytes.to_vec();
    for _ in 0..1 + r.below(2) {
        let at = r.below(out.len() + 1);
        match r.below(5) {
            0 => out.truncate(at),
            1 => out.insert(at, r.next() as u8),
            2 if at < out.len() => {
                out.remove(at);
            }
            3 if at < out.len() => out[at] = r.next() as u8,
            _ if at < out.len() => out[at] = out[at].wrapping_add(1),
            _ => out.push(0x40),
        }
    }
    out
}
