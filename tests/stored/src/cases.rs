//! The cases: sound queries and lists, and what is made of them. Random ones come from a fixed start.

use crate::tree::{Bound, Entry, Query, list_bytes, part};

pub fn term(field: &[u8], text: &[u8]) -> Query {
    Query::Term(field.to_vec(), text.to_vec())
}

fn boost(bits: u32, q: Query) -> Query {
    Query::Boost(bits, Box::new(q))
}

fn constant(q: Query) -> Query {
    Query::ConstantScore(Box::new(q))
}

fn range(tag: u8, lower: Bound, upper: Bound) -> Query {
    Query::Range(tag, b"size".to_vec(), lower, upper)
}

/// Sound queries, one of every kind at least, all short.
pub fn some_queries() -> Vec<Query> {
    let a = term(b"f", b"a");
    let long = term(&[b'x'; 32], &[0x7f; 40]);
    let phrase = |ws: &[(u32, &str)]| Query::Phrase(b"note".to_vec(), ws.iter().map(|(p, t)| (*p, t.as_bytes().to_vec())).collect());
    let fox = phrase(&[(0, "red"), (1, "fox"), (u32::MAX, "")]);
    let from = range(8, Bound::Included(1 << 63), Bound::Open);
    let to = range(9, Bound::Open, Bound::Excluded(u64::MAX));
    let nest = Query::Boolean(1, vec![(0x20, boost(0x7fc0_0000, a.clone())), (0x23, constant(fox.clone()))]);
    vec![
        Query::MatchAll,
        Query::MatchNone,
        term(b"", b""),
        a.clone(),
        long.clone(),
        phrase(&[]),
        phrase(&[(7, "a")]),
        fox.clone(),
        range(8, Bound::Open, Bound::Open),
        from.clone(),
        to.clone(),
        range(9, Bound::Excluded(0), Bound::Included(1)),
        boost(0x3f80_0000, a.clone()),
        boost(0xff80_0000, boost(0, Query::MatchAll)),
        constant(Query::MatchNone),
        Query::Boolean(0, vec![]),
        Query::Boolean(0xffff, vec![(0x22, a.clone())]),
        nest.clone(),
        Query::Boolean(2, vec![(0x21, a), (0x21, nest.clone()), (0x21, from), (0x20, to), (0x22, fox), (0x23, long), (0x21, Query::Boolean(300, vec![]))]),
        constant(constant(boost(1, Query::Boolean(7, vec![(0x20, nest.clone()), (0x20, nest)])))),
    ]
}

/// A query of n records one in another, by one way of nesting or all of them in turn.
pub fn nested(n: usize, way: usize) -> Query {
    let mut q = Query::MatchAll;
    for i in 1..n {
        q = match if way < 4 { way } else { i % 4 } {
            0 => Query::Boolean(0, vec![(0x20, q)]),
            1 => boost(0x4000_0000, q),
            2 => constant(q),
            _ => Query::Boolean(1, vec![(0x20, Query::MatchNone), (0x21, q), (0x22, Query::MatchNone)]),
        };
    }
    q
}

/// Stored queries of exactly n bytes: one long text, and many short clauses.
pub fn of_length(n: usize) -> [Vec<u8>; 2] {
    let mut clauses = vec![];
    let mut left = n - 8;
    while left >= 100 {
        clauses.push((0x21, term(b"note", b"abcdefg")));
        left -= 23;
    }
    clauses.push((0x20, term(b"f", &vec![b'z'; left - 13])));
    [term(b"f", &vec![b'z'; n - 10]).bytes(), Query::Boolean(1, clauses).bytes()]
}

pub fn some_lists() -> Vec<Vec<u8>> {
    let place = |f: &str, p: u32, t: &str| Entry::Place(f.as_bytes().to_vec(), p, t.as_bytes().to_vec());
    let value = |tag: u8, f: &str, x: u64| Entry::Value(tag, f.as_bytes().to_vec(), x);
    vec![
        vec![],
        list_bytes(&[vec![]]),
        list_bytes(&[vec![place("note", 3, "red")], vec![], vec![value(0x44, "size", 1 << 40), value(0x45, "", 7)]]),
        list_bytes(&[vec![place("", 0, ""), place("x", u32::MAX, "fox"), value(0x44, "f", u64::MAX)]]),
    ]
}

/// A list of exactly n bytes: empty records, and one with a text that fills up.
pub fn list_of_length(n: usize) -> Vec<u8> {
    let entry = Entry::Place(b"f".to_vec(), 1, vec![b'a'; n - 17 - 300]);
    let mut out: Vec<u8> = (0..100).flat_map(|_| part(0x40, vec![])).collect();
    out.extend(list_bytes(&[vec![entry]]));
    out
}

pub struct Random(u64);

impl Random {
    pub fn new(start: u64) -> Self {
        Random(start)
    }

    pub fn below(&mut self, n: usize) -> usize {
        self.0 ^= self.0 << 13;
        self.0 ^= self.0 >> 7;
        self.0 ^= self.0 << 17;
        (self.0 % n as u64) as usize
    }

    /// A few bytes changed, cut out or put in.
    pub fn changed(&mut self, bytes: &[u8]) -> Vec<u8> {
        let mut out = bytes.to_vec();
        for _ in 0..1 + self.below(3) {
            let at = self.below(out.len() + 1);
            match self.below(4) {
                0 if at < out.len() => {
                    out.remove(at);
                }
                1 => out.insert(at, self.below(256) as u8),
                _ if at < out.len() => out[at] = self.below(if at % 2 == 0 { 256 } else { 10 }) as u8,
                _ => out.push(self.below(256) as u8),
            }
        }
        out
    }
}
