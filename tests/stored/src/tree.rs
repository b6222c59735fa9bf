//! Queries and records as trees, and their stored bytes, from the rules' words alone. Nothing here is taken from the crates.

#[derive(Clone)]
pub enum Bound {
    Open,
    Included(u64),
    Excluded(u64),
}

#[derive(Clone)]
pub enum Query {
    Term(Vec<u8>, Vec<u8>),
    Phrase(Vec<u8>, Vec<(u32, Vec<u8>)>),
    Boolean(u16, Vec<(u8, Query)>),
    Boost(u32, Box<Query>),
    ConstantScore(Box<Query>),
    MatchAll,
    MatchNone,
    Range(u8, Vec<u8>, Bound, Bound),
}

pub enum Entry {
    Place(Vec<u8>, u32, Vec<u8>),
    Value(u8, Vec<u8>, u64),
}

/// A tag, a length of two bytes, a body.
pub fn part(tag: u8, body: Vec<u8>) -> Vec<u8> {
    let n = u16::try_from(body.len()).expect("a body of at most 65,535 bytes");
    let mut out = vec![tag];
    out.extend(n.to_be_bytes());
    out.extend(body);
    out
}

fn joined(parts: impl IntoIterator<Item = Vec<u8>>) -> Vec<u8> {
    parts.into_iter().flatten().collect()
}

fn word(position: u32, text: &[u8]) -> Vec<u8> {
    part(0x12, [&position.to_be_bytes(), text].concat())
}

impl Bound {
    fn bytes(&self) -> Vec<u8> {
        match self {
            Bound::Open => part(0x30, vec![]),
            Bound::Included(x) => part(0x31, x.to_be_bytes().to_vec()),
            Bound::Excluded(x) => part(0x32, x.to_be_bytes().to_vec()),
        }
    }
}

impl Query {
    pub fn bytes(&self) -> Vec<u8> {
        match self {
            Query::Term(f, t) => part(1, joined([part(0x10, f.clone()), part(0x11, t.clone())])),
            Query::Phrase(f, ws) => {
                let words = ws.iter().map(|(p, t)| word(*p, t));
                part(2, joined([part(0x10, f.clone()), joined(words)]))
            }
            Query::Boolean(m, cs) => {
                let clauses = cs.iter().map(|(kind, q)| part(*kind, q.bytes()));
                part(3, joined([part(0x13, m.to_be_bytes().to_vec()), joined(clauses)]))
            }
            Query::Boost(b, q) => part(4, joined([b.to_be_bytes().to_vec(), q.bytes()])),
            Query::ConstantScore(q) => part(5, q.bytes()),
            Query::MatchAll => part(6, vec![]),
            Query::MatchNone => part(7, vec![]),
            Query::Range(tag, f, l, u) => part(*tag, joined([part(0x10, f.clone()), l.bytes(), u.bytes()])),
        }
    }

    /// "Boost and ConstantScore 1 plus inner; Phrase 2; Boolean 3 plus, for each clause, 1 and its query; all else 1."
    pub fn weight(&self) -> usize {
        match self {
            Query::Boost(_, q) | Query::ConstantScore(q) => 1 + q.weight(),
            Query::Phrase(..) => 2,
            Query::Boolean(_, cs) => 3 + cs.iter().map(|(_, q)| 1 + q.weight()).sum::<usize>(),
            _ => 1,
        }
    }

    pub fn largest(&self) -> usize {
        match self {
            Query::Boost(_, q) | Query::ConstantScore(q) => q.largest(),
            Query::Boolean(m, cs) => cs.iter().map(|(_, q)| q.largest()).fold(*m as usize, usize::max),
            _ => 0,
        }
    }
}

impl Entry {
    fn bytes(&self) -> Vec<u8> {
        match self {
            Entry::Place(f, p, t) => part(0x41, joined([part(0x10, f.clone()), word(*p, t)])),
            Entry::Value(tag, f, x) => part(*tag, joined([part(0x10, f.clone()), part(0x14, x.to_be_bytes().to_vec())])),
        }
    }
}

pub fn list_bytes(records: &[Vec<Entry>]) -> Vec<u8> {
    joined(records.iter().map(|r| part(0x40, joined(r.iter().map(Entry::bytes)))))
}
