//! Queries and catalogue lists as trees: their bytes, and the readers, which refuse in the order of the rules.
//! Written from the words of the rules alone; nothing here is the product's.

#[derive(Clone, Debug, PartialEq)]
pub enum Bound {
    Open,
    Included(u64),
    Excluded(u64),
}

#[derive(Clone, Copy, Debug, PartialEq)]
pub enum Kind {
    Must,
    Should,
    MustNot,
    Filter,
}

#[derive(Clone, Debug, PartialEq)]
pub enum Query {
    Term(Vec<u8>, Vec<u8>),
    Phrase(Vec<u8>, Vec<(u32, Vec<u8>)>),
    Boolean(u16, Vec<(Kind, Query)>),
    Boost(u32, Box<Query>),
    ConstantScore(Box<Query>),
    MatchAll,
    MatchNone,
    Whole(Vec<u8>, Bound, Bound),
    Float(Vec<u8>, Bound, Bound),
}

#[derive(Clone, Debug, PartialEq)]
pub enum Entry {
    Text(Vec<u8>, u32, Vec<u8>),
    Whole(Vec<u8>, u64),
    Float(Vec<u8>, u64),
}

pub type Record = Vec<Entry>;

// ---- bytes

pub fn part(tag: u8, body: &[u8]) -> Vec<u8> {
    assert!(body.len() < 0x10000, "a body is too long for its header");
    let mut out = vec![tag, (body.len() >> 8) as u8, body.len() as u8];
    out.extend_from_slice(body);
    out
}

fn word_bytes(position: u32, text: &[u8]) -> Vec<u8> {
    part(0x12, &[&position.to_be_bytes()[..], text].concat())
}

fn bound_bytes(b: &Bound) -> Vec<u8> {
    match b {
        Bound::Open => part(0x30, &[]),
        Bound::Included(x) => part(0x31, &x.to_be_bytes()),
        Bound::Excluded(x) => part(0x32, &x.to_be_bytes()),
    }
}

fn kind_tag(k: Kind) -> u8 {
    match k {
        Kind::Must => 0x20,
        Kind::Should => 0x21,
        Kind::MustNot => 0x22,
        Kind::Filter => 0x23,
    }
}

pub fn query_bytes(q: &Query) -> Vec<u8> {
    let range = |tag, f: &[u8], l, u| part(tag, &[part(0x10, f), bound_bytes(l), bound_bytes(u)].concat());
    match q {
        Query::Term(f, t) => part(1, &[part(0x10, f), part(0x11, t)].concat()),
        Query::Phrase(f, ws) => {
            let mut body = part(0x10, f);
            for (p, t) in ws {
                body.extend(word_bytes(*p, t));
            }
            part(2, &body)
        }
        Query::Boolean(m, cs) => {
            let mut body = part(0x13, &m.to_be_bytes());
            for (k, c) in cs {
                body.extend(part(kind_tag(*k), &query_bytes(c)));
            }
            part(3, &body)
        }
        Query::Boost(b, q) => part(4, &[&b.to_be_bytes()[..], &query_bytes(q)].concat()),
        Query::ConstantScore(q) => part(5, &query_bytes(q)),
        Query::MatchAll => part(6, &[]),
        Query::MatchNone => part(7, &[]),
        Query::Whole(f, l, u) => range(8, f, l, u),
        Query::Float(f, l, u) => range(9, f, l, u),
    }
}

fn entry_bytes(e: &Entry) -> Vec<u8> {
    match e {
        Entry::Text(f, p, t) => part(0x41, &[part(0x10, f), word_bytes(*p, t)].concat()),
        Entry::Whole(f, x) => part(0x44, &[part(0x10, f), part(0x14, &x.to_be_bytes())].concat()),
        Entry::Float(f, x) => part(0x45, &[part(0x10, f), part(0x14, &x.to_be_bytes())].concat()),
    }
}

pub fn record_bytes(r: &Record) -> Vec<u8> {
    part(0x40, &r.iter().flat_map(entry_bytes).collect::<Vec<u8>>())
}

pub fn list_bytes(rs: &[Record]) -> Vec<u8> {
    rs.iter().flat_map(record_bytes).collect()
}

// ---- reading

/// What is left to read of a part.
struct Reader<'a>(&'a [u8]);

impl<'a> Reader<'a> {
    /// The next part's tag and body, where its header and its length are within what is left.
    fn part(&mut self) -> Option<(u8, &'a [u8])> {
        let [tag, high, low, rest @ ..] = self.0 else { return None };
        let n = (*high as usize) << 8 | *low as usize;
        if n > rest.len() {
            return None;
        }
        let (body, rest) = rest.split_at(n);
        self.0 = rest;
        Some((*tag, body))
    }

    fn tagged(&mut self, tag: u8) -> Option<&'a [u8]> {
        let (t, b) = self.part()?;
        (t == tag).then_some(b)
    }

    fn field(&mut self) -> Option<Vec<u8>> {
        let b = self.tagged(0x10)?;
        (b.len() <= 32 && b.is_ascii()).then(|| b.to_vec())
    }

    fn word(&mut self) -> Option<(u32, Vec<u8>)> {
        let b = self.tagged(0x12)?;
        let (p, t) = b.split_first_chunk::<4>()?;
        t.is_ascii().then(|| (u32::from_be_bytes(*p), t.to_vec()))
    }

    fn bound(&mut self) -> Option<Bound> {
        let (t, b) = self.part()?;
        match (t, b.len()) {
            (0x30, 0) => Some(Bound::Open),
            (0x31, 8) => Some(Bound::Included(u64::from_be_bytes(b.try_into().unwrap()))),
            (0x32, 8) => Some(Bound::Excluded(u64::from_be_bytes(b.try_into().unwrap()))),
            _ => None,
        }
    }

    fn number(&mut self) -> Option<u64> {
        Some(u64::from_be_bytes(self.tagged(0x14)?.try_into().ok()?))
    }

    fn end(&self) -> Option<()> {
        self.0.is_empty().then_some(())
    }
}

fn leaf(tag: u8, body: &[u8]) -> Option<Query> {
    let mut r = Reader(body);
    let q = match tag {
        1 => {
            let f = r.field()?;
            let t = r.tagged(0x11)?;
            Query::Term(f, t.is_ascii().then(|| t.to_vec())?)
        }
        2 => {
            let f = r.field()?;
            let mut ws = Vec::new();
            while r.end().is_none() {
                ws.push(r.word()?);
            }
            Query::Phrase(f, ws)
        }
        6 => Query::MatchAll,
        7 => Query::MatchNone,
        8 => Query::Whole(r.field()?, r.bound()?, r.bound()?),
        _ => Query::Float(r.field()?, r.bound()?, r.bound()?),
    };
    r.end()?;
    Some(q)
}

fn is_boost(bits: u32) -> bool {
    !f32::from_bits(bits).is_nan() || bits == 0x7fc0_0000
}

/// One query that fills the bytes, of at most `deep` records one in another; else 20 or 21.
fn query(bytes: &[u8], deep: usize) -> Result<Query, u8> {
    let mut r = Reader(bytes);
    let Some((tag @ 1..=9, body)) = r.part() else { return Err(20) };
    if deep == 0 {
        return Err(21);
    }
    let q = match tag {
        3 => {
            let mut b = Reader(body);
            let Some(&[high, low]) = b.tagged(0x13) else { return Err(20) };
            let mut cs = Vec::new();
            while b.end().is_none() {
                let Some((t @ 0x20..=0x23, inner)) = b.part() else { return Err(20) };
                let kind = [Kind::Must, Kind::Should, Kind::MustNot, Kind::Filter][t as usize - 0x20];
                cs.push((kind, query(inner, deep - 1)?));
            }
            Query::Boolean(u16::from_be_bytes([high, low]), cs)
        }
        4 => {
            let Some((bits, inner)) = body.split_first_chunk::<4>() else { return Err(20) };
            let bits = u32::from_be_bytes(*bits);
            if !is_boost(bits) {
                return Err(20);
            }
            Query::Boost(bits, Box::new(query(inner, deep - 1)?))
        }
        5 => Query::ConstantScore(Box::new(query(body, deep - 1)?)),
        _ => leaf(tag, body).ok_or(20)?,
    };
    r.end().ok_or(20)?;
    Ok(q)
}

pub fn read_query(bytes: &[u8]) -> Result<Query, u8> {
    if bytes.len() > 65_535 {
        return Err(19);
    }
    query(bytes, 192)
}

fn entry(tag: u8, body: &[u8]) -> Option<Entry> {
    let mut r = Reader(body);
    let e = match tag {
        0x41 => {
            let f = r.field()?;
            let (p, t) = r.word()?;
            Entry::Text(f, p, t)
        }
        0x44 => Entry::Whole(r.field()?, r.number()?),
        0x45 => Entry::Float(r.field()?, r.number()?),
        _ => return None,
    };
    r.end()?;
    Some(e)
}

fn records(bytes: &[u8]) -> Option<Vec<Record>> {
    let mut list = Reader(bytes);
    let mut out = Vec::new();
    while list.end().is_none() {
        let mut r = Reader(list.tagged(0x40)?);
        let mut record = Vec::new();
        while r.end().is_none() {
            let (tag, body) = r.part()?;
            record.push(entry(tag, body)?);
        }
        out.push(record);
    }
    Some(out)
}

pub fn read_list(bytes: &[u8]) -> Result<Vec<Record>, u8> {
    if bytes.len() > 65_536 {
        return Err(22);
    }
    records(bytes).ok_or(23)
}
