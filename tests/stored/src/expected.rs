//! What the rules say of any bytes: the query that they hold, or the first fault in reading order. It builds trees, with a cursor
//! that knows the end of the part around it; slow and plain.

use crate::tree::{Bound, Entry, Query};

const MALFORMED: u8 = 20;
const DEEP: u8 = 21;

/// The inside of a part, read from its front.
struct Inside<'a> {
    left: &'a [u8],
    fault: u8,
}

impl<'a> Inside<'a> {
    /// The next part: three bytes, a tag that may stand here, a length within what is around it.
    fn part(&mut self, tags: &[u8]) -> Result<(u8, Inside<'a>), u8> {
        let fault = self.fault;
        let (Some(tag), Some(high), Some(low)) = (self.left.first(), self.left.get(1), self.left.get(2)) else {
            return Err(fault);
        };
        let size = usize::from(*high) << 8 | usize::from(*low);
        if !tags.contains(tag) || self.left.len() - 3 < size {
            return Err(fault);
        }
        let left = &self.left[3..3 + size];
        self.left = &self.left[3 + size..];
        Ok((*tag, Inside { left, fault }))
    }

    fn number<const N: usize>(&mut self) -> Result<[u8; N], u8> {
        let number = self.left.first_chunk::<N>().ok_or(self.fault)?;
        self.left = &self.left[N..];
        Ok(*number)
    }

    fn ends(&self) -> Result<(), u8> {
        if self.left.is_empty() { Ok(()) } else { Err(self.fault) }
    }

    /// All that is left, as a text.
    fn text(self) -> Result<Vec<u8>, u8> {
        if self.left.iter().any(|b| *b >= 0x80) { Err(self.fault) } else { Ok(self.left.to_vec()) }
    }

    fn field(&mut self) -> Result<Vec<u8>, u8> {
        let (_, field) = self.part(&[0x10])?;
        if field.left.len() > 32 { Err(self.fault) } else { field.text() }
    }

    fn word(&mut self) -> Result<(u32, Vec<u8>), u8> {
        let (_, mut word) = self.part(&[0x12])?;
        let position = u32::from_be_bytes(word.number()?);
        Ok((position, word.text()?))
    }

    fn bound(&mut self) -> Result<Bound, u8> {
        let (tag, mut bound) = self.part(&[0x30, 0x31, 0x32])?;
        let read = match tag {
            0x30 => Bound::Open,
            0x31 => Bound::Included(u64::from_be_bytes(bound.number()?)),
            _ => Bound::Excluded(u64::from_be_bytes(bound.number()?)),
        };
        bound.ends().map(|()| read)
    }

    /// One query record that ends what is around it; `deep` records may stand one in another.
    fn only_query(&mut self, deep: usize) -> Result<Query, u8> {
        let (tag, mut body) = self.part(&[1, 2, 3, 4, 5, 6, 7, 8, 9])?;
        if deep == 0 {
            return Err(DEEP);
        }
        let query = body.query(tag, deep - 1)?;
        body.ends()?;
        self.ends().map(|()| query)
    }

    fn query(&mut self, tag: u8, deep: usize) -> Result<Query, u8> {
        Ok(match tag {
            1 => {
                let field = self.field()?;
                let (_, text) = self.part(&[0x11])?;
                Query::Term(field, text.text()?)
            }
            2 => {
                let field = self.field()?;
                let mut words = vec![];
                while !self.left.is_empty() {
                    words.push(self.word()?);
                }
                Query::Phrase(field, words)
            }
            3 => {
                let (_, mut minimum) = self.part(&[0x13])?;
                let least = u16::from_be_bytes(minimum.number()?);
                minimum.ends()?;
                let mut clauses = vec![];
                while !self.left.is_empty() {
                    let (kind, mut clause) = self.part(&[0x20, 0x21, 0x22, 0x23])?;
                    clauses.push((kind, clause.only_query(deep)?));
                }
                Query::Boolean(least, clauses)
            }
            4 => {
                let bits = u32::from_be_bytes(self.number()?);
                if f32::from_bits(bits).is_nan() && bits != 0x7fc0_0000 {
                    return Err(MALFORMED);
                }
                Query::Boost(bits, Box::new(self.only_query(deep)?))
            }
            5 => Query::ConstantScore(Box::new(self.only_query(deep)?)),
            6 => Query::MatchAll,
            7 => Query::MatchNone,
            _ => Query::Range(tag, self.field()?, self.bound()?, self.bound()?),
        })
    }

    fn entry(&mut self) -> Result<Entry, u8> {
        let (tag, mut entry) = self.part(&[0x41, 0x44, 0x45])?;
        let field = entry.field()?;
        let read = if tag == 0x41 {
            let (position, text) = entry.word()?;
            Entry::Place(field, position, text)
        } else {
            let (_, mut value) = entry.part(&[0x14])?;
            let x = u64::from_be_bytes(value.number()?);
            value.ends()?;
            Entry::Value(tag, field, x)
        };
        entry.ends().map(|()| read)
    }
}

pub fn query(bytes: &[u8], most: usize, depth: usize) -> Result<Query, u8> {
    if bytes.len() > most {
        return Err(19);
    }
    Inside { left: bytes, fault: MALFORMED }.only_query(depth)
}

pub fn list(bytes: &[u8]) -> Result<Vec<Vec<Entry>>, u8> {
    if bytes.len() > 65_536 {
        return Err(22);
    }
    let mut all = Inside { left: bytes, fault: 23 };
    let mut records = vec![];
    while !all.left.is_empty() {
        let (_, mut record) = all.part(&[0x40])?;
        let mut entries = vec![];
        while !record.left.is_empty() {
            entries.push(record.entry()?);
        }
        records.push(entries);
    }
    Ok(records)
}
