//! Catalogue lists as records of entries: reading, with the refusals 22 and 23, and writing.

use crate::parts::{Reader, put, put_word};
use crate::queries::Numbers;

/// A field with a position and a text, or with the 64 bits of a number.
#[derive(Clone, Debug, PartialEq, Eq)]
pub enum Entry {
    Place(Vec<u8>, u32, Vec<u8>),
    Value(Numbers, Vec<u8>, u64),
}

pub type Record = Vec<Entry>;

/// The most bytes of a list.
pub const MOST: usize = 65_536;

/// The records of a list.
///
/// # Errors
/// 22 where it is too long, 23 where it is malformed.
pub fn read(bytes: &[u8]) -> Result<Vec<Record>, u32> {
    if bytes.len() > MOST {
        return Err(22);
    }
    let mut from = Reader::new(bytes, 23);
    let mut records = Vec::new();
    while !from.is_done() {
        records.push(read_record(from.part(&[0x40])?.1)?);
    }
    Ok(records)
}

fn read_record(mut body: Reader) -> Result<Record, u32> {
    let mut entries = Vec::new();
    while !body.is_done() {
        let (tag, entry) = body.part(&[0x41, 0x44, 0x45])?;
        entries.push(read_entry(tag, entry)?);
    }
    Ok(entries)
}

fn read_entry(tag: u8, mut body: Reader) -> Result<Entry, u32> {
    let field = body.field()?;
    if tag == 0x41 {
        let (position, text) = body.word()?;
        body.end()?;
        return Ok(Entry::Place(field, position, text));
    }
    let (_, mut value) = body.part(&[0x14])?;
    let bits = value.number(8)?;
    value.end()?;
    body.end()?;
    let numbers = if tag == 0x44 {
        Numbers::Whole
    } else {
        Numbers::Float
    };
    Ok(Entry::Value(numbers, field, bits))
}

/// The stored form of one record. Panics where it would pass 65,535 bytes.
#[must_use]
pub fn stored(record: &[Entry]) -> Vec<u8> {
    let mut entries = Vec::new();
    for entry in record {
        let mut body = Vec::new();
        let tag = match entry {
            Entry::Place(field, position, text) => {
                put(&mut body, 0x10, field);
                put_word(&mut body, *position, text);
                0x41
            }
            Entry::Value(numbers, field, bits) => {
                put(&mut body, 0x10, field);
                put(&mut body, 0x14, &bits.to_be_bytes());
                if *numbers == Numbers::Whole {
                    0x44
                } else {
                    0x45
                }
            }
        };
        put(&mut entries, tag, &body);
    }
    let mut out = Vec::new();
    put(&mut out, 0x40, &entries);
    out
}
