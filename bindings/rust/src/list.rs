//! Catalogue lists: what a query picks from.

use crate::{FIELD_MOST, LIST_MOST};
use std::error::Error;
use std::fmt::{self, Display, Formatter};

/// The bytes of a part's header: its tag, and the length of its body in two bytes.
pub(crate) const HEADER: usize = 3;

/// The header's names.
mod tag {
    pub const FIELD: u8 = 0x10;
    pub const WORD: u8 = 0x12;
    pub const VALUE: u8 = 0x14;
    pub const RECORD: u8 = 0x40;
    pub const PLACE: u8 = 0x41;
    pub const WHOLE: u8 = 0x44;
    pub const FLOAT: u8 = 0x45;
}

/// Why a record does not go into a list.
#[derive(Clone, Copy, Debug, PartialEq, Eq, Hash)]
pub enum Unfit {
    /// A field name is over [`FIELD_MOST`] bytes.
    LongField,
    /// A field name or a text has a byte outside ASCII.
    NotAscii,
    /// The record is too long for any list.
    LongRecord,
    /// The list has no space left for it: start the next list.
    FullList,
}

impl Display for Unfit {
    fn fmt(&self, f: &mut Formatter<'_>) -> fmt::Result {
        f.write_str(match self {
            Self::LongField => "a field name of the record is longer than 32 characters",
            Self::NotAscii => "the record has a character outside plain ASCII",
            Self::LongRecord => "the record is too long for any list",
            Self::FullList => "the list is full",
        })
    }
}

impl Error for Unfit {}

/// One file, or whatever else is selected: words, whole numbers and floats, each in a field.
#[derive(Clone, Debug, Default, PartialEq, Eq, Hash)]
pub struct Record {
    entries: Vec<u8>,
    fault: Option<Unfit>,
}

impl Record {
    /// A record with no entries.
    #[must_use]
    pub fn new() -> Self {
        Self::default()
    }

    /// A word of a field, with its place among the field's words, by which phrases are found.
    #[must_use]
    pub fn word(self, field: impl AsRef<[u8]>, place: u32, word: impl AsRef<[u8]>) -> Self {
        let word = word.as_ref();
        let body = [&place.to_be_bytes()[..], word].concat();
        let fault = (!word.is_ascii()).then_some(Unfit::NotAscii);
        self.entry(tag::PLACE, field.as_ref(), tag::WORD, &body, fault)
    }

    /// A whole number of a field.
    #[must_use]
    pub fn whole(self, field: impl AsRef<[u8]>, value: i64) -> Self {
        let body = value.to_be_bytes();
        self.entry(tag::WHOLE, field.as_ref(), tag::VALUE, &body, None)
    }

    /// A float of a field.
    #[must_use]
    pub fn float(self, field: impl AsRef<[u8]>, value: f64) -> Self {
        let body = value.to_be_bytes();
        self.entry(tag::FLOAT, field.as_ref(), tag::VALUE, &body, None)
    }

    fn entry(mut self, tag: u8, field: &[u8], of: u8, body: &[u8], fault: Option<Unfit>) -> Self {
        let length = HEADER + field.len() + HEADER + body.len();
        let fault =
            fault
                .or((field.len() > FIELD_MOST).then_some(Unfit::LongField))
                .or((!field.is_ascii()).then_some(Unfit::NotAscii))
                .or((self.entries.len() + 2 * HEADER + length > LIST_MOST)
                    .then_some(Unfit::LongRecord));
        self.fault = self.fault.or(fault);
        if self.fault.is_none() {
            put_header(&mut self.entries, tag, length);
            put(&mut self.entries, tag::FIELD, field);
            put(&mut self.entries, of, body);
        }
        self
    }
}

/// A list of records, in the bytes that [`crate::Query::select`] takes.
#[derive(Clone, Debug, Default, PartialEq, Eq, Hash)]
pub struct List {
    bytes: Vec<u8>,
    count: u32,
}

impl List {
    /// A list with no records.
    #[must_use]
    pub fn new() -> Self {
        Self::default()
    }

    /// Puts a record at the end. Gives its number.
    ///
    /// # Errors
    /// The record does not fit, and the list is as it was.
    pub fn push(&mut self, record: &Record) -> Result<u32, Unfit> {
        if let Some(fault) = record.fault {
            return Err(fault);
        }
        if self.bytes.len() + HEADER + record.entries.len() > LIST_MOST {
            return Err(Unfit::FullList);
        }
        put(&mut self.bytes, tag::RECORD, &record.entries);
        self.count += 1;
        Ok(self.count - 1)
    }

    /// How many records it has.
    #[must_use]
    pub fn count(&self) -> u32 {
        self.count
    }

    /// The records one behind the other.
    #[must_use]
    pub fn as_bytes(&self) -> &[u8] {
        &self.bytes
    }
}

impl AsRef<[u8]> for List {
    fn as_ref(&self) -> &[u8] {
        self.as_bytes()
    }
}

/// A part: its header and its body.
fn put(out: &mut Vec<u8>, tag: u8, body: &[u8]) {
    put_header(out, tag, body.len());
    out.extend(body);
}

/// A record within a list's limit has no part whose length needs a third byte.
fn put_header(out: &mut Vec<u8>, tag: u8, length: usize) {
    let length = u16::try_from(length).expect("a part of a record that fits a list");
    out.push(tag);
    out.extend(length.to_be_bytes());
}
