//! How a selector is read.

use crate::{Query, REWRITE_QUERY_MOST, Refusal, calls};

/// What joins two clauses with nothing between them.
#[derive(Clone, Copy, Debug, Default, PartialEq, Eq, Hash)]
#[repr(u8)]
pub enum Operator {
    /// A record is picked by either.
    #[default]
    Or = 0,
    /// A record is picked by both alone.
    And = 1,
}

/// How a field's text is cut into words.
#[derive(Clone, Copy, Debug, PartialEq, Eq, Hash)]
#[repr(u8)]
pub enum Analyzer {
    /// Cuts at blanks.
    Whitespace = 1,
    /// Runs of letters, in lower case.
    Simple = 2,
    /// The text whole.
    Keyword = 3,
    /// Words as UAX #29 cuts them, in lower case.
    Words = 4,
    /// The same without 33 stop words, whose positions stay empty.
    English = 5,
}

/// How a selector is read: the field of clauses that name none, the analyzer of each field, and what joins
/// two clauses with nothing between them.
#[derive(Clone, Debug, PartialEq, Eq, Hash)]
pub struct Setup {
    operator: Operator,
    analyzer: Analyzer,
    field: Vec<u8>,
    fields: Vec<u8>,
}

impl Setup {
    /// Clauses that name no field are of `field`; `analyzer` is that of every field that [`Self::with`] does
    /// not name. Clauses are joined by OR.
    #[must_use]
    pub fn new(field: impl AsRef<[u8]>, analyzer: Analyzer) -> Self {
        Self {
            operator: Operator::default(),
            analyzer,
            field: field.as_ref().to_vec(),
            fields: Vec::new(),
        }
    }

    /// Two clauses with nothing between them are joined by this.
    #[must_use]
    pub fn joined_by(mut self, operator: Operator) -> Self {
        self.operator = operator;
        self
    }

    /// The field has an analyzer of its own. A later one for the same field replaces the earlier, and both
    /// count towards [`crate::ENTRIES_MOST`].
    #[must_use]
    pub fn with(mut self, field: impl AsRef<[u8]>, analyzer: Analyzer) -> Self {
        let field = field.as_ref();
        // A length that has no byte is told as 255, which is over the limit too, and so refused.
        let length = u8::try_from(field.len()).unwrap_or(u8::MAX);
        self.fields.extend([analyzer as u8, length]);
        self.fields.extend(field);
        self
    }

    /// The query that a selector's text means. A text with no words in it means "match nothing".
    ///
    /// # Errors
    /// [`Refusal::BadSetup`] where a field name is over [`crate::FIELD_MOST`] bytes or not ASCII, or too many
    /// fields are named; else what is wrong with the text.
    pub fn parse(&self, text: impl AsRef<[u8]>) -> Result<Query, Refusal> {
        self.parse_placed(text).map_err(|(refusal, _)| refusal)
    }

    /// As [`Self::parse`]; a refusal comes with its place, the bytes of the text before the fault. It is 0 for a
    /// refusal that is no fault within the text.
    ///
    /// # Errors
    /// Those of [`Self::parse`].
    pub fn parse_placed(&self, text: impl AsRef<[u8]>) -> Result<Query, (Refusal, usize)> {
        let mut out = vec![0; REWRITE_QUERY_MOST];
        let mut room = vec![0; calls::parse_room()];
        let answer = calls::parse(self.lent(), text.as_ref(), &mut out, &mut room);
        let place = answer.place as usize;
        let answer = answer.done().map_err(|refusal| (refusal, place))?;
        Ok(Query::from_bytes(&out[..answer.length as usize]))
    }

    /// The same as bytes, for [`calls::parse`].
    #[must_use]
    pub fn lent(&self) -> calls::Setup<'_> {
        calls::Setup {
            operator: self.operator as u8,
            analyzer: self.analyzer as u8,
            field: &self.field,
            fields: &self.fields,
        }
    }
}
