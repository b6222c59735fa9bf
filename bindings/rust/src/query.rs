//! Stored queries.

use crate::{LIST_MOST, Refusal, SELECT_QUERY_MOST, calls};

/// A query in its stored form. Equal bytes are equal queries.
#[derive(Clone, Debug, PartialEq, Eq, Hash)]
pub struct Query(Vec<u8>);

/// What rewriting gives.
#[derive(Clone, Debug, PartialEq, Eq, Hash)]
pub struct Rewritten {
    /// A query that asks the same, made simpler.
    pub query: Query,
    /// The rounds made, the last unchanged one included.
    pub rounds: u32,
}

impl Query {
    /// Bytes that were stored earlier. They are taken as they are; the calls refuse what is malformed.
    #[must_use]
    pub fn from_bytes(bytes: impl Into<Vec<u8>>) -> Self {
        Self(bytes.into())
    }

    /// The bytes to store.
    #[must_use]
    pub fn as_bytes(&self) -> &[u8] {
        &self.0
    }

    /// Rewrites the query, round by round, until a round changes nothing. Where no minimum_should_match is above 1, as in all that
    /// [`crate::Setup::parse`] makes, it picks the same records before and after.
    ///
    /// # Errors
    /// The query is too long, malformed or too deep.
    pub fn rewrite(&self) -> Result<Rewritten, Refusal> {
        self.rewritten_by(calls::rewrite_room(), calls::rewrite)
    }

    /// The same, but that Should clauses are never dropped as duplicates while the minimum is above 1: the result picks the same
    /// records as the query at every minimum.
    ///
    /// # Errors
    /// The query is too long, malformed or too deep.
    pub fn rewrite_strict(&self) -> Result<Rewritten, Refusal> {
        self.rewritten_by(calls::rewrite_strict_room(), calls::rewrite_strict)
    }

    fn rewritten_by(
        &self,
        room: usize,
        call: impl Fn(&[u8], &mut [u8], &mut [u8]) -> calls::Answer,
    ) -> Result<Rewritten, Refusal> {
        let mut out = vec![0; SELECT_QUERY_MOST];
        let answer = call(&self.0, &mut out, &mut vec![0; room]).done()?;
        Ok(Rewritten {
            query: Self::from_bytes(&out[..answer.length as usize]),
            rounds: answer.rounds,
        })
    }

    /// The numbers of the list's records that the query picks, from 0 and rising.
    ///
    /// # Errors
    /// The query or the list is too long or malformed, or the query too deep.
    pub fn select(&self, list: impl AsRef<[u8]>) -> Result<Vec<u32>, Refusal> {
        let list = list.as_ref();
        // No record is shorter than its header.
        let mut rows = vec![0; list.len().min(LIST_MOST) / crate::list::HEADER * 4];
        let mut room = vec![0; calls::select_room()];
        let answer = calls::select(&self.0, list, &mut rows, &mut room).done()?;
        let numbers = rows[..answer.length as usize].chunks_exact(4);
        Ok(numbers
            .map(|row| u32::from_be_bytes([row[0], row[1], row[2], row[3]]))
            .collect())
    }
}

impl AsRef<[u8]> for Query {
    fn as_ref(&self) -> &[u8] {
        self.as_bytes()
    }
}
