//! Stands in for the original's `crate::error`, of which its files use these two errors only.

#[derive(Clone, Debug, PartialEq, Eq)]
pub enum Error {
    QueryParse(String),
    IllegalArgument(String),
}

pub type Result<T> = std::result::Result<T, Error>;
