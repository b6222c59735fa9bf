//! Stands in for the original's `crate::search`: its queries, from search/query.rs.

pub mod query;

pub use query::{BooleanQuery, Occur, PhraseQuery, Query};
