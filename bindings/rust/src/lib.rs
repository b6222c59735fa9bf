#![doc = include_str!("../README.md")]
#![warn(missing_docs)]

pub mod calls;
mod list;
mod query;
mod refusal;
mod setup;

pub use list::{List, Record, Unfit};
pub use query::{Query, Rewritten};
pub use refusal::Refusal;
pub use setup::{Analyzer, Operator, Setup};

/// The version of this crate, as one number: major, minor and patch with three digits each.
/// [`calls::version`] is that of the archive that is linked.
pub const VERSION: u32 = 2_000_000;

/// The bytes of working room that [`calls::parse`] needs.
pub const PARSE_ROOM: usize = 5_120;
/// The bytes of working room that [`calls::rewrite`] needs.
pub const REWRITE_ROOM: usize = 38_229;
/// The bytes of working room that [`calls::rewrite_strict`] needs.
pub const REWRITE_STRICT_ROOM: usize = 38_229;
/// The bytes of working room that [`calls::select`] needs.
pub const SELECT_ROOM: usize = 0;

/// The most bytes of a selector.
pub const TEXT_MOST: usize = 1_024;
/// The most bytes of a field name.
pub const FIELD_MOST: usize = 32;
/// The most fields with an analyzer of their own.
pub const ENTRIES_MOST: usize = 8;
/// The most bytes of a stored query that is rewritten.
pub const REWRITE_QUERY_MOST: usize = 32_768;
/// The most query records one in another, of a stored query that is rewritten.
pub const REWRITE_DEPTH_MOST: usize = 64;
/// The most bytes of a stored query that selects.
pub const SELECT_QUERY_MOST: usize = 65_535;
/// The most query records one in another, of a stored query that selects.
pub const SELECT_DEPTH_MOST: usize = 192;
/// The most bytes of a catalogue list.
pub const LIST_MOST: usize = 65_536;
