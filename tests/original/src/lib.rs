//! The crate `original`: the Rust's parser, analyzers and rewriter, compiled as they stand, and what
//! asks them: answers in the numbers and bytes of document 01, and random cases. Programs beside the
//! oracle (comparison, speed) use it as a library.

// The original's own files.
pub mod analysis;
pub mod index;
pub mod num;
pub mod queryparser;
pub mod search;

// Ours.
pub mod answers;
pub mod error;
pub mod limits;
pub mod random;
pub mod random_query;
pub mod random_text;
pub mod shape;
pub mod stored;
pub mod words;
