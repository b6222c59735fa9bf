//! The crate `plain`: document 01 read plainly into trees, sharing no code with the product or the
//! original. Stored queries and lists are read into trees and written back, matching and rewriting are by definition,
//! the first fault of a text is found by its grammar; and random trees, lists and damage.

pub mod damage;
pub mod faults;
pub mod lists;
pub mod matching;
pub mod parts;
pub mod queries;
pub mod random_lists;
pub mod random_queries;
pub mod rewriting;
pub mod shapes;
pub mod words;

// The generator of numbers is the one of the fixed lists.
#[path = "../../../original/src/random.rs"]
pub mod random;
