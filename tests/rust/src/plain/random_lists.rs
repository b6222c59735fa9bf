//! Random records, from the vocabulary of the random queries.

use crate::lists::{Entry, MOST, Record, stored};
use crate::queries::Numbers;
use crate::random::Random;
use crate::random_queries::{FIELDS, FLOATS, POSITIONS, TEXTS, WHOLES};

pub fn record(r: &mut Random) -> Record {
    let count = r.pick(&[0, 1, 2, 3, 4, 5, 8]);
    (0..count).map(|_| entry(r)).collect()
}

fn entry(r: &mut Random) -> Entry {
    let field = r.pick(&FIELDS).to_vec();
    match r.below(6) {
        0 => Entry::Value(Numbers::Whole, field, r.pick(&WHOLES).cast_unsigned()),
        1 => Entry::Value(Numbers::Float, field, r.pick(&FLOATS).to_bits()),
        _ => Entry::Place(field, r.pick(&POSITIONS), r.pick(&TEXTS).to_vec()),
    }
}

/// A list of a few records, and once in a while one that comes close to the most bytes or passes it.
pub fn list(r: &mut Random) -> Vec<u8> {
    let mut out = Vec::new();
    if r.one_in(2_000) {
        let full = MOST - r.below(40);
        while out.len() < full {
            out.extend(stored(&record(r)));
        }
        return out;
    }
    for _ in 0..r.pick(&[0, 1, 2, 3, 5, 8, 20]) {
        out.extend(stored(&record(r)));
    }
    out
}
