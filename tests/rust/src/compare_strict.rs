//! The strict rewriting beside a plain one over trees, on random queries whose clauses repeat, at every minimum, and damaged
//! copies of them: bytes, rounds and refusals. What it makes picks what the query picks, by the plain matcher and by the
//! archive. The other rewriting is held to the plain one too, so that it is seen where the two part.
//!
//!     compare_strict COUNT SEED

mod tally;

use desk::Desk;
use plain::damage::damaged;
use plain::lists::{self, Record};
use plain::matching::chosen;
use plain::queries::{self, Kind, Query, REWRITER, SELECTION};
use plain::random::Random;
use plain::random_queries::{self, LARGER_MINIMA};
use plain::rewriting::{self, Way};
use plain::{random_lists, shapes};
use tally::{Tally, generator, hold};

fn main() {
    let (count, seed) = tally::arguments();
    let mut desk = Desk::new();
    document(&mut desk);
    let mut rewritings = Tally::new("strict rewriting beside a plain one");
    let mut seen = Seen::default();
    for i in 0..count {
        let mut r = generator(seed, i);
        let query = query(&mut r);
        let answer = rewrite(&mut r, &mut desk, &query, Way::Strict);
        rewritings.count(&answer);
        let original = rewrite(&mut r, &mut desk, &query, Way::Original);
        let Ok(tree) = queries::read(&query, REWRITER) else {
            continue;
        };
        seen.larger += u64::from(queries::greatest_minimum(&tree) > 1);
        if let (Ok(strict), Ok(original)) = (&answer, &original) {
            seen.apart(&tree, strict, original, &query);
        }
        if let Ok((rewritten, rounds)) = answer {
            let records = promises(&mut r, &mut desk, &query, &tree, &rewritten, rounds);
            seen.lose(original, &tree, &records);
        }
    }
    rewritings.print();
    println!(
        "  {} with a minimum above 1; {} where the two rewritings differ, and {} where the original's picks other records",
        seen.larger, seen.differ, seen.lost
    );
}

/// Minimum 2 and Should `a` twice: as it is, in 1 round, and it matches a record with `a`. The original makes MatchNone, in 3 rounds.
fn document(desk: &mut Desk) {
    let word = || Query::Term(b"f".to_vec(), b"a".to_vec());
    let twice = Query::Boolean(2, vec![(Kind::Should, word()), (Kind::Should, word())]);
    let query = queries::stored(&twice);
    let inputs = [("query", &query[..])];
    let strict = desk.rewrite_strict(&query, query.len());
    hold(
        "document 01, strict",
        &strict,
        &Ok((query.clone(), 1)),
        &inputs,
    );
    let none = Ok((queries::stored(&Query::MatchNone), 3));
    let original = desk.rewrite(&query, query.len());
    hold("document 01, original", &original, &none, &inputs);
    let list = lists::stored(&vec![lists::Entry::Place(b"f".to_vec(), 0, b"a".to_vec())]);
    let picked = desk.select(&query, &list, 4);
    hold("document 01, its record", &picked, &Ok(vec![0]), &inputs);
}

/// How much of what is asked for was met, so that a reader sees that it is not seldom.
#[derive(Default)]
struct Seen {
    larger: u64,
    differ: u64,
    lost: u64,
}

type Rewritten = (Vec<u8>, u32);

impl Seen {
    /// Where no minimum is above 1 the two rewritings are one.
    fn apart(&mut self, tree: &Query, strict: &Rewritten, original: &Rewritten, query: &[u8]) {
        if queries::greatest_minimum(tree) <= 1 {
            hold("both ways alike", strict, original, &[("query", query)]);
        }
        self.differ += u64::from(strict != original);
    }

    /// The original's result, where it is not what the query asks for.
    fn lose(&mut self, original: Result<Rewritten, u32>, tree: &Query, records: &[Record]) {
        let result = original.and_then(|(bytes, _)| queries::read(&bytes, SELECTION));
        if let Ok(result) = result {
            self.lost += u64::from(chosen(&result, records) != chosen(tree, records));
        }
    }
}

/// A stored query, damaged once in a while.
fn query(r: &mut Random) -> Vec<u8> {
    let deepest = 2 + r.below(4);
    let query = match r.below(100) {
        0..=1 => shapes::deep(r),
        2 => shapes::chain(r),
        3 => {
            let clauses = if r.one_in(100) { 2_500 } else { 60 };
            shapes::wide(r, clauses, &LARGER_MINIMA)
        }
        4 => {
            let bytes = if r.one_in(100) {
                REWRITER.0
            } else {
                60 + r.below(500)
            };
            shapes::pile(r, bytes, &LARGER_MINIMA)
        }
        5..=19 => queries::stored(&random_queries::query(r, deepest)),
        _ => queries::stored(&random_queries::repeating(r, deepest)),
    };
    if r.one_in(10) {
        damaged(r, &query)
    } else {
        query
    }
}

/// The archive's answer, which has to be the plain one; with an output that fits, is longer, or is short.
fn rewrite(r: &mut Random, desk: &mut Desk, query: &[u8], way: Way) -> Result<Rewritten, u32> {
    let plain = queries::read(query, REWRITER).map(|tree| {
        let (result, rounds) = rewriting::rewrite(way, &tree);
        (queries::stored(&result), rounds)
    });
    let length = plain.as_ref().map_or(0, |(bytes, _)| bytes.len());
    let short = length > 0 && r.one_in(16);
    let longer = r.pick(&[0, 0, 0, 1, 100]);
    let (out, expected) = if short {
        (r.below(length), Err(18))
    } else {
        (length + longer, plain)
    };
    let archive = match way {
        Way::Strict => desk.rewrite_strict(query, out),
        Way::Original => desk.rewrite(query, out),
    };
    hold(
        &format!("{way:?} rewriting"),
        &archive,
        &expected,
        &[("query", query)],
    );
    archive
}

/// Demand 3 at every minimum: rounds at most the weight, and the rows of the query as written, by the plain matcher and by the
/// archive; and nothing is left to rewrite or to merge. Gives the records.
fn promises(
    r: &mut Random,
    desk: &mut Desk,
    query: &[u8],
    tree: &Query,
    rewritten: &[u8],
    rounds: u32,
) -> Vec<Record> {
    let list = random_lists::list(r);
    let inputs = [("query", query), ("list", &list[..])];
    let few = (1..=queries::weight(tree)).contains(&rounds);
    hold("rounds at most the weight", &few, &true, &inputs);
    let result = queries::read(rewritten, SELECTION);
    let twice = result.as_ref().map(queries::has_duplicates);
    hold("a sound result, no duplicates", &twice, &Ok(false), &inputs);
    if queries::read(rewritten, REWRITER).is_ok() {
        let again = desk.rewrite_strict(rewritten, rewritten.len());
        hold("once more", &again, &Ok((rewritten.to_vec(), 1)), &inputs);
    }
    let Ok(records) = lists::read(&list) else {
        return Vec::new();
    };
    let rows = chosen(tree, &records);
    let after = result.map(|result| chosen(&result, &records));
    hold("rows of the result", &after, &Ok(rows.clone()), &inputs);
    for (what, by) in [
        ("rows by the query", query),
        ("rows by the result", rewritten),
    ] {
        let archive = desk.select(by, &list, 4 * rows.len());
        hold(what, &archive, &Ok(rows.clone()), &inputs);
    }
    records
}
