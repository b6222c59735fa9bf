//! Selection beside a plain matcher over trees, on random queries and lists and damaged copies of them,
//! at every minimum; and the promises about rewriting that need no original: refusals, rounds, no
//! duplicates, and the same rows where no minimum exceeds 1.
//!
//!     compare_select COUNT SEED

mod tally;

use desk::Desk;
use plain::damage::damaged;
use plain::lists::{self, Record};
use plain::matching::chosen;
use plain::queries::{self, Query, REWRITER, SELECTION};
use plain::random::Random;
use plain::{random_lists, random_queries};
use tally::{Tally, generator, hold};

/// A query and a list as bytes, each damaged once in a while.
struct Case {
    query: Vec<u8>,
    list: Vec<u8>,
}

impl Case {
    fn new(r: &mut Random) -> Self {
        let deepest = 1 + r.below(6);
        let mut query = random_queries::query(r, deepest);
        if r.one_in(50) {
            let records = r.pick(&[60, 63, 64, 188, 190, 191, 192]);
            query = random_queries::deepened(r, query, records);
        }
        let mut query = queries::stored(&query);
        let mut list = random_lists::list(r);
        if r.one_in(6) {
            query = damaged(r, &query);
        }
        if r.one_in(6) {
            list = damaged(r, &list);
        }
        if r.one_in(3_000) {
            query.resize(SELECTION.0 - 3 + r.below(8), 0);
        }
        Self { query, list }
    }

    fn inputs(&self) -> [(&str, &[u8]); 2] {
        [("query", &self.query), ("list", &self.list)]
    }

    /// What document 01 says: the query and the records, or the refusal.
    fn read(&self) -> Result<(Query, Vec<Record>), u32> {
        let query = queries::read(&self.query, SELECTION)?;
        Ok((query, lists::read(&self.list)?))
    }
}

fn main() {
    let (count, seed) = tally::arguments();
    let mut desk = Desk::new();
    let mut selections = Tally::new("select beside the plain matcher");
    let mut rewritings = Tally::new("rewriting held to its promises");
    let mut seen = Seen::default();
    for i in 0..count {
        let mut r = generator(seed, i);
        let case = Case::new(&mut r);
        let read = case.read();
        selections.count(&select(&mut r, &mut desk, &case, &read, &mut seen));
        rewritings.count(&rewrite(&mut desk, &case, &read, &mut seen));
    }
    selections.print();
    println!("  {} records, {} chosen", seen.records, seen.chosen);
    rewritings.print();
    println!("  {} selections by the rewritten query too", seen.rewritten);
}

/// How much was compared, so that a reader sees that both answers are common.
#[derive(Default)]
struct Seen {
    records: usize,
    chosen: usize,
    rewritten: usize,
}

/// The rows, with an output that fits, is longer, or is short.
fn select(
    r: &mut Random,
    desk: &mut Desk,
    case: &Case,
    read: &Result<(Query, Vec<Record>), u32>,
    seen: &mut Seen,
) -> Result<Vec<u32>, u32> {
    let rows = match read {
        Ok((query, records)) => Ok(chosen(query, records)),
        Err(refusal) => Err(*refusal),
    };
    let needed = rows.as_ref().map_or(0, |rows| 4 * rows.len());
    let short = needed > 0 && r.one_in(10);
    let longer = r.pick(&[0, 0, 1, 3, 4, 50]);
    let lent = if short {
        r.below(needed)
    } else {
        needed + longer
    };
    let expected = if short { Err(18) } else { rows };
    let archive = desk.select(&case.query, &case.list, lent);
    hold("select", &archive, &expected, &case.inputs());
    if let (Ok(rows), Ok((_, records))) = (&archive, read) {
        seen.records += records.len();
        seen.chosen += rows.len();
        alone(r, desk, case, rows, records);
    }
    archive
}

/// Whether a record is chosen depends on it and the query alone.
fn alone(r: &mut Random, desk: &mut Desk, case: &Case, rows: &[u32], records: &[Record]) {
    if records.is_empty() {
        return;
    }
    let number = r.below(records.len());
    let is_chosen = rows.contains(&u32::try_from(number).expect("few records"));
    let archive = desk.select(&case.query, &lists::stored(&records[number]), 4);
    let expected = Ok(if is_chosen { vec![0] } else { vec![] });
    hold("a record alone", &archive, &expected, &case.inputs());
}

fn rewrite(
    desk: &mut Desk,
    case: &Case,
    read: &Result<(Query, Vec<Record>), u32>,
    seen: &mut Seen,
) -> Result<(), u32> {
    let archive = desk.rewrite(&case.query, 2 * case.query.len() + 64);
    let query = queries::read(&case.query, REWRITER);
    let refusals = (archive.as_ref().err(), query.as_ref().err());
    hold(
        "rewrite, refusals",
        &refusals.0,
        &refusals.1,
        &case.inputs(),
    );
    let (rewritten, rounds) = archive?;
    let query = query?;
    let result = queries::read(&rewritten, SELECTION);
    hold(
        "rewrite, a sound result",
        &result.is_ok(),
        &true,
        &case.inputs(),
    );
    let result = result?;
    promises(desk, case, (&query, &result), &rewritten, rounds);
    if let Ok((_, records)) = read {
        seen.rewritten += 1;
        same_rows(desk, case, (&query, &result), &rewritten, records);
    }
    Ok(())
}

/// No more rounds than the weight, no duplicates, and rewritten for good.
fn promises(
    desk: &mut Desk,
    case: &Case,
    (query, result): (&Query, &Query),
    rewritten: &[u8],
    rounds: u32,
) {
    let few = (1..=queries::weight(query)).contains(&rounds);
    hold("rewrite, rounds", &few, &true, &case.inputs());
    let twice = queries::has_duplicates(result);
    hold("rewrite, duplicates", &twice, &false, &case.inputs());
    if queries::read(rewritten, REWRITER).is_ok() {
        let again = desk.rewrite(rewritten, rewritten.len());
        let expected = Ok((rewritten.to_vec(), 1));
        hold("rewrite, once more", &again, &expected, &case.inputs());
    }
}

/// What the rewritten query is true of; where no minimum exceeds 1, what the query is true of.
fn same_rows(
    desk: &mut Desk,
    case: &Case,
    (query, result): (&Query, &Query),
    rewritten: &[u8],
    records: &[Record],
) {
    let expected = chosen(result, records);
    let archive = desk.select(rewritten, &case.list, 4 * expected.len());
    if queries::greatest_minimum(query) <= 1 {
        let before = chosen(query, records);
        hold("rows, rewritten or not", &expected, &before, &case.inputs());
    }
    hold("select, rewritten", &archive, &Ok(expected), &case.inputs());
}
