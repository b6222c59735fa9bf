//! `rewrite_and_select`, strict and not, on random queries and lists, damaged once in a while and with rooms and rows that are short once in a
//! while. Strict, the queries have any minimum and clauses that repeat; else none above 1. The records are those that a plain matcher says the
//! query as written is true of; the rounds are those of a plain rewriter over trees and, not strict, the original's, and what the original
//! rewrites the query to is true of the same records. Every lent byte is looked at.
//!
//!     compare COUNT SEED

#![allow(unexpected_cfgs)]

#[path = "../rust/src/tally.rs"]
mod tally;

use plain::damage::damaged;
use plain::lists;
use plain::matching::chosen;
use plain::queries::{self, Query, REWRITER};
use plain::random::Random;
use plain::rewriting::{self, Way};
use plain::{random_lists, random_queries};
use tally::{Tally, generator, hold};

/// What the second room has to have at least, and what is enough for the first.
const HELD: usize = 38_229;
const ROOM: usize = 38_229;

/// The refusal's number or 0, the records chosen, the rounds made: what the call returns.
#[repr(C)]
struct Answer {
    refusal: u64,
    count: u64,
    rounds: u64,
}

unsafe extern "C" {
    fn probe_rewrite_and_select(
        strict: bool,
        q: *const u8,
        qn: usize,
        l: *const u8,
        ln: usize,
        rows: *mut u32,
        rn: usize,
        held: *mut u8,
        hn: usize,
        room: *mut u8,
        mn: usize,
    ) -> Answer;
}

/// What is lent: dirty rows and rooms, whose bytes are looked at afterwards.
struct Lent {
    rows: Vec<u32>,
    held: Vec<u8>,
    room: Vec<u8>,
}

const DIRTY: u32 = 0xABAB_ABAB;

impl Lent {
    fn new(rows: usize, held: usize, room: usize) -> Self {
        Self {
            rows: vec![DIRTY; rows],
            held: vec![0xAB; held],
            room: vec![0xCD; room],
        }
    }

    /// The rows and the rounds, or the refusal; ends the program where a byte is not as promised.
    fn call(&mut self, way: Way, query: &[u8], list: &[u8]) -> Result<(Vec<u32>, u64), u32> {
        let (rows, held, room) = (&mut self.rows, &mut self.held, &mut self.room);
        // safe: each pointer and length are of one slice that lives until the call returns
        let answer = unsafe {
            probe_rewrite_and_select(
                way == Way::Strict,
                query.as_ptr(),
                query.len(),
                list.as_ptr(),
                list.len(),
                rows.as_mut_ptr(),
                rows.len(),
                held.as_mut_ptr(),
                held.len(),
                room.as_mut_ptr(),
                room.len(),
            )
        };
        let inputs = [("query", query), ("list", list)];
        let rooms = held.iter().chain(room.iter()).all(|b| *b == 0);
        hold("rooms that end all zeros", &rooms, &true, &inputs);
        let count = usize::try_from(answer.count).expect("a count");
        let kept = rows[count..].iter().all(|n| *n == DIRTY);
        hold(
            "rows behind the answer, as they were",
            &kept,
            &true,
            &inputs,
        );
        match answer.refusal {
            0 => Ok((rows[..count].to_vec(), answer.rounds)),
            refusal => {
                hold(
                    "a refusal's count and rounds",
                    &(answer.count, answer.rounds),
                    &(0, 0),
                    &inputs,
                );
                Err(u32::try_from(refusal).expect("a refusal"))
            }
        }
    }
}

/// The same query with no minimum above 1.
fn lowered(query: Query) -> Query {
    match query {
        Query::Boolean(minimum, clauses) => Query::Boolean(
            minimum.min(1),
            clauses
                .into_iter()
                .map(|(kind, inner)| (kind, lowered(inner)))
                .collect(),
        ),
        Query::Boost(bits, inner) => Query::Boost(bits, Box::new(lowered(*inner))),
        Query::ConstantScore(inner) => Query::ConstantScore(Box::new(lowered(*inner))),
        leaf => leaf,
    }
}

fn query(r: &mut Random, way: Way) -> Vec<u8> {
    let mut query = if way == Way::Strict {
        let deepest = 2 + r.below(4);
        random_queries::repeating(r, deepest)
    } else {
        let deepest = 1 + r.below(6);
        lowered(random_queries::query(r, deepest))
    };
    if r.one_in(50) {
        let records = r.pick(&[57, 60, 62, 63, 64]);
        query = random_queries::deepened(r, query, records);
    }
    let mut bytes = queries::stored(&query);
    if r.one_in(3_000) {
        bytes.resize(REWRITER.0 - 3 + r.below(8), 0);
    }
    bytes
}

/// That the original's result selects the same in the same rounds; where a NaN is made, which is outside the comparison, not its rounds.
/// How many answers had its rounds: one or none.
#[cfg(with_original)]
fn original(bytes: &[u8], records: &[lists::Record], rows: &[u32], rounds: u32) -> usize {
    let rewritten = original::answers::rewrite(bytes);
    let result = queries::read(&rewritten.stored, queries::SELECTION).expect("a stored query");
    hold(
        "the original's result selects the same",
        &chosen(&result, records),
        &rows.to_vec(),
        &[("query", bytes)],
    );
    if rewritten.nan {
        return 0;
    }
    hold(
        "the original's rounds",
        &rounds,
        &rewritten.rounds,
        &[("query", bytes)],
    );
    1
}

#[cfg(not(with_original))]
fn original(_: &[u8], _: &[lists::Record], _: &[u32], _: u32) -> usize {
    0
}

/// 32; 19, 20, 21 of the query; 22, 23 of the list; and 18. A damaged query may have a minimum above 1, of which the contract says less where it
/// is not strict: none.
fn expected(
    way: Way,
    query: &[u8],
    list: &[u8],
    lent: &Lent,
    seen: &mut Seen,
) -> Option<Result<(Vec<u32>, u64), u32>> {
    if lent.held.len() < HELD || lent.room.len() < ROOM {
        return Some(Err(32));
    }
    let tree = match queries::read(query, REWRITER) {
        Ok(tree) => tree,
        Err(refusal) => return Some(Err(refusal)),
    };
    let records = match lists::read(list) {
        Ok(records) => records,
        Err(refusal) => return Some(Err(refusal)),
    };
    let larger = queries::greatest_minimum(&tree) > 1;
    if larger && way == Way::Original {
        return None;
    }
    seen.larger += usize::from(larger);
    let rows = chosen(&tree, &records);
    let (_, rounds) = rewriting::rewrite(way, &tree);
    if way == Way::Original {
        seen.original += original(query, &records, &rows, rounds);
    }
    Some(if rows.len() > lent.rows.len() {
        Err(18)
    } else {
        Ok((rows, u64::from(rounds)))
    })
}

/// How much was compared, so that a reader sees that it is not seldom.
#[derive(Default)]
struct Seen {
    records: usize,
    original: usize,
    larger: usize,
    many: usize,
}

fn one(r: &mut Random, way: Way, tally: &mut Tally, seen: &mut Seen) {
    let (mut query, mut list) = (query(r, way), random_lists::list(r));
    if r.one_in(6) {
        query = damaged(r, &query);
    }
    if r.one_in(6) {
        list = damaged(r, &list);
    }
    let room = |r: &mut Random, least: usize| {
        if r.one_in(100) {
            r.below(least)
        } else {
            least + r.below(3)
        }
    };
    let rows = if r.one_in(8) { r.below(4) } else { 4_000 };
    let mut lent = Lent::new(rows, room(r, HELD), room(r, ROOM));
    let Some(want) = expected(way, &query, &list, &lent, seen) else {
        return;
    };
    let got = lent.call(way, &query, &list);
    let inputs = [("query", &query[..]), ("list", &list)];
    hold(
        &format!("rewrite_and_select, {way:?}"),
        &got,
        &want,
        &inputs,
    );
    if let Ok((rows, made)) = &got {
        seen.records += rows.len();
        seen.many += usize::from(*made > 1);
    }
    tally.count(&got);
}

fn main() {
    let (count, seed) = tally::arguments();
    for (way, name) in [
        (
            Way::Original,
            "rewritten and selected beside the query as written",
        ),
        (Way::Strict, "the same, strictly, at every minimum"),
    ] {
        let mut tally = Tally::new(name);
        let mut seen = Seen::default();
        for i in 0..count {
            let mut r = generator(seed, i);
            one(&mut r, way, &mut tally, &mut seen);
        }
        tally.print();
        println!(
            "  {} records; {} with a minimum above 1; {} of more than one round; {} with the original's rounds",
            seen.records, seen.larger, seen.many, seen.original
        );
    }
}
