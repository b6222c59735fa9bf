//! The archive beside the original Rust on random inputs: parsing of texts that the grammar makes,
//! damaged and stretched to the limits, under random setups; and rewriting of random stored queries.
//! What document 01 decides alone (refusals 1 to 3, 15 to 21) and the place of every refusal is found by the crate `plain`.
//!
//!     compare_original COUNT SEED [texts]    with `texts`, the texts alone

mod tally;
mod texts;

use desk::Desk;
use original::answers::{self, Setup};
use original::limits;
use original::random::Random as Numbers;
use original::{random_query, random_text, stored, words};
use plain::damage::damaged;
use plain::faults::{self, Fields};
use plain::queries::{self, REWRITER};
use plain::random::Random;
use plain::shapes;
use tally::{Tally, generator, hold};

/// The minimums of wide Booleans.
const MINIMA: [u16; 4] = [0, 0, 1, 2];

fn main() {
    let (count, seed) = tally::arguments();
    let mut desk = Desk::new();
    let mut texts = Tally::new("parse beside the original");
    for i in 0..count {
        let mut r = generator(seed, i);
        texts.count(&parse(&mut r, &mut desk));
    }
    texts.print();
    short_words(&mut desk);
    if std::env::args().nth(3).as_deref() != Some("texts") {
        rewritings(count, seed, &mut desk);
    }
}

fn rewritings(count: u64, seed: u64, desk: &mut Desk) {
    let mut rewritings = Tally::new("rewrite beside the original");
    let (mut apart, mut most) = (0, 0);
    for i in 0..count {
        let mut r = generator(!seed, i);
        let answer = rewrite(&mut r, desk);
        match &answer {
            Some(Ok((_, rounds))) => most = most.max(*rounds),
            Some(Err(_)) => {}
            None => apart += 1,
        }
        answer.iter().for_each(|answer| rewritings.count(answer));
    }
    rewritings.print();
    println!("  at most {most} rounds; {apart} more had a NaN in some round and are not compared");
}

/// Every text of up to four bytes over a dozen of different classes, in quotes and so with positions,
/// under both analyzers of words.
fn short_words(desk: &mut Desk) {
    let mut texts = Tally::new("short words beside the original");
    for text in (0..=4).flat_map(words::texts) {
        let text = [b"\"", text.as_slice(), b"\""].concat();
        for analyzer in [4, 5] {
            let setup = Setup::new(0, analyzer, b"f");
            let answer = answers::parse(&setup, &text);
            let lent = gorbihesh::calls::Setup {
                operator: 0,
                analyzer,
                field: &setup.field,
                fields: &setup.fields,
            };
            let archive = desk.parse(lent, &text, 1_000);
            hold("parse", &archive, &answer, &[("text", &text)]);
            texts.count(&archive);
        }
    }
    texts.print();
}

/// An output that fits or is longer, and once in a while one that is short; and then 18.
fn lend(r: &mut Random, answer: Result<usize, u32>) -> (usize, Option<u32>) {
    match answer {
        Ok(length) if r.one_in(16) => (r.below(length), Some(18)),
        Ok(length) => (length + r.pick(&[0, 0, 0, 1, 100]), None),
        Err(_) => (r.pick(&[0, 10, 1_000]), None),
    }
}

fn parse(r: &mut Random, desk: &mut Desk) -> Result<Vec<u8>, u32> {
    let (setup, text) = texts::case(r);
    let answer = expected(&setup, &text);
    let (out, short) = lend(r, answer.as_ref().map(Vec::len).map_err(|(e, _)| *e));
    let answer = short.map_or(answer, |e| Err((e, 0)));
    let lent = gorbihesh::calls::Setup {
        operator: setup.operator,
        analyzer: setup.analyzer,
        field: &setup.field,
        fields: &setup.fields,
    };
    let archive = desk.parse_placed(lent, &text, out);
    let head = [setup.operator, setup.analyzer];
    let inputs = [
        ("operator, analyzer", &head[..]),
        ("field", &setup.field),
        ("fields", &setup.fields),
        ("text", &text),
    ];
    hold("parse", &archive, &answer, &inputs);
    archive.map_err(|(refusal, _)| refusal)
}

/// 3, 1, 2; then the first fault; then the original's answer, which has to have the same fault where it
/// has no limits. With the place of each refusal.
fn expected(setup: &Setup, text: &[u8]) -> Result<Vec<u8>, (u32, u32)> {
    if !limits::setup_is_sound(setup) {
        return Err((3, 0));
    }
    if text.len() > limits::TEXT {
        return Err((1, 0));
    }
    if !text.is_ascii() {
        return Err((2, 0));
    }
    let fields = Fields {
        field: &setup.field,
        analyzer: setup.analyzer,
        entries: setup.entries().expect("a sound setup"),
    };
    let (fault, place) = faults::first(&fields, text).unzip();
    let place = place.map_or(0, |place| u32::try_from(place).expect("a short text"));
    if let Some(limit @ 15..=17) = fault {
        return Err((limit, place));
    }
    let answer = answers::parse(setup, text);
    let original = answer.as_ref().err().copied();
    hold("the crate plain beside the original", &fault, &original, &[("text", text)]);
    answer.map_err(|refusal| (refusal, place))
}

/// None where a NaN is made: such a case is outside the comparison.
fn rewrite(r: &mut Random, desk: &mut Desk) -> Option<Result<(Vec<u8>, u32), u32>> {
    let mut query = query(r);
    if r.one_in(6) {
        query = damaged(r, &query);
    }
    let answer = match queries::read(&query, REWRITER) {
        Err(refusal) => Err(refusal),
        Ok(_) => {
            let rewritten = answers::rewrite(&query);
            if rewritten.nan {
                return None;
            }
            Ok((rewritten.stored, rewritten.rounds))
        }
    };
    let length = answer
        .as_ref()
        .map(|(bytes, _)| bytes.len())
        .map_err(|e| *e);
    let (out, short) = lend(r, length);
    let answer = short.map_or(answer, Err);
    let archive = desk.rewrite(&query, out);
    hold("rewrite", &archive, &answer, &[("query", &query)]);
    Some(archive)
}

/// A stored query: by random trees, or what a random text means.
fn query(r: &mut Random) -> Vec<u8> {
    let mut numbers = Numbers::new(r.bits());
    if r.one_in(20) {
        return shapes::deep(r);
    }
    if r.one_in(20) {
        return shapes::chain(r);
    }
    if r.one_in(50) {
        let clauses = if r.one_in(50) { 2_500 } else { 60 };
        return shapes::wide(r, clauses, &MINIMA);
    }
    if r.one_in(50) {
        let bytes = if r.one_in(50) { REWRITER.0 } else { 60 + r.below(500) };
        return shapes::pile(r, bytes, &MINIMA);
    }
    if r.one_in(4) {
        let setup = random_text::setup(&mut numbers);
        let text = random_text::text(&mut numbers, limits::TEXT);
        if let Ok(query) = answers::parse(&setup, &text) {
            return query;
        }
    }
    let deepest = 2 + r.below(6);
    let made = if r.one_in(2) {
        random_query::boolean(&mut numbers, deepest)
    } else {
        random_query::query(&mut numbers, deepest)
    };
    stored::encode(&made)
}
