//! How long the checks take beside the same checks in plain Rust, and how much stack the deepest queries take.

#[allow(dead_code)]
mod cases;
mod plain;
#[allow(dead_code)]
mod tree;

use cases::{Random, nested, term};
use std::hint::black_box;
use std::time::Instant;
use tree::{Bound, Entry, Query, list_bytes};

unsafe extern "C" {
    fn probe_for_rewriting(s: *const u8, n: usize) -> u8;
    fn probe_for_selection(s: *const u8, n: usize) -> u8;
    fn probe_list(s: *const u8, n: usize) -> u8;
    fn probe_weight(s: *const u8, n: usize) -> usize;
}

// safe, all of them: pointer and length are of one slice that lives until the call returns
fn rewriting(s: &[u8]) -> u8 {
    unsafe { probe_for_rewriting(s.as_ptr(), s.len()) }
}

fn selection(s: &[u8]) -> u8 {
    unsafe { probe_for_selection(s.as_ptr(), s.len()) }
}

fn list(s: &[u8]) -> u8 {
    unsafe { probe_list(s.as_ptr(), s.len()) }
}

/// The least time of one call, in nanoseconds, over many rounds.
fn time(bytes: &[u8], check: &dyn Fn(&[u8]) -> u8) -> f64 {
    let mut least = f64::MAX;
    for _ in 0..60 {
        let start = Instant::now();
        for _ in 0..50 {
            assert!(check(black_box(bytes)) == 0);
        }
        least = least.min(start.elapsed().as_nanos() as f64 / 50.0);
    }
    least
}

fn row(name: &str, bytes: &[u8], ours: &dyn Fn(&[u8]) -> u8, theirs: &dyn Fn(&[u8]) -> u8) {
    // in turn, so that both meet the same machine
    let (a, b) = (time(bytes, ours), time(bytes, theirs));
    let (a, b) = (a.min(time(bytes, ours)), b.min(time(bytes, theirs)));
    println!("{name:28} {:6} bytes {a:9.0} ns, plain Rust {b:9.0} ns, ratio {:.2}", bytes.len(), a / b);
}

fn word(random: &mut Random, most: usize) -> Vec<u8> {
    (0..1 + random.below(most)).map(|_| b'a' + random.below(26) as u8).collect()
}

fn leaf(random: &mut Random, most: usize) -> Query {
    let field = word(random, 8);
    match random.below(10) {
        0 => Query::Phrase(field, (0..3).map(|p| (p, word(random, most))).collect()),
        1 => Query::Range(8, field, Bound::Included(random.below(1 << 20) as u64), Bound::Open),
        2 => Query::Boost(0x4000_0000, Box::new(term(&field, &word(random, most)))),
        _ => term(&field, &word(random, most)),
    }
}

/// A Boolean that fills n bytes but for a few, of leaves with texts of at most `most` bytes; every tenth clause is nested `deep` times.
fn filled(n: usize, most: usize, deep: usize) -> Vec<u8> {
    let mut random = Random::new(77);
    let mut clauses = vec![];
    let mut left = n - 8;
    loop {
        let mut q = leaf(&mut random, most);
        if random.below(10) == 0 {
            for _ in 0..random.below(deep + 1) {
                q = Query::Boolean(1, vec![(0x21, q), (0x20, leaf(&mut random, most))]);
            }
        }
        let size = 3 + q.bytes().len();
        if size > left {
            return Query::Boolean(1, clauses).bytes();
        }
        left -= size;
        clauses.push((0x21, q));
    }
}

fn list_filled(n: usize) -> Vec<u8> {
    let mut random = Random::new(99);
    let mut records = vec![];
    let mut size = 0;
    while size < n - 400 {
        let entries: Vec<Entry> = (0..6)
            .map(|p| match random.below(4) {
                0 => Entry::Value(0x44, word(&mut random, 8), random.below(1 << 30) as u64),
                _ => Entry::Place(word(&mut random, 8), p, word(&mut random, 12)),
            })
            .collect();
        records.push(entries);
        size = list_bytes(&records).len();
    }
    list_bytes(&records)
}

/// The bytes of stack below this frame that a call writes: they are painted before it and looked at after it.
#[inline(never)]
fn stack(check: fn(&[u8]) -> u8, bytes: &[u8]) -> usize {
    const DEEP: usize = 65_536;
    const NEAR: usize = 512;
    let here = black_box(&mut 0u8) as *mut u8;
    // writes below the stack pointer, where nothing stands; NEAR leaves out what this function's own calls use
    unsafe {
        for i in NEAR..DEEP {
            here.sub(i).write_volatile(0xa5);
        }
        black_box(check(bytes));
        (NEAR..DEEP).rev().find(|i| here.sub(*i).read_volatile() != 0xa5).unwrap_or(NEAR)
    }
}

fn main() {
    let weight = |s: &[u8]| unsafe { probe_weight(s.as_ptr(), s.len()) };
    let theirs = |s: &[u8]| plain::query(s, 32_768, 64);
    row("short texts", &filled(32_768, 8, 0), &rewriting, &theirs);
    row("short texts, nested", &filled(32_768, 8, 20), &rewriting, &theirs);
    row("texts of a line", &filled(32_768, 200, 3), &rewriting, &theirs);
    row("texts of 4 KiB", &filled(32_768, 4096, 0), &rewriting, &theirs);
    row("one text", &term(b"f", &[b'z'; 32_758]).bytes(), &rewriting, &theirs);
    row("a list", &list_filled(65_536), &list, &plain::list);
    let q = filled(32_768, 8, 20);
    row("check and weight", &q, &|s| (weight(s) == 0).into(), &theirs);
    for (n, check) in [(64, rewriting as fn(&[u8]) -> u8), (192, selection)] {
        for (way, name) in ["Booleans", "Boosts", "ConstantScores", "Booleans of three", "mixed"].iter().enumerate() {
            println!("stack at depth {n}, {name:18} {:6} bytes", stack(check, &nested(n, way).bytes()));
        }
    }
}
