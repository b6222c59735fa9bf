//! Times the calls beside Rust in one run, and prints how many times as fast they are: parsing and
//! rewriting beside the original, selection beside reading the same bytes into trees and matching them;
//! then the strict rewriting beside the other one. Nothing is asserted.
//! The archive's calls write stored bytes and clear their room; the original makes trees.
//!
//!     bench

mod inputs;

use gorbihesh::calls;
use original::answers::{Setup, ascii};
use original::stored::decode;
use plain::{lists, matching, queries};
use std::hint::black_box;
use std::time::{Duration, Instant};

/// Each side runs so many times in turn, once where a call is slow; the fastest counts.
const TURNS: usize = 5;
const SLOW: f64 = 1e8;
/// A run is repeated for about this long.
const RUN: Duration = Duration::from_millis(2);
/// How long a row goes on at least: a machine may change its own speed from one second to the next.
const ROW: Duration = Duration::from_secs(4);

fn main() {
    println!(
        "room: parse {}, rewrite {}, rewrite_strict {}, select {} bytes",
        grouped(calls::parse_room()),
        grouped(calls::rewrite_room()),
        grouped(calls::rewrite_strict_room()),
        grouped(calls::select_room()),
    );
    heading("archive, ns", "Rust, ns");
    let setup = inputs::setup();
    for (name, text) in inputs::texts() {
        parse(&name, &setup, text.as_bytes());
    }
    let typed = [inputs::typical(), inputs::long()].concat();
    let mut means = (0.0, 0.0);
    for (name, text) in &typed {
        let query = original::answers::parse(&setup, text.as_bytes()).expect("a selector");
        let (archive, rust) = rewrite(name, &query);
        means.0 += archive / typed.len() as f64;
        means.1 += rust / typed.len() as f64;
    }
    print(("rewrite", "the mean of these"), means);
    for (name, query) in inputs::worst_queries() {
        rewrite(&name, &query);
    }
    let list = inputs::catalogue();
    for (name, text) in inputs::typical() {
        let query = original::answers::parse(&setup, text.as_bytes()).expect("a selector");
        select(&name, &query, &list);
    }
    for (name, query, list) in inputs::worst_selections() {
        select(&name, &query, &list);
    }
    heading("strict, ns", "rewrite, ns");
    for (name, text) in inputs::typical() {
        let query = original::answers::parse(&setup, text.as_bytes()).expect("a selector");
        strict(&name, &query);
    }
    for (name, query) in inputs::larger_minimums() {
        strict(&name, &query);
    }
}

fn heading(one: &str, other: &str) {
    println!(
        "{:<8} {:<50} {one:>14} {other:>14} {:>7}",
        "call", "on", "faster"
    );
}

fn parse(name: &str, setup: &Setup, text: &[u8]) {
    let mut out = vec![0; 65_535];
    let mut room = vec![0; calls::parse_room()];
    let lent = calls::Setup {
        operator: setup.operator,
        analyzer: setup.analyzer,
        field: &setup.field,
        fields: &setup.fields,
    };
    let parser = setup.parser();
    let text = black_box(text);
    row(
        ("parse", name),
        || calls::parse(lent, text, &mut out, &mut room),
        || parser.parse(ascii(text)),
    );
}

fn rewrite(name: &str, query: &[u8]) -> (f64, f64) {
    let mut out = vec![0; 65_535];
    let mut room = vec![0; calls::rewrite_room()];
    let tree = decode(query).expect("a stored query");
    let query = black_box(query);
    row(
        ("rewrite", name),
        || calls::rewrite(query, &mut out, &mut room),
        || tree.rewrite(),
    )
}

/// The strict rewriting beside the other one, each with its own output and room.
fn strict(name: &str, query: &[u8]) {
    let mut out = [vec![0; 65_535], vec![0; 65_535]];
    let mut room = [
        vec![0; calls::rewrite_strict_room()],
        vec![0; calls::rewrite_room()],
    ];
    let ([out, other_out], [room, other_room]) = (&mut out, &mut room);
    let query = black_box(query);
    row(
        ("strict", name),
        || calls::rewrite_strict(query, out, room),
        || calls::rewrite(query, other_out, other_room),
    );
}

fn select(name: &str, query: &[u8], list: &[u8]) {
    let mut rows = vec![0; 4 * list.len()];
    let mut room = vec![0; calls::select_room()];
    let (query, list) = (black_box(query), black_box(list));
    row(
        ("select", name),
        || calls::select(query, list, &mut rows, &mut room),
        || {
            let query = queries::read(query, queries::SELECTION).expect("a query");
            matching::chosen(&query, &lists::read(list).expect("a list"))
        },
    );
}

/// One line of the table: both sides in turn. Their times, in nanoseconds.
fn row<A, B>(
    what: (&str, &str),
    mut archive: impl FnMut() -> A,
    mut rust: impl FnMut() -> B,
) -> (f64, f64) {
    let mut best = (f64::INFINITY, f64::INFINITY);
    let begun = Instant::now();
    let mut turns = 0;
    while turns < TURNS || begun.elapsed() < ROW {
        turns += 1;
        best.0 = best.0.min(time(&mut archive));
        best.1 = best.1.min(time(&mut rust));
        if best.0 + best.1 > SLOW {
            break;
        }
    }
    print(what, best);
    best
}

fn print((call, name): (&str, &str), (archive, rust): (f64, f64)) {
    let ratio = rust / archive;
    #[allow(clippy::cast_possible_truncation, clippy::cast_sign_loss)]
    let whole = |ns: f64| grouped(ns.round() as usize);
    println!(
        "{call:<8} {name:<50} {:>14} {:>14} {ratio:>7.1}",
        whole(archive),
        whole(rust)
    );
}

/// Nanoseconds a call: twice as many calls each time, until they fill a run, so that reading the clock does not count.
fn time<T>(call: &mut impl FnMut() -> T) -> f64 {
    let mut calls = 1_u32;
    loop {
        let start = Instant::now();
        for _ in 0..calls {
            black_box(call());
        }
        let spent = start.elapsed();
        if spent >= RUN {
            return spent.as_secs_f64() * 1e9 / f64::from(calls);
        }
        calls *= 2;
    }
}

/// Digits in threes.
fn grouped(n: usize) -> String {
    let digits = n.to_string();
    let mut out = String::new();
    for (i, digit) in digits.chars().enumerate() {
        if i > 0 && (digits.len() - i).is_multiple_of(3) {
            out.push(',');
        }
        out.push(digit);
    }
    out
}
