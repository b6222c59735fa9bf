//! How long a selection takes over a list of 64 KiB, beside reading the same bytes into trees in plain Rust and matching those;
//! and how much stack the deepest query takes.

#[allow(dead_code)]
mod cases;
mod tree;
#[allow(dead_code)]
mod truth;

use cases::Random;
use std::hint::black_box;
use std::time::Instant;
use tree::{Bound, Entry, Kind, Query, Record, list_bytes, query_bytes, read_list, read_query, record_bytes};
use truth::{Shifts, chosen};

unsafe extern "C" {
    fn probe_select_bytes(q: *const u8, qn: usize, l: *const u8, ln: usize, rows: *mut u8, rn: usize, room: *mut u8, mn: usize) -> u64;
    fn probe_select_rows(q: *const u8, qn: usize, l: *const u8, ln: usize, rows: *mut u32, rn: usize) -> u64;
}

// both safe: each pointer and length are of one slice that lives until the call returns
fn ours(q: &[u8], l: &[u8], rows: &mut [u8]) -> usize {
    unsafe { probe_select_bytes(q.as_ptr(), q.len(), l.as_ptr(), l.len(), rows.as_mut_ptr(), rows.len(), std::ptr::dangling_mut(), 0) as usize }
}

fn ours_rows(q: &[u8], l: &[u8], rows: &mut [u32]) -> usize {
    unsafe { probe_select_rows(q.as_ptr(), q.len(), l.as_ptr(), l.len(), rows.as_mut_ptr(), rows.len()) as usize }
}

fn trees(q: &[u8], l: &[u8]) -> usize {
    chosen(&read_query(q).unwrap(), &read_list(l).unwrap(), Shifts::Any).len()
}

/// A catalogue of files: the words of a path by position, name, extension, kind, size and the day of the last change.
fn catalogue() -> Vec<Record> {
    let mut r = Random(1);
    let places = ["show", "cue", "light", "sound", "stage", "backup", "rehearsal", "site", "north", "hall"];
    let kinds = ["settings", "cache", "media", "timing"];
    let text = |f: &str, p: usize, t: &str| Entry::Text(f.into(), p as u32, t.into());
    let (mut out, mut bytes) = (Vec::<Record>::new(), 0);
    loop {
        let mut record: Record = (0..2 + r.below(4)).map(|p| text("path", p, *r.pick(&places))).collect();
        record.push(text("name", 0, &format!("file{}", r.below(1000))));
        record.push(text("ext", 0, *r.pick(&["db", "wav", "json", "tmp"])));
        record.push(text("kind", 0, *r.pick(&kinds)));
        record.push(Entry::Whole(b"size".into(), r.next() % 5_000_000));
        record.push(Entry::Float(b"day".into(), (r.below(9000) as f64).to_bits()));
        bytes += record_bytes(&record).len();
        if bytes > 65_536 {
            return out;
        }
        out.push(record);
    }
}

fn selectors() -> Vec<(&'static str, Query)> {
    let term = |f: &str, t: &str| Query::Term(f.into(), t.into());
    let phrase = |ts: &[&str]| Query::Phrase(b"path".into(), ts.iter().enumerate().map(|(i, t)| (i as u32, t.as_bytes().to_vec())).collect());
    let boolean = |cs: Vec<(Kind, Query)>| Query::Boolean(0, cs);
    let large = || Query::Whole(b"size".into(), Bound::Excluded(1_000_000), Bound::Open);
    let lately = || Query::Float(b"day".into(), Bound::Included(8000f64.to_bits()), Bound::Excluded(f64::INFINITY.to_bits()));
    vec![
        ("kind:settings -kind:cache", boolean(vec![(Kind::Should, term("kind", "settings")), (Kind::MustNot, term("kind", "cache"))])),
        ("one term", term("path", "stage")),
        ("one phrase", phrase(&["show", "cue"])),
        ("one range", large()),
        (
            "+kind +(path path) -ext size",
            boolean(vec![
                (Kind::Must, term("kind", "media")),
                (Kind::Must, boolean(vec![(Kind::Should, term("path", "stage")), (Kind::Should, phrase(&["north", "hall"]))])),
                (Kind::MustNot, term("ext", "tmp")),
                (Kind::Filter, large()),
            ]),
        ),
        (
            "eight Should clauses",
            boolean(vec![
                (Kind::Should, term("path", "show")),
                (Kind::Should, Query::Boost(0x4000_0000, Box::new(term("path", "cue")))),
                (Kind::Should, term("path", "light")),
                (Kind::Should, phrase(&["sound", "stage"])),
                (Kind::Should, term("ext", "db")),
                (Kind::Should, lately()),
                (Kind::Should, term("name", "file7")),
                (Kind::Should, Query::ConstantScore(Box::new(large()))),
            ]),
        ),
        ("seventy names", boolean((0..70).map(|i| (Kind::Should, term("name", &format!("file{}", 37 * i)))).collect())),
        ("seventy clauses", boolean((0..70).map(|i| seventieth(i, &term)).collect())),
        ("everything", Query::MatchAll),
    ]
}

/// One of seventy clauses, as a selector for a whole site has them: names, places and endings to take, and some to leave out.
fn seventieth(i: usize, term: &dyn Fn(&str, &str) -> Query) -> (Kind, Query) {
    let places = ["show", "cue", "light", "organ", "foyer", "balcony", "cellar"];
    match i % 7 {
        0 => (Kind::Should, term("path", places[i / 7 % 7])),
        1 => (Kind::MustNot, term("ext", &format!("bak{i}"))),
        _ => (Kind::Should, term("name", &format!("file{}", 37 * i))),
    }
}

/// What costs most: as many terms as a query holds, and phrases that are nearly found at every entry of one long record.
fn worst(catalogue: &[u8]) -> Vec<(&'static str, Vec<u8>, Vec<u8>)> {
    let letter = |n: usize| (n % 128) as u8;
    let terms = (0..4367).map(|i| (Kind::Should, Query::Term(b"f".into(), vec![letter(i / 128), letter(i)]))).collect();
    let words = |ps: &[u32]| Query::Phrase(b"f".into(), ps.iter().map(|p| (*p, b"ab".to_vec())).collect());
    let even = list_bytes(&[(0..3447).map(|p| Entry::Text(b"f".into(), 2 * p, b"ab".into())).collect::<Record>()]);
    let colliding: Vec<Record> = (0..230).map(|i| (0..10).map(|k| Entry::Text(b"name".into(), k, format!("f{}{k}same", 100 + i).into_bytes())).collect()).collect();
    let collisions = (0..70).map(|i| (Kind::Should, Query::Term(b"name".into(), format!("f{}0same", 500 + i).into_bytes()))).collect();
    vec![
        ("4,367 terms", query_bytes(&Query::Boolean(0, terms)), catalogue.to_vec()),
        ("a phrase in one record", query_bytes(&words(&[0, 2, 4, 6, 8, 9])), even),
        ("seventy terms that collide", query_bytes(&Query::Boolean(0, collisions)), list_bytes(&colliding)),
    ]
}

/// The least time of one call, in nanoseconds, over many rounds.
fn time(mut call: impl FnMut() -> usize, want: usize) -> f64 {
    let (mut least, begin) = (f64::MAX, Instant::now());
    for round in 0..200 {
        let start = Instant::now();
        assert!(black_box(call()) == want);
        least = least.min(start.elapsed().as_nanos() as f64);
        if round >= 4 && begin.elapsed().as_millis() > 500 {
            break;
        }
    }
    least
}

/// The stack that one call takes: a thread's stack is painted below here, and what the call left of the paint is looked for from below.
#[inline(never)]
fn painted(call: &mut dyn FnMut() -> usize) -> usize {
    const DEPTH: usize = 128 * 1024;
    #[inline(never)]
    fn paint() -> usize {
        let mut area = [0u8; DEPTH];
        for b in area.iter_mut() {
            unsafe { std::ptr::write_volatile(b, 0xa5) };
        }
        area.as_ptr() as usize
    }
    let low = paint();
    black_box(call());
    let mut clean = 0;
    while clean < DEPTH && unsafe { std::ptr::read_volatile((low + clean) as *const u8) } == 0xa5 {
        clean += 1;
    }
    DEPTH - clean
}

/// Both calls and the trees in turn, so that all meet the same machine; how many times as fast the call in bytes is.
fn row(name: &str, query: &[u8], list: &[u8], turns: usize) -> (f64, f64) {
    let want = trees(query, list);
    let mut rows = vec![0; list.len()];
    let mut numbers = vec![0; list.len() / 3];
    let (mut a, mut b, mut c) = (f64::MAX, f64::MAX, f64::MAX);
    for _ in 0..turns {
        a = a.min(time(|| ours(query, black_box(list), &mut rows), want));
        b = b.min(time(|| trees(query, black_box(list)), want));
        c = c.min(time(|| ours_rows(query, black_box(list), &mut numbers), want));
    }
    println!("{name:30} {want:4} chosen: bytes {:8.1} us, numbers {:8.1} us, trees {:8.1} us, {:.1} times as fast", a / 1e3, c / 1e3, b / 1e3, b / a);
    (a, b)
}

fn main() {
    let records = catalogue();
    let list = list_bytes(&records);
    println!("a list of {} bytes: {} records, {} entries", list.len(), records.len(), records.iter().map(Vec::len).sum::<usize>());
    let (mut ours_all, mut trees_all) = (0.0, 0.0);
    for (name, q) in selectors() {
        let (a, b) = row(name, &query_bytes(&q), &list, 3);
        ours_all += a;
        trees_all += b;
    }
    println!("the mean: {:.1} times as fast", trees_all / ours_all);
    for (name, query, list) in worst(&list) {
        row(name, &query, &list, 1);
    }
    let mut rows = vec![0; 4 * records.len()];
    let mut deep = Query::Phrase(b"path".into(), vec![(0, b"show".to_vec()), (1, b"cue".to_vec())]);
    for _ in 1..192 {
        deep = Query::Boolean(0, vec![(Kind::Must, deep), (Kind::MustNot, Query::MatchNone)]);
    }
    for (name, q) in [("one term", query_bytes(&Query::MatchAll)), ("192 Booleans", query_bytes(&deep))] {
        let stack = painted(&mut || ours(&q, &list, &mut rows));
        println!("stack of a selection, {name}: {stack} bytes");
    }
}
