//! Holds the archive's two calls to the expected answers: the refusal or the count, every byte of the rows, and a cleared room.

mod cases;
mod tree;
mod truth;

use cases::{Random, damaged, query, records, wide_query, wide_records};
use tree::{Entry, Kind, Query, Record, list_bytes, query_bytes, read_list, read_query};
use truth::{Shifts, chosen};

unsafe extern "C" {
    fn probe_select_bytes(q: *const u8, qn: usize, l: *const u8, ln: usize, rows: *mut u8, rn: usize, room: *mut u8, mn: usize) -> u64;
    fn probe_select_rows(q: *const u8, qn: usize, l: *const u8, ln: usize, rows: *mut u32, rn: usize) -> u64;
}

// both safe: each pointer and length are of one slice that lives until the call returns
fn select_bytes(q: &[u8], l: &[u8], rows: &mut [u8], room: &mut [u8]) -> u64 {
    unsafe { probe_select_bytes(q.as_ptr(), q.len(), l.as_ptr(), l.len(), rows.as_mut_ptr(), rows.len(), room.as_mut_ptr(), room.len()) }
}

fn select_rows(q: &[u8], l: &[u8], rows: &mut [u32]) -> u64 {
    unsafe { probe_select_rows(q.as_ptr(), q.len(), l.as_ptr(), l.len(), rows.as_mut_ptr(), rows.len()) }
}

/// The numbers, or the refusal: 19, 20, 21, 22, 23, and 18 after all others.
fn expected(q: &[u8], l: &[u8], room_for: usize) -> Result<Vec<u32>, u8> {
    let query = read_query(q)?;
    let list = read_list(l)?;
    let numbers = chosen(&query, &list, Shifts::Any);
    if numbers.len() > room_for { Err(18) } else { Ok(numbers) }
}

fn packed(e: &Result<Vec<u32>, u8>) -> u64 {
    match e {
        Ok(ns) => ns.len() as u64,
        Err(r) => (*r as u64) << 32,
    }
}

#[derive(Default)]
struct Run {
    cases: usize,
    wrong: usize,
    by_refusal: [usize; 24],
    records: usize,
    /// cases that a phrase's start of 0 or more, and a selector that writes nothing, would get wrong
    starts: usize,
    silent: usize,
    /// long queries that are sound, over lists with a record in which two texts of one length end alike
    alike: usize,
}

/// Whether two entries have different texts of one length, or different fields, and the same last four bytes and first byte of the field.
fn ends_alike(record: &Record) -> bool {
    let key = |f: &[u8], t: &[u8]| (f.len(), f.first().copied(), t.len(), t[t.len().saturating_sub(4)..].to_vec());
    let texts: Vec<(&Vec<u8>, &Vec<u8>)> = record.iter().filter_map(|e| if let Entry::Text(f, _, t) = e { Some((f, t)) } else { None }).collect();
    texts.iter().enumerate().any(|(i, (f, t))| texts[..i].iter().any(|(g, u)| (f, t) != (g, u) && key(f, t) == key(g, u)))
}

impl Run {
    fn case(&mut self, q: &[u8], l: &[u8], rows: usize, extra: usize) {
        self.cases += 1;
        let want = expected(q, l, rows);
        self.by_refusal[*want.as_ref().err().unwrap_or(&0) as usize] += 1;
        let mut numbers = vec![0xabab_abab; rows];
        let before = numbers.clone();
        let answer = select_rows(q, l, &mut numbers);
        let mut after = before;
        if let Ok(ns) = &want {
            after[..ns.len()].copy_from_slice(ns);
        }
        // bytes: up to three more than whole numbers, which stay as they are
        let mut bytes = vec![0xcd; rows * 4 + extra];
        let mut room = vec![0xee; extra * 5];
        let answer_bytes = select_bytes(q, l, &mut bytes, &mut room);
        let mut bytes_after = vec![0xcd; rows * 4 + extra];
        if let Ok(ns) = &want {
            for (i, n) in ns.iter().enumerate() {
                bytes_after[4 * i..4 * i + 4].copy_from_slice(&n.to_be_bytes());
            }
        }
        let good = answer == packed(&want) && numbers == after && answer_bytes == packed(&want) && bytes == bytes_after && room.iter().all(|b| *b == 0);
        if !good {
            self.wrong += 1;
            if self.wrong <= 3 {
                println!("differs: query {} list {} rows {rows}: expected {want:?}, got {answer:x} {numbers:?}, {answer_bytes:x} {bytes:?}", hex(q), hex(l));
            }
        }
        if let (Ok(ns), Ok(query), Ok(list)) = (&want, read_query(q), read_list(l)) {
            self.records += list.len();
            self.starts += usize::from(chosen(&query, &list, Shifts::StartAtZero) != *ns);
            self.silent += usize::from(!ns.is_empty());
            self.alike += usize::from(q.len() >= 256 && list.iter().any(ends_alike));
        }
    }

    fn random(&mut self, r: &mut Random, n: usize) {
        for i in 0..n {
            let deep = r.below(5);
            let wide = i % 8 == 0;
            let mut q = query_bytes(&if wide { wide_query(r) } else { query(r, deep) });
            let rs = if wide { wide_records(r, 12) } else { records(r, 6) };
            let mut l = list_bytes(&rs);
            if r.one_in(6) {
                q = damaged(r, &q);
            }
            if r.one_in(6) {
                l = damaged(r, &l);
            }
            let rows = if r.one_in(3) { r.below(rs.len() + 1) } else { rs.len() + r.below(2) };
            self.case(&q, &l, rows, r.below(4));
        }
    }

    /// Both sides of each limit.
    fn limits(&mut self) {
        let a = Query::Term(b"f".to_vec(), b"a".to_vec());
        let yes: Record = vec![Entry::Text(b"f".to_vec(), 0, b"a".to_vec())];
        let list = list_bytes(&[vec![], yes.clone(), yes.clone()]);
        for n in [1, 64, 191, 192, 193] {
            for way in 0..3 {
                let mut q = a.clone();
                for _ in 1..n {
                    q = match way {
                        0 => Query::Boolean(0, vec![(Kind::Must, q)]),
                        1 => Query::Boolean(1, vec![(Kind::Should, q), (Kind::MustNot, Query::MatchNone)]),
                        _ => Query::Boost(0x4000_0000, Box::new(q)),
                    };
                }
                self.case(&query_bytes(&q), &list, 3, 1);
            }
        }
        // a term of 65,535 bytes and one more in a slice that is longer than its query
        let long = query_bytes(&Query::Term(b"f".to_vec(), vec![b'a'; 65_535 - 10]));
        assert!(long.len() == 65_535);
        self.case(&long, &list, 3, 0);
        self.case(&[&long[..], &[0]].concat(), &list, 3, 0);
        // lists of 65,534 to 65,538 bytes: many records, then one that makes up the length
        for n in 65_534..65_539 {
            let many = vec![yes.clone(); (n - 2000) / 18];
            let mut l = list_bytes(&many);
            l.extend(list_bytes(&[vec![Entry::Text(b"f".to_vec(), 1, vec![b'b'; n - l.len() - 17])]]));
            assert!(l.len() == n);
            self.case(&query_bytes(&a), &l, many.len(), 0);
            self.case(&query_bytes(&a), &l, many.len() - 1, 3);
            self.case(&query_bytes(&a), &l, many.len() + 5, 2);
        }
        self.case(&query_bytes(&Query::MatchAll), &vec![0x40, 0, 0].repeat(21_845), 21_845, 1);
        self.case(&query_bytes(&Query::MatchAll), &vec![0x40, 0, 0].repeat(21_845), 21_844, 0);
        self.case(&[], &[], 0, 0);
        self.case(&query_bytes(&Query::MatchAll), &[], 0, 0);
    }

    /// A long query over a long list whose texts all have one length and one end.
    fn colliding(&mut self) {
        let text = |n: usize| format!("{n:04}same").into_bytes();
        let list: Vec<Record> = (0..200).map(|i| (0..12).map(|k| Entry::Text(b"f".to_vec(), k, text(12 * i + k as usize))).collect()).collect();
        for from in [0, 1000, 2390, 5000] {
            let clause = |i: usize| (if i % 5 == 4 { Kind::MustNot } else { Kind::Should }, Query::Term(b"f".to_vec(), text(from + 7 * i)));
            self.case(&query_bytes(&Query::Boolean(0, (0..70).map(clause).collect())), &list_bytes(&list), list.len(), 1);
        }
    }

    /// Answers written by hand.
    fn by_hand(&mut self) {
        let text = |p, t: &str| Entry::Text(b"f".to_vec(), p, t.as_bytes().to_vec());
        let phrase = |ws: &[(u32, &str)]| Query::Phrase(b"f".to_vec(), ws.iter().map(|(p, t)| (*p, t.as_bytes().to_vec())).collect());
        let list = [vec![], vec![text(0, "red")], vec![text(2, "red"), text(4, "fox")]];
        let hand = |q: &Query, want: &[u32]| {
            let got = expected(&query_bytes(q), &list_bytes(&list), 3);
            assert!(got == Ok(want.to_vec()), "{q:?}: {got:?}");
        };
        hand(&phrase(&[(3, "red")]), &[1, 2]);
        hand(&phrase(&[(3, "red"), (5, "fox")]), &[2]);
        hand(&phrase(&[(3, "red"), (4, "fox")]), &[]);
        hand(&phrase(&[]), &[]);
        hand(&Query::Boolean(2, vec![(Kind::Should, phrase(&[(0, "red")])), (Kind::Should, phrase(&[(9, "red")]))]), &[1, 2]);
        hand(&Query::Boolean(0, vec![(Kind::MustNot, phrase(&[(0, "fox")]))]), &[]);
        hand(&Query::Boolean(0, vec![(Kind::Filter, Query::MatchAll), (Kind::MustNot, phrase(&[(0, "fox")]))]), &[0, 1]);
        for q in [phrase(&[(3, "red")]), phrase(&[(3, "red"), (5, "fox")]), Query::MatchAll] {
            self.case(&query_bytes(&q), &list_bytes(&list), 3, 3);
        }
    }
}

fn hex(s: &[u8]) -> String {
    s.iter().take(200).map(|b| format!("{b:02x}")).collect()
}

fn main() {
    let words: Vec<String> = std::env::args().collect();
    let number = |i: usize, or: u64| words.get(i).map_or(or, |w| w.parse().expect("a number"));
    let mut run = Run::default();
    run.by_hand();
    run.limits();
    run.colliding();
    run.random(&mut Random(number(2, 7)), number(1, 300_000) as usize);
    println!("{} pairs, {} records matched; refusals 18: {}, 19: {}, 20: {}, 21: {}, 22: {}, 23: {}", run.cases, run.records,
        run.by_refusal[18], run.by_refusal[19], run.by_refusal[20], run.by_refusal[21], run.by_refusal[22], run.by_refusal[23]);
    println!("a phrase's start of 0 or more would differ on {}, a selector that writes nothing on {}; long queries over texts that end alike: {}", run.starts,
        run.silent, run.alike);
    assert!(run.starts > 0 && run.silent > 0 && run.alike > 0 && (18..24).all(|r| run.by_refusal[r] > 0), "the cases miss something");
    if run.wrong > 0 {
        println!("{} pairs differ", run.wrong);
        std::process::exit(1);
    }
}
