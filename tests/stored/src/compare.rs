//! Holds the archive's checks to the expected answers on every case, and a few answers to numbers written by hand.

mod cases;
mod expected;
mod tree;

use cases::{Random, list_of_length, nested, of_length, some_lists, some_queries};

unsafe extern "C" {
    fn probe_for_rewriting(s: *const u8, n: usize) -> u8;
    fn probe_for_selection(s: *const u8, n: usize) -> u8;
    fn probe_list(s: *const u8, n: usize) -> u8;
    fn probe_weight(s: *const u8, n: usize) -> usize;
    fn probe_largest(s: *const u8, n: usize) -> usize;
}

fn number<T>(read: &Result<T, u8>) -> u8 {
    *read.as_ref().err().unwrap_or(&0)
}

struct Run {
    cases: usize,
    wrong: usize,
}

impl Run {
    fn one(&mut self, what: &str, bytes: &[u8], said: usize, expected: usize) {
        self.cases += 1;
        if said != expected {
            self.wrong += 1;
            if self.wrong <= 10 {
                let shown: String = bytes.iter().take(80).map(|b| format!("{b:02x}")).collect();
                println!("{what}: {said}, expected {expected}, of {} bytes {shown}", bytes.len());
            }
        }
    }

    /// Both limits and both measures.
    fn query(&mut self, bytes: &[u8]) -> (u8, u8) {
        let (p, n) = (bytes.as_ptr(), bytes.len());
        let rewriting = number(&expected::query(bytes, 32_768, 64));
        let read = expected::query(bytes, 65_535, 192);
        let (weight, largest) = read.as_ref().map_or((0, 0), |q| (q.weight(), q.largest()));
        // safe: p and n are of one slice that lives until the calls return
        unsafe {
            self.one("rewriting", bytes, probe_for_rewriting(p, n).into(), rewriting.into());
            self.one("selection", bytes, probe_for_selection(p, n).into(), number(&read).into());
            self.one("weight", bytes, probe_weight(p, n), weight);
            self.one("largest", bytes, probe_largest(p, n), largest);
        }
        (rewriting, number(&read))
    }

    fn list(&mut self, bytes: &[u8]) -> u8 {
        let read = number(&expected::list(bytes));
        // safe: as above
        let said = unsafe { probe_list(bytes.as_ptr(), bytes.len()) };
        self.one("list", bytes, said.into(), read.into());
        read
    }

    /// Every prefix, every change of one byte, and random changes.
    fn around(&mut self, bytes: &[u8], random: &mut Random, ask: fn(&mut Run, &[u8])) {
        for n in 0..=bytes.len() {
            ask(self, &bytes[..n]);
        }
        let mut changed = bytes.to_vec();
        for at in 0..bytes.len() {
            for x in 0..=255 {
                changed[at] = x;
                ask(self, &changed);
            }
            changed[at] = bytes[at];
        }
        for _ in 0..5_000 {
            ask(self, &random.changed(bytes));
        }
    }
}

fn depths(run: &mut Run) {
    for n in [1, 2, 63, 64, 65, 191, 192, 193] {
        for way in 0..5 {
            let bytes = nested(n, way).bytes();
            let by_hand = (if n <= 64 { 0 } else { 21 }, if n <= 192 { 0 } else { 21 });
            assert!(run.query(&bytes) == by_hand, "depth {n}, way {way}");
            // a byte behind the query is met after what is too deep in it
            let behind = [bytes, vec![0]].concat();
            let by_hand = (if n <= 64 { 20 } else { 21 }, if n <= 192 { 20 } else { 21 });
            assert!(run.query(&behind) == by_hand, "depth {n}, way {way}, a byte behind it");
        }
    }
}

fn lengths(run: &mut Run) {
    for n in [32_767, 32_768, 32_769, 65_534, 65_535, 65_536] {
        for bytes in of_length(n) {
            let by_hand = (if n <= 32_768 { 0 } else { 19 }, if n <= 65_535 { 0 } else { 19 });
            assert!(bytes.len() == n && run.query(&bytes) == by_hand, "length {n}");
            for at in [0, 1, 2, 5, n / 2, n - 1] {
                let mut changed = bytes.clone();
                changed[at] ^= 0x80;
                run.query(&changed);
            }
        }
    }
    for n in [65_535, 65_536, 65_537] {
        let bytes = list_of_length(n);
        let by_hand = if n <= 65_536 { 0 } else { 22 };
        assert!(bytes.len() == n && run.list(&bytes) == by_hand, "list of length {n}");
        for at in [0, 3, 300, 303, n / 2, n - 1] {
            let mut changed = bytes.clone();
            changed[at] ^= 0x80;
            run.list(&changed);
        }
    }
}

fn main() {
    let mut run = Run { cases: 0, wrong: 0 };
    let mut random = Random::new(0x9e37_79b9_7f4a_7c15);
    for q in some_queries() {
        let bytes = q.bytes();
        assert!(run.query(&bytes) == (0, 0), "a sound query");
        run.around(&bytes, &mut random, |run, b| {
            run.query(b);
        });
    }
    for bytes in some_lists() {
        assert!(run.list(&bytes) == 0, "a sound list");
        run.around(&bytes, &mut random, |run, b| {
            run.list(b);
        });
    }
    depths(&mut run);
    lengths(&mut run);
    println!("{} answers, {} differ", run.cases, run.wrong);
    std::process::exit((run.wrong > 0).into());
}
