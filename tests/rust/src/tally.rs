//! What the comparing programs share: arguments, a count of answers by refusal, and how a difference is
//! told. The first difference ends the program.

use plain::random::Random;
use std::collections::BTreeMap;
use std::fmt::{Debug, Write};
use std::time::Instant;

/// The count and the seed: two numbers.
#[must_use]
pub fn arguments() -> (u64, u64) {
    let numbers: Vec<u64> = std::env::args()
        .skip(1)
        .filter_map(|a| a.parse().ok())
        .collect();
    match numbers[..] {
        [count, seed] => (count, seed),
        _ => {
            eprintln!("two numbers are wanted: how many cases, and the seed");
            std::process::exit(2);
        }
    }
}

/// The generator of one case: a case does not depend on those before it.
#[must_use]
pub fn generator(seed: u64, case: u64) -> Random {
    Random::new(Random::new(seed ^ case.wrapping_mul(0xD6E8_FEB8_6659_FD93)).bits())
}

#[must_use]
pub fn hex(bytes: &[u8]) -> String {
    bytes.iter().fold(String::new(), |mut out, b| {
        write!(out, "{b:02x}").expect("a string");
        out
    })
}

/// Ends the program unless the archive's answer is the expected one.
pub fn hold<T: PartialEq + Debug>(what: &str, archive: &T, expected: &T, inputs: &[(&str, &[u8])]) {
    if archive == expected {
        return;
    }
    println!("{what} DIFFERS");
    for (name, bytes) in inputs {
        println!("  {name}: {} ({} bytes)", hex(bytes), bytes.len());
    }
    println!("  expected: {expected:?}");
    println!("  archive:  {archive:?}");
    std::process::exit(1);
}

/// How many answers there were, by refusal.
pub struct Tally {
    what: &'static str,
    start: Instant,
    refusals: BTreeMap<u32, u64>,
}

impl Tally {
    #[must_use]
    pub fn new(what: &'static str) -> Self {
        let start = Instant::now();
        Self {
            what,
            start,
            refusals: BTreeMap::new(),
        }
    }

    pub fn count<T>(&mut self, answer: &Result<T, u32>) {
        let refusal = answer.as_ref().err().copied().unwrap_or(0);
        *self.refusals.entry(refusal).or_insert(0) += 1;
    }

    pub fn print(&self) {
        let all: u64 = self.refusals.values().sum();
        let seconds = self.start.elapsed().as_secs_f64();
        println!("{}: {all} cases alike, {seconds:.1} s", self.what);
        let each = self.refusals.iter().map(|(number, count)| match number {
            0 => format!("{count} answered"),
            number => format!("{number}: {count}"),
        });
        println!("  {}", each.collect::<Vec<_>>().join(", "));
    }
}
