//! The lists: one case a line, its fields parted by one space, bytes as lower-case hex, `-` for no
//! bytes. Lines that begin with `#` say what the columns are and how the list was made.

use original::answers::{Rewritten, Setup, numeral, parse, rewrite};
use original::limits::{parse_is_compared, rewrite_is_compared};
use original::search::Query;
use original::shape::{depth, has_duplicates, weight};
use original::stored::{decode, encode};
use std::collections::BTreeSet;
use std::fmt::Write;
use std::path::Path;

/// Lines for the heads of lists.
pub const PARSING: &str = "Columns: operator analyzer field fields text refusal stored; refusal is 0 \
                           for none, stored is `-` when refused.";
pub const ENTRIES: &str =
    "fields: for each entry one byte analyzer, one byte length of name, the name.";
pub const BYTES: &str = "Bytes are lower-case hex, `-` for no bytes.";

pub struct List {
    name: &'static str,
    head: Vec<String>,
    lines: Vec<String>,
    seen: BTreeSet<String>,
}

impl List {
    /// A list with the lines that head it.
    pub fn new(name: &'static str, head: &[&str]) -> Self {
        Self {
            name,
            head: head.iter().map(ToString::to_string).collect(),
            lines: Vec::new(),
            seen: BTreeSet::new(),
        }
    }

    pub fn len(&self) -> usize {
        self.lines.len()
    }

    /// A line that is there already is not written twice.
    fn add(&mut self, line: String) {
        if self.seen.insert(line.clone()) {
            self.lines.push(line);
        }
    }

    pub fn write(&self, folder: &Path) {
        let head = self.head.iter().map(|h| format!("# {h}\n"));
        let lines = self.lines.iter().map(|l| format!("{l}\n"));
        let text: String = head.chain(lines).collect();
        std::fs::write(folder.join(self.name), text).expect("a list written");
    }

    /// Parsing: operator analyzer field fields text refusal stored.
    pub fn parsing(&mut self, setup: &Setup, text: &[u8], answer: &Result<Vec<u8>, u32>) {
        let (refusal, stored) = match answer {
            Ok(stored) => (0, hex(stored)),
            Err(refusal) => (*refusal, hex(&[])),
        };
        let Setup {
            operator, analyzer, ..
        } = setup;
        let (field, fields) = (hex(&setup.field), hex(&setup.fields));
        let text = hex(text);
        self.add(format!(
            "{operator} {analyzer} {field} {fields} {text} {refusal} {stored}"
        ));
    }

    /// The original's parsing of a text that lies inside the comparison.
    pub fn parsed(&mut self, setup: &Setup, text: &[u8]) {
        assert!(parse_is_compared(setup, text), "outside: {text:?}");
        let answer = parse(setup, text);
        if let Ok(stored) = &answer {
            stands_for_itself(stored);
            assert!(rewrite_is_compared(stored), "too long or deep: {text:?}");
        }
        self.parsing(setup, text, &answer);
    }

    /// The original's rewriting of a query: query rounds rewritten. Left out where a boost is NaN in
    /// any round.
    pub fn rewritten(&mut self, q: &Query) {
        let query = encode(q);
        assert!(rewrite_is_compared(&query), "outside: {q:?}");
        let answer = rewrite(&query);
        if !answer.nan {
            assert_eq!(decode(&query).as_ref(), Some(q), "written and read");
            holds_promises(q, &answer);
            let (rounds, rewritten) = (answer.rounds, hex(&answer.stored));
            self.add(format!("{} {rounds} {rewritten}", hex(&query)));
        }
    }

    /// The original's reading of a numeral: text refusal bits.
    pub fn numeral(&mut self, text: &str) {
        assert!(text.len() <= 40 && text.is_ascii(), "outside: {text}");
        let (refusal, bits) = match numeral(text) {
            Ok(bits) => (0, format!("{bits:08x}")),
            Err(refusal) => (refusal, "-".to_string()),
        };
        self.add(format!("{} {refusal} {bits}", hex(text.as_bytes())));
    }

    /// The tokens of a text: analyzer text, and for each token position start text.
    pub fn tokens(&mut self, analyzer: u8, text: &[u8], tokens: &[(u32, usize, String)]) {
        let mut line = format!("{analyzer} {}", hex(text));
        for (position, start, token) in tokens {
            let token = hex(token.as_bytes());
            write!(line, " {position} {start} {token}").expect("a string takes all");
        }
        self.add(line);
    }
}

/// Lower-case hex, `-` for no bytes.
pub fn hex(bytes: &[u8]) -> String {
    let mut out = String::new();
    for b in bytes {
        write!(out, "{b:02x}").expect("a string takes all");
    }
    if out.is_empty() { "-".into() } else { out }
}

/// Stored bytes read and written again are the same bytes.
pub fn stands_for_itself(stored: &[u8]) {
    let q = decode(stored).expect("a stored query");
    assert_eq!(encode(&q), stored, "read and written");
}

/// What document 01 says of every rewriting, and what bounds its rounds.
pub fn holds_promises(q: &Query, answer: &Rewritten) {
    stands_for_itself(&answer.stored);
    let result = decode(&answer.stored).expect("a stored query");
    assert!(answer.stored.len() <= 65_535 && depth(&result) <= 192);
    assert!(!has_duplicates(&result), "duplicates in {result:?}");
    let rounds = usize::try_from(answer.rounds).expect("rounds");
    assert!(rounds <= weight(q), "more rounds than weight: {q:?}");
}
