//! What the benchmark runs on: typical selectors, the texts and stored queries that cost most, and a
//! catalogue list of 64 KiB.

use original::answers::Setup;
use plain::lists::{self, Entry, MOST, Record};
use plain::queries::{Kind, Numbers, Query, REWRITER, SELECTION, stored};

/// As a scheduler for files has it: words of the path, and whole names, endings and kinds.
pub fn setup() -> Setup {
    Setup::new(0, 2, b"path")
        .entry(3, b"name")
        .entry(3, b"ext")
        .entry(3, b"kind")
}

pub fn typical() -> Vec<(String, String)> {
    let selectors = [
        "kind:settings -kind:cache",
        "timings",
        "+kind:shows +ext:csv -name:old.csv",
        "(kind:settings OR kind:shows) AND NOT ext:bak",
        "\"evening show\"^2 settings^0.5 +kind:shows",
        "kind:media kind:media settings settings -ext:tmp",
    ];
    selectors.map(|s| (s.to_string(), s.to_string())).to_vec()
}

/// Long ones, as they are put together from lists: several brackets, fourteen names and endings, sixty names.
pub fn long() -> Vec<(String, String)> {
    let brackets = "((kind:settings OR kind:shows) AND (ext:csv OR ext:json)) OR (\"evening show\" AND NOT kind:cache)";
    let names = |letters: &str| letters.chars().map(|c| format!("name:{c}.csv ")).collect::<String>();
    let fourteen = format!("{}-ext:tmp -ext:bak", names("abcdefghijkl"));
    let sixty = (10..70).map(|i| format!("name:file{i}.csv ")).collect();
    vec![
        ("three brackets in brackets".to_string(), brackets.to_string()),
        ("12 names, without 2 endings".to_string(), fourteen),
        ("60 names".to_string(), sixty),
    ]
}

/// The typical ones, and the worst of 1,024 bytes.
pub fn texts() -> Vec<(String, String)> {
    let mut texts = typical();
    let full = |piece: &str| piece.repeat(1_024 / piece.len());
    let boost = format!("a^{} ", "1234567890".repeat(4));
    let nested = format!("{}{}{}", "f:(".repeat(24), "a ".repeat(464), ")".repeat(24));
    let worst = [
        ("512 words of one letter", full("a ")),
        ("1,024 letters", full("a")),
        ("numerals of 40 bytes", full(&boost)),
        ("24 brackets around words", nested),
        ("escapes", full(r"\a\ ")),
    ];
    texts.extend(worst.map(|(name, text)| (name.to_string(), text)));
    texts
}

fn term(text: &[u8]) -> Query {
    Query::Term(b"f".to_vec(), text.to_vec())
}

/// Should clauses that all differ: each is compared with all before it.
fn different(count: usize) -> Vec<(Kind, Query)> {
    let letter = |n: usize| u8::try_from(n % 128).expect("ASCII");
    let clause = |i: usize| (Kind::Should, term(&[letter(i / 128), letter(i)]));
    (0..count).map(clause).collect()
}

/// One level is merged a round: the clause beside is equal to what is inside only when that is done.
fn many_rounds(levels: usize) -> Query {
    let mut query = term(b"a");
    for _ in 0..levels {
        query = Query::Boolean(0, vec![(Kind::Should, query), (Kind::Should, term(b"a"))]);
    }
    query
}

pub fn worst_queries() -> Vec<(String, Vec<u8>)> {
    let wide = Query::Boolean(0, different(2_100));
    let deep = many_rounds(REWRITER.1 - 1);
    let mut both = different(2_000);
    both.push((Kind::Must, many_rounds(REWRITER.1 - 2)));
    let queries = [
        ("2,100 clauses that differ", wide),
        ("depth 64, a merge a level", deep),
        ("both at once", Query::Boolean(0, both)),
        (
            "one term of 32,768 bytes",
            term(&vec![b'a'; REWRITER.0 - 10]),
        ),
    ];
    queries
        .map(|(name, query)| (name.to_string(), stored(&query)))
        .to_vec()
}

/// Under a minimum above 1, clauses of which none repeats: both rewritings keep all.
pub fn larger_minimums() -> Vec<(String, Vec<u8>)> {
    let of = |count| stored(&Query::Boolean(2, different(count)));
    vec![
        ("minimum 2, five terms".to_string(), of(5)),
        ("minimum 2, 2,100 clauses that differ".to_string(), of(2_100)),
    ]
}

fn place(field: &[u8], position: u32, text: &[u8]) -> Entry {
    Entry::Place(field.to_vec(), position, text.to_vec())
}

/// A file as the command catalogues it.
fn file(number: usize) -> Record {
    let kind = ["settings", "shows", "media", "cache"][number % 4].as_bytes();
    let word = ["evening", "show", "timings", "lamp", "stage"][number % 5].as_bytes();
    let ext = ["db", "csv", "mp4", "tmp"][number / 3 % 4].as_bytes();
    let name = [word, b"-", number.to_string().as_bytes(), b".", ext].concat();
    let value = |field: &[u8], n: usize| {
        Entry::Value(
            Numbers::Whole,
            field.to_vec(),
            u64::try_from(n).expect("64 bits"),
        )
    };
    vec![
        place(b"path", 0, kind),
        place(b"path", 1, word),
        place(b"path", 2, b"show"),
        place(b"path", 3, ext),
        place(b"name", 0, &name),
        place(b"ext", 0, ext),
        place(b"kind", 0, kind),
        value(b"size", 1_000 * number),
        value(b"day", 20_000 + number),
    ]
}

/// As many files as 64 KiB hold.
pub fn catalogue() -> Vec<u8> {
    let mut list = Vec::new();
    for number in 0.. {
        let record = lists::stored(&file(number));
        if list.len() + record.len() > MOST {
            break;
        }
        list.extend(record);
    }
    list
}

/// A query of 65,535 bytes over the catalogue, and a phrase in one record of 64 KiB where it nearly
/// stands everywhere.
pub fn worst_selections() -> Vec<(String, Vec<u8>, Vec<u8>)> {
    let wide = stored(&Query::Boolean(0, different(SELECTION.0 / 15 - 2)));
    let positions = 0..u32::try_from(MOST / 19 - 2).expect("few");
    let record: Record = positions.map(|p| place(b"f", 2 * p, b"ab")).collect();
    let words = [0, 2, 4, 6, 8, 9].map(|p| (p, b"ab".to_vec())).to_vec();
    let phrase = stored(&Query::Phrase(b"f".to_vec(), words));
    vec![
        ("4,367 terms".to_string(), wide, catalogue()),
        (
            "a phrase in one record of 64 KiB".to_string(),
            phrase,
            lists::stored(&record),
        ),
    ]
}
