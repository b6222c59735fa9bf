//! What the original says of the calls that lines of standard input name, in the columns of tests/guide/ask.c. It is asked by its own
//! types: names and texts in UTF-8, any number of entries, any depth, and boosts with the bits that they have.
//!
//!     parse OPERATOR ANALYZER FIELD FIELDS TEXT  ->  the query, or `refusal` and its number
//!     rewrite QUERY                              ->  the query as rewritten

use original::analysis::{Analyzer, KeywordAnalyzer, PerFieldAnalyzer, SimpleAnalyzer, WhitespaceAnalyzer};
use original::answers::refusal;
use original::error::Error;
use original::queryparser::{Operator, QueryParser};
use original::search::{Occur, Query};
use original::stored::decode;

fn bytes(hex: &str) -> Vec<u8> {
    let digits = hex.trim_start_matches('-');
    (0..digits.len())
        .step_by(2)
        .map(|i| u8::from_str_radix(&digits[i..i + 2], 16).expect("two hex digits"))
        .collect()
}

fn text(hex: &str) -> String {
    String::from_utf8(bytes(hex)).expect("UTF-8")
}

fn analyzer(number: u8) -> Box<dyn Analyzer> {
    match number {
        1 => Box::new(WhitespaceAnalyzer),
        2 => Box::new(SimpleAnalyzer),
        3 => Box::new(KeywordAnalyzer),
        n => panic!("analyzer {n}"),
    }
}

/// A query in one line, a boost by its bits.
fn shown(q: &Query) -> String {
    match q {
        Query::Term(t) => format!("term {} {}", t.field, String::from_utf8_lossy(&t.bytes)),
        Query::Boolean(b) => {
            let clause = |(q, occur): &(Query, Occur)| format!(" ({occur:?} {})", shown(q));
            let clauses: String = b.clauses.iter().map(clause).collect();
            format!("boolean {}{clauses}", b.minimum_should_match)
        }
        Query::Boost(q, b) => format!("boost {:08X} ({})", b.to_bits(), shown(q)),
        Query::ConstantScore(q) => format!("constantscore ({})", shown(q)),
        Query::MatchAll => "matchall".to_string(),
        Query::MatchNone => "matchnone".to_string(),
        q => format!("{q:?}"),
    }
}

fn parse(columns: &[&str]) -> String {
    let operator = if columns[0] == "0" { Operator::Or } else { Operator::And };
    let mut analyzers = PerFieldAnalyzer::new(analyzer(columns[1].parse().expect("a number")));
    let entries = bytes(columns[3]);
    let mut rest = &entries[..];
    while let [number, length, names @ ..] = rest {
        let (name, after) = names.split_at(usize::from(*length));
        let name = std::str::from_utf8(name).expect("UTF-8");
        analyzers = analyzers.field(name, analyzer(*number));
        rest = after;
    }
    let parser = QueryParser::new(text(columns[2]), analyzers).default_operator(operator);
    match parser.parse(&text(columns[4])) {
        Ok(q) => shown(&q),
        Err(Error::QueryParse(message)) => format!("refusal {}", refusal(&message)),
        Err(e) => panic!("no message of the parser: {e:?}"),
    }
}

fn main() {
    for line in std::io::stdin().lines() {
        let line = line.expect("a line");
        let columns: Vec<&str> = line.split(' ').collect();
        let answer = match columns[0] {
            "parse" => parse(&columns[1..]),
            "rewrite" => shown(&decode(&bytes(columns[1])).expect("a stored query").rewrite()),
            _ => panic!("no such call"),
        };
        println!("{answer}");
    }
}
