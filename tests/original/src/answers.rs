//! The original's answers in document 01's terms: refusal numbers, stored bytes, rounds, bits.

use crate::analysis::{
    Analyzer, KeywordAnalyzer, PerFieldAnalyzer, SimpleAnalyzer, StandardAnalyzer,
    WhitespaceAnalyzer,
};
use crate::error::Error;
use crate::queryparser::{Operator, QueryParser};
use crate::search::Query;
use crate::search::query::{one_round, rewrite_counted};
use crate::shape::{has_nan, some};
use crate::stored::{boost_bits, decode, encode};

/// A setup as the parsing call takes it: operator (0 Or, 1 And), default analyzer (1 whitespace,
/// 2 simple, 3 keyword, 4 words, 5 words in English), default field, and the entries for fields: analyzer, length of name, name.
#[derive(Clone, Debug, PartialEq, Eq)]
pub struct Setup {
    pub operator: u8,
    pub analyzer: u8,
    pub field: Vec<u8>,
    pub fields: Vec<u8>,
}

impl Setup {
    #[must_use]
    pub fn new(operator: u8, analyzer: u8, field: &[u8]) -> Self {
        Self {
            operator,
            analyzer,
            field: field.to_vec(),
            fields: Vec::new(),
        }
    }

    /// With one more entry.
    #[must_use]
    pub fn entry(mut self, analyzer: u8, name: &[u8]) -> Self {
        self.fields.push(analyzer);
        self.fields
            .push(u8::try_from(name.len()).expect("a name's length in one byte"));
        self.fields.extend(name);
        self
    }

    /// The entries, analyzer and name; none where the last one breaks off.
    #[must_use]
    pub fn entries(&self) -> Option<Vec<(u8, &[u8])>> {
        let mut rest = &self.fields[..];
        let mut entries = Vec::new();
        while let [analyzer, length, names @ ..] = rest {
            let (name, after) = names.split_at_checked(usize::from(*length))?;
            entries.push((*analyzer, name));
            rest = after;
        }
        rest.is_empty().then_some(entries)
    }

    /// The original's parser under this setup. Panics on a setup that document 01 refuses.
    #[must_use]
    pub fn parser(&self) -> QueryParser {
        let operator = match self.operator {
            0 => Operator::Or,
            1 => Operator::And,
            n => panic!("operator {n}"),
        };
        let mut per_field = PerFieldAnalyzer::new(analyzer(self.analyzer));
        for (number, name) in self.entries().expect("whole entries") {
            per_field = per_field.field(ascii(name), analyzer(number));
        }
        QueryParser::new(ascii(&self.field), per_field).default_operator(operator)
    }
}

/// The original's analyzer of a number. Panics where there is none.
#[must_use]
pub fn analyzer(number: u8) -> Box<dyn Analyzer> {
    match number {
        1 => Box::new(WhitespaceAnalyzer),
        2 => Box::new(SimpleAnalyzer),
        3 => Box::new(KeywordAnalyzer),
        4 => Box::new(StandardAnalyzer::new()),
        5 => Box::new(StandardAnalyzer::english()),
        n => panic!("analyzer {n}"),
    }
}

/// The text of ASCII bytes.
#[must_use]
pub fn ascii(bytes: &[u8]) -> &str {
    assert!(bytes.is_ascii(), "bytes below 0x80");
    std::str::from_utf8(bytes).expect("ASCII")
}

/// The stored bytes of the parsed text, or the refusal number.
///
/// # Errors
/// Refusals 4 to 14, as the original refuses the text.
pub fn parse(setup: &Setup, text: &[u8]) -> Result<Vec<u8>, u32> {
    parse_with(&setup.parser(), text)
}

/// As `parse`, with a parser made before.
///
/// # Errors
/// As `parse`.
pub fn parse_with(parser: &QueryParser, text: &[u8]) -> Result<Vec<u8>, u32> {
    match parser.parse(ascii(text)) {
        Ok(q) => Ok(encode(&q)),
        Err(Error::QueryParse(message)) => Err(refusal(&message)),
        Err(e) => panic!("no message of the parser: {e:?}"),
    }
}

/// The refusal number of a message. Panics on a message that the parser does not have.
#[must_use]
pub fn refusal(message: &str) -> u32 {
    match message {
        "unterminated quoted phrase" => 4,
        "dangling escape" => 5,
        "range queries are not supported" => 6,
        "wildcard queries are not supported" => 7,
        "fuzzy queries are not supported" => 8,
        "sloppy phrase queries are not supported" => 9,
        "unexpected end of query" => 10,
        "missing closing parenthesis" => 12,
        "expected a number after ^" => 14,
        _ if message.strip_prefix("unexpected ").is_some_and(is_token) => 11,
        _ if message.starts_with("bad boost ") => 13,
        _ => panic!("unknown message: {message}"),
    }
}

/// Whether this is how the original prints a token.
fn is_token(printed: &str) -> bool {
    const PLAIN: [&str; 10] = [
        "Colon", "Plus", "Minus", "Not", "And", "Or", "LParen", "RParen", "Caret", "Tilde",
    ];
    let texts = ["Term(\"", "Quoted(\""];
    PLAIN.contains(&printed)
        || (texts.iter().any(|t| printed.starts_with(t)) && printed.ends_with("\")"))
}

/// A rewritten query: its stored bytes, the rounds, and whether a boost was NaN in any round, at the
/// start and inside a round included; such a case lies outside the comparison.
#[derive(Clone, Debug, PartialEq, Eq)]
pub struct Rewritten {
    pub stored: Vec<u8>,
    pub rounds: u32,
    pub nan: bool,
}

/// The rewriting of a stored query. Panics where the bytes are malformed.
#[must_use]
pub fn rewrite(stored: &[u8]) -> Rewritten {
    let q = decode(stored).expect("a stored query");
    let mut nan = has_nan(&q);
    let (result, rounds) = rewrite_counted(&q, |q| nan |= makes_nan(q));
    assert!(nan || result == q.rewrite(), "the rounds of `rewrite`");
    Rewritten {
        stored: encode(&result),
        rounds,
        nan,
    }
}

/// Whether a round makes a NaN boost, in the result or in an inner result that it then leaves out.
fn makes_nan(q: &Query) -> bool {
    some(q, &|q| has_nan(&one_round(q)))
}

/// The bits of a boost numeral, or 13.
///
/// # Errors
/// Refusal 13, where it is no numeral.
pub fn numeral(text: &str) -> Result<u32, u32> {
    text.parse::<f32>().map(boost_bits).map_err(|_| 13)
}
