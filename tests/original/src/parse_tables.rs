//! Texts for parsing written by hand, by what they show. Field `f`, Or, simple, unless said.

/// Document 01, 'Both sides of each line', and its sentence on `"a\`.
#[rustfmt::skip]
pub const DOCUMENT: &[&str] = &[
    "", "a", "-a", "wi-fi", "a AND b OR c", "a OR b AND c", "1 AND b", r"\AND", "a^-1", r"a^\-1",
    "a^1e+5", "a^2^3", "()^x", "a^16777217", "a^16777219", "a^1e39", r#""a\"#,
];
/// The same, for And.
#[rustfmt::skip]
pub const DOCUMENT_AND: &[&str] = &["a OR b", "a AND b OR c", "a OR b AND c", "wi-fi"];
/// The same, for the whitespace analyzer.
#[rustfmt::skip]
pub const DOCUMENT_WHITESPACE: &[&str] = &["wi-fi", "a&&b"];

/// Refusals 4 to 7, and which comes first; then texts that miss them narrowly.
#[rustfmt::skip]
pub const LEXING: &[&str] = &[
    "\"", "\"a", "a \"b", r#""a\""#, "\"a\"b\"", "\"(", "\\", "a\\", "a \\", r#""\"#, "f:\\", "a^\\",
    "(\\", "[", "]", "{", "}", "a[", "[a TO b]", "a]", "f:{1 TO 2}", "a^[", "*", "?", "a*", "a?b",
    "*a", "f:*", "a *", "(*)", "a^*", "a\"b\"*", "?[", "[*", "*[", "\"[", "a* \"", "[\\", r#""*\"#,
    "\"\\\"*", ") [", "a^x \"", "a~ *", ") \\", "1 AND b [", r"a\*", "\"a*\"", r"\[", r"\?b",
    "\"[a TO b]\"", r"\{a\}", r#"\""#, r#"a\"b"#,
];

/// Refusals 8 and 9, and `~` where it is an unexpected token.
#[rustfmt::skip]
pub const TILDES: &[&str] = &[
    "a~", "a ~", "f:a~", "a~2", "1~", "(a~)", "-a~", "a AND b~", r"\AND~", "\"a\"~", "\"a b\"~2",
    "f:\"a\" ~", "\"\"~", "~", "a^2~", "(a)~", "f:~", "+~", r"a\~", "\"a~\"", "a~^2", "a^~",
    "\"a\"^2~",
];

/// Refusals 10 to 12.
#[rustfmt::skip]
pub const GRAMMAR: &[&str] = &[
    "+", "-", "!", "NOT", "a AND", "a OR", "a +", "f:", "f :", "a AND NOT", "(+", "(a AND", "a &&",
    "a ||", "f:g", ")", "a)", ":", "a::b", "a:b:c", "AND", "OR", "AND a", "OR a", "NOT NOT a", "++a",
    "+-a", "--a", "!!a", "a AND AND b", "a AND OR b", "a OR OR b", "^", "^2", "\"a\":b", "()AND a",
    "(a) b)", "f:+a", "f:-a", "f:!a", "f:AND", "f:)", "(AND)", "(a OR)", "(:)", "1 OR b",
    "\"\" AND b", "() && a", "a NOT AND b", "f:^2", "NOT:a", "AND:a", "a AND:b", "a^2:b", "f:NOT a",
    "(", "(a", "((a)", "f:(", "f:(a", "(a b", "-(", "(()", "a (b", "(a))", "f:(a) )", "(a:)", "a OR )",
];

/// Refusals 13 and 14.
#[rustfmt::skip]
pub const BAD_BOOSTS: &[&str] = &[
    "a^x", "a^1e", "a^.", "a^1_0", "a^0x1", r"a^\ 1", r"a^1\ ", "a^infinit", "1^x", "\"\"^x", "(a)^x",
    "f:a^x", "\"a\"^x", "a^1f", "a^e5", "a^1e+", "a^1-", "a^1,5", r"a^\+", r"a^\-\-1", "a^1e5.0",
    "a^2b", "a^1e1e1", r"a^\\1", "a^", "a^ ", "a^(", "a^)", "a^\"2\"", "a^+1", "a^!1", "a^:", "a^^2",
    "a^AND", "a^&&", "(a^)", "\"\"^", "a^-", "a^x)", "(a^x", "a^ (2)", "a^NOT",
];

/// Boosts that are read.
#[rustfmt::skip]
pub const BOOSTS: &[&str] = &[
    "a^2", "a^ 2", "a ^2", "a ^ 2", "a^2 b", r"a^\2", "a^1e-5", "a^1E5", "a^inf", "a^INFINITY",
    "a^nan", r"a^\-nan", r"a^\+NaN", r"a^\-0", "a^0", "a^1", "a^.5", "a^5.", "a^007", "(a b)^2",
    "\"a b\"^2", "\"\"^2", "()^2", "1^2", "f:(a)^2", "((a)^2)^3", "wi-fi^2", "-a^2", "(-a)^2",
    "a^2(b)", "a^2\"b\"", "a^2!b", "a^1e-46", r"a^\-1e39", "a^0.1", "a^3.4028236e38", "a^1e-45",
    "a^2 AND b^3 OR c", "+a^0.5 +a^0.5", "a^2 AND 1^2", "a^1e+05", r"a^\-Inf", "a^0.3333333333333333",
];

/// Operators: signs, words, doubled bytes; and where they are text.
#[rustfmt::skip]
pub const OPERATORS: &[&str] = &[
    "&", "&&", "&a", "a&", "a &b", "a & b", "&&&", "& &", "|", "||", "|||", "a||b", "a || b", "a |b",
    "a|", "&|", "|&", "a && b", "a &&b", "a&& b", "a &&& b", "&&&&", "a && && b", r"\&&", r"&\&",
    r"&\&&", r"\&\&", "(a)&&b", "\"a\"&&b", "(a)||b", "a AND(b)", "a ANDb", "aAND b", "a and b",
    r"a AND\ b", r"AN\D", r"a AN\D b", r"a \OR b", r"\N\O\T a", "NOTa", "\"AND\"", "a \"AND\" b",
    "+a", "+ a", "a+b", "a +b", "a-", "a -b", "-a -b", "-a b", "+a -b c", "a - b", "!a", "a!b",
    "a !b", "NOT a", "a NOT b", "a AND NOT b", "a OR NOT b", "a AND -b", "a OR +b", "-\"a b\"",
    "+(a b)", "-(a b)", "-()", "+1", "-1 a", "(-a)", "((-a))", "(-a) b", "-(-a)", "NOT(a)", "a!",
    r"\!a", "a|b", "a&b|c", "OR\tOR", "a OR\nb", "Or", "aORb", "a\x0bAND\x0cb",
];

/// Clauses that analyze to nothing, and their conjunctions.
#[rustfmt::skip]
pub const NOTHING: &[&str] = &[
    "()", "\"\"", "1", "1 2", "(())", "f:()", "f:\"\"", "\" \"", "\"1 2\"", "-1", "+()", "() ()", "a AND 1",
    "a OR 1", "a AND ()", "-a AND 1", "-a OR 1", "a AND 1 b", "a AND 1 OR b", "a OR 1 AND b", "1 a AND b",
    "a b AND \"\"", "a b OR 1", "+a OR 1", "a AND -1", "(a AND 1)", "(1) a", "a AND 1 AND 2",
    "-a AND 1 AND b", "a 1", "1 -a", "a AND b OR 1", "(a OR 1) b", "1^2 a",
];

/// Escapes.
#[rustfmt::skip]
pub const ESCAPES: &[&str] = &[
    r"\a", r"\\", r#"\""#, r"\ ", r"a\ b", r"\:", r"a\:b", r"a\:b:c", r"\::a", r"\+a", r"\-a", r"a\(b",
    r"\~", r#""\"""#, r#""a\"b""#, r#""\\""#, r#""a\b c""#, r"\!", r"\^", r"\*", r"a\^2", r"a\^2^3",
    "a\\\tb", "\\\na", r"A\B\C", r"\A\N", r"f\:a", r"\f:a", r"a\ b:c\ d", r"\(a\)", r"\)", "\\\x7f",
    "\\\x00", r"a\\:b",
];

/// Quotes.
#[rustfmt::skip]
pub const QUOTES: &[&str] = &[
    "\"a\"", "\"a b\"", "\"A B a\"", "\"a 1 b\"", "\"wi-fi\"", "\"1 a\"", "a\"b\"c", "\"a\"\"b\"", "\"a\" \"b\"",
    "f:\"a b\"", "-\"a b\"^2", "\" a \"", "\"a\x1cb\"", "\"a  b\"", "\"\x1c\"", "\"a\tb\nc\"", "\"(a OR b)\"",
    "\"a:b\"", "\"a^2\"", "\"don't\"", "\"red\" AND \"fox\"", "(\"a b\" \"a b\")", "\"a\nb\"", "g:\"Wi-Fi 2\"",
    "\"+a -b\"", "\"a\x00b\"",
];

/// Bytes 1C to 1F: the whitespace analyzer splits at them, the lexer does not.
#[rustfmt::skip]
pub const SEPARATORS: &[&str] = &[
    "\x1c", "a\x1cb", "a\x1d\x1eb", "\x1fa", "a\x1f", "a \x1c b", "a\x1cAND\x1cb", "a AND\x1cb", "\x1c+a", "\x1c(a)",
    "f\x1c:a", "a^\x1c2", "a^2\x1c", "a AND \x1c", "-\x1c", "\"a\x1db\x1ec\"", "a\x1b\x1cb",
];

/// Texts for setups with analyzers of single fields: `g`, `k`, the empty name, and longer ones.
#[rustfmt::skip]
pub const FIELDS: &[&str] = &[
    r"g:Wi-Fi Wi-Fi k:Wi\ Fi", "g:\"A B\" k:\"A B\" \"A B\"", "g:(A-1 k:A-1) A-1", "k:(A-1 g:B-1)^2 G:A-1",
    r"\g:A-1 f:A-1", "g:(f:A-1)", "A-1", "\"A-1 B-2\"", r"A\ B", "k:1 AND g:1 OR 1", "k:\"\" name-of-eight:A-1",
];

pub const WORDS: &[&str] = &[
    "don't move the 3.5 kg lid",
    "\"don't move the 3.5 kg lid\"",
    "\"The lid\"",
    "\"the\"",
    "\"of the\"",
    "\"lid of the rack\"^2",
    "the",
    "the^2",
    "the AND lid",
    "lid AND the",
    "lid OR the rack",
    "-the",
    "(the of)",
    "the-lid",
    "rack-of-lids",
    "a.b",
    "3.5",
    "_",
    "a\\:b a\\:1",
    "x_1.5,7",
    "It's",
    "NOT the",
];
