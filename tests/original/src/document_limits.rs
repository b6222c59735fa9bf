//! The cases of document.txt on the limits of parsing: names, brackets and numerals, from both sides,
//! and which fault comes first where a text has two.

use crate::document_cases::{or_simple, passes, refused};
use crate::lists::List;
use original::answers::Setup;

pub fn add(list: &mut List) {
    names(list);
    names_elsewhere(list);
    names_among_faults(list);
    brackets(list);
    brackets_among_faults(list);
    numerals(list);
    numerals_among_faults(list);
}

/// Refusals of texts under Or, simple, field `f`.
fn all_refused(list: &mut List, cases: &[(String, u32)]) {
    for (text, refusal) in cases {
        refused(list, &or_simple(), text.as_bytes(), *refusal);
    }
}

/// Texts that pass under Or, simple, field `f`.
fn all_pass(list: &mut List, texts: &[String]) {
    for text in texts {
        passes(list, &or_simple(), text.as_bytes());
    }
}

fn names(list: &mut List) {
    // "15 | field name before `:` over 32 bytes, unescaped"
    let [good, bad] = [32, 33].map(|n| "n".repeat(n));
    let [good_escaped, bad_escaped] = [32, 33].map(|n| r"\n".repeat(n));
    all_pass(
        list,
        &[
            format!("{good}:a"),
            format!("{good} : a"),
            format!("{good_escaped}:a"),
            format!("\\{good}:a"),
            format!("{good}:(a b)"),
            format!("{good}:\"a b\""),
        ],
    );
    all_refused(
        list,
        &[
            (format!("{bad}:a"), 15),
            (format!("{bad} : a"), 15),
            (format!("{bad_escaped}:a"), 15),
            (format!("\\{bad}:a"), 15),
            (format!("{bad}:(a b)"), 15),
            (format!("{bad}:\"a b\""), 15),
            (format!("-{bad}:a"), 15),
            (format!("a:(b {bad}:c)"), 15),
            (format!("a AND {bad}:1"), 15),
            (format!("{}:a", "n".repeat(1_000)), 15),
        ],
    );
}

fn names_elsewhere(list: &mut List) {
    // No field name stands there, so 15 is not given.
    let [good, bad] = [32, 33].map(|n| "n".repeat(n));
    all_pass(
        list,
        &[
            format!("a:{bad}"),
            format!("a:\"{bad}\""),
            bad.clone(),
            format!("{bad} a:b"),
            format!("{bad}\\:a"),
            format!("({good}:a) {bad}"),
        ],
    );
    // "up to eight field names, each with an analyzer of its own"
    let others = Setup::new(1, 3, b"").entry(1, good.as_bytes());
    passes(list, &others, format!("{good}:A\\ B").as_bytes());
    refused(list, &others, format!("{bad}:A\\ B").as_bytes(), 15);
}

fn names_among_faults(list: &mut List) {
    // "then the whole text is lexed, first fault from the left; then parsing, first fault met (15 when
    // the colon is taken"
    let bad = "n".repeat(33);
    all_refused(
        list,
        &[
            (format!("{bad}:\"a"), 4),
            (format!("{bad}:a\\"), 5),
            (format!("{bad}:[a"), 6),
            (format!("{bad}:a*"), 7),
            (format!("{bad}:"), 15),
            (format!("{bad}:)"), 15),
            (format!("{bad}::"), 15),
            (format!("{bad}:a~"), 15),
            (format!("{bad}:a^x"), 15),
            (format!("{bad}:a^"), 15),
            (format!("({bad}:a"), 15),
            (format!("{bad}:a:b"), 15),
            (format!("{bad}:{bad}:b"), 15),
            (format!("a~ {bad}:b"), 8),
            (format!("\"a\"~ {bad}:b"), 9),
            (format!("a^x {bad}:b"), 13),
            (format!("a^ :{bad}:b"), 14),
            (format!(") {bad}:b"), 11),
            (format!("AND {bad}:b"), 11),
            (format!("++{bad}:b"), 11),
            // Not the field's name: a text, a quote, a numeral. The colon is an unexpected token.
            (format!("a:{bad}:b"), 11),
            (format!("\"{bad}\":b"), 11),
            (format!("a^{bad}:b"), 13),
            (format!("{bad}~:b"), 8),
        ],
    );
}

/// So many opening brackets.
fn open(n: usize) -> String {
    "(".repeat(n)
}

fn shut(n: usize) -> String {
    ")".repeat(n)
}

fn brackets(list: &mut List) {
    // "16 | a 25th open `(`"; "24 brackets pass, 25 give 16"
    all_pass(
        list,
        &[
            format!("{}a{}", open(24), shut(24)),
            format!("{}{}", open(24), shut(24)),
            format!("{}a) (b{}", open(24), shut(24)),
            format!("{}a{} {}b{}", open(24), shut(24), open(24), shut(24)),
            "()".repeat(30),
            "(a)".repeat(30),
            "-(".repeat(24) + "a" + &shut(24),
            "f:(".repeat(24) + "a" + &shut(24),
            format!("\"{}\"", open(25)),
            r"\(".repeat(25),
            format!("{}a{}", "(".repeat(24), ")^2".repeat(24)),
        ],
    );
    all_refused(
        list,
        &[
            (format!("{}a{}", open(25), shut(25)), 16),
            (format!("{}{}", open(25), shut(25)), 16),
            (format!("{}a) ((b{}", open(24), shut(25)), 16),
            ("-(".repeat(25) + "a" + &shut(25), 16),
            ("f:(".repeat(25) + "a" + &shut(25), 16),
            (format!("{} ( a{}", open(24), shut(25)), 16),
            (open(1_000), 16),
        ],
    );
}

fn brackets_among_faults(list: &mut List) {
    // "then parsing, first fault met (15 when the colon is taken, 16 when the bracket is taken"
    let name = "n".repeat(33);
    let numeral = "1".repeat(41);
    all_refused(
        list,
        &[
            // A missing `)` is met at the end, a 25th bracket before it.
            (open(24), 12),
            (format!("{}a{}", open(24), shut(23)), 12),
            (open(25), 16),
            (format!("{}a", open(25)), 16),
            (format!("(a {}b{}", open(24), shut(24)), 16),
            (format!("{}a{}", open(25), shut(24)), 16),
            (format!("{}a{}", open(25), shut(26)), 16),
            // Lexing comes first.
            (format!("{}\"", open(25)), 4),
            (format!("{}\\", open(25)), 5),
            (format!("{}]", open(25)), 6),
            (format!("{}?", open(25)), 7),
            // Faults before and after it.
            (format!("a~{}", open(25)), 8),
            (format!("\"a\"~{}", open(25)), 9),
            (format!("a^x{}", open(25)), 13),
            (format!("a^{}", open(25)), 14),
            (format!("){}", open(25)), 11),
            (format!("{}AND(", open(24)), 11),
            (format!("{}+", open(24)), 10),
            (format!("{}+(", open(24)), 16),
            (format!("{}:", open(25)), 16),
            (format!("{}a^x", open(25)), 16),
            (format!("{}{name}:(a", open(24)), 15),
            (format!("{}{name}:a", open(25)), 16),
            (format!("{}a^{numeral}(", open(24)), 17),
            (format!("{}a^{numeral}", open(25)), 16),
        ],
    );
}

fn numerals(list: &mut List) {
    // "17 | boost numeral over 40 bytes, unescaped"
    let [good, bad] = [40, 41].map(|n| "0".repeat(n - 1) + "2");
    let [good_escaped, bad_escaped] = [40, 41].map(|n| r"\0".repeat(n - 1) + r"\2");
    all_pass(
        list,
        &[
            format!("a^{good}"),
            format!("a^ {good}"),
            format!("a^{good_escaped}"),
            format!("a^\\{good}"),
            format!("a^\\-{}", &good[1..]),
            format!("()^{good}"),
            format!("(a)^{good}"),
            format!("\"a\"^{good}"),
            format!("a^1e{}", &good[2..]),
            format!("a^2 {bad}x"),
            format!("{bad}x^2"),
        ],
    );
    all_refused(
        list,
        &[
            (format!("a^{bad}"), 17),
            (format!("a^ {bad}"), 17),
            (format!("a^{bad_escaped}"), 17),
            (format!("a^\\{bad}"), 17),
            (format!("a^\\-{}", &bad[1..]), 17),
            (format!("()^{bad}"), 17),
            (format!("(a)^{bad}"), 17),
            (format!("\"a\"^{bad}"), 17),
            (format!("f:a^{bad}"), 17),
            (format!("a^1e{}", &bad[2..]), 17),
            (format!("a^{}", "1".repeat(1_000)), 17),
        ],
    );
}

fn numerals_among_faults(list: &mut List) {
    // "17 before 13"; "then parsing, first fault met"
    let [good, bad] = [40, 41].map(|n| "1".repeat(n));
    let [good_text, bad_text] = [40, 41].map(|n| "x".repeat(n));
    all_refused(
        list,
        &[
            (format!("a^{good_text}"), 13),
            (format!("a^{bad_text}"), 17),
            (format!("a^{good}x"), 17),
            (format!("()^{bad_text}"), 17),
            (format!("a^\"{bad}\""), 14),
            (format!("a^-{bad}"), 14),
            (format!("a^{bad}\""), 4),
            (format!("a^{bad}\\"), 5),
            (format!("a^{bad}["), 6),
            (format!("a^{bad}*"), 7),
            (format!("a^{bad})"), 17),
            (format!("a^{bad}~"), 17),
            (format!("(a^{bad}"), 17),
            (format!("a^{bad}^{bad}"), 17),
            (format!("a^2^{bad}"), 11),
            (format!("a^x b^{bad}"), 13),
            (format!("a~^{bad}"), 8),
            (format!("^{bad}"), 11),
            (format!("{}:a^{bad}", "n".repeat(33)), 15),
            (format!("a^{bad} {}:a", "n".repeat(33)), 17),
        ],
    );
}
