//! Texts for words: short ones over a dozen bytes, stop words in every place, and words that are cut
//! into chunks, of which some are stop words.

use original::analysis::ENGLISH_STOP_WORDS;
use original::words;

const WORDS: u8 = 4;
const ENGLISH: u8 = 5;

/// Analyzer and text. Of three bytes those that begin with what parts words are left out, for what
/// follows is a text of two; all of up to four run beside the archive.
pub fn all() -> Vec<(u8, Vec<u8>)> {
    let mut cases = Vec::new();
    for text in (0..=2).flat_map(words::texts) {
        both(&mut cases, &text);
    }
    let begins = |text: &Vec<u8>| !b" \r\n-".contains(&text[0]);
    let three = words::texts(3).into_iter().filter(begins);
    cases.extend(three.map(|text| (WORDS, text)));
    for text in BY_HAND {
        both(&mut cases, text);
    }
    stop_words(&mut cases);
    chunks(&mut cases);
    cases
}

fn both(cases: &mut Vec<(u8, Vec<u8>)>, text: &[u8]) {
    for analyzer in [WORDS, ENGLISH] {
        cases.push((analyzer, text.to_vec()));
    }
}

/// The order's own text, numbers, underscores, what joins and what does not.
#[rustfmt::skip]
const BY_HAND: &[&[u8]] = &[
    b"don't move the 3.5 kg lid", b"DON'T", b"don't'", b"'don't", b"a.b.c", b"a..b", b"a.1", b"1.a", b"3.5.7", b"1,000,000.5",
    b"1,,2", b"1;2", b"a;b", b"a:b:c", b"1:2", b"1'000", b"x_1.5_y", b"___", b"_a_", b"__1", b"_'_", b"_.5", b"a_.5", b"a1b2",
    b"a\"b", b"e.g. this", b"o'clock's", b"C:\\Temp\\a.txt", b"mail@example.org", b"rack-7.2_B", b"\r\n\r\n", b" \r\n a",
    b"a\x0bb\x0cc", b"a  b", b"a'1'b", b"1'a'2", b"a.1.b", b"a,b", b"1,2,b", b"a:1", b"_:_", b"a'_'b",
];

/// Each stop word alone, capital, joined to more and among others; then every way to keep and leave
/// out four words.
fn stop_words(cases: &mut Vec<(u8, Vec<u8>)>) {
    for word in ENGLISH_STOP_WORDS {
        for text in [
            word.to_string(),
            format!("x {} y", word.to_uppercase()),
            format!("{word}'s {word}1 {word}_ 1.{word}"),
            format!("{}x {}", word, &word[1..]),
        ] {
            cases.push((ENGLISH, text.into_bytes()));
        }
    }
    for kept in 0..16 {
        let word = |k: usize| if kept >> k & 1 == 1 { "lid" } else { "The" };
        let four = [0, 1, 2, 3].map(word).join(" ");
        cases.push((ENGLISH, four.into_bytes()));
    }
}

/// Words that pass a chunk's end, or two: what joins them stands on either side of it, and what is
/// left behind it is a stop word or has no letter.
fn chunks(cases: &mut Vec<(u8, Vec<u8>)>) {
    let behind = [
        "", "'b", "''b", ".5", "_", "__a", "the", "'the", "a", "tho", " the", "'",
    ];
    for n in [254, 255, 256, 510] {
        for behind in behind {
            cases.push((ENGLISH, format!("{}{behind} B", "x".repeat(n)).into_bytes()));
        }
        for behind in [",5", "'5", ".a", "_", "of"] {
            cases.push((WORDS, format!("{}{behind}", "7".repeat(n)).into_bytes()));
        }
    }
    cases.push((
        WORDS,
        format!("{}a{}", "_".repeat(300), "_".repeat(300)).into_bytes(),
    ));
    cases.push((WORDS, "a'".repeat(200).into_bytes()));
}
