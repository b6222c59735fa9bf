//! The cases of tokens.txt: the tokens that each analyzer makes of a text.

use crate::lists::{self, List};
use crate::word_cases;
use original::analysis::tokenize;
use original::answers::{analyzer, ascii};
use original::random::Random;
use original::words;

const RANDOM: usize = 150;

pub fn list(seed: u64) -> List {
    let mut list = List::new(
        "tokens.txt",
        &[
            "The original's tokens (`tokenize`).",
            "Columns: analyzer text, and for each token its position, where it starts in the text, and its text.",
            lists::BYTES,
            &format!("Made by `tests/original/run --keep`; seed {seed}."),
        ],
    );
    for text in BY_HAND {
        every(&mut list, text);
    }
    for c in 0..128 {
        every(&mut list, &[c]);
        every(&mut list, &[b'A', c, b'b']);
        ask(&mut list, 4, &[b'1', c, b'2']);
    }
    for n in [1, 254, 255, 256, 510, 511, 512] {
        long(&mut list, n);
    }
    for (analyzer, text) in word_cases::all() {
        ask(&mut list, analyzer, &text);
    }
    random(&mut list, &mut Random::new(seed));
    list
}

/// No text, no tokens, one, several, and the bytes at which the analyzers and the lexer differ.
#[rustfmt::skip]
const BY_HAND: &[&[u8]] = &[
    b"", b" ", b" \t\r\n\x0b\x0c", b"\x1c", b"\x1c\x1d\x1e\x1f", b"12 34", b"--", b"a", b"A", b" a", b"a ", b" a ", b"  ab  cd  ",
    b"wi-fi", b"Wi-Fi 6E", b"a b c", b"a\x1cb\x1dc\x1ed\x1fe", b"\x1fa", b"a\x1f", b"The QUICK brown-fox, v2.0 (final)",
    b"snake_case camelCase", b"it's", b"x1y2z3", b"@AZ[`az{", b"\x00a\x00", b"\x7fa\x7f", b"a\\ b", b"AND OR NOT",
];

/// Runs at the lengths where chunks end, alone and among other tokens.
fn long(list: &mut List, n: usize) {
    let run: Vec<u8> = (b'A'..=b'Z').chain(b'a'..=b'z').cycle().take(n).collect();
    every(list, &run);
    every(list, &[b" ", run.as_slice(), b"\x1cB "].concat());
    every(list, &[run.as_slice(), b"1", &run[..n.min(3)]].concat());
}

fn random(list: &mut List, r: &mut Random) {
    for _ in 0..RANDOM {
        let longest = r.pick(&[4, 12, 40]);
        let text: Vec<u8> = (0..r.below(longest + 1)).map(|_| byte(r)).collect();
        every(list, &text);
    }
}

/// Letters and what parts them more often than other bytes.
fn byte(r: &mut Random) -> u8 {
    match r.below(5) {
        0 | 1 => r.pick(b"abcxyzABCXYZ"),
        2 => r.pick(b" \t\n\x0d\x1c\x1d\x1e\x1f"),
        3 => r.pick(b"0-_.'@[`{"),
        _ => u8::try_from(r.below(128)).expect("below 128"),
    }
}

fn every(list: &mut List, text: &[u8]) {
    for analyzer in 1..=5 {
        ask(list, analyzer, text);
    }
}

fn ask(list: &mut List, analyzer: u8, text: &[u8]) {
    list.tokens(analyzer, text, &tokens(analyzer, text));
}

/// Position, start and text of each token. The original tells no start. Words stand where the library
/// cuts them, and a stop word keeps its place; other tokens at the first place that fits from the last
/// one's end on, for a token's first byte is the first there that a token can have.
fn tokens(number: u8, text: &[u8]) -> Vec<(u32, usize, String)> {
    let text = ascii(text);
    let made = tokenize(&analyzer(number), "f", text);
    let starts = words::starts(text);
    let looked_in = if number == 2 {
        text.to_ascii_lowercase()
    } else {
        text.to_string()
    };
    let mut from = 0;
    let placed = |(token, position): (String, u32)| {
        let start = match number {
            4 | 5 => starts[usize::try_from(position).expect("a small position")],
            _ => {
                from + looked_in[from..]
                    .find(&token)
                    .expect("the token in the text")
            }
        };
        from = start + token.len();
        (position, start, token)
    };
    made.into_iter().map(placed).collect()
}
