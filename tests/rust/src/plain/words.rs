//! Words read plainly, for ASCII: a word is a stretch of letters, digits and `_`, with a letter or a
//! digit in it; one byte of `:.'` between two letters, or of `,;.'` between two digits, does not end it.

const STOP_WORDS: &str = "a an and are as at be but by for if in into is it no not of on or such that the \
                          their then there these they this to was will with";

/// Whether any word is kept: of English those are left out whose chunks of 255 bytes are stop words.
#[must_use]
pub fn are_kept(text: &[u8], english: bool) -> bool {
    words(text).iter().any(|word| {
        let word = word.to_ascii_lowercase();
        word.chunks(255)
            .any(|chunk| !(english && is_stop_word(chunk)))
    })
}

fn is_stop_word(chunk: &[u8]) -> bool {
    STOP_WORDS
        .split_whitespace()
        .any(|stop| stop.as_bytes() == chunk)
}

fn words(text: &[u8]) -> Vec<&[u8]> {
    let mut words = Vec::new();
    let mut at = 0;
    while at < text.len() {
        let mut end = at;
        while end < text.len() && (holds(text[end]) || (end > at && joins(text, end))) {
            end += 1;
        }
        if text[at..end].iter().any(u8::is_ascii_alphanumeric) {
            words.push(&text[at..end]);
        }
        at = end.max(at + 1);
    }
    words
}

fn holds(b: u8) -> bool {
    b.is_ascii_alphanumeric() || b == b'_'
}

/// The byte stands between two letters or two digits that it joins.
fn joins(text: &[u8], at: usize) -> bool {
    let Some(&next) = text.get(at + 1) else {
        return false;
    };
    let both = |is: fn(&u8) -> bool| is(&text[at - 1]) && is(&next);
    (b":.'".contains(&text[at]) && both(u8::is_ascii_alphabetic))
        || (b",;.'".contains(&text[at]) && both(u8::is_ascii_digit))
}
