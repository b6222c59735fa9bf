//! Where the words of a text stand, told by the library that the original cuts them with; and the
//! texts that part them in every way.

use crate::analysis::DEFAULT_MAX_TOKEN_LENGTH;
use unicode_segmentation::UnicodeSegmentation;

/// The start of each chunk of each word that has a letter or a digit: by position, stop words too.
#[must_use]
pub fn starts(text: &str) -> Vec<usize> {
    let words = text.split_word_bound_indices();
    let words = words.filter(|(_, word)| word.chars().any(char::is_alphanumeric));
    let chunks = |(start, word): (usize, &str)| {
        (start..start + word.len()).step_by(DEFAULT_MAX_TOKEN_LENGTH)
    };
    words.flat_map(chunks).collect()
}

/// A dozen bytes of different classes; `a` is a stop word, and so is `aT`.
pub const DOZEN: &[u8; 12] = b"aT1_'.,: \r\n-";

/// Every text of so many of the dozen.
#[must_use]
pub fn texts(length: usize) -> Vec<Vec<u8>> {
    let mut texts = vec![Vec::new()];
    for _ in 0..length {
        let longer = |text: &Vec<u8>| DOZEN.map(|b| [text.as_slice(), &[b]].concat());
        texts = texts.iter().flat_map(longer).collect();
    }
    texts
}
