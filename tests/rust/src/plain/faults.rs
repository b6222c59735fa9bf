//! The first fault of a text and its place: document 01's lexing and grammar walked with nothing built, for the
//! refusals 4 to 17. The original has no limits and tells no place, so 15 to 17 and all places are found here alone.

use crate::words;

/// The setup that a text is read under: the default field and analyzer, and the entries.
pub struct Fields<'a> {
    pub field: &'a [u8],
    pub analyzer: u8,
    pub entries: Vec<(u8, &'a [u8])>,
}

impl Fields<'_> {
    /// A later entry replaces an earlier one.
    fn analyzer_of(&self, field: &[u8]) -> u8 {
        let entry = self.entries.iter().rev().find(|(_, name)| *name == field);
        entry.map_or(self.analyzer, |(analyzer, _)| *analyzer)
    }

    /// Whether a text of this field has any word in it.
    fn has_words(&self, field: &[u8], text: &[u8]) -> bool {
        match self.analyzer_of(field) {
            1 => text.iter().any(|b| !matches!(b, 9..=13 | 0x1C..=0x20)),
            2 => text.iter().any(u8::is_ascii_alphabetic),
            analyzer @ (4 | 5) => words::are_kept(text, analyzer == 5),
            _ => !text.is_empty(),
        }
    }
}

#[derive(Clone, Debug, PartialEq, Eq)]
enum Token {
    Term(Vec<u8>),
    Quoted(Vec<u8>),
    Sign(u8),
    And,
    Or,
    Not,
}

/// A refusal and where it points.
pub type Fault = (u32, usize);

/// A token and the place of its first byte.
type Placed = (usize, Token);

/// The refusal of an ASCII text, or none.
#[must_use]
pub fn first(fields: &Fields, text: &[u8]) -> Option<Fault> {
    let tokens = match lex(text) {
        Ok(tokens) => tokens,
        Err(fault) => return Some(fault),
    };
    let mut walk = Walk {
        fields,
        tokens: &tokens,
        end: text.len(),
        at: 0,
        open: 0,
    };
    match walk.query(fields.field) {
        Err(fault) => Some(fault),
        Ok(_) if walk.at < tokens.len() => Some((11, tokens[walk.at].0)),
        Ok(_) => None,
    }
}

fn lex(text: &[u8]) -> Result<Vec<Placed>, Fault> {
    let mut tokens = Vec::new();
    let mut at = 0;
    while let Some(&b) = text.get(at) {
        let start = at;
        let doubled = text.get(at + 1) == Some(&b);
        let token = match b {
            9..=13 | b' ' => {
                at += 1;
                continue;
            }
            b'+' | b'-' | b'(' | b')' | b':' | b'^' | b'~' => {
                at += 1;
                Token::Sign(b)
            }
            b'!' => {
                at += 1;
                Token::Not
            }
            b'&' | b'|' if doubled => {
                at += 2;
                if b == b'&' { Token::And } else { Token::Or }
            }
            b'[' | b']' | b'{' | b'}' => return Err((6, at)),
            b'*' | b'?' => return Err((7, at)),
            b'"' => Token::Quoted(quoted(text, &mut at)?),
            _ => word(text, &mut at)?,
        };
        tokens.push((start, token));
    }
    Ok(tokens)
}

/// The byte after a backslash.
fn escaped(text: &[u8], at: &mut usize) -> Result<u8, Fault> {
    let b = *text.get(*at + 1).ok_or((5, *at))?;
    *at += 2;
    Ok(b)
}

fn quoted(text: &[u8], at: &mut usize) -> Result<Vec<u8>, Fault> {
    let mut inside = Vec::new();
    let opening = *at;
    *at += 1;
    loop {
        match *text.get(*at).ok_or((4, opening))? {
            b'"' => break,
            b'\\' => inside.push(escaped(text, at)?),
            b => {
                inside.push(b);
                *at += 1;
            }
        }
    }
    *at += 1;
    Ok(inside)
}

fn word(text: &[u8], at: &mut usize) -> Result<Token, Fault> {
    let mut inside = Vec::new();
    while let Some(&b) = text.get(*at) {
        match b {
            9..=13 | b' ' => break,
            b'*' | b'?' => return Err((7, *at)),
            b'!' | b'(' | b')' | b':' | b'^' | b'"' | b'~' | b'[' | b']' | b'{' | b'}' => break,
            b'\\' => inside.push(escaped(text, at)?),
            b => {
                inside.push(b);
                *at += 1;
            }
        }
    }
    Ok(match &inside[..] {
        b"AND" => Token::And,
        b"OR" => Token::Or,
        b"NOT" => Token::Not,
        _ => Token::Term(inside),
    })
}

struct Walk<'a> {
    fields: &'a Fields<'a>,
    tokens: &'a [Placed],
    end: usize,
    at: usize,
    open: usize,
}

impl<'a> Walk<'a> {
    fn token(&self, at: usize) -> Option<&'a Token> {
        self.tokens.get(at).map(|(_, token)| token)
    }

    fn peek(&self) -> Option<&'a Token> {
        self.token(self.at)
    }

    /// A refusal of the token at the hand, or of the end.
    fn refuse(&self, number: u32) -> Fault {
        (number, self.tokens.get(self.at).map_or(self.end, |(place, _)| *place))
    }

    fn eat(&mut self, tokens: &[Token]) -> bool {
        let eats = self.peek().is_some_and(|t| tokens.contains(t));
        self.at += usize::from(eats);
        eats
    }

    /// A query: whether any clause of it is kept.
    fn query(&mut self, field: &[u8]) -> Result<bool, Fault> {
        let mut kept = false;
        while self.peek().is_some_and(|t| *t != Token::Sign(b')')) {
            if kept {
                self.eat(&[Token::And, Token::Or]);
            }
            self.eat(&[Token::Sign(b'+'), Token::Sign(b'-'), Token::Not]);
            kept |= self.clause(field)?;
        }
        Ok(kept)
    }

    fn clause(&mut self, field: &[u8]) -> Result<bool, Fault> {
        let colon = self.token(self.at + 1) == Some(&Token::Sign(b':'));
        match self.peek() {
            Some(Token::Term(name)) if colon => {
                if name.len() > 32 {
                    return Err(self.refuse(15));
                }
                self.at += 2;
                self.body(name)
            }
            _ => self.body(field),
        }
    }

    fn body(&mut self, field: &[u8]) -> Result<bool, Fault> {
        let token = self.peek().ok_or_else(|| self.refuse(10))?;
        let refused = self.refuse(11);
        let bracket = self.refuse(16);
        self.at += 1;
        let tilde = self.peek() == Some(&Token::Sign(b'~'));
        let kept = match token {
            Token::Term(_) if tilde => return Err(self.refuse(8)),
            Token::Quoted(_) if tilde => return Err(self.refuse(9)),
            Token::Term(text) | Token::Quoted(text) => self.fields.has_words(field, text),
            Token::Sign(b'(') if self.open == 24 => return Err(bracket),
            Token::Sign(b'(') => self.bracket(field)?,
            _ => return Err(refused),
        };
        self.boost()?;
        Ok(kept)
    }

    fn bracket(&mut self, field: &[u8]) -> Result<bool, Fault> {
        self.open += 1;
        let kept = self.query(field)?;
        self.open -= 1;
        if self.eat(&[Token::Sign(b')')]) {
            Ok(kept)
        } else {
            Err(self.refuse(12))
        }
    }

    fn boost(&mut self) -> Result<(), Fault> {
        if !self.eat(&[Token::Sign(b'^')]) {
            return Ok(());
        }
        let Some(Token::Term(numeral)) = self.peek() else {
            return Err(self.refuse(14));
        };
        match numeral.len() {
            0..=40 if is_numeral(numeral) => {
                self.at += 1;
                Ok(())
            }
            0..=40 => Err(self.refuse(13)),
            _ => Err(self.refuse(17)),
        }
    }
}

/// The grammar of numerals, as document 01 has it.
fn is_numeral(text: &[u8]) -> bool {
    let unsigned = text
        .strip_prefix(b"+")
        .or(text.strip_prefix(b"-"))
        .unwrap_or(text);
    let named = |name: &[u8]| unsigned.eq_ignore_ascii_case(name);
    if named(b"inf") || named(b"infinity") || named(b"nan") {
        return true;
    }
    let exponent_at = unsigned.iter().position(|b| matches!(b, b'e' | b'E'));
    let (digits, exponent) = unsigned.split_at(exponent_at.unwrap_or(unsigned.len()));
    let points = digits.iter().filter(|b| **b == b'.').count();
    let is_digits = |s: &[u8]| s.iter().all(u8::is_ascii_digit);
    let mantissa = points <= 1
        && digits.len() > points
        && digits.iter().all(|b| b.is_ascii_digit() || *b == b'.');
    let power = match exponent {
        [] => true,
        [_, b'+' | b'-', power @ ..] | [_, power @ ..] => !power.is_empty() && is_digits(power),
    };
    mantissa && power
}
