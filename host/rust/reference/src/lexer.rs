//! Tokens of a text. What is wrong with a token is only said once it is looked at.
use crate::bounds;

#[derive(Clone, Copy, PartialEq, Eq, Debug)]
pub enum Key {
    Accu,
    Act,
    And,
    Asum,
    Bdif,
    Bsum,
    Cogs,
    Default,
    Defuzzify,
    EndDefuzzify,
    EndFunctionBlock,
    EndFuzzify,
    EndRuleblock,
    EndVar,
    FunctionBlock,
    Fuzzify,
    If,
    Int,
    Is,
    Max,
    Method,
    Min,
    Nc,
    Not,
    Or,
    Prod,
    Range,
    Real,
    Rule,
    Ruleblock,
    Term,
    Then,
    VarInput,
    VarOutput,
    With,
    /// A keyword of Table 7 that stands nowhere in the texts of document 01.
    Unused,
}

/// A name's 16 bytes, zero padded.
pub type Name = [u8; bounds::NAME];

#[derive(Clone, Copy, PartialEq, Eq, Debug)]
pub struct Number {
    /// None where it has too many digits.
    pub thousandths: Option<i64>,
    /// Neither sign nor point.
    pub plain: bool,
}

#[derive(Clone, Copy, PartialEq, Eq, Debug)]
pub enum Kind {
    End,
    /// A byte or a run that is no token.
    Wrong,
    Key(Key),
    /// None where it is too long.
    Name(Option<Name>),
    Number(Number),
    Colon,
    Assign,
    Semicolon,
    Comma,
    Open,
    Close,
    Dots,
}

#[derive(Clone, Copy, Debug)]
pub struct Token {
    pub kind: Kind,
    pub start: usize,
}

pub struct Lexer<'a> {
    text: &'a [u8],
    at: usize,
}

impl<'a> Lexer<'a> {
    pub fn new(text: &'a [u8]) -> Lexer<'a> {
        Lexer { text, at: 0 }
    }

    fn byte(&self, at: usize) -> u8 {
        self.text.get(at).copied().unwrap_or(0)
    }

    pub fn next(&mut self) -> Token {
        if let Err(start) = self.skip_blanks() {
            return Token { kind: Kind::Wrong, start };
        }
        let start = self.at;
        if start == self.text.len() {
            return Token { kind: Kind::End, start };
        }
        let kind = match self.byte(start) {
            b':' if self.byte(start + 1) == b'=' => self.symbol(2, Kind::Assign),
            b':' => self.symbol(1, Kind::Colon),
            b';' => self.symbol(1, Kind::Semicolon),
            b',' => self.symbol(1, Kind::Comma),
            b'(' => self.symbol(1, Kind::Open),
            b')' => self.symbol(1, Kind::Close),
            b'.' if self.byte(start + 1) == b'.' => self.symbol(2, Kind::Dots),
            b'+' | b'-' if self.byte(start + 1).is_ascii_digit() => self.number(),
            b'0'..=b'9' => self.number(),
            b'a'..=b'z' | b'A'..=b'Z' | b'_' => self.word(),
            _ => Kind::Wrong,
        };
        Token { kind, start }
    }

    fn symbol(&mut self, length: usize, kind: Kind) -> Kind {
        self.at += length;
        kind
    }

    /// Passes blanks and comments; an open comment's start is the error.
    fn skip_blanks(&mut self) -> Result<(), usize> {
        loop {
            match self.byte(self.at) {
                b' ' | b'\t' | b'\r' | b'\n' => self.at += 1,
                b'(' if self.byte(self.at + 1) == b'*' => {
                    let inside = &self.text[self.at + 2..];
                    match inside.windows(2).position(|pair| pair == b"*)") {
                        Some(length) => self.at += length + 4,
                        None => return Err(self.at),
                    }
                }
                _ => return Ok(()),
            }
        }
    }

    /// Passes the bytes from here on that are of a kind.
    fn run(&mut self, is: impl Fn(u8) -> bool) -> &'a [u8] {
        let rest = &self.text[self.at..];
        let length = rest.iter().position(|&byte| !is(byte)).unwrap_or(rest.len());
        self.at += length;
        &rest[..length]
    }

    fn digits(&mut self) -> &'a [u8] {
        self.run(|byte| byte.is_ascii_digit())
    }

    fn number(&mut self) -> Kind {
        let sign = self.byte(self.at);
        let signed = sign == b'+' || sign == b'-';
        if signed {
            self.at += 1;
        }
        let whole = self.digits();
        let pointed = self.byte(self.at) == b'.' && self.byte(self.at + 1).is_ascii_digit();
        let part: &[u8] = if pointed {
            self.at += 1;
            self.digits()
        } else {
            &[]
        };
        let thousandths = (whole.len() <= 7 && part.len() <= 3).then(|| {
            let padding = &b"000"[part.len()..];
            let all = whole.iter().chain(part).chain(padding);
            let size = all.fold(0, |n, digit| 10 * n + i64::from(digit - b'0'));
            if sign == b'-' {
                -size
            } else {
                size
            }
        });
        Kind::Number(Number { thousandths, plain: !signed && !pointed })
    }

    fn word(&mut self) -> Kind {
        let word = self.run(is_word_byte);
        if let Some(key) = keyword(word) {
            return Kind::Key(key);
        }
        if !has_good_underscores(word) {
            return Kind::Wrong;
        }
        if word.len() > bounds::NAME {
            return Kind::Name(None);
        }
        let mut name = [0; bounds::NAME];
        name[..word.len()].copy_from_slice(word);
        Kind::Name(Some(name))
    }
}

fn is_word_byte(byte: u8) -> bool {
    byte.is_ascii_alphanumeric() || byte == b'_'
}

fn has_good_underscores(word: &[u8]) -> bool {
    word.last() != Some(&b'_') && !word.windows(2).any(|pair| pair == b"__")
}

/// Whether 16 stored bytes are a name, zero padded.
pub fn is_stored_name(bytes: &[u8]) -> bool {
    let length = bytes.iter().position(|&b| b == 0).unwrap_or(bytes.len());
    let (word, padding) = bytes.split_at(length);
    !word.is_empty()
        && !word[0].is_ascii_digit()
        && word.iter().all(|&b| is_word_byte(b))
        && has_good_underscores(word)
        && keyword(word).is_none()
        && padding.iter().all(|&b| b == 0)
}

/// Names are compared without case, which only the ASCII letters have; so are keywords.
pub fn is_same_name(a: &[u8], b: &[u8]) -> bool {
    a.eq_ignore_ascii_case(b)
}

/// The words of Table 7 of source document 001, with REAL and INT, here in capitals.
fn keyword(word: &[u8]) -> Option<Key> {
    Some(match word.to_ascii_uppercase().as_slice() {
        b"ACCU" => Key::Accu,
        b"ACT" => Key::Act,
        b"AND" => Key::And,
        b"ASUM" => Key::Asum,
        b"BDIF" => Key::Bdif,
        b"BSUM" => Key::Bsum,
        b"COGS" => Key::Cogs,
        b"DEFAULT" => Key::Default,
        b"DEFUZZIFY" => Key::Defuzzify,
        b"END_DEFUZZIFY" => Key::EndDefuzzify,
        b"END_FUNCTION_BLOCK" => Key::EndFunctionBlock,
        b"END_FUZZIFY" => Key::EndFuzzify,
        b"END_RULEBLOCK" => Key::EndRuleblock,
        b"END_VAR" => Key::EndVar,
        b"FUNCTION_BLOCK" => Key::FunctionBlock,
        b"FUZZIFY" => Key::Fuzzify,
        b"IF" => Key::If,
        b"INT" => Key::Int,
        b"IS" => Key::Is,
        b"MAX" => Key::Max,
        b"METHOD" => Key::Method,
        b"MIN" => Key::Min,
        b"NC" => Key::Nc,
        b"NOT" => Key::Not,
        b"OR" => Key::Or,
        b"PROD" => Key::Prod,
        b"RANGE" => Key::Range,
        b"REAL" => Key::Real,
        b"RULE" => Key::Rule,
        b"RULEBLOCK" => Key::Ruleblock,
        b"TERM" => Key::Term,
        b"THEN" => Key::Then,
        b"VAR_INPUT" => Key::VarInput,
        b"VAR_OUTPUT" => Key::VarOutput,
        b"WITH" => Key::With,
        b"COA" | b"COG" | b"END_OPTIONS" | b"LM" | b"NSUM" | b"OPTIONS" | b"RM" | b"VAR" => Key::Unused,
        _ => return None,
    })
}
