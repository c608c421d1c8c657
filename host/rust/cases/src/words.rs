//! Words, in which case does not count, and where the names of a text stand.
use crate::random::Random;
use std::ops::Range;

/// Whether two words are one name or keyword.
pub fn is_same(a: &[u8], b: &[u8]) -> bool {
    a.eq_ignore_ascii_case(b)
}

/// A word with each letter in any case.
pub fn any_case(random: &mut Random, word: &[u8]) -> Vec<u8> {
    let style = random.below(4);
    let letter = |byte: &u8| match style {
        0 => byte.to_ascii_uppercase(),
        1 => byte.to_ascii_lowercase(),
        _ if random.once_in(2) => byte.to_ascii_uppercase(),
        _ => byte.to_ascii_lowercase(),
    };
    word.iter().map(letter).collect()
}

/// A word with a digit, an underscore or a letter changed into another byte that has the same five low bits, as a letter
/// has in both cases.
pub fn same_low_bits(random: &mut Random, word: &[u8]) -> Vec<u8> {
    let mut word = word.to_vec();
    let places: Vec<usize> = (0..word.len()).filter(|&at| matches!(word[at] & 0x1f, 0x10..=0x19 | 0x1f)).collect();
    if !places.is_empty() {
        word[*random.pick(&places)] ^= *random.pick(&[0x20, 0x40, 0x60]);
    }
    word
}

/// Where a name stands in a text: first where one is declared, then where one is used.
#[derive(Clone, Copy, PartialEq, Eq, PartialOrd, Ord, Debug)]
pub enum Place {
    Block,
    Input,
    Output,
    InputTerm,
    OutputTerm,
    RuleBlock,
    Fuzzify,
    Defuzzify,
    ConditionInput,
    ConditionTerm,
    ConclusionOutput,
    ConclusionTerm,
}

pub const PLACES: [Place; 12] = [
    Place::Block,
    Place::Input,
    Place::Output,
    Place::InputTerm,
    Place::OutputTerm,
    Place::RuleBlock,
    Place::Fuzzify,
    Place::Defuzzify,
    Place::ConditionInput,
    Place::ConditionTerm,
    Place::ConclusionOutput,
    Place::ConclusionTerm,
];

impl Place {
    pub fn is_use(self) -> bool {
        self >= Place::Fuzzify
    }
}

/// Words, and every other byte by itself, without blanks and comments.
pub fn tokens(text: &[u8]) -> Vec<Range<usize>> {
    let mut tokens = Vec::new();
    let mut at = 0;
    while at < text.len() {
        let rest = &text[at..];
        let word = rest.iter().take_while(|byte| byte.is_ascii_alphanumeric() || **byte == b'_').count();
        let (length, is_token) = match rest {
            [b' ' | b'\t' | b'\r' | b'\n', ..] => (1, false),
            [b'(', b'*', inside @ ..] => {
                let closed = inside.windows(2).position(|pair| pair == b"*)");
                (closed.map_or(rest.len(), |length| length + 4), false)
            }
            [b'0'..=b'9', ..] => (1, true),
            _ => (word.max(1), true),
        };
        tokens.extend(is_token.then_some(at..at + length));
        at += length;
    }
    tokens
}

/// The words where a name is wanted, keywords too. Behind what is out of order in the text they mean nothing.
pub fn names(text: &[u8]) -> Vec<(Place, Range<usize>)> {
    const PARTS: [&[u8]; 6] = [b"VAR_INPUT", b"VAR_OUTPUT", b"FUZZIFY", b"DEFUZZIFY", b"IF", b"THEN"];
    let mut names = Vec::new();
    let (mut part, mut before, mut last) = (Vec::new(), Vec::new(), Vec::new());
    for token in tokens(text) {
        let word = text[token.clone()].to_ascii_uppercase();
        let is_word = word[0].is_ascii_alphabetic() || word[0] == b'_';
        let wanted = wanted(&part, &before, &last).filter(|place| is_word && !may_stand(*place, &last, &word));
        match wanted {
            Some(place) => names.push((place, token)),
            None if PARTS.contains(&&word[..]) => part.clone_from(&word),
            None => {}
        }
        (before, last) = (last, word);
    }
    names
}

/// The place of the name that a text in order must have behind these tokens, or may have.
fn wanted(part: &[u8], before: &[u8], last: &[u8]) -> Option<Place> {
    Some(match (part, last) {
        (_, b"FUNCTION_BLOCK") => Place::Block,
        (_, b"RULEBLOCK") => Place::RuleBlock,
        (b"VAR_INPUT", b"VAR_INPUT" | b"," | b";") => Place::Input,
        (b"VAR_OUTPUT", b"VAR_OUTPUT" | b"," | b";") => Place::Output,
        (b"FUZZIFY", b"FUZZIFY") => Place::Fuzzify,
        (b"FUZZIFY", b"TERM") => Place::InputTerm,
        (b"DEFUZZIFY", b"DEFUZZIFY") => Place::Defuzzify,
        (b"DEFUZZIFY", b"TERM") => Place::OutputTerm,
        (b"IF", b"IS") => Place::ConditionTerm,
        (b"IF", b"NOT") if before == b"IS" => Place::ConditionTerm,
        (b"IF", b"IF" | b"AND" | b"OR" | b"NOT" | b"(") => Place::ConditionInput,
        (b"THEN", b"IS") => Place::ConclusionTerm,
        (b"THEN", b"THEN" | b",") => Place::ConclusionOutput,
        _ => return None,
    })
}

/// Whether this keyword may stand there too.
fn may_stand(place: Place, last: &[u8], word: &[u8]) -> bool {
    match place {
        Place::Input | Place::Output => last == b";" && word == b"END_VAR",
        Place::ConditionInput | Place::ConditionTerm => last != b"NOT" && word == b"NOT",
        _ => false,
    }
}
