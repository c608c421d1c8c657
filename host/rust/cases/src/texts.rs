//! Texts: respelled, cut, damaged, past a bound, random.
use crate::block::Block;
use crate::blocks::{block, fill, keyword, strain, Bound, KEYWORDS};
use crate::random::Random;
use crate::spelling::{join, tokens, Tokens};
use crate::words::{any_case, is_same, names, same_low_bits, PLACES};

pub const SYMBOLS: [&str; 22] = [
    ":", ":=", ";", ",", "(", ")", "..", ".", "=", "+", "-", "*", "(*", "*)", "0", "1", "-1", "+0.5", "00000001", "x",
    "a__b", "1.2345",
];

/// A text of a block that keeps every rule.
pub fn valid(random: &mut Random, block: &Block) -> Vec<u8> {
    let tokens = tokens(random, block);
    join(random, &tokens)
}

/// Some texts are in capitals or in small letters as a whole.
pub fn text(random: &mut Random) -> Vec<u8> {
    let mut text = in_any_letters(random);
    match random.below(16) {
        0 => text.make_ascii_uppercase(),
        1 => text.make_ascii_lowercase(),
        _ => {}
    }
    text
}

fn in_any_letters(random: &mut Random) -> Vec<u8> {
    let mut subject = block(random);
    match random.below(25) {
        20 => at_bound(random, subject),
        21.. => misnamed(random, &subject),
        0..=3 => valid(random, &subject),
        4 | 5 => {
            let mut text = valid(random, &subject);
            text.truncate(random.below(text.len() + 1));
            text
        }
        6..=8 => {
            let mut text = valid(random, &subject);
            for _ in 0..random.size(1, 3) {
                damage_bytes(random, &mut text);
            }
            text
        }
        9..=12 => {
            let mut tokens = tokens(random, &subject);
            for _ in 0..random.size(1, 2) {
                damage_tokens(random, &mut tokens);
            }
            join(random, &tokens)
        }
        13..=17 => {
            for _ in 0..random.size(1, 2) {
                strain(random, &mut subject);
            }
            let mut tokens = tokens(random, &subject);
            if random.once_in(6) {
                damage_tokens(random, &mut tokens);
            }
            join(random, &tokens)
        }
        18 => long(random, &subject),
        _ => noise(random),
    }
}

/// A count at its bound or past it, and there a name that may be wrong itself.
fn at_bound(random: &mut Random, mut subject: Block) -> Vec<u8> {
    let bound = *random.pick(&[Bound::Inputs, Bound::Outputs, Bound::Words, Bound::Conclusions]);
    fill(random, &mut subject, bound);
    let mut tokens = tokens(random, &subject);
    let (places, most) = match bound {
        Bound::Inputs => (declared(&tokens, b"VAR_INPUT"), 8),
        Bound::Outputs => (declared(&tokens, b"VAR_OUTPUT"), 6),
        Bound::Words => (used(&tokens, b"IF", b"THEN"), 640),
        Bound::Conclusions => (used(&tokens, b"THEN", b";"), 128),
    };
    if let Some(&at) = places.get(most - random.below(2)) {
        tokens[at] = match random.below(6) {
            0 => any_case(random, &tokens[places[0]]),
            1 => b"gone".to_vec(),
            2 => b"seventeen_letters".to_vec(),
            3 => keyword(random).into_bytes(),
            _ => {
                let other = same_kind(random, &tokens, at);
                tokens[other].clone()
            }
        };
    }
    join(random, &tokens)
}

/// The names declared in a section.
fn declared(tokens: &Tokens, section: &[u8]) -> Vec<usize> {
    let start = tokens.iter().position(|token| is_same(token, section)).unwrap_or(0);
    let section = (start..tokens.len()).take_while(|&at| !is_same(&tokens[at], b"END_VAR"));
    section.filter(|&at| alike(&tokens[at]) == Alike::Name).collect()
}

/// The operators between two tokens, and the variables, which stand before IS.
fn used(tokens: &Tokens, from: &[u8], to: &[u8]) -> Vec<usize> {
    let mut inside = false;
    let mut places = Vec::new();
    for (at, token) in tokens.iter().enumerate() {
        inside = is_same(token, from) || inside && !is_same(token, to);
        let before_is = tokens.get(at + 1).is_some_and(|next| is_same(next, b"IS"));
        if inside && (before_is || [&b"NOT"[..], b"AND", b"OR"].iter().any(|operator| is_same(token, operator))) {
            places.push(at);
        }
    }
    places
}

/// A name, declared or used, replaced by a keyword, by another name or by itself in any case, or by what is nearly it.
fn misnamed(random: &mut Random, subject: &Block) -> Vec<u8> {
    let mut text = valid(random, subject);
    let names = names(&text);
    let place = *random.pick(&PLACES);
    let here: Vec<usize> = (0..names.len()).filter(|&at| names[at].0 == place).collect();
    // Rather a later one, which may be the same as one before it.
    let nth = random.below(here.len()).max(random.below(here.len()));
    let old = names[here[nth]].1.clone();
    let other = match random.below(4) {
        // Likely one that must not be the same: the one before it in such a place, or in any.
        0 | 1 => here[nth.saturating_sub(1)],
        2 => here[nth].saturating_sub(1),
        _ => random.below(names.len()),
    };
    let new = match random.below(6) {
        0 | 1 => keyword(random).into_bytes(),
        2 | 3 => any_case(random, &text[names[other].1.clone()]),
        4 => any_case(random, &text[old.clone()]),
        _ => same_low_bits(random, &text[old.clone()]),
    };
    text.splice(old, new);
    text
}

/// About 65,536 bytes.
fn long(random: &mut Random, subject: &Block) -> Vec<u8> {
    let text = valid(random, subject);
    let length = random.size(65_534, 65_538);
    padded(random, text, length)
}

/// A text made that long, where it is shorter, by blanks or a comment.
pub fn padded(random: &mut Random, mut text: Vec<u8>, length: usize) -> Vec<u8> {
    let filling = random.below(3);
    let at = if filling == 2 { 0 } else { text.len() };
    let missing = length.saturating_sub(text.len());
    let mut blanks = vec![b' '; missing];
    if filling == 1 && missing >= 4 {
        blanks[..2].copy_from_slice(b"(*");
        blanks[missing - 2..].copy_from_slice(b"*)");
    }
    text.splice(at..at, blanks);
    text
}

fn noise(random: &mut Random) -> Vec<u8> {
    let mut text = Vec::new();
    for _ in 0..random.below(40) {
        match random.below(5) {
            0 => text.push(random.bits() as u8),
            1 => text.extend(random.pick(&SYMBOLS).bytes()),
            2 => text.extend(keyword(random).bytes()),
            _ => text.push(*random.pick(b" \n_aZ09.():=;,+-*")),
        }
    }
    if random.once_in(2) {
        text.splice(0..0, *b"FUNCTION_BLOCK ");
    }
    text
}

fn damage_bytes(random: &mut Random, text: &mut Vec<u8>) {
    let length = text.len();
    if length < 2 {
        return;
    }
    let at = random.below(length);
    let end = (at + random.size(1, 4)).min(length);
    match random.below(7) {
        0 => text[at] = random.bits() as u8,
        1 => text[at] = *random.pick(b" \n_aZ09.():=;,+-*"),
        2 => text[at] ^= 0x20,
        3 => drop(text.drain(at..end)),
        4 => {
            let doubled = text[at..end].to_vec();
            text.splice(end..end, doubled);
        }
        5 => text.swap(at, (at + 1) % length),
        _ => text.insert(at, *random.pick(b" _a0.():;,+-*\x00\x7f\xc4")),
    }
}

#[derive(PartialEq)]
enum Alike {
    Keyword,
    Name,
    Number,
    Symbol,
}

fn alike(token: &[u8]) -> Alike {
    match token.last() {
        _ if KEYWORDS.iter().any(|keyword| is_same(keyword.as_bytes(), token)) => Alike::Keyword,
        Some(b'0'..=b'9') if !token[0].is_ascii_alphabetic() && token[0] != b'_' => Alike::Number,
        Some(byte) if byte.is_ascii_alphanumeric() || *byte == b'_' => Alike::Name,
        _ => Alike::Symbol,
    }
}

/// Some token of the same kind.
fn same_kind(random: &mut Random, tokens: &Tokens, at: usize) -> usize {
    let start = random.below(tokens.len());
    let places = (start..tokens.len()).chain(0..start);
    let kind = alike(&tokens[at]);
    places.into_iter().find(|&other| other != at && alike(&tokens[other]) == kind).unwrap_or(at)
}

fn like_for_like(random: &mut Random, tokens: &mut Tokens, at: usize) {
    // Symbols are mostly in order; names and numbers say more.
    let at = (at..tokens.len()).find(|&at| matches!(alike(&tokens[at]), Alike::Name | Alike::Number)).unwrap_or(at);
    let other = same_kind(random, tokens, at);
    tokens[at] = tokens[other].clone();
}

fn swap_alike(random: &mut Random, tokens: &mut Tokens, at: usize) {
    let other = same_kind(random, tokens, at);
    tokens.swap(at, other);
}

/// A number is written in a form that is wrong, or just right.
fn damage_number(random: &mut Random, tokens: &mut Tokens, at: usize) {
    // Rule numbers are few among the numbers, so they get a share of their own.
    let of_rule = random.once_in(3);
    let behind_rule = |at: usize| at > 0 && is_same(&tokens[at - 1], b"RULE");
    let fits = |&at: &usize| alike(&tokens[at]) == Alike::Number && (!of_rule || behind_rule(at));
    let Some(at) = (at..tokens.len()).chain(0..at).find(fits) else { return };
    let token = &mut tokens[at];
    let digits = token.iter().position(u8::is_ascii_digit).unwrap_or(0);
    let whole = token[digits..].iter().take_while(|byte| byte.is_ascii_digit()).count();
    match random.below(8) {
        0 => token.splice(digits..digits, vec![b'0'; random.size(7, 8).saturating_sub(whole)]).for_each(drop),
        1 => {
            token.truncate(digits + whole);
            token.extend(*random.pick(&[&b".0000"[..], b".000", b".0001", b".001", b".", b"..", b".5.5", b".-1"]));
        }
        2 => token.insert(0, *random.pick(b"+-")),
        3 => token.insert(digits, b' '),
        4 => token.push(*random.pick(b"0123456789")),
        5 => token.extend(*random.pick(&[&b"E3"[..], b"_0", b"x", b"#1", b"%"])),
        6 => {
            *token = random
                .pick(&["1000000", "1000000.001", "-1000000", "-1000000.001", "65535", "65536"])
                .as_bytes()
                .to_vec()
        }
        _ => {
            *token = random
                .pick(&["1", "1.000", "1.001", "0", "-0", "-0.001", "+1", "9999999.999", "0.999"])
                .as_bytes()
                .to_vec()
        }
    }
}

/// A FUZZIFY or DEFUZZIFY part is written twice, moved or left out.
fn damage_part(random: &mut Random, tokens: &mut Tokens) {
    let (start, end): (&[u8], &[u8]) = match random.below(2) {
        0 => (b"FUZZIFY", b"END_FUZZIFY"),
        _ => (b"DEFUZZIFY", b"END_DEFUZZIFY"),
    };
    let Some(from) = tokens.iter().position(|token| is_same(token, start)) else { return };
    let Some(length) = tokens[from..].iter().position(|token| is_same(token, end)) else { return };
    let mut part: Tokens = match random.below(3) {
        0 => tokens.drain(from..from + length + 1).collect(),
        _ => tokens[from..from + length + 1].to_vec(),
    };
    part[1] = any_case(random, &part[1]);
    let ends: Vec<usize> = (0..tokens.len()).filter(|&at| is_same(&tokens[at], end)).collect();
    if !ends.is_empty() && !random.once_in(4) {
        let at = *random.pick(&ends) + 1;
        tokens.splice(at..at, part);
    }
}

fn damage_tokens(random: &mut Random, tokens: &mut Tokens) {
    let at = random.below(tokens.len());
    let other = random.below(tokens.len());
    match random.below(14) {
        12 | 13 => damage_number(random, tokens, at),
        8 | 9 => like_for_like(random, tokens, at),
        10 => damage_part(random, tokens),
        11 => swap_alike(random, tokens, at),
        0 => drop(tokens.remove(at)),
        1 => tokens.insert(at, tokens[at].clone()),
        2 => tokens.swap(at, other),
        3 => tokens[at] = tokens[other].clone(),
        4 => tokens[at] = keyword(random).into_bytes(),
        5 => tokens[at] = random.pick(&SYMBOLS).as_bytes().to_vec(),
        6 => tokens.insert(at, keyword(random).into_bytes()),
        _ => {
            let end = (at + random.size(1, 12)).min(tokens.len());
            let moved = tokens[at..end].to_vec();
            let to = random.below(tokens.len());
            tokens.splice(to..to, moved);
        }
    }
    if tokens.is_empty() {
        tokens.push(b";".to_vec());
    }
}
