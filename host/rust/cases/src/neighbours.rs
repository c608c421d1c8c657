//! Every text and image one step away from those of one small block, and texts cut in two.
use crate::blocks::KEYWORDS;
use crate::chunks::Step;
use crate::texts::SYMBOLS;
use crate::{Case, Room};

/// A block with every part that a text can have, one blank between tokens.
const TEXT: &str =
    "FUNCTION_BLOCK f VAR_INPUT a , b : REAL ; c : INT ; END_VAR VAR_OUTPUT x : REAL ; y : REAL ; END_VAR \
FUZZIFY a TERM t := ( -1.5 , 0 ) , ( 20 , 1 ) ; TERM u := ( 0 , 1 ) , ( 1 , 0.25 ) , ( 2 , 0 ) ; END_FUZZIFY \
FUZZIFY c TERM t := ( 0 , 0 ) , ( 0 , 1 ) , ( 1 , 1 ) , ( 1 , 0 ) ; END_FUZZIFY \
FUZZIFY b TERM v := ( +0.001 , 1 ) , ( 0.002 , 0 ) ; END_FUZZIFY \
DEFUZZIFY x RANGE ( -5 .. 100 ) ; TERM t := -5 ; TERM w := 100 ; METHOD : CoGS ; DEFAULT := 7 ; END_DEFUZZIFY \
DEFUZZIFY y TERM t := 0 ; METHOD : CoGS ; DEFAULT := NC ; END_DEFUZZIFY \
RULEBLOCK r OR : ASUM ; AND : PROD ; ACT : MIN ; ACCU : BSUM ; \
RULE 1 : IF a IS t THEN x IS w ; \
RULE 20 : IF NOT a IS u OR b IS NOT v AND ( c IS t OR a IS t ) THEN x IS t , y IS t WITH 0.5 ; \
RULE 3 : IF NOT ( NOT c IS NOT t ) THEN y IS t ; END_RULEBLOCK END_FUNCTION_BLOCK";

const BYTES: &[u8] = b" \n_a0Z.()*:=;,+-\x00\xff";

fn text(text: Vec<u8>) -> Case {
    Case::Text { text, room: Room::Exact }
}

fn joined(tokens: &[&str]) -> Case {
    text(tokens.join(" ").into_bytes())
}

/// Cut at each byte; each byte left out, replaced or with another before it.
fn by_bytes() -> impl Iterator<Item = Case> {
    (0..=TEXT.len()).flat_map(|at| {
        let (before, after) = TEXT.as_bytes().split_at(at);
        let rest = after.get(1..).unwrap_or_default();
        let cut = text(before.to_vec());
        let without = text([before, rest].concat());
        // A letter in the other case; of other bytes one that is as far away.
        let flipped = after.first().map(|byte| byte ^ 0x20);
        let replaced = BYTES.iter().copied().chain(flipped).map(move |byte| text([before, &[byte], rest].concat()));
        let inserted = b"_0.(*;".iter().map(move |&byte| text([before, &[byte], after].concat()));
        [cut, without].into_iter().chain(replaced).chain(inserted)
    })
}

/// Each token left out, doubled, changed with the next or replaced by any kind of token or by itself in other letters.
fn by_tokens() -> impl Iterator<Item = Case> {
    let tokens: Vec<&str> = TEXT.split(' ').collect();
    let small_keywords = KEYWORDS.map(str::to_ascii_lowercase);
    (0..tokens.len()).flat_map(move |at| {
        let (before, after) = tokens.split_at(at);
        let (token, rest) = (after[0], &after[1..]);
        let mut cases = vec![joined(&[before, rest].concat()), joined(&[before, &[token], after].concat())];
        if let [next, rest @ ..] = rest {
            cases.push(joined(&[before, &[next, token], rest].concat()));
        }
        let names = ["a", "c", "x", "t", "w", "f", "seventeen_letters"];
        let small = small_keywords.iter().map(String::as_str);
        let respelt = [token.to_ascii_uppercase(), token.to_ascii_lowercase()];
        let others = KEYWORDS.iter().chain(&SYMBOLS).chain(&names).copied().chain(small);
        for other in others.chain(respelt.iter().map(String::as_str)) {
            cases.push(joined(&[before, &[other], rest].concat()));
        }
        cases
    })
}

/// Each word of the image replaced, each bit turned.
fn by_words() -> impl Iterator<Item = Case> {
    let image = reference::read(TEXT.as_bytes()).unwrap_or_default();
    (0..image.len() / 4).flat_map(move |at| {
        let bytes = 4 * at..4 * at + 4;
        let word = i32::from_le_bytes([image[4 * at], image[4 * at + 1], image[4 * at + 2], image[4 * at + 3]]);
        let few = [0, 1, 2, 3, 15, 16, 19, -1, 1000, 1_000_000, 1_000_000_001, i32::MIN, i32::MAX];
        let near = [-1000, -2, -1, 1, 2, 1000].map(|by| word.wrapping_add(by));
        let bits = (0..32).map(|bit| word ^ 1 << bit);
        let words: Vec<i32> = few.into_iter().chain(near).chain(bits).collect();
        let image = &image;
        let changed = words.into_iter().map(|word| {
            let mut image = image.clone();
            image[bytes.clone()].copy_from_slice(&word.to_le_bytes());
            Case::Image { image, room: Room::Exact }
        });
        changed.collect::<Vec<Case>>()
    })
}

/// Accepted and refused texts in two chunks, cut at each byte; at some nothing has come in between.
fn by_cuts() -> impl Iterator<Item = Case> {
    let texts = [
        include_str!("../../../../examples/trust.fcl").to_string(),
        include_str!("../../../../examples/crane.fcl").to_string(),
        include_str!("../../../../examples/everything.fcl").to_string(),
        include_str!("../../../../examples/rectangle.fcl").to_string(),
        include_str!("../../../../examples/capitals.fcl").to_string(),
        TEXT.to_string(),
        TEXT.to_ascii_lowercase(),
        TEXT.replacen("FUZZIFY c", "FUZZIFY d", 1),
        TEXT.replacen("( +0.001", "(* +0.001", 1),
        format!("{TEXT} ;"),
    ];
    texts.into_iter().flat_map(|text| {
        (0..=text.len()).map(move |at| {
            let (before, after) = text.as_bytes().split_at(at);
            let chunks: &[&[u8]] = if at % 4 == 0 { &[before, b"", after] } else { &[before, after] };
            let chunks = chunks.iter().map(|chunk| Step::Chunk(chunk.to_vec()));
            Case::Chunks { steps: chunks.chain([Step::End(Room::Exact)]).collect() }
        })
    })
}

pub fn neighbours() -> impl Iterator<Item = Case> {
    by_bytes().chain(by_tokens()).chain(by_words()).chain(by_cuts())
}
