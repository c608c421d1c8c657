//! Texts in chunks: cut anywhere, about the limit of their length, with calls after the end.
use crate::random::Random;
use crate::texts::{padded, text};
use crate::Room;

/// A call on a text that comes in chunks.
pub enum Step {
    Chunk(Vec<u8>),
    End(Room),
}

pub fn steps(random: &mut Random) -> Vec<Step> {
    let text = if random.once_in(5) { about_limit(random) } else { text(random) };
    let mut steps: Vec<Step> = cut(random, &text).into_iter().map(Step::Chunk).collect();
    steps.push(Step::End(Room::new(random)));
    for _ in 0..random.below(4) {
        steps.push(any_step(random));
    }
    if random.once_in(6) {
        let early = random.below(steps.len());
        steps.insert(early, Step::End(Room::new(random)));
    }
    steps
}

/// A text that passes the limit or just does not, often refused for its beginning too.
fn about_limit(random: &mut Random) -> Vec<u8> {
    let (text, length) = (text(random), *random.pick(&[65_535, 65_536, 65_537, 65_600, 200_000]));
    let mut text = padded(random, text, length);
    if random.once_in(2) {
        text[random.below(40)] = b'?';
    }
    text
}

/// At places of any distance or of the same, perhaps about the limit too, with empty chunks in between.
fn cut(random: &mut Random, text: &[u8]) -> Vec<Vec<u8>> {
    let mut places: Vec<usize> = match random.below(3) {
        0 => (0..text.len()).step_by(random.size(1, 64).max(text.len() / 50)).collect(),
        _ => (0..random.below(8)).map(|_| random.below(text.len() + 1)).collect(),
    };
    let about_limit = [65_535, 65_536, 65_537].into_iter().filter(|&at| at <= text.len() && random.once_in(2));
    places.extend(about_limit);
    places.push(text.len());
    places.sort();
    let mut chunks = Vec::new();
    let mut from = 0;
    for to in places {
        chunks.push(text[from..to].to_vec());
        chunks.extend(random.once_in(6).then(Vec::new));
        from = to;
    }
    chunks
}

fn any_step(random: &mut Random) -> Step {
    match random.below(6) {
        0 => Step::Chunk(Vec::new()),
        1 => Step::Chunk(vec![b' '; 65_537]),
        2 => Step::Chunk(text(random)),
        _ => Step::End(Room::new(random)),
    }
}
