//! Texts, images, lists of calls and texts in chunks to try implementations of documents 01 and 02 on, and the
//! comparison of two of them. Each case follows from a seed and its number.
#![forbid(unsafe_code)]

pub mod block;
pub mod blocks;
pub mod calls;
pub mod chunks;
mod compare;
pub mod images;
mod neighbours;
pub mod random;
mod run;
pub mod spelling;
pub mod texts;
pub mod words;

pub use compare::{compare, Tally};
pub use neighbours::neighbours;
pub use reference::{Answer, Evaluated, Held, Mark, Refusal};
pub use run::Run;

use calls::Call;
use chunks::Step;
use random::Random;
use std::fmt;

/// A reading as it crosses the C interface: kind 0 is absent, 1 a REAL, 2 an INT; others are unknown.
#[derive(Clone, Copy, PartialEq, Eq, Debug, Default)]
pub struct Reading {
    pub kind: u8,
    /// The REAL's bits.
    pub real: u32,
    pub int: i16,
}

impl Reading {
    pub fn real(value: f32) -> Reading {
        Reading { kind: 1, real: value.to_bits(), int: 0 }
    }

    pub fn int(int: i16) -> Reading {
        Reading { kind: 2, real: 0, int }
    }

    /// The crisp value that it becomes, if any.
    pub fn crisp(&self) -> Option<i32> {
        match self.kind {
            1 => reference::thousandths(f32::from_bits(self.real)),
            2 => Some(1000 * i32::from(self.int)),
            _ => None,
        }
    }
}

/// The public functions of documents 01 and 02. A place of refusal 10 is the needed length.
pub trait Implementation {
    /// A text that comes in chunks.
    type Chunks;

    fn read_into(&self, text: &[u8], image: &mut [u8]) -> Result<usize, Refusal>;
    fn check(&self, image: &[u8]) -> Result<(), Refusal>;
    fn list_into(&self, image: &[u8], listing: &mut [u8]) -> Result<usize, Refusal>;
    /// The record is all zero beside a refusal.
    fn fresh(&self, image: &[u8]) -> (Option<Refusal>, Held);
    fn evaluate(&self, image: &[u8], readings: &[Reading; 8], count: usize, held: Held) -> Evaluated;
    fn evaluate_held(
        &self,
        image: &[u8],
        readings: &[Reading; 8],
        count: usize,
        held: &mut Held,
    ) -> (Option<Refusal>, [Answer; 6]);

    fn begin(&self) -> Self::Chunks;
    fn append(&self, chunks: &mut Self::Chunks, chunk: &[u8]) -> Result<(), Refusal>;
    fn finish(&self, chunks: &mut Self::Chunks, image: &mut [u8]) -> Result<usize, Refusal>;
}

/// The independent implementation.
pub struct Reference;

fn reference_readings(readings: &[Reading; 8]) -> [reference::Reading; 8] {
    readings.map(|reading| match reading.kind {
        1 => reference::Reading::Real(f32::from_bits(reading.real)),
        2 => reference::Reading::Int(reading.int),
        // An unknown kind is refused like an absent reading.
        _ => reference::Reading::Absent,
    })
}

impl Implementation for Reference {
    type Chunks = reference::Chunks;

    fn read_into(&self, text: &[u8], image: &mut [u8]) -> Result<usize, Refusal> {
        reference::read_into(text, image)
    }

    fn check(&self, image: &[u8]) -> Result<(), Refusal> {
        reference::check(image)
    }

    fn list_into(&self, image: &[u8], listing: &mut [u8]) -> Result<usize, Refusal> {
        reference::list_into(image, listing)
    }

    fn fresh(&self, image: &[u8]) -> (Option<Refusal>, Held) {
        match reference::fresh(image) {
            Ok(held) => (None, held),
            Err(refusal) => (Some(refusal), [0; 6]),
        }
    }

    fn evaluate(&self, image: &[u8], readings: &[Reading; 8], count: usize, held: Held) -> Evaluated {
        reference::evaluate(image, &reference_readings(readings), count, held)
    }

    fn evaluate_held(
        &self,
        image: &[u8],
        readings: &[Reading; 8],
        count: usize,
        held: &mut Held,
    ) -> (Option<Refusal>, [Answer; 6]) {
        reference::evaluate_held(image, &reference_readings(readings), count, held)
    }

    fn begin(&self) -> reference::Chunks {
        reference::Chunks::default()
    }

    fn append(&self, chunks: &mut reference::Chunks, chunk: &[u8]) -> Result<(), Refusal> {
        chunks.append(chunk)
    }

    fn finish(&self, chunks: &mut reference::Chunks, image: &mut [u8]) -> Result<usize, Refusal> {
        chunks.finish(image)
    }
}

/// The room of a lent buffer, by the length that is needed.
#[derive(Clone, Copy, Debug)]
pub enum Room {
    Exact,
    Less(usize),
    More(usize),
    None,
}

impl Room {
    fn new(random: &mut Random) -> Room {
        match random.below(6) {
            0 => Room::None,
            1 => Room::Less(1),
            2 => Room::Less(random.size(1, 400)),
            3 => Room::More(random.size(1, 9)),
            _ => Room::Exact,
        }
    }

    pub fn of(self, needed: usize) -> usize {
        match self {
            Room::Exact => needed,
            Room::Less(by) => needed.saturating_sub(by),
            Room::More(by) => needed + by,
            Room::None => 0,
        }
    }
}

pub enum Case {
    Text { text: Vec<u8>, room: Room },
    Image { image: Vec<u8>, room: Room },
    Calls { image: Vec<u8>, calls: Vec<Call> },
    Chunks { steps: Vec<Step> },
}

impl Case {
    /// The case of this number in the run with this seed.
    pub fn new(seed: u64, number: u64) -> Case {
        let random = &mut Random::new(seed, number);
        match random.below(12) {
            0..=4 => Case::Text { text: texts::text(random), room: Room::new(random) },
            5..=7 => Case::Image { image: images::image(random), room: Room::new(random) },
            8 | 9 => {
                let (image, calls) = calls::calls(random);
                Case::Calls { image, calls }
            }
            _ => Case::Chunks { steps: chunks::steps(random) },
        }
    }
}

impl fmt::Display for Case {
    fn fmt(&self, f: &mut fmt::Formatter) -> fmt::Result {
        match self {
            Case::Text { text, room } => write!(f, "{room:?}, text {}", shown(text)),
            Case::Image { image, room } => write!(f, "{room:?}, image {}", hex(image)),
            Case::Calls { image, calls } => {
                writeln!(f, "image {}", hex(image))?;
                calls.iter().try_for_each(|call| writeln!(f, "{call:?}"))
            }
            Case::Chunks { steps } => steps.iter().try_for_each(|step| match step {
                Step::Chunk(chunk) => writeln!(f, "chunk of {} bytes, {}", chunk.len(), shown(chunk)),
                Step::End(room) => writeln!(f, "end, room {room:?}"),
            }),
        }
    }
}

/// A text as Rust writes bytes, but for its many blanks where it was made long.
fn shown(text: &[u8]) -> String {
    format!("b\"{}\"", text.escape_ascii()).replace(&" ".repeat(1000), "{1000 blanks}")
}

fn hex(bytes: &[u8]) -> String {
    bytes.iter().map(|byte| format!("{byte:02x}")).collect()
}
