//! An independent implementation of document 01, written from the paper: reader, load check,
//! lister and evaluator; of document 02, texts in chunks, sharp edges and names without case. It is what
//! the proved library is compared with.
#![forbid(unsafe_code)]
#![allow(clippy::needless_range_loop)]

mod block;
mod chunks;
mod evaluate;
mod lexer;
mod lister;
mod numbers;
mod reader;
mod stored;

pub use chunks::Chunks;
pub use evaluate::{evaluate, evaluate_held, Answer, Evaluated, Held, Mark, Reading};
pub use numbers::{nearest, thousandths};
pub use stored::Stored;

/// A refusal's number, and its place, or the needed length for 10, where the papers give one.
#[derive(Clone, Copy, PartialEq, Eq, Debug)]
pub struct Refusal {
    pub number: u8,
    pub place: Option<usize>,
}

impl Refusal {
    pub(crate) fn at(number: u8, place: usize) -> Refusal {
        Refusal { number, place: Some(place) }
    }

    pub(crate) fn nowhere(number: u8) -> Refusal {
        Refusal { number, place: None }
    }
}

/// The image that a text reads to.
pub fn read(text: &[u8]) -> Result<Vec<u8>, Refusal> {
    let block = reader::read(text)?;
    let mut image = vec![0; block.length()];
    block.lay_out(&mut image);
    Ok(image)
}

/// Reads a text into a buffer and gives the image's length. A refusal leaves the buffer as it was.
pub fn read_into(text: &[u8], buffer: &mut [u8]) -> Result<usize, Refusal> {
    let block = reader::read(text)?;
    let length = block.length();
    let image = buffer.get_mut(..length).ok_or(Refusal::at(10, length))?;
    block.lay_out(image);
    Ok(length)
}

/// The load check.
pub fn check(image: &[u8]) -> Result<(), Refusal> {
    stored(image).map(|_| ())
}

/// The listing of an image.
pub fn list(image: &[u8]) -> Result<Vec<u8>, Refusal> {
    Ok(lister::list(&stored(image)?))
}

/// Lists an image into a buffer and gives the listing's length. A refusal leaves the buffer as it was.
pub fn list_into(image: &[u8], buffer: &mut [u8]) -> Result<usize, Refusal> {
    let listing = list(image)?;
    let length = listing.len();
    let room = buffer.get_mut(..length).ok_or(Refusal::at(10, length))?;
    room.copy_from_slice(&listing);
    Ok(length)
}

/// The held record to start with.
pub fn fresh(image: &[u8]) -> Result<Held, Refusal> {
    Ok(stored(image)?.fresh())
}

pub(crate) fn stored(image: &[u8]) -> Result<Stored<'_>, Refusal> {
    Stored::new(image).ok_or(Refusal::nowhere(11))
}

/// Bounds of document 01.
pub(crate) mod bounds {
    pub const TEXT: usize = 65_536;
    pub const INPUTS: usize = 8;
    pub const OUTPUTS: usize = 6;
    pub const TERMS: usize = 7;
    pub const POINTS: usize = 4;
    pub const RULES: usize = 64;
    pub const WORDS: usize = 640;
    pub const CONCLUSIONS: usize = 128;
    pub const PARENTHESES: usize = 8;
    pub const NAME: usize = 16;
}
