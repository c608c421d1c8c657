//! Grillenhelm for Rust hosts: FCL texts to stored images and back, and figures from readings.
//!
//! The work is done by the proved static library; this crate gives it types that cannot be misused. An [`Image`] is
//! one that was read from a text or passed the load check. [`TextChunks`] reads a text that comes bit by bit. A
//! [`HeldRecord`] belongs to its image and is what evaluates readings. Whatever is refused is a [`Refusal`], which says
//! why in words.
//!
//! ```
//! use grillenhelm::{Image, Mark, Reading, Refusal};
//!
//! let text = include_bytes!("../../../examples/trust.fcl");
//! let image = Image::read(text)?;
//! let mut record = image.fresh_record();
//!
//! let answers = record.evaluate(&[Reading::Real(30.0)])?;
//! assert_eq!(answers[0].mark, Mark::Fired);
//! assert_eq!(answers[0].value, 25.0);
//!
//! let refusal = record.evaluate(&[Reading::Real(f32::NAN)]).unwrap_err();
//! assert_eq!(refusal, Refusal::UnusableReading { index: 0 });
//! assert_eq!(record.figures()[0], 25_000);
//! # Ok::<(), Refusal>(())
//! ```
//!
//! A thread that calls wants 160 KB of stack; Rust's own threads have more.
#![deny(missing_docs)]
#![deny(unsafe_code)]

mod chunks;
#[allow(missing_docs, unsafe_code)]
mod ffi;
mod refusal;

pub use chunks::TextChunks;
pub use refusal::Refusal;

use std::ops::Deref;
use std::sync::Arc;

/// The library as it is, for the tests.
#[doc(hidden)]
pub mod raw {
    pub use crate::ffi::*;
}

/// How many places a held record has: no block has more outputs.
pub const OUTPUTS: usize = ffi::OUTPUTS;

/// How many bytes the library wrote, or its refusal.
fn written(outcome: ffi::Outcome) -> Result<usize, Refusal> {
    Refusal::of(&outcome).map_or(Ok(outcome.length), Err)
}

/// A stored image of a function block, which was read from a text or passed the load check. A clone shares its bytes.
#[derive(Clone, PartialEq, Eq, Hash, Debug)]
pub struct Image {
    bytes: Arc<[u8]>,
}

impl Image {
    /// Reads an FCL text; refused by 1 to 9. Case does not count in names and keywords; the image has each name as it is
    /// declared, and so has its listing.
    pub fn read(text: &[u8]) -> Result<Image, Refusal> {
        Image::written_by(|buffer| ffi::read(text, buffer))
    }

    /// The image that the library writes to a buffer, which is never too short.
    fn written_by(write: impl FnOnce(&mut [u8]) -> ffi::Outcome) -> Result<Image, Refusal> {
        let mut buffer = vec![0; ffi::IMAGE];
        let length = written(write(&mut buffer))?;
        buffer.truncate(length);
        Ok(Image { bytes: buffer.into() })
    }

    /// Takes stored bytes that pass the load check, which looks at all of them; refused by 11.
    ///
    /// ```
    /// use grillenhelm::{Image, Refusal};
    ///
    /// let image = Image::read(include_bytes!("../../../examples/trust.fcl"))?;
    /// let stored = image.as_bytes();
    /// assert_eq!(Image::check(stored), Ok(image.clone()));
    /// assert_eq!(Image::check(&stored[1..]), Err(Refusal::NotAnImage));
    /// # Ok::<(), Refusal>(())
    /// ```
    pub fn check(bytes: &[u8]) -> Result<Image, Refusal> {
        written(ffi::check(bytes))?;
        Ok(Image { bytes: bytes.into() })
    }

    /// The bytes, to be stored.
    pub fn as_bytes(&self) -> &[u8] {
        &self.bytes
    }

    /// A header word; an image has 28 of them.
    fn header(&self, word: usize) -> usize {
        let bytes = self.bytes.get(4 * word..4 * word + 4).and_then(|bytes| bytes.try_into().ok());
        bytes.map_or(0, |bytes| u32::from_le_bytes(bytes) as usize)
    }

    /// How many inputs the block has, which is how many readings an evaluation takes: 1 to 8.
    pub fn inputs(&self) -> usize {
        self.header(2)
    }

    /// How many outputs the block has, which is how many answers an evaluation gives: 1 to 6.
    pub fn outputs(&self) -> usize {
        self.header(3)
    }

    /// The block as a text, which reads to this image.
    ///
    /// ```
    /// use grillenhelm::{Image, Refusal};
    ///
    /// let image = Image::read(include_bytes!("../../../examples/trust.fcl"))?;
    /// assert!(image.listing().starts_with("FUNCTION_BLOCK trust\n"));
    /// assert_eq!(Image::read(image.listing().as_bytes()), Ok(image));
    /// # Ok::<(), Refusal>(())
    /// ```
    pub fn listing(&self) -> String {
        let mut buffer = vec![0; ffi::LISTING];
        // No listing is longer than the buffer, and an image is not refused.
        let length = self.list_into(&mut buffer).unwrap_or(0);
        String::from_utf8_lossy(&buffer[..length]).into_owned()
    }

    /// Writes the listing to the start of a buffer and gives its length; refused by 10, which leaves the buffer as it
    /// is.
    ///
    /// ```
    /// use grillenhelm::{Image, Refusal};
    ///
    /// let image = Image::read(include_bytes!("../../../examples/trust.fcl"))?;
    /// assert_eq!(image.list_into(&mut [0; 100]), Err(Refusal::BufferTooShort { needed: 449 }));
    /// assert_eq!(image.list_into(&mut [0; 449]), Ok(449));
    /// # Ok::<(), Refusal>(())
    /// ```
    pub fn list_into(&self, buffer: &mut [u8]) -> Result<usize, Refusal> {
        written(ffi::list(&self.bytes, buffer))
    }

    /// The held record that the first evaluation gets: 0 for each output, or the end of its RANGE nearest 0.
    pub fn fresh_record(&self) -> HeldRecord {
        HeldRecord { image: self.clone(), held: ffi::fresh(&self.bytes).held }
    }

    /// A record of this image that the host kept by its figures. Figures that are none of this image have every
    /// evaluation refused by 13.
    ///
    /// ```
    /// use grillenhelm::{Image, Reading, Refusal};
    ///
    /// let image = Image::read(include_bytes!("../../../examples/trust.fcl"))?;
    /// let mut record = image.fresh_record();
    /// record.evaluate(&[Reading::Real(30.0)])?;
    /// let kept = record.figures();
    /// assert_eq!(image.restored_record(kept), record);
    ///
    /// let mut other = image.restored_record([0, 0, 0, 0, 0, 1]);
    /// assert_eq!(other.evaluate(&[Reading::Real(30.0)]), Err(Refusal::ForeignRecord));
    /// # Ok::<(), Refusal>(())
    /// ```
    pub fn restored_record(&self, figures: [i32; OUTPUTS]) -> HeldRecord {
        HeldRecord { image: self.clone(), held: ffi::Held { figures } }
    }
}

/// One reading of an input.
#[derive(Clone, Copy, PartialEq, Debug)]
pub enum Reading {
    /// For an input declared REAL.
    Real(f32),
    /// For an input declared INT.
    Int(i16),
    /// There is none.
    Absent,
}

impl Reading {
    fn crossing(self) -> ffi::Reading {
        match self {
            Reading::Absent => ffi::Reading::default(),
            Reading::Real(real) => ffi::Reading { kind: 1, real, whole: 0 },
            Reading::Int(whole) => ffi::Reading { kind: 2, real: 0.0, whole },
        }
    }
}

/// What an output's figure rests on.
#[derive(Clone, Copy, PartialEq, Eq, Hash, Debug)]
pub enum Mark {
    /// A rule fired.
    Fired,
    /// No rule fired; the figure is the number after DEFAULT.
    Default,
    /// No rule fired and DEFAULT is NC; the figure is the held one.
    Held,
}

/// The answer of one output.
#[derive(Clone, Copy, PartialEq, Debug)]
pub struct Answer {
    /// What the figure rests on.
    pub mark: Mark,
    /// The figure, in thousandths.
    pub thousandths: i32,
    /// The sum of the heights of the output's terms, in millionths; 0 where no rule fired.
    pub sum: u32,
    /// The figure as a number: thousandths / 1000, rounded once.
    pub value: f64,
}

/// The answers of an accepted evaluation, in the order of the declared outputs: a slice of 1 to 6.
#[derive(Clone, Copy, PartialEq, Debug)]
pub struct Answers {
    places: [Answer; OUTPUTS],
    count: usize,
}

impl Answers {
    /// The places up to the first that is marked none.
    fn of(crossed: &[ffi::Answer; OUTPUTS]) -> Answers {
        let mut places = [Answer { mark: Mark::Held, thousandths: 0, sum: 0, value: 0.0 }; OUTPUTS];
        let mut count = 0;
        for (place, crossed) in places.iter_mut().zip(crossed) {
            let mark = match crossed.mark {
                0 => break,
                1 => Mark::Fired,
                2 => Mark::Default,
                3 => Mark::Held,
                other => unreachable!("the library has no mark {other}"),
            };
            *place = Answer { mark, thousandths: crossed.thousandths, sum: crossed.sum, value: crossed.value };
            count += 1;
        }
        Answers { places, count }
    }
}

impl Deref for Answers {
    type Target = [Answer];

    fn deref(&self) -> &[Answer] {
        &self.places[..self.count]
    }
}

/// The held record of an image: the last figure of each output. It carries its image, so that no record is evaluated
/// with another one.
#[derive(Clone, PartialEq, Eq, Debug)]
pub struct HeldRecord {
    image: Image,
    held: ffi::Held,
}

impl HeldRecord {
    /// The image that this is the record of.
    pub fn image(&self) -> &Image {
        &self.image
    }

    /// The last figure of each output in thousandths, 0 in the places past the last, to be kept by the host.
    pub fn figures(&self) -> [i32; OUTPUTS] {
        self.held.figures
    }

    /// Evaluates one reading for each input, in the order of their declaration, and brings the record up to date;
    /// refused by 12 to 14, which leaves it as it is.
    pub fn evaluate(&mut self, readings: &[Reading]) -> Result<Answers, Refusal> {
        let mut crossing = ffi::Readings { at: Default::default(), count: readings.len() };
        for (place, reading) in crossing.at.iter_mut().zip(readings) {
            *place = reading.crossing();
        }
        let reply = ffi::evaluate_held(&self.image.bytes, crossing, &mut self.held);
        Refusal::of(&reply.outcome).map_or(Ok(Answers::of(&reply.answers)), Err)
    }
}
