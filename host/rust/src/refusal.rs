//! Refusals, by name and in words.
use crate::ffi::Outcome;
use std::error::Error;
use std::fmt;

/// Why a call was refused: the refusals of documents 01 and 02, each with its place.
///
/// `at` is the byte of the text, from 0, where the refused token begins.
///
/// ```
/// use grillenhelm::{Image, Refusal};
///
/// let text = b"FUNCTION_BLOCK\n  VAR_INPUT";
/// let refusal = Image::read(text).unwrap_err();
/// assert_eq!(refusal, Refusal::WrongToken { at: 17 });
/// assert_eq!(refusal.number(), 2);
/// assert_eq!(refusal.line_and_column(text), Some((2, 3)));
/// assert_eq!(
///     refusal.describe(text),
///     "line 2, column 3: a wrong byte or token, or the text ends early (refusal 2)"
/// );
/// ```
#[derive(Clone, Copy, PartialEq, Eq, Hash, Debug)]
pub enum Refusal {
    /// 1: the text is longer than 65,536 bytes.
    TextTooLong,
    /// 2: a wrong byte or token, or the text ends early. A keyword, in whatever case, is no name.
    WrongToken {
        /// Where the token begins, or the text's length.
        at: usize,
    },
    /// 3: the form or the bound of a number.
    WrongNumber {
        /// Where the number begins.
        at: usize,
    },
    /// 4: a name that is too long, or a variable, term, rule number or part given twice, in whatever case.
    LongOrRepeated {
        /// Where the long or second one begins; of a part, where its variable does.
        at: usize,
    },
    /// 5: a name that is not declared for this use.
    Undeclared {
        /// Where the name begins.
        at: usize,
    },
    /// 6: more than a bound allows.
    TooMany {
        /// Where the extra item begins.
        at: usize,
    },
    /// 7: a position that falls, is the third in one place or is outside of RANGE, or fewer than two points.
    WrongPosition {
        /// Where the number begins, or the semicolon that comes too early.
        at: usize,
    },
    /// 8: AND and OR algorithms that are no pair.
    Unpaired {
        /// Where the second algorithm begins.
        at: usize,
    },
    /// 9: a declared variable has no FUZZIFY or DEFUZZIFY part.
    PartMissing {
        /// Where END_FUNCTION_BLOCK begins.
        at: usize,
    },
    /// 10: the buffer is too short.
    BufferTooShort {
        /// The length in bytes that is needed.
        needed: usize,
    },
    /// 11: the bytes are not an image.
    NotAnImage,
    /// 12: the number of readings is not that of the inputs.
    WrongCount,
    /// 13: the held record is not one of this image.
    ForeignRecord,
    /// 14: a reading is absent, not finite or of the wrong kind.
    UnusableReading {
        /// The index of the first such reading, from 0.
        index: usize,
    },
    /// 16: the text in chunks is over, by its end or by a chunk that made it too long.
    TextOver,
}

impl Refusal {
    /// The refusal that an outcome of the library tells, if any.
    pub(crate) fn of(outcome: &Outcome) -> Option<Refusal> {
        let at = outcome.place;
        Some(match outcome.refusal {
            0 => return None,
            1 => Refusal::TextTooLong,
            2 => Refusal::WrongToken { at },
            3 => Refusal::WrongNumber { at },
            4 => Refusal::LongOrRepeated { at },
            5 => Refusal::Undeclared { at },
            6 => Refusal::TooMany { at },
            7 => Refusal::WrongPosition { at },
            8 => Refusal::Unpaired { at },
            9 => Refusal::PartMissing { at },
            10 => Refusal::BufferTooShort { needed: at },
            11 => Refusal::NotAnImage,
            12 => Refusal::WrongCount,
            13 => Refusal::ForeignRecord,
            14 => Refusal::UnusableReading { index: at },
            16 => Refusal::TextOver,
            other => unreachable!("the library has no refusal {other}"),
        })
    }

    /// Its number in documents 01 and 02.
    pub fn number(&self) -> u8 {
        self.number_and_words().0
    }

    /// The byte of the text that a refusal of the reader points at. One of a text as a whole points at none.
    pub fn place_in_text(&self) -> Option<usize> {
        match *self {
            Refusal::WrongToken { at }
            | Refusal::WrongNumber { at }
            | Refusal::LongOrRepeated { at }
            | Refusal::Undeclared { at }
            | Refusal::TooMany { at }
            | Refusal::WrongPosition { at }
            | Refusal::Unpaired { at }
            | Refusal::PartMissing { at } => Some(at),
            _ => None,
        }
    }

    /// The line and the column, in bytes, of the place in the text that was read; both count from 1. A line ends
    /// with its LF. A place past the text is taken as its end.
    pub fn line_and_column(&self, text: &[u8]) -> Option<(usize, usize)> {
        let before = &text[..self.place_in_text()?.min(text.len())];
        let line = before.iter().filter(|byte| **byte == b'\n').count() + 1;
        let column = before.iter().rev().take_while(|byte| **byte != b'\n').count() + 1;
        Some((line, column))
    }

    /// The refusal in words, after line and column of its place in the text that was read, if it has one.
    pub fn describe(&self, text: &[u8]) -> String {
        match self.line_and_column(text) {
            Some((line, column)) => {
                format!("line {line}, column {column}: {} (refusal {})", self.words(), self.number())
            }
            None => self.to_string(),
        }
    }

    fn words(&self) -> &'static str {
        self.number_and_words().1
    }

    fn number_and_words(&self) -> (u8, &'static str) {
        match self {
            Refusal::TextTooLong => (1, "the text is too long"),
            Refusal::WrongToken { .. } => (2, "a wrong byte or token, or the text ends early"),
            Refusal::WrongNumber { .. } => (3, "the form or the bound of a number"),
            Refusal::LongOrRepeated { .. } => {
                (4, "a name that is too long, or something given twice, in whatever case")
            }
            Refusal::Undeclared { .. } => (5, "a name that is not declared for this use"),
            Refusal::TooMany { .. } => (6, "more than a bound allows"),
            Refusal::WrongPosition { .. } => {
                (7, "a position that falls, is the third in one place or is outside of RANGE, or fewer than two points")
            }
            Refusal::Unpaired { .. } => (8, "AND and OR that are no pair"),
            Refusal::PartMissing { .. } => (9, "a declared variable lacks its part"),
            Refusal::BufferTooShort { .. } => (10, "the buffer is too short"),
            Refusal::NotAnImage => (11, "the image is not accepted"),
            Refusal::WrongCount => (12, "the number of readings is not that of the inputs"),
            Refusal::ForeignRecord => (13, "the held record is not one of this image"),
            Refusal::UnusableReading { .. } => (14, "a reading is absent, not finite or of the wrong kind"),
            Refusal::TextOver => (16, "the text is over"),
        }
    }
}

/// The refusal in words, with its place as a number.
impl fmt::Display for Refusal {
    fn fmt(&self, f: &mut fmt::Formatter) -> fmt::Result {
        f.write_str(self.words())?;
        match self {
            Refusal::BufferTooShort { needed } => write!(f, ", {needed} bytes are needed")?,
            Refusal::UnusableReading { index } => write!(f, ", at index {index}")?,
            _ => {
                if let Some(at) = self.place_in_text() {
                    write!(f, ", at byte {at}")?;
                }
            }
        }
        write!(f, " (refusal {})", self.number())
    }
}

impl Error for Refusal {}
