//! Texts that come in chunks.
use crate::{ffi, written, Image, Refusal};
use std::fmt;

/// A text that comes in chunks, as over a serial line, in a store that is allocated once.
///
/// However the text is cut, [`finish`](TextChunks::finish) answers what [`Image::read`] does on the whole of it.
///
/// ```
/// use grillenhelm::{Image, Refusal, TextChunks};
///
/// let text = include_bytes!("../../../examples/trust.fcl");
/// let mut chunks = TextChunks::new();
/// for chunk in text.chunks(64) {
///     chunks.append(chunk)?;
/// }
/// assert_eq!(chunks.finish(), Image::read(text));
/// assert_eq!(chunks.append(b";"), Err(Refusal::TextOver));
/// # Ok::<(), Refusal>(())
/// ```
pub struct TextChunks {
    store: Box<[u8]>,
    /// How many bytes have come, or that the text is over; only the library changes it.
    count: usize,
    /// How many bytes had come when the text was over, or have by now.
    kept: usize,
}

impl TextChunks {
    /// The beginning of a text.
    pub fn new() -> TextChunks {
        TextChunks { store: vec![0; ffi::TEXT].into(), count: 0, kept: 0 }
    }

    /// Hands over the bytes that have come, perhaps none; refused by 1 as soon as the text is too long, which is its
    /// end, and by 16 after the end. Whatever else is wrong with the text is told at its end.
    ///
    /// ```
    /// use grillenhelm::{Refusal, TextChunks};
    ///
    /// let mut chunks = TextChunks::new();
    /// assert_eq!(chunks.append(b"No FCL text begins like this,"), Ok(()));
    /// assert_eq!(chunks.append(&[b' '; 65_536]), Err(Refusal::TextTooLong));
    /// assert_eq!(chunks.append(b""), Err(Refusal::TextOver));
    /// ```
    pub fn append(&mut self, chunk: &[u8]) -> Result<(), Refusal> {
        written(ffi::append(chunk, &mut self.store, &mut self.count))?;
        self.kept = self.count;
        Ok(())
    }

    /// Ends the text and reads it; refused by 2 to 9, and by 16 after the end. A refused end is an end.
    pub fn finish(&mut self) -> Result<Image, Refusal> {
        Image::written_by(|buffer| ffi::finish(&self.store, &mut self.count, buffer))
    }

    /// The text as far as it was kept, also after its end; a refusal of [`finish`](TextChunks::finish) has its place
    /// in it.
    ///
    /// ```
    /// use grillenhelm::TextChunks;
    ///
    /// let mut chunks = TextChunks::new();
    /// chunks.append(b"FUNCTION_BLOCK\n  VAR_")?;
    /// chunks.append(b"INPUT")?;
    /// let refusal = chunks.finish().unwrap_err();
    /// assert_eq!(chunks.text(), b"FUNCTION_BLOCK\n  VAR_INPUT");
    /// assert_eq!(refusal.line_and_column(chunks.text()), Some((2, 3)));
    /// # Ok::<(), grillenhelm::Refusal>(())
    /// ```
    pub fn text(&self) -> &[u8] {
        &self.store[..self.kept]
    }

    /// Begins another text in the same store, whether or not this one is over.
    pub fn restart(&mut self) {
        (self.count, self.kept) = (0, 0);
    }
}

impl Default for TextChunks {
    fn default() -> TextChunks {
        TextChunks::new()
    }
}

/// Without the text, which may be long.
impl fmt::Debug for TextChunks {
    fn fmt(&self, f: &mut fmt::Formatter) -> fmt::Result {
        let over = self.count == ffi::OVER;
        f.debug_struct("TextChunks").field("kept", &self.kept).field("over", &over).finish_non_exhaustive()
    }
}
