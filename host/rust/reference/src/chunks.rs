//! Texts from the serial line, W-201 of document 02.
use crate::{bounds, read_into, Refusal};

/// What has come of a text, and whether it is over.
#[derive(Default)]
pub struct Chunks {
    text: Vec<u8>,
    over: bool,
}

impl Chunks {
    fn refuse_if_over(&self) -> Result<(), Refusal> {
        if self.over {
            Err(Refusal::nowhere(16))
        } else {
            Ok(())
        }
    }

    /// Hands over the bytes that have come, perhaps none.
    pub fn append(&mut self, chunk: &[u8]) -> Result<(), Refusal> {
        self.refuse_if_over()?;
        self.text.extend(chunk);
        self.over = self.text.len() > bounds::TEXT;
        if self.over {
            Err(Refusal::at(1, 0))
        } else {
            Ok(())
        }
    }

    /// Says that the text is over and reads it into a buffer, as `read_into` does.
    pub fn finish(&mut self, buffer: &mut [u8]) -> Result<usize, Refusal> {
        self.refuse_if_over()?;
        self.over = true;
        read_into(&self.text, buffer)
    }
}
