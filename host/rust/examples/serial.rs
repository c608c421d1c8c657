//! Reads an FCL text that comes over a serial line, bit by bit; now and then nothing has come.
//! Run as `cargo run --example serial ../../examples/crane.fcl`.
use grillenhelm::{Image, Refusal, TextChunks};
use std::io::{self, Write};
use std::process::ExitCode;
use std::{env, fs};

const CHUNK: usize = 60;

/// Hands a text over as the line brings it, and says that it is over.
fn receive(chunks: &mut TextChunks, text: &[u8]) -> Result<Image, Refusal> {
    for (nth, chunk) in text.chunks(CHUNK).enumerate() {
        if nth % 8 == 0 {
            chunks.append(b"")?;
        }
        chunks.append(chunk)?;
    }
    chunks.finish()
}

fn say<T>(out: &mut impl Write, what: &str, answer: &Result<T, Refusal>, chunks: &TextChunks) -> io::Result<()> {
    match answer {
        Ok(_) => writeln!(out, "{what}: accepted"),
        Err(refusal) => writeln!(out, "{what}: {}", refusal.describe(chunks.text())),
    }
}

pub fn show(text: &[u8], out: &mut impl Write) -> io::Result<()> {
    let mut chunks = TextChunks::new();
    let received = receive(&mut chunks, text);
    say(out, "in chunks", &received, &chunks)?;
    writeln!(out, "  the same as at once: {}", received == Image::read(text))?;
    let Ok(image) = received else { return Ok(()) };
    writeln!(out, "  {} bytes of text, {} of image", chunks.text().len(), image.as_bytes().len())?;
    say(out, "a chunk after the end", &chunks.append(b";"), &chunks)?;
    say(out, "the end again", &chunks.finish(), &chunks)?;

    let mut garbled = text.to_vec();
    garbled[text.len() / 2] = b'?';
    chunks.restart();
    let received = receive(&mut chunks, &garbled);
    say(out, "with a byte garbled", &received, &chunks)?;

    chunks.restart();
    let too_long = loop {
        let answer = chunks.append(&[b' '; CHUNK]);
        if answer.is_err() {
            break answer;
        }
    };
    writeln!(out, "{} blanks were kept", chunks.text().len())?;
    say(out, "one more chunk", &too_long, &chunks)?;
    say(out, "the end", &chunks.finish(), &chunks)
}

fn main() -> ExitCode {
    let shown = match env::args_os().nth(1) {
        Some(file) => fs::read(file).and_then(|text| show(&text, &mut io::stdout())),
        None => Err(io::Error::other("serial FILE: FILE holds an FCL text")),
    };
    match shown {
        Ok(()) => ExitCode::SUCCESS,
        Err(error) => {
            eprintln!("{error}");
            ExitCode::FAILURE
        }
    }
}
