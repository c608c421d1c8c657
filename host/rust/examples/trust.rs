//! Reads an FCL text, checks its image, and evaluates a few readings of its one input with one held record.
//! Run as `cargo run --example trust ../../examples/trust.fcl`.
use grillenhelm::{HeldRecord, Image, Reading, Refusal};
use std::io::{self, Write};
use std::process::ExitCode;
use std::{env, fs};

fn evaluate(out: &mut impl Write, what: &str, record: &mut HeldRecord, readings: &[Reading]) -> io::Result<()> {
    match record.evaluate(readings) {
        Ok(answers) => {
            for answer in answers.iter() {
                let (mark, value, thousandths, sum) = (answer.mark, answer.value, answer.thousandths, answer.sum);
                writeln!(out, "{what}: {mark:?} {value:.3}, {thousandths} thousandths, sum {sum}")?;
            }
        }
        Err(refusal) => writeln!(out, "{what}: {refusal}")?,
    }
    writeln!(out, "  held: {}", record.figures()[0])
}

fn say(out: &mut impl Write, what: &str, text: &[u8], read: Result<Image, Refusal>) -> io::Result<()> {
    match read {
        Ok(image) => writeln!(out, "{what}: accepted, {} bytes", image.as_bytes().len()),
        Err(refusal) => writeln!(out, "{what}: {}", refusal.describe(text)),
    }
}

pub fn show(text: &[u8], out: &mut impl Write) -> io::Result<()> {
    say(out, "read nothing", b"", Image::read(b""))?;
    say(out, "read", text, Image::read(text))?;
    let Ok(image) = Image::read(text) else { return Ok(()) };
    writeln!(out, "inputs {}, outputs {}", image.inputs(), image.outputs())?;
    let stored = image.as_bytes();
    say(out, "check", b"", Image::check(stored))?;
    say(out, "check without the last byte", b"", Image::check(&stored[..stored.len() - 1]))?;

    let listing = image.listing();
    write!(out, "{listing}")?;
    let misspelt = listing.replace("IS high", "IS hihg");
    say(out, "read with a term misspelt", misspelt.as_bytes(), Image::read(misspelt.as_bytes()))?;

    let mut record = image.fresh_record();
    writeln!(out, "fresh record\n  held: {}", record.figures()[0])?;
    for (what, readings) in [
        ("REAL 30", &[Reading::Real(30.0)][..]),
        ("no reading", &[Reading::Absent]),
        ("REAL NaN", &[Reading::Real(f32::NAN)]),
        ("REAL infinity", &[Reading::Real(f32::INFINITY)]),
        ("INT 30", &[Reading::Int(30)]),
        ("no readings", &[]),
        ("nine readings", &[Reading::Real(30.0); 9]),
        ("REAL 40.5", &[Reading::Real(40.5)]),
        ("REAL -1", &[Reading::Real(-1.0)]),
    ] {
        evaluate(out, what, &mut record, readings)?;
    }

    let mut restored = image.restored_record([0, 0, 0, 0, 0, 1]);
    evaluate(out, "REAL 30, a figure in an unused place", &mut restored, &[Reading::Real(30.0)])?;
    let mut restored = image.restored_record(record.figures());
    evaluate(out, "REAL 60 on the figures kept", &mut restored, &[Reading::Real(60.0)])
}

fn main() -> ExitCode {
    let shown = match env::args_os().nth(1) {
        Some(file) => fs::read(file).and_then(|text| show(&text, &mut io::stdout())),
        None => Err(io::Error::other("trust FILE: FILE holds an FCL text with one input")),
    };
    match shown {
        Ok(()) => ExitCode::SUCCESS,
        Err(error) => {
            eprintln!("{error}");
            ExitCode::FAILURE
        }
    }
}
