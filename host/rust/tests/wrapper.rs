//! The safe wrapper: what the examples print, every refusal by name and in words, texts in chunks, names without case,
//! answers of each mark and at sharp edges.
use grillenhelm::{Image, Mark, Reading, Refusal, TextChunks};

#[allow(dead_code)]
#[path = "../examples/serial.rs"]
mod serial;
#[allow(dead_code)]
#[path = "../examples/trust.rs"]
mod trust;

const TRUST: &str = include_str!("../../../examples/trust.fcl");

#[test]
fn examples_print_what_is_expected() {
    let mut out = Vec::new();
    trust::show(TRUST.as_bytes(), &mut out).unwrap();
    assert_eq!(String::from_utf8(out).unwrap(), include_str!("../examples/trust.expected"));
    let mut out = Vec::new();
    serial::show(include_bytes!("../../../examples/crane.fcl"), &mut out).unwrap();
    assert_eq!(String::from_utf8(out).unwrap(), include_str!("../examples/serial.expected"));
}

fn refusal_of(text: &str) -> Refusal {
    Image::read(text.as_bytes()).expect_err(text)
}

#[test]
fn refusals_of_the_reader_have_their_names_and_places() {
    type Named = fn(usize) -> Refusal;
    let changes: [(&str, &str, &str, Named); 9] = [
        ("VAR_INPUT", "VAR", "VAR sharp", |at| Refusal::WrongToken { at }),
        ("60.0", "60.0000", "60.0000", |at| Refusal::WrongNumber { at }),
        ("high := 100", "low := 100", "low := 100", |at| Refusal::LongOrRepeated { at }),
        ("IS high", "IS lower", "lower", |at| Refusal::Undeclared { at }),
        ("(60.0,1)", "(60,1),(61,1),(62,1),(63,1)", "(63,1)", |at| Refusal::TooMany { at }),
        ("60.0", "19", "19,1", |at| Refusal::WrongPosition { at }),
        ("(60.0,1)", "(20,1),(+20,0)", "+20,0", |at| Refusal::WrongPosition { at }),
        ("ACCU", "AND : MIN; OR : ASUM; ACCU", "ASUM", |at| Refusal::Unpaired { at }),
        ("sharp: REAL", "sharp, dull: REAL", "END_FUNCTION_BLOCK", |at| Refusal::PartMissing { at }),
    ];
    for (from, to, refused, named) in changes {
        let text = TRUST.replacen(from, to, 1);
        assert_eq!(refusal_of(&text), named(text.find(refused).unwrap()));
    }
    assert_eq!(refusal_of(&" ".repeat(65_537)), Refusal::TextTooLong);
    assert_eq!(refusal_of(&" ".repeat(65_536)), Refusal::WrongToken { at: 65_536 });
}

#[test]
fn numbers_and_words() {
    let at = 3;
    let all = [
        (1, Refusal::TextTooLong),
        (2, Refusal::WrongToken { at }),
        (3, Refusal::WrongNumber { at }),
        (4, Refusal::LongOrRepeated { at }),
        (5, Refusal::Undeclared { at }),
        (6, Refusal::TooMany { at }),
        (7, Refusal::WrongPosition { at }),
        (8, Refusal::Unpaired { at }),
        (9, Refusal::PartMissing { at }),
        (10, Refusal::BufferTooShort { needed: at }),
        (11, Refusal::NotAnImage),
        (12, Refusal::WrongCount),
        (13, Refusal::ForeignRecord),
        (14, Refusal::UnusableReading { index: at }),
        (16, Refusal::TextOver),
    ];
    for (number, refusal) in all {
        assert_eq!(refusal.number(), number);
        assert!(refusal.to_string().ends_with(&format!("(refusal {number})")), "{refusal}");
        let has_line = (2..=9).contains(&number);
        assert_eq!(refusal.line_and_column(b"a\nbc"), has_line.then_some((2, 2)));
    }
    assert_eq!(Refusal::TextTooLong.describe(b"a\nbc"), "the text is too long (refusal 1)");
    assert_eq!(Refusal::TextOver.describe(b"a\nbc"), "the text is over (refusal 16)");
    let too_short = Refusal::BufferTooShort { needed: at };
    assert_eq!(too_short.to_string(), "the buffer is too short, 3 bytes are needed (refusal 10)");
    // A place past the text, its end, and one right after an LF.
    let wrong = Refusal::WrongToken { at };
    assert_eq!(wrong.line_and_column(b"a"), Some((1, 2)));
    assert_eq!(wrong.line_and_column(b"abc"), Some((1, 4)));
    assert_eq!(wrong.line_and_column(b"a\r\n"), Some((2, 1)));
}

#[test]
fn texts_in_chunks() {
    let image = Image::read(TRUST.as_bytes());
    let (first, second) = TRUST.as_bytes().split_at(100);
    let mut chunks = TextChunks::default();
    for _ in 0..2 {
        assert_eq!(chunks.text(), b"");
        assert_eq!((chunks.append(first), chunks.append(b""), chunks.append(second)), (Ok(()), Ok(()), Ok(())));
        assert_eq!(format!("{chunks:?}"), "TextChunks { kept: 386, over: false, .. }");
        assert_eq!(chunks.finish(), image);
        assert_eq!((chunks.append(b""), chunks.finish()), (Err(Refusal::TextOver), Err(Refusal::TextOver)));
        assert_eq!(chunks.text(), TRUST.as_bytes());
        assert_eq!(format!("{chunks:?}"), "TextChunks { kept: 386, over: true, .. }");
        chunks.restart();
    }
    // What was kept stays when the limit is passed, and another text may begin before this one is over.
    chunks.append(first).unwrap();
    assert_eq!(chunks.append(&[b' '; 65_536]), Err(Refusal::TextTooLong));
    assert_eq!(chunks.finish(), Err(Refusal::TextOver));
    assert_eq!(chunks.text(), first);
    chunks.restart();
    chunks.append(b";").unwrap();
    chunks.restart();
    assert_eq!(chunks.finish(), Err(Refusal::WrongToken { at: 0 }));
}

/// Uses and keywords in other letters leave no trace, declarations keep theirs; names alike but for case are one.
#[test]
fn names_without_case() {
    let image = Image::read(TRUST.as_bytes()).unwrap();
    assert_eq!(image.listing(), include_str!("../../../examples/trust.listing"));
    let (declarations, rules) = TRUST.split_at(TRUST.find("RULE 1").unwrap());
    for text in [format!("{declarations}{}", rules.to_ascii_uppercase()), TRUST.to_ascii_lowercase()] {
        assert_eq!(Image::read(text.as_bytes()), Ok(image.clone()), "{text}");
    }
    let capitals = Image::read(TRUST.to_ascii_uppercase().as_bytes()).unwrap();
    assert_eq!(capitals.listing(), image.listing().to_ascii_uppercase().replace("COGS", "CoGS"));

    let repeated = TRUST.replacen("high :=", "Low :=", 1);
    assert_eq!(refusal_of(&repeated), Refusal::LongOrRepeated { at: repeated.find("Low").unwrap() });
    assert_eq!(refusal_of(&TRUST.replacen("trust", "rule", 1)), Refusal::WrongToken { at: 15 });

    // The input's name stands at word 28, the output's at 35, the rule block's at 24.
    let mut stored = image.as_bytes().to_vec();
    stored[112..117].copy_from_slice(b"Sharp");
    let respelt = Image::check(&stored).unwrap();
    assert_eq!(respelt.listing(), image.listing().replace("sharp", "Sharp"));
    for (at, name) in [(140, b"sharp"), (140, b"SHARP"), (96, b"range"), (96, b"Range")] {
        let mut stored = stored.clone();
        stored[at..at + 5].copy_from_slice(name);
        assert_eq!(Image::check(&stored), Err(Refusal::NotAnImage), "{at}, {name:?}");
    }
}

/// A block without a rule for low readings: NC holds what was, a number after DEFAULT stands in for it.
#[test]
fn marks() {
    let text = TRUST.replace("RULE 2: IF NOT sharp IS clear THEN grade IS low;", "");
    let image = Image::read(text.as_bytes()).unwrap();
    let mut record = image.fresh_record();
    let mut call = |real| record.evaluate(&[Reading::Real(real)]).unwrap()[0];
    assert_eq!((call(30.0).mark, call(30.0).thousandths), (Mark::Fired, 100_000));
    let held = call(20.0);
    assert_eq!((held.mark, held.thousandths, held.sum, held.value), (Mark::Held, 100_000, 0, 100.0));

    let image = Image::read(text.replace(":= NC", ":= -2.5").as_bytes()).unwrap();
    let answers = image.fresh_record().evaluate(&[Reading::Real(20.0)]).unwrap();
    assert_eq!((answers.len(), answers[0].mark, answers[0].value), (1, Mark::Default, -2.5));
}

/// Thousandths and sums of heights at the edges of warmth (5 and 40) and of light (100, 200 and 900), and next to them.
#[test]
fn sharp_edges() {
    let image = Image::read(include_bytes!("../../../examples/rectangle.fcl")).unwrap();
    assert_eq!(image.listing(), include_str!("../../../examples/rectangle.listing"));
    assert_eq!(Image::read(image.listing().as_bytes()), Ok(image.clone()));
    let mut record = image.fresh_record();
    let mut call = |warmth, light, thousandths, sum| {
        let answer = record.evaluate(&[Reading::Real(warmth), Reading::Int(light)]).unwrap()[0];
        let expected = (Mark::Fired, thousandths, sum);
        assert_eq!((answer.mark, answer.thousandths, answer.sum), expected, "{warmth}, {light}");
    };
    // At a light of 400 only `lit` is 1: `full` where `rated` is 1, `none` where it is 0. 4.9996 becomes 5.
    for (warmth, thousandths) in
        [(4.999, 0), (4.9996, 100_000), (5.0, 100_000), (5.001, 100_000), (39.999, 100_000), (40.0, 0), (40.001, 0)]
    {
        call(warmth, 400, thousandths, 1_000_000);
    }
    // `dim` alone, 1 up to its edge and 0.5 falling from there; from 200 on `lit`.
    call(20.0, 99, 0, 1_000_000);
    call(20.0, 100, 0, 500_000);
    call(20.0, 101, 0, 495_000);
    call(20.0, 199, 0, 5_000);
    call(20.0, 200, 100_000, 1_000_000);
    call(20.0, 201, 100_000, 1_000_000);
    // `glaring` takes from `full` what it gives to `none`: 0.25, then 498,333 millionths, then all.
    call(20.0, 750, 75_000, 1_000_000);
    call(20.0, 899, 50_167, 1_000_000);
    call(20.0, 900, 0, 1_000_000);
    call(20.0, 901, 0, 1_000_000);
}

/// The RANGE keeps 0 out, so the fresh record starts at its end nearest 0.
#[test]
fn fresh_record_in_a_range() {
    let text = TRUST.replace("TERM low := 0; TERM high := 100;", "RANGE(-9..-3); TERM low := -9; TERM high := -3;");
    let image = Image::read(text.as_bytes()).unwrap();
    assert_eq!(image.fresh_record().figures(), [-3_000, 0, 0, 0, 0, 0]);
    let mut foreign = image.restored_record([0; 6]);
    assert_eq!(foreign.evaluate(&[Reading::Real(30.0)]), Err(Refusal::ForeignRecord));
}

#[test]
fn images_cross_threads() {
    let image = Image::read(TRUST.as_bytes()).unwrap();
    let threads: Vec<_> = (0..4)
        .map(|_| {
            let mut record = image.fresh_record();
            std::thread::spawn(move || record.evaluate(&[Reading::Real(30.0)]).unwrap()[0].thousandths)
        })
        .collect();
    for thread in threads {
        assert_eq!(thread.join().unwrap(), 25_000);
    }
}
