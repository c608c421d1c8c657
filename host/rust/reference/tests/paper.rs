//! Document 01's worked example, its values to check and the errors the trade has made; of document 02, what each
//! sentence of W-201, of W-203 and of W-205 says.
use reference::*;

const TEXT: &str = "FUNCTION_BLOCK trust VAR_INPUT sharp: REAL; END_VAR VAR_OUTPUT grade: REAL; END_VAR \
FUZZIFY sharp TERM clear := (20,0),(60.0,1); END_FUZZIFY DEFUZZIFY grade TERM low := 0; TERM high := 100; \
METHOD : CoGS; DEFAULT := NC; END_DEFUZZIFY RULEBLOCK r ACCU : MAX; RULE 1: IF sharp IS clear THEN grade IS high; \
RULE 2: IF NOT sharp IS clear THEN grade IS low; END_RULEBLOCK END_FUNCTION_BLOCK\n";

const LISTING: &str = "\
FUNCTION_BLOCK trust
VAR_INPUT
  sharp : REAL;
END_VAR
VAR_OUTPUT
  grade : REAL;
END_VAR
FUZZIFY sharp
  TERM clear := (20, 0), (60, 1);
END_FUZZIFY
DEFUZZIFY grade
  TERM low := 0;
  TERM high := 100;
  METHOD : CoGS;
  DEFAULT := NC;
END_DEFUZZIFY
RULEBLOCK r
  AND : MIN;
  OR : MAX;
  ACT : MIN;
  ACCU : MAX;
  RULE 1 : IF sharp IS clear THEN grade IS high;
  RULE 2 : IF sharp IS NOT clear THEN grade IS low;
END_RULEBLOCK
END_FUNCTION_BLOCK
";

fn refused(number: u8, place: usize) -> Result<Vec<u8>, Refusal> {
    Err(Refusal { number, place: Some(place) })
}

/// The worked example with one part of it replaced, and where that part starts.
fn with(old: &str, new: &str) -> (Vec<u8>, usize) {
    let at = TEXT.find(old).unwrap();
    assert_eq!(TEXT.matches(old).count(), 1, "{old}");
    (TEXT.replace(old, new).into_bytes(), at)
}

/// A replacement is refused, so many bytes behind its start.
fn refuses(old: &str, new: &str, number: u8, behind: usize) {
    let (text, at) = with(old, new);
    assert_eq!(read(&text), refused(number, at + behind), "{new}");
}

fn words(image: &[u8]) -> Vec<i32> {
    image.chunks(4).map(|w| i32::from_le_bytes(w.try_into().unwrap())).collect()
}

fn reals(values: &[f32]) -> ([Reading; 8], usize) {
    let mut readings = [Reading::Absent; 8];
    for (place, &value) in readings.iter_mut().zip(values) {
        *place = Reading::Real(value);
    }
    (readings, values.len())
}

fn first_answer(text: &str, values: &[f32]) -> Answer {
    let image = read(text.as_bytes()).unwrap();
    let (readings, count) = reals(values);
    let call = evaluate(&image, &readings, count, fresh(&image).unwrap());
    assert_eq!(call.refusal, None);
    call.answers[0]
}

/// A block with inputs a, b, .. whose term t is their value, and one output `o`.
fn block(inputs: &str, fuzzify: &str, terms: &str, head: &str, rules: &str) -> String {
    let parts: String =
        inputs.split(',').map(|input| format!("FUZZIFY {input} TERM t := {fuzzify}; END_FUZZIFY ")).collect();
    format!(
        "FUNCTION_BLOCK f VAR_INPUT {inputs} : REAL; END_VAR VAR_OUTPUT o : REAL; END_VAR {parts}\
         DEFUZZIFY o {terms} METHOD : CoGS; DEFAULT := NC; END_DEFUZZIFY RULEBLOCK r {head} ACCU : MAX; \
         {rules} END_RULEBLOCK END_FUNCTION_BLOCK"
    )
}

/// The degree of a condition, which one singleton's height shows.
fn degree(condition: &str, head: &str, fuzzify: &str, values: &[f32]) -> u32 {
    let inputs = &"a,b,c"[..2 * values.len() - 1];
    let rules = format!("RULE 1 : IF {condition} THEN o IS x;");
    first_answer(&block(inputs, fuzzify, "TERM x := 1;", head, &rules), values).sum
}

#[test]
fn worked_example() {
    let image = read(TEXT.as_bytes()).unwrap();
    assert_eq!(image.len(), 4 * 91);
    let words = words(&image);
    assert_eq!(words[..2], [1, 91]);
    assert_eq!(words[9..16], [28, 35, 46, 64, 72, 84, 87]);
    assert_eq!(words[84..87], [16, 16, 0]);
    assert_eq!(list(&image).unwrap(), LISTING.as_bytes());
    assert_eq!(read(LISTING.as_bytes()).unwrap(), image);
    assert_eq!(check(&image), Ok(()));

    let answer = first_answer(TEXT, &[30.0]);
    let expected = Answer { mark: Mark::Fired, thousandths: 25_000, sum: 1_000_000, value: 25.0 };
    assert_eq!(answer, expected);
}

#[test]
fn degrees_of_terms() {
    let rules = "RULE 1 : IF a IS t THEN o IS x;";
    let text = block("a", "(0,0),(3,1)", "TERM x := 1;", "", rules);
    assert_eq!(first_answer(&text, &[1.0]).sum, 333_333);
    assert_eq!(first_answer(&text, &[2.0]).sum, 666_667);
    assert_eq!(first_answer(&text, &[-1.0]).sum, 0);
    assert_eq!(first_answer(&text, &[f32::MAX]).sum, 1_000_000);
}

#[test]
fn rounding() {
    assert_eq!(nearest(500 * 1000, 1_000_000), 1);
    assert_eq!(nearest(499 * 1000, 1_000_000), 0);
    assert_eq!(thousandths(0.0625), Some(63));
    assert_eq!(thousandths(-0.0625), Some(-62));
    assert_eq!(thousandths(3e38), Some(1_000_000_000));
    assert_eq!(thousandths(-3e38), Some(-1_000_000_000));
    assert_eq!(thousandths(1_000_000.06), Some(1_000_000_000));
    assert_eq!(thousandths(999_999.94), Some(999_999_938));
    assert_eq!(thousandths(8_388_608.0), Some(1_000_000_000));
    assert_eq!(thousandths(0.0005), Some(1));
    assert_eq!(thousandths(f32::from_bits(0.0005f32.to_bits() - 1)), Some(0));
    for tiny in [0.0, -0.0, f32::MIN_POSITIVE, f32::from_bits(1), -f32::from_bits(1), 1e-11, -1e-11] {
        assert_eq!(thousandths(tiny), Some(0), "{tiny}");
    }
    for not_finite in [f32::NAN, -f32::NAN, f32::INFINITY, f32::NEG_INFINITY] {
        assert_eq!(thousandths(not_finite), None);
    }
}

#[test]
fn operators() {
    let ramp = "(0,0),(1,1)";
    assert_eq!(degree("a IS t OR b IS t", "AND : PROD;", ramp, &[0.5, 0.5]), 750_000);
    assert_eq!(degree("a IS t AND b IS t", "OR : BSUM;", ramp, &[0.6, 0.5]), 100_000);
    // PROD(500, 1000) and PROD(499, 1000) in millionths.
    let flat = "(0,0),(1000,1)";
    assert_eq!(degree("a IS t AND b IS t", "AND : PROD;", flat, &[0.5, 1.0]), 1);
    assert_eq!(degree("a IS t AND b IS t", "AND : PROD;", flat, &[0.499, 1.0]), 0);
    // AND binds before OR; from left to right it would be 0.1.
    assert_eq!(degree("a IS t OR b IS t AND c IS t", "", ramp, &[0.2, 0.9, 0.1]), 200_000);
    assert_eq!(degree("(a IS t OR b IS t) AND c IS t", "", ramp, &[0.2, 0.9, 0.1]), 100_000);
    assert_eq!(degree("NOT a IS NOT t", "", ramp, &[0.2]), 200_000);
}

#[test]
fn centre_of_gravity() {
    let two = "TERM x := -0.003; TERM y := 0;";
    let text = block("a", "(0,0),(1,1)", two, "", "RULE 1 : IF a IS t THEN o IS x, o IS y;");
    assert_eq!(first_answer(&text, &[0.5]).thousandths, -1);
    let three = "TERM x := -0.003; TERM y := -0.002; TERM z := 0;";
    let text = block("a", "(0,0),(1,1)", three, "", "RULE 1 : IF a IS t THEN o IS x, o IS y, o IS z;");
    assert_eq!(first_answer(&text, &[0.5]).thousandths, -2);
    let text = block("a", "(0,0),(1,1)", "TERM x := 0;", "", "RULE 1 : IF a IS t THEN o IS x WITH 0.5;");
    assert_eq!(first_answer(&text, &[0.25]).sum, 125_000);
}

#[test]
fn no_rule_fired() {
    // A default, a held value and the mark; nothing becomes a confident 0.
    let ramp = "(0,0),(1,1)";
    let rules = "RULE 1 : IF a IS t THEN o IS x;";
    let held = block("a", ramp, "RANGE(2..9); TERM x := 5;", "", rules);
    let answer = first_answer(&held, &[0.0]);
    assert_eq!(answer, Answer { mark: Mark::Held, thousandths: 2_000, sum: 0, value: 2.0 });
    let default = held.replace("DEFAULT := NC", "DEFAULT := 7.001");
    let answer = first_answer(&default, &[0.0]);
    assert_eq!(answer, Answer { mark: Mark::Default, thousandths: 7_001, sum: 0, value: 7.001 });

    let image = read(held.as_bytes()).unwrap();
    let mut record = fresh(&image).unwrap();
    let (fires, count) = reals(&[1.0]);
    evaluate_held(&image, &fires, count, &mut record);
    assert_eq!(record, [5_000, 0, 0, 0, 0, 0]);
    let (rests, _) = reals(&[0.0]);
    let (refusal, answers) = evaluate_held(&image, &rests, count, &mut record);
    assert_eq!((refusal, answers[0].mark, answers[0].thousandths), (None, Mark::Held, 5_000));
}

#[test]
fn calls_refused() {
    let image = read(TEXT.as_bytes()).unwrap();
    let (readings, count) = reals(&[30.0]);
    let held = [0; 6];
    let refusal = |image: &[u8], readings: &[Reading; 8], count, held| {
        let call = evaluate(image, readings, count, held);
        assert_eq!((call.answers, call.held), ([Answer::default(); 6], held));
        let refusal = call.refusal.unwrap();
        (refusal.number, refusal.place)
    };
    assert_eq!(refusal(&image[..360], &[Reading::Absent; 8], 9, [1; 6]), (11, None));
    for wrong in [0, 2, 9, usize::MAX] {
        assert_eq!(refusal(&image, &[Reading::Absent; 8], wrong, [1; 6]), (12, None));
    }
    assert_eq!(refusal(&image, &[Reading::Absent; 8], count, [0, 1, 0, 0, 0, 0]), (13, None));
    assert_eq!(refusal(&image, &readings, count, [1_000_000_001, 0, 0, 0, 0, 0]), (13, None));
    for wrong in [Reading::Absent, Reading::Int(30), Reading::Real(f32::NAN)] {
        assert_eq!(refusal(&image, &[wrong; 8], count, held), (14, Some(0)));
    }
    assert_eq!(fresh(&image[..360]), Err(Refusal { number: 11, place: None }));
}

#[test]
fn numbers_in_text() {
    let range = |range: &str| with("TERM low := 0;", &format!("RANGE({range}); TERM low := 0;"));
    // Not the number `0.` and a stray point.
    assert!(read(&range("0..100").0).is_ok());
    let start = TEXT.find("TERM low").unwrap() + 6;
    assert_eq!(read(&range("0.. .100").0), refused(2, start + 4));
    assert_eq!(read(&range("0...100").0), refused(2, start + 3));
    assert_eq!(read(&range("5..5").0), refused(7, start + 3));
    refuses("high := 100", "high := 100.", 2, 11);
    refuses("high := 100", "high := .5", 2, 8);
    refuses("high := 100", "high := - 5", 2, 8);
    refuses("high := 100", "high := 00000100", 3, 8);
    refuses("high := 100", "high := -1.0000", 3, 8);
    refuses("high := 100", "high := 1000000.001", 3, 8);
    assert!(read(&with("high := 100", "high := +0000100.000").0).is_ok());
    refuses("RULE 1:", "RULE +1:", 3, 5);
    refuses("RULE 1:", "RULE 1.0:", 3, 5);
    refuses("RULE 1:", "RULE 0:", 3, 5);
    refuses("RULE 1:", "RULE 65536:", 3, 5);
    refuses("RULE 2:", "RULE 0001:", 4, 5);
    refuses("(60.0,1)", "(60.0,1.001)", 3, 6);
    refuses("(60.0,1)", "(19.0,1)", 7, 1);
    refuses(",(60.0,1)", "", 7, 0);
    refuses("(20,0),(60.0,1)", "", 2, 0);
}

#[test]
fn names_and_tokens() {
    assert_eq!(read(b""), refused(2, 0));
    assert_eq!(read(b" (* open *"), refused(2, 1));
    assert_eq!(read(b"(*)"), refused(2, 0));
    let sixteen = TEXT.replace("trust", "abcdefghijklmnop");
    assert!(read(sixteen.as_bytes()).is_ok());
    refuses("trust", "abcdefghijklmnopq", 4, 0);
    refuses("trust", "abcdefghijklmnop_", 2, 0);
    refuses("trust", "a__b", 2, 0);
    refuses("trust", "END_FUNCTION_BLOCK", 2, 0);
    refuses("trust", "12345678", 2, 0);
    refuses("grade: REAL", "sharp: REAL", 4, 0);
    refuses("grade: REAL", "grade: INT", 2, 7);
    refuses("FUZZIFY sharp", "FUZZIFY grade", 5, 8);
    refuses("CoGS", "CoG", 2, 0);
    refuses("IF sharp", "IF NOT NOT sharp", 2, 7);
    refuses("ACCU : MAX", "AND : MIN; OR : ASUM; ACCU : MAX", 8, 16);
    refuses("ACCU : MAX", "AND : MIN; AND : MIN; ACCU : MAX", 2, 11);
    refuses("sharp: REAL", "sharp, other: REAL", 9, TEXT.len() - 19 + 7 - TEXT.find("sharp:").unwrap());
    let (mut text, _) = with("END_FUNCTION_BLOCK\n", "END_FUNCTION_BLOCK\n(* end *) ;");
    assert_eq!(read(&text), refused(2, text.len() - 1));
    text.pop();
    assert!(read(&text).is_ok());
    text.resize(65_536, b' ');
    assert!(read(&text).is_ok());
    text.push(b' ');
    assert_eq!(read(&text), refused(1, 0));
}

#[test]
fn parentheses() {
    let nested = |depth: usize| {
        let (open, close) = ("(".repeat(depth), ")".repeat(depth));
        with("IF sharp IS clear", &format!("IF {open}sharp IS clear{close}"))
    };
    assert_eq!(read(&nested(8).0), read(TEXT.as_bytes()));
    let (text, at) = nested(9);
    assert_eq!(read(&text), refused(6, at + 3 + 8));

    let shown = |condition: &str| {
        let image = read(&with("IF sharp IS clear", &format!("IF {condition}")).0).unwrap();
        let listing = String::from_utf8(list(&image).unwrap()).unwrap();
        let line = listing.lines().find(|line| line.starts_with("  RULE 1")).unwrap();
        line["  RULE 1 : IF ".len()..line.len() - " THEN grade IS high;".len()].replace("sharp IS ", "")
    };
    let t = "sharp IS clear";
    for (condition, listed) in [
        (format!("NOT (NOT (NOT ({t})))"), "NOT (NOT NOT clear)"),
        ("NOT sharp IS NOT clear".into(), "NOT NOT clear"),
        (format!("({t} AND {t}) AND {t}"), "clear AND clear AND clear"),
        (format!("{t} AND ({t} AND {t})"), "clear AND (clear AND clear)"),
        (format!("({t} AND {t}) OR ({t} AND {t})"), "clear AND clear OR clear AND clear"),
        (format!("{t} OR ({t} OR {t})"), "clear OR (clear OR clear)"),
        (format!("({t} OR {t}) AND NOT ({t})"), "(clear OR clear) AND NOT clear"),
        (format!("NOT ({t} AND {t})"), "NOT (clear AND clear)"),
    ] {
        assert_eq!(shown(&condition), listed);
    }
}

#[test]
fn load_check_trusts_nothing() {
    let image = read(TEXT.as_bytes()).unwrap();
    for at in 0..91 {
        let word = words(&image)[at];
        for changed in [0, 1, -1, i32::MIN, i32::MAX, word + 1, word - 1, word ^ 1 << 8] {
            let mut damaged = image.clone();
            damaged[4 * at..4 * at + 4].copy_from_slice(&changed.to_le_bytes());
            // What still passes is the image of its own listing.
            if let Ok(listing) = list(&damaged) {
                assert_eq!(read(&listing).unwrap(), damaged);
            }
            if (1..16).contains(&at) && changed != word {
                assert!(check(&damaged).is_err(), "word {at}");
            }
        }
    }
    let mut longer = image.clone();
    longer.extend([0; 4]);
    assert!(check(&longer).is_err());
    assert!((0..image.len()).all(|length| check(&image[..length]).is_err()));
}

#[test]
fn buffers() {
    let image = read(TEXT.as_bytes()).unwrap();
    let mut room = [7; 400];
    assert_eq!(read_into(TEXT.as_bytes(), &mut room[..363]), Err(Refusal { number: 10, place: Some(364) }));
    assert_eq!(room, [7; 400]);
    assert_eq!(read_into(TEXT.as_bytes(), &mut room), Ok(364));
    assert_eq!((&room[..364], &room[364..]), (&image[..], &[7; 36][..]));
    let mut room = [7; 700];
    let length = LISTING.len();
    assert_eq!(list_into(&image, &mut room[..length - 1]), Err(Refusal { number: 10, place: Some(length) }));
    assert_eq!(room, [7; 700]);
    assert_eq!(list_into(&image, &mut room), Ok(length));
    assert_eq!((&room[..length], room[length]), (LISTING.as_bytes(), 7));
}

const OVER: Refusal = Refusal { number: 16, place: None };

/// What the end answers after these chunks, each of which is accepted, and the buffer then.
fn in_chunks(chunks: &[&[u8]]) -> (Result<usize, Refusal>, [u8; 400]) {
    let mut text = Chunks::default();
    for chunk in chunks {
        assert_eq!(text.append(chunk), Ok(()));
    }
    let mut buffer = [7; 400];
    (text.finish(&mut buffer), buffer)
}

/// Every later call is refused by 16, before 1 and before 10, and leaves the buffer as it was.
fn is_over(mut text: Chunks) {
    let mut buffer = [7; 400];
    for _ in 0..2 {
        assert_eq!(text.append(b";"), Err(OVER));
        assert_eq!(text.append(b""), Err(OVER));
        assert_eq!(text.append(&[b' '; 65_537]), Err(OVER));
        assert_eq!(text.finish(&mut buffer), Err(OVER));
        assert_eq!(text.finish(&mut []), Err(OVER));
    }
    assert_eq!(buffer, [7; 400]);
}

/// However the text was cut, the image equals that of reading it at once.
#[test]
fn image_of_chunks() {
    let image = read(TEXT.as_bytes()).unwrap();
    let is_read = |chunks: &[&[u8]]| {
        let (answer, buffer) = in_chunks(chunks);
        assert_eq!(answer, Ok(364));
        assert_eq!((&buffer[..364], &buffer[364..]), (&image[..], &[7; 36][..]));
    };
    is_read(&[TEXT.as_bytes()]);
    is_read(&TEXT.as_bytes().chunks(1).collect::<Vec<_>>());
    // Inside a keyword, a number and `:=`, and with nothing come in between.
    for inside in ["FUNC", "sha", "TERM clear :", "(60.", "END_FUNCTION_BLOCK"] {
        let (before, after) = TEXT.as_bytes().split_at(TEXT.find(inside).unwrap() + inside.len());
        is_read(&[before, after]);
        is_read(&[b"", before, b"", b"", after, b""]);
    }
    is_read(&[b"(", b"* a comment *", b")", TEXT.as_bytes()]);
}

/// The refusal and its place, counted from the first byte, equal those of reading at once; both are kept until the end.
#[test]
fn refusals_of_chunks() {
    let is_refused = |chunks: &[&[u8]], number, place| {
        assert_eq!(in_chunks(chunks), (Err(Refusal { number, place: Some(place) }), [7; 400]));
    };
    is_refused(&[], 2, 0);
    is_refused(&[b""], 2, 0);
    // The name is missing: VAR_INPUT at 17 stands in its place.
    let text = b"FUNCTION_BLOCK\n  VAR_INPUT sharp";
    for at in 0..=text.len() {
        is_refused(&[&text[..at], &text[at..]], 2, 17);
    }
    // Names that are cut: ab a second time, and one of 17 bytes.
    is_refused(&[b"FUNCTION_BLOCK f VAR_INPUT a", b"b, a", b"b : REAL;"], 4, 31);
    is_refused(&[b"FUNCTION_BLOCK abcdefgh", b"ijklmnop", b"q VAR_INPUT"], 4, 15);
    // The first refusal stands, whatever comes behind it.
    is_refused(&[b"FUNCTION_BLOCK ;", TEXT.as_bytes(), b"(*"], 2, 15);
    // A comment that is never closed.
    is_refused(&[b" (", b"*", TEXT.as_bytes()], 2, 1);
}

/// A refused end is an end: a call after it is a call after the end.
#[test]
fn calls_after_the_end() {
    let ended = |chunk: &[u8], room: usize| {
        let mut text = Chunks::default();
        assert_eq!(text.append(chunk), Ok(()));
        let answer = text.finish(&mut vec![7; room]);
        is_over(text);
        answer
    };
    assert_eq!(ended(TEXT.as_bytes(), 364), Ok(364));
    assert_eq!(ended(b"END", 364), Err(Refusal { number: 2, place: Some(0) }));
    assert_eq!(ended(TEXT.as_bytes(), 363), Err(Refusal { number: 10, place: Some(364) }));
    assert_eq!(ended(TEXT.as_bytes(), 0), Err(Refusal { number: 10, place: Some(364) }));
}

/// Exactly 65,536 bytes are read; one more is refused at once, before what is kept, and counts as the end.
#[test]
fn chunks_that_pass_the_limit() {
    let too_long = Err(Refusal { number: 1, place: Some(0) });
    let mut long = TEXT.as_bytes().to_vec();
    long.resize(65_536, b' ');
    assert_eq!(in_chunks(&[&long]).0, Ok(364));
    assert_eq!(in_chunks(&[&long[..300], &long[300..], b"", b""]).0, Ok(364));
    assert_eq!(in_chunks(&[&[b' '; 65_535], b" "]).0, Err(Refusal { number: 2, place: Some(65_536) }));
    // Of what comes before it, the first is right and the second refused at its first byte.
    for before in [&long[..], &[b';'; 65_536]] {
        for cut in [0, 1, 65_535, 65_536] {
            let mut text = Chunks::default();
            assert_eq!(text.append(&before[..cut]), Ok(()));
            assert_eq!(text.append(b""), Ok(()));
            assert_eq!(text.append(&[&before[cut..], b" "].concat()), too_long);
            is_over(text);
        }
    }
    let mut text = Chunks::default();
    assert_eq!(text.append(&[b' '; 200_000]), too_long);
    is_over(text);
}

/// The degrees of a term with these points at some readings.
fn has_degrees(points: &str, degrees: &[(f32, u32)]) {
    for &(x, expected) in degrees {
        assert_eq!(degree("a IS t", "", points, &[x]), expected, "{points} at {x}");
    }
}

/// The rectangle of annex A is 1 from its first edge on and 0 from its second.
#[test]
fn rectangle() {
    let points = "(2,0),(2,1),(5,1),(5,0)";
    has_degrees(points, &[(-1e6, 0), (1.999, 0), (2.0, 1_000_000), (2.001, 1_000_000), (3.5, 1_000_000)]);
    has_degrees(points, &[(4.999, 1_000_000), (5.0, 0), (5.001, 0), (1e6, 0)]);
    let text = block("a", points, "TERM x := 1;", "", "RULE 1 : IF a IS t THEN o IS x;");
    let image = read(text.replace("a : REAL", "a : INT").as_bytes()).unwrap();
    for (whole, expected) in [(1, 0), (2, 1_000_000), (4, 1_000_000), (5, 0), (6, 0)] {
        let call = evaluate(&image, &[Reading::Int(whole); 8], 1, [0; 6]);
        assert_eq!((call.refusal, call.answers[0].sum), (None, expected), "{whole}");
    }
    // Turned over, it is 0 between them.
    let points = "(2,1),(2,0),(5,0),(5,1)";
    has_degrees(points, &[(1.999, 1_000_000), (2.0, 0), (4.999, 0), (5.0, 1_000_000), (5.001, 1_000_000)]);
}

/// At the position of a pair the later point's degree holds, wherever the pair stands.
#[test]
fn degrees_at_edges() {
    // First: below it the first point's degree, above it 1 falls to 0 over 4,000 thousandths.
    let first = "(0,0.25),(0,1),(4,0)";
    has_degrees(first, &[(-7.0, 250_000), (-0.001, 250_000), (0.0, 1_000_000), (0.001, 999_750)]);
    has_degrees(first, &[(1.0, 750_000), (4.0, 0), (4.001, 0)]);
    // Behind an edge, the starred values of (0,0),(3,1).
    has_degrees("(0,1),(0,0),(3,1)", &[(-0.001, 1_000_000), (0.0, 0), (1.0, 333_333), (2.0, 666_667)]);
    // Last: up to it 0 rises to 0.5.
    let last = "(0,0),(4,0.5),(4,1)";
    has_degrees(last, &[(-1.0, 0), (0.0, 0), (3.0, 375_000), (3.999, 499_875)]);
    has_degrees(last, &[(4.0, 1_000_000), (4.001, 1_000_000), (9.0, 1_000_000)]);
    // In the middle: 0 rises to 1, then 0.2 to 0.6.
    let middle = "(0,0),(1,1),(1,0.2),(2,0.6)";
    has_degrees(middle, &[(-1.0, 0), (0.0, 0), (0.5, 500_000), (0.999, 999_000), (1.0, 200_000)]);
    has_degrees(middle, &[(1.001, 200_400), (1.5, 400_000), (2.0, 600_000), (3.0, 600_000)]);
    // Both: (0.3 + 1999 times 0.7) / 2000 just before the second pair.
    let both = "(-1,0.1),(-1,0.3),(1,0.7),(1,0.2)";
    has_degrees(both, &[(-2.0, 100_000), (-1.001, 100_000), (-1.0, 300_000), (-0.999, 300_200), (0.0, 500_000)]);
    has_degrees(both, &[(0.999, 699_800), (1.0, 200_000), (1.001, 200_000)]);
    // Alone, rising, falling and level.
    has_degrees("(3,0.2),(3,0.7)", &[(-3.0, 200_000), (2.999, 200_000), (3.0, 700_000), (3.001, 700_000)]);
    has_degrees("(3,1),(3,0)", &[(2.999, 1_000_000), (3.0, 0), (3.001, 0)]);
    has_degrees("(3,0.4),(3,0.4)", &[(2.999, 400_000), (3.0, 400_000), (3.001, 400_000)]);
    // A level pair is no jump.
    has_degrees("(0,0),(1,0.5),(1,0.5),(2,1)", &[(0.999, 499_500), (1.0, 500_000), (1.001, 500_500)]);
    // The readings of document 01 that become 63 and -62, and the ends of all crisp values.
    has_degrees("(0.063,0),(0.063,1)", &[(0.062, 0), (0.0625, 1_000_000)]);
    has_degrees("(-0.062,0),(-0.062,1)", &[(-0.063, 0), (-0.0625, 1_000_000)]);
    has_degrees("(-1000000,0.5),(-1000000,1)", &[(-3e38, 1_000_000), (0.0, 1_000_000)]);
    has_degrees("(1000000,0.5),(1000000,1)", &[(999_999.94, 500_000), (1e6, 1_000_000), (3e38, 1_000_000)]);
}

/// 7 for a falling position or a third equal one, at the number. The first point stands at 20.
#[test]
fn positions_refused() {
    let last = "(60.0,1)";
    for pairs in
        ["(20,1)", "(20.0,0)", "(20,1),(60,0)", "(60,1),(60,0)", "(20,1),(60,1),(60,0)", "(60,1),(60,0),(61,0)"]
    {
        assert!(read(&with(last, pairs).0).is_ok(), "{pairs}");
    }
    refuses(last, "(19.999,1)", 7, 1);
    refuses(last, "(-20,1)", 7, 1);
    refuses(last, "(20,1),(20,0)", 7, 8);
    refuses(last, "(20,1),(+20.000,0),(60,1)", 7, 8);
    refuses(last, "(20,1),(20,0),(20,1)", 7, 8);
    refuses(last, "(60,1),(60,0),(60,1)", 7, 15);
    refuses(last, "(60,1),(60,0),(+0060,1)", 7, 15);
    refuses(last, "(20,1),(19.999,0)", 7, 8);
    refuses(last, "(20,1),(-20,0)", 7, 8);
    refuses(last, "(60,1),(60,0),(59.999,1)", 7, 15);
    refuses(last, "(60,1),(60,0),(20,1)", 7, 15);
    refuses(last, "(20,1),(60,0),(20,1)", 7, 15);
    // -0, 0 and +0 are one position.
    refuses("(20,0),(60.0,1)", "(0,0),(+0,1),(-0.0,0)", 7, 14);
    // 2 and 3 of the number come first; what stands behind it comes later.
    refuses(last, "(20,1),(20.0000,0)", 3, 8);
    refuses(last, "(20,1),(-1000000.001,0)", 3, 8);
    refuses(last, "(20,1),(- 20,0)", 2, 8);
    refuses(last, "(20,1),(20;0)", 7, 8);
    // A pair counts two: 6 at the fifth parenthesis, whatever stands in it.
    refuses(last, "(20,1),(60,1),(60,0),(61,0)", 6, 21);
    refuses(last, "(20,1),(60,1),(60,0),(60,0)", 6, 21);
    refuses(last, "(20,1),(60,1),(60,0),(;", 6, 21);
}

/// Four points at these positions, with the degrees of a rectangle, in place of the worked example's two.
fn with_positions(positions: [i32; 4]) -> Vec<u8> {
    let mut image = read(&with("(60.0,1)", "(60,1),(61,1),(62,0)").0).unwrap();
    for (nth, position) in positions.into_iter().enumerate() {
        let at = 4 * (64 + 2 * nth);
        image[at..at + 4].copy_from_slice(&position.to_le_bytes());
    }
    image
}

/// Equal positions are stored and listed twice, and read back.
#[test]
fn edges_stored_and_listed() {
    let image = read(&with("(20,0),(60.0,1)", "(+20,0),(20.0,1),(60,1.000),(060,0)").0).unwrap();
    let words = words(&image);
    // Two points more than in the worked example, so four words.
    assert_eq!((words.len(), words[1], words[5]), (95, 95, 6));
    assert_eq!(words[9..16], [28, 35, 46, 64, 76, 88, 91]);
    assert_eq!(words[64..72], [20_000, 0, 20_000, 1_000_000, 60_000, 1_000_000, 60_000, 0]);
    assert_eq!(check(&image), Ok(()));
    let listing = LISTING.replace("(20, 0), (60, 1)", "(20, 0), (20, 1), (60, 1), (60, 0)");
    assert_eq!(list(&image).unwrap(), listing.as_bytes());
    assert_eq!(read(listing.as_bytes()), Ok(image.clone()));
    assert_eq!(with_positions([20_000, 20_000, 60_000, 60_000]), image);
}

/// The load check takes pairs, and neither a third equal position nor a falling one.
#[test]
fn edges_in_images() {
    const MOST: i32 = 1_000_000_000;
    for positions in [[1, 2, 3, 4], [1, 1, 2, 3], [1, 2, 2, 3], [1, 2, 3, 3], [1, 1, 2, 2], [-MOST, -MOST, MOST, MOST]]
    {
        let image = with_positions(positions);
        assert_eq!(check(&image), Ok(()), "{positions:?}");
        assert_eq!(read(&list(&image).unwrap()), Ok(image), "{positions:?}");
    }
    for positions in [
        [1, 1, 1, 2],
        [1, 2, 2, 2],
        [1, 1, 1, 1],
        [2, 2, 1, 3],
        [1, 2, 2, 1],
        [1, 3, 3, 2],
        [1, 2, 1, 2],
        [2, 1, 1, 3],
        [2, 1, 3, 3],
        [1, 1, MOST + 1, MOST + 1],
        [-MOST - 1, -MOST - 1, 1, 1],
    ] {
        let image = with_positions(positions);
        let refusal = Refusal { number: 11, place: None };
        assert_eq!(check(&image), Err(refusal), "{positions:?}");
        assert_eq!(list(&image), Err(refusal), "{positions:?}");
        assert_eq!(fresh(&image), Err(refusal), "{positions:?}");
        let call = evaluate(&image, &[Reading::Real(0.0); 8], 1, [0; 6]);
        assert_eq!(call.refusal, Some(refusal), "{positions:?}");
    }
}

/// The words of Table 7 of source document 001, with REAL and INT.
const KEYWORDS: &str = "ACCU ACT AND ASUM BDIF BSUM CoA CoG CoGS DEFAULT DEFUZZIFY END_DEFUZZIFY END_FUNCTION_BLOCK \
END_FUZZIFY END_OPTIONS END_RULEBLOCK END_VAR FUNCTION_BLOCK FUZZIFY IF INT IS LM MAX METHOD MIN NC NOT NSUM OPTIONS OR \
PROD RANGE REAL RM RULE RULEBLOCK TERM THEN VAR VAR_INPUT VAR_OUTPUT WITH";

/// Small letters and capitals by turns.
fn by_turns(text: &str) -> String {
    let turn = |(nth, letter): (usize, char)| match nth % 2 {
        0 => letter.to_ascii_lowercase(),
        _ => letter.to_ascii_uppercase(),
    };
    text.chars().enumerate().map(turn).collect()
}

/// One maker's editor turns every name into capitals in the rules but not in the declarations.
#[test]
fn names_in_capitals_in_the_rules() {
    let (head, rules) = TEXT.split_at(TEXT.find("RULE 1:").unwrap());
    let image = read(TEXT.as_bytes()).unwrap();
    for rules in [
        "RULE 1: IF SHARP IS CLEAR THEN GRADE IS HIGH; RULE 2: IF NOT SHARP IS CLEAR THEN GRADE IS LOW; \
         END_RULEBLOCK END_FUNCTION_BLOCK",
        &rules.to_ascii_uppercase(),
        &rules.to_ascii_lowercase(),
        &by_turns(rules),
    ] {
        let text = format!("{head}{rules}");
        assert_eq!(read(text.as_bytes()).as_ref(), Ok(&image), "{rules}");
        assert_eq!(in_chunks(&[&text.as_bytes()[..350], &text.as_bytes()[350..]]).1[..364], image);
    }
    // Of other places, each use by itself.
    for (declared, used) in [("FUZZIFY sharp", "FUZZIFY SHARP"), ("DEFUZZIFY grade", "DEFUZZIFY gRADE")] {
        assert_eq!(read(&with(declared, used).0).as_ref(), Ok(&image), "{used}");
    }
    assert_eq!(list(&image).unwrap(), LISTING.as_bytes());
}

/// A block with every part that a text can have, one blank between tokens.
fn spaced(and: &str, or: &str, act: &str, accu: &str) -> String {
    format!(
        "FUNCTION_BLOCK f VAR_INPUT a : REAL ; b : INT ; END_VAR VAR_OUTPUT o : REAL ; q : REAL ; END_VAR \
         FUZZIFY a TERM t := ( 0 , 0 ) , ( 1 , 1 ) ; END_FUZZIFY FUZZIFY b TERM t := ( 0 , 0 ) , ( 1 , 1 ) ; END_FUZZIFY \
         DEFUZZIFY o RANGE ( 0 .. 9 ) ; TERM x := 1 ; METHOD : CoGS ; DEFAULT := NC ; END_DEFUZZIFY \
         DEFUZZIFY q TERM x := 1 ; METHOD : CoGS ; DEFAULT := 0 ; END_DEFUZZIFY \
         RULEBLOCK r AND : {and} ; OR : {or} ; ACT : {act} ; ACCU : {accu} ; \
         RULE 1 : IF a IS t OR NOT b IS t AND a IS NOT t THEN o IS x , q IS x WITH 0.5 ; END_RULEBLOCK \
         END_FUNCTION_BLOCK "
    )
}

/// A keyword in other letters is that keyword, wherever it is wanted.
#[test]
fn keywords_in_any_case() {
    let texts = [
        spaced("MIN", "MAX", "MIN", "MAX"),
        spaced("PROD", "ASUM", "PROD", "BSUM"),
        spaced("BDIF", "BSUM", "MIN", "MAX"),
    ];
    let images = texts.each_ref().map(|text| read(text.as_bytes()).unwrap());
    // Pair, ACCU and ACT.
    assert_eq!(images.each_ref().map(|image| words(image)[16..19].to_vec()), [[0, 0, 0], [1, 1, 1], [2, 0, 0]]);
    let mut nowhere = Vec::new();
    for keyword in KEYWORDS.split(' ') {
        let mut stands = false;
        for (text, image) in texts.iter().zip(&images) {
            for other in [keyword.to_ascii_lowercase(), keyword.to_ascii_uppercase(), by_turns(keyword)] {
                let respelt = format!(" {text}").replace(&format!(" {keyword} "), &format!(" {other} "));
                assert_eq!(read(respelt.as_bytes()).as_ref(), Ok(image), "{other}");
                stands |= respelt[1..] != **text;
            }
        }
        nowhere.extend((!stands).then_some(keyword));
    }
    assert_eq!(nowhere, ["CoA", "CoG", "END_OPTIONS", "LM", "NSUM", "OPTIONS", "RM", "VAR"]);
    // The names are in small letters already.
    for (text, image) in texts.iter().zip(&images) {
        assert_eq!(read(text.to_ascii_lowercase().as_bytes()).as_ref(), Ok(image));
    }
    assert_eq!(read(TEXT.to_ascii_lowercase().as_bytes()), read(TEXT.as_bytes()));
}

/// The worked example with every name declared in one spelling and used in others, keywords in any.
const MIXED: &str = "function_block Trust Var_Input sHARP: Real; end_var VAR_OUTPUT Grade: real; End_Var \
fuzzify SHARP Term Clear := (20,0),(60.0,1); END_fuzzify Defuzzify GRADE term LOW := 0; TERM hIgH := 100; \
method : cogs; Default := nc; end_Defuzzify RuleBlock R accu : Max; rule 1: if Sharp is CLEAR then gRADE Is HIGH; \
Rule 2: If not sharp iS clear THen grade IS low; end_RuleBlock End_Function_Block";

const MIXED_LISTING: &str = "\
FUNCTION_BLOCK Trust
VAR_INPUT
  sHARP : REAL;
END_VAR
VAR_OUTPUT
  Grade : REAL;
END_VAR
FUZZIFY sHARP
  TERM Clear := (20, 0), (60, 1);
END_FUZZIFY
DEFUZZIFY Grade
  TERM LOW := 0;
  TERM hIgH := 100;
  METHOD : CoGS;
  DEFAULT := NC;
END_DEFUZZIFY
RULEBLOCK R
  AND : MIN;
  OR : MAX;
  ACT : MIN;
  ACCU : MAX;
  RULE 1 : IF sHARP IS Clear THEN Grade IS hIgH;
  RULE 2 : IF sHARP IS NOT Clear THEN Grade IS LOW;
END_RULEBLOCK
END_FUNCTION_BLOCK
";

/// The words of the worked example's image where names start: of the block, the rule block, the input, the output, the
/// input's term and the output's two.
const NAMES: [usize; 7] = [20, 24, 28, 35, 46, 52, 58];

fn names(image: &[u8]) -> [&str; 7] {
    NAMES.map(|word| std::str::from_utf8(&image[4 * word..4 * word + 16]).unwrap().trim_end_matches('\0'))
}

fn named(image: &[u8], nth: usize, name: &str) -> Vec<u8> {
    let mut image = image.to_vec();
    let at = 4 * NAMES[nth];
    image[at..at + 16].fill(0);
    image[at..at + name.len()].copy_from_slice(name.as_bytes());
    image
}

/// The image keeps each name as first declared; the listing prints it so, and keywords as document 01 spells them.
#[test]
fn names_as_declared() {
    let image = read(MIXED.as_bytes()).unwrap();
    assert_eq!(names(&image), ["Trust", "R", "sHARP", "Grade", "Clear", "LOW", "hIgH"]);
    assert_eq!(list(&image).unwrap(), MIXED_LISTING.as_bytes());
    assert_eq!(read(MIXED_LISTING.as_bytes()), Ok(image.clone()));
    // But for its names it is the worked example's.
    let small = ["trust", "r", "sharp", "grade", "clear", "low", "high"];
    let renamed = small.iter().enumerate().fold(image, |image, (nth, name)| named(&image, nth, name));
    assert_eq!(Ok(renamed), read(TEXT.as_bytes()));
    // In capitals as a whole, names are declared so too.
    let image = read(TEXT.to_ascii_uppercase().as_bytes()).unwrap();
    assert_eq!(names(&image), ["TRUST", "R", "SHARP", "GRADE", "CLEAR", "LOW", "HIGH"]);
    assert_eq!(list(&image).unwrap(), LISTING.to_ascii_uppercase().replace("COGS", "CoGS").as_bytes());
}

/// Two names that differ only in case are one: 4 at the second.
#[test]
fn names_repeated_in_other_case() {
    // Two inputs, in one declaration and in two; an input and an output; two outputs.
    refuses("sharp: REAL", "sharp, Sharp: REAL", 4, 7);
    refuses("sharp: REAL", "sharp: REAL; dull, SHARP: INT", 4, 19);
    refuses("grade: REAL", "GRADE, gRADE: REAL", 4, 7);
    refuses("grade: REAL", "grade: REAL; b: REAL; Grade: REAL", 4, 22);
    refuses("grade: REAL", "sharP: REAL", 4, 0);
    refuses("grade: REAL", "b: REAL; SHARP: REAL", 4, 9);
    // Two terms of an input, two terms of an output.
    refuses("(60.0,1);", "(60.0,1); TERM CLEAR := (0,0),(1,1);", 4, 15);
    refuses("(60.0,1);", "(60.0,1); TERM b := (0,0),(1,1); TERM cLear := (0,0),(1,1);", 4, 38);
    refuses("TERM high", "TERM LOW", 4, 5);
    refuses("TERM high", "TERM b := 1; TERM Low", 4, 18);
    // A part again, at its variable.
    refuses("DEFUZZIFY grade", "FUZZIFY SHARP TERM b := (0,0),(1,1); END_FUZZIFY DEFUZZIFY grade", 4, 8);
    refuses("RULEBLOCK r", "DEFUZZIFY Grade TERM b := 1; RULEBLOCK r", 4, 10);
    // All 16 bytes count, the last too.
    let sixteen = |other: &str| with("sharp: REAL", &format!("sharp, _bcdefgh_1234_xy, {other}: REAL"));
    let (text, at) = sixteen("_BCDEFGH_1234_XY");
    assert_eq!(read(&text), refused(4, at + 25));
    for other in ["_BCDEFGH_1234_XZ", "_BCDEFGH_1234_X", "_BCDEFGH_1334_XY"] {
        let (text, _) = sixteen(other);
        // Only their parts are missing.
        assert_eq!(read(&text), refused(9, text.len() - 19), "{other}");
    }
}

/// Where the worked example has names, each with the token before it.
const PLACES: [&str; 12] = [
    "BLOCK trust",
    "INPUT sharp",
    "OUTPUT grade",
    "FUZZIFY sharp",
    "TERM clear",
    "DEFUZZIFY grade",
    "TERM low",
    "RULEBLOCK r",
    "1: IF sharp",
    "NOT sharp IS clear",
    "high; RULE 2: IF NOT sharp IS clear THEN grade",
    "grade IS low",
];

/// The worked example with another word for the last one of these, and where it stands.
fn replaced(place: &str, word: &str) -> (Vec<u8>, usize) {
    let (before, _) = place.rsplit_once(' ').unwrap();
    let (text, at) = with(place, &format!("{before} {word}"));
    (text, at + before.len() + 1)
}

/// A name that differs from a keyword only in case is that keyword: 2 where a name is wanted, before 4, 5 and 6.
#[test]
fn keywords_as_names() {
    for place in PLACES {
        for keyword in KEYWORDS.split(' ') {
            for word in [keyword.to_ascii_lowercase(), keyword.to_ascii_uppercase(), by_turns(keyword)] {
                let (text, at) = replaced(place, &word);
                // NOT may stand before a condition's names; what comes behind it is wrong then.
                let may_stand =
                    word.eq_ignore_ascii_case("NOT") && ["1: IF sharp", "NOT sharp IS clear"].contains(&place);
                let at = if may_stand { at + 4 } else { at };
                assert_eq!(read(&text), refused(2, at), "{place}, {word}");
            }
        }
        // 18 bytes and a keyword; 17 and 19 that are none are too long.
        for (word, number) in [("end_function_block", 2), ("End_Function_Bloc", 4), ("end_function_blocks", 4)] {
            let (text, at) = replaced(place, word);
            assert_eq!(read(&text), refused(number, at), "{place}, {word}");
        }
    }
    for word in ["rule", "If", "max", "coa", "COGS", "real", "Int"] {
        refuses("trust", word, 2, 0);
    }
    // Names that are nearly keywords, but for more than case.
    for word in ["rules", "rul", "_rule", "rule_1", "i", "AC4", "ma8", "VAR_IN", "end_var1", "co_gs"] {
        assert!(read(&with("trust", word).0).is_ok(), "{word}");
    }
    // A ninth input and a seventh output that are keywords.
    refuses("sharp: REAL", "sharp, a1, a2, a3, a4, a5, a6, a7, rule: REAL", 2, 35);
    refuses("grade: REAL", "grade, o1, o2, o3, o4, o5, wIth: REAL", 2, 27);
}

/// Misplaced underscores come first: such a word is no keyword, in any case.
#[test]
fn underscores_in_keywords() {
    for word in ["end__var", "End_Var_", "END__VAR", "_end_var"] {
        let (text, at) = with("END_VAR VAR_OUTPUT", &format!("{word} VAR_OUTPUT"));
        // The last one is a name, behind which a colon or a comma is missing.
        let at = if word == "_end_var" { at + 9 } else { at };
        assert_eq!(read(&text), refused(2, at), "{word}");
    }
    refuses("trust", "end_function__block", 2, 0);
    refuses("trust", "_end_function_block", 4, 0);
}

/// 5 only where no declared name is the same but for case.
#[test]
fn names_not_declared_in_any_case() {
    for (place, words) in [
        ("FUZZIFY sharp", ["SHARPE", "GRADE", "CLEAR"]),
        ("DEFUZZIFY grade", ["Grad", "SHARP", "LOW"]),
        ("1: IF sharp", ["SHAR", "GRADE", "TRUST"]),
        ("NOT sharp IS clear", ["CLEARE", "SHARP", "LOW"]),
        ("high; RULE 2: IF NOT sharp IS clear THEN grade", ["GRADE1", "SHARP", "R"]),
        ("grade IS low", ["LO", "GRADE", "CLEAR"]),
    ] {
        for word in words {
            let (text, at) = replaced(place, word);
            assert_eq!(read(&text), refused(5, at), "{place}, {word}");
        }
    }
}

/// Only letters have a case: of other bytes that are 32 apart at most one can stand in a name, and 2 is at the other.
#[test]
fn bytes_that_are_no_letters() {
    let digits = (b'0'..=b'9').map(|digit| digit - 32);
    for byte in b"[{@`\\|]}^~\x7f".iter().copied().chain(digits) {
        for place in PLACES {
            let (_, word) = place.rsplit_once(' ').unwrap();
            let (text, at) = replaced(place, &format!("{word}{}", char::from(byte)));
            assert_eq!(read(&text), refused(2, at + word.len()), "{place}, {byte}");
        }
    }
    // Of a letter outside of ASCII each byte is wrong.
    for byte in [0xc4, 0xe4] {
        let text = [b"FUNCTION_BLOCK a".as_slice(), &[byte], b" VAR_INPUT"].concat();
        assert_eq!(read(&text), refused(2, 16));
    }
    // Letters, digits and underscores whose five low bits are the same, or nearly so, are two bytes.
    for (name, other) in [("a0", "aP"), ("a0", "ap"), ("a9", "aY"), ("a_1", "aO1"), ("a_1", "a11")] {
        let (text, _) = with("sharp: REAL", &format!("sharp, {name}, {other}: REAL"));
        // Only their parts are missing.
        assert_eq!(read(&text), refused(9, text.len() - 19), "{name}, {other}");
    }
}

/// Terms of different variables, the block's and the rule block's names are bound to nothing else.
#[test]
fn names_that_may_be_alike() {
    let text = TEXT
        .replace("BLOCK trust", "BLOCK Sharp")
        .replace("RULEBLOCK r", "RULEBLOCK SHARP")
        .replace("TERM clear", "TERM sHarp")
        .replace("TERM low", "TERM Grade")
        .replace("TERM high", "TERM SHarp")
        .replace("IS clear", "IS sharp")
        .replace("IS low", "IS grade")
        .replace("IS high", "IS sharp");
    let image = read(text.as_bytes()).unwrap();
    assert_eq!(names(&image), ["Sharp", "SHARP", "sharp", "grade", "sHarp", "Grade", "SHarp"]);
    assert_eq!(check(&image), Ok(()));
    assert_eq!(read(&list(&image).unwrap()), Ok(image));
}

fn passes(image: &[u8]) {
    assert_eq!(check(image), Ok(()), "{:?}", names(image));
    assert_eq!(read(&list(image).unwrap()).as_deref(), Ok(image));
}

fn does_not_pass(image: &[u8]) {
    let refusal = Refusal { number: 11, place: None };
    assert_eq!(check(image), Err(refusal), "{:?}", names(image));
    assert_eq!(list(image), Err(refusal));
    assert_eq!(fresh(image), Err(refusal));
    assert_eq!(evaluate(image, &[Reading::Real(30.0); 8], 1, [0; 6]).refusal, Some(refusal));
}

/// A stored name may be in any letters, but no keyword in any; other bytes that are 32 from a name's are none of its.
#[test]
fn letters_in_images() {
    let image = read(MIXED.as_bytes()).unwrap();
    for nth in 0..NAMES.len() {
        let name = names(&image)[nth];
        for other in [name.to_ascii_lowercase(), name.to_ascii_uppercase(), by_turns(name)] {
            passes(&named(&image, nth, &other));
        }
        for keyword in KEYWORDS.split(' ').filter(|keyword| keyword.len() <= 16) {
            for word in [keyword.to_ascii_lowercase(), keyword.to_ascii_uppercase(), by_turns(keyword)] {
                does_not_pass(&named(&image, nth, &word));
            }
        }
        for near in ["rules", "AC4", "ma8", "end_var1"] {
            passes(&named(&image, nth, near));
        }
        for wrong in ["a\x7fb", "a\x10", "a[", "a{", "a@", "a`"] {
            does_not_pass(&named(&image, nth, wrong));
        }
    }
}

/// Of `sHARP` and `Grade`, `LOW` and `hIgH` none may be the other; all else may be alike.
#[test]
fn names_alike_in_images() {
    let image = read(MIXED.as_bytes()).unwrap();
    for (nth, others) in [(2, ["GRADE", "grade"]), (3, ["sharp", "Sharp"]), (5, ["HIGH", "high"]), (6, ["low", "Low"])]
    {
        for other in others {
            does_not_pass(&named(&image, nth, other));
        }
    }
    for (nth, others) in [
        (0, ["SHARP", "r"]),
        (1, ["sharp", "TRUST"]),
        (2, ["Trust", "CLEAR"]),
        (3, ["r", "grade"]),
        (4, ["SHARP", "low"]),
        (5, ["CLEAR", "Grade"]),
        (6, ["GRADE", "clear"]),
    ] {
        for other in others {
            passes(&named(&image, nth, other));
        }
    }
}

/// Two inputs, two outputs and two terms of an input, stored with names that differ only in case or in more.
#[test]
fn pairs_of_names_in_images() {
    let image = read(spaced("MIN", "MAX", "MIN", "MAX").as_bytes()).unwrap();
    let renamed = |word: usize, letter: u8| {
        let mut image = image.clone();
        image[4 * word] = letter;
        check(&image).map_err(|refusal| refusal.number)
    };
    // Inputs a and b at 28 and 35, outputs o and q at 42 and 53, behind them the terms t, t, x and x.
    for (word, taken, free) in [(28, b"BOQ", b"Atx"), (35, b"AOQ", b"Btx"), (42, b"ABQ", b"Otx"), (53, b"ABO", b"QTX")]
    {
        for letter in taken {
            assert_eq!(renamed(word, *letter), Err(11), "{word}, {letter}");
            assert_eq!(renamed(word, letter.to_ascii_lowercase()), Err(11), "{word}, {letter}");
        }
        for letter in free {
            assert_eq!(renamed(word, *letter), Ok(()), "{word}, {letter}");
        }
    }
    // The input's second term stands where else the output's first does.
    let (text, _) = with("(60.0,1);", "(60.0,1); TERM b := (0,0),(1,1);");
    let image = read(&text).unwrap();
    assert_eq!(names(&image)[4..6], ["clear", "b"]);
    for (other, expected) in
        [("clear", Err(11)), ("CLEAR", Err(11)), ("cLeaR", Err(11)), ("B", Ok(())), ("LOW", Ok(()))]
    {
        let stored = named(&image, 5, other);
        assert_eq!(check(&stored).map_err(|refusal| refusal.number), expected, "{other}");
    }
}
