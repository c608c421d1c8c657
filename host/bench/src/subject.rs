//! A block as every side has it, with readings, and the comparison of the sides before anything is timed.
use crate::fuzzylite::Engine;
use crate::library;
use reference::Reading;

pub const READINGS: usize = 64;

pub struct Subject {
    pub name: &'static str,
    pub text: Vec<u8>,
    pub image: Vec<u8>,
    pub listing: Vec<u8>,
    pub inputs: usize,
    pub outputs: usize,
    pub fresh: [i32; 6],
    pub numbers: Vec<[f64; 8]>,
}

/// Readings spread over the span of their input, in eighths, which thousandths hold exactly.
fn numbers(spans: &[(i32, i32)]) -> Vec<[f64; 8]> {
    let mut state = 1_u64;
    let mut next = |(low, high): (i32, i32)| {
        state = state.wrapping_mul(6_364_136_223_846_793_005).wrapping_add(1_442_695_040_888_963_407);
        f64::from(8 * low + ((state >> 33) % (8 * (high - low) + 1) as u64) as i32) / 8.0
    };
    (0..READINGS).map(|_| std::array::from_fn(|input| next(spans[input % spans.len()]))).collect()
}

fn number_at(image: &[u8], word: usize) -> usize {
    u32::from_le_bytes(image[4 * word..4 * word + 4].try_into().unwrap()) as usize
}

impl Subject {
    /// The text read and listed by us and by the reference, which must agree; the spans of the inputs are repeated.
    pub fn new(name: &'static str, text: Vec<u8>, spans: &[(i32, i32)]) -> Subject {
        let (mut image, mut listing) = (vec![0; library::IMAGE], vec![0; library::LISTING]);
        let read = library::read(&text, &mut image);
        assert_eq!(read.refusal, 0, "{name}: refused at {}", read.place);
        image.truncate(read.length);
        assert_eq!(Ok(&image), reference::read(&text).as_ref(), "{name}: another image");
        let listed = library::list(&image, &mut listing);
        assert_eq!(listed.refusal, 0, "{name}");
        listing.truncate(listed.length);
        assert_eq!(Ok(&listing), reference::list(&image).as_ref(), "{name}: another listing");
        assert_eq!(library::check(&image).refusal, 0, "{name}");
        let fresh = library::fresh(&image).held.figures;
        assert_eq!(Ok(fresh), reference::fresh(&image), "{name}: another record");
        let (inputs, outputs) = (number_at(&image, 2), number_at(&image, 3));
        let subject = Subject { name, text, image, listing, inputs, outputs, fresh, numbers: numbers(spans) };
        subject.compare_figures();
        subject
    }

    pub fn rules(&self) -> usize {
        number_at(&self.image, 6)
    }

    pub fn our_readings(&self) -> Vec<library::Readings> {
        let reading = |x: f64| library::Reading { kind: 1, real: x as f32, whole: 0 };
        self.numbers.iter().map(|set| library::Readings { at: set.map(reading), count: self.inputs }).collect()
    }

    pub fn reference_readings(&self) -> Vec<[Reading; 8]> {
        self.numbers.iter().map(|set| set.map(|x| Reading::Real(x as f32))).collect()
    }

    fn compare_figures(&self) {
        for (ours, theirs) in self.our_readings().iter().zip(self.reference_readings()) {
            let call = library::evaluate(&self.image, ours, library::Held { figures: self.fresh });
            let wanted = reference::evaluate(&self.image, &theirs, self.inputs, self.fresh);
            assert_eq!((call.outcome.refusal, wanted.refusal), (0, None), "{}", self.name);
            assert_eq!(call.held.figures, wanted.held, "{}: another record", self.name);
            for (answer, wanted) in call.answers.iter().zip(wanted.answers) {
                assert_eq!(answer.mark, wanted.mark as u32, "{}: another mark", self.name);
                let figures = (answer.thousandths, answer.sum, answer.value);
                assert_eq!(figures, (wanted.thousandths, wanted.sum, wanted.value), "{}: other figures", self.name);
            }
        }
    }

    /// The largest difference between fuzzylite's figures and ours, each small enough, and how many answers of how many
    /// rest on rules that fired. It computes in doubles: beside our figure's thousandth we allow what a millionth more
    /// or less of the heights' sum makes of figures up to 100.
    pub fn compare_with(&self, engine: &Engine) -> (f64, usize, usize) {
        assert_eq!(engine.rules(), self.rules(), "{}: fuzzylite has other rules", self.name);
        let (mut largest, mut fired): (f64, usize) = (0.0, 0);
        for (ours, numbers) in self.our_readings().iter().zip(&self.numbers) {
            let call = library::evaluate(&self.image, ours, library::Held { figures: self.fresh });
            let theirs = engine.process(numbers);
            for (answer, theirs) in call.answers[..self.outputs].iter().zip(theirs) {
                let rounding = if answer.sum == 0 { 0.0 } else { 100.0 / f64::from(answer.sum) };
                let difference = (answer.value - theirs).abs();
                assert!(difference <= 0.001 + rounding, "{}: {} and {theirs} of {numbers:?}", self.name, answer.value);
                largest = largest.max(difference);
                fired += usize::from(answer.sum > 0);
            }
        }
        (largest, fired, READINGS * self.outputs)
    }
}
