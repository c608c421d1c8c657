//! The comparison finds an implementation that differs from the reference in one thing.
mod names;

use cases::images::{positions, set_word, word};
use cases::{compare, Answer, Case, Evaluated, Held, Implementation, Mark, Reading, Reference, Refusal, Tally};
use names::NameFault;

#[derive(Clone, Copy, PartialEq, Debug)]
enum Fault {
    None,
    BytePastImage,
    ByteBesideRefusal,
    PlaceOfUndeclaredName,
    ChecksNothing,
    ByteOfListing,
    LengthOfListing,
    FreshBesideRefusal,
    HeldTakenAsFired,
    RecordNotStored,
    RecordStoredOnRefusal,
    CountCutToByte,
    UnknownKindTakenAsReal,
    NegativeZero,
    FullTextRefused,
    ChunkOverTheFirst,
    EmptyChunkAfterTheEnd,
    OneAfterTheEnd,
    OneAtTheEnd,
    OneIsNoEnd,
    KeptRefusalBeforeOne,
    KeptRefusalToldByChunk,
    PlaceInTheChunk,
    TenIsNoEnd,
    TenAfterTheEnd,
    ImageAfterTheEnd,
    EarlierDegreeAtEdge,
    EarlierDegreeAtFirstEdge,
    EarlierDegreeAtMiddleEdge,
    LaterPointOfLastEdgeLeftOut,
    EarlierPointOfEdgeLeftOut,
    EdgeRefusedByReader,
    EdgeRefusedByCheck,
    ThirdAtOnePositionPasses,
    FallBehindEdgePasses,
    FigureFarBelowTooLow,
    FigureAtLowBorderTooHigh,
    FigureAtHighBorderTooHigh,
    FigureCutToTwentyBits,
    NamesInTexts(NameFault),
    NamesInImages(NameFault),
}

struct Faulty(Fault);

/// A text in chunks, as the faults need it.
#[derive(Default)]
struct Chunks {
    text: Vec<u8>,
    over: bool,
    /// Where the last chunk begins.
    last: usize,
}

const NOT_ACCEPTED: Refusal = Refusal { number: 11, place: None };
const OVER: Refusal = Refusal { number: 16, place: None };

/// Answers with an image, if there is room.
fn put(image: &[u8], buffer: &mut [u8]) -> Result<usize, Refusal> {
    let room = buffer.get_mut(..image.len()).ok_or(Refusal { number: 10, place: Some(image.len()) })?;
    room.copy_from_slice(image);
    Ok(image.len())
}

/// The refusal that is kept until the end, other than that the text is not complete.
fn kept(text: &[u8]) -> Option<Refusal> {
    let refusal = Reference.read_into(text, &mut []).err();
    refusal.filter(|refusal| refusal.number != 10 && refusal.place < Some(text.len()))
}

/// Two points of an input term at one position.
struct Edge {
    input: usize,
    position: i32,
    /// The words of their degrees.
    earlier: usize,
    later: usize,
    is_first: bool,
    is_last: bool,
}

fn edges(image: &[u8]) -> Vec<Edge> {
    let mut edges = Vec::new();
    for (input, words) in positions(image) {
        for (nth, pair) in words.windows(2).enumerate() {
            let position = word(image, pair[0]);
            if position == word(image, pair[1]) {
                let (is_first, is_last) = (nth == 0, nth + 2 == words.len());
                edges.push(Edge { input, position, earlier: pair[0] + 1, later: pair[1] + 1, is_first, is_last });
            }
        }
    }
    edges
}

impl Faulty {
    /// An image that gives at these readings what the fault makes of this one.
    fn wrong_edges(&self, image: &[u8], readings: &[Reading; 8]) -> Vec<u8> {
        let mut wrong = image.to_vec();
        if Reference.check(image).is_err() {
            return wrong;
        }
        for edge in edges(image) {
            let is_here = readings[edge.input].crisp() == Some(edge.position);
            let is_lost = match self.0 {
                Fault::EarlierDegreeAtEdge => is_here,
                Fault::EarlierDegreeAtFirstEdge => is_here && edge.is_first,
                Fault::EarlierDegreeAtMiddleEdge => is_here && !edge.is_first && !edge.is_last,
                Fault::LaterPointOfLastEdgeLeftOut => edge.is_last,
                _ => false,
            };
            if is_lost {
                set_word(&mut wrong, edge.later, word(image, edge.earlier));
            }
            if self.0 == Fault::EarlierPointOfEdgeLeftOut {
                set_word(&mut wrong, edge.earlier, word(image, edge.later));
            }
        }
        wrong
    }

    /// The image without what the load check overlooks.
    fn righted(&self, image: &[u8]) -> Vec<u8> {
        if let Fault::NamesInImages(fault) = self.0 {
            return fault.righted(image);
        }
        let mut righted = image.to_vec();
        for (_, words) in positions(image) {
            for three in words.windows(3) {
                let [a, b, c] = [0, 1, 2].map(|nth| word(image, three[nth]));
                match self.0 {
                    Fault::ThirdAtOnePositionPasses if a == b && b == c => {
                        set_word(&mut righted, three[0], a.wrapping_sub(1))
                    }
                    Fault::FallBehindEdgePasses if a == b && c < b => {
                        set_word(&mut righted, three[2], b.wrapping_add(1))
                    }
                    _ => {}
                }
            }
        }
        righted
    }

    fn answers(&self, answers: [Answer; 6]) -> [Answer; 6] {
        answers.map(|mut answer| {
            let fired = (answer.mark == Mark::Fired).then_some(answer.thousandths);
            match self.0 {
                Fault::FigureFarBelowTooLow if fired.is_some_and(|figure| figure < -500_000) => answer.thousandths -= 1,
                Fault::FigureAtLowBorderTooHigh if fired == Some(-500_000) => answer.thousandths += 1,
                Fault::FigureAtHighBorderTooHigh if fired == Some(500_000) => answer.thousandths += 1,
                Fault::FigureCutToTwentyBits if fired.is_some_and(|figure| figure > 548_575) => {
                    answer.thousandths = (answer.thousandths + 500_000) % (1 << 20) - 500_000;
                }
                Fault::HeldTakenAsFired if answer.mark == Mark::Held => answer.mark = Mark::Fired,
                Fault::NegativeZero if answer.value == 0.0 => answer.value = -0.0,
                _ => {}
            }
            answer
        })
    }
}

impl Implementation for Faulty {
    type Chunks = Chunks;

    fn read_into(&self, text: &[u8], image: &mut [u8]) -> Result<usize, Refusal> {
        if let Fault::NamesInTexts(fault) = self.0 {
            return put(&fault.read(text)?, image);
        }
        let has_edge = || reference::read(text).is_ok_and(|image| !edges(&image).is_empty());
        if self.0 == Fault::EdgeRefusedByReader && has_edge() {
            return Err(Refusal { number: 7, place: Some(0) });
        }
        let mut answer = Reference.read_into(text, image);
        match (self.0, &mut answer) {
            (Fault::BytePastImage, Ok(length)) if *length < image.len() => image[*length] ^= 1,
            (Fault::ByteBesideRefusal, Err(_)) if !image.is_empty() => image[0] ^= 1,
            (Fault::PlaceOfUndeclaredName, Err(Refusal { number: 5, place: Some(place) })) => *place += 1,
            _ => {}
        }
        answer
    }

    fn check(&self, image: &[u8]) -> Result<(), Refusal> {
        match (self.0, Reference.check(image)) {
            (Fault::ChecksNothing, _) => Ok(()),
            (Fault::EdgeRefusedByCheck, Ok(())) if !edges(image).is_empty() => Err(NOT_ACCEPTED),
            (Fault::NamesInImages(fault), Ok(())) if fault.refuses(image) => Err(NOT_ACCEPTED),
            (_, Err(_)) => Reference.check(&self.righted(image)),
            (_, accepted) => accepted,
        }
    }

    fn list_into(&self, image: &[u8], listing: &mut [u8]) -> Result<usize, Refusal> {
        let answer = Reference.list_into(image, listing);
        match (self.0, answer) {
            (Fault::ByteOfListing, Ok(length)) => listing[length - 1] = b' ',
            (Fault::LengthOfListing, Ok(length)) => return Ok(length - 1),
            (Fault::NamesInImages(fault), Ok(length)) => fault.alter(&mut listing[..length]),
            _ => {}
        }
        answer
    }

    fn fresh(&self, image: &[u8]) -> (Option<Refusal>, Held) {
        match Reference.fresh(image) {
            (Some(refusal), _) if self.0 == Fault::FreshBesideRefusal => (Some(refusal), [1; 6]),
            answer => answer,
        }
    }

    fn evaluate(&self, image: &[u8], readings: &[Reading; 8], count: usize, held: Held) -> Evaluated {
        let count = if self.0 == Fault::CountCutToByte { count & 0xff } else { count };
        let mut readings = *readings;
        if self.0 == Fault::UnknownKindTakenAsReal {
            readings.iter_mut().filter(|reading| reading.kind > 2).for_each(|reading| reading.kind = 1);
        }
        let image = self.wrong_edges(image, &readings);
        let call = Reference.evaluate(&image, &readings, count, held);
        Evaluated { answers: self.answers(call.answers), ..call }
    }

    fn evaluate_held(
        &self,
        image: &[u8],
        readings: &[Reading; 8],
        count: usize,
        held: &mut Held,
    ) -> (Option<Refusal>, [Answer; 6]) {
        let call = self.evaluate(image, readings, count, *held);
        match (self.0, call.refusal) {
            (Fault::RecordNotStored, None) => {}
            (Fault::RecordStoredOnRefusal, Some(_)) => *held = [0; 6],
            _ => *held = call.held,
        }
        (call.refusal, call.answers)
    }

    fn begin(&self) -> Chunks {
        Chunks::default()
    }

    fn append(&self, chunks: &mut Chunks, chunk: &[u8]) -> Result<(), Refusal> {
        let most = if self.0 == Fault::FullTextRefused { 65_535 } else { 65_536 };
        let passes = chunks.text.len() + chunk.len() > most;
        match self.0 {
            Fault::EmptyChunkAfterTheEnd if chunk.is_empty() => return Ok(()),
            Fault::OneAfterTheEnd if passes => {}
            _ if chunks.over => return Err(OVER),
            _ => {}
        }
        if passes && self.0 != Fault::OneAtTheEnd {
            chunks.over = self.0 != Fault::OneIsNoEnd;
            let first = kept(&chunks.text).filter(|_| self.0 == Fault::KeptRefusalBeforeOne);
            return Err(first.unwrap_or(Refusal { number: 1, place: Some(0) }));
        }
        chunks.last = chunks.text.len();
        chunks.text.extend(chunk);
        match self.0 {
            Fault::ChunkOverTheFirst => chunks.text[..chunk.len()].copy_from_slice(chunk),
            Fault::KeptRefusalToldByChunk => return kept(&chunks.text).map_or(Ok(()), Err),
            _ => {}
        }
        Ok(())
    }

    fn finish(&self, chunks: &mut Chunks, image: &mut [u8]) -> Result<usize, Refusal> {
        if chunks.over {
            let mut buffer = image.to_vec();
            let again = Reference.read_into(&chunks.text, &mut buffer);
            return match (self.0, again) {
                (Fault::TenAfterTheEnd, Err(Refusal { number: 10, .. })) => again,
                (Fault::ImageAfterTheEnd, _) => {
                    image.copy_from_slice(&buffer);
                    Err(OVER)
                }
                _ => Err(OVER),
            };
        }
        chunks.over = true;
        let mut answer = self.read_into(&chunks.text, image);
        match (self.0, &mut answer) {
            (Fault::PlaceInTheChunk, Err(Refusal { number: 2..=9, place: Some(place) })) if *place >= chunks.last => {
                *place -= chunks.last
            }
            (Fault::TenIsNoEnd, Err(Refusal { number: 10, .. })) => chunks.over = false,
            _ => {}
        }
        answer
    }
}

fn cases() -> Vec<Case> {
    (0..3_000).map(|number| Case::new(1, number)).collect()
}

fn is_found(fault: Fault, cases: &[Case]) -> bool {
    cases.iter().any(|case| compare(&Reference, &Faulty(fault), case, &mut Tally::default()).is_err())
}

#[test]
fn every_fault_is_found() {
    let cases = cases();
    for fault in [
        Fault::BytePastImage,
        Fault::ByteBesideRefusal,
        Fault::PlaceOfUndeclaredName,
        Fault::ChecksNothing,
        Fault::ByteOfListing,
        Fault::LengthOfListing,
        Fault::FreshBesideRefusal,
        Fault::HeldTakenAsFired,
        Fault::RecordNotStored,
        Fault::RecordStoredOnRefusal,
        Fault::CountCutToByte,
        Fault::UnknownKindTakenAsReal,
        Fault::NegativeZero,
        Fault::FullTextRefused,
        Fault::ChunkOverTheFirst,
        Fault::EmptyChunkAfterTheEnd,
        Fault::OneAfterTheEnd,
        Fault::OneAtTheEnd,
        Fault::OneIsNoEnd,
        Fault::KeptRefusalBeforeOne,
        Fault::KeptRefusalToldByChunk,
        Fault::PlaceInTheChunk,
        Fault::TenIsNoEnd,
        Fault::TenAfterTheEnd,
        Fault::ImageAfterTheEnd,
        Fault::EarlierDegreeAtEdge,
        Fault::EarlierDegreeAtFirstEdge,
        Fault::EarlierDegreeAtMiddleEdge,
        Fault::LaterPointOfLastEdgeLeftOut,
        Fault::EarlierPointOfEdgeLeftOut,
        Fault::EdgeRefusedByReader,
        Fault::EdgeRefusedByCheck,
        Fault::ThirdAtOnePositionPasses,
        Fault::FallBehindEdgePasses,
        Fault::FigureFarBelowTooLow,
        Fault::FigureAtLowBorderTooHigh,
        Fault::FigureAtHighBorderTooHigh,
        Fault::FigureCutToTwentyBits,
    ] {
        assert!(is_found(fault, &cases), "{fault:?}");
    }
    assert!(!is_found(Fault::None, &cases));
}

#[test]
fn every_fault_in_names_is_found() {
    let cases = cases();
    let in_texts = names::in_texts().into_iter().map(Fault::NamesInTexts);
    for fault in in_texts.chain(names::in_images().into_iter().map(Fault::NamesInImages)) {
        assert!(is_found(fault, &cases), "{fault:?}");
    }
}
