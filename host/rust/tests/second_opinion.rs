//! The static library against the independent implementation, case by case. `GRILLENHELM_CASES` makes the run
//! longer, `GRILLENHELM_SEED` another one; a difference prints the case and how to replay it.
use cases::{Answer, Evaluated, Held, Implementation, Mark, Reading, Reference, Refusal, Run};
use grillenhelm::raw;

/// The static library as it crosses, not only what the wrapper lets through.
struct Library;

/// Bytes around a lent buffer, which nothing may write to; the buffer's address is odd.
const AROUND: usize = 33;
const GUARD: u8 = 0xa5;

/// Runs over a copy of the buffer between guards.
fn guarded(buffer: &mut [u8], run: impl FnOnce(&mut [u8]) -> raw::Outcome) -> raw::Outcome {
    let mut wide = vec![GUARD; buffer.len() + 2 * AROUND];
    let inside = AROUND..AROUND + buffer.len();
    wide[inside.clone()].copy_from_slice(buffer);
    let outcome = run(&mut wide[inside.clone()]);
    buffer.copy_from_slice(&wide[inside.clone()]);
    wide[inside].fill(GUARD);
    assert!(wide.iter().all(|byte| *byte == GUARD), "bytes beside the lent buffer are written");
    outcome
}

/// Everything that an outcome says; a field that has nothing to say is 0.
fn refusal(outcome: raw::Outcome) -> Option<Refusal> {
    let place = match outcome.has_place {
        0 => None,
        1 => Some(outcome.place),
        other => panic!("has_place is {other}"),
    };
    assert!(place.is_some() || outcome.place == 0, "a place without has_place: {outcome:?}");
    if outcome.refusal == 0 {
        assert!(place.is_none(), "a place beside acceptance: {outcome:?}");
        return None;
    }
    assert!(outcome.length == 0, "a length beside a refusal: {outcome:?}");
    let number = u8::try_from(outcome.refusal).expect("a refusal's number is a small one");
    Some(Refusal { number, place })
}

fn written(outcome: raw::Outcome) -> Result<usize, Refusal> {
    refusal(outcome).map_or(Ok(outcome.length), Err)
}

/// The refusal of a call that writes no bytes.
fn bare(outcome: raw::Outcome) -> Option<Refusal> {
    assert!(outcome.length == 0, "a length where nothing is written: {outcome:?}");
    refusal(outcome)
}

fn readings(at: &[Reading; 8], count: usize) -> raw::Readings {
    let at = at.map(|reading| raw::Reading {
        // Of the unknown kinds one ends in the byte of a REAL, one in that of an INT.
        kind: match reading.kind {
            128 => 0x0100_0001,
            255 => 0xffff_ff02,
            kind => kind.into(),
        },
        real: f32::from_bits(reading.real),
        whole: reading.int,
    });
    raw::Readings { at, count }
}

fn answers(answers: [raw::Answer; 6]) -> [Answer; 6] {
    answers.map(|answer| Answer {
        mark: match answer.mark {
            0 => Mark::None,
            1 => Mark::Fired,
            2 => Mark::Default,
            3 => Mark::Held,
            other => panic!("mark {other}"),
        },
        thousandths: answer.thousandths,
        sum: answer.sum,
        value: answer.value,
    })
}

/// The store of a text in chunks, between guards, and its number.
#[derive(Clone, PartialEq)]
struct Store {
    wide: Vec<u8>,
    count: usize,
}

impl Store {
    /// The store holds bytes that no text has.
    fn new(length: usize, count: usize) -> Store {
        Store { wide: vec![GUARD; length + 2 * AROUND], count }
    }

    /// As they are lent.
    fn lent(&mut self) -> (&mut [u8], &mut usize) {
        let inside = AROUND..self.wide.len() - AROUND;
        (&mut self.wide[inside], &mut self.count)
    }

    /// A chunk that is kept is put to its place, 1 changes only the number and 16 nothing.
    fn append(&mut self, chunk: &[u8]) -> Result<(), Refusal> {
        let mut expected = self.clone();
        let (store, count) = self.lent();
        let refusal = bare(raw::append(chunk, store, count));
        let (store, count) = expected.lent();
        match refusal {
            None => {
                let end = *count + chunk.len();
                store[*count..end].copy_from_slice(chunk);
                *count = end;
            }
            Some(refusal) if refusal.number == 1 => *count = raw::OVER,
            Some(_) => {}
        }
        assert!(*self == expected, "store or number after a chunk, {refusal:?}: {}, {}", self.count, expected.count);
        refusal.map_or(Ok(()), Err)
    }

    /// The end changes only the number, and 16 nothing.
    fn finish(&mut self, image: &mut [u8]) -> Result<usize, Refusal> {
        let mut expected = self.clone();
        let (store, count) = self.lent();
        let answer = written(guarded(image, |image| raw::finish(store, count, image)));
        if answer != Err(OVER) {
            expected.count = raw::OVER;
        }
        assert!(*self == expected, "store or number after the end, {answer:?}: {}, {}", self.count, expected.count);
        answer
    }
}

const OVER: Refusal = Refusal { number: 16, place: None };

impl Implementation for Library {
    type Chunks = Store;

    fn read_into(&self, text: &[u8], image: &mut [u8]) -> Result<usize, Refusal> {
        written(guarded(image, |image| raw::read(text, image)))
    }

    fn check(&self, image: &[u8]) -> Result<(), Refusal> {
        bare(raw::check(image)).map_or(Ok(()), Err)
    }

    fn list_into(&self, image: &[u8], listing: &mut [u8]) -> Result<usize, Refusal> {
        written(guarded(listing, |listing| raw::list(image, listing)))
    }

    fn fresh(&self, image: &[u8]) -> (Option<Refusal>, Held) {
        let fresh = raw::fresh(image);
        (bare(fresh.outcome), fresh.held.figures)
    }

    fn evaluate(&self, image: &[u8], at: &[Reading; 8], count: usize, held: Held) -> Evaluated {
        let call = raw::evaluate(image, readings(at, count), raw::Held { figures: held });
        Evaluated { refusal: bare(call.outcome), answers: answers(call.answers), held: call.held.figures }
    }

    fn evaluate_held(
        &self,
        image: &[u8],
        at: &[Reading; 8],
        count: usize,
        held: &mut Held,
    ) -> (Option<Refusal>, [Answer; 6]) {
        let mut record = raw::Held { figures: *held };
        let reply = raw::evaluate_held(image, readings(at, count), &mut record);
        *held = record.figures;
        (bare(reply.outcome), answers(reply.answers))
    }

    fn begin(&self) -> Store {
        Store::new(raw::TEXT, 0)
    }

    fn append(&self, chunks: &mut Store, chunk: &[u8]) -> Result<(), Refusal> {
        chunks.append(chunk)
    }

    fn finish(&self, chunks: &mut Store, image: &mut [u8]) -> Result<usize, Refusal> {
        chunks.finish(image)
    }
}

#[test]
fn library_and_reference_agree() {
    let tally = Run::from_environment().compare(&Reference, &Library);
    println!("{tally:?}");
}

/// Stores and numbers that no calls on a text make: both calls are refused by 16, and nothing is altered.
#[test]
fn no_such_text() {
    let short =
        [0, 1, raw::TEXT - 1].into_iter().flat_map(|length| [0, length, raw::TEXT].map(|count| (length, count)));
    let over = [raw::TEXT + 1, raw::TEXT + 2, 2 * raw::TEXT, 1 << 32, usize::MAX].map(|count| (raw::TEXT, count));
    for (length, count) in short.chain(over) {
        let mut store = Store::new(length, count);
        for chunk in [&b""[..], b";", &[b' '; raw::TEXT + 1]] {
            assert_eq!(store.append(chunk), Err(OVER), "{length}, {count}");
        }
        for room in [0, raw::IMAGE] {
            let mut image = vec![7; room];
            assert_eq!(store.finish(&mut image), Err(OVER), "{length}, {count}");
            assert!(image.iter().all(|byte| *byte == 7), "{length}, {count}");
        }
    }
}

/// The limit is that of the text, however long the store is.
#[test]
fn longer_store() {
    let full = || {
        let mut store = Store::new(raw::TEXT + 9, 0);
        assert_eq!(store.append(&[b' '; raw::TEXT]), Ok(()));
        store
    };
    assert_eq!(full().finish(&mut []), Err(Refusal { number: 2, place: Some(raw::TEXT) }));
    assert_eq!(full().append(b" "), Err(Refusal { number: 1, place: Some(0) }));
}

/// The bytes in the store are the text, whoever put them there, and stay there when its end is refused.
#[test]
fn text_in_the_store() {
    let text = include_bytes!("../../../examples/trust.fcl");
    let mut store = Store::new(raw::TEXT, text.len());
    store.lent().0[..text.len()].copy_from_slice(text);
    let mut image = [7; 364];
    assert_eq!(store.finish(&mut image[..363]), Err(Refusal { number: 10, place: Some(364) }));
    assert_eq!(image, [7; 364]);
    assert_eq!(store.finish(&mut image), Err(OVER));
    assert_eq!(written(raw::read(&store.lent().0[..text.len()], &mut image)), Ok(364));
}
