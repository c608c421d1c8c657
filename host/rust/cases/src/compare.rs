//! The comparison of two implementations on a case.
use crate::calls::{Call, HeldFrom};
use crate::chunks::Step;
use crate::{Answer, Case, Evaluated, Held, Implementation, Refusal, Room};
use std::fmt::Debug;

/// A room for answers that are refused in any.
const SOME_ROOM: usize = 200;

/// Acceptance, which is 0, and the refusals of documents 01 and 02.
const NUMBERS: usize = 27;

/// How often each refusal, or 0 for acceptance, was the answer.
#[derive(Clone, Copy, Default, Debug)]
pub struct Tally {
    pub texts: [usize; NUMBERS],
    pub images: [usize; NUMBERS],
    pub calls: [usize; NUMBERS],
    /// Of texts in chunks, to each chunk and to each end.
    pub chunks: [usize; NUMBERS],
    pub ends: [usize; NUMBERS],
}

const OVER: Refusal = Refusal { number: 16, place: None };

/// The length that a refusal for want of room asks for.
fn needed(answer: &Result<usize, Refusal>) -> Option<usize> {
    match answer {
        Err(Refusal { number: 10, place }) => *place,
        _ => None,
    }
}

fn number<T>(answer: &Result<T, Refusal>) -> usize {
    answer.as_ref().map_or_else(|refusal| refusal.number.into(), |_| 0)
}

fn same<T: PartialEq + Debug>(what: &str, a: &T, b: &T) -> Result<(), String> {
    if a == b {
        Ok(())
    } else {
        Err(format!("{what}: {a:?} and {b:?}"))
    }
}

fn same_bytes(what: &str, a: &[u8], b: &[u8]) -> Result<(), String> {
    match a.iter().zip(b).position(|(a, b)| a != b) {
        Some(at) => Err(format!("{what}: differ from byte {at} on, {} and {}", a[at], b[at])),
        None => same(what, &a.len(), &b.len()),
    }
}

fn holds(what: &str, is: bool) -> Result<(), String> {
    if is {
        Ok(())
    } else {
        Err(what.to_string())
    }
}

/// Runs both implementations on a case; what differs, or breaks what documents 01 and 02 say of any answer, is
/// the error.
pub fn compare<A: Implementation, B: Implementation>(
    a: &A,
    b: &B,
    case: &Case,
    tally: &mut Tally,
) -> Result<(), String> {
    let both = Both { a, b };
    match case {
        Case::Text { text, room } => both.text(text, *room, tally),
        Case::Image { image, room } => both.image(image, *room, tally),
        Case::Calls { image, calls } => both.calls(image, calls, tally),
        Case::Chunks { steps } => both.chunks(steps, tally),
    }
}

struct Both<'a, A, B> {
    a: &'a A,
    b: &'a B,
}

/// A text that comes in chunks, as both have it.
struct Chunks<A: Implementation, B: Implementation> {
    a: A::Chunks,
    b: B::Chunks,
    /// What came until it was over.
    text: Vec<u8>,
    over: bool,
}

/// What a function answers and leaves in a lent buffer of some room.
type Written = (Result<usize, Refusal>, Vec<u8>);

fn written(room: usize, run: impl FnOnce(&mut [u8]) -> Result<usize, Refusal>) -> Result<Written, String> {
    let before: Vec<u8> = (0..room).map(|at| (at * 37 + 11) as u8).collect();
    let mut buffer = before.clone();
    let answer = run(&mut buffer);
    match answer {
        Ok(length) => {
            holds("a length past the room", length <= room)?;
            holds("bytes past the end do not stay", buffer[length..] == before[length..])?;
        }
        Err(_) => holds("a refusal does not leave the buffer", buffer == before)?,
    }
    Ok((answer, buffer))
}

impl<A: Implementation, B: Implementation> Both<'_, A, B> {
    fn read(&self, text: &[u8], room: usize) -> Result<Written, String> {
        let a = written(room, |buffer| self.a.read_into(text, buffer))?;
        let b = written(room, |buffer| self.b.read_into(text, buffer))?;
        same("answer of reading", &a.0, &b.0)?;
        same_bytes("image buffers", &a.1, &b.1)?;
        Ok(a)
    }

    fn fresh(&self, image: &[u8]) -> Result<(Option<Refusal>, Held), String> {
        let fresh = self.a.fresh(image);
        same("fresh record", &fresh, &self.b.fresh(image))?;
        Ok(fresh)
    }

    fn list(&self, image: &[u8], room: usize) -> Result<Written, String> {
        let a = written(room, |buffer| self.a.list_into(image, buffer))?;
        let b = written(room, |buffer| self.b.list_into(image, buffer))?;
        same("answer of listing", &a.0, &b.0)?;
        same_bytes("listing buffers", &a.1, &b.1)?;
        Ok(a)
    }

    fn text(&self, text: &[u8], room: Room, tally: &mut Tally) -> Result<(), String> {
        let (refusal, _) = self.read(text, 0)?;
        let Some(length) = needed(&refusal) else {
            tally.texts[number(&refusal)] += 1;
            return same("refusal at another room", &self.read(text, SOME_ROOM)?.0, &refusal);
        };
        tally.texts[0] += 1;
        let (answer, image) = self.read(text, length)?;
        same("length of the image", &answer, &Ok(length))?;
        let (answer, buffer) = self.read(text, room.of(length))?;
        if room.of(length) < length {
            tally.texts[10] += 1;
            same("refusal for want of room", &answer, &refusal)?;
        } else {
            same("length of the image", &answer, &Ok(length))?;
            same_bytes("images at two rooms", &buffer[..length], &image)?;
        }
        holds("an image that was read does not pass", self.a.check(&image).is_ok())?;
        self.image(&image, room, tally)
    }

    fn image(&self, image: &[u8], room: Room, tally: &mut Tally) -> Result<(), String> {
        let accepted = self.a.check(image);
        same("load check", &accepted, &self.b.check(image))?;
        tally.images[number(&accepted)] += 1;
        let (refusal, held) = self.fresh(image)?;
        same("load check and refusal of the fresh record", &accepted.err(), &refusal)?;
        if refusal.is_some() {
            same("refusal of an image", &refusal, &Some(Refusal { number: 11, place: None }))?;
            same("fresh record beside a refusal", &held, &[0; 6])?;
            return same("refusal of the lister", &self.list(image, SOME_ROOM)?.0.err(), &refusal);
        }
        let (no_room, _) = self.list(image, 0)?;
        let length = needed(&no_room).ok_or(format!("an accepted image is not listed: {no_room:?}"))?;
        let (answer, listing) = self.list(image, length)?;
        same("length of the listing", &answer, &Ok(length))?;
        let (answer, buffer) = self.list(image, room.of(length))?;
        if room.of(length) < length {
            tally.images[10] += 1;
            same("refusal for want of room", &answer, &no_room)?;
        } else {
            same("length of the listing", &answer, &Ok(length))?;
            same_bytes("listings at two rooms", &buffer[..length], &listing)?;
        }
        let (answer, buffer) = self.read(&listing, image.len())?;
        same("length of the image of the listing", &answer, &Ok(image.len()))?;
        same_bytes("the listing's image and the image", &buffer, image)
    }

    fn calls(&self, image: &[u8], calls: &[Call], tally: &mut Tally) -> Result<(), String> {
        let (_, fresh) = self.fresh(image)?;
        let mut before = fresh;
        for (nth, call) in calls.iter().enumerate() {
            let held = match call.held {
                HeldFrom::Before => before,
                HeldFrom::Fresh => fresh,
                HeldFrom::Given(held) => held,
            };
            let called = self.call(image, call, held).map_err(|difference| format!("call {nth}: {difference}"))?;
            tally.calls[called.refusal.map_or(0, |refusal| refusal.number.into())] += 1;
            before = called.held;
        }
        Ok(())
    }

    /// Both implementations, by value and with a lent record.
    fn call(&self, image: &[u8], call: &Call, held: Held) -> Result<Evaluated, String> {
        let (readings, count) = (&call.readings, call.count);
        let a = self.a.evaluate(image, readings, count, held);
        let b = self.b.evaluate(image, readings, count, held);
        same_call("by value", &a, &b)?;
        same_call("lent, first implementation", &a, &lent(self.a, image, call, held))?;
        same_call("lent, second implementation", &a, &lent(self.b, image, call, held))?;
        if a.refusal.is_some() {
            holds("answers beside a refusal", a.answers == [Answer::default(); 6])?;
            same("record after a refusal", &a.held, &held)?;
        } else {
            same("record after the call", &a.held, &a.answers.map(|answer| answer.thousandths))?;
        }
        Ok(a)
    }

    fn chunks(&self, steps: &[Step], tally: &mut Tally) -> Result<(), String> {
        let mut chunks = Chunks { a: self.a.begin(), b: self.b.begin(), text: Vec::new(), over: false };
        for (nth, step) in steps.iter().enumerate() {
            let (answers, number) = match step {
                Step::Chunk(chunk) => (&mut tally.chunks, self.append(&mut chunks, chunk)),
                Step::End(room) => (&mut tally.ends, self.finish(&mut chunks, *room)),
            };
            answers[number.map_err(|difference| format!("step {nth}: {difference}"))?] += 1;
        }
        Ok(())
    }

    fn append(&self, chunks: &mut Chunks<A, B>, chunk: &[u8]) -> Result<usize, String> {
        let answer = self.a.append(&mut chunks.a, chunk);
        same("answer to a chunk", &answer, &self.b.append(&mut chunks.b, chunk))?;
        if chunks.over {
            same("answer to a chunk after the end", &answer, &Err(OVER))?;
        } else {
            chunks.text.extend(chunk);
            chunks.over = answer.is_err();
        }
        Ok(number(&answer))
    }

    fn finish(&self, chunks: &mut Chunks<A, B>, room: Room) -> Result<usize, String> {
        // After the end too the room is that of the image, which must not be written again.
        let room = room.of(needed(&self.read(&chunks.text, 0)?.0).unwrap_or(SOME_ROOM));
        let a = written(room, |buffer| self.a.finish(&mut chunks.a, buffer))?;
        let b = written(room, |buffer| self.b.finish(&mut chunks.b, buffer))?;
        same("answer to the end", &a.0, &b.0)?;
        same_bytes("image buffers after the end", &a.1, &b.1)?;
        if chunks.over {
            same("answer to an end after the end", &a.0, &Err(OVER))?;
        } else {
            let at_once = self.read(&chunks.text, room)?;
            same("answers to the end and to the text at once", &a.0, &at_once.0)?;
            same_bytes("image buffers after the end and after the text at once", &a.1, &at_once.1)?;
            chunks.over = true;
        }
        Ok(number(&a.0))
    }
}

fn lent(implementation: &impl Implementation, image: &[u8], call: &Call, mut held: Held) -> Evaluated {
    let (refusal, answers) = implementation.evaluate_held(image, &call.readings, call.count, &mut held);
    Evaluated { refusal, answers, held }
}

/// Floats are the same by their bits.
fn same_call(what: &str, a: &Evaluated, b: &Evaluated) -> Result<(), String> {
    let bits = |call: &Evaluated| call.answers.map(|answer| answer.value.to_bits());
    same(what, a, b)?;
    same(what, &bits(a), &bits(b))
}
