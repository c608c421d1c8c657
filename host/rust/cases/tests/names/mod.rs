//! Wrong readers, load checks and listers of names and keywords.
use cases::blocks::{KEYWORDS, UNUSED_KEYWORDS};
use cases::images::{name, names, set_name, Owner};
use cases::words::{self, is_same, Place, PLACES};
use cases::Refusal;
use std::ops::Range;

#[derive(Clone, Copy, PartialEq, Debug)]
pub enum NameFault {
    /// A name used here in other letters than declared is refused.
    UseRefused(Place),
    /// A name that was there in other letters is taken here.
    RepeatTaken(Place),
    /// A keyword in other letters is taken as a name here.
    KeywordTaken(Place),
    /// This keyword in other letters is refused.
    KeywordRefused(&'static str),
    /// A keyword that stands nowhere is a name in other letters.
    UnusedKeywordTaken,
    /// A keyword in other letters is too long for a name.
    LongKeyword,
    /// The image keeps each name as last used.
    NamesAsUsed,
    NamesInCapitals,
    /// A name of an owner of this kind is refused where it may be alike another but for case.
    AlikeRefused(usize),
    /// Names, or names and keywords, are compared by the five low bits of their bytes.
    LowBitsOfName,
    LowBitsOfKeyword,
    /// Bytes that are 32 away from a digit or an underscore are taken as these.
    OtherBytesTaken,
    /// The load check takes a name that was there in other letters, of an owner of this kind.
    RepeatPasses(usize),
    /// It takes a keyword in other letters.
    KeywordPasses(usize),
    ListedInCapitals,
    MethodInCapitals,
}

use NameFault::*;

type Read = Result<Vec<u8>, Refusal>;

/// The faults of a reader.
pub fn in_texts() -> Vec<NameFault> {
    let repeats = [Place::Input, Place::Output, Place::InputTerm, Place::OutputTerm, Place::Fuzzify, Place::Defuzzify];
    let uses = PLACES.into_iter().filter(|place| place.is_use()).map(UseRefused);
    let used = KEYWORDS.into_iter().filter(|keyword| !UNUSED_KEYWORDS.contains(keyword)).map(KeywordRefused);
    let mut all = vec![UnusedKeywordTaken, LongKeyword, NamesAsUsed, NamesInCapitals];
    all.extend([LowBitsOfName, LowBitsOfKeyword, OtherBytesTaken]);
    all.extend(uses.chain(repeats.map(RepeatTaken)).chain(PLACES.map(KeywordTaken)).chain(used));
    all.extend((1..6).map(AlikeRefused));
    all
}

/// The faults of a load check and of a lister.
pub fn in_images() -> Vec<NameFault> {
    let mut all = vec![LowBitsOfName, LowBitsOfKeyword, OtherBytesTaken, ListedInCapitals, MethodInCapitals];
    all.extend((0..6).map(KeywordPasses).chain((2..6).map(RepeatPasses)).chain((1..6).map(AlikeRefused)));
    all
}

impl NameFault {
    pub fn read(self, text: &[u8]) -> Read {
        let right = reference::read(text);
        let wrong = match (self, &right) {
            (OtherBytesTaken, _) => Some(reference::read(&text.iter().copied().map(other_byte).collect::<Vec<u8>>())),
            (KeywordRefused(keyword), _) => refuse_keyword(text, keyword.as_bytes(), right.as_ref().err()),
            (_, Ok(image)) => self.accepted(text, image.clone()),
            (_, Err(refusal)) => self.not_accepted(text, *refusal),
        };
        wrong.unwrap_or(right)
    }

    fn accepted(self, text: &[u8], mut image: Vec<u8>) -> Option<Read> {
        match self {
            UseRefused(place) => {
                let declared: Vec<&[u8]> = names(&image).into_iter().map(|(_, at)| name(&image, at)).collect();
                let is_respelt = |at: &Range<usize>| !declared.contains(&&text[at.clone()]);
                let (_, at) = words::names(text).into_iter().find(|(here, at)| *here == place && is_respelt(at))?;
                refused(5, at.start)
            }
            NamesAsUsed => {
                let used = words::names(text);
                for (_, at) in names(&image) {
                    let mut words = used.iter().rev().map(|(_, at)| &text[at.clone()]);
                    let last = words.find(|word| is_same(word, name(&image, at)))?;
                    set_name(&mut image, at, last);
                }
                Some(Ok(image))
            }
            NamesInCapitals => {
                names(&image).into_iter().for_each(|(_, at)| image[at..at + 16].make_ascii_uppercase());
                Some(Ok(image))
            }
            _ => self.refuses(&image).then(|| refused(4, 0))?,
        }
    }

    fn not_accepted(self, text: &[u8], refusal: Refusal) -> Option<Read> {
        let at = refusal.place?;
        let names = words::names(text);
        let nth = names.iter().position(|(_, name)| name.start == at)?;
        let (place, word) = (names[nth].0, &text[names[nth].1.clone()]);
        let keyword = respelt_keyword(word).filter(|_| refusal.number == 2);
        let is_repeated = || names[..nth].iter().any(|(_, name)| text[name.clone()] == *word);
        let is_respelt = refusal.number == 4 && word.len() <= 16 && !is_repeated();
        match self {
            RepeatTaken(here) if here == place && is_respelt => read_on(text, refusal),
            KeywordTaken(here) if here == place && keyword.is_some() => read_on(text, refusal),
            UnusedKeywordTaken if UNUSED_KEYWORDS.contains(&keyword?) => read_on(text, refusal),
            LongKeyword if keyword?.len() > 16 => refused(4, at),
            _ => None,
        }
    }

    /// Whether an accepted image is refused for its names.
    pub fn refuses(self, image: &[u8]) -> bool {
        let names: Vec<(Owner, &[u8])> = names(image).into_iter().map(|(owner, at)| (owner, name(image, at))).collect();
        let mut pairs = names.iter().enumerate().flat_map(|(nth, a)| names[..nth].iter().map(move |b| (a, b)));
        let is_keyword = |word: &[u8]| KEYWORDS.iter().any(|keyword| has_low_bits_of(word, keyword.as_bytes()));
        match self {
            AlikeRefused(kind) => pairs.any(|(a, b)| a.0.kind() == kind && a.1 != b.1 && is_same(a.1, b.1)),
            LowBitsOfName => pairs.any(|(a, b)| a.0.excludes(b.0) && has_low_bits_of(a.1, b.1)),
            LowBitsOfKeyword => names.iter().any(|(_, name)| is_keyword(name)),
            _ => false,
        }
    }

    /// The image without what the load check overlooks.
    pub fn righted(self, image: &[u8]) -> Vec<u8> {
        let mut righted = image.to_vec();
        let names = names(image);
        for (nth, &(owner, at)) in names.iter().enumerate() {
            let word = name(image, at);
            let mut excluded = names[..nth].iter().filter(|(other, _)| owner.excludes(*other));
            let is_overlooked = match self {
                RepeatPasses(kind) if kind == owner.kind() => {
                    excluded.any(|(_, at)| is_same(name(image, *at), word) && name(image, *at) != word)
                }
                KeywordPasses(kind) if kind == owner.kind() => respelt_keyword(word).is_some(),
                _ => false,
            };
            if is_overlooked {
                set_name(&mut righted, at, b"_righted");
            }
            if self == OtherBytesTaken {
                righted[at..at + 16].iter_mut().for_each(|byte| *byte = other_byte(*byte));
            }
        }
        righted
    }

    pub fn alter(self, listing: &mut [u8]) {
        match self {
            ListedInCapitals => listing.make_ascii_uppercase(),
            MethodInCapitals => {
                let method = listing.windows(4).position(|word| word == b"CoGS").unwrap_or_default();
                listing[method..method + 4].make_ascii_uppercase();
            }
            _ => {}
        }
    }
}

fn refused(number: u8, place: usize) -> Option<Read> {
    Some(Err(Refusal { number, place: Some(place) }))
}

/// The keyword that a word is in other letters.
fn respelt_keyword(word: &[u8]) -> Option<&'static str> {
    KEYWORDS.into_iter().find(|keyword| is_same(keyword.as_bytes(), word) && keyword.as_bytes() != word)
}

/// What is read with some other name in the place of the refused one.
fn read_on(text: &[u8], refusal: Refusal) -> Option<Read> {
    let mut text = text.to_vec();
    let at = refusal.place?;
    (b'a'..=b'z').find_map(|letter| {
        text[at] = letter;
        Some(reference::read(&text)).filter(|read| *read != Err(refusal))
    })
}

/// The keyword is wanted where it stands, unless the text is refused there or before.
fn refuse_keyword(text: &[u8], keyword: &[u8], refusal: Option<&Refusal>) -> Option<Read> {
    let mut words = words::tokens(text).into_iter();
    let at = words.find(|at| is_same(&text[at.clone()], keyword) && text[at.clone()] != *keyword)?.start;
    let is_wanted = refusal.is_none_or(|refusal| refusal.place > Some(at));
    is_wanted.then(|| refused(2, at))?
}

fn has_low_bits_of(a: &[u8], b: &[u8]) -> bool {
    a.len() == b.len() && a.iter().zip(b).all(|(a, b)| a & 0x1f == b & 0x1f)
}

fn other_byte(byte: u8) -> u8 {
    match byte {
        0x7f | 0x10..=0x19 => byte ^ 0x20,
        _ => byte,
    }
}
