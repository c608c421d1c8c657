//! The reference by itself: every case gets an answer, what is listed reads back, buffers stay as they should,
//! and the cases reach every refusal, every kind of sharp edge, figures near and far, and names and keywords in all
//! letters.
use cases::block::Block;
use cases::blocks::{KEYWORDS, UNUSED_KEYWORDS};
use cases::calls::Call;
use cases::random::Random;
use cases::words::{any_case, is_same, Place, PLACES};
use cases::{blocks, images, texts, words, Case, Implementation, Mark, Reference, Refusal, Run};
use std::collections::BTreeMap;
use std::ops::Range;

#[test]
fn every_case_has_a_sound_answer() {
    let run = Run::from_environment();
    let tally = run.compare(&Reference, &Reference);
    println!("{tally:?}");
    if run.only.is_some() || run.cases < 20_000 {
        return;
    }
    for refusal in 0..=10 {
        assert!(tally.texts[refusal] >= 20, "texts, {refusal}: {tally:?}");
    }
    for refusal in [0, 10, 11] {
        assert!(tally.images[refusal] >= 200, "images, {refusal}: {tally:?}");
    }
    for refusal in [0, 11, 12, 13, 14] {
        assert!(tally.calls[refusal] >= 200, "calls, {refusal}: {tally:?}");
    }
    for refusal in [0, 1, 16] {
        assert!(tally.chunks[refusal] >= 200, "chunks, {refusal}: {tally:?}");
    }
    for refusal in [0].into_iter().chain(2..=10).chain([16]) {
        assert!(tally.ends[refusal] >= 5, "ends, {refusal}: {tally:?}");
    }
}

/// Every spelling of a block reads to the image that the cases lay out themselves.
#[test]
fn spellings_read_to_the_image() {
    let seed = Run::from_environment().seed;
    for case in 0..2_000 {
        let random = &mut Random::new(seed, case);
        let block: Block = blocks::block(random);
        let image = block.image();
        let text = texts::valid(random, &block);
        if text.len() <= 65_536 {
            assert!(reference::read(&text).as_ref() == Ok(&image), "case {case}: {}", text.escape_ascii());
        }
        let listing = reference::list(&image).unwrap();
        assert!(reference::read(&listing) == Ok(image), "case {case}");
    }
}

type Shapes = BTreeMap<Vec<usize>, usize>;

/// Counts a term by how many points it has at each position, front to back.
fn count_shape<T: PartialEq>(shapes: &mut Shapes, positions: &[T]) {
    let shape = positions.chunk_by(T::eq).map(<[T]>::len).collect();
    *shapes.entry(shape).or_default() += 1;
}

/// Counts the readings just below an edge, at it and just above it, those of REAL inputs and those of INT inputs.
fn count_readings(readings: &mut [[usize; 3]; 2], calls: &[Call], input: usize, edge: i32) {
    for reading in calls.iter().map(|call| call.readings[input]) {
        let (counts, step) = if reading.kind == 1 { (&mut readings[0], 1) } else { (&mut readings[1], 1000) };
        for (count, near) in counts.iter_mut().zip([edge - step, edge, edge + step]) {
            *count += usize::from(reading.crisp() == Some(near));
        }
    }
}

/// Accepted images have edges in every place of a term, calls have readings there.
#[test]
fn edges_are_reached() {
    let seed = Run::from_environment().seed;
    let mut shapes = Shapes::new();
    let mut readings = [[0; 3]; 2];
    for number in 0..6_000 {
        let (image, calls) = match Case::new(seed, number) {
            Case::Text { text, .. } => (reference::read(&text).unwrap_or_default(), Vec::new()),
            Case::Image { image, .. } => (image, Vec::new()),
            Case::Calls { image, calls } => (image, calls),
            Case::Chunks { .. } => continue,
        };
        if reference::check(&image).is_err() {
            continue;
        }
        for (input, words) in images::positions(&image) {
            let positions: Vec<i32> = words.iter().map(|&at| images::word(&image, at)).collect();
            count_shape(&mut shapes, &positions);
            for pair in positions.windows(2).filter(|pair| pair[0] == pair[1]) {
                count_readings(&mut readings, &calls, input, pair[0]);
            }
        }
    }
    let two: [&[usize]; 2] = [&[1, 1], &[2]];
    let three: [&[usize]; 3] = [&[1, 1, 1], &[2, 1], &[1, 2]];
    let four: [&[usize]; 5] = [&[1, 1, 1, 1], &[2, 1, 1], &[1, 2, 1], &[1, 1, 2], &[2, 2]];
    for &shape in two.iter().chain(&three).chain(&four) {
        assert!(shapes.get(shape) >= Some(&500), "{shape:?}: {shapes:?}");
    }
    let [real, int] = readings;
    assert!(real[0] >= 80 && real[1] >= 300 && real[2] >= 80, "{real:?}");
    assert!(int[0] >= 20 && int[1] >= 150 && int[2] >= 20, "{int:?}");
}

/// Fired figures lie on both sides of what a quotient of twenty bits can be, and at its borders.
#[test]
fn figures_of_every_length_are_reached() {
    let seed = Run::from_environment().seed;
    let (mut lowest, mut low, mut near, mut high, mut highest) = (0, 0, 0, 0, 0);
    for number in 0..12_000 {
        let Case::Calls { image, calls } = Case::new(seed, number) else { continue };
        let Ok(fresh) = reference::fresh(&image) else { continue };
        for call in calls {
            let answers = Reference.evaluate(&image, &call.readings, call.count, fresh).answers;
            for answer in answers.iter().filter(|answer| answer.mark == Mark::Fired) {
                match answer.thousandths {
                    ..-500_001 => lowest += 1,
                    -500_001..=-499_999 => low += 1,
                    -499_998..=499_998 => near += 1,
                    499_999..=500_001 => high += 1,
                    _ => highest += 1,
                }
            }
        }
    }
    let counts = [lowest, low, near, high, highest];
    assert!(counts.into_iter().all(|count| count >= 50), "{counts:?}");
}

/// Blocks that break one rule have all that is refused by 7 about equal positions.
#[test]
fn wrong_edges_are_reached() {
    let seed = Run::from_environment().seed;
    let mut shapes = Shapes::new();
    let mut falls = 0;
    for case in 0..4_000 {
        let random = &mut Random::new(seed, case);
        let mut block = blocks::block(random);
        blocks::strain(random, &mut block);
        let text = texts::valid(random, &block);
        if !matches!(reference::read(&text), Err(refusal) if refusal.number == 7) {
            continue;
        }
        for term in block.inputs.iter().flat_map(|input| &input.terms) {
            let positions: Vec<i64> = term.points.iter().map(|point| point.0).collect();
            count_shape(&mut shapes, &positions);
            falls += usize::from(positions.windows(3).any(|three| three[0] == three[1] && three[2] < three[1]));
        }
    }
    let third: [&[usize]; 4] = [&[3], &[3, 1], &[1, 3], &[4]];
    for shape in third {
        assert!(shapes.get(shape) >= Some(&5), "{shape:?}: {shapes:?}");
    }
    assert!(falls >= 20, "{falls}");
}

fn keyword(word: &[u8]) -> Option<&'static str> {
    KEYWORDS.into_iter().find(|keyword| is_same(keyword.as_bytes(), word))
}

/// A text and where its names stand.
struct Named {
    text: Vec<u8>,
    names: Vec<(Place, Range<usize>)>,
}

impl Named {
    fn new(text: Vec<u8>) -> Named {
        Named { names: words::names(&text), text }
    }

    fn name(&self, at: &Range<usize>) -> &[u8] {
        &self.text[at.clone()]
    }

    /// The name that stands at a byte.
    fn at(&self, byte: usize) -> Option<(Place, &[u8])> {
        let (place, at) = self.names.iter().find(|(_, at)| at.start == byte)?;
        Some((*place, self.name(at)))
    }

    /// The names that are spelt otherwise than where they are declared, by their places.
    fn respelt(&self, image: &[u8]) -> Vec<Place> {
        let declared: Vec<&[u8]> = images::names(image).into_iter().map(|(_, at)| images::name(image, at)).collect();
        let respelt = self.names.iter().filter(|(_, at)| !declared.contains(&self.name(at)));
        respelt.map(|(place, _)| *place).collect()
    }

    /// The keywords that are spelt otherwise than in Table 7.
    fn respelt_keywords(&self) -> Vec<&'static str> {
        let words = words::tokens(&self.text).into_iter().map(|at| &self.text[at]);
        words.filter_map(|word| keyword(word).filter(|keyword| keyword.as_bytes() != word)).collect()
    }

    /// Whether the names of the rules are in capitals and nothing else is spelt otherwise than where it is declared.
    fn has_capitals_in_rules(&self, image: &[u8]) -> bool {
        let rules = || self.names.iter().filter(|(place, _)| *place >= Place::ConditionInput);
        let respelt = self.respelt(image);
        self.respelt_keywords().is_empty()
            && !respelt.is_empty()
            && respelt.iter().all(|place| *place >= Place::ConditionInput)
            && rules().all(|(_, at)| !self.name(at).iter().any(u8::is_ascii_lowercase))
    }
}

/// Accepted texts use names in other letters than declared in every place, and have every keyword in other letters.
#[test]
fn other_letters_are_reached() {
    let seed = Run::from_environment().seed;
    let mut uses: BTreeMap<Place, usize> = BTreeMap::new();
    let mut keywords: BTreeMap<&str, usize> = BTreeMap::new();
    let [mut capitals, mut small, mut in_rules] = [0; 3];
    for case in 0..2_000 {
        let text = texts::text(&mut Random::new(seed, case));
        let Ok(image) = reference::read(&text) else { continue };
        let text = Named::new(text);
        text.respelt(&image).into_iter().for_each(|place| *uses.entry(place).or_default() += 1);
        text.respelt_keywords().into_iter().for_each(|keyword| *keywords.entry(keyword).or_default() += 1);
        capitals += usize::from(!text.text.iter().any(u8::is_ascii_lowercase));
        small += usize::from(!text.text.iter().any(u8::is_ascii_uppercase));
        in_rules += usize::from(text.has_capitals_in_rules(&image));
    }
    for place in PLACES {
        let is_reached = if place.is_use() { uses.get(&place) >= Some(&200) } else { !uses.contains_key(&place) };
        assert!(is_reached, "{place:?}: {uses:?}");
    }
    for keyword in KEYWORDS {
        let is_reached = UNUSED_KEYWORDS.contains(&keyword) || keywords.get(keyword) >= Some(&20);
        assert!(is_reached, "{keyword}: {keywords:?}");
    }
    assert!(capitals >= 15 && small >= 15 && in_rules >= 30, "{capitals}, {small}, {in_rules}");
}

/// Refused texts have names that differ in case from others, and from keywords, in every place.
#[test]
fn wrong_letters_are_reached() {
    let seed = Run::from_environment().seed;
    let mut repeated: BTreeMap<Place, usize> = BTreeMap::new();
    let mut keywords: BTreeMap<Place, usize> = BTreeMap::new();
    for case in 0..6_000 {
        let text = texts::text(&mut Random::new(seed, case));
        let Err(Refusal { number: number @ (2 | 4), place: Some(byte) }) = reference::read(&text) else { continue };
        let text = Named::new(text);
        let Some((place, name)) = text.at(byte) else { continue };
        let earlier = || text.names.iter().take_while(|(_, at)| at.start < byte).map(|(_, at)| text.name(at));
        match number {
            4 if earlier().any(|other| is_same(other, name)) && earlier().all(|other| other != name) => {
                *repeated.entry(place).or_default() += 1;
            }
            2 if keyword(name).is_some_and(|keyword| keyword.as_bytes() != name) => {
                *keywords.entry(place).or_default() += 1;
            }
            _ => {}
        }
    }
    for place in PLACES {
        assert!(keywords.get(&place) >= Some(&6), "{place:?}: {keywords:?}");
    }
    use Place::*;
    for place in [Input, Output, InputTerm, OutputTerm, Fuzzify, Defuzzify] {
        assert!(repeated.get(&place) >= Some(&5), "{place:?}: {repeated:?}");
    }
}

/// What keeps a stored image from passing, as far as its names do.
#[derive(Debug)]
enum Wrong {
    /// A keyword in other letters than those of Table 7, by the kind of its owner.
    Keyword(usize),
    /// The same as an earlier one but for case, by the kind of its owner.
    Repeated(usize),
    Otherwise,
}

/// The image with sound names that nothing else has.
fn renamed(image: &[u8]) -> Vec<u8> {
    let mut renamed = image.to_vec();
    for (nth, (_, at)) in images::names(image).into_iter().enumerate() {
        images::set_name(&mut renamed, at, format!("_of_its_own_{nth}").as_bytes());
    }
    renamed
}

fn wrong_names(image: &[u8]) -> Vec<Wrong> {
    let names = images::names(image);
    let mut wrong = Vec::new();
    for (nth, &(owner, at)) in names.iter().enumerate() {
        let (field, name) = (&image[at..at + 16], images::name(image, at));
        let is_padded = field[name.len()..].iter().all(|byte| *byte == 0);
        match keyword(name) {
            _ if is_padded && std::str::from_utf8(name).is_ok_and(blocks::is_name) => {}
            Some(keyword) if is_padded && keyword.as_bytes() != name => wrong.push(Wrong::Keyword(owner.kind())),
            _ => wrong.push(Wrong::Otherwise),
        }
        for (_, before) in names[..nth].iter().filter(|(other, _)| owner.excludes(*other)) {
            let other = images::name(image, *before);
            if is_same(name, other) {
                wrong.push(if name == other { Wrong::Otherwise } else { Wrong::Repeated(owner.kind()) });
            }
        }
    }
    wrong
}

/// Stored images are refused for the case of one name alone, of every owner, and pass with names that may be alike.
#[test]
fn letters_in_images_are_reached() {
    let seed = Run::from_environment().seed;
    let mut keywords = [0; 6];
    let mut repeated = [0; 6];
    let mut alike = [0; 6];
    for case in 0..6_000 {
        let image = images::image(&mut Random::new(seed, case));
        if reference::check(&renamed(&image)).is_err() {
            continue;
        }
        let wrong = wrong_names(&image);
        assert_eq!(reference::check(&image).is_ok(), wrong.is_empty(), "case {case}: {wrong:?}");
        match wrong[..] {
            [] => count_alike(&mut alike, &image),
            [Wrong::Keyword(kind)] => keywords[kind] += 1,
            [Wrong::Repeated(kind)] => repeated[kind] += 1,
            _ => {}
        }
    }
    assert!(keywords.iter().all(|&count| count >= 15), "{keywords:?}");
    // Nothing must differ from the names of the block and of the rule block.
    assert!(repeated[2..].iter().all(|&count| count >= 6), "{repeated:?}");
    // The block's name is the first.
    assert!(alike[1..].iter().all(|&count| count >= 6), "{alike:?}");
}

/// Counts the names that differ from an earlier one only in case, by their owners.
fn count_alike(alike: &mut [usize; 6], image: &[u8]) {
    let names = images::names(image);
    for (nth, &(owner, at)) in names.iter().enumerate() {
        let name = images::name(image, at);
        let mut earlier = names[..nth].iter().map(|(_, at)| images::name(image, *at));
        alike[owner.kind()] += usize::from(earlier.any(|other| is_same(other, name) && other != name));
    }
}

/// A stored image still passes with a name in other letters.
#[test]
fn respelt_images_pass() {
    let seed = Run::from_environment().seed;
    let mut respelt = [0; 6];
    for case in 0..1_000 {
        let random = &mut Random::new(seed, case);
        let mut image = blocks::block(random).image();
        let (owner, at) = *random.pick(&images::names(&image));
        let old = images::name(&image, at).to_vec();
        let new = any_case(random, &old);
        respelt[owner.kind()] += usize::from(new != old);
        images::set_name(&mut image, at, &new);
        let listing = reference::list(&image).unwrap();
        assert!(reference::read(&listing) == Ok(image), "case {case}");
    }
    assert!(respelt.iter().all(|&count| count >= 20), "{respelt:?}");
}
