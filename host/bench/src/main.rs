//! Prints a table of times and ratios in Markdown; `tools/benchmark` builds and runs it.
mod blocks;
mod fuzzylite;
mod library;
mod subject;
mod timing;

use blocks::{Dialect, Size, AT_ALL_BOUNDS};
use fuzzylite::Engine;
use reference::Stored;
use std::hint::black_box;
use subject::{Subject, READINGS};
use timing::{Clock, Timed, Times};

const OPERATIONS: [&str; 5] = ["read", "check", "list", "evaluate", "below the check"];

const TRUST: &[u8] = include_bytes!("../../../examples/trust.fcl");

/// What a serial line brings at a time, in bytes.
const CHUNK: usize = 64;

/// Of the readings of blocks that are made here.
const SPAN: [(i32, i32); 1] = [(-10, 70)];

/// Our four operations on a block.
fn ours(subject: &Subject) -> [Timed<'_>; 4] {
    let (mut image, mut listing) = (vec![0; library::IMAGE], vec![0; library::LISTING]);
    let (readings, held) = (subject.our_readings(), library::Held { figures: subject.fresh });
    [
        Timed::new(move |_| library::read(black_box(&subject.text), &mut image)),
        Timed::new(|_| library::check(black_box(&subject.image))),
        Timed::new(move |_| library::list(black_box(&subject.image), &mut listing)),
        Timed::new(move |call| library::evaluate(black_box(&subject.image), &readings[call % READINGS], held)),
    ]
}

/// The reference's, and its evaluation below the check.
fn references(subject: &Subject) -> [Timed<'_>; 5] {
    let (mut image, mut listing) = (vec![0; library::IMAGE], vec![0; library::LISTING]);
    let (readings, same_readings) = (subject.reference_readings(), subject.reference_readings());
    let accepted = Stored::new(&subject.image).unwrap();
    let (inputs, held) = (subject.inputs, subject.fresh);
    [
        Timed::new(move |_| reference::read_into(black_box(&subject.text), &mut image)),
        Timed::new(|_| reference::check(black_box(&subject.image))),
        Timed::new(move |_| reference::list_into(black_box(&subject.image), &mut listing)),
        Timed::new(move |call| {
            reference::evaluate(black_box(&subject.image), &readings[call % READINGS], inputs, held)
        }),
        Timed::new(move |call| black_box(&accepted).evaluate(&same_readings[call % READINGS], inputs, held)),
    ]
}

/// fuzzylite's import, export and process; it has no load check.
fn fuzzylites(subject: &Subject, engine: Engine) -> [Timed<'_>; 3] {
    [
        Timed::new(move |_| engine.import()),
        Timed::new(move |_| engine.export()),
        Timed::new(move |call| engine.process(&subject.numbers[call % READINGS])),
    ]
}

fn grouped(number: f64) -> String {
    let digits = format!("{number:.0}");
    let groups: Vec<&str> = digits.as_bytes().rchunks(3).rev().map(|g| std::str::from_utf8(g).unwrap()).collect();
    groups.join(",")
}

fn ratio(ours: f64, theirs: Option<f64>) -> String {
    match theirs {
        Some(theirs) if ours < theirs => format!("1/{:.1}", theirs / ours),
        Some(theirs) => format!("{:.1}", ours / theirs),
        None => "-".into(),
    }
}

/// What is timed side by side on one block: reading, checking, listing, evaluating; ours, the reference, fuzzylite.
fn side_by_side(subject: &Subject, engine: Engine) -> [Vec<Timed<'_>>; 4] {
    let [read, check, list, evaluate] = ours(subject);
    let [reference_read, reference_check, reference_list, reference_evaluate, reference_below] = references(subject);
    let [import, export, process] = fuzzylites(subject, engine);
    [
        vec![read, reference_read, import],
        vec![check, reference_check],
        vec![list, reference_list, export],
        vec![evaluate, reference_evaluate, process, reference_below],
    ]
}

fn say_rows(clock: &Clock, name: &str, times: &[Times]) {
    let best = |operation: usize, side: usize| times[operation].best.get(side).copied();
    let below = best(3, 0).zip(best(1, 0)).map(|(evaluate, check)| evaluate - check);
    let mut rows: Vec<[Option<f64>; 3]> = (0..4).map(|row| [best(row, 0), best(row, 1), best(row, 2)]).collect();
    rows.push([below, best(3, 3), best(3, 2)]);
    for (operation, [ours, reference, fuzzylite]) in OPERATIONS.iter().zip(rows) {
        let times = [ours, reference, fuzzylite].map(|time| time.map_or("-".into(), grouped)).join(" | ");
        let ratios = [reference, fuzzylite].map(|theirs| ratio(ours.unwrap(), theirs)).join(" | ");
        clock.say(&format!("| {name} | {operation} | {times} | {ratios} |"));
    }
}

fn say_spread(clock: &Clock, times: &[Times]) {
    let mut spreads: Vec<f64> = times.iter().flat_map(|group| group.spread.clone()).collect();
    spreads.sort_by(f64::total_cmp);
    if let (Some(middle), Some(most)) = (spreads.get(spreads.len() / 2), spreads.last()) {
        let spread = format!("by {middle:.1}% (median of these times), {most:.1}% (most)");
        clock.say(&format!("\nThe middle process lies over the best one {spread}."));
    }
}

fn crane() -> Subject {
    Subject::new("crane", include_bytes!("../../../examples/crane.fcl").to_vec(), &[(-5, 25), (-55, 55)])
}

fn all_bounds() -> Subject {
    Subject::new("all bounds", AT_ALL_BOUNDS.text(Dialect::Ours).into(), &SPAN)
}

fn compare_sides(clock: &mut Clock) {
    let subjects = [Subject::new("worked example", TRUST.to_vec(), &[(0, 80)]), crane(), all_bounds()];
    assert_eq!(subjects[2].image.len(), library::IMAGE, "not all bounds are reached");
    let their_texts = [
        include_str!("../fuzzylite/trust.fcl").to_string(),
        include_str!("../fuzzylite/crane.fcl").to_string(),
        AT_ALL_BOUNDS.text(Dialect::Fuzzylite),
    ];
    clock.say(
        "| block | rules | text, bytes | fuzzylite's text | image | listing | answers fired | largest difference |",
    );
    clock.say("|---|---|---|---|---|---|---|---|");
    let mut times = Vec::new();
    for (subject, text) in subjects.iter().zip(&their_texts) {
        let engine = Engine::new(text);
        let (difference, fired, answers) = subject.compare_with(&engine);
        let sizes = [subject.rules(), subject.text.len(), text.len(), subject.image.len(), subject.listing.len()];
        let sizes = sizes.map(|size| grouped(size as f64)).join(" | ");
        clock.say(&format!("| {} | {sizes} | {fired} of {answers} | {difference:.4} |", subject.name));
        times.extend(side_by_side(subject, engine).map(|group| clock.times(group)));
    }
    clock.say("\n| block | | ours, ns | reference, ns | fuzzylite, ns | to reference | to fuzzylite |");
    clock.say("|---|---|---|---|---|---|---|");
    for (subject, times) in subjects.iter().zip(times.chunks(4)) {
        say_rows(clock, subject.name, times);
    }
    say_spread(clock, &times);
}

/// Our operations over growing blocks, the first so many of them; each time with its ratio to the one before.
fn growth(clock: &mut Clock, title: &str, kinds: usize, steps: &[(String, Vec<u8>)]) {
    let subjects: Vec<Subject> = steps.iter().map(|(_, text)| Subject::new("growth", text.clone(), &SPAN)).collect();
    let timed = |kind: usize| subjects.iter().map(|subject| ours(subject).into_iter().nth(kind).unwrap()).collect();
    let times: Vec<Times> = (0..kinds.min(4)).map(|kind| clock.times(timed(kind))).collect();
    let time = |kind: usize, step: usize| match kind {
        4 => times[3].best[step] - times[1].best[step],
        _ => times[kind].best[step],
    };
    clock.say(&format!("\n| {title} | text, bytes | image | {} |", OPERATIONS[..kinds].join(" | ")));
    clock.say(&format!("|{}", "---|".repeat(3 + kinds)));
    for (step, subject) in subjects.iter().enumerate() {
        let cell = |kind: usize| match step {
            0 => grouped(time(kind, step)),
            _ => format!("{} ({:.2})", grouped(time(kind, step)), time(kind, step) / time(kind, step - 1)),
        };
        let cells = (0..kinds).map(cell).collect::<Vec<_>>().join(" | ");
        let sizes = [subject.text.len(), subject.image.len()].map(|size| grouped(size as f64)).join(" | ");
        clock.say(&format!("| {} | {sizes} | {cells} |", steps[step].0));
    }
    say_spread(clock, &times);
}

fn doubling(most: usize, step: impl Fn(usize) -> (String, Vec<u8>)) -> Vec<(String, Vec<u8>)> {
    (0..).map(|power| 1 << power).take_while(|&size| size <= most).map(step).collect()
}

fn sized(inputs: usize, outputs: usize, rules: usize) -> Vec<u8> {
    Size { inputs, outputs, rules }.text(Dialect::Ours).into()
}

/// The worked example, followed by blanks or by a comment.
fn followed(kilobytes: usize, comment: bool) -> (String, Vec<u8>) {
    let mut text = TRUST.to_vec();
    text.resize(1024 * kilobytes, b' ');
    if comment {
        let end = text.len();
        text[TRUST.len()..TRUST.len() + 2].copy_from_slice(b"(*");
        text[end - 2..].copy_from_slice(b"*)");
    }
    (kilobytes.to_string(), text)
}

/// Our reading at once and in chunks.
fn compare_chunks(clock: &mut Clock) {
    let (mut store, mut image) = (vec![0; library::TEXT], vec![0; library::IMAGE]);
    clock.say(&format!("\n| block | chunks of {CHUNK} bytes | read at once, ns | in chunks, ns | more a chunk, ns |"));
    clock.say("|---|---|---|---|---|");
    for subject in [crane(), all_bounds()] {
        let mut read = || library::read_in_chunks(black_box(&subject.text), CHUNK, &mut store, &mut image).length;
        assert_eq!(read(), subject.image.len(), "{}: read otherwise in chunks", subject.name);
        let [at_once, ..] = ours(&subject);
        let best = clock.times(vec![at_once, Timed::new(|_| read())]).best;
        let chunks = subject.text.len().div_ceil(CHUNK) as f64;
        let cells = [chunks, best[0], best[1]].map(grouped).join(" | ");
        clock.say(&format!("| {} | {cells} | {:.1} |", subject.name, (best[1] - best[0]) / chunks));
    }
}

fn main() {
    let clock = &mut Clock::new();
    clock.say(&timing::how());
    compare_sides(clock);
    let whole = |k: usize| {
        let (outputs, rules) = (k - k / 4, 8 * k);
        (format!("{k}, {outputs}, {rules}"), sized(k, outputs, rules))
    };
    growth(clock, "inputs, outputs, rules", 5, &doubling(8, whole));
    growth(clock, "rules", 5, &doubling(64, |rules| (rules.to_string(), sized(1, 1, rules))));
    growth(clock, "inputs", 5, &doubling(8, |inputs| (inputs.to_string(), sized(inputs, 1, 1))));
    growth(clock, "KB, with blanks", 1, &doubling(64, |kilobytes| followed(kilobytes, false)));
    growth(clock, "KB, with a comment", 1, &doubling(64, |kilobytes| followed(kilobytes, true)));
    compare_chunks(clock);
}
