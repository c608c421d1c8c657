//! Blocks of all sizes, and blocks that break one of document 01's rules.
use crate::block::{Block, Condition, Input, Level, Output, Rule, Term};
use crate::random::Random;
use crate::words::{any_case, is_same, same_low_bits};
use std::iter::repeat_n;

const CRISP: i64 = 1_000_000_000;

/// The words of Table 7 of source document 001, with REAL and INT.
pub const KEYWORDS: [&str; 43] = [
    "ACCU",
    "ACT",
    "AND",
    "ASUM",
    "BDIF",
    "BSUM",
    "CoA",
    "CoG",
    "CoGS",
    "DEFAULT",
    "DEFUZZIFY",
    "END_DEFUZZIFY",
    "END_FUNCTION_BLOCK",
    "END_FUZZIFY",
    "END_OPTIONS",
    "END_RULEBLOCK",
    "END_VAR",
    "FUNCTION_BLOCK",
    "FUZZIFY",
    "IF",
    "INT",
    "IS",
    "LM",
    "MAX",
    "METHOD",
    "MIN",
    "NC",
    "NOT",
    "NSUM",
    "OPTIONS",
    "OR",
    "PROD",
    "RANGE",
    "REAL",
    "RM",
    "RULE",
    "RULEBLOCK",
    "TERM",
    "THEN",
    "VAR",
    "VAR_INPUT",
    "VAR_OUTPUT",
    "WITH",
];

/// Those that stand nowhere in the texts of document 01.
pub const UNUSED_KEYWORDS: [&str; 8] = ["CoA", "CoG", "END_OPTIONS", "LM", "NSUM", "OPTIONS", "RM", "VAR"];

/// Names close to keywords and to the bounds on names.
const ODD_NAMES: [&str; 22] = [
    "a",
    "Z",
    "_a",
    "_1",
    "a_b",
    "rules",
    "Rule1",
    "RUL",
    "CoGS1",
    "cogss",
    "CO_G",
    "NOT1",
    "I",
    "n",
    "END",
    "_VAR",
    "Var_In",
    "AC4",
    "ma8",
    "abcdefghijklmnop",
    "_bcdefghijklmn_p",
    "ABCDEFGHIJKLMNO0",
];

/// Words that are no names, and names that are too long.
const NO_NAMES: [&str; 19] = [
    "_",
    "a_",
    "a__b",
    "__",
    "1a",
    "a-b",
    "a{",
    "a\x7fb",
    "",
    "abcdefghijklmnop_",
    "END_FUNCTION_BLOC",
    "VAR_",
    "end__var",
    "rule",
    "Rule",
    "COGS",
    "cogs",
    "real",
    "Int",
];

/// Whether a word may be a name.
pub fn is_name(word: &str) -> bool {
    let is_word = word.bytes().all(|byte| byte.is_ascii_alphanumeric() || byte == b'_');
    let starts = word.bytes().next().is_some_and(|byte| !byte.is_ascii_digit());
    let is_keyword = KEYWORDS.iter().any(|keyword| is_same(keyword.as_bytes(), word.as_bytes()));
    is_word && starts && !word.ends_with('_') && !word.contains("__") && word.len() <= 16 && !is_keyword
}

/// One of these words, respelt.
fn respelt(random: &mut Random, words: &[&str], respell: fn(&mut Random, &[u8]) -> Vec<u8>) -> String {
    let word = random.pick(words);
    respell(random, word.as_bytes()).into_iter().map(char::from).collect()
}

/// A keyword in any case, often the one that is too long for a name.
pub fn keyword(random: &mut Random) -> String {
    let words: &[&str] = if random.once_in(8) { &["END_FUNCTION_BLOCK"] } else { &KEYWORDS };
    respelt(random, words, any_case)
}

fn word(random: &mut Random, length: usize) -> String {
    const LETTERS: &[u8] = b"abcdefghijklmnopqrstuvwxyzABCDEFGHIJKLMNOPQRSTUVWXYZ__0123456789";
    let mut word = String::new();
    for nth in 0..length {
        let choices = if nth == 0 { &LETTERS[..54] } else { LETTERS };
        word.push(*random.pick(choices) as char);
    }
    word
}

/// A name that is none of those taken.
fn name(random: &mut Random, taken: &[&str]) -> String {
    loop {
        let name = match random.below(9) {
            0 => random.pick(&ODD_NAMES).to_string(),
            1 => word(random, 16),
            2 => word(random, 1),
            // Nearly a keyword, or nearly one of those taken.
            3 => respelt(random, &KEYWORDS, same_low_bits),
            4 if !taken.is_empty() => respelt(random, taken, same_low_bits),
            _ => {
                let length = random.size(1, 16);
                word(random, length)
            }
        };
        let is_taken = taken.iter().any(|other| is_same(other.as_bytes(), name.as_bytes()));
        if is_name(&name) && !is_taken {
            return name;
        }
    }
}

fn names(random: &mut Random, count: usize) -> Vec<String> {
    let mut names: Vec<String> = Vec::new();
    for _ in 0..count {
        let taken: Vec<&str> = names.iter().map(String::as_str).collect();
        let next = name(random, &taken);
        names.push(next);
    }
    names
}

/// A crisp value between two others.
pub fn crisp(random: &mut Random, low: i64, high: i64) -> i64 {
    let value = match random.below(10) {
        0 => CRISP - random.between(0, 2),
        1 => random.between(0, 2) - CRISP,
        2 => random.between(-CRISP, CRISP),
        3 => random.between(-1_000_000, 1_000_000),
        4 => 1000 * random.between(-100, 100),
        5 => random.between(-9, 9),
        6 => 100 * random.between(-90, 90),
        // A figure this far from 0 may be worked out in another way.
        7 => *random.pick(&[-500_000, 500_000]) + random.between(-2, 2),
        _ => random.between(-100_000, 100_000),
    };
    if (low..=high).contains(&value) {
        value
    } else {
        random.between(low, high)
    }
}

fn degree(random: &mut Random) -> i64 {
    match random.below(6) {
        0 | 1 => 0,
        2 | 3 => 1000,
        4 => *random.pick(&[1, 999, 500, 250, 10, 100]),
        _ => random.between(0, 1000),
    }
}

/// A crisp value that a reading of an INT can be.
fn whole(random: &mut Random) -> i64 {
    let whole = match random.below(4) {
        0 => *random.pick(&[-32_768, 32_767]),
        1 => random.between(-32_768, 32_767),
        _ => random.between(-9, 9),
    };
    1000 * whole
}

/// How many points stand at each position of a term, front to back; two make an edge.
fn shape(random: &mut Random, count: usize) -> Vec<usize> {
    let mut shape = Vec::new();
    let mut left = count;
    while left > 0 {
        let here = if left > 1 && random.once_in(3) { 2 } else { 1 };
        shape.push(here);
        left -= here;
    }
    shape
}

/// Points of a term of an INT stand mostly where a reading can be.
fn points(random: &mut Random, count: usize, int: bool) -> Vec<(i64, i64)> {
    let shape = shape(random, count);
    let near = if int { whole(random) } else { crisp(random, -CRISP, CRISP - 10) };
    let mut positions = Vec::new();
    while positions.len() < shape.len() {
        let next = match random.below(4) {
            0 => near + random.between(0, 9),
            1 | 2 if int => whole(random),
            _ => crisp(random, -CRISP, CRISP),
        };
        if !positions.contains(&next) {
            positions.push(next);
        }
    }
    positions.sort_unstable();
    let all = positions.into_iter().zip(shape).flat_map(|(position, points)| repeat_n(position, points));
    all.map(|position| (position, degree(random))).collect()
}

/// How many of each thing a block has.
struct Sizes {
    inputs: usize,
    outputs: usize,
    terms: (usize, usize),
    points: (usize, usize),
    rules: usize,
    /// Of all rules together.
    words: usize,
    conclusions: usize,
}

fn sizes(random: &mut Random) -> Sizes {
    match random.below(16) {
        0 => Sizes { inputs: 1, outputs: 1, terms: (1, 1), points: (2, 2), rules: 1, words: 1, conclusions: 1 },
        1 => Sizes { inputs: 8, outputs: 6, terms: (7, 7), points: (4, 4), rules: 64, words: 640, conclusions: 128 },
        2 => {
            let rules = random.size(1, 64);
            let (words, conclusions) = (random.size(rules, 640), random.size(rules, 128));
            let (inputs, outputs) = (random.size(1, 8), random.size(1, 6));
            Sizes { inputs, outputs, terms: (1, 7), points: (2, 4), rules, words, conclusions }
        }
        3 => {
            let words = *random.pick(&[639, 640]);
            Sizes { inputs: 2, outputs: 1, terms: (1, 2), points: (2, 4), rules: 1, words, conclusions: 128 }
        }
        _ => {
            let rules = random.size(1, 6);
            let (words, conclusions) = (rules * random.size(1, 7), rules * random.size(1, 3));
            let (inputs, outputs) = (random.size(1, 4), random.size(1, 3));
            Sizes { inputs, outputs, terms: (1, 4), points: (2, 4), rules, words, conclusions }
        }
    }
}

/// A whole cut into so many parts of at least one.
fn parts(random: &mut Random, whole: usize, count: usize) -> Vec<usize> {
    let mut parts = vec![whole / count; count];
    parts[0] += whole % count;
    for _ in 0..count {
        let (from, to) = (random.below(count), random.below(count));
        let moved = random.below(parts[from]);
        parts[from] -= moved;
        parts[to] += moved;
    }
    parts
}

/// A block that keeps every rule.
pub fn block(random: &mut Random) -> Block {
    let sizes = sizes(random);
    let mut variables = names(random, sizes.inputs + sizes.outputs);
    let mut inputs = Vec::new();
    for _ in 0..sizes.inputs {
        let int = random.once_in(3);
        let count = random.size(sizes.terms.0, sizes.terms.1);
        let mut terms = Vec::new();
        for name in names(random, count) {
            let count = random.size(sizes.points.0, sizes.points.1);
            terms.push(Term { name, points: points(random, count, int) });
        }
        inputs.push(Input { name: variables.pop().unwrap_or_default(), int, terms });
    }
    let mut outputs = Vec::new();
    for _ in 0..sizes.outputs {
        let count = random.size(sizes.terms.0, sizes.terms.1);
        let name = variables.pop().unwrap_or_default();
        outputs.push(output(random, name, count));
    }
    let rules = rules(random, &sizes, &inputs, &outputs);
    let pair = random.below(3);
    let mut block = Block {
        name: name(random, &[]),
        rules_name: name(random, &[]),
        inputs,
        outputs,
        pair,
        or_pair: pair,
        accu: random.below(2),
        act: random.below(2),
        rules,
    };
    if random.once_in(8) {
        nest(random, &mut block);
    }
    share_name(random, &mut block);
    block
}

/// The rule block's name is bound to nothing else, so it may be another's, in any case.
fn share_name(random: &mut Random, block: &mut Block) {
    if random.once_in(8) {
        block.rules_name = respelt(random, &[&block.name, &block.inputs[0].name, &block.outputs[0].name], any_case);
    }
}

/// Gives a rule a condition with many parentheses, if there is room for its words.
fn nest(random: &mut Random, block: &mut Block) {
    let rule = random.below(block.rules.len());
    let open = random.size(6, 8);
    let condition = deepest(random, &block.inputs, open);
    let others = block.words() - block.rules[rule].condition.words();
    if others + condition.words() <= 640 {
        block.rules[rule].condition = condition;
    }
}

fn output(random: &mut Random, name: String, count: usize) -> Output {
    let range = random.once_in(2).then(|| {
        let min = crisp(random, -CRISP, CRISP - 1);
        let max = if random.once_in(4) { min + 1 } else { crisp(random, min + 1, CRISP) };
        (min, max)
    });
    let (low, high) = range.unwrap_or((-CRISP, CRISP));
    let mut terms = Vec::new();
    for name in names(random, count) {
        terms.push(Term { name, points: vec![(crisp(random, low, high), 1000)] });
    }
    let default = random.once_in(2).then(|| crisp(random, low, high));
    Output { name, range, terms, default }
}

fn rules(random: &mut Random, sizes: &Sizes, inputs: &[Input], outputs: &[Output]) -> Vec<Rule> {
    let words = parts(random, sizes.words, sizes.rules);
    let conclusions = parts(random, sizes.conclusions, sizes.rules);
    let mut rules: Vec<Rule> = Vec::new();
    for nth in 0..sizes.rules {
        let number = loop {
            let number = match random.below(4) {
                0 => *random.pick(&[1, 65_535, 65_534, 256, 32_768]),
                1 => random.between(1, 65_535),
                _ => nth as i64 + 1,
            };
            if rules.iter().all(|rule| rule.number != number) {
                break number;
            }
        };
        let mut ends = Vec::new();
        for _ in 0..conclusions[nth] {
            let output = random.below(outputs.len());
            ends.push((output, random.below(outputs[output].terms.len())));
        }
        let weight = if random.once_in(2) { 1000 } else { degree(random) };
        let condition = condition(random, inputs, words[nth], 8, Level::Or);
        rules.push(Rule { number, condition, conclusions: ends, weight });
    }
    rules
}

fn leaf(random: &mut Random, inputs: &[Input]) -> Box<Condition> {
    let input = random.below(inputs.len());
    Box::new(Condition::Term(input, random.below(inputs[input].terms.len())))
}

/// A condition of so many words that needs at most so many parentheses where this level is wanted.
fn condition(random: &mut Random, inputs: &[Input], words: usize, open: usize, level: Level) -> Condition {
    if words == 1 {
        return *leaf(random, inputs);
    }
    if level == Level::Operand {
        return operand(random, inputs, words, open);
    }
    let next = if level == Level::Or { Level::And } else { Level::Operand };
    let alone = words <= 3 || level == Level::Or || open > 0;
    if words == 2 || alone && random.once_in(if words < 20 { 3 } else { 12 }) {
        return condition(random, inputs, words, open, next);
    }
    // The left side keeps at least one word, the operator takes one.
    let most = if open == 0 && next == Level::Operand { 3 } else { words };
    let right = match random.below(3) {
        0 => 1,
        1 => random.size(1, words - 2).min(12),
        _ => random.size(1, words - 2),
    };
    let right = right.min(most).min(words - 2);
    let b = Box::new(condition(random, inputs, right, open, next));
    let a = Box::new(condition(random, inputs, words - 1 - right, open, level));
    if level == Level::Or {
        Condition::Or(a, b)
    } else {
        Condition::And(a, b)
    }
}

fn operand(random: &mut Random, inputs: &[Input], words: usize, open: usize) -> Condition {
    if words == 2 {
        return Condition::Not(leaf(random, inputs));
    }
    if open == 0 || words == 3 && random.once_in(2) {
        return Condition::Not(Box::new(Condition::Not(leaf(random, inputs))));
    }
    if random.once_in(2) {
        return condition(random, inputs, words, open - 1, Level::Or);
    }
    Condition::Not(Box::new(condition(random, inputs, words - 1, open - 1, Level::Or)))
}

/// A condition that needs exactly so many parentheses at once.
pub fn deepest(random: &mut Random, inputs: &[Input], open: usize) -> Condition {
    // As many operands wait at once as the parentheses allow, or any mixture.
    let mixed = random.once_in(2);
    let and = Box::new(Condition::And(leaf(random, inputs), leaf(random, inputs)));
    let mut part = Condition::Or(leaf(random, inputs), and);
    while part.parentheses(Level::Or) < open {
        let kind = if mixed { random.below(4) } else { 3 };
        part = match kind {
            0 => Condition::Not(Box::new(part)),
            1 => Condition::And(Box::new(part), leaf(random, inputs)),
            2 => Condition::And(leaf(random, inputs), Box::new(part)),
            _ => {
                let and = Box::new(Condition::And(leaf(random, inputs), Box::new(part)));
                Condition::Or(leaf(random, inputs), and)
            }
        };
    }
    part
}

/// Breaks a rule of document 01, or comes close to it. A block that lacks a part stays as it is.
pub fn strain(random: &mut Random, block: &mut Block) {
    let bare_input = block.inputs.iter().any(|input| input.terms.is_empty());
    if bare_input || block.outputs.iter().any(|output| output.terms.is_empty()) || block.rules.is_empty() {
        return;
    }
    match random.below(5) {
        0 => strain_counts(random, block),
        1 => strain_names(random, block),
        2 => strain_numbers(random, block),
        3 => strain_rules(random, block),
        _ => strain_parts(random, block),
    }
}

fn strain_counts(random: &mut Random, block: &mut Block) {
    let count = random.size(7, 8);
    match random.below(8) {
        0 => fill(random, block, Bound::Inputs),
        1 => fill(random, block, Bound::Outputs),
        2 => fill(random, block, Bound::Words),
        3 => fill(random, block, Bound::Conclusions),
        4 => more_rules(random, block),
        5 => {
            let input = random.below(block.inputs.len());
            more_terms(random, &mut block.inputs[input].terms, count);
        }
        6 => {
            let output = random.below(block.outputs.len());
            more_terms(random, &mut block.outputs[output].terms, count);
        }
        _ => {
            let count = *random.pick(&[0, 1, 4, 5, 6]);
            any_term(random, block).points = points(random, count, false);
        }
    }
}

fn strain_names(random: &mut Random, block: &mut Block) {
    match random.below(8) {
        0 => {
            let other = any_name(random, block).clone();
            *any_name(random, block) = respelt(random, &[&other], any_case);
        }
        1 => same_names(random, block),
        2 => {
            let input = random.below(block.inputs.len());
            same_terms(random, &mut block.inputs[input].terms);
        }
        3 => {
            let output = random.below(block.outputs.len());
            same_terms(random, &mut block.outputs[output].terms);
        }
        4 => {
            let name = any_name(random, block);
            *name = respelt(random, &[&name[..]], same_low_bits);
        }
        _ => *any_name(random, block) = odd_name(random),
    }
}

fn strain_numbers(random: &mut Random, block: &mut Block) {
    let output = random.below(block.outputs.len());
    let range = block.outputs[output].range.unwrap_or((-CRISP, CRISP));
    match random.below(10) {
        0 | 1 => {
            if let [first, .., last] = &mut any_term(random, block).points[..] {
                match random.below(3) {
                    0 => last.0 = first.0,
                    1 => std::mem::swap(first, last),
                    _ => first.0 = outside(random),
                }
            }
        }
        2 => {
            if let Some(point) = any_term(random, block).points.last_mut() {
                point.1 = *random.pick(&[-1, 1001, 1000, 0, 9999]);
            }
        }
        3 => {
            let min = crisp(random, -CRISP, CRISP);
            block.outputs[output].range = Some((min, min + random.between(-1, 1)));
        }
        4 => {
            let term = random.below(block.outputs[output].terms.len());
            block.outputs[output].terms[term].points = vec![(near_ends(random, range), 1000)];
        }
        5 => block.outputs[output].default = Some(near_ends(random, range)),
        6 => block.outputs[output].range = Some((outside(random), crisp(random, -CRISP, CRISP))),
        _ => crowd(random, block),
    }
}

/// Gives a term three or four points at one position, a fall behind an edge, or edges that may stand.
pub fn crowd(random: &mut Random, block: &mut Block) {
    const STEPS: [&[i64]; 11] = [
        &[0, 0, 0],
        &[0, 0, 0, 1],
        &[0, 1, 1, 1],
        &[0, 0, 0, 0],
        &[1, 1, 0],
        &[1, 1, 0, 2],
        &[0, 1, 1, 0],
        &[0, 2, 2, 1],
        &[0, 0],
        &[0, 1, 1, 2],
        &[0, 0, 1, 1],
    ];
    let first = crisp(random, -CRISP, CRISP - 2000);
    let step = *random.pick(&[1, 1, 2, 1000]);
    let points = random.pick(&STEPS).iter().map(|&steps| (first + steps * step, degree(random))).collect();
    any_term(random, block).points = points;
}

fn strain_rules(random: &mut Random, block: &mut Block) {
    let rule = random.below(block.rules.len());
    let first = block.rules[0].number;
    let rule = &mut block.rules[rule];
    match random.below(5) {
        0 => rule.number = *random.pick(&[0, -1, 65_535, 65_536, 9_999_999, 10_000_000]),
        1 => rule.number = first,
        2 => rule.weight = *random.pick(&[-1, 1001, 999, 0, 1000, 2000]),
        3 => rule.condition = deepest(random, &block.inputs, 8),
        _ => {
            let open = random.size(7, 10);
            rule.condition = deepest(random, &block.inputs, open);
        }
    }
}

/// Parts left out, and algorithms that are no pair.
fn strain_parts(random: &mut Random, block: &mut Block) {
    let rule = random.below(block.rules.len());
    match random.below(8) {
        0 => {
            let input = random.below(block.inputs.len());
            block.inputs[input].terms.clear();
        }
        1 => {
            let output = random.below(block.outputs.len());
            block.outputs[output].terms.clear();
        }
        2 => block.rules.clear(),
        3 => block.rules[rule].conclusions.clear(),
        4 => {
            let name = name(random, &variable_names(block));
            block.inputs.push(Input { name, int: false, terms: Vec::new() });
        }
        5 => {
            let name = name(random, &variable_names(block));
            block.outputs.push(Output { name, range: None, terms: Vec::new(), default: None });
        }
        _ => block.or_pair = random.below(3),
    }
}

fn outside(random: &mut Random) -> i64 {
    *random.pick(&[CRISP + 1, -CRISP - 1, CRISP, -CRISP, 2 * CRISP, 9_999_999_999, 10_000_000_000])
}

fn near_ends(random: &mut Random, (min, max): (i64, i64)) -> i64 {
    *random.pick(&[min - 1, min, max, max + 1])
}

fn odd_name(random: &mut Random) -> String {
    match random.below(6) {
        0 => word(random, 17),
        1 | 2 => keyword(random),
        3 => random.pick(&ODD_NAMES).to_string(),
        4 => random.pick(&NO_NAMES).to_string(),
        _ => {
            let length = random.size(15, 40);
            word(random, length)
        }
    }
}

fn any_term<'a>(random: &mut Random, block: &'a mut Block) -> &'a mut Term {
    let input = random.below(block.inputs.len());
    let term = random.below(block.inputs[input].terms.len());
    &mut block.inputs[input].terms[term]
}

fn any_name<'a>(random: &mut Random, block: &'a mut Block) -> &'a mut String {
    let input = random.below(block.inputs.len());
    let output = random.below(block.outputs.len());
    match random.below(6) {
        0 => &mut block.name,
        1 => &mut block.rules_name,
        2 => &mut block.inputs[input].name,
        3 => &mut block.outputs[output].name,
        4 => &mut any_term(random, block).name,
        _ => {
            let terms = &mut block.outputs[output].terms;
            let term = random.below(terms.len());
            &mut terms[term].name
        }
    }
}

/// Two variables of one name, in any case.
fn same_names(random: &mut Random, block: &mut Block) {
    let name = respelt(random, &variable_names(block), any_case);
    let variable = random.below(block.inputs.len() + block.outputs.len());
    match block.inputs.get_mut(variable) {
        Some(input) => input.name = name,
        None => block.outputs[variable - block.inputs.len()].name = name,
    }
}

/// Two terms of one name, in any case.
fn same_terms(random: &mut Random, terms: &mut Vec<Term>) {
    let mut term = random.pick(terms).clone();
    term.name = respelt(random, &[&term.name], any_case);
    terms.push(term);
}

fn variable_names(block: &Block) -> Vec<&str> {
    let inputs = block.inputs.iter().map(|input| input.name.as_str());
    inputs.chain(block.outputs.iter().map(|output| output.name.as_str())).collect()
}

/// The bounds that are passed at a name.
#[derive(Clone, Copy)]
pub enum Bound {
    Inputs,
    Outputs,
    Words,
    Conclusions,
}

/// Brings a count to its bound, or a little past it.
pub fn fill(random: &mut Random, block: &mut Block, bound: Bound) {
    match bound {
        Bound::Inputs => more_inputs(random, block),
        Bound::Outputs => more_outputs(random, block),
        Bound::Words => more_words(random, block),
        Bound::Conclusions => more_conclusions(random, block),
    }
}

fn more_inputs(random: &mut Random, block: &mut Block) {
    for _ in block.inputs.len()..random.size(8, 9) {
        let name = name(random, &variable_names(block));
        let terms = block.inputs[0].terms.clone();
        block.inputs.push(Input { name, int: random.once_in(2), terms });
    }
}

fn more_outputs(random: &mut Random, block: &mut Block) {
    for _ in block.outputs.len()..random.size(6, 7) {
        let name = name(random, &variable_names(block));
        let output = output(random, name, 1);
        block.outputs.push(output);
    }
}

fn more_terms(random: &mut Random, terms: &mut Vec<Term>, count: usize) {
    while terms.len() < count {
        let taken: Vec<&str> = terms.iter().map(|term| term.name.as_str()).collect();
        let name = name(random, &taken);
        let points = terms[0].points.clone();
        terms.push(Term { name, points });
    }
}

fn more_rules(random: &mut Random, block: &mut Block) {
    let mut number = 1;
    for _ in block.rules.len()..random.size(64, 65) {
        while block.rules.iter().any(|rule| rule.number == number) {
            number += 1;
        }
        let condition = *leaf(random, &block.inputs);
        let output = random.below(block.outputs.len());
        let term = random.below(block.outputs[output].terms.len());
        block.rules.push(Rule { number, condition, conclusions: vec![(output, term)], weight: 1000 });
    }
}

fn more_words(random: &mut Random, block: &mut Block) {
    let rule = random.below(block.rules.len());
    let others = block.words() - block.rules[rule].condition.words();
    let words = random.size(640, 643).saturating_sub(others).max(1);
    block.rules[rule].condition = condition(random, &block.inputs, words, 8, Level::Or);
}

fn more_conclusions(random: &mut Random, block: &mut Block) {
    for _ in block.conclusions()..random.size(128, 129) {
        let rule = random.below(block.rules.len());
        let output = random.below(block.outputs.len());
        let term = random.below(block.outputs[output].terms.len());
        block.rules[rule].conclusions.push((output, term));
    }
}
