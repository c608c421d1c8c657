//! The load check: a stored image, word by word, against what the reader can lay out.
use crate::block::{AND, FIRST_TERM, HEADER, NOT, OR, WIDTHS};
use crate::bounds;
use crate::lexer::{is_same_name, is_stored_name};
use crate::numbers::{is_crisp, is_written_degree, M};
use std::ops::Range;

/// An accepted image.
#[derive(Clone, Copy, Debug)]
pub struct Stored<'a> {
    image: &'a [u8],
    counts: [usize; 7],
    offsets: [usize; 7],
}

/// The tables, in the image's order.
#[derive(Clone, Copy)]
pub(crate) enum Table {
    Inputs,
    Outputs,
    Terms,
    Points,
    Rules,
    Words,
    Conclusions,
}

/// What parentheses around a part of a condition depend on.
#[derive(Clone, Copy, PartialEq)]
pub(crate) enum Shape {
    Term,
    NotTerm,
    Not,
    And,
    Or,
}

/// Whether the NOT right over this part needs parentheses.
pub(crate) fn not_encloses(part: Shape) -> bool {
    !matches!(part, Shape::Term | Shape::NotTerm)
}

/// Whether a side of AND or OR needs parentheses: the operators group to the left, AND binds first.
pub(crate) fn side_enclosed(operator: i32, right: bool, part: Shape) -> bool {
    match part {
        Shape::And => operator == AND && right,
        Shape::Or => operator == AND || right,
        _ => false,
    }
}

pub(crate) fn shape_of_not(part: Shape) -> Shape {
    if part == Shape::Term {
        Shape::NotTerm
    } else {
        Shape::Not
    }
}

pub(crate) fn shape_of_operator(operator: i32) -> Shape {
    if operator == AND {
        Shape::And
    } else {
        Shape::Or
    }
}

impl<'a> Stored<'a> {
    /// The image, if some text reads to it.
    pub fn new(image: &'a [u8]) -> Option<Stored<'a>> {
        let stored = Stored::header(image)?;
        let input_terms = stored.check_inputs()?;
        stored.check_outputs(input_terms)?;
        stored.check_terms()?;
        stored.check_rules(input_terms)?;
        Some(stored)
    }

    pub(crate) fn word(&self, at: usize) -> i32 {
        word(self.image, at)
    }

    /// A word that is a count or a first in an accepted image; others become too large for any table.
    pub(crate) fn index(&self, at: usize) -> usize {
        self.word(at) as u32 as usize
    }

    pub(crate) fn count(&self, table: Table) -> usize {
        self.counts[table as usize]
    }

    /// The words of a row.
    pub(crate) fn row(&self, table: Table, row: usize) -> usize {
        self.offsets[table as usize] + row * WIDTHS[table as usize]
    }

    fn name_bytes(&self, at: usize) -> &'a [u8] {
        &self.image[4 * at..4 * at + 16]
    }

    /// The name that starts at a word.
    pub(crate) fn name(&self, at: usize) -> &'a [u8] {
        let bytes = self.name_bytes(at);
        let length = bytes.iter().position(|&b| b == 0).unwrap_or(bytes.len());
        &bytes[..length]
    }

    pub(crate) fn input_terms_of(&self, input: usize) -> Range<usize> {
        let row = self.row(Table::Inputs, input);
        self.range_at(row + 5)
    }

    pub(crate) fn output_terms_of(&self, output: usize) -> Range<usize> {
        let row = self.row(Table::Outputs, output);
        self.range_at(row + 4)
    }

    pub(crate) fn points_of(&self, term: usize) -> Range<usize> {
        let row = self.row(Table::Terms, term);
        self.range_at(row + 4)
    }

    /// Crisp and degree.
    pub(crate) fn point(&self, point: usize) -> (i64, i64) {
        let row = self.row(Table::Points, point);
        (self.word(row).into(), self.word(row + 1).into())
    }

    /// The rows that a first and a count name.
    pub(crate) fn range_at(&self, at: usize) -> Range<usize> {
        let first = self.index(at);
        first..first + self.index(at + 1)
    }

    /// The end of the rows that a first and a count name, if they start where they should.
    fn follows(&self, at: usize, first: usize, counts: Range<usize>) -> Option<usize> {
        let count = self.index(at + 1);
        (self.index(at) == first && counts.contains(&count)).then_some(first + count)
    }

    fn header(image: &'a [u8]) -> Option<Stored<'a>> {
        if image.len() < 4 * HEADER {
            return None;
        }
        let most = [
            bounds::INPUTS,
            bounds::OUTPUTS,
            (bounds::INPUTS + bounds::OUTPUTS) * bounds::TERMS,
            (bounds::INPUTS * bounds::POINTS + bounds::OUTPUTS) * bounds::TERMS,
            bounds::RULES,
            bounds::WORDS,
            bounds::CONCLUSIONS,
        ];
        let mut stored = Stored { image, counts: [0; 7], offsets: [0; 7] };
        let mut total = HEADER;
        for table in 0..7 {
            let count = stored.index(2 + table);
            if !(1..=most[table]).contains(&count) || stored.index(9 + table) != total {
                return None;
            }
            stored.counts[table] = count;
            stored.offsets[table] = total;
            total += count * WIDTHS[table];
        }
        let sound = stored.word(0) == 1
            && stored.index(1) == total
            && image.len() == 4 * total
            && (0..=2).contains(&stored.word(16))
            && (0..=1).contains(&stored.word(17))
            && (0..=1).contains(&stored.word(18))
            && stored.word(19) == 0
            && is_stored_name(stored.name_bytes(20))
            && is_stored_name(stored.name_bytes(24));
        sound.then_some(stored)
    }

    fn is_new_name(&self, at: usize, earlier: impl Iterator<Item = usize>) -> bool {
        let name = self.name_bytes(at);
        is_stored_name(name) && earlier.map(|row| self.name_bytes(row)).all(|other| !is_same_name(other, name))
    }

    /// Gives the number of input terms.
    fn check_inputs(&self) -> Option<usize> {
        let mut terms = 0;
        for input in 0..self.count(Table::Inputs) {
            let row = self.row(Table::Inputs, input);
            let earlier = (0..input).map(|other| self.row(Table::Inputs, other));
            if !self.is_new_name(row, earlier) || !(0..=1).contains(&self.word(row + 4)) {
                return None;
            }
            terms = self.follows(row + 5, terms, 1..bounds::TERMS + 1)?;
        }
        Some(terms)
    }

    fn check_outputs(&self, input_terms: usize) -> Option<()> {
        let mut terms = input_terms;
        for output in 0..self.count(Table::Outputs) {
            let row = self.row(Table::Outputs, output);
            let inputs = (0..self.count(Table::Inputs)).map(|other| self.row(Table::Inputs, other));
            let earlier = (0..output).map(|other| self.row(Table::Outputs, other));
            if !self.is_new_name(row, inputs.chain(earlier)) {
                return None;
            }
            terms = self.follows(row + 4, terms, 1..bounds::TERMS + 1)?;
            let (min, max) = (self.word(row + 7), self.word(row + 8));
            let range = match self.word(row + 6) {
                0 => min == 0 && max == 0,
                1 => is_crisp(min.into()) && is_crisp(max.into()) && min < max,
                _ => false,
            };
            let default = self.word(row + 10);
            let default = match self.word(row + 9) {
                0 => default == 0,
                1 => is_crisp(default.into()) && self.in_range(output, default),
                _ => false,
            };
            if !range || !default {
                return None;
            }
        }
        (terms == self.count(Table::Terms)).then_some(())
    }

    /// RANGE of an output, if it has one.
    pub(crate) fn range(&self, output: usize) -> Option<(i32, i32)> {
        let row = self.row(Table::Outputs, output);
        (self.word(row + 6) == 1).then(|| (self.word(row + 7), self.word(row + 8)))
    }

    pub(crate) fn in_range(&self, output: usize, crisp: i32) -> bool {
        self.range(output).is_none_or(|(min, max)| min <= crisp && crisp <= max)
    }

    fn check_terms(&self) -> Option<()> {
        let mut points = 0;
        for input in 0..self.count(Table::Inputs) {
            points = self.check_terms_of(self.input_terms_of(input), points, 2..bounds::POINTS + 1)?;
        }
        let input_points = points;
        for output in 0..self.count(Table::Outputs) {
            points = self.check_terms_of(self.output_terms_of(output), points, 1..2)?;
        }
        if points != self.count(Table::Points) {
            return None;
        }
        for input in 0..self.count(Table::Inputs) {
            self.input_terms_of(input).all(|term| self.is_membership(term)).then_some(())?;
        }
        let mut point = input_points;
        for output in 0..self.count(Table::Outputs) {
            for _ in self.output_terms_of(output) {
                let row = self.row(Table::Points, point);
                let crisp = self.word(row);
                let sound = is_crisp(crisp.into()) && self.in_range(output, crisp);
                (sound && i64::from(self.word(row + 1)) == M).then_some(())?;
                point += 1;
            }
        }
        Some(())
    }

    /// Names and points of one variable's terms; gives the end of their points.
    fn check_terms_of(&self, terms: Range<usize>, mut points: usize, counts: Range<usize>) -> Option<usize> {
        let first = terms.start;
        for term in terms {
            let row = self.row(Table::Terms, term);
            let earlier = (first..term).map(|other| self.row(Table::Terms, other));
            self.is_new_name(row, earlier).then_some(())?;
            points = self.follows(row + 4, points, counts.clone())?;
        }
        Some(points)
    }

    /// The points of an input term.
    fn is_membership(&self, term: usize) -> bool {
        let points = self.points_of(term);
        points.clone().all(|point| {
            let (crisp, degree) = self.point(point);
            let falls = point > points.start && crisp < self.point(point - 1).0;
            let third = point > points.start + 1 && crisp == self.point(point - 2).0;
            !falls && !third && is_crisp(crisp) && is_written_degree(degree)
        })
    }

    fn check_rules(&self, input_terms: usize) -> Option<()> {
        let rules = self.count(Table::Rules);
        let mut numbers = [0; bounds::RULES];
        let mut stack = [(Shape::Term, 0); bounds::WORDS];
        let (mut words, mut conclusions) = (0, 0);
        for rule in 0..rules {
            let row = self.row(Table::Rules, rule);
            let first = words;
            words = self.follows(row + 1, words, 1..bounds::WORDS + 1)?;
            conclusions = self.follows(row + 3, conclusions, 1..bounds::CONCLUSIONS + 1)?;
            numbers[rule] = self.word(row);
            let sound = (1..=65_535).contains(&numbers[rule])
                && is_written_degree(self.word(row + 5).into())
                && words <= self.count(Table::Words)
                && self.is_condition(first..words, input_terms, &mut stack);
            sound.then_some(())?;
        }
        let numbers = &mut numbers[..rules];
        numbers.sort_unstable();
        let sound = words == self.count(Table::Words)
            && conclusions == self.count(Table::Conclusions)
            && numbers.windows(2).all(|pair| pair[0] != pair[1])
            && (0..conclusions).all(|conclusion| self.is_conclusion(conclusion));
        sound.then_some(())
    }

    fn is_conclusion(&self, conclusion: usize) -> bool {
        let row = self.row(Table::Conclusions, conclusion);
        let output = self.index(row);
        output < self.count(Table::Outputs) && self.output_terms_of(output).contains(&self.index(row + 1))
    }

    /// Whether the words are one condition in postfix that eight parentheses suffice for. The stack
    /// holds each part's shape and the parentheses open at once in it.
    fn is_condition(&self, words: Range<usize>, input_terms: usize, stack: &mut [(Shape, u8)]) -> bool {
        let mut height = 0;
        for at in words {
            let word = self.word(self.row(Table::Words, at));
            let (shape, depth) = match word {
                NOT if height >= 1 => {
                    height -= 1;
                    let (part, depth) = stack[height];
                    (shape_of_not(part), depth + u8::from(not_encloses(part)))
                }
                AND | OR if height >= 2 => {
                    height -= 2;
                    let side = |right: bool| {
                        let (part, depth) = stack[height + usize::from(right)];
                        depth + u8::from(side_enclosed(word, right, part))
                    };
                    (shape_of_operator(word), side(false).max(side(true)))
                }
                _ if word >= FIRST_TERM && ((word - FIRST_TERM) as usize) < input_terms => (Shape::Term, 0),
                _ => return false,
            };
            if usize::from(depth) > bounds::PARENTHESES {
                return false;
            }
            stack[height] = (shape, depth);
            height += 1;
        }
        height == 1
    }
}

fn word(image: &[u8], at: usize) -> i32 {
    let bytes = &image[4 * at..4 * at + 4];
    i32::from_le_bytes([bytes[0], bytes[1], bytes[2], bytes[3]])
}
