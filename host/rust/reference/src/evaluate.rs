//! The evaluator.
use crate::block::{AND, FIRST_TERM, NOT, OR};
use crate::bounds;
use crate::numbers::{is_crisp, nearest, thousandths, M};
use crate::stored::{Stored, Table};
use crate::{stored, Refusal};

#[derive(Clone, Copy, PartialEq, Debug)]
pub enum Reading {
    Absent,
    Real(f32),
    Int(i16),
}

/// Each output's last figure in thousandths; unused places are 0.
pub type Held = [i32; bounds::OUTPUTS];

#[derive(Clone, Copy, PartialEq, Eq, Debug, Default)]
pub enum Mark {
    #[default]
    None,
    Fired,
    Default,
    Held,
}

#[derive(Clone, Copy, PartialEq, Debug, Default)]
pub struct Answer {
    pub mark: Mark,
    pub thousandths: i32,
    /// The sum of the output's heights.
    pub sum: u32,
    pub value: f64,
}

#[derive(Clone, Copy, PartialEq, Debug)]
pub struct Evaluated {
    pub refusal: Option<Refusal>,
    pub answers: [Answer; bounds::OUTPUTS],
    pub held: Held,
}

/// One call; the record that comes back is the one for the next call.
pub fn evaluate(image: &[u8], readings: &[Reading; 8], count: usize, held: Held) -> Evaluated {
    match stored(image) {
        Ok(block) => block.evaluate(readings, count, held),
        Err(refusal) => refused(refusal, held),
    }
}

/// One call on a lent record.
pub fn evaluate_held(
    image: &[u8],
    readings: &[Reading; 8],
    count: usize,
    held: &mut Held,
) -> (Option<Refusal>, [Answer; bounds::OUTPUTS]) {
    let call = evaluate(image, readings, count, *held);
    *held = call.held;
    (call.refusal, call.answers)
}

fn refused(refusal: Refusal, held: Held) -> Evaluated {
    Evaluated { refusal: Some(refusal), answers: Default::default(), held }
}

fn and(pair: i32, a: i64, b: i64) -> i64 {
    match pair {
        0 => a.min(b),
        1 => prod(a, b),
        _ => (a + b - M).max(0),
    }
}

fn or(pair: i32, a: i64, b: i64) -> i64 {
    match pair {
        0 => a.max(b),
        1 => a + b - prod(a, b),
        _ => (a + b).min(M),
    }
}

fn prod(a: i64, b: i64) -> i64 {
    nearest(a * b, M)
}

impl Stored<'_> {
    /// The record to start with.
    pub fn fresh(&self) -> Held {
        let mut held = [0; bounds::OUTPUTS];
        for output in 0..self.count(Table::Outputs) {
            if let Some((min, max)) = self.range(output) {
                held[output] = 0.clamp(min, max);
            }
        }
        held
    }

    fn is_held(&self, held: &Held) -> bool {
        held.iter().enumerate().all(|(output, &value)| match output < self.count(Table::Outputs) {
            true => is_crisp(value.into()) && self.in_range(output, value),
            false => value == 0,
        })
    }

    /// One call on an image that was accepted.
    pub fn evaluate(&self, readings: &[Reading; 8], count: usize, held: Held) -> Evaluated {
        if count != self.count(Table::Inputs) {
            return refused(Refusal::nowhere(12), held);
        }
        if !self.is_held(&held) {
            return refused(Refusal::nowhere(13), held);
        }
        let mut values = [0; bounds::INPUTS];
        for input in 0..count {
            match self.crisp_reading(input, readings[input]) {
                Some(value) => values[input] = value.into(),
                None => return refused(Refusal::at(14, input), held),
            }
        }
        let heights = self.heights(&self.degrees(&values));
        let mut answers = [Answer::default(); bounds::OUTPUTS];
        let mut after = held;
        for output in 0..self.count(Table::Outputs) {
            answers[output] = self.answer(output, &heights, held[output]);
            after[output] = answers[output].thousandths;
        }
        Evaluated { refusal: None, answers, held: after }
    }

    fn crisp_reading(&self, input: usize, reading: Reading) -> Option<i32> {
        let int = self.word(self.row(Table::Inputs, input) + 4) == 1;
        match reading {
            Reading::Real(x) if !int => thousandths(x),
            Reading::Int(n) if int => Some(1000 * i32::from(n)),
            _ => None,
        }
    }

    /// The degree of each input term.
    fn degrees(&self, values: &[i64; bounds::INPUTS]) -> [i64; bounds::INPUTS * bounds::TERMS] {
        let mut degrees = [0; bounds::INPUTS * bounds::TERMS];
        for input in 0..self.count(Table::Inputs) {
            for term in self.input_terms_of(input) {
                degrees[term] = self.term_degree(term, values[input]);
            }
        }
        degrees
    }

    fn term_degree(&self, term: usize, x: i64) -> i64 {
        let points = self.points_of(term);
        let (mut x1, mut d1) = self.point(points.start);
        if x < x1 {
            return d1;
        }
        // (x1, d1) is the last point so far that is not above x: of two at x the later one.
        for point in points.skip(1) {
            let (x2, d2) = self.point(point);
            if x < x2 {
                return nearest(d1 * (x2 - x) + d2 * (x - x1), x2 - x1);
            }
            (x1, d1) = (x2, d2);
        }
        d1
    }

    /// The height of each term, by its place in the table of terms.
    fn heights(&self, degrees: &[i64]) -> [i64; (bounds::INPUTS + bounds::OUTPUTS) * bounds::TERMS] {
        let mut heights = [0; (bounds::INPUTS + bounds::OUTPUTS) * bounds::TERMS];
        let bounded_sum = self.word(17) == 1;
        for rule in 0..self.count(Table::Rules) {
            let row = self.row(Table::Rules, rule);
            let condition = self.condition(row, degrees);
            let degree = prod(condition, self.word(row + 5).into());
            for conclusion in self.range_at(row + 3) {
                let term = self.index(self.row(Table::Conclusions, conclusion) + 1);
                let height = heights[term];
                heights[term] = if bounded_sum { M.min(height + degree) } else { height.max(degree) };
            }
        }
        heights
    }

    /// The degree of a rule's condition. Eight parentheses never need more than 19 degrees at once:
    /// beside an operand stand at most one left side of OR and one of AND for each level.
    fn condition(&self, row: usize, degrees: &[i64]) -> i64 {
        let pair = self.word(16);
        let mut stack = [0; 19];
        let mut height = 0;
        for at in self.range_at(row + 1) {
            match self.word(self.row(Table::Words, at)) {
                NOT => stack[height - 1] = M - stack[height - 1],
                operator @ (AND | OR) => {
                    height -= 1;
                    let (a, b) = (stack[height - 1], stack[height]);
                    stack[height - 1] = if operator == AND { and(pair, a, b) } else { or(pair, a, b) };
                }
                term => {
                    stack[height] = degrees[(term - FIRST_TERM) as usize];
                    height += 1;
                }
            }
        }
        stack[0]
    }

    fn answer(&self, output: usize, heights: &[i64], held: i32) -> Answer {
        let (mut sum, mut moment) = (0, 0);
        for term in self.output_terms_of(output) {
            let (position, _) = self.point(self.points_of(term).start);
            sum += heights[term];
            moment += position * heights[term];
        }
        let row = self.row(Table::Outputs, output);
        let (mark, thousandths) = match self.word(row + 9) {
            _ if sum > 0 => (Mark::Fired, nearest(moment, sum) as i32),
            1 => (Mark::Default, self.word(row + 10)),
            _ => (Mark::Held, held),
        };
        Answer { mark, thousandths, sum: sum as u32, value: f64::from(thousandths) / 1000.0 }
    }
}
