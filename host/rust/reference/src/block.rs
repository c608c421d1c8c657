//! A block as it was read, and its image.
use crate::lexer::Name;

/// Words of a row of each table: inputs, outputs, terms, points, rules, condition words, conclusions.
pub const WIDTHS: [usize; 7] = [7, 11, 6, 2, 6, 1, 2];
pub const HEADER: usize = 28;

pub const NOT: i32 = 0;
pub const AND: i32 = 1;
pub const OR: i32 = 2;
pub const FIRST_TERM: i32 = 16;

pub struct Term {
    pub name: Name,
    /// Crisp and degree.
    pub points: [(i32, i32); 4],
    pub count: usize,
}

pub struct Input {
    pub name: Name,
    pub int: bool,
    pub terms: Vec<Term>,
}

pub struct Output {
    pub name: Name,
    pub range: Option<(i32, i32)>,
    pub terms: Vec<Term>,
    pub default: Option<i32>,
}

pub struct Rule {
    pub number: i32,
    pub words: usize,
    pub conclusions: usize,
    pub weight: i32,
}

#[derive(Default)]
pub struct Block {
    pub name: Name,
    pub rules_name: Name,
    pub inputs: Vec<Input>,
    pub outputs: Vec<Output>,
    pub pair: i32,
    pub accu: i32,
    pub act: i32,
    pub rules: Vec<Rule>,
    pub words: Vec<i32>,
    pub conclusions: Vec<(i32, i32)>,
}

pub fn term_names(terms: &[Term]) -> impl Iterator<Item = &Name> {
    terms.iter().map(|term| &term.name)
}

impl Block {
    pub fn input_names(&self) -> impl Iterator<Item = &Name> {
        self.inputs.iter().map(|input| &input.name)
    }

    pub fn output_names(&self) -> impl Iterator<Item = &Name> {
        self.outputs.iter().map(|output| &output.name)
    }

    fn terms(&self) -> impl Iterator<Item = &Term> {
        let inputs = self.inputs.iter().flat_map(|input| &input.terms);
        inputs.chain(self.outputs.iter().flat_map(|output| &output.terms))
    }

    fn counts(&self) -> [usize; 7] {
        [
            self.inputs.len(),
            self.outputs.len(),
            self.terms().count(),
            self.terms().map(|term| term.count).sum(),
            self.rules.len(),
            self.words.len(),
            self.conclusions.len(),
        ]
    }

    /// Of the image, in bytes.
    pub fn length(&self) -> usize {
        let rows = self.counts().iter().zip(WIDTHS).map(|(count, width)| count * width).sum::<usize>();
        4 * (HEADER + rows)
    }

    /// Writes the image, whose length the slice has.
    pub fn lay_out(&self, image: &mut [u8]) {
        let mut out = Words { image, at: 0 };
        self.header(&mut out);
        self.variables(&mut out);
        self.terms_and_points(&mut out);
        self.rules_and_conditions(&mut out);
    }

    fn header(&self, out: &mut Words) {
        let counts = self.counts();
        out.index(1);
        out.index(out.image.len() / 4);
        counts.iter().for_each(|&count| out.index(count));
        let mut offset = HEADER;
        for (count, width) in counts.iter().zip(WIDTHS) {
            out.index(offset);
            offset += count * width;
        }
        out.words(&[self.pair, self.accu, self.act, 0]);
        out.name(&self.name);
        out.name(&self.rules_name);
    }

    fn variables(&self, out: &mut Words) {
        let mut first = 0;
        for input in &self.inputs {
            out.name(&input.name);
            out.word(i32::from(input.int));
            out.part(&mut first, input.terms.len());
        }
        for output in &self.outputs {
            out.name(&output.name);
            out.part(&mut first, output.terms.len());
            let (min, max) = output.range.unwrap_or((0, 0));
            out.words(&[i32::from(output.range.is_some()), min, max]);
            out.words(&[i32::from(output.default.is_some()), output.default.unwrap_or(0)]);
        }
    }

    fn terms_and_points(&self, out: &mut Words) {
        let mut first = 0;
        for term in self.terms() {
            out.name(&term.name);
            out.part(&mut first, term.count);
        }
        for term in self.terms() {
            for &(crisp, degree) in &term.points[..term.count] {
                out.words(&[crisp, degree]);
            }
        }
    }

    fn rules_and_conditions(&self, out: &mut Words) {
        let (mut word, mut conclusion) = (0, 0);
        for rule in &self.rules {
            out.word(rule.number);
            out.part(&mut word, rule.words);
            out.part(&mut conclusion, rule.conclusions);
            out.word(rule.weight);
        }
        out.words(&self.words);
        for &(output, term) in &self.conclusions {
            out.words(&[output, term]);
        }
    }
}

struct Words<'a> {
    image: &'a mut [u8],
    at: usize,
}

impl Words<'_> {
    fn bytes(&mut self, bytes: &[u8]) {
        self.image[self.at..self.at + bytes.len()].copy_from_slice(bytes);
        self.at += bytes.len();
    }

    fn word(&mut self, word: i32) {
        self.bytes(&word.to_le_bytes());
    }

    fn words(&mut self, words: &[i32]) {
        words.iter().for_each(|&word| self.word(word));
    }

    fn index(&mut self, index: usize) {
        self.word(index as i32);
    }

    fn name(&mut self, name: &Name) {
        self.bytes(name);
    }

    /// A first and a count; the next part starts behind it.
    fn part(&mut self, first: &mut usize, count: usize) {
        self.index(*first);
        self.index(count);
        *first += count;
    }
}
