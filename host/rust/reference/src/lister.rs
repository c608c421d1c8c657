//! The lister.
use crate::block::{AND, FIRST_TERM, NOT, OR};
use crate::bounds;
use crate::numbers::M;
use crate::stored::{not_encloses, shape_of_not, shape_of_operator, side_enclosed, Shape, Stored, Table};
use std::io::Write;
use std::ops::Range;

pub fn list(image: &Stored) -> Vec<u8> {
    let mut lister = Lister {
        image,
        out: Vec::with_capacity(4096),
        starts: [0; bounds::WORDS],
        shapes: [Shape::Term; bounds::WORDS],
        input_of: input_of_terms(image),
    };
    lister.block();
    lister.out
}

fn input_of_terms(image: &Stored) -> Vec<usize> {
    let inputs = 0..image.count(Table::Inputs);
    inputs.flat_map(|input| image.input_terms_of(input).map(move |_| input)).collect()
}

struct Lister<'a> {
    image: &'a Stored<'a>,
    out: Vec<u8>,
    /// For each condition word, the first word of the part that ends with it.
    starts: [usize; bounds::WORDS],
    /// The shape of that part.
    shapes: [Shape; bounds::WORDS],
    input_of: Vec<usize>,
}

impl Lister<'_> {
    fn put(&mut self, text: &str) {
        self.out.extend_from_slice(text.as_bytes());
    }

    fn name_at(&mut self, at: usize) {
        self.out.extend_from_slice(self.image.name(at));
    }

    fn name(&mut self, table: Table, row: usize) {
        self.name_at(self.image.row(table, row));
    }

    /// Writing to a Vec does not fail.
    fn whole(&mut self, number: i64) {
        let _ = write!(self.out, "{number}");
    }

    fn thousandths(&mut self, number: i64) {
        let size = number.unsigned_abs();
        if number < 0 {
            self.put("-");
        }
        self.whole((size / 1000) as i64);
        let mut part = size % 1000;
        if part > 0 {
            self.put(".");
            while part > 0 {
                self.out.push(b'0' + (part / 100) as u8);
                part = part % 100 * 10;
            }
        }
    }

    fn crisp(&mut self, at: usize) {
        self.thousandths(self.image.word(at).into());
    }

    fn degree(&mut self, at: usize) {
        self.thousandths(i64::from(self.image.word(at)) / 1000);
    }

    fn block(&mut self) {
        self.put("FUNCTION_BLOCK ");
        self.name_at(20);
        self.put("\nVAR_INPUT\n");
        for input in 0..self.image.count(Table::Inputs) {
            self.put("  ");
            self.name(Table::Inputs, input);
            let int = self.image.word(self.image.row(Table::Inputs, input) + 4) == 1;
            self.put(if int { " : INT;\n" } else { " : REAL;\n" });
        }
        self.put("END_VAR\nVAR_OUTPUT\n");
        for output in 0..self.image.count(Table::Outputs) {
            self.put("  ");
            self.name(Table::Outputs, output);
            self.put(" : REAL;\n");
        }
        self.put("END_VAR\n");
        for input in 0..self.image.count(Table::Inputs) {
            self.fuzzify(input);
        }
        for output in 0..self.image.count(Table::Outputs) {
            self.defuzzify(output);
        }
        self.rule_block();
        self.put("END_FUNCTION_BLOCK\n");
    }

    fn fuzzify(&mut self, input: usize) {
        self.put("FUZZIFY ");
        self.name(Table::Inputs, input);
        self.put("\n");
        for term in self.image.input_terms_of(input) {
            self.term_head(term);
            for (nth, point) in self.image.points_of(term).enumerate() {
                let row = self.image.row(Table::Points, point);
                self.put(if nth == 0 { "(" } else { ", (" });
                self.crisp(row);
                self.put(", ");
                self.degree(row + 1);
                self.put(")");
            }
            self.put(";\n");
        }
        self.put("END_FUZZIFY\n");
    }

    fn term_head(&mut self, term: usize) {
        self.put("  TERM ");
        self.name(Table::Terms, term);
        self.put(" := ");
    }

    fn defuzzify(&mut self, output: usize) {
        self.put("DEFUZZIFY ");
        self.name(Table::Outputs, output);
        self.put("\n");
        if let Some((min, max)) = self.image.range(output) {
            self.put("  RANGE(");
            self.thousandths(min.into());
            self.put("..");
            self.thousandths(max.into());
            self.put(");\n");
        }
        for term in self.image.output_terms_of(output) {
            self.term_head(term);
            self.crisp(self.image.row(Table::Points, self.image.points_of(term).start));
            self.put(";\n");
        }
        self.put("  METHOD : CoGS;\n  DEFAULT := ");
        let row = self.image.row(Table::Outputs, output);
        if self.image.word(row + 9) == 0 {
            self.put("NC");
        } else {
            self.crisp(row + 10);
        }
        self.put(";\nEND_DEFUZZIFY\n");
    }

    fn rule_block(&mut self) {
        self.put("RULEBLOCK ");
        self.name_at(24);
        let pair = self.image.index(16);
        self.put("\n  AND : ");
        self.put(["MIN", "PROD", "BDIF"][pair]);
        self.put(";\n  OR : ");
        self.put(["MAX", "ASUM", "BSUM"][pair]);
        self.put(";\n  ACT : ");
        self.put(["MIN", "PROD"][self.image.index(18)]);
        self.put(";\n  ACCU : ");
        self.put(["MAX", "BSUM"][self.image.index(17)]);
        self.put(";\n");
        for rule in 0..self.image.count(Table::Rules) {
            self.rule(self.image.row(Table::Rules, rule));
        }
        self.put("END_RULEBLOCK\n");
    }

    fn rule(&mut self, row: usize) {
        self.put("  RULE ");
        self.whole(self.image.word(row).into());
        self.put(" : IF ");
        let words = self.image.range_at(row + 1);
        self.parts(words.clone());
        self.condition(words.end - 1);
        self.put(" THEN ");
        for (nth, conclusion) in self.image.range_at(row + 3).enumerate() {
            let at = self.image.row(Table::Conclusions, conclusion);
            self.put(if nth == 0 { "" } else { ", " });
            self.name(Table::Outputs, self.image.index(at));
            self.put(" IS ");
            self.name(Table::Terms, self.image.index(at + 1));
        }
        if i64::from(self.image.word(row + 5)) != M {
            self.put(" WITH ");
            self.degree(row + 5);
        }
        self.put(";\n");
    }

    fn condition_word(&self, at: usize) -> i32 {
        self.image.word(self.image.row(Table::Words, at))
    }

    /// Where each part of a condition starts, and its shape.
    fn parts(&mut self, words: Range<usize>) {
        for at in words {
            (self.starts[at], self.shapes[at]) = match self.condition_word(at) {
                NOT => (self.starts[at - 1], shape_of_not(self.shapes[at - 1])),
                operator @ (AND | OR) => {
                    let left = self.starts[at - 1] - 1;
                    (self.starts[left], shape_of_operator(operator))
                }
                _ => (at, Shape::Term),
            };
        }
    }

    fn enclosed(&mut self, at: usize, parentheses: bool) {
        self.put(if parentheses { "(" } else { "" });
        self.condition(at);
        self.put(if parentheses { ")" } else { "" });
    }

    fn subcondition(&mut self, word: i32, is: &str) {
        let term = (word - FIRST_TERM) as usize;
        self.name(Table::Inputs, self.input_of[term]);
        self.put(is);
        self.name(Table::Terms, term);
    }

    /// The part that ends with this word.
    fn condition(&mut self, at: usize) {
        let word = self.condition_word(at);
        match (word, self.shapes[at]) {
            (_, Shape::Term) => self.subcondition(word, " IS "),
            (_, Shape::NotTerm) => self.subcondition(self.condition_word(at - 1), " IS NOT "),
            (_, Shape::Not) => {
                self.put("NOT ");
                self.enclosed(at - 1, not_encloses(self.shapes[at - 1]));
            }
            _ => {
                let left = self.starts[at - 1] - 1;
                self.enclosed(left, side_enclosed(word, false, self.shapes[left]));
                self.put(if word == AND { " AND " } else { " OR " });
                self.enclosed(at - 1, side_enclosed(word, true, self.shapes[at - 1]));
            }
        }
    }
}
