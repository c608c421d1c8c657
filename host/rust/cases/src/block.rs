//! Blocks as data, with no rule of document 01 enforced, and the image that its layout gives them.

pub const PAIRS: [[&str; 2]; 3] = [["MIN", "MAX"], ["PROD", "ASUM"], ["BDIF", "BSUM"]];

/// Numbers are in thousandths, degrees and weights too.
#[derive(Clone, Debug)]
pub struct Term {
    pub name: String,
    pub points: Vec<(i64, i64)>,
}

#[derive(Clone, Debug)]
pub struct Input {
    pub name: String,
    pub int: bool,
    pub terms: Vec<Term>,
}

/// A singleton is a term of one point with degree 1.
#[derive(Clone, Debug)]
pub struct Output {
    pub name: String,
    pub range: Option<(i64, i64)>,
    pub terms: Vec<Term>,
    pub default: Option<i64>,
}

#[derive(Clone, Debug)]
pub enum Condition {
    Term(usize, usize),
    Not(Box<Condition>),
    And(Box<Condition>, Box<Condition>),
    Or(Box<Condition>, Box<Condition>),
}

#[derive(Clone, Debug)]
pub struct Rule {
    pub number: i64,
    pub condition: Condition,
    /// Output and its term.
    pub conclusions: Vec<(usize, usize)>,
    pub weight: i64,
}

#[derive(Clone, Debug)]
pub struct Block {
    pub name: String,
    pub rules_name: String,
    pub inputs: Vec<Input>,
    pub outputs: Vec<Output>,
    pub pair: usize,
    /// The pair that the text's OR is of.
    pub or_pair: usize,
    pub accu: usize,
    pub act: usize,
    pub rules: Vec<Rule>,
}

/// How tightly a part of a condition binds.
#[derive(Clone, Copy, PartialEq, PartialOrd)]
pub enum Level {
    Or,
    And,
    Operand,
}

impl Condition {
    pub fn words(&self) -> usize {
        match self {
            Condition::Term(..) => 1,
            Condition::Not(a) => 1 + a.words(),
            Condition::And(a, b) | Condition::Or(a, b) => 1 + a.words() + b.words(),
        }
    }

    pub fn level(&self) -> Level {
        match self {
            Condition::Or(..) => Level::Or,
            Condition::And(..) => Level::And,
            _ => Level::Operand,
        }
    }

    /// Whether a NOT can stand before it without parentheses.
    pub fn takes_not(&self) -> bool {
        match self {
            Condition::Term(..) => true,
            Condition::Not(a) => matches!(**a, Condition::Term(..)),
            _ => false,
        }
    }

    /// The parentheses open at once that it needs where a part of this level is wanted.
    pub fn parentheses(&self, wanted: Level) -> usize {
        let inside = match self {
            Condition::Term(..) => 0,
            Condition::Not(a) if a.takes_not() => 0,
            Condition::Not(a) => 1 + a.parentheses(Level::Or),
            Condition::And(a, b) => a.parentheses(Level::And).max(b.parentheses(Level::Operand)),
            Condition::Or(a, b) => a.parentheses(Level::Or).max(b.parentheses(Level::And)),
        };
        inside + usize::from(self.level() < wanted)
    }

    fn postfix(&self, first_terms: &[usize], words: &mut Vec<i64>) {
        match self {
            Condition::Term(input, term) => words.push((16 + first_terms[*input] + term) as i64),
            Condition::Not(a) => {
                a.postfix(first_terms, words);
                words.push(0);
            }
            Condition::And(a, b) | Condition::Or(a, b) => {
                a.postfix(first_terms, words);
                b.postfix(first_terms, words);
                words.push(if self.level() == Level::And { 1 } else { 2 });
            }
        }
    }
}

impl Block {
    pub fn words(&self) -> usize {
        self.rules.iter().map(|rule| rule.condition.words()).sum()
    }

    pub fn conclusions(&self) -> usize {
        self.rules.iter().map(|rule| rule.conclusions.len()).sum()
    }

    /// The image of the block. A name is cut at 16 bytes.
    pub fn image(&self) -> Vec<u8> {
        let tables = self.tables();
        let total = 28 + tables.iter().map(Vec::len).sum::<usize>();
        let mut words = vec![1, total as i64];
        words.extend(tables.iter().zip(WIDTHS).map(|(table, width)| (table.len() / width) as i64));
        let mut offset = 28;
        for table in &tables {
            words.push(offset);
            offset += table.len() as i64;
        }
        words.extend([self.pair as i64, self.accu as i64, self.act as i64, 0]);
        put_name(&mut words, &self.name);
        put_name(&mut words, &self.rules_name);
        words.extend(tables.iter().flatten());
        words.iter().flat_map(|&word| (word as i32).to_le_bytes()).collect()
    }

    fn tables(&self) -> [Vec<i64>; 7] {
        let mut firsts = Vec::new();
        let mut tables: [Vec<i64>; 7] = Default::default();
        let sections = self.inputs.iter().map(|i| &i.terms).chain(self.outputs.iter().map(|o| &o.terms));
        for section in sections {
            firsts.push(tables[2].len() / WIDTHS[2]);
            for term in section {
                put_name(&mut tables[2], &term.name);
                let first = tables[3].len() / WIDTHS[3];
                tables[2].extend([first as i64, term.points.len() as i64]);
                tables[3].extend(term.points.iter().flat_map(|&(crisp, degree)| [crisp, 1000 * degree]));
            }
        }
        let (input_firsts, output_firsts) = firsts.split_at(self.inputs.len());
        for (input, &first) in self.inputs.iter().zip(input_firsts) {
            put_name(&mut tables[0], &input.name);
            tables[0].extend([input.int as i64, first as i64, input.terms.len() as i64]);
        }
        for (output, &first) in self.outputs.iter().zip(output_firsts) {
            put_name(&mut tables[1], &output.name);
            let (min, max) = output.range.unwrap_or((0, 0));
            tables[1].extend([first as i64, output.terms.len() as i64]);
            tables[1].extend([output.range.is_some() as i64, min, max]);
            tables[1].extend([output.default.is_some() as i64, output.default.unwrap_or(0)]);
        }
        for rule in &self.rules {
            Self::put_rule(rule, input_firsts, output_firsts, &mut tables);
        }
        tables
    }

    fn put_rule(rule: &Rule, input_firsts: &[usize], output_firsts: &[usize], tables: &mut [Vec<i64>; 7]) {
        let (word, conclusion) = (tables[5].len(), tables[6].len() / WIDTHS[6]);
        rule.condition.postfix(input_firsts, &mut tables[5]);
        for &(output, term) in &rule.conclusions {
            tables[6].extend([output as i64, (output_firsts[output] + term) as i64]);
        }
        let words = tables[5].len() - word;
        tables[4].push(rule.number);
        tables[4].extend([word, words, conclusion, rule.conclusions.len()].map(|n| n as i64));
        tables[4].push(1000 * rule.weight);
    }
}

/// Words of a row of each table.
pub const WIDTHS: [usize; 7] = [7, 11, 6, 2, 6, 1, 2];

fn put_name(words: &mut Vec<i64>, name: &str) {
    let mut bytes = [0; 16];
    let length = name.len().min(16);
    bytes[..length].copy_from_slice(&name.as_bytes()[..length]);
    words.extend(bytes.chunks(4).map(|w| i64::from(i32::from_le_bytes([w[0], w[1], w[2], w[3]]))));
}
