//! Blocks as tokens, and tokens as texts, in any spelling that document 01 allows.
use crate::block::{Block, Condition, Level, Term, PAIRS};
use crate::random::Random;
use crate::words::any_case;

pub type Tokens = Vec<Vec<u8>>;

/// In which letters keywords are written, and names where they are used; case does not count in them.
#[derive(Clone, Copy)]
enum Letters {
    /// As document 01 has keywords, and names as declared.
    AsDeclared,
    CapitalsInRules,
    Capitals,
    Small,
    Any,
}

struct Speller<'a> {
    random: &'a mut Random,
    tokens: Tokens,
    /// As the lister would write it, blanks and case apart.
    plain: bool,
    letters: Letters,
    in_rules: bool,
}

/// The tokens of a block in some spelling. Terms that are not there get a name that was not declared.
pub fn tokens(random: &mut Random, block: &Block) -> Tokens {
    use Letters::*;
    let plain = random.once_in(3);
    let letters = *random.pick(&[AsDeclared, AsDeclared, CapitalsInRules, Capitals, Small, Any, Any]);
    let mut speller = Speller { random, tokens: Vec::new(), plain, letters, in_rules: false };
    speller.block(block);
    speller.tokens
}

fn term_name(terms: &[Term], term: usize) -> &str {
    terms.get(term).map_or("gone", |term| &term.name)
}

impl Speller<'_> {
    fn put(&mut self, token: &str) {
        self.tokens.push(token.as_bytes().to_vec());
    }

    /// A keyword, or a name that is declared elsewhere.
    fn word(&mut self, word: &str) {
        let word = word.as_bytes();
        let spelt = match self.letters {
            Letters::Capitals => word.to_ascii_uppercase(),
            Letters::CapitalsInRules if self.in_rules => word.to_ascii_uppercase(),
            Letters::Small => word.to_ascii_lowercase(),
            Letters::Any => any_case(self.random, word),
            _ => word.to_vec(),
        };
        self.tokens.push(spelt);
    }

    /// Tokens with blanks between.
    fn all(&mut self, tokens: &str) {
        tokens.split(' ').for_each(|token| self.word(token));
    }

    fn number(&mut self, thousandths: i64) {
        let size = thousandths.unsigned_abs();
        let (mut whole, mut part) = ((size / 1000).to_string(), format!("{:03}", size % 1000));
        while part.ends_with('0') && (self.plain || self.random.once_in(2)) {
            part.pop();
        }
        if !self.plain && self.random.once_in(8) {
            while whole.len() < self.random.size(1, 7) {
                whole.insert(0, '0');
            }
        }
        let sign = match thousandths {
            ..=-1 => "-",
            0 if !self.plain && self.random.once_in(8) => "-",
            _ if !self.plain && self.random.once_in(8) => "+",
            _ => "",
        };
        let point = if part.is_empty() { "" } else { "." };
        self.put(&format!("{sign}{whole}{point}{part}"));
    }

    fn rule_number(&mut self, number: i64) {
        let width = if self.plain { 1 } else { *self.random.pick(&[1, 1, 1, 3, 7]) };
        self.put(&format!("{number:0width$}"));
    }

    /// The order in which parts are written.
    fn order(&mut self, count: usize) -> Vec<usize> {
        let mut order: Vec<usize> = (0..count).collect();
        if !self.plain {
            for at in (1..count).rev() {
                order.swap(at, self.random.below(at + 1));
            }
        }
        order
    }

    fn block(&mut self, block: &Block) {
        self.word("FUNCTION_BLOCK");
        self.put(&block.name);
        self.declarations("VAR_INPUT", block.inputs.iter().map(|i| (i.name.as_str(), i.int)).collect());
        self.declarations("VAR_OUTPUT", block.outputs.iter().map(|o| (o.name.as_str(), false)).collect());
        for input in self.order(block.inputs.len()) {
            self.fuzzify(&block.inputs[input].name, &block.inputs[input].terms);
        }
        for output in self.order(block.outputs.len()) {
            self.defuzzify(block, output);
        }
        self.all("RULEBLOCK");
        self.put(&block.rules_name);
        self.algorithms(block);
        self.in_rules = true;
        for rule in &block.rules {
            self.word("RULE");
            self.rule_number(rule.number);
            self.all(": IF");
            self.condition(block, &rule.condition, Level::Or, 0);
            self.word("THEN");
            for (nth, &(output, term)) in rule.conclusions.iter().enumerate() {
                self.all(if nth == 0 { "" } else { "," });
                self.word(&block.outputs[output].name);
                self.word("IS");
                self.word(term_name(&block.outputs[output].terms, term));
            }
            if rule.weight != 1000 || !self.plain && self.random.once_in(4) {
                self.word("WITH");
                self.number(rule.weight);
            }
            self.put(";");
        }
        self.all("END_RULEBLOCK END_FUNCTION_BLOCK");
        self.tokens.retain(|token| !token.is_empty());
    }

    fn declarations(&mut self, section: &str, names: Vec<(&str, bool)>) {
        self.word(section);
        for (nth, &(name, int)) in names.iter().enumerate() {
            self.put(name);
            let joins = names.get(nth + 1).is_some_and(|next| next.1 == int);
            if joins && !self.plain && self.random.once_in(2) {
                self.put(",");
            } else {
                self.all(if int { ": INT ;" } else { ": REAL ;" });
            }
        }
        self.word("END_VAR");
    }

    /// A variable without terms has no part.
    fn fuzzify(&mut self, name: &str, terms: &[Term]) {
        if terms.is_empty() {
            return;
        }
        self.word("FUZZIFY");
        self.word(name);
        for term in terms {
            self.word("TERM");
            self.put(&term.name);
            self.put(":=");
            for (nth, &(crisp, degree)) in term.points.iter().enumerate() {
                self.all(if nth == 0 { "(" } else { ", (" });
                self.number(crisp);
                self.put(",");
                self.number(degree);
                self.put(")");
            }
            self.put(";");
        }
        self.word("END_FUZZIFY");
    }

    fn defuzzify(&mut self, block: &Block, output: usize) {
        let output = &block.outputs[output];
        if output.terms.is_empty() {
            return;
        }
        self.word("DEFUZZIFY");
        self.word(&output.name);
        if let Some((min, max)) = output.range {
            self.all("RANGE (");
            self.number(min);
            self.put("..");
            self.number(max);
            self.all(") ;");
        }
        for term in &output.terms {
            self.word("TERM");
            self.put(&term.name);
            self.put(":=");
            term.points.iter().for_each(|&(crisp, _)| self.number(crisp));
            self.put(";");
        }
        self.all("METHOD : CoGS ; DEFAULT :=");
        match output.default {
            Some(number) => self.number(number),
            None => self.word("NC"),
        }
        self.all("; END_DEFUZZIFY");
    }

    fn algorithms(&mut self, block: &Block) {
        let (and, or) = (PAIRS[block.pair][0], PAIRS[block.or_pair][1]);
        let mut lines = vec![format!("AND : {and} ;"), format!("OR : {or} ;")];
        if !self.plain {
            if self.random.once_in(2) {
                lines.reverse();
            }
            if self.random.once_in(3) {
                lines.pop();
            }
            if block.pair == 0 && self.random.once_in(3) {
                lines.clear();
            }
        }
        lines.iter().for_each(|line| self.all(line));
        if self.plain || block.act == 1 || self.random.once_in(2) {
            self.all(["ACT : MIN ;", "ACT : PROD ;"][block.act]);
        }
        self.all(["ACCU : MAX ;", "ACCU : BSUM ;"][block.accu]);
    }

    /// A part where this level is wanted, inside so many parentheses.
    fn condition(&mut self, block: &Block, part: &Condition, wanted: Level, open: usize) {
        let spare = open + part.parentheses(wanted) < 8 && !self.plain && self.random.once_in(6);
        if spare || part.level() < wanted {
            self.put("(");
            self.condition(block, part, Level::Or, open + 1);
            self.put(")");
            return;
        }
        match part {
            Condition::Term(input, term) => self.subcondition(block, *input, *term, false),
            Condition::Not(a) => self.negation(block, a, open),
            Condition::And(a, b) => {
                self.condition(block, a, Level::And, open);
                self.word("AND");
                self.condition(block, b, Level::Operand, open);
            }
            Condition::Or(a, b) => {
                self.condition(block, a, Level::Or, open);
                self.word("OR");
                self.condition(block, b, Level::And, open);
            }
        }
    }

    fn negation(&mut self, block: &Block, part: &Condition, open: usize) {
        let spare = open + part.parentheses(Level::Or) < 8 && !self.plain && self.random.once_in(6);
        let term = match part {
            Condition::Term(input, term) => Some((*input, *term, false)),
            Condition::Not(a) => match **a {
                Condition::Term(input, term) => Some((input, term, true)),
                _ => None,
            },
            _ => None,
        };
        match term {
            Some((input, term, false)) if !spare && (self.plain || self.random.once_in(2)) => {
                self.subcondition(block, input, term, true);
            }
            Some((input, term, negated)) if !spare => {
                self.word("NOT");
                self.subcondition(block, input, term, negated);
            }
            _ => {
                self.all("NOT (");
                self.condition(block, part, Level::Or, open + 1);
                self.put(")");
            }
        }
    }

    fn subcondition(&mut self, block: &Block, input: usize, term: usize, negated: bool) {
        self.word(&block.inputs[input].name);
        self.all(if negated { "IS NOT" } else { "IS" });
        self.word(term_name(&block.inputs[input].terms, term));
    }
}

/// Joins tokens with blanks and comments.
pub fn join(random: &mut Random, tokens: &Tokens) -> Vec<u8> {
    let style = random.below(5);
    let mut text = Vec::new();
    if style > 2 {
        blanks(random, &mut text);
    }
    for token in tokens {
        let is_word = |byte: &u8| byte.is_ascii_alphanumeric() || *byte == b'_';
        let sticks = text.last().is_some_and(is_word) && token.first().is_some_and(is_word);
        let before = text.len();
        match style {
            0 => {}
            1 => text.push(b' '),
            2 => text.push(*random.pick(b" \t\r\n")),
            3 if random.once_in(3) => blanks(random, &mut text),
            4 => blanks(random, &mut text),
            _ => {}
        }
        if sticks && before == text.len() {
            text.push(b' ');
        }
        text.extend(token);
    }
    if random.once_in(2) {
        blanks(random, &mut text);
    }
    text
}

fn blanks(random: &mut Random, text: &mut Vec<u8>) {
    for _ in 0..random.size(1, 3) {
        match random.below(12) {
            0 => comment(random, text),
            1 => text.extend(*random.pick(&[&b"(**)"[..], b"(***)", b"(* *)", b"(*)*)", b"(*(*)", b"(* RULE *)"])),
            _ => text.push(*random.pick(b"    \t\r\n")),
        }
    }
}

fn comment(random: &mut Random, text: &mut Vec<u8>) {
    text.extend(b"(*");
    let start = text.len();
    for _ in 0..random.below(20) {
        let byte = match random.below(4) {
            0 => random.bits() as u8,
            1 => *random.pick(b"(*;:"),
            _ => *random.pick(b"abc xyz\n"),
        };
        // Only the end may close it.
        if byte != b')' || text.len() > start && text.last() != Some(&b'*') {
            text.push(byte);
        }
    }
    text.extend(b"*)");
}
