//! The reader: tokens front to back, one ahead.
use crate::block::{term_names, Block, Input, Output, Rule, Term, AND, FIRST_TERM, NOT, OR};
use crate::lexer::{is_same_name, Key, Kind, Lexer, Name, Number, Token};
use crate::numbers::{is_crisp, M};
use crate::{bounds, Refusal};

type Read<T> = Result<T, Refusal>;

pub fn read(text: &[u8]) -> Read<Block> {
    if text.len() > bounds::TEXT {
        return Err(Refusal::at(1, 0));
    }
    let mut lexer = Lexer::new(text);
    let token = lexer.next();
    let mut reader =
        Reader { lexer, token, block: Block::default(), firsts: Vec::new(), numbers: vec![0; 1024], words: 0 };
    reader.function_block()?;
    Ok(reader.block)
}

struct Reader<'a> {
    lexer: Lexer<'a>,
    token: Token,
    block: Block,
    /// The first term of each input, then of each output.
    firsts: Vec<usize>,
    /// Bits of the rule numbers that are taken.
    numbers: Vec<u64>,
    /// Condition words whose token has been passed.
    words: usize,
}

impl Reader<'_> {
    fn advance(&mut self) {
        self.token = self.lexer.next();
    }

    fn refused(&self, number: u8) -> Refusal {
        Refusal::at(number, self.token.start)
    }

    fn refuse_if(&self, is: bool, number: u8) -> Read<()> {
        if is {
            Err(self.refused(number))
        } else {
            Ok(())
        }
    }

    fn is(&self, key: Key) -> bool {
        self.token.kind == Kind::Key(key)
    }

    fn want(&mut self, kind: Kind) -> Read<()> {
        self.refuse_if(self.token.kind != kind, 2)?;
        self.advance();
        Ok(())
    }

    fn word(&mut self, key: Key) -> Read<()> {
        self.want(Kind::Key(key))
    }

    /// Takes the token if it is the one asked for.
    fn takes(&mut self, kind: Kind) -> bool {
        let is = self.token.kind == kind;
        if is {
            self.advance();
        }
        is
    }

    /// The name that stands here; it is not passed yet.
    fn name(&self) -> Read<Name> {
        match self.token.kind {
            Kind::Name(name) => name.ok_or(self.refused(4)),
            _ => Err(self.refused(2)),
        }
    }

    /// The name that stands here, which is none of those taken; it is not passed yet.
    fn new_name<'n>(&self, mut taken: impl Iterator<Item = &'n Name>) -> Read<Name> {
        let name = self.name()?;
        self.refuse_if(taken.any(|other| is_same_name(other, &name)), 4)?;
        Ok(name)
    }

    /// Which of those declared stands here; it is not passed yet.
    fn declared<'n>(&self, mut names: impl Iterator<Item = &'n Name>) -> Read<usize> {
        let name = self.name()?;
        names.position(|other| is_same_name(other, &name)).ok_or(self.refused(5))
    }

    fn number(&self) -> Read<Number> {
        match self.token.kind {
            Kind::Number(number) => Ok(number),
            _ => Err(self.refused(2)),
        }
    }

    /// The crisp value that stands here; it is not passed yet.
    fn crisp(&self) -> Read<i32> {
        let value = self.number()?.thousandths.filter(|&x| is_crisp(x));
        value.map(|x| x as i32).ok_or(self.refused(3))
    }

    fn degree(&mut self) -> Read<i32> {
        let value = self.number()?.thousandths.filter(|x| (0..=1000).contains(x));
        let degree = value.map(|x| 1000 * x as i32).ok_or(self.refused(3))?;
        self.advance();
        Ok(degree)
    }

    fn function_block(&mut self) -> Read<()> {
        self.word(Key::FunctionBlock)?;
        self.block.name = self.name()?;
        self.advance();
        self.inputs()?;
        self.outputs()?;
        self.fuzzify()?;
        while self.is(Key::Fuzzify) {
            self.fuzzify()?;
        }
        self.defuzzify()?;
        while self.is(Key::Defuzzify) {
            self.defuzzify()?;
        }
        self.rule_block()?;
        self.refuse_if(!self.is(Key::EndFunctionBlock), 2)?;
        let bare_input = self.block.inputs.iter().any(|input| input.terms.is_empty());
        let bare_output = self.block.outputs.iter().any(|output| output.terms.is_empty());
        self.refuse_if(bare_input || bare_output, 9)?;
        self.advance();
        self.want(Kind::End)
    }

    fn inputs(&mut self) -> Read<()> {
        self.word(Key::VarInput)?;
        loop {
            let first = self.block.inputs.len();
            loop {
                let name = self.new_name(self.block.input_names())?;
                self.refuse_if(self.block.inputs.len() == bounds::INPUTS, 6)?;
                self.block.inputs.push(Input { name, int: false, terms: Vec::new() });
                self.advance();
                if !self.takes(Kind::Comma) {
                    break;
                }
            }
            self.want(Kind::Colon)?;
            let int = self.is(Key::Int);
            self.refuse_if(!int && !self.is(Key::Real), 2)?;
            self.advance();
            self.block.inputs[first..].iter_mut().for_each(|input| input.int = int);
            self.want(Kind::Semicolon)?;
            if self.takes(Kind::Key(Key::EndVar)) {
                return Ok(());
            }
        }
    }

    fn outputs(&mut self) -> Read<()> {
        self.word(Key::VarOutput)?;
        loop {
            loop {
                let name = self.new_name(self.block.input_names().chain(self.block.output_names()))?;
                self.refuse_if(self.block.outputs.len() == bounds::OUTPUTS, 6)?;
                let output = Output { name, range: None, terms: Vec::new(), default: None };
                self.block.outputs.push(output);
                self.advance();
                if !self.takes(Kind::Comma) {
                    break;
                }
            }
            self.want(Kind::Colon)?;
            self.word(Key::Real)?;
            self.want(Kind::Semicolon)?;
            if self.takes(Kind::Key(Key::EndVar)) {
                return Ok(());
            }
        }
    }

    /// `TERM name :=`, behind the terms that the variable has already.
    fn term_head(&mut self, terms: &[Term]) -> Read<Name> {
        self.refuse_if(!self.is(Key::Term), 2)?;
        self.refuse_if(terms.len() == bounds::TERMS, 6)?;
        self.advance();
        let name = self.new_name(term_names(terms))?;
        self.advance();
        self.want(Kind::Assign)?;
        Ok(name)
    }

    fn fuzzify(&mut self) -> Read<()> {
        self.word(Key::Fuzzify)?;
        let input = self.declared(self.block.input_names())?;
        self.refuse_if(!self.block.inputs[input].terms.is_empty(), 4)?;
        self.advance();
        let mut terms = Vec::new();
        loop {
            let name = self.term_head(&terms)?;
            let (points, count) = self.points()?;
            terms.push(Term { name, points, count });
            if self.takes(Kind::Key(Key::EndFuzzify)) {
                break;
            }
        }
        self.block.inputs[input].terms = terms;
        Ok(())
    }

    fn points(&mut self) -> Read<([(i32, i32); 4], usize)> {
        let mut points = [(0, 0); 4];
        let mut count = 0;
        loop {
            self.refuse_if(self.token.kind != Kind::Open, 2)?;
            self.refuse_if(count == bounds::POINTS, 6)?;
            self.advance();
            let crisp = self.crisp()?;
            let falls = count > 0 && crisp < points[count - 1].0;
            // Positions do not fall, so the one in between is the same too.
            let third = count > 1 && crisp == points[count - 2].0;
            self.refuse_if(falls || third, 7)?;
            self.advance();
            self.want(Kind::Comma)?;
            points[count] = (crisp, self.degree()?);
            count += 1;
            self.want(Kind::Close)?;
            if !self.takes(Kind::Comma) {
                break;
            }
        }
        self.refuse_if(self.token.kind != Kind::Semicolon, 2)?;
        self.refuse_if(count < 2, 7)?;
        self.advance();
        Ok((points, count))
    }

    fn defuzzify(&mut self) -> Read<()> {
        self.word(Key::Defuzzify)?;
        let output = self.declared(self.block.output_names())?;
        self.refuse_if(!self.block.outputs[output].terms.is_empty(), 4)?;
        self.advance();
        let range = if self.is(Key::Range) { Some(self.range()?) } else { None };
        let mut terms = Vec::new();
        loop {
            let name = self.term_head(&terms)?;
            let crisp = self.crisp_within(range)?;
            self.want(Kind::Semicolon)?;
            let point = (crisp, M as i32);
            terms.push(Term { name, points: [point; 4], count: 1 });
            if self.takes(Kind::Key(Key::Method)) {
                break;
            }
        }
        self.want(Kind::Colon)?;
        self.word(Key::Cogs)?;
        self.want(Kind::Semicolon)?;
        self.word(Key::Default)?;
        self.want(Kind::Assign)?;
        let default = match self.takes(Kind::Key(Key::Nc)) {
            true => None,
            false => Some(self.crisp_within(range)?),
        };
        self.want(Kind::Semicolon)?;
        self.word(Key::EndDefuzzify)?;
        let output = &mut self.block.outputs[output];
        (output.range, output.terms, output.default) = (range, terms, default);
        Ok(())
    }

    fn crisp_within(&mut self, range: Option<(i32, i32)>) -> Read<i32> {
        let crisp = self.crisp()?;
        let outside = range.is_some_and(|(min, max)| crisp < min || max < crisp);
        self.refuse_if(outside, 7)?;
        self.advance();
        Ok(crisp)
    }

    fn range(&mut self) -> Read<(i32, i32)> {
        self.word(Key::Range)?;
        self.want(Kind::Open)?;
        let min = self.crisp()?;
        self.advance();
        self.want(Kind::Dots)?;
        let max = self.crisp()?;
        self.refuse_if(min >= max, 7)?;
        self.advance();
        self.want(Kind::Close)?;
        self.want(Kind::Semicolon)?;
        Ok((min, max))
    }

    fn rule_block(&mut self) -> Read<()> {
        self.word(Key::Ruleblock)?;
        self.block.rules_name = self.name()?;
        self.advance();
        self.block.pair = self.pair()?;
        if self.is(Key::Act) {
            self.block.act = self.method(&[Key::Min, Key::Prod])?;
        }
        self.refuse_if(!self.is(Key::Accu), 2)?;
        self.block.accu = self.method(&[Key::Max, Key::Bsum])?;
        let mut first = 0;
        let inputs = self.block.inputs.iter().map(|input| input.terms.len());
        let outputs = self.block.outputs.iter().map(|output| output.terms.len());
        for count in inputs.chain(outputs) {
            self.firsts.push(first);
            first += count;
        }
        loop {
            self.rule()?;
            if self.takes(Kind::Key(Key::EndRuleblock)) {
                return Ok(());
            }
        }
    }

    fn pair(&mut self) -> Read<i32> {
        let (mut and, mut or) = (None, None);
        loop {
            let known: Option<i32> = and.or(or);
            if and.is_none() && self.is(Key::And) {
                and = Some(self.algorithm(&[Key::Min, Key::Prod, Key::Bdif], known)?);
            } else if or.is_none() && self.is(Key::Or) {
                or = Some(self.algorithm(&[Key::Max, Key::Asum, Key::Bsum], known)?);
            } else {
                return Ok(known.unwrap_or(0));
            }
        }
    }

    /// The keyword that stands here, a colon, one of the choices and a semicolon.
    fn method(&mut self, choices: &[Key]) -> Read<i32> {
        self.algorithm(choices, None)
    }

    fn algorithm(&mut self, choices: &[Key], partner: Option<i32>) -> Read<i32> {
        self.advance();
        self.want(Kind::Colon)?;
        let choice = choices.iter().position(|&key| self.is(key));
        let choice = choice.ok_or(self.refused(2))? as i32;
        self.refuse_if(partner.is_some_and(|partner| partner != choice), 8)?;
        self.advance();
        self.want(Kind::Semicolon)?;
        Ok(choice)
    }

    fn rule(&mut self) -> Read<()> {
        self.refuse_if(!self.is(Key::Rule), 2)?;
        self.refuse_if(self.block.rules.len() == bounds::RULES, 6)?;
        self.advance();
        let number = self.rule_number()?;
        self.want(Kind::Colon)?;
        self.word(Key::If)?;
        let (words, conclusions) = (self.block.words.len(), self.block.conclusions.len());
        self.condition(0)?;
        self.word(Key::Then)?;
        loop {
            self.conclusion()?;
            if !self.takes(Kind::Comma) {
                break;
            }
        }
        let weight = match self.takes(Kind::Key(Key::With)) {
            true => self.degree()?,
            false => M as i32,
        };
        self.want(Kind::Semicolon)?;
        self.block.rules.push(Rule {
            number,
            words: self.block.words.len() - words,
            conclusions: self.block.conclusions.len() - conclusions,
            weight,
        });
        Ok(())
    }

    fn rule_number(&mut self) -> Read<i32> {
        let number = self.number()?;
        let thousandths = number.thousandths.filter(|_| number.plain);
        let value = thousandths.map(|x| x / 1000).filter(|n| (1..=65_535).contains(n));
        let value = value.ok_or(self.refused(3))?;
        let (at, bit) = (value as usize / 64, 1 << (value % 64));
        self.refuse_if(self.numbers[at] & bit != 0, 4)?;
        self.numbers[at] |= bit;
        self.advance();
        Ok(value as i32)
    }

    /// Counts the condition word whose token stands here, and passes it.
    fn condition_word(&mut self) -> Read<()> {
        self.refuse_if(self.words == bounds::WORDS, 6)?;
        self.words += 1;
        self.advance();
        Ok(())
    }

    fn condition(&mut self, open: usize) -> Read<()> {
        self.conjunction(open)?;
        while self.is(Key::Or) {
            self.condition_word()?;
            self.conjunction(open)?;
            self.block.words.push(OR);
        }
        Ok(())
    }

    fn conjunction(&mut self, open: usize) -> Read<()> {
        self.operand(open)?;
        while self.is(Key::And) {
            self.condition_word()?;
            self.operand(open)?;
            self.block.words.push(AND);
        }
        Ok(())
    }

    /// [NOT] before a subcondition or a parenthesised condition.
    fn operand(&mut self, open: usize) -> Read<()> {
        let negated = self.is(Key::Not);
        if negated {
            self.condition_word()?;
        }
        if self.token.kind == Kind::Open {
            self.refuse_if(open == bounds::PARENTHESES, 6)?;
            self.advance();
            self.condition(open + 1)?;
            self.want(Kind::Close)?;
        } else {
            self.subcondition()?;
        }
        if negated {
            self.block.words.push(NOT);
        }
        Ok(())
    }

    fn subcondition(&mut self) -> Read<()> {
        let input = self.declared(self.block.input_names())?;
        self.condition_word()?;
        self.word(Key::Is)?;
        let negated = self.is(Key::Not);
        if negated {
            self.condition_word()?;
        }
        let term = self.declared(term_names(&self.block.inputs[input].terms))?;
        self.advance();
        self.block.words.push(FIRST_TERM + (self.firsts[input] + term) as i32);
        if negated {
            self.block.words.push(NOT);
        }
        Ok(())
    }

    fn conclusion(&mut self) -> Read<()> {
        let output = self.declared(self.block.output_names())?;
        self.refuse_if(self.block.conclusions.len() == bounds::CONCLUSIONS, 6)?;
        self.advance();
        self.word(Key::Is)?;
        let term = self.declared(term_names(&self.block.outputs[output].terms))?;
        self.advance();
        let first = self.firsts[self.block.inputs.len() + output];
        self.block.conclusions.push((output as i32, (first + term) as i32));
        Ok(())
    }
}
