//! Blocks of chosen sizes, in our spelling and in fuzzylite's.

/// Whose spelling.
#[derive(Clone, Copy, PartialEq)]
pub enum Dialect {
    Ours,
    Fuzzylite,
}

/// Each input has seven terms of four points, each output seven singletons.
#[derive(Clone, Copy)]
pub struct Size {
    pub inputs: usize,
    pub outputs: usize,
    pub rules: usize,
}

/// All counts and names at document 01's bounds: 8 inputs, 6 outputs, 98 terms, 266 points, 64 rules, 640 condition
/// words, 128 conclusions, eight parentheses open at once, names of 16 bytes.
pub const AT_ALL_BOUNDS: Size = Size { inputs: 8, outputs: 6, rules: 64 };

impl Dialect {
    /// The first where it is ours.
    fn either(self, ours: &'static str, fuzzylites: &'static str) -> &'static str {
        match self {
            Dialect::Ours => ours,
            Dialect::Fuzzylite => fuzzylites,
        }
    }

    fn declarations(self, name: &str, count: usize) -> String {
        let colon = self.either(":", " :");
        (0..count).map(|nth| format!("    {name}_{nth}{colon} REAL;\n")).collect()
    }

    fn fuzzify(self, input: usize) -> String {
        let mut text = format!("FUZZIFY sensor_reading_{input}\n");
        for term in 0..7 {
            let peak = 10 * term;
            let points = [(peak - 10, 0), (peak - 2, 1), (peak + 2, 1), (peak + 10, 0)];
            let points = points.map(|(x, degree)| format!("({x}, {degree})")).join(self.either(", ", " "));
            text += &format!("    TERM level_of_value_{term} := {points};\n");
        }
        text + "END_FUZZIFY\n"
    }

    fn defuzzify(self, output: usize) -> String {
        let mut text = format!("DEFUZZIFY output_figures_{output}\n    RANGE {}(0 .. 100);\n", self.either("", ":= "));
        for term in 0..7 {
            text += &format!("    TERM stage_of_trust_{term} := {};\n", 15 * term + output);
        }
        text += self.either("    METHOD: CoGS;\n", "    METHOD : COGS;\n    ACCU : BSUM;\n");
        text + "    DEFAULT := 50;\nEND_DEFUZZIFY\n"
    }

    fn rule(self, number: usize, condition: &str, conclusions: [String; 2]) -> String {
        // Small weights: no sum of heights reaches 1, where a bounded sum and fuzzylite's plain one would part.
        let conclusions = conclusions.join(self.either(", ", " AND "));
        let rule = format!("IF {condition} THEN {conclusions} WITH 0.125");
        match self {
            Dialect::Ours => format!("    RULE {number}: {rule};\n"),
            Dialect::Fuzzylite => format!("    RULE {number} : {}\n", rule.to_lowercase()),
        }
    }
}

impl Size {
    pub fn text(self, dialect: Dialect) -> String {
        let mut text = String::from("FUNCTION_BLOCK a_block_at_bound\nVAR_INPUT\n");
        text += &dialect.declarations("sensor_reading", self.inputs);
        text += "END_VAR\nVAR_OUTPUT\n";
        text += &dialect.declarations("output_figures", self.outputs);
        text += "END_VAR\n";
        text.extend((0..self.inputs).map(|input| dialect.fuzzify(input)));
        text.extend((0..self.outputs).map(|output| dialect.defuzzify(output)));
        text += "RULEBLOCK the_rules_of_all\n";
        text += dialect.either(
            "    AND: PROD;\n    OR: ASUM;\n    ACT: PROD;\n    ACCU: BSUM;\n",
            "    AND : PROD;\n    OR : ASUM;\n    ACT : PROD;\n",
        );
        let conclusions = |rule: usize| [self.conclusion(rule, rule), self.conclusion(rule + 3, 3 * rule + 1)];
        text.extend((0..self.rules).map(|r| dialect.rule(60_000 + r, &self.condition(r), conclusions(r))));
        text + "END_RULEBLOCK\nEND_FUNCTION_BLOCK\n"
    }

    /// Ten words; of 64 rules, the last two have nineteen words, eight parentheses deep, and one.
    fn condition(self, rule: usize) -> String {
        let term = |is: &str, k: usize| {
            format!("sensor_reading_{} {is} level_of_value_{}", (rule + k) % self.inputs, (rule * k + k) % 7)
        };
        let [a, b, c, d, e] = [term("IS", 0), term("IS NOT", 1), term("IS", 2), term("IS", 3), term("IS", 4)];
        match rule {
            62 => (0..8).fold(format!("{c} OR {d}"), |inner, k| format!("{} AND ({inner})", term("IS", k))),
            63 => a,
            _ => format!("{a} AND ({b} OR {c}) AND ({d} OR {e})"),
        }
    }

    fn conclusion(self, output: usize, term: usize) -> String {
        format!("output_figures_{} IS stage_of_trust_{}", output % self.outputs, term % 7)
    }
}
