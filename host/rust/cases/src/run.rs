//! A run of many cases, as the environment asks for it.
use crate::{compare, neighbours, Case, Implementation, Tally};

/// `GRILLENHELM_SEED` and `GRILLENHELM_CASES` set the seed and the number of cases; `GRILLENHELM_CASE` picks
/// one case, to replay it.
pub struct Run {
    pub seed: u64,
    pub cases: u64,
    pub only: Option<u64>,
}

fn setting(name: &str) -> Option<u64> {
    let text = std::env::var(name).ok()?;
    Some(text.parse().unwrap_or_else(|_| panic!("{name} is not a whole number: {text}")))
}

impl Run {
    pub fn from_environment() -> Run {
        Run {
            seed: setting("GRILLENHELM_SEED").unwrap_or(611_317),
            cases: setting("GRILLENHELM_CASES").unwrap_or(20_000),
            only: setting("GRILLENHELM_CASE"),
        }
    }

    /// Compares two implementations on the neighbours of one block and on every case; the latter are counted.
    /// Panics at the first difference, with the case.
    pub fn compare<A: Implementation, B: Implementation>(&self, a: &A, b: &B) -> Tally {
        let mut tally = Tally::default();
        if self.only.is_none() {
            for case in neighbours() {
                if let Err(difference) = compare(a, b, &case, &mut Tally::default()) {
                    panic!("{difference}\n{case}");
                }
            }
        }
        let cases = self.only.map_or(0..self.cases, |case| case..case + 1);
        for number in cases {
            let case = Case::new(self.seed, number);
            if let Err(difference) = compare(a, b, &case, &mut tally) {
                let replay = format!("GRILLENHELM_SEED={} GRILLENHELM_CASE={number}", self.seed);
                panic!("{difference}\nreplay with {replay}\n{case}");
            }
        }
        tally
    }
}
