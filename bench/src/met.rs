//! What a test has met.
use crate::reference::Refusal;
use std::collections::BTreeMap;

/// How often each refusal was met: a test that never meets one has not tested it.
#[derive(Default)]
pub struct Met(BTreeMap<usize, usize>);

impl Met {
    pub fn note<T>(&mut self, answer: &Result<T, Refusal>) {
        *self.0.entry(answer.as_ref().map_or_else(|r| r.number, |_| 0)).or_default() += 1;
    }

    pub fn shows(&self, numbers: &[usize]) {
        println!("answers by number: {:?}", self.0);
        for number in numbers {
            assert!(self.0.contains_key(number), "refusal {number} was never met");
        }
    }
}

/// How often each kind of input was met, by its name.
#[derive(Default)]
pub struct Kinds(BTreeMap<String, usize>);

impl Kinds {
    pub fn note(&mut self, kind: impl Into<String>) {
        *self.0.entry(kind.into()).or_default() += 1;
    }

    /// How many were met whose names begin so.
    pub fn of(&self, beginning: &str) -> usize {
        self.0.iter().filter(|(kind, _)| kind.starts_with(beginning)).map(|(_, times)| times).sum()
    }

    /// Prints them; each of these was met so many times at least.
    pub fn shows(&self, kinds: &[&str], least: usize) {
        for (kind, times) in &self.0 {
            println!("{times:>8} {kind}");
        }
        for kind in kinds {
            let times = self.0.get(*kind).copied().unwrap_or(0);
            assert!(times >= least, "{kind}: met {times} times");
        }
    }
}
