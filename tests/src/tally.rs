//! How often each number was answered, so that a family of cases can show that it reached what it
//! is there for.

use std::collections::BTreeMap;

#[derive(Default)]
pub struct Tally {
    counts: BTreeMap<u32, usize>,
}

impl Tally {
    pub fn add(&mut self, number: u32) {
        *self.counts.entry(number).or_default() += 1;
    }

    /// Holds the family to at least so many cases in all and to exactly these numbers.
    pub fn expect(&self, cases: usize, numbers: &[u32]) {
        let total: usize = self.counts.values().sum();
        println!("{total} cases, answers {:?}", self.counts);
        assert!(total >= cases, "only {total} cases of {cases} were tried");
        let answered: Vec<u32> = self.counts.keys().copied().collect();
        assert_eq!(answered, numbers, "the answers reached are not the ones meant");
    }

    /// Holds each number that was answered to at least so many times.
    pub fn each(&self, times: usize) {
        for (number, &count) in &self.counts {
            assert!(count >= times, "{number} was answered {count} times, and not {times}");
        }
    }
}
