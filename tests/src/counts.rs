// Counts the library's answers by the call's name and its refusal number, so that a test is
// held to the answers it is meant to get.
use std::collections::BTreeMap;

#[derive(Default)]
pub struct Counts {
    answers: BTreeMap<(&'static str, u32), u64>,
}

impl Counts {
    pub fn new() -> Counts {
        Counts::default()
    }

    pub fn count(&mut self, call: &'static str, refusal: u32) {
        *self.answers.entry((call, refusal)).or_insert(0) += 1;
    }

    /// Holds the test to these calls with these refusal numbers, 0 for none, at least so often
    /// each, and no others.
    pub fn finish(self, at_least: &[(&'static str, u32, u64)]) {
        println!("{:?}", self.answers);
        let meant: Vec<_> = at_least.iter().map(|&(call, refusal, _)| (call, refusal)).collect();
        for answer in self.answers.keys() {
            assert!(meant.contains(answer), "{answer:?} was not to be seen");
        }
        for &(call, refusal, count) in at_least {
            let seen = self.answers.get(&(call, refusal)).copied().unwrap_or(0);
            assert!(seen >= count, "{call} with refusal {refusal} was seen {seen} times only");
        }
    }
}
