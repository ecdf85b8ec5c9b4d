//! What occurred how often.
use std::collections::BTreeMap;

#[derive(Default)]
pub struct Tally(BTreeMap<String, u64>);

impl Tally {
    pub fn count(&mut self, what: &str) {
        self.count_if(what, true);
    }

    pub fn count_if(&mut self, what: &str, so: bool) {
        *self.0.entry(what.to_string()).or_insert(0) += so as u64;
    }

    /// Counts an answer: what was done, or the refusal's code.
    pub fn answer<T>(
        &mut self,
        call: &str,
        done: &str,
        answer: Result<T, model::refusal::Refusal>,
    ) {
        match answer {
            Ok(_) => self.count(&format!("{call} {done}")),
            Err(refusal) => self.count(&format!("{call} refused {}", refusal.code())),
        }
    }

    /// Prints all, and asserts that each of these occurred so often at least.
    pub fn assert_least(&self, least: &[(&str, u64)]) {
        for (what, count) in &self.0 {
            println!("{what}: {count}");
        }
        for (what, count) in least {
            let reached = self.0.get(*what).copied().unwrap_or(0);
            assert!(reached >= *count, "{what}: {reached}, not {count}");
        }
    }
}
