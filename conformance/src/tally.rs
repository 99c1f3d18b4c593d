//! How often each outcome of each call was met: a comparison that never met a case proves nothing about it.

use std::collections::BTreeMap;

#[derive(Default)]
pub struct Tally {
    counts: BTreeMap<String, u64>,
    pub cases: u64,
}

impl Tally {
    pub fn note(&mut self, class: &str) {
        *self.counts.entry(class.to_string()).or_default() += 1;
    }

    pub fn print(&self, title: &str) {
        println!("{title}: {} cases", self.cases);
        for (class, count) in &self.counts {
            println!("{count:>9}  {class}");
        }
    }

    /// Fails unless each class was met.
    pub fn demand(&self, classes: &[String]) {
        let missed: Vec<&String> = classes.iter().filter(|class| !self.counts.contains_key(*class)).collect();
        assert!(missed.is_empty(), "never met, so the run proves nothing about them: {missed:#?}");
    }
}
