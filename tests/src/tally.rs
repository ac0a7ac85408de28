//! Counts of what occurred, so that a test sees that it met every kind.

use std::collections::BTreeMap;

/// How often each kind of outcome occurred.
#[derive(Default)]
pub struct Tally(pub BTreeMap<String, usize>);

impl Tally {
    pub fn add(&mut self, what: impl Into<String>, more: usize) {
        *self.0.entry(what.into()).or_default() += more;
    }

    pub fn expect(&self, least: usize, names: &[&str]) {
        for name in names {
            let count = self.0.get(*name).copied().unwrap_or(0);
            assert!(count >= least, "{name}: {count} of {least} in {:?}", self.0);
        }
    }
}
