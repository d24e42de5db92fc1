//! What generated sets have come to.

use std::collections::HashMap;

/// How often each of these things came up.
#[derive(Debug, Default)]
pub struct Counts(HashMap<&'static str, usize>);

impl Counts {
    pub fn count(&mut self, what: &'static str, is_so: bool) {
        *self.0.entry(what).or_default() += usize::from(is_so);
    }

    pub fn all_over(&self, least: usize) {
        assert!(self.0.values().all(|&count| count > least), "{self:?}");
    }
}
