//! When a check stops.

use std::time::Instant;

/// When to stop.
#[derive(Clone, Copy, Debug)]
pub struct Limit {
    /// After so many calls, or trials.
    pub count: u64,
    /// At this time, even if some are left.
    pub until: Option<Instant>,
}

impl Limit {
    /// Whether it is time to stop after `count` of them.
    pub fn reached(&self, count: u64) -> bool {
        count >= self.count || self.until.is_some_and(|until| Instant::now() >= until)
    }
}
