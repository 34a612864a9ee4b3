//! What a long run says while it goes on.

use std::time::{Duration, Instant};

/// Says every couple of seconds how far a run has come.
pub struct Progress {
    total: u64,
    began: Instant,
    said: Instant,
}

const PAUSE: Duration = Duration::from_secs(2);

impl Progress {
    /// A run of so many cases begins.
    pub fn new(total: u64) -> Self {
        let now = Instant::now();
        Progress { total, began: now, said: now }
    }

    /// Says how many cases are done, unless that was just said.
    pub fn show(&mut self, done: u64) {
        if self.said.elapsed() < PAUSE {
            return;
        }
        self.said = Instant::now();
        let rate = done as f64 / self.began.elapsed().as_secs_f64();
        eprintln!("{}/{} cases, {:.0} a second", done, self.total, rate);
    }
}
