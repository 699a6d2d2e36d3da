//! The best time of several.

use std::time::{Duration, Instant};

pub struct Clock {
    best: Duration,
}

impl Default for Clock {
    fn default() -> Clock {
        Clock { best: Duration::MAX }
    }
}

impl Clock {
    pub fn time<T>(&mut self, work: impl FnOnce() -> T) {
        let start = Instant::now();
        work();
        self.best = self.best.min(start.elapsed());
    }

    pub fn nanoseconds(&self) -> f64 {
        self.best.as_nanos() as f64
    }
}
