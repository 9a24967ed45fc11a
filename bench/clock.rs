//! The best time of a call.
use std::hint::black_box;
use std::time::Instant;

/// The best time of a call so far, in microseconds; samples grow until they are long enough to be timed.
pub struct Clock {
    calls: u32,
    pub best: f64,
}

impl Clock {
    pub fn new() -> Self {
        Clock { calls: 1, best: f64::MAX }
    }

    pub fn sample<T>(&mut self, mut call: impl FnMut() -> T) {
        let start = Instant::now();
        for _ in 0..self.calls {
            black_box(call());
        }
        let micros = start.elapsed().as_secs_f64() * 1e6;
        self.best = self.best.min(micros / self.calls as f64);
        if micros < 250.0 {
            self.calls *= 2;
        }
    }
}
