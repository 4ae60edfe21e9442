//! How far a long run is, on standard error.

use std::time::{Duration, Instant};

/// A run says nothing before this, and then speaks this often.
const INTERVAL: Duration = Duration::from_secs(5);

pub struct Progress {
    what: &'static str,
    total: usize,
    done: usize,
    begun: Instant,
    spoken: Instant,
}

impl Progress {
    /// Of so many things to do, called by their name.
    pub fn new(total: usize, what: &'static str) -> Progress {
        let now = Instant::now();
        Progress {
            what,
            total,
            done: 0,
            begun: now,
            spoken: now,
        }
    }

    /// One more is done.
    pub fn advance(&mut self) {
        self.done += 1;
        if self.spoken.elapsed() >= INTERVAL {
            self.spoken = Instant::now();
            eprintln!("oracle: {}", self.line(self.begun.elapsed()));
        }
    }

    /// How far the run is after so long, if the rest takes as long as the part done.
    fn line(&self, elapsed: Duration) -> String {
        let (done, total, what) = (self.done, self.total, self.what);
        let left = elapsed.as_secs_f64() * (total - done) as f64 / done as f64;
        let elapsed = elapsed.as_secs();
        format!("{done} of {total} {what} in {elapsed} s, about {left:.0} s left")
    }
}

#[cfg(test)]
mod tests {
    use super::*;

    #[test]
    fn the_rest_takes_as_long_as_the_part_done() {
        let mut progress = Progress::new(8, "sheets");
        (0..2).for_each(|_| progress.advance());
        let line = progress.line(Duration::from_secs(10));
        assert_eq!(line, "2 of 8 sheets in 10 s, about 30 s left");
    }
}
