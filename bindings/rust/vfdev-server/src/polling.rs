//! How long the program looks for work before it sleeps.

use std::time::{Duration, Instant};

/// When to sleep. Where a client's next message comes soon, to look for it costs less than to sleep and to be woken; while it is looked for,
/// a processor is busy.
#[derive(Debug)]
pub struct Polling {
    most: Duration,
    since: Instant,
}

impl Polling {
    /// It is looked for so long after the last work. Zero: not at all.
    ///
    /// ```
    /// use std::time::Duration;
    /// use vfdev_server::polling::Polling;
    /// assert!(Polling::new(Duration::ZERO).is_over());
    /// let mut polling = Polling::new(Duration::from_secs(3600));
    /// polling.begin_anew();
    /// assert!(!polling.is_over());
    /// ```
    #[must_use]
    pub fn new(most: Duration) -> Polling {
        let since = Instant::now();
        Polling { most, since }
    }

    /// There was work.
    pub fn begin_anew(&mut self) {
        if !self.most.is_zero() {
            self.since = Instant::now();
        }
    }

    /// Whether there was none for so long.
    #[must_use]
    pub fn is_over(&self) -> bool {
        self.most.is_zero() || self.since.elapsed() >= self.most
    }
}
