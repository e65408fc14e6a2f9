//! How far apart the interrupts of a function's vectors are: a vector that was signalled rests for as long as the guest's driver wants
//! (VTEITR). Meanwhile it waits in the card.

use std::time::{Duration, Instant};
use vfdev::card::VECTORS;

/// Until when each vector rests.
#[derive(Clone, Copy, Debug, Default)]
pub struct Rests {
    until: [Option<Instant>; VECTORS as usize],
}

impl Rests {
    /// The vectors that don't rest any more: bit v for vector v.
    ///
    /// ```
    /// use std::time::{Duration, Instant};
    /// use vfdev_server::rests::Rests;
    /// let (now, later) = (Instant::now(), Duration::from_micros(50));
    /// let mut rests = Rests::default();
    /// assert_eq!(rests.over(now), 0b111);
    /// rests.begin(1, later, now);
    /// assert_eq!(rests.over(now), 0b101);
    /// assert_eq!(rests.next(), Some(now + later));
    /// assert_eq!(rests.over(now + later), 0b111);
    /// assert_eq!(rests.next(), None);
    /// ```
    pub fn over(&mut self, now: Instant) -> u32 {
        let mut over = 0;
        for (number, until) in self.until.iter_mut().enumerate() {
            if until.map_or(true, |until| until <= now) {
                *until = None;
                over |= 1 << number;
            }
        }
        over
    }

    /// A vector was signalled, and rests for so long; not at all where that is zero.
    pub fn begin(&mut self, vector: u32, interval: Duration, now: Instant) {
        if let Some(until) = self.until.get_mut(vector as usize) {
            *until = (!interval.is_zero()).then(|| now + interval);
        }
    }

    /// When the first of those that rest is over.
    #[must_use]
    pub fn next(&self) -> Option<Instant> {
        self.until.iter().flatten().min().copied()
    }
}
