//! When the program looks at pages of registers while it sleeps: nobody wakes it for a word there.

use std::time::Duration;

/// How long it stays awake after it has found something, where it offers pages: about as long as to sleep and to be woken takes.
pub const AWAKE: Duration = Duration::from_micros(10);
/// How long it sleeps then at first.
pub const SHORTEST: Duration = Duration::from_micros(10);
/// How long it sleeps at most while a queue is on.
pub const LONGEST: Duration = Duration::from_millis(1);
/// How long it sleeps at most while none is.
pub const LONGEST_OFF: Duration = Duration::from_millis(16);

/// How long the program sleeps. Each sleep in which nothing came is twice as long as the one before it: what comes waits for about as long as
/// nothing had come, and an idle server wakes seldom.
#[derive(Clone, Copy, Debug)]
pub struct Looks {
    sleep: Duration,
}

impl Default for Looks {
    fn default() -> Looks {
        Looks { sleep: SHORTEST }
    }
}

impl Looks {
    /// Something came.
    pub fn begin_anew(&mut self) {
        self.sleep = SHORTEST;
    }

    /// Nothing came in the last sleep.
    pub fn lengthen(&mut self) {
        self.sleep = (self.sleep * 2).min(LONGEST_OFF);
    }

    /// How long the next sleep is at most.
    ///
    /// ```
    /// use vfdev_server::looks::{Looks, LONGEST, LONGEST_OFF, SHORTEST};
    /// let mut looks = Looks::default();
    /// looks.lengthen();
    /// assert_eq!(looks.sleep(true), 2 * SHORTEST);
    /// for _ in 0..20 {
    ///     looks.lengthen();
    /// }
    /// assert_eq!((looks.sleep(true), looks.sleep(false)), (LONGEST, LONGEST_OFF));
    /// looks.begin_anew();
    /// assert_eq!(looks.sleep(true), SHORTEST);
    /// ```
    #[must_use]
    pub fn sleep(&self, is_any_on: bool) -> Duration {
        match is_any_on {
            true => self.sleep.min(LONGEST),
            false => self.sleep,
        }
    }

    /// Whether sleeps have become long.
    #[must_use]
    pub fn is_long(&self) -> bool {
        self.sleep >= LONGEST
    }
}
