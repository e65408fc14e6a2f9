//! Things that may take long to let go of: a guest's memory whose last user is gone, which is freed page by page, and files of a kind that
//! nobody wants, whose close may wait for whoever made them. They are let go of on threads of their own, so that no guest waits for it.

use std::sync::atomic::{AtomicUsize, Ordering};
use std::sync::Arc;
use std::thread;

/// How many such threads there are at most.
pub const MOST_THREADS: usize = 64;

/// The threads that let go of things.
#[derive(Clone, Debug, Default)]
pub struct Apart {
    live: Arc<AtomicUsize>,
}

// One of the threads, which is counted while this is there.
struct Counted(Arc<AtomicUsize>);

impl Drop for Counted {
    fn drop(&mut self) {
        self.0.fetch_sub(1, Ordering::Relaxed);
    }
}

impl Apart {
    /// Drops the value on a thread of its own. Where there are too many already, it comes back.
    ///
    /// # Errors
    /// The value.
    pub fn let_go<T: Send + 'static>(&self, value: T) -> Result<(), T> {
        if self.live.fetch_add(1, Ordering::Relaxed) >= MOST_THREADS {
            self.live.fetch_sub(1, Ordering::Relaxed);
            return Err(value);
        }
        let counted = Counted(Arc::clone(&self.live));
        // (where no thread can be made the value is dropped here)
        let _ = thread::Builder::new()
            .name("apart".to_owned())
            .spawn(move || {
                drop(value);
                drop(counted);
            });
        Ok(())
    }
}

#[cfg(test)]
mod tests {
    use super::*;
    use std::sync::mpsc::{channel, Receiver};

    // Something that takes until it is told.
    struct Slow(Receiver<()>);

    impl Drop for Slow {
        fn drop(&mut self) {
            let _ = self.0.recv();
        }
    }

    #[test]
    fn there_are_so_many_at_most() {
        let apart = Apart::default();
        let mut tellers = Vec::new();
        for _ in 0..MOST_THREADS {
            let (teller, told) = channel();
            tellers.push(teller);
            assert!(apart.let_go(Slow(told)).is_ok());
        }
        assert!(apart.let_go(1).is_err());
        drop(tellers);
        while apart.let_go(1).is_err() {
            thread::yield_now();
        }
    }
}
