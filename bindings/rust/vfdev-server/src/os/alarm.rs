//! A clock that ends a wait which nobody should have to make.
//!
//! A write of an eventfd waits where its count is full and its client has set it to wait, which the client may do at any time. While such
//! files are written the clock rings ten times a second, and a ring ends the call that waits.

use super::checked;
use std::io;

// How long a write may wait, in nanoseconds.
const PERIOD: libc::c_long = 100_000_000;

/// The clock, of which a process has one.
#[derive(Debug)]
pub struct Alarm {
    timer: libc::timer_t,
    is_on: bool,
    is_used: bool,
}

// That a signal came is all that it has to tell.
extern "C" fn ring(_signal: libc::c_int) {}

impl Drop for Alarm {
    fn drop(&mut self) {
        // SAFETY: the timer is this value's own.
        unsafe { libc::timer_delete(self.timer) };
    }
}

impl Alarm {
    /// The clock, which doesn't ring.
    pub fn new() -> io::Result<Alarm> {
        // SAFETY: all zeros is a value of each field; no flag is set, so a call that waits is ended and not begun anew.
        let mut action: libc::sigaction = unsafe { std::mem::zeroed() };
        let handler: extern "C" fn(libc::c_int) = ring;
        action.sa_sigaction = handler as libc::sighandler_t;
        // SAFETY: the action is one live value, whose handler does nothing, which is allowed in any signal; the old one isn't wanted.
        checked(unsafe { libc::sigaction(libc::SIGALRM, &action, std::ptr::null_mut()) })?;
        let mut timer: libc::timer_t = std::ptr::null_mut();
        let clock = libc::CLOCK_MONOTONIC;
        // SAFETY: the call writes the one live value; without more it sends SIGALRM to this process.
        checked(unsafe { libc::timer_create(clock, std::ptr::null_mut(), &mut timer) })?;
        Ok(Alarm {
            timer,
            is_on: false,
            is_used: false,
        })
    }

    /// It rings from now on, until it was not used for a while.
    pub fn use_it(&mut self) -> io::Result<()> {
        self.is_used = true;
        if !self.is_on {
            self.set(PERIOD)?;
            self.is_on = true;
        }
        Ok(())
    }

    /// The loop woke and found nothing, maybe by a ring: it rings no more if it was not used since the last time.
    pub fn rest(&mut self) -> io::Result<()> {
        if self.is_on && !std::mem::take(&mut self.is_used) {
            self.set(0)?;
            self.is_on = false;
        }
        Ok(())
    }

    fn set(&self, period: libc::c_long) -> io::Result<()> {
        let span = libc::timespec {
            tv_sec: 0,
            tv_nsec: period,
        };
        let spans = libc::itimerspec {
            it_interval: span,
            it_value: span,
        };
        // SAFETY: the timer is this value's own, and the call only reads the spans; the old ones aren't wanted.
        checked(unsafe { libc::timer_settime(self.timer, 0, &spans, std::ptr::null_mut()) })
            .map(drop)
    }
}
