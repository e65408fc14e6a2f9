//! How exactly this thread is woken.

use super::checked;
use std::io;

/// A sleep of this thread ends when it is over, and not up to 50 microseconds later so that several end at once.
pub fn sleep_exactly() -> io::Result<()> {
    // SAFETY: the call takes numbers alone, and concerns this thread.
    checked(unsafe { libc::prctl(libc::PR_SET_TIMERSLACK, 1 as libc::c_ulong, 0, 0, 0) }).map(drop)
}
