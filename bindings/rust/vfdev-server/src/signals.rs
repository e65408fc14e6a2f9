//! Signals of the operating system, as bytes in sockets that the loop watches.

use signal_hook::consts::{SIGHUP, SIGINT, SIGTERM};
use signal_hook::low_level::pipe;
use std::io::{self, Read};
use std::os::unix::net::UnixStream;

/// The ends where signals arrive.
#[derive(Debug)]
pub struct Signals {
    /// SIGHUP.
    pub reload: UnixStream,
    /// SIGTERM and SIGINT.
    pub stop: UnixStream,
}

impl Signals {
    /// Has these signals arrive here from now on.
    ///
    /// # Errors
    /// Where the operating system refuses it.
    pub fn new() -> io::Result<Signals> {
        Ok(Signals {
            reload: arriving(&[SIGHUP])?,
            stop: arriving(&[SIGTERM, SIGINT])?,
        })
    }
}

/// Takes what arrived at an end: how often doesn't matter.
pub fn drain(end: &UnixStream) {
    let mut bytes = [0; 64];
    while matches!((&*end).read(&mut bytes), Ok(count) if count > 0) {}
}

fn arriving(signals: &[i32]) -> io::Result<UnixStream> {
    let (end, other) = UnixStream::pair()?;
    end.set_nonblocking(true)?;
    for signal in signals {
        pipe::register(*signal, other.try_clone()?)?;
    }
    Ok(end)
}
