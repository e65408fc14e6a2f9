//! Eventfds of clients, by which vectors reach guests.

use super::set_nonblocking;
use std::fmt;
use std::fs::{self, File};
use std::io::{self, Write};
use std::os::fd::{AsFd, AsRawFd, BorrowedFd, OwnedFd};

/// The eventfd of a vector.
#[derive(Debug)]
pub struct EventFile {
    file: File,
}

/// A file that came for a vector isn't an eventfd.
#[derive(Debug)]
pub struct NotAnEventfd {
    what: String,
}

impl fmt::Display for NotAnEventfd {
    fn fmt(&self, f: &mut fmt::Formatter<'_>) -> fmt::Result {
        // (a client chooses what its memfd is called)
        let what = self.what.escape_debug();
        write!(f, "the file of a vector is no eventfd, but {what}")
    }
}

impl std::error::Error for NotAnEventfd {}

// What the kernel calls the file.
fn called(file: BorrowedFd<'_>) -> String {
    match fs::read_link(format!("/proc/self/fd/{}", file.as_raw_fd())) {
        Ok(target) => target.to_string_lossy().into_owned(),
        Err(error) => format!("unknown: {error}"),
    }
}

/// Whether the file is an eventfd. (The kernel calls no other file so: a path begins with a slash.)
pub fn is_eventfd(file: BorrowedFd<'_>) -> bool {
    called(file) == "anon_inode:[eventfd]"
}

impl EventFile {
    /// The eventfd that a client sent. A write of any other file could wait, or do who knows what.
    pub fn new(file: OwnedFd) -> Result<EventFile, NotAnEventfd> {
        if !is_eventfd(file.as_fd()) {
            let what = called(file.as_fd());
            return Err(NotAnEventfd { what });
        }
        if let Err(error) = set_nonblocking(file.as_fd()) {
            let what = format!("one that can't be written without waiting: {error}");
            return Err(NotAnEventfd { what });
        }
        let file = File::from(file);
        Ok(EventFile { file })
    }

    /// Signals it once. Where its count is full the client has still to look at it, so nothing is lost. A client that makes it wait nevertheless
    /// has it end as [`Interrupted`](io::ErrorKind::Interrupted), by an [`Alarm`](super::Alarm).
    pub fn signal(&self) -> io::Result<()> {
        match (&self.file).write(&1u64.to_ne_bytes()) {
            Ok(_) => Ok(()),
            Err(error) if error.kind() == io::ErrorKind::WouldBlock => Ok(()),
            Err(error) => Err(error),
        }
    }
}
