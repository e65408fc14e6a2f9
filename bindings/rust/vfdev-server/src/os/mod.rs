//! What the operating system has and the standard library lacks: messages with files, memory maps, seals, epoll, taps, and a filter of its
//! calls. This module has all the `unsafe` of the program, each block with its reason; what it offers is safe to call.

mod alarm;
mod epoll;
mod event_file;
mod filter;
mod mapped_card;
mod mapping;
mod page;
mod receive;
mod send;
mod slack;
mod tap;

pub use alarm::Alarm;
pub use epoll::{Interest, Patience, Poller};
pub use event_file::{is_eventfd, EventFile, NotAnEventfd};
pub use filter::allow_serving_alone;
pub use mapped_card::{MapError, MappedCard};
pub use page::{SharedPage, PAGE, PAGE_WORDS};
pub use receive::{receive, Received, MOST_FILES};
pub use send::send_with_file;
pub use slack::sleep_exactly;
pub use tap::open_tap;

use std::io;
use std::os::fd::{AsRawFd, BorrowedFd};

// What a call answers that says -1 where it failed.
fn checked(answer: libc::c_int) -> io::Result<libc::c_int> {
    match answer {
        -1 => Err(io::Error::last_os_error()),
        value => Ok(value),
    }
}

// Reads and writes of the file don't wait.
fn set_nonblocking(file: BorrowedFd<'_>) -> io::Result<()> {
    // SAFETY: the call takes numbers alone, and the file is open as long as it is borrowed.
    let flags = checked(unsafe { libc::fcntl(file.as_raw_fd(), libc::F_GETFL) })?;
    let flags = flags | libc::O_NONBLOCK;
    // SAFETY: as above.
    checked(unsafe { libc::fcntl(file.as_raw_fd(), libc::F_SETFL, flags) }).map(drop)
}

/// Whether the file is memory (memfd), or an eventfd: the kinds that clients send. All others are refused before anything is asked of them:
/// what is asked of a file of another kind, and even its close, may wait for whoever made it.
pub fn is_wanted(file: BorrowedFd<'_>) -> bool {
    // SAFETY: the call takes numbers alone, and the file is open as long as it is borrowed.
    let seals = unsafe { libc::fcntl(file.as_raw_fd(), libc::F_GET_SEALS) };
    seals != -1 || is_eventfd(file)
}

// Whether the file can never become shorter. A file that knows no seals can.
fn is_sealed_against_shrinking(file: BorrowedFd<'_>) -> bool {
    // SAFETY: the call takes numbers alone, and the file is open as long as it is borrowed.
    let seals = unsafe { libc::fcntl(file.as_raw_fd(), libc::F_GET_SEALS) };
    seals != -1 && seals & libc::F_SEAL_SHRINK != 0
}

// Whether the file has huge pages. A hole in such a file may have no page to fill it, whatever its seals are.
fn has_huge_pages(file: BorrowedFd<'_>) -> io::Result<bool> {
    let mut told = std::mem::MaybeUninit::<libc::statfs>::zeroed();
    // SAFETY: the file is open as long as it is borrowed, and the pointer leads to room for the answer, which the call alone writes.
    checked(unsafe { libc::fstatfs(file.as_raw_fd(), told.as_mut_ptr()) })?;
    // SAFETY: all of it was zeroed, which is a value of each of its numbers.
    let told = unsafe { told.assume_init() };
    Ok(told.f_type == libc::HUGETLBFS_MAGIC)
}
