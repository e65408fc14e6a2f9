//! Bytes of a socket, with the files that came beside them.

use std::io;
use std::mem::size_of;
use std::os::fd::{AsRawFd, FromRawFd, OwnedFd, RawFd};
use std::os::unix::net::UnixStream;

/// How many files may come with one message: as many as the card's answer to VERSION offers.
pub const MOST_FILES: usize = 8;

// The room for one control message with so many files, in words, which have the alignment that the message needs.
const CONTROL_WORDS: usize = 8;

/// What one read of a socket gave.
#[derive(Debug)]
pub struct Received {
    /// How many bytes. 0: the other end is closed.
    pub count: usize,
    /// More files came than [`MOST_FILES`], and some are lost.
    pub lost_files: bool,
}

/// Reads bytes of a socket, as many as the slice takes, and puts the files that came beside them behind those in `files`. Files that
/// don't fit are closed.
pub fn receive(
    socket: &UnixStream,
    bytes: &mut [u8],
    files: &mut Vec<OwnedFd>,
) -> io::Result<Received> {
    let mut control = [0u64; CONTROL_WORDS];
    let mut part = libc::iovec {
        iov_base: bytes.as_mut_ptr().cast(),
        iov_len: bytes.len(),
    };
    // SAFETY: all zeros is a value of each field, pointers of which may be null.
    let mut header: libc::msghdr = unsafe { std::mem::zeroed() };
    header.msg_iov = &mut part;
    header.msg_iovlen = 1;
    header.msg_control = control.as_mut_ptr().cast();
    header.msg_controllen = control_length();
    let flags = libc::MSG_CMSG_CLOEXEC | libc::MSG_DONTWAIT;
    // SAFETY: the header leads to the one slice and to the control words, each with its length, and both outlive the call.
    let count = unsafe { libc::recvmsg(socket.as_raw_fd(), &mut header, flags) };
    let Ok(count) = usize::try_from(count) else {
        return Err(io::Error::last_os_error());
    };
    take_files(&header, files);
    let lost_files = header.msg_flags & libc::MSG_CTRUNC != 0 || files.len() > MOST_FILES;
    files.truncate(MOST_FILES);
    Ok(Received { count, lost_files })
}

// The room that is offered for files: CMSG_SPACE of them, which is what the control words have or less.
fn control_length() -> usize {
    // SAFETY: the macro computes with the number alone.
    let space = unsafe { libc::CMSG_SPACE((MOST_FILES * size_of::<RawFd>()) as u32) } as usize;
    assert!(space <= CONTROL_WORDS * size_of::<u64>());
    space
}

// Takes the files that the kernel has opened for this process.
fn take_files(header: &libc::msghdr, files: &mut Vec<OwnedFd>) {
    // SAFETY: the header is one that recvmsg filled, with its control words still there; the macros stay inside of these.
    let mut at = unsafe { libc::CMSG_FIRSTHDR(header) };
    while !at.is_null() {
        // SAFETY: the macros give a pointer to a whole control message, or null.
        let message = unsafe { &*at };
        if message.cmsg_level == libc::SOL_SOCKET && message.cmsg_type == libc::SCM_RIGHTS {
            // SAFETY: the macro computes an address of the same message.
            let first = unsafe { libc::CMSG_DATA(at) }.cast::<RawFd>();
            // SAFETY: the macro computes with a number alone.
            let front = unsafe { libc::CMSG_LEN(0) } as usize;
            let count = message.cmsg_len.saturating_sub(front) / size_of::<RawFd>();
            for place in 0..count {
                // SAFETY: the message has so many numbers behind its front, each of a file that was opened for this process alone.
                files.push(unsafe { OwnedFd::from_raw_fd(first.add(place).read_unaligned()) });
            }
        }
        // SAFETY: as the first one.
        at = unsafe { libc::CMSG_NXTHDR(header, at) };
    }
}
