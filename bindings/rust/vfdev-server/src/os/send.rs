//! Bytes for a socket, with a file beside them.

use std::io;
use std::mem::size_of;
use std::os::fd::{AsRawFd, BorrowedFd, RawFd};
use std::os::unix::net::UnixStream;

// The room for one control message with one file, in words, which have the alignment that the message needs.
const CONTROL_WORDS: usize = 3;

/// Sends bytes, as many as the socket takes, with the file beside the first of them. It doesn't wait.
pub fn send_with_file(
    socket: &UnixStream,
    bytes: &[u8],
    file: BorrowedFd<'_>,
) -> io::Result<usize> {
    let mut control = [0u64; CONTROL_WORDS];
    let mut part = libc::iovec {
        iov_base: bytes.as_ptr().cast_mut().cast(),
        iov_len: bytes.len(),
    };
    const LENGTH: libc::c_uint = size_of::<RawFd>() as libc::c_uint;
    // SAFETY: all zeros is a value of each field, pointers of which may be null.
    let mut header: libc::msghdr = unsafe { std::mem::zeroed() };
    header.msg_iov = &mut part;
    header.msg_iovlen = 1;
    header.msg_control = control.as_mut_ptr().cast();
    // SAFETY: the macro computes with the number alone.
    header.msg_controllen = unsafe { libc::CMSG_SPACE(LENGTH) } as usize;
    assert!(header.msg_controllen <= CONTROL_WORDS * size_of::<u64>());
    // SAFETY: the header leads to room for one control message with one file, which is aligned as it wants.
    unsafe {
        let message = libc::CMSG_FIRSTHDR(&header);
        (*message).cmsg_level = libc::SOL_SOCKET;
        (*message).cmsg_type = libc::SCM_RIGHTS;
        (*message).cmsg_len = libc::CMSG_LEN(LENGTH) as usize;
        let place = libc::CMSG_DATA(message).cast::<RawFd>();
        place.write_unaligned(file.as_raw_fd());
    }
    let flags = libc::MSG_NOSIGNAL | libc::MSG_DONTWAIT;
    // SAFETY: the header leads to the bytes and to the control words, each with its length, and the call only reads them.
    let sent = unsafe { libc::sendmsg(socket.as_raw_fd(), &header, flags) };
    usize::try_from(sent).map_err(|_| io::Error::last_os_error())
}
