//! What a client needs of the operating system: sealed memory that is shared, eventfds, and messages with files.

use std::fs::File;
use std::io;
use std::os::fd::{AsFd, AsRawFd, BorrowedFd, FromRawFd, OwnedFd, RawFd};
use std::os::unix::net::UnixStream;
use std::ptr::NonNull;
use std::sync::atomic::{fence, AtomicU32, AtomicU64, AtomicU8, Ordering};

/// Memory that is shared, a guest's or a page of registers: a file, and where a part of it is mapped here. The server reads and writes it meanwhile, so all accesses are atomic.
pub struct Memory {
    pub file: OwnedFd,
    at: NonNull<u8>,
    size: usize,
}

// SAFETY: the memory is reached by atomic accesses alone, which any thread may make.
unsafe impl Send for Memory {}

impl Drop for Memory {
    fn drop(&mut self) {
        // SAFETY: the range is the one that was mapped, and nothing that was lent of it outlives this value.
        unsafe { libc::munmap(self.at.as_ptr().cast(), self.size) };
    }
}

impl Memory {
    /// So many bytes, of zeros, which can't become fewer.
    pub fn new(size: usize) -> Memory {
        Memory::sealed(size, libc::F_SEAL_SHRINK)
    }

    /// The same, with these seals.
    pub fn sealed(size: usize, seals: libc::c_int) -> Memory {
        // SAFETY: the name is a text with its zero, and the call keeps no pointer.
        let file = unsafe {
            libc::memfd_create(
                b"guest\0".as_ptr().cast(),
                libc::MFD_CLOEXEC | libc::MFD_ALLOW_SEALING,
            )
        };
        assert!(file >= 0, "memfd_create: {}", io::Error::last_os_error());
        // SAFETY: the call has just opened this file, and nobody else has it.
        let file = unsafe { OwnedFd::from_raw_fd(file) };
        let file = File::from(file);
        file.set_len(size as u64).expect("a size");
        // SAFETY: the call takes numbers alone, and the file is open.
        let sealed = unsafe { libc::fcntl(file.as_raw_fd(), libc::F_ADD_SEALS, seals) };
        assert_eq!(sealed, 0, "F_ADD_SEALS: {}", io::Error::last_os_error());
        Memory::of(OwnedFd::from(file), 0, size)
    }

    /// So many bytes of a file, from this offset on.
    pub fn of(file: OwnedFd, offset: u64, size: usize) -> Memory {
        // SAFETY: the kernel chooses the place, and the file is open.
        let at = unsafe {
            libc::mmap(
                std::ptr::null_mut(),
                size,
                libc::PROT_READ | libc::PROT_WRITE,
                libc::MAP_SHARED,
                file.as_raw_fd(),
                offset as libc::off_t,
            )
        };
        assert_ne!(at, libc::MAP_FAILED, "mmap: {}", io::Error::last_os_error());
        Memory {
            file,
            at: NonNull::new(at.cast()).expect("a place"),
            size,
        }
    }

    fn bytes(&self) -> &[AtomicU8] {
        // SAFETY: the range is mapped as long as this value is there, and everyone who reaches it here does so by atomic accesses.
        unsafe { std::slice::from_raw_parts(self.at.as_ptr().cast(), self.size) }
    }

    fn word(&self, at: usize) -> &AtomicU64 {
        assert!(at % 8 == 0 && at + 8 <= self.size);
        // SAFETY: the eight bytes are inside and aligned, since a mapping begins at a page; else as above.
        unsafe { &*self.at.as_ptr().add(at).cast() }
    }

    /// The word of 8 bytes at an address.
    pub fn get(&self, at: usize) -> u64 {
        self.word(at).load(Ordering::Acquire)
    }

    /// Writes one.
    pub fn put(&self, at: usize, word: u64) {
        self.word(at).store(word, Ordering::Release);
    }

    /// The word of 4 bytes at an address: a register's.
    pub fn register(&self, at: usize) -> &AtomicU32 {
        assert!(at % 4 == 0 && at + 4 <= self.size);
        // SAFETY: as for the words of 8 bytes.
        unsafe { &*self.at.as_ptr().add(at).cast() }
    }

    /// So many bytes from an address on.
    pub fn read(&self, at: usize, count: usize) -> Vec<u8> {
        fence(Ordering::Acquire);
        let cells = &self.bytes()[at..at + count];
        cells
            .iter()
            .map(|cell| cell.load(Ordering::Relaxed))
            .collect()
    }

    /// Writes bytes from an address on.
    pub fn write(&self, at: usize, bytes: &[u8]) {
        for (cell, byte) in self.bytes()[at..].iter().zip(bytes) {
            cell.store(*byte, Ordering::Relaxed);
        }
        fence(Ordering::Release);
    }
}

/// The seals of a file.
pub fn seals(file: impl AsFd) -> libc::c_int {
    // SAFETY: the call takes numbers alone, and the file is open as long as it is borrowed.
    unsafe { libc::fcntl(file.as_fd().as_raw_fd(), libc::F_GET_SEALS) }
}

/// An eventfd, whose reads wait.
pub fn eventfd() -> OwnedFd {
    // SAFETY: the call takes numbers alone.
    let file = unsafe { libc::eventfd(0, libc::EFD_CLOEXEC) };
    assert!(file >= 0, "eventfd: {}", io::Error::last_os_error());
    // SAFETY: the call has just opened this file, and nobody else has it.
    unsafe { OwnedFd::from_raw_fd(file) }
}

/// Has reads and writes of a file wait, whoever makes them.
pub fn set_waiting(file: impl AsFd) {
    // SAFETY: the call takes numbers alone, and the file is open as long as it is borrowed.
    let answer = unsafe { libc::fcntl(file.as_fd().as_raw_fd(), libc::F_SETFL, libc::O_RDWR) };
    assert_eq!(answer, 0, "F_SETFL: {}", io::Error::last_os_error());
}

/// Whether a file can be read within so many milliseconds.
pub fn is_readable(file: impl AsFd, milliseconds: i32) -> bool {
    let mut asked = libc::pollfd {
        fd: file.as_fd().as_raw_fd(),
        events: libc::POLLIN,
        revents: 0,
    };
    // SAFETY: the pointer leads to one live value, and the count says so.
    unsafe { libc::poll(&mut asked, 1, milliseconds) == 1 }
}

/// Sends bytes with files beside them, all at once.
pub fn send(socket: &UnixStream, bytes: &[u8], files: &[BorrowedFd<'_>]) -> io::Result<()> {
    let mut control = [0u64; 32];
    let mut part = libc::iovec {
        iov_base: bytes.as_ptr().cast_mut().cast(),
        iov_len: bytes.len(),
    };
    let length = std::mem::size_of_val(files) as u32;
    // SAFETY: all zeros is a value of each field, pointers of which may be null.
    let mut header: libc::msghdr = unsafe { std::mem::zeroed() };
    header.msg_iov = &mut part;
    header.msg_iovlen = 1;
    if !files.is_empty() {
        header.msg_control = control.as_mut_ptr().cast();
        // SAFETY: the macro computes with a number alone.
        header.msg_controllen = unsafe { libc::CMSG_SPACE(length) } as usize;
        assert!(header.msg_controllen <= std::mem::size_of_val(&control));
        // SAFETY: the header leads to room for one control message of that length, which is aligned as it wants.
        unsafe {
            let message = libc::CMSG_FIRSTHDR(&header);
            (*message).cmsg_level = libc::SOL_SOCKET;
            (*message).cmsg_type = libc::SCM_RIGHTS;
            (*message).cmsg_len = libc::CMSG_LEN(length) as usize;
            let first = libc::CMSG_DATA(message).cast::<RawFd>();
            for (place, file) in files.iter().enumerate() {
                first.add(place).write_unaligned(file.as_raw_fd());
            }
        }
    }
    // SAFETY: the header leads to the bytes and to the control words, each with its length, and the call only reads them.
    let sent = unsafe { libc::sendmsg(socket.as_raw_fd(), &header, libc::MSG_NOSIGNAL) };
    match usize::try_from(sent) {
        Ok(count) if count == bytes.len() => Ok(()),
        Ok(_) => Err(io::ErrorKind::WriteZero.into()),
        Err(_) => Err(io::Error::last_os_error()),
    }
}

/// This thread, and the programs that it starts, get a network of their own, where that is allowed.
pub fn leave_network() -> bool {
    // SAFETY: the call takes a number alone, and concerns this thread.
    unsafe { libc::unshare(libc::CLONE_NEWNET) == 0 }
}

/// Sends a signal to a process of ours.
pub fn kill(process: u32, signal: libc::c_int) {
    // SAFETY: the call takes numbers alone; the process is a child that wasn't waited for.
    let answer = unsafe { libc::kill(process as libc::pid_t, signal) };
    assert_eq!(answer, 0, "kill: {}", io::Error::last_os_error());
}
