//! A range of a file that is mapped into this process.

use std::io;
use std::os::fd::{AsRawFd, BorrowedFd};
use std::ptr::NonNull;

/// A range of a file that is mapped, until it is dropped. Nothing here reads or writes it: others do so at any time.
#[derive(Debug)]
pub(super) struct Mapping {
    block: NonNull<[u8]>,
}

// SAFETY: nothing of a mapping belongs to a thread.
unsafe impl Send for Mapping {}

impl Mapping {
    /// Maps so many bytes of the file, shared with all who have it. Its pages stay out of core dumps, since they are a guest's.
    pub(super) fn new(
        file: BorrowedFd<'_>,
        offset: u64,
        size: usize,
        is_read_only: bool,
    ) -> io::Result<Mapping> {
        let offset = libc::off_t::try_from(offset).map_err(|_| out_of_range())?;
        let how = match is_read_only {
            true => libc::PROT_READ,
            false => libc::PROT_READ | libc::PROT_WRITE,
        };
        let (nowhere, number) = (std::ptr::null_mut(), file.as_raw_fd());
        // SAFETY: the kernel chooses the place, so nothing that is mapped is replaced; the file is open as long as it is borrowed.
        let at = unsafe { libc::mmap(nowhere, size, how, libc::MAP_SHARED, number, offset) };
        if at == libc::MAP_FAILED {
            return Err(io::Error::last_os_error());
        }
        let at: NonNull<u8> = NonNull::new(at.cast()).ok_or_else(out_of_range)?;
        let block = NonNull::slice_from_raw_parts(at, size);
        // SAFETY: the range is the one that was just mapped, and what is dumped of it changes no access. (It isn't worth a failure.)
        unsafe { libc::madvise(at.as_ptr().cast(), size, libc::MADV_DONTDUMP) };
        Ok(Mapping { block })
    }

    /// Where it is.
    pub(super) fn block(&self) -> NonNull<[u8]> {
        self.block
    }
}

impl Drop for Mapping {
    fn drop(&mut self) {
        // SAFETY: the range is the one that was mapped, and whoever handed its block to a card has taken it back before.
        unsafe { libc::munmap(self.block.as_ptr().cast(), self.block.len()) };
    }
}

fn out_of_range() -> io::Error {
    io::Error::new(io::ErrorKind::InvalidInput, "no such range of a file")
}
