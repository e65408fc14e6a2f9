//! Memories of guests that a device holds itself.

use crate::Fault;
use std::fmt;
use std::ptr::NonNull;

/// A block of a guest's memory with what keeps it mapped: what [`Guests::plug`](crate::Guests::plug) takes.
///
/// # Safety
/// Who implements it answers for this, from [`Guests::plug`](crate::Guests::plug) on until the value is dropped or handed back, wherever it is
/// moved meanwhile:
///
/// - The block stays mapped to be read, and where it isn't read-only also to be written.
/// - While a call of the device runs, only raw pointers and atomics lead to it in this process, and who reads or writes it by them does so by
///   volatile or atomic accesses. Guests, and other processes, may write it at any time.
/// - Where the block shows bytes of a file that other maps may show too, `file` says which.
pub unsafe trait MappedMemory: Send {
    /// Where the block is in this process, and how many bytes it has.
    fn block(&self) -> NonNull<[u8]>;

    /// Whether the device's writes to it are to be dropped.
    fn is_read_only(&self) -> bool {
        false
    }

    /// Which bytes of which file it shows, where it shows some.
    fn file(&self) -> Option<FileRange> {
        None
    }
}

/// So many bytes of a file.
///
/// ```
/// use vfdev::FileRange;
/// let page = |from| FileRange { device: 1, inode: 7, from, len: 4096 };
/// assert!(page(0).meets(&page(4095)));
/// assert!(!page(0).meets(&page(4096)));
/// assert!(!page(0).meets(&FileRange { inode: 8, ..page(0) }));
/// assert!(!page(0).meets(&FileRange { len: 0, ..page(1) }));
/// let last = FileRange { len: 1, ..page(u64::MAX) };
/// assert!(last.meets(&last));
/// ```
#[derive(Clone, Copy, Debug, PartialEq, Eq)]
pub struct FileRange {
    /// The device that the file is on: `st_dev` of `fstat`.
    pub device: u64,
    /// The file's number there: `st_ino`.
    pub inode: u64,
    /// Where the bytes begin in the file.
    pub from: u64,
    /// How many they are.
    pub len: u64,
}

impl FileRange {
    /// Whether a byte of the file is in both.
    #[must_use]
    pub fn meets(&self, other: &FileRange) -> bool {
        (self.device, self.inode) == (other.device, other.inode)
            && self.len > 0
            && other.len > 0
            && self.from <= other.last()
            && other.from <= self.last()
    }

    // The last byte, where there is one.
    fn last(&self) -> u64 {
        self.from.saturating_add(self.len - 1)
    }
}

/// A memory that was not plugged, and why. It is the caller's again.
pub struct NotPlugged {
    /// Why.
    pub fault: Fault,
    /// The memory.
    pub memory: Box<dyn MappedMemory>,
}

impl fmt::Debug for NotPlugged {
    fn fmt(&self, to: &mut fmt::Formatter<'_>) -> fmt::Result {
        to.debug_struct("NotPlugged")
            .field("fault", &self.fault)
            .finish_non_exhaustive()
    }
}

impl fmt::Display for NotPlugged {
    fn fmt(&self, to: &mut fmt::Formatter<'_>) -> fmt::Result {
        self.fault.fmt(to)
    }
}

impl std::error::Error for NotPlugged {}

impl From<NotPlugged> for Fault {
    fn from(refused: NotPlugged) -> Fault {
        refused.fault
    }
}

#[cfg(test)]
mod tests {
    use super::*;

    #[test]
    fn ranges_of_files_meet() {
        // (from, len) of both, and whether they have a byte in common
        for (one, two, meet) in [
            ((0, 4), (4, 4), false),
            ((0, 5), (4, 4), true),
            ((0, 8), (4, 4), true),
            ((4, 4), (4, 4), true),
            ((4, 4), (3, 6), true),
            ((4, 0), (0, 8), false),
            ((4, 0), (4, 0), false),
            ((0, u64::MAX), (7, 1), true),
            ((u64::MAX, 1), (u64::MAX, 1), true),
            ((1, u64::MAX), (u64::MAX, 1), true),
            ((8, u64::MAX), (0, 8), false),
        ] {
            let of = |(from, len), inode| FileRange {
                device: 1,
                inode,
                from,
                len,
            };
            assert_eq!(of(one, 7).meets(&of(two, 7)), meet, "{one:?} {two:?}");
            assert_eq!(of(two, 7).meets(&of(one, 7)), meet, "{two:?} {one:?}");
            assert!(!of(one, 7).meets(&of(two, 8)), "{one:?} {two:?}");
        }
    }
}
