//! A page of memory that a client has too, and writes as it likes.

use super::checked;
use super::mapping::Mapping;
use std::fs::File;
use std::io;
use std::mem::size_of;
use std::os::fd::{AsFd, AsRawFd, FromRawFd, OwnedFd};
use std::sync::atomic::{AtomicU32, Ordering};
use std::sync::Arc;

/// How many bytes a page has.
pub const PAGE: u64 = 4096;
/// How many words of 32 bits that is.
pub const PAGE_WORDS: usize = PAGE as usize / size_of::<u32>();

/// The last page of a file, which is mapped here as long as this value is there. Whoever has the file writes it at any time.
#[derive(Debug)]
pub struct SharedPage {
    file: Arc<OwnedFd>,
    mapping: Mapping,
}

impl SharedPage {
    /// A page of zeros, behind so many bytes of its file that nobody needs. The file can become neither shorter nor longer, whoever has it.
    pub fn new(offset: u64) -> io::Result<SharedPage> {
        let flags = libc::MFD_CLOEXEC | libc::MFD_ALLOW_SEALING;
        // SAFETY: the name is a text with its zero, and the call keeps no pointer.
        let file = checked(unsafe { libc::memfd_create(b"vfdev-page\0".as_ptr().cast(), flags) })?;
        // SAFETY: the call has just opened this file, and nobody else has it.
        let file = File::from(unsafe { OwnedFd::from_raw_fd(file) });
        file.set_len(offset + PAGE)?;
        let seals = libc::F_SEAL_SHRINK | libc::F_SEAL_GROW | libc::F_SEAL_SEAL;
        // SAFETY: the call takes numbers alone, and the file is open.
        checked(unsafe { libc::fcntl(file.as_raw_fd(), libc::F_ADD_SEALS, seals) })?;
        let mapping = Mapping::new(file.as_fd(), offset, PAGE as usize, false)?;
        Ok(SharedPage {
            file: Arc::new(file.into()),
            mapping,
        })
    }

    /// The file, for the client.
    #[must_use]
    pub fn file(&self) -> Arc<OwnedFd> {
        Arc::clone(&self.file)
    }

    fn words(&self) -> &[AtomicU32; PAGE_WORDS] {
        // SAFETY: so many bytes are mapped as long as this value is there, of a file that can't become shorter, and a page is aligned for
        // any word. All who reach them here do so by atomic accesses.
        unsafe { self.mapping.block().cast().as_ref() }
    }

    /// The word of that place. What the client wrote before it is seen by later reads.
    ///
    /// ```
    /// use vfdev_server::os::SharedPage;
    /// let page = SharedPage::new(0x2000)?;
    /// page.write(1023, 7);
    /// assert!(!page.replace(1023, 8, 9) && page.replace(1023, 7, 9));
    /// assert_eq!((page.read(1023), page.read(0)), (9, 0));
    /// # Ok::<(), std::io::Error>(())
    /// ```
    #[must_use]
    pub fn read(&self, place: usize) -> u32 {
        self.words()[place].load(Ordering::Acquire)
    }

    /// Writes it, whatever the client has written.
    pub fn write(&self, place: usize, word: u32) {
        self.words()[place].store(word, Ordering::Release);
    }

    /// Writes it where it is still the word that was seen. False: the client has written meanwhile, and its word stays.
    pub fn replace(&self, place: usize, seen: u32, word: u32) -> bool {
        let (set, seen_again) = (Ordering::AcqRel, Ordering::Acquire);
        self.words()[place]
            .compare_exchange(seen, word, set, seen_again)
            .is_ok()
    }
}
