//! Guests of a [`vfdev`] device whose memory is rust-vmm's: [`attach`] brings a guest with its [`GuestMemoryMmap`], and [`plug`] and
//! [`Guests::unmap`] are for memory that is plugged into it, and out of it, while it runs.
//!
//! ```
//! use vfdev::{card::Offloads, Fault, Guests};
//! use vm_memory::{Bytes, GuestAddress, GuestMemoryMmap};
//!
//! // 3 GiB below the hole and 2 GiB from 4 GiB on; no page of them is there before it is used
//! let ranges = [(GuestAddress(0), 3 << 30), (GuestAddress(4 << 30), 2 << 30)];
//! let memory: GuestMemoryMmap = GuestMemoryMmap::from_ranges(&ranges).unwrap();
//! let mut device = Guests::new(2, 1518, Offloads::ALL)?;
//! // SAFETY: nobody copies to or from the memory while a call of the device runs.
//! unsafe { vfdev_vm_memory::attach(&mut device, 0, &memory) }?;
//! device.mem_write(0, 5 << 30, b"there")?;
//! let mut seen = [0; 5];
//! memory.read_slice(&mut seen, GuestAddress(5 << 30)).unwrap();
//! assert_eq!(&seen, b"there");
//! // nobody else is given it
//! // SAFETY: as above.
//! assert_eq!(unsafe { vfdev_vm_memory::attach(&mut device, 1, &memory) }, Err(Fault::Anothers));
//! device.detach(0)?;
//! // SAFETY: as above.
//! unsafe { vfdev_vm_memory::attach(&mut device, 1, &memory) }?;
//! # Ok::<(), Fault>(())
//! ```
//!
//! A region stays mapped as long as the device has it, whoever else lets it go. One that was mapped without `PROT_WRITE` is read-only. Two maps
//! of one file are known by the file's device and inode, so a byte of a file is memory of one function. A file that becomes shorter while it is
//! mapped ends the process by SIGBUS where its bytes were: take a memfd that is sealed against shrinking (F_SEAL_SHRINK). What the
//! device writes is marked in no bitmap of dirty pages. Both functions here take memory of the allocator; the device's calls don't.
#![deny(
    clippy::undocumented_unsafe_blocks,
    missing_docs,
    unsafe_op_in_unsafe_fn
)]

use std::os::unix::fs::MetadataExt;
use std::ptr::NonNull;
use std::sync::Arc;
use vfdev::{Fault, FileRange, Guests, MappedMemory};
use vm_memory::{GuestMemory, GuestMemoryMmap, GuestMemoryRegion, GuestRegionMmap};

/// A guest comes to a vacant function, with all regions of its memory. No byte of them is written.
///
/// # Errors
/// As [`Guests::attach`], then as [`plug`] for the first region that is refused: then the function is vacant again.
///
/// # Safety
/// As [`plug`], of each region.
pub unsafe fn attach(
    device: &mut Guests,
    function: u8,
    memory: &GuestMemoryMmap,
) -> Result<(), Fault> {
    device.attach(function)?;
    let plugged = memory.iter().try_for_each(|region| {
        let region = held(memory, region)?;
        // SAFETY: the caller answers for each region.
        unsafe { plug(device, function, region) }
    });
    if plugged.is_err() {
        device.detach(function)?;
    }
    plugged
}

/// The region is memory of the function's guest, from its own address on, until [`Guests::unmap`] of this address, or until the guest goes.
///
/// # Errors
/// [`Fault::BadMake`] where the region was mapped without `PROT_READ`, or its file can't be asked for its number; else as [`Guests::plug`].
///
/// # Safety
/// As long as the device has the region, no other thread of this process reads or writes it, while a call of the device runs, but by volatile or
/// atomic accesses: vm-memory's own `load` and `store` are such, and so are its copies of up to 8 bytes. Longer ones (`read_slice`,
/// `write_slice` and the like) are plain copies, and have to wait. A guest's processors may write at any time.
pub unsafe fn plug(
    device: &mut Guests,
    function: u8,
    region: Arc<GuestRegionMmap>,
) -> Result<(), Fault> {
    let at = region.start_addr().0;
    device.plug(function, at, Box::new(Region::new(region)?))?;
    Ok(())
}

// One of a memory's regions, with a share of it.
fn held(memory: &GuestMemoryMmap, region: &GuestRegionMmap) -> Result<Arc<GuestRegionMmap>, Fault> {
    // (it goes out of a memory that is let go of at once: the guest's own keeps it)
    let (_, region) = memory
        .remove_region(region.start_addr(), region.len())
        .map_err(|_| Fault::BadMake)?;
    Ok(region)
}

// A region that may be read, and what is known of its file.
struct Region {
    region: Arc<GuestRegionMmap>,
    start: NonNull<u8>,
    file: Option<FileRange>,
}

// SAFETY: the pointer is the region's, which may go to another thread.
unsafe impl Send for Region {}

// SAFETY: the region stays mapped as long as somebody has a share of it, and this has one. It may be read, by `new`, and written unless it is
// read-only. For what others in this process do there meanwhile answers who plugs it. Which bytes of which file it shows is what it was
// mapped from.
unsafe impl MappedMemory for Region {
    fn block(&self) -> NonNull<[u8]> {
        NonNull::slice_from_raw_parts(self.start, self.region.size())
    }

    fn is_read_only(&self) -> bool {
        self.region.prot() & libc::PROT_WRITE == 0
    }

    fn file(&self) -> Option<FileRange> {
        self.file
    }
}

impl Region {
    fn new(region: Arc<GuestRegionMmap>) -> Result<Region, Fault> {
        if region.prot() & libc::PROT_READ == 0 {
            return Err(Fault::BadMake);
        }
        let start = NonNull::new(region.as_ptr()).ok_or(Fault::BadMake)?;
        let file = range_of(&region)?;
        Ok(Region {
            region,
            start,
            file,
        })
    }
}

// Which bytes of which file a region shows.
fn range_of(region: &GuestRegionMmap) -> Result<Option<FileRange>, Fault> {
    let Some(offset) = GuestMemoryRegion::file_offset(region) else {
        return Ok(None);
    };
    let file = offset.file().metadata().map_err(|_| Fault::BadMake)?;
    Ok(Some(FileRange {
        device: file.dev(),
        inode: file.ino(),
        from: offset.start(),
        len: region.len(),
    }))
}
