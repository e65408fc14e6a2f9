//! A device to which guests come, and from which they go.

use crate::card::Offloads;
use crate::counts::Counts;
use crate::device::{made, Device};
use crate::kinds::{Fault, Messages, Queue, Served, MOST_FRAME};
use crate::memory::{FileRange, MappedMemory, NotPlugged};
use crate::raw;
use std::fmt;
use std::ptr::NonNull;

/// How many regions of a guest's memory are mapped at most.
const MOST_REGIONS: usize = 64;

/// What came of a burst of services.
#[derive(Clone, Copy, Debug, PartialEq, Eq)]
#[must_use = "frames may have left for the wire, and interrupts have to be delivered"]
pub struct Burst {
    /// How many services there were, with the one that ended it: which found nothing, faulted or was refused.
    pub taken: usize,
    /// How many frames left for the wire: [`Guests::frame`] has them until the next burst.
    pub frames: usize,
    /// The queue may have more.
    pub goes_on: bool,
    /// The messages of all services together.
    pub messages: Messages,
}

/// What came of frames from the wire that came in one call.
#[derive(Clone, Copy, Debug, PartialEq, Eq)]
pub struct WireCount {
    /// How many frames were taken.
    pub taken: usize,
    /// How many were refused: those that are longer than the limit, and what is no frame.
    pub refused: usize,
}

/// A device whose functions are vacant until a guest comes, for a hypervisor that emulates the PCI functions itself, and has guests that come
/// and go: its calls are those of a [`Device`], and those by which guests and their memories come and go. Calls take `&mut self`, so that one
/// is made at a time. No call takes memory but [`Guests::new`], and none blocks.
///
/// Where a guest comes or goes, or a block of its memory, no other function changes: neither its registers nor its memory nor its settings.
/// The settings that the physical function has for a pool stay when its guest goes.
///
/// ```
/// use std::{ptr::NonNull, sync::atomic::{AtomicU8, Ordering}};
/// use vfdev::{card::Offloads, regs, Fault, Guests};
/// const ZERO: AtomicU8 = AtomicU8::new(0);
/// static MEMORY: [AtomicU8; 8192] = [ZERO; 8192];
/// let block = |from: usize, len| NonNull::slice_from_raw_parts(NonNull::from(&MEMORY[from..]).cast(), len);
/// let mut device = Guests::new(2, 1518, Offloads::NONE)?;
/// assert_eq!(device.vf_read(0, regs::VFLINKS), Err(Fault::NotOpen));
/// device.attach(0)?;
/// device.attach(1)?;
/// // SAFETY: the bytes are there as long as the program runs, and all write them by atomic accesses.
/// unsafe {
///     device.map(0, 0x10_0000, block(0, 4096), false)?;
///     assert_eq!(device.map(1, 0, block(4095, 4096), false), Err(Fault::Anothers));
///     device.map(1, 0, block(4096, 4096), false)?;
/// }
/// device.mem_write(0, 0x10_0001, &[7])?;
/// assert_eq!(MEMORY[1].load(Ordering::Relaxed), 7);
/// device.detach(0)?;
/// assert_eq!(device.vf_read(1, regs::VFLINKS)?, 0x7000_0000);
/// # Ok::<(), Fault>(())
/// ```
#[derive(Debug)]
pub struct Guests {
    // (dropped before the memories are)
    device: Device<'static>,
    // room for as many as there may be was taken when the device was made
    plugged: Vec<Plugged>,
}

// A memory that the device holds, and where its function's guest has it.
struct Plugged {
    function: u8,
    at: u64,
    file: Option<FileRange>,
    memory: Box<dyn MappedMemory>,
}

impl fmt::Debug for Plugged {
    fn fmt(&self, to: &mut fmt::Formatter<'_>) -> fmt::Result {
        to.debug_struct("Plugged")
            .field("function", &self.function)
            .field("at", &self.at)
            .field("file", &self.file)
            .finish_non_exhaustive()
    }
}

impl Guests {
    /// A device of so many vacant functions, 1 to 64, that takes frames of up to `limit` bytes, 1518 to 9018, and does `offloads` for the
    /// drivers of its guests.
    ///
    /// # Errors
    /// [`Fault::BadMake`] where a number is outside its limits; [`Fault::NoMemory`] where the host refused.
    pub fn new(functions: u32, limit: u16, offloads: Offloads) -> Result<Guests, Fault> {
        let mut device = Device::empty()?;
        let (handle, flags) = (&mut device.handle, offloads.raw());
        // SAFETY: the handle is empty, and the reference leads to one live value.
        made(unsafe { raw::vfdev_make_guests(handle, functions, limit, flags) })?;
        let mut plugged = Vec::new();
        plugged
            .try_reserve_exact(functions as usize * MOST_REGIONS)
            .map_err(|_| Fault::NoMemory)?;
        Ok(Guests { device, plugged })
    }

    /// A guest comes to a vacant function, which is open then: no byte of its memory is mapped, and its registers are initial.
    ///
    /// # Errors
    /// [`Fault::NoSuchVf`], then [`Fault::AlreadyOpen`] where the function isn't vacant.
    pub fn attach(&mut self, function: u8) -> Result<(), Fault> {
        // SAFETY: the reference leads to one live value, which only this device holds.
        made(unsafe { raw::vfdev_attach(&mut self.device.handle, function) })
    }

    /// A guest goes, and its function is vacant: nothing of the guest is left for the next one, and the blocks that were mapped for it are the
    /// caller's again. Memories that were plugged for it are dropped.
    ///
    /// # Errors
    /// [`Fault::NoSuchVf`] where the number isn't below 64; [`Fault::NotOpen`] where the function is vacant, or there is none.
    pub fn detach(&mut self, function: u8) -> Result<(), Fault> {
        // SAFETY: the reference leads to one live value, which only this device holds.
        made(unsafe { raw::vfdev_detach(&mut self.device.handle, function) })?;
        self.plugged.retain(|region| region.function != function);
        Ok(())
    }

    /// The block is memory of the function's guest from the address `at` on. Its guest may read and write it at any time, and what a call
    /// reads of it, it reads once. Where it is read-only, the device's writes to it are dropped. An address that no region has reads as zero,
    /// and what is written there is dropped.
    ///
    /// Blocks are compared by their addresses and lengths in this process. Two maps of one file have different addresses: who maps files
    /// compares the files and their offsets, as [`plug`](Guests::plug) does.
    ///
    /// # Errors
    /// [`Fault::Anothers`] exactly where the block has a byte of one that is mapped for another function of this device; then
    /// [`Fault::NoSuchVf`]; [`Fault::BadMake`] where the function is vacant or the block is empty; [`Fault::PastEnd`]; [`Fault::Overlaps`]
    /// where a region has one of these guest addresses; [`Fault::TooMany`]. Then the block is not used.
    ///
    /// # Safety
    /// Until [`Guests::unmap`] of this address, [`Guests::detach`] of this function, or the end of the device, the block stays mapped to be
    /// read, and where it isn't `read_only` also to be written. In this process only raw pointers and atomics lead to it, and who reads or
    /// writes it by them does so by volatile or atomic accesses.
    pub unsafe fn map(
        &mut self,
        function: u8,
        at: u64,
        block: NonNull<[u8]>,
        read_only: bool,
    ) -> Result<(), Fault> {
        let handle = &mut self.device.handle;
        let block = raw::Block {
            at: block.as_ptr().cast(),
            len: block.len(),
        };
        let address = block.at as u64;
        // SAFETY: the caller answers for the block, and the reference leads to one live value, which only this device holds.
        made(unsafe { raw::vfdev_map_at(handle, function, at, block, address, read_only) })
    }

    /// The region that begins at the address is mapped no more: its block is the caller's again. A memory that was plugged there is dropped;
    /// [`unplug`](Guests::unplug) hands it back.
    ///
    /// # Errors
    /// [`Fault::NoSuchVf`]; [`Fault::BadMake`] where the function is vacant; [`Fault::NotThere`].
    pub fn unmap(&mut self, function: u8, at: u64) -> Result<(), Fault> {
        // SAFETY: the reference leads to one live value, which only this device holds.
        made(unsafe { raw::vfdev_unmap(&mut self.device.handle, function, at) })?;
        if let Some(place) = self.place_of(function, at) {
            self.plugged.swap_remove(place);
        }
        Ok(())
    }

    /// As [`map`](Guests::map) does, and the device keeps the memory until it is [unplugged](Guests::unplug), its guest goes, or the device is
    /// dropped. So no `unsafe` is needed here: it stands where the memory's type is made. Takes no memory.
    ///
    /// ```
    /// use std::{ptr::NonNull, sync::{atomic::{AtomicU8, Ordering}, Arc}};
    /// use vfdev::{card::Offloads, Fault, Guests, MappedMemory};
    /// struct Page(Arc<[AtomicU8; 4096]>);
    /// // SAFETY: the bytes stay where they are as long as somebody has them, and all write them by atomic accesses.
    /// unsafe impl MappedMemory for Page {
    ///     fn block(&self) -> NonNull<[u8]> {
    ///         NonNull::slice_from_raw_parts(NonNull::from(&*self.0).cast(), 4096)
    ///     }
    /// }
    /// const ZERO: AtomicU8 = AtomicU8::new(0);
    /// let page = Arc::new([ZERO; 4096]);
    /// let mut device = Guests::new(2, 1518, Offloads::NONE)?;
    /// device.attach(0)?;
    /// device.plug(0, 0x1000, Box::new(Page(page.clone())))?;
    /// device.mem_write(0, 0x1000, &[7])?;
    /// assert_eq!(page[0].load(Ordering::Relaxed), 7);
    /// let refused = device.plug(1, 0, Box::new(Page(page.clone()))).unwrap_err();
    /// assert_eq!(refused.fault, Fault::Anothers);
    /// drop(refused);
    /// assert_eq!(Arc::strong_count(&page), 2);
    /// device.detach(0)?;
    /// assert_eq!(Arc::strong_count(&page), 1);
    /// # Ok::<(), Fault>(())
    /// ```
    ///
    /// # Errors
    /// [`Fault::Anothers`] also where the memory shows a byte of a file that a memory which was plugged for another function shows; the others
    /// as [`map`](Guests::map) has them. The memory is handed back.
    pub fn plug(
        &mut self,
        function: u8,
        at: u64,
        memory: Box<dyn MappedMemory>,
    ) -> Result<(), NotPlugged> {
        let file = memory.file();
        let fault = if self.is_anothers(function, file) {
            Fault::Anothers
        } else {
            // SAFETY: the memory's type answers for its block as long as the memory is there, and it is kept until the region is mapped no
            // more: it is dropped behind the call that unmaps it, and behind the device.
            match unsafe { self.map(function, at, memory.block(), memory.is_read_only()) } {
                Ok(()) => {
                    self.plugged.push(Plugged {
                        function,
                        at,
                        file,
                        memory,
                    });
                    return Ok(());
                }
                Err(fault) => fault,
            }
        };
        Err(NotPlugged { fault, memory })
    }

    /// The memory that was plugged at the address is mapped no more, and is handed back.
    ///
    /// # Errors
    /// [`Fault::NotThere`] where none was plugged there for this function.
    pub fn unplug(&mut self, function: u8, at: u64) -> Result<Box<dyn MappedMemory>, Fault> {
        let place = self.place_of(function, at).ok_or(Fault::NotThere)?;
        // SAFETY: the reference leads to one live value, which only this device holds.
        made(unsafe { raw::vfdev_unmap(&mut self.device.handle, function, at) })?;
        Ok(self.plugged.swap_remove(place).memory)
    }

    // Whether a memory that was plugged for another function shows a byte of this part of a file.
    fn is_anothers(&self, function: u8, file: Option<FileRange>) -> bool {
        let others = self.plugged.iter().filter(|it| it.function != function);
        file.is_some_and(|range| {
            others
                .filter_map(|it| it.file)
                .any(|other| range.meets(&other))
        })
    }

    fn place_of(&self, function: u8, at: u64) -> Option<usize> {
        self.plugged
            .iter()
            .position(|region| (region.function, region.at) == (function, at))
    }

    /// Takes descriptors of a transmit queue one after another, `most` at most: what as many calls of [`serve`](Guests::serve) do, in one. It
    /// ends where the queue has no more, after `most` of them, or where there is no room for one more of the longest frames: there is room
    /// for 256, and for 262,144 bytes. Frames that left at a former burst are gone.
    pub fn serve_burst(&mut self, function: u8, queue: Queue, most: usize) -> Burst {
        let mut messages = Messages::NONE;
        let (handle, queue) = (&mut self.device.handle, u8::from(queue == Queue::Q1));
        // SAFETY: the references lead to two live values, the one of which only this device holds.
        let burst =
            unsafe { raw::vfdev_serve_burst(handle, function, queue, most, &mut messages.0) };
        Burst {
            taken: burst.taken,
            frames: burst.frames,
            goes_on: burst.goes_on != 0,
            messages,
        }
    }

    /// The frame of that number, of those that left for the wire at the last [`serve_burst`](Guests::serve_burst): its length, and its bytes
    /// at the front of `out`. `None` where there is no such frame, or `out` is shorter than it.
    pub fn frame(&mut self, number: u32, out: &mut [u8]) -> Option<usize> {
        let (at, len) = (out.as_mut_ptr(), out.len());
        // SAFETY: the pointer and the length are those of one live slice, and the handle is this device's alone.
        let length = unsafe { raw::vfdev_frame(&mut self.device.handle, number, at, len) };
        (length > 0).then_some(length)
    }

    /// Frames come from the wire one after another: what as many calls of [`wire`](Guests::wire) do, in one. They lie behind one another in
    /// `bytes`: the first begins at 0, each other where the one before it ends, and `ends` says where each ends. What [`wire`](Guests::wire)
    /// would refuse is passed over, and so is one whose end is before its beginning or past the bytes. Answers the messages of all of them
    /// together.
    ///
    /// ```
    /// use vfdev::{card::Offloads, Fault, Guests, WireCount};
    /// let mut device = Guests::new(1, 1518, Offloads::NONE)?;
    /// let bytes = [0xFF; 60 + 1519 + 60];
    /// let (count, messages) = device.wire_burst(&bytes, &[60, 60 + 1519, 60 + 1519 + 60]);
    /// assert_eq!(count, WireCount { taken: 2, refused: 1 });
    /// assert!(messages.is_empty());
    /// # Ok::<(), Fault>(())
    /// ```
    pub fn wire_burst(&mut self, bytes: &[u8], ends: &[usize]) -> (WireCount, Messages) {
        let mut messages = Messages::NONE;
        let (at, len) = (bytes.as_ptr(), bytes.len());
        let (ends_at, count) = (ends.as_ptr(), ends.len());
        // SAFETY: each pointer and length are those of one live slice or array, and the handle is this device's alone.
        let wired = unsafe {
            let handle = &mut self.device.handle;
            raw::vfdev_wire_burst(handle, at, len, ends_at, count, &mut messages.0)
        };
        let count = WireCount {
            taken: wired.taken,
            refused: wired.refused,
        };
        (count, messages)
    }

    /// Opens a function that was closed while its guest is there, as [`Device::open`] says: zeros are written over all that is mapped of its
    /// memory. [`attach`](Guests::attach) opens the function itself.
    ///
    /// # Errors
    /// As [`Device::open`].
    pub fn open(&mut self, function: u8) -> Result<(), Fault> {
        self.device.open(function)
    }

    /// Closes a function. Its guest's memory stays with it.
    ///
    /// # Errors
    /// As [`Device::end`].
    pub fn end(&mut self, function: u8) -> Result<(), Fault> {
        self.device.end(function)
    }

    /// Function-level reset: the registers become initial, and the memory stays.
    ///
    /// # Errors
    /// As [`Device::flr`].
    pub fn flr(&mut self, function: u8) -> Result<(), Fault> {
        self.device.flr(function)
    }

    /// Reads a register of a function, at an offset in bytes.
    ///
    /// # Errors
    /// As [`Device::vf_read`].
    #[inline]
    pub fn vf_read(&mut self, function: u8, offset: u32) -> Result<u32, Fault> {
        self.device.vf_read(function, offset)
    }

    /// Writes a register of a function, and answers the messages that this issues.
    ///
    /// # Errors
    /// As [`Device::vf_write`].
    #[inline]
    pub fn vf_write(&mut self, function: u8, offset: u32, word: u32) -> Result<Messages, Fault> {
        self.device.vf_write(function, offset, word)
    }

    /// Fills `out` with bytes of a function's memory, from the address `at` on; where it is refused, `out` stays.
    ///
    /// # Errors
    /// As [`Device::mem_read`].
    pub fn mem_read(&mut self, function: u8, at: u64, out: &mut [u8]) -> Result<(), Fault> {
        self.device.mem_read(function, at, out)
    }

    /// Writes bytes of a function's memory, from the address `at` on.
    ///
    /// # Errors
    /// As [`Device::mem_write`].
    pub fn mem_write(&mut self, function: u8, at: u64, source: &[u8]) -> Result<(), Fault> {
        self.device.mem_write(function, at, source)
    }

    /// Takes the next descriptor of a transmit queue, as [`Device::serve`] does.
    ///
    /// # Errors
    /// As [`Device::serve`].
    pub fn serve(
        &mut self,
        function: u8,
        queue: Queue,
        out: &mut [u8; MOST_FRAME],
    ) -> Result<(Served, Messages), Fault> {
        self.device.serve(function, queue, out)
    }

    /// Reads a register of the physical function, at an offset in bytes.
    ///
    /// # Errors
    /// As [`Device::pf_read`].
    pub fn pf_read(&mut self, offset: u32) -> Result<u32, Fault> {
        self.device.pf_read(offset)
    }

    /// Writes a register of the physical function.
    ///
    /// # Errors
    /// As [`Device::pf_write`].
    pub fn pf_write(&mut self, offset: u32, word: u32) -> Result<(), Fault> {
        self.device.pf_write(offset, word)
    }

    /// Resets the device: every function is closed and every setting initial. The guests' memories stay with their functions.
    ///
    /// # Errors
    /// None.
    pub fn pf_reset(&mut self) -> Result<(), Fault> {
        self.device.pf_reset()
    }

    /// What a function has counted, as [`Device::counts`] tells it. With the next guest it begins anew, but for
    /// [`unclaimed`](Counts::unclaimed).
    ///
    /// # Errors
    /// As [`Device::counts`].
    pub fn counts(&mut self, function: u8) -> Result<Counts, Fault> {
        self.device.counts(function)
    }

    /// How many frames from the wire nobody got, as [`Device::unclaimed`] tells it.
    #[must_use]
    pub fn unclaimed(&mut self) -> u32 {
        self.device.unclaimed()
    }

    /// A frame comes from the wire. Answers the messages that this issues.
    ///
    /// # Errors
    /// As [`Device::wire`].
    pub fn wire(&mut self, frame: &[u8]) -> Result<Messages, Fault> {
        self.device.wire(frame)
    }
}
