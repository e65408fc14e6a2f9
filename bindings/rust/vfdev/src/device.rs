//! A device over the archive.

use crate::counts::Counts;
use crate::kinds::{Fault, Messages, Queue, Replayed, Served, MOST_FRAME};
use crate::raw;
use std::ptr::NonNull;

/// A device. Calls take `&mut self`, so that one is made at a time; [`SharedDevice`](crate::SharedDevice) has a lock.
///
/// A function is named by a number from 0 to 255; one that the device does not have is refused. The calls of a device of
/// [`Device::recorded`] are recorded. Once the recording is full, each event is refused as [`Fault::HistoryFull`].
///
/// ```
/// use vfdev::{regs, Device, Fault};
/// let mut device = Device::new(2, 65536, 1518)?;
/// device.open(0)?;
/// assert_eq!(device.vf_read(0, regs::VFLINKS)?, 0x7000_0000);
/// assert_eq!(device.vf_read(1, regs::VFLINKS), Err(Fault::NotOpen));
/// # Ok::<(), Fault>(())
/// ```
#[derive(Debug)]
pub struct Device<'m> {
    pub(crate) handle: raw::Vfdev,
    // the blocks that the device may write until it is dropped
    lent: std::marker::PhantomData<&'m mut [u8]>,
}

// SAFETY: what the handle leads to holds nothing of a thread's own, which is proved of its type in the archive, and calls
// are ordered by `&mut self`.
unsafe impl Send for Device<'_> {}

impl Drop for Device<'_> {
    fn drop(&mut self) {
        // SAFETY: the handle is one that the makers filled or left empty, and nothing else holds it.
        unsafe { raw::vfdev_free(&mut self.handle) }
    }
}

impl Device<'static> {
    /// A device of closed functions over zero memories of the archive's own.
    ///
    /// # Errors
    /// [`Fault::BadMake`] outside 1 to 64 functions, memories of 4096 to 16777216 bytes that are a multiple of 128, frames
    /// of up to 1518 to 9018 bytes; [`Fault::NoMemory`] where the host refused.
    ///
    /// ```
    /// use vfdev::{Device, Fault};
    /// assert_eq!(Device::new(65, 4096, 1518).err(), Some(Fault::BadMake));
    /// ```
    pub fn new(functions: u32, memory: u64, limit: u16) -> Result<Device<'static>, Fault> {
        let mut device = Device::empty()?;
        // SAFETY: the handle is empty, and the reference leads to one live value.
        let answer = unsafe { raw::vfdev_make(&mut device.handle, functions, memory, limit) };
        made(answer).map(|()| device)
    }

    /// The same, with a recording: each event that the device is asked is recorded with its answer, from the first on, `calls` at
    /// most.
    ///
    /// # Errors
    /// As [`Device::new`]; [`Fault::BadMake`] also where `calls` is not 1 to 65536.
    ///
    /// ```
    /// use vfdev::{Device, Fault, Replayed};
    /// let mut device = Device::recorded(1, 4096, 1518, 3)?;
    /// device.open(0)?;
    /// device.mem_write(0, 8, &[1, 2])?;
    /// device.mem_read(0, 8, &mut [0; 2])?;
    /// assert_eq!(device.kept(), 3);
    /// assert_eq!(device.end(0), Err(Fault::HistoryFull));
    /// assert_eq!(device.replay(&mut Device::new(1, 4096, 1518)?), Replayed::Same);
    /// # Ok::<(), Fault>(())
    /// ```
    pub fn recorded(
        functions: u32,
        memory: u64,
        limit: u16,
        calls: u32,
    ) -> Result<Device<'static>, Fault> {
        let mut device = Device::empty()?;
        let handle = &mut device.handle;
        // SAFETY: the handle is empty, and the reference leads to one live value.
        let answer = unsafe { raw::vfdev_make_recorded(handle, functions, memory, limit, calls) };
        made(answer).map(|()| device)
    }

    /// A device of closed functions, each over one of the blocks, which its guest writes whenever it likes, also during a call. What a call
    /// reads of a block, it reads once, and it does what it would do had the guest written just those bytes right before it.
    ///
    /// # Errors
    /// [`Fault::Overlaps`] where two blocks have a byte in common; [`Fault::BadMake`] and [`Fault::NoMemory`] as [`Device::new`] has them.
    ///
    /// # Safety
    /// Each block is mapped, to be read and written, until the device is dropped. In this process only raw pointers and atomics lead to it,
    /// and who reads or writes it by them does so by volatile or atomic accesses.
    ///
    /// ```
    /// use std::{ptr::NonNull, sync::atomic::{AtomicU8, Ordering}};
    /// use vfdev::{Device, Fault};
    /// const ZERO: AtomicU8 = AtomicU8::new(0);
    /// static MEMORY: [AtomicU8; 4096] = [ZERO; 4096];
    /// let at = NonNull::from(&MEMORY).cast();
    /// // SAFETY: the block is there as long as the program runs, and all write it by atomic accesses.
    /// let mut device = unsafe { Device::over_guests(&[NonNull::slice_from_raw_parts(at, 4096)], 1518) }?;
    /// device.open(0)?;
    /// MEMORY[17].store(2, Ordering::Relaxed);
    /// let mut out = [0; 2];
    /// device.mem_read(0, 16, &mut out)?;
    /// assert_eq!(out, [0, 2]);
    /// # Ok::<(), Fault>(())
    /// ```
    pub unsafe fn over_guests(
        blocks: &[NonNull<[u8]>],
        limit: u16,
    ) -> Result<Device<'static>, Fault> {
        let mut device = Device::empty()?;
        for cells in blocks {
            // SAFETY: the caller answers for the blocks.
            unsafe { device.lend(*cells) }?;
        }
        device.make_lent(limit)
    }
}

impl<'m> Device<'m> {
    /// A device of closed functions, each over one of the blocks. Nobody else reaches the blocks while the device is there;
    /// [`open`](Device::open) writes zeros over the whole block of its function. Each block is a `&mut`, so no block can be given
    /// twice or overlap another, and no two functions share memory.
    ///
    /// ```compile_fail,E0499
    /// let mut memory = vec![0u8; 4096];
    /// let device = vfdev::Device::over(vec![&mut memory[..], &mut memory[..]], 1518);
    /// ```
    ///
    /// # Errors
    /// [`Fault::BadMake`] and [`Fault::NoMemory`] as [`Device::new`] has them.
    ///
    /// ```
    /// use vfdev::{Device, Fault};
    /// let mut memory = vec![7u8; 4096];
    /// let mut device = Device::over(vec![&mut memory[..]], 1518)?;
    /// device.open(0)?;
    /// device.mem_write(0, 16, &[1, 2])?;
    /// drop(device);
    /// assert_eq!(memory[15..18], [0, 1, 2]);
    /// # Ok::<(), Fault>(())
    /// ```
    pub fn over(blocks: Vec<&'m mut [u8]>, limit: u16) -> Result<Device<'m>, Fault> {
        let mut device = Device::empty()?;
        for cells in blocks {
            // SAFETY: the block leads to bytes that are borrowed for 'm, which outlives the device, and to nobody else.
            unsafe { device.lend(NonNull::from(cells)) }?;
        }
        device.make_lent(limit)
    }

    // Lends one more block.
    //
    // SAFETY: the block leads to mapped bytes until the device is dropped, which others may write by volatile or atomic accesses.
    unsafe fn lend(&mut self, cells: NonNull<[u8]>) -> Result<(), Fault> {
        let block = raw::Block {
            at: cells.as_ptr().cast(),
            len: cells.len(),
        };
        let address = block.at as u64;
        // SAFETY: the caller answers for the block, and the reference leads to one live value, which only this device holds.
        made(unsafe { raw::vfdev_lend_at(&mut self.handle, block, address) })
    }

    // Makes the device of the blocks that were lent.
    fn make_lent(mut self, limit: u16) -> Result<Device<'m>, Fault> {
        // SAFETY: the reference leads to one live value, which only this function holds.
        made(unsafe { raw::vfdev_make_lent(&mut self.handle, limit) })?;
        Ok(self)
    }

    pub(crate) fn empty() -> Result<Device<'m>, Fault> {
        // SAFETY: the function takes nothing and reads nothing.
        if unsafe { raw::vfdev_version() } != raw::VERSION {
            return Err(Fault::Version);
        }
        Ok(Device {
            handle: raw::Vfdev::NONE,
            lent: std::marker::PhantomData,
        })
    }

    /// Opens a function: its registers become initial, and its memory zero.
    ///
    /// # Errors
    /// [`Fault::NoSuchVf`], then [`Fault::AlreadyOpen`].
    pub fn open(&mut self, function: u8) -> Result<(), Fault> {
        // SAFETY: the reference leads to one live value, which only this device holds.
        done(unsafe { raw::vfdev_open(&mut self.handle, function) })
    }

    /// Closes a function.
    ///
    /// # Errors
    /// [`Fault::NoSuchVf`], then [`Fault::NotOpen`].
    pub fn end(&mut self, function: u8) -> Result<(), Fault> {
        // SAFETY: the reference leads to one live value, which only this device holds.
        done(unsafe { raw::vfdev_end(&mut self.handle, function) })
    }

    /// Function-level reset: the registers become initial, and the memory stays.
    ///
    /// # Errors
    /// [`Fault::NoSuchVf`], then [`Fault::NotOpen`].
    pub fn flr(&mut self, function: u8) -> Result<(), Fault> {
        // SAFETY: the reference leads to one live value, which only this device holds.
        done(unsafe { raw::vfdev_flr(&mut self.handle, function) })
    }

    /// Reads a register of a function, at an offset in bytes.
    ///
    /// # Errors
    /// [`Fault::NoSuchVf`], then [`Fault::NotOpen`], then [`Fault::BadOffset`].
    #[inline]
    pub fn vf_read(&mut self, function: u8, offset: u32) -> Result<u32, Fault> {
        // SAFETY: the reference leads to one live value, which only this device holds.
        value(unsafe { raw::vfdev_vf_read(&mut self.handle, function, offset) })
    }

    /// Writes a register of a function, and answers the messages that this issues. A write to the tail of a transmit queue
    /// doesn't serve the queue: call [`serve`](Device::serve) for that.
    ///
    /// # Errors
    /// As [`vf_read`](Device::vf_read).
    #[inline]
    pub fn vf_write(&mut self, function: u8, offset: u32, word: u32) -> Result<Messages, Fault> {
        let mut messages = Messages::NONE;
        let (at, len) = (messages.0.as_mut_ptr(), messages.0.len());
        // SAFETY: the pointer and the length are those of one live array, and the handle is this device's alone.
        done(unsafe { raw::vfdev_vf_write(&mut self.handle, function, offset, word, at, len) })?;
        Ok(messages)
    }

    /// Fills `out` with bytes of a function's memory, from the address `at` on. Where this is refused, `out` stays as it was.
    ///
    /// # Errors
    /// [`Fault::NoSuchVf`], [`Fault::NotOpen`], [`Fault::TooLong`], [`Fault::BadRange`].
    #[inline]
    pub fn mem_read(&mut self, function: u8, at: u64, out: &mut [u8]) -> Result<(), Fault> {
        let (start, len) = (out.as_mut_ptr(), out.len());
        // SAFETY: the pointer and the length are those of one live slice, and the handle is this device's alone.
        bytes(unsafe { raw::vfdev_mem_read(&mut self.handle, function, at, start, len) })
    }

    /// Writes bytes of a function's memory, from the address `at` on.
    ///
    /// # Errors
    /// [`Fault::TooLong`], [`Fault::NoSuchVf`], [`Fault::NotOpen`], [`Fault::BadRange`].
    #[inline]
    pub fn mem_write(&mut self, function: u8, at: u64, source: &[u8]) -> Result<(), Fault> {
        let (start, len) = (source.as_ptr(), source.len());
        // SAFETY: the pointer and the length are those of one live slice, and the handle is this device's alone.
        done(unsafe { raw::vfdev_mem_write(&mut self.handle, function, at, start, len) })
    }

    /// Takes the next descriptor of a transmit queue. A frame that leaves for the wire stands in the first bytes of `out`.
    ///
    /// # Errors
    /// [`Fault::NoSuchVf`], then [`Fault::NotOpen`].
    pub fn serve(
        &mut self,
        function: u8,
        queue: Queue,
        out: &mut [u8; MOST_FRAME],
    ) -> Result<(Served, Messages), Fault> {
        let mut left = 0;
        let mut messages = Messages::NONE;
        let (at, len) = (messages.0.as_mut_ptr(), messages.0.len());
        let (queue, start) = (u8::from(queue == Queue::Q1), out.as_mut_ptr());
        // SAFETY: each pointer and length are those of one live array, none overlaps another, and the handle is this
        // device's alone.
        let reply = unsafe {
            let handle = &mut self.handle;
            raw::vfdev_serve_frame(
                handle, function, queue, start, MOST_FRAME, &mut left, at, len,
            )
        };
        let served = match reply.kind {
            3 => Served::Idle,
            4 => Served::More,
            5 => Served::Sent((left > 0).then_some(left)),
            6 => Served::Dropped,
            7 => Served::Faulted,
            _ => return Err(refused(reply)),
        };
        Ok((served, messages))
    }

    /// Reads a register of the physical function, at an offset in bytes.
    ///
    /// # Errors
    /// [`Fault::BadOffset`].
    pub fn pf_read(&mut self, offset: u32) -> Result<u32, Fault> {
        // SAFETY: the reference leads to one live value, which only this device holds.
        value(unsafe { raw::vfdev_pf_read(&mut self.handle, offset) })
    }

    /// Writes a register of the physical function.
    ///
    /// # Errors
    /// [`Fault::BadOffset`].
    pub fn pf_write(&mut self, offset: u32, word: u32) -> Result<(), Fault> {
        // SAFETY: the reference leads to one live value, which only this device holds.
        done(unsafe { raw::vfdev_pf_write(&mut self.handle, offset, word) })
    }

    /// Resets the device: every function is closed and every setting initial.
    ///
    /// # Errors
    /// [`Fault::HistoryFull`] alone.
    pub fn pf_reset(&mut self) -> Result<(), Fault> {
        // SAFETY: the reference leads to one live value, which only this device holds.
        done(unsafe { raw::vfdev_pf_reset(&mut self.handle) })
    }

    /// A frame comes from the wire. Answers the messages that this issues.
    ///
    /// # Errors
    /// [`Fault::BadFrame`] where the bytes are no frame, or the frame is longer than the device takes.
    #[inline]
    pub fn wire(&mut self, frame: &[u8]) -> Result<Messages, Fault> {
        let mut messages = Messages::NONE;
        let (at, len) = (messages.0.as_mut_ptr(), messages.0.len());
        let (start, count) = (frame.as_ptr(), frame.len());
        // SAFETY: each pointer and length are those of one live slice, and the handle is this device's alone.
        done(unsafe { raw::vfdev_wire(&mut self.handle, start, count, at, len) })?;
        Ok(messages)
    }

    /// What a function has counted. Of a closed function all is 0 but [`unclaimed`](Counts::unclaimed). A recording has none of these calls.
    ///
    /// # Errors
    /// [`Fault::NoSuchVf`].
    pub fn counts(&mut self, function: u8) -> Result<Counts, Fault> {
        let mut counts = raw::FunctionCounts::default();
        // SAFETY: the references lead to two live values, the one of which only this device holds.
        done(unsafe { raw::vfdev_counts(&mut self.handle, function, &mut counts) })?;
        Ok(counts.into())
    }

    /// How many frames from the wire nobody got, modulo 2^32, since the device was made: no pool that may receive accepted them. Frames that
    /// [`wire`](Device::wire) refuses are not among them.
    #[must_use]
    pub fn unclaimed(&mut self) -> u32 {
        // SAFETY: the reference leads to one live value, which only this device holds.
        unsafe { raw::vfdev_unclaimed(&mut self.handle) }
    }

    /// How many calls are recorded; 0 of a device that records none.
    pub fn kept(&mut self) -> usize {
        // SAFETY: the reference leads to one live value, which only this device holds.
        unsafe { raw::vfdev_kept(&mut self.handle) }
    }

    /// Replays the recording on another device: gives it the recorded events in their order, and tells whether it gives each
    /// recorded answer, that is the reply with its bytes, and all messages. A device that [`Device::new`] just made, with as many
    /// functions, memories of the same size and the same limit, does, and is then as this one is. One over blocks that were lent is not
    /// asked: guests may write them meanwhile.
    ///
    /// ```
    /// use vfdev::{Device, Fault, Replayed};
    /// let mut device = Device::recorded(1, 4096, 1518, 8)?;
    /// device.open(0)?;
    /// let mut other = Device::new(1, 4096, 1518)?;
    /// other.open(0)?;
    /// assert_eq!(device.replay(&mut other), Replayed::Different);
    /// assert_eq!(other.replay(&mut device), Replayed::NotRecorded);
    /// # Ok::<(), Fault>(())
    /// ```
    pub fn replay(&mut self, other: &mut Device<'_>) -> Replayed {
        // SAFETY: the references lead to two live values, which only the two devices hold.
        match unsafe { raw::vfdev_replay(&mut self.handle, &mut other.handle) } {
            0 => Replayed::Same,
            1 => Replayed::Different,
            2 => Replayed::NotRecorded,
            _ => Replayed::NoOther,
        }
    }
}

// Why a call was refused.
#[cold]
fn refused(reply: raw::Reply) -> Fault {
    match reply.kind {
        12 => Fault::HistoryFull,
        _ => Fault::of(reply.value),
    }
}

pub(crate) fn made(answer: u32) -> Result<(), Fault> {
    match answer {
        0 => Ok(()),
        fault => Err(Fault::of(fault)),
    }
}

#[inline]
fn done(reply: raw::Reply) -> Result<(), Fault> {
    match reply.kind {
        0 => Ok(()),
        _ => Err(refused(reply)),
    }
}

#[inline]
fn value(reply: raw::Reply) -> Result<u32, Fault> {
    match reply.kind {
        1 => Ok(reply.value),
        _ => Err(refused(reply)),
    }
}

#[inline]
fn bytes(reply: raw::Reply) -> Result<(), Fault> {
    match reply.kind {
        2 => Ok(()),
        _ => Err(refused(reply)),
    }
}
