//! The calls of a device that issue no messages.

use crate::counts::Counts;
use crate::device::Device;
use crate::kinds::{Fault, Replayed};
use crate::regs;

/// A device, for the calls that issue no messages: [`SharedDevice::with`](crate::SharedDevice::with) lends it. Calls that may
/// issue messages aren't here, so that no message is lost.
///
/// Each method does what the method of the same name of [`Device`] does, and is refused as that one is.
#[derive(Debug)]
pub struct Quiet<'a, 'm> {
    device: &'a mut Device<'m>,
    // the functions that a write of PFVFTE permitted to transmit, one bit each
    permitted: &'a mut u64,
}

impl<'a, 'm> Quiet<'a, 'm> {
    pub(crate) fn of(device: &'a mut Device<'m>, permitted: &'a mut u64) -> Self {
        Quiet { device, permitted }
    }

    /// Opens a function: its registers become initial, and its memory zero.
    ///
    /// # Errors
    /// As [`Device::open`].
    pub fn open(&mut self, function: u8) -> Result<(), Fault> {
        self.device.open(function)
    }

    /// Closes a function.
    ///
    /// # Errors
    /// As [`Device::end`].
    pub fn end(&mut self, function: u8) -> Result<(), Fault> {
        self.device.end(function)
    }

    /// Function-level reset: the registers become initial, and the memory stays.
    ///
    /// # Errors
    /// As [`Device::flr`].
    pub fn flr(&mut self, function: u8) -> Result<(), Fault> {
        self.device.flr(function)
    }

    /// Reads a register of a function, at an offset in bytes.
    ///
    /// # Errors
    /// As [`Device::vf_read`].
    pub fn vf_read(&mut self, function: u8, offset: u32) -> Result<u32, Fault> {
        self.device.vf_read(function, offset)
    }

    /// Fills `out` with bytes of a function's memory, from the address `at` on; where it is refused, `out` stays.
    ///
    /// # Errors
    /// As [`Device::mem_read`].
    pub fn mem_read(&mut self, function: u8, at: u64, out: &mut [u8]) -> Result<(), Fault> {
        self.device.mem_read(function, at, out)
    }

    /// Writes bytes of a function's memory, from the address `at` on.
    ///
    /// # Errors
    /// As [`Device::mem_write`].
    pub fn mem_write(&mut self, function: u8, at: u64, source: &[u8]) -> Result<(), Fault> {
        self.device.mem_write(function, at, source)
    }

    /// Reads a register of the physical function, at an offset in bytes.
    ///
    /// # Errors
    /// As [`Device::pf_read`].
    pub fn pf_read(&mut self, offset: u32) -> Result<u32, Fault> {
        self.device.pf_read(offset)
    }

    /// Writes a register of the physical function.
    ///
    /// # Errors
    /// As [`Device::pf_write`].
    pub fn pf_write(&mut self, offset: u32, word: u32) -> Result<(), Fault> {
        self.device.pf_write(offset, word)?;
        for half in 0..2 {
            if offset == regs::pfvfte(half) {
                *self.permitted |= u64::from(word) << (32 * half);
            }
        }
        Ok(())
    }

    /// Resets the device: every function is closed and every setting initial.
    ///
    /// # Errors
    /// As [`Device::pf_reset`].
    pub fn pf_reset(&mut self) -> Result<(), Fault> {
        self.device.pf_reset()
    }

    /// What a function has counted: [`Device::counts`].
    ///
    /// # Errors
    /// As [`Device::counts`].
    pub fn counts(&mut self, function: u8) -> Result<Counts, Fault> {
        self.device.counts(function)
    }

    /// How many frames from the wire nobody got: [`Device::unclaimed`].
    #[must_use]
    pub fn unclaimed(&mut self) -> u32 {
        self.device.unclaimed()
    }

    /// How many calls are recorded; 0 of a device that records none.
    pub fn kept(&mut self) -> usize {
        self.device.kept()
    }

    /// Replays the recording on another device, and tells whether it gives each recorded answer: [`Device::replay`]. The other
    /// device belongs to the caller. Its messages are compared, and aren't passed on.
    pub fn replay(&mut self, other: &mut Device<'_>) -> Replayed {
        self.device.replay(other)
    }
}
