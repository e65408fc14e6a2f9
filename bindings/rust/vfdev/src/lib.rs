//! A model of the Intel 82599 in SR-IOV mode for hypervisors: safe types over the proved archive `libvfdev_c.a`.
//!
//! [`Device`] is the device. Each method gives it one event, and answers what came of it with the interrupt messages that it
//! issued. [`SharedDevice`] puts it behind a lock, with an [`Interrupt`] where its messages go and [`Frames`] where its
//! frames go; [`MmioBar`] is the register space of one virtual function. To a device of [`Guests`] guests come, and go, while it lives.
//! [`regs`] has the registers by name. [`card`] has a whole card, for guests whose QEMU attaches by vfio-user; [`page`] says what is to be
//! done about its transmit registers where they are memory that a guest writes.
//!
//! What a method does is what the archive's contracts say. That this crate passes the arguments as they are declared there
//! is read and tested, not proved; `docs/EMBEDDING.md` of the repository says more.
//!
//! ```
//! use vfdev::{regs, Device, Fault, Queue, Served, MOST_FRAME};
//!
//! let mut device = Device::new(1, 65536, 1518)?;
//! device.open(0)?;
//! // a frame of 60 bytes, and a descriptor for it
//! device.mem_write(0, 0x6000, &[2, 0, 0, 0, 0, 0x77, 2, 0, 0, 0, 0, 1, 8, 0])?;
//! device.mem_write(0, 0x2000, &0x6000u64.to_le_bytes())?;
//! let whole = regs::TXD_DEXT | regs::txd_dtyp(3) | regs::TXD_RS | regs::TXD_EOP | regs::txd_length(60);
//! device.mem_write(0, 0x2008, &whole.to_le_bytes())?;
//! device.pf_write(regs::pfvfte(0), 1)?; // the pool may transmit
//! for (offset, word) in [
//!     (regs::tdbal(0), 0x2000),
//!     (regs::tdlen(0), 128),
//!     (regs::txdctl(0), regs::TXDCTL_ENABLE),
//!     (regs::tdt(0), 1),
//! ] {
//!     assert!(device.vf_write(0, offset, word)?.is_empty());
//! }
//! let mut out = [0; MOST_FRAME];
//! let (served, messages) = device.serve(0, Queue::Q0, &mut out)?;
//! assert_eq!(served, Served::Sent(Some(60)));
//! assert!(messages.is_empty());
//! assert_eq!(out[..6], [2, 0, 0, 0, 0, 0x77]);
//! # Ok::<(), Fault>(())
//! ```
#![deny(
    clippy::undocumented_unsafe_blocks,
    missing_docs,
    unsafe_op_in_unsafe_fn
)]

pub mod card;
mod counts;
mod device;
mod guests;
mod kinds;
mod memory;
pub mod page;
mod quiet;
mod raw;
pub mod regs;
mod shared;

pub use counts::{Counts, QueueFault};
pub use device::Device;
pub use guests::{Burst, Guests, WireCount};
pub use kinds::{Fault, Messages, Pool, Queue, Replayed, Served, MOST_BYTES, MOST_FRAME, POOLS};
pub use memory::{FileRange, MappedMemory, NotPlugged};
pub use quiet::Quiet;
pub use shared::{Frames, Interrupt, MmioBar, SharedDevice, WeakDevice};
