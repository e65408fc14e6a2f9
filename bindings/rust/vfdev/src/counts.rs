//! What a function has counted.

use crate::kinds::Queue;
use crate::raw;
use std::fmt;

/// Why a fault stopped a queue of a function.
#[derive(Clone, Copy, Debug, PartialEq, Eq)]
#[non_exhaustive]
pub enum QueueFault {
    /// Receive queue 0: a frame came, and the buffer of a descriptor that it needed passes the end of the guest's memory.
    ReceiveBuffer,
    /// A transmit queue: an advanced descriptor is neither a context nor a data descriptor (DTYP 2, 3).
    UnknownType(Queue),
    /// A transmit queue: a tag or segments are asked for (VLE, TSE), and the device was made without.
    NotOffered(Queue),
    /// A transmit queue: the bytes of a descriptor pass the end of the guest's memory.
    PastMemory(Queue),
    /// A number that this version does not know.
    Other(u32),
}

impl QueueFault {
    fn of(number: u32, queue: u32) -> Option<QueueFault> {
        let queue = match queue {
            0 => Queue::Q0,
            _ => Queue::Q1,
        };
        match number {
            0 => None,
            1 => Some(QueueFault::ReceiveBuffer),
            2 => Some(QueueFault::UnknownType(queue)),
            3 => Some(QueueFault::NotOffered(queue)),
            4 => Some(QueueFault::PastMemory(queue)),
            other => Some(QueueFault::Other(other)),
        }
    }

    /// The transmit queue that it stopped; `None` where it was the receive queue, or isn't known.
    #[must_use]
    pub fn queue(self) -> Option<Queue> {
        match self {
            QueueFault::UnknownType(queue)
            | QueueFault::NotOffered(queue)
            | QueueFault::PastMemory(queue) => Some(queue),
            QueueFault::ReceiveBuffer | QueueFault::Other(_) => None,
        }
    }
}

impl fmt::Display for QueueFault {
    fn fmt(&self, f: &mut fmt::Formatter<'_>) -> fmt::Result {
        f.write_str(match self {
            QueueFault::ReceiveBuffer => "a receive buffer past the memory",
            QueueFault::UnknownType(_) => "a descriptor of an unknown type",
            QueueFault::NotOffered(_) => "a tag or segments that are not offered",
            QueueFault::PastMemory(_) => "a transmit buffer past the memory",
            QueueFault::Other(number) => return write!(f, "queue fault {number}"),
        })
    }
}

/// What a function has counted. Each number is modulo 2^32. They begin at 0 when the function is opened or its guest comes, and with each reset
/// of the function or the device; [`unclaimed`](Counts::unclaimed) begins at 0 when the device is made, and goes on. A frame that comes to an open
/// function counts once: in `received`, in `no_room`, or in `faults`.
///
/// ```
/// use vfdev::{regs, Counts, Device, Fault};
/// let mut device = Device::new(1, 65536, 1518)?;
/// device.open(0)?;
/// // nobody accepts a broadcast yet; then pool 0 does, whose receive queue is off
/// assert!(device.wire(&[0xFF; 60])?.is_empty());
/// device.pf_write(regs::pfvfre(0), 1)?;
/// device.pf_write(regs::vmolr(0), regs::VMOLR_AUPE | regs::VMOLR_BAM)?;
/// assert!(device.wire(&[0xFF; 60])?.is_empty());
/// assert_eq!(device.unclaimed(), 1);
/// let Counts { received, no_room, last_fault, .. } = device.counts(0)?;
/// assert_eq!((received, no_room, last_fault), (0, 1, None));
/// # Ok::<(), Fault>(())
/// ```
#[derive(Clone, Copy, Debug, Default, PartialEq, Eq)]
pub struct Counts {
    /// Frames that were placed in its receive queue: what VFGPRC reads.
    pub received: u32,
    /// Its frames that passed the check of senders: what VFGPTC reads.
    pub sent: u32,
    /// Frames that came while its receive queue was off, or had too few descriptors or no size of buffers (SRRCTL).
    pub no_room: u32,
    /// Its frames that the check of senders refused, by their source or their VLAN (82599 datasheet, PFVFSPOOF).
    pub refused: u32,
    /// Its frames that nobody got: they left for no wire, and no pool that may receive accepted them.
    pub unclaimed: u32,
    /// How often a fault stopped a queue.
    pub faults: u32,
    /// What stopped a queue the last time; `None` where nothing did.
    pub last_fault: Option<QueueFault>,
    /// How often sums or segments that its driver left to the device could not be made.
    pub shortfalls: u32,
}

impl From<raw::FunctionCounts> for Counts {
    fn from(counts: raw::FunctionCounts) -> Counts {
        Counts {
            received: counts.received,
            sent: counts.sent,
            no_room: counts.no_room,
            refused: counts.refused,
            unclaimed: counts.unclaimed,
            faults: counts.faults,
            last_fault: QueueFault::of(counts.last_fault, counts.last_queue),
            shortfalls: counts.shortfalls,
        }
    }
}
