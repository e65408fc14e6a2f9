//! The small types of the interface.

use std::fmt;

/// How many pools there are, which is how many virtual functions a device may have.
pub const POOLS: u8 = 64;
/// How long a frame may be, in bytes.
pub const MOST_FRAME: usize = 9018;
/// How many bytes of a guest's memory one access names at most.
pub const MOST_BYTES: usize = 2048;

/// The number of a virtual function, which is also that of its pool: below 64.
///
/// ```
/// use vfdev::Pool;
/// assert_eq!(Pool::new(63).map(Pool::get), Some(63));
/// assert_eq!(Pool::new(64), None);
/// ```
#[derive(Clone, Copy, Debug, PartialEq, Eq, PartialOrd, Ord, Hash)]
pub struct Pool(u8);

impl Pool {
    /// The pool of that number, if it is below 64.
    #[must_use]
    pub const fn new(number: u8) -> Option<Pool> {
        if number < POOLS {
            Some(Pool(number))
        } else {
            None
        }
    }

    /// The number.
    #[must_use]
    pub const fn get(self) -> u8 {
        self.0
    }
}

/// Why a call was refused. The device is as it was.
///
/// ```
/// use vfdev::Fault;
/// assert_eq!(Fault::BadRange.number(), 4);
/// assert_eq!(Fault::BadRange.to_string(), "the range passes the end of the memory");
/// ```
#[derive(Clone, Copy, Debug, PartialEq, Eq)]
#[non_exhaustive]
pub enum Fault {
    /// The device has no virtual function of that number.
    NoSuchVf,
    /// The virtual function is closed.
    NotOpen,
    /// The register offset is no multiple of 4, or past the registers.
    BadOffset,
    /// The bytes pass the end of the guest's memory.
    BadRange,
    /// More than [`MOST_BYTES`] bytes.
    TooLong,
    /// The bytes are no frame, or the frame is longer than the device takes.
    BadFrame,
    /// The virtual function is open already.
    AlreadyOpen,
    /// The host refused memory.
    NoMemory,
    /// A size or a count is outside its limits.
    BadMake,
    /// A block overlaps one that was lent for the same device, or a region has one of these guest addresses. Blocks that are borrowed, as
    /// [`Device::over`](crate::Device::over) takes them, never do.
    Overlaps,
    /// As many regions as there may be are mapped for this guest already.
    TooMany,
    /// No region begins at that address.
    NotThere,
    /// The region passes the end of the guest's addresses.
    PastEnd,
    /// The block has a byte of one that is mapped for another function.
    Anothers,
    /// The recording of this device is full.
    HistoryFull,
    /// The archive has another version than this crate.
    Version,
    /// A number that this version does not know.
    Other(u32),
}

impl Fault {
    pub(crate) fn of(number: u32) -> Fault {
        match number {
            1 => Fault::NoSuchVf,
            2 => Fault::NotOpen,
            3 => Fault::BadOffset,
            4 => Fault::BadRange,
            5 => Fault::TooLong,
            6 => Fault::BadFrame,
            7 => Fault::AlreadyOpen,
            9 => Fault::NoMemory,
            10 => Fault::BadMake,
            13 => Fault::Overlaps,
            33 => Fault::TooMany,
            34 => Fault::NotThere,
            35 => Fault::PastEnd,
            36 => Fault::Anothers,
            other => Fault::Other(other),
        }
    }

    /// The number that scripts and replies show; 0 for [`Fault::Version`], and for [`Fault::HistoryFull`] that of its kind of
    /// reply.
    #[must_use]
    pub fn number(self) -> u32 {
        match self {
            Fault::NoSuchVf => 1,
            Fault::NotOpen => 2,
            Fault::BadOffset => 3,
            Fault::BadRange => 4,
            Fault::TooLong => 5,
            Fault::BadFrame => 6,
            Fault::AlreadyOpen => 7,
            Fault::NoMemory => 9,
            Fault::BadMake => 10,
            Fault::HistoryFull => 12,
            Fault::Overlaps => 13,
            Fault::TooMany => 33,
            Fault::NotThere => 34,
            Fault::PastEnd => 35,
            Fault::Anothers => 36,
            Fault::Version => 0,
            Fault::Other(number) => number,
        }
    }
}

impl fmt::Display for Fault {
    fn fmt(&self, f: &mut fmt::Formatter<'_>) -> fmt::Result {
        f.write_str(match self {
            Fault::NoSuchVf => "no such virtual function",
            Fault::NotOpen => "the virtual function is not open",
            Fault::BadOffset => "the register offset is not valid",
            Fault::BadRange => "the range passes the end of the memory",
            Fault::TooLong => "the access is longer than 2048 bytes",
            Fault::BadFrame => "the bytes are no frame",
            Fault::AlreadyOpen => "the virtual function is open already",
            Fault::NoMemory => "no memory",
            Fault::BadMake => "a size or a count is outside its limits",
            Fault::Overlaps => "the block overlaps one that was lent",
            Fault::TooMany => "64 regions are mapped already",
            Fault::NotThere => "no region begins at that address",
            Fault::PastEnd => "the region passes the end of the guest's addresses",
            Fault::Anothers => "the block has a byte of another function's memory",
            Fault::HistoryFull => "no more calls can be kept",
            Fault::Version => "the archive has another version than this crate",
            Fault::Other(number) => return write!(f, "fault {number}"),
        })
    }
}

impl std::error::Error for Fault {}

/// The interrupt messages that a call issued: for each pool a set of its vectors 0 to 2. Whoever drops them unlooked loses interrupts, so the
/// compiler warns.
///
/// ```compile_fail
/// #![deny(unused_must_use)]
/// # use vfdev::{Device, Fault};
/// fn lost(device: &mut Device) -> Result<(), Fault> {
///     device.wire(&[0; 60])?;
///     Ok(())
/// }
/// ```
#[derive(Clone, Copy, Debug, PartialEq, Eq)]
#[must_use = "these interrupts have to be delivered to their guests"]
pub struct Messages(pub(crate) [u8; POOLS as usize]);

impl Messages {
    /// None.
    pub const NONE: Messages = Messages([0; POOLS as usize]);

    /// The vectors of a pool: bit v for vector v.
    #[must_use]
    pub fn to(&self, pool: Pool) -> u8 {
        self.0[usize::from(pool.0)]
    }

    /// Whether there are none.
    #[must_use]
    pub fn is_empty(&self) -> bool {
        self.0 == [0; POOLS as usize]
    }

    /// Each pool that got any, with its vectors as [`Messages::to`] has them, in rising order.
    ///
    /// ```
    /// use vfdev::Messages;
    /// assert_eq!(Messages::NONE.iter().next(), None);
    /// ```
    pub fn iter(&self) -> impl Iterator<Item = (Pool, u8)> + '_ {
        (0..POOLS)
            .map(|p| (Pool(p), self.0[usize::from(p)]))
            .filter(|(_, vectors)| *vectors != 0)
    }
}

/// A transmit queue.
#[derive(Clone, Copy, Debug, PartialEq, Eq)]
pub enum Queue {
    /// Queue 0.
    Q0,
    /// Queue 1.
    Q1,
}

/// What came of a service of a transmit queue.
#[derive(Clone, Copy, Debug, PartialEq, Eq)]
#[must_use = "a frame may have left for the wire, and more descriptors may wait"]
pub enum Served {
    /// No descriptor was taken: the pool may not transmit, or the queue is off or empty.
    Idle,
    /// A descriptor was taken. Its frame continues in the next one, or it is a context descriptor.
    More,
    /// A frame was sent. `Some` is the length of the frame that left for the wire; `None` where it went to other functions alone.
    Sent(Option<usize>),
    /// A frame was dropped: it is overlong or no frame, or its pool's settings do not permit it.
    Dropped,
    /// The descriptor cannot be used, and the queue is off now.
    Faulted,
}

/// What a replay tells of another device.
#[derive(Clone, Copy, Debug, PartialEq, Eq)]
#[must_use = "the other device may have answered otherwise"]
pub enum Replayed {
    /// It gave the recorded answer to each recorded call.
    Same,
    /// It gave another answer to one of them.
    Different,
    /// The first device has no recording; the other was not asked.
    NotRecorded,
    /// The other device's own calls are recorded, or its memories were lent; it was not asked.
    NoOther,
}
