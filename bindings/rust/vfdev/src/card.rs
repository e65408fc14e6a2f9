//! A whole card for guests whose QEMU attaches by vfio-user: safe types over the archive `libvfdev_c.a`.
//!
//! A [`Card`] is the device together with its host, which alone writes the physical function's registers and answers the drivers'
//! mailboxes, and for each virtual function the end of the connection on which its client speaks. It knows no socket and no file. Around
//! it stands a shell, as the program `vfdev-server`, which reads whole messages, maps files and writes eventfds.
//!
//! For each message of a function's client a shell calls [`Card::receive`], does the [`Order`] of the [`Step`] where there is one, and
//! sends the reply. Then, in turn for each function, it calls [`Card::more`] while [`Card::is_busy`], sends the frames that left to the
//! wire, and writes the files of the vectors that [`Card::signal`] hands out.
//!
//! ```
//! use vfdev::card::{Card, CardFault, Offloads, Order, Policy, Step, Vlans, ROOM};
//!
//! let mut card = Card::new(1, &[0], None, 1518, Offloads::NONE)?;
//! card.admit(0, &Policy::new([2, 0, 0, 0, 0, 1], Vlans::Joins(1)))?;
//! card.attach(0)?;
//! // its client's first message: VERSION 0.0, beside which no file came
//! let message = [0, 0, 1, 0, 20, 0, 0, 0, 0, 0, 0, 0, 0, 0, 0, 0, 0, 0, 0, 0];
//! let mut room = [0; ROOM];
//! match card.receive(0, &message, 0, &mut room)? {
//!     Step::Answered { reply } => assert_eq!(room[..reply][2], 1), // a reply has the command of its message
//!     Step::Asks { .. } => unreachable!("a version asks for no file"),
//!     Step::Ends(breach) => panic!("{breach}"),
//! }
//! card.detach(0)?;
//! # Ok::<(), Box<dyn std::error::Error>>(())
//! ```

use crate::counts::Counts;
pub use crate::guests::WireCount;
use crate::kinds::Fault;
use crate::raw;
use std::fmt;
use std::ptr::NonNull;
use std::time::Duration;

/// The room for a reply, in bytes: the longest that there is.
pub const ROOM: usize = 4128;
/// The longest message that a client may send, in bytes, its header of [`HEADER`] bytes counted. A longer one ends its connection.
pub const MOST_MESSAGE: usize = 4128;
/// How long the header of a message is, in bytes. The size of the message, a number of 32 bits in the byte order of the machine, stands at
/// offset 4, and counts the header too.
pub const HEADER: usize = 16;
/// How many addresses a guest's memory has: 64 TiB.
pub const SPACE: u64 = 1 << 46;
/// How many regions of a guest's memory may be mapped at once.
pub const MOST_REGIONS: usize = 64;
/// How many vectors a function has.
pub const VECTORS: u32 = 3;
/// The page of BAR 0 that a client may be offered ([`Card::offer_area`]): how many bytes of BAR 0 stand in front of it.
pub const AREA: u64 = 0x2000;
/// How many bytes that page has.
pub const AREA_SIZE: u64 = 0x1000;
/// How many VLAN ids policies may name.
pub const MOST_IDS: usize = 64;

// No function, where one may be named.
const NOBODY: u8 = 255;

/// Why a call of a card was refused. Nothing has changed.
///
/// ```
/// use vfdev::{card::CardFault, Fault};
/// assert_eq!(CardFault::TooMany.to_string(), "64 regions are mapped already");
/// assert_eq!(CardFault::Device(Fault::Overlaps).to_string(), "the block overlaps one that was lent");
/// ```
#[derive(Clone, Copy, Debug, PartialEq, Eq)]
#[non_exhaustive]
pub enum CardFault {
    /// One of the faults of a device. [`Fault::BadMake`]: the function is vacant, a block is empty, or a number is outside its limits.
    Device(Fault),
    /// As many regions as there may be are mapped already.
    TooMany,
    /// No region begins at that address.
    NotThere,
    /// The region passes the end of the guest's addresses.
    PastEnd,
}

impl CardFault {
    fn of(number: u32) -> CardFault {
        match number {
            33 => CardFault::TooMany,
            34 => CardFault::NotThere,
            35 => CardFault::PastEnd,
            other => CardFault::Device(Fault::of(other)),
        }
    }
}

impl fmt::Display for CardFault {
    fn fmt(&self, f: &mut fmt::Formatter<'_>) -> fmt::Result {
        f.write_str(match self {
            CardFault::Device(fault) => return fault.fmt(f),
            CardFault::TooMany => "64 regions are mapped already",
            CardFault::NotThere => "no region begins at that address",
            CardFault::PastEnd => "the region passes the end of the guest's addresses",
        })
    }
}

impl std::error::Error for CardFault {}

/// What is to be done with a message of a client. Whoever drops it unlooked leaves a client without its reply, or a vector without its file.
#[derive(Clone, Copy, Debug, PartialEq, Eq)]
#[must_use = "the reply has to be sent, and the order to be done before"]
pub enum Step {
    /// Nothing more than to send the reply, which is so many bytes at the front of the room; 0 where the client wants none. The files that
    /// came are to be closed.
    Answered {
        /// How many bytes of the room are the reply.
        reply: usize,
    },
    /// The order is to be done, and then the reply to be sent. Where it can't be done, the connection is to be closed in place of it.
    Asks {
        /// What is to be done.
        order: Order,
        /// How many bytes of the room are the reply; 0 where the client wants none.
        reply: usize,
    },
    /// The connection is to be closed, and its guest detached.
    Ends(Breach),
}

/// What is left to the shell, which has the files.
#[derive(Clone, Copy, Debug, PartialEq, Eq)]
pub enum Order {
    /// The one file that came with the message is memory at the guest's addresses from `address` on.
    Map {
        /// The first guest address.
        address: u64,
        /// How many addresses there are, 1 at least. The last one is below 2^64.
        size: u64,
        /// How many bytes of the file stand in front of the memory.
        offset: u64,
        /// What the device may do with it.
        access: Access,
    },
    /// There is no memory at these guest addresses any more. That there was none is no error.
    Unmap {
        /// The first guest address.
        address: u64,
        /// How many addresses there are, 1 at least. The last one is below 2^64.
        size: u64,
    },
    /// The files that came with the message are those of these vectors, one for each in their order, in place of any that they have.
    Arm {
        /// The first vector.
        first: u32,
        /// How many, 1 at least: `first + count` is [`VECTORS`] at most.
        count: u32,
    },
    /// These vectors have no file any more.
    Disarm {
        /// The first vector.
        first: u32,
        /// How many, as for [`Order::Arm`].
        count: u32,
    },
}

/// What a device may do with memory.
#[derive(Clone, Copy, Debug, PartialEq, Eq)]
pub enum Access {
    /// Read it.
    Read,
    /// Write it.
    Write,
    /// Both.
    Both,
}

/// Why a connection ends: what its client did that the protocol doesn't allow.
///
/// ```
/// use vfdev::card::Breach;
/// assert_eq!(Breach::SecondVersion.to_string(), "a version is proposed a second time");
/// ```
#[derive(Clone, Copy, Debug, PartialEq, Eq)]
#[non_exhaustive]
pub enum Breach {
    /// No header can be made out.
    NoHeader,
    /// The message isn't as long as its header says.
    WrongSize,
    /// The first message proposes no version.
    NoVersion,
    /// The major version isn't 0.
    OtherVersion,
    /// A version is proposed a second time.
    SecondVersion,
    /// Files came with a version.
    StrayFiles,
    /// A number that this version does not know.
    Other(u32),
}

impl Breach {
    fn of(number: u32) -> Breach {
        match number {
            1 => Breach::NoHeader,
            2 => Breach::WrongSize,
            3 => Breach::NoVersion,
            4 => Breach::OtherVersion,
            5 => Breach::SecondVersion,
            6 => Breach::StrayFiles,
            other => Breach::Other(other),
        }
    }
}

impl fmt::Display for Breach {
    fn fmt(&self, f: &mut fmt::Formatter<'_>) -> fmt::Result {
        f.write_str(match self {
            Breach::NoHeader => "no header can be made out",
            Breach::WrongSize => "a message isn't as long as its header says",
            Breach::NoVersion => "the first message proposes no version",
            Breach::OtherVersion => "the major version isn't 0",
            Breach::SecondVersion => "a version is proposed a second time",
            Breach::StrayFiles => "files came with a version",
            Breach::Other(number) => return write!(f, "breach {number}"),
        })
    }
}

impl std::error::Error for Breach {}

/// What a card, or a device of [`Guests`](crate::Guests), does for the drivers of its guests beyond frames as they stand, fixed when it is made.
#[derive(Clone, Copy, Debug, Default, PartialEq, Eq)]
pub struct Offloads {
    /// It inserts the VLAN tag of a context descriptor where a data descriptor asks for it (VLE).
    pub vlan: bool,
    /// It makes the checksums that a data descriptor asks for (IXSM, TXSM).
    pub checksum: bool,
    /// It cuts the TCP data of a frame into segments where a data descriptor asks for it (TSE).
    pub segmentation: bool,
    /// It masks a vector by itself when it issues its message, where the driver asks for it (VTEIAM).
    pub auto_mask: bool,
    /// It takes legacy receive descriptors (SRRCTL.DESCTYPE 0).
    pub legacy_receive: bool,
    /// It keeps how far apart the driver wants the messages of each vector (VTEITR): [`Card::interval`] tells.
    pub throttle: bool,
    /// It says in the receive descriptor whether the checksums of a frame verify (IPCS, L4CS, IPE, L4E).
    pub receive_checksum: bool,
}

impl Offloads {
    /// None of it.
    pub const NONE: Offloads = Offloads {
        vlan: false,
        checksum: false,
        segmentation: false,
        auto_mask: false,
        legacy_receive: false,
        throttle: false,
        receive_checksum: false,
    };
    /// All of it.
    pub const ALL: Offloads = Offloads {
        vlan: true,
        checksum: true,
        segmentation: true,
        auto_mask: true,
        legacy_receive: true,
        throttle: true,
        receive_checksum: true,
    };

    pub(crate) fn raw(self) -> u32 {
        [
            (self.vlan, raw::OFFLOAD_VLAN),
            (self.checksum, raw::OFFLOAD_CHECKSUM),
            (self.segmentation, raw::OFFLOAD_SEGMENTATION),
            (self.auto_mask, raw::OFFLOAD_AUTO_MASK),
            (self.legacy_receive, raw::OFFLOAD_LEGACY_RECEIVE),
            (self.throttle, raw::OFFLOAD_THROTTLE),
            (self.receive_checksum, raw::OFFLOAD_RECEIVE_CHECKSUM),
        ]
        .into_iter()
        .filter_map(|(is_on, flag)| is_on.then_some(flag))
        .sum()
    }
}

/// The VLANs of a function, by the places of the ids that [`Card::new`] was given.
#[derive(Clone, Copy, Debug, PartialEq, Eq)]
pub enum Vlans {
    /// Those that its driver may join: bit k for place k of the ids.
    Joins(u64),
    /// One, at this place of the ids. The card inserts its tag into each frame that the function sends.
    Port(u8),
}

/// What the administrator grants a function.
#[derive(Clone, Copy, Debug, PartialEq, Eq)]
pub struct Policy {
    /// Its permanent address.
    pub address: [u8; 6],
    /// Its VLANs.
    pub vlans: Vlans,
    /// Its driver may choose another address, and one more.
    pub may_choose: bool,
    /// Its driver may ask for all multicast.
    pub all_multicast: bool,
    /// Its link is up. Where it isn't, its driver is told so, and it neither receives nor sends.
    pub link_up: bool,
}

impl Policy {
    /// A function with this address and these VLANs, whose link is up, and whose driver may ask for nothing else.
    #[must_use]
    pub const fn new(address: [u8; 6], vlans: Vlans) -> Policy {
        Policy {
            address,
            vlans,
            may_choose: false,
            all_multicast: false,
            link_up: true,
        }
    }

    fn raw(&self) -> raw::CardPolicy {
        let (has_port, port, joins) = match self.vlans {
            Vlans::Joins(places) => (false, 0, places),
            Vlans::Port(place) => (true, place, 0),
        };
        raw::CardPolicy {
            address: self.address,
            may_choose: self.may_choose.into(),
            all_multicast: self.all_multicast.into(),
            link_up: self.link_up.into(),
            has_port: has_port.into(),
            port,
            joins,
        }
    }
}

/// Why a policy is not taken. Nothing has changed.
///
/// ```
/// use vfdev::card::NotAdmitted;
/// assert_eq!(NotAdmitted::AddressOwned.to_string(), "the address is the permanent one of another function");
/// ```
#[derive(Clone, Copy, Debug, PartialEq, Eq)]
#[non_exhaustive]
pub enum NotAdmitted {
    /// Its address is not one station's: it is a group's, or 0.
    NotUnicast,
    /// Its address is the permanent one of another function.
    AddressOwned,
    /// The place of its port VLAN is none of the ids'.
    NoSuchPlace,
    /// The card has no such function.
    NoSuchVf,
    /// A number that this version does not know.
    Other(u32),
}

impl fmt::Display for NotAdmitted {
    fn fmt(&self, f: &mut fmt::Formatter<'_>) -> fmt::Result {
        f.write_str(match self {
            NotAdmitted::NotUnicast => "the address is a group's, or 0",
            NotAdmitted::AddressOwned => "the address is the permanent one of another function",
            NotAdmitted::NoSuchPlace => "the port VLAN is none of the ids",
            NotAdmitted::NoSuchVf => "no such virtual function",
            NotAdmitted::Other(number) => return write!(f, "refusal {number}"),
        })
    }
}

impl std::error::Error for NotAdmitted {}

/// What came of descriptors that were taken.
#[derive(Clone, Copy, Debug, PartialEq, Eq)]
#[must_use = "frames may have left for the wire"]
pub struct More {
    /// A queue may have more.
    pub goes_on: bool,
    /// How many frames left for the wire: [`Card::frame`] has them until the next call of [`Card::more`].
    pub frames: u32,
}

/// A card. Calls take `&mut self`, so that one is made at a time. A function is named by a number from 0 on; one that the card does not have
/// is refused. No call takes memory but [`Card::new`], and none blocks.
#[derive(Debug)]
pub struct Card {
    handle: raw::VfdevCard,
}

// SAFETY: what the handle leads to holds nothing of a thread's own, which is proved of its type in the archive, and calls are ordered by
// `&mut self`.
unsafe impl Send for Card {}

impl Drop for Card {
    fn drop(&mut self) {
        // SAFETY: the handle is one that the maker filled or left empty, and nothing else holds it.
        unsafe { raw::vfdev_card_free(&mut self.handle) }
    }
}

impl Card {
    /// A card of so many vacant functions. Policies may name the VLAN ids by their places. Frames that nobody accepts go to the default
    /// function, or are dropped where there is none, or the card doesn't have it. The offloads are those of each guest's driver.
    ///
    /// # Errors
    /// [`Fault::BadMake`] outside 1 to 64 functions, [`MOST_IDS`] ids of 0 to 4095, frames of up to 1518 to 9018 bytes, or where the
    /// default function is a number of 64 or more; [`Fault::NoMemory`] where the host refused memory.
    ///
    /// ```
    /// use vfdev::{card::{Card, CardFault, Offloads}, Fault};
    /// assert_eq!(Card::new(65, &[0], None, 1518, Offloads::NONE).err(), Some(CardFault::Device(Fault::BadMake)));
    /// ```
    pub fn new(
        functions: u32,
        ids: &[u16],
        default_function: Option<u8>,
        limit: u16,
        offloads: Offloads,
    ) -> Result<Card, CardFault> {
        // SAFETY: the function takes nothing and reads nothing.
        if unsafe { raw::vfdev_version() } != raw::VERSION {
            return Err(CardFault::Device(Fault::Version));
        }
        // (the number that means nobody can't be asked for)
        if default_function == Some(NOBODY) {
            return Err(CardFault::Device(Fault::BadMake));
        }
        let default_function = default_function.unwrap_or(NOBODY);
        let mut card = Card {
            handle: raw::VfdevCard::NONE,
        };
        let (at, len) = (ids.as_ptr(), ids.len());
        // SAFETY: the handle is empty and this function's alone, and the pointer and the length are those of one live slice.
        done(unsafe {
            raw::vfdev_card_make(
                &mut card.handle,
                functions,
                at,
                len,
                default_function,
                limit,
                offloads.raw(),
            )
        })?;
        Ok(card)
    }

    /// How many functions there are.
    pub fn functions(&mut self) -> u32 {
        // SAFETY: the reference leads to one live value, which only this card holds.
        unsafe { raw::vfdev_card_functions(&mut self.handle) }
    }

    /// A guest comes to a vacant function: no byte of its memory is mapped, its registers are initial, and its client has said nothing.
    ///
    /// # Errors
    /// [`Fault::NoSuchVf`], then [`Fault::AlreadyOpen`].
    pub fn attach(&mut self, function: u8) -> Result<(), CardFault> {
        // SAFETY: the reference leads to one live value, which only this card holds.
        done(unsafe { raw::vfdev_card_attach(&mut self.handle, function) })
    }

    /// A guest goes: nothing of it or of its client is left, and the blocks that were mapped are the caller's again.
    ///
    /// # Errors
    /// [`Fault::NoSuchVf`], then [`Fault::NotOpen`] where the function is vacant.
    pub fn detach(&mut self, function: u8) -> Result<(), CardFault> {
        // SAFETY: the reference leads to one live value, which only this card holds.
        done(unsafe { raw::vfdev_card_detach(&mut self.handle, function) })
    }

    /// Offers the function's client to map the page of its registers with those of the transmit queues: [`AREA_SIZE`] bytes of BAR 0 from
    /// [`AREA`] on. It is for a shell that keeps such a page: it calls this once the guest has come, before its client speaks. From then
    /// on the reply to DEVICE_GET_REGION_INFO of BAR 0 names the page, and a file of BAR 0 goes beside each such reply, and beside no other.
    /// The shell knows it by the reply: it has 48 bytes or more, its command, 2 bytes at offset 2, is 5, and its flags, 4 bytes at offset 20,
    /// have MMAP (4). What the guest writes into the page the card doesn't know: the shell hands it on.
    ///
    /// The offer goes with the guest, and with its client's connection. A reset leaves it.
    ///
    /// # Errors
    /// [`Fault::NoSuchVf`].
    ///
    /// ```
    /// use vfdev::card::{Card, CardFault, Offloads, Step, ROOM};
    /// let mut card = Card::new(1, &[0], None, 1518, Offloads::NONE)?;
    /// card.attach(0)?;
    /// card.offer_area(0)?;
    /// let mut room = [0; ROOM];
    /// // VERSION 0.0, and DEVICE_GET_REGION_INFO of BAR 0 with room for 64 bytes
    /// let (mut version, mut query) = ([0; 20], [0; 48]);
    /// version[..5].copy_from_slice(&[0, 0, 1, 0, 20]);
    /// query[..5].copy_from_slice(&[0, 0, 5, 0, 48]);
    /// query[16] = 64;
    /// card.receive(0, &version, 0, &mut room)?;
    /// assert_eq!(card.receive(0, &query, 0, &mut room)?, Step::Answered { reply: 80 });
    /// assert_eq!(room[20..24], [15, 0, 0, 0]); // READ, WRITE, MMAP and CAPS
    /// # Ok::<(), CardFault>(())
    /// ```
    pub fn offer_area(&mut self, function: u8) -> Result<(), CardFault> {
        // SAFETY: the reference leads to one live value, which only this card holds.
        done(unsafe { raw::vfdev_card_offer_area(&mut self.handle, function) })
    }

    /// The block is memory of the function's guest from the address `at` on. Its guest may read and write it at any time. Where it is
    /// read-only, the device's writes to it are dropped.
    ///
    /// # Errors
    /// [`Fault::NoSuchVf`]; [`Fault::BadMake`] where the function is vacant or the block is empty; [`CardFault::PastEnd`];
    /// [`Fault::Overlaps`] where a region has one of these guest addresses; [`CardFault::TooMany`]. Then the block is not used.
    ///
    /// # Safety
    /// Until [`Card::unmap`] of this address, [`Card::detach`] of this function, or the end of the card, the block stays mapped to be
    /// read, and where it isn't `read_only` also to be written. In this process only raw pointers and atomics lead to it, and who reads or
    /// writes it by them does so by volatile or atomic accesses.
    ///
    /// ```
    /// use std::{ptr::NonNull, sync::atomic::AtomicU8};
    /// use vfdev::{card::{Card, CardFault, Offloads}, Fault};
    /// const ZERO: AtomicU8 = AtomicU8::new(0);
    /// static MEMORY: [AtomicU8; 4096] = [ZERO; 4096];
    /// let mut card = Card::new(1, &[0], None, 1518, Offloads::NONE)?;
    /// card.attach(0)?;
    /// let block = NonNull::slice_from_raw_parts(NonNull::from(&MEMORY).cast(), 4096);
    /// // SAFETY: the block is there as long as the program runs, and nobody else reads or writes it.
    /// unsafe { card.map(0, 0x10_0000, block, false) }?;
    /// assert_eq!(card.unmap(0, 0), Err(CardFault::NotThere));
    /// card.unmap(0, 0x10_0000)?;
    /// # Ok::<(), CardFault>(())
    /// ```
    pub unsafe fn map(
        &mut self,
        function: u8,
        at: u64,
        block: NonNull<[u8]>,
        read_only: bool,
    ) -> Result<(), CardFault> {
        let block = raw::Block {
            at: block.as_ptr().cast(),
            len: block.len(),
        };
        // SAFETY: the caller answers for the block, and the reference leads to one live value, which only this card holds.
        done(unsafe { raw::vfdev_card_map(&mut self.handle, function, at, block, read_only) })
    }

    /// The region that begins at the address is mapped no more: its block is the caller's again.
    ///
    /// # Errors
    /// [`Fault::NoSuchVf`]; [`Fault::BadMake`] where the function is vacant; [`CardFault::NotThere`].
    pub fn unmap(&mut self, function: u8, at: u64) -> Result<(), CardFault> {
        // SAFETY: the reference leads to one live value, which only this card holds.
        done(unsafe { raw::vfdev_card_unmap(&mut self.handle, function, at) })
    }

    /// A whole message of a function's client, with the number of files that came beside it. Registers are read and written before the
    /// call returns. The reply is laid at the front of the room, and nothing behind it is written. No descriptor is taken:
    /// [`Card::more`] takes them.
    ///
    /// # Errors
    /// [`Fault::NoSuchVf`].
    pub fn receive(
        &mut self,
        function: u8,
        message: &[u8],
        files: usize,
        room: &mut [u8; ROOM],
    ) -> Result<Step, CardFault> {
        let mut step = raw::CardStep::default();
        let (at, len) = (message.as_ptr(), message.len());
        // SAFETY: each pointer and length are those of one live slice, none overlaps another, and the handle is this card's alone.
        unsafe {
            let handle = &mut self.handle;
            raw::vfdev_card_receive(handle, function, at, len, files, room, &mut step);
        }
        stepped(&step)
    }

    /// Takes descriptors of a function's busy transmit queues, and sends segments of frames that are cut: 128 services of each at most, of one
    /// descriptor or one segment.
    pub fn more(&mut self, function: u8) -> More {
        // SAFETY: the reference leads to one live value, which only this card holds.
        let more = unsafe { raw::vfdev_card_more(&mut self.handle, function) };
        More {
            goes_on: more.goes_on != 0,
            // at most two queues' descriptors
            frames: more.frames as u32,
        }
    }

    /// The frame of that number, of those that left for the wire at the last [`Card::more`]: its length, and its bytes at the front of
    /// `out`. `None` where there is no such frame, or `out` is shorter than it.
    pub fn frame(&mut self, number: u32, out: &mut [u8]) -> Option<usize> {
        let (at, len) = (out.as_mut_ptr(), out.len());
        // SAFETY: the pointer and the length are those of one live slice, and the handle is this card's alone.
        let length = unsafe { raw::vfdev_card_frame(&mut self.handle, number, at, len) };
        (length > 0).then_some(length)
    }

    /// Whether a transmit queue of the function may have descriptors that were not taken.
    pub fn is_busy(&mut self, function: u8) -> bool {
        // SAFETY: the reference leads to one live value, which only this card holds.
        unsafe { raw::vfdev_card_is_busy(&mut self.handle, function) }
    }

    /// How often something that the function's driver left to the card could not be done, modulo 2^32, since its guest came or it was reset:
    /// sums that a frame then lacks, or segments, where the whole frame is dropped. 0 where there is no such function.
    pub fn shortfalls(&mut self, function: u8) -> u32 {
        // SAFETY: the reference leads to one live value, which only this card holds.
        unsafe { raw::vfdev_card_shortfalls(&mut self.handle, function) }
    }

    /// What a function has counted, since its guest came or it was reset, but for [`unclaimed`](Counts::unclaimed), which goes on.
    ///
    /// # Errors
    /// [`Fault::NoSuchVf`].
    pub fn counts(&mut self, function: u8) -> Result<Counts, CardFault> {
        let mut counts = raw::FunctionCounts::default();
        // SAFETY: the references lead to two live values, the one of which only this card holds.
        let reply = unsafe { raw::vfdev_card_counts(&mut self.handle, function, &mut counts) };
        match reply.kind {
            0 => Ok(counts.into()),
            _ => Err(CardFault::of(reply.value)),
        }
    }

    /// How many frames from the wire nobody got, modulo 2^32, since the card was made: no function that may receive accepted them. Frames that
    /// [`Card::wire`] refuses are not among them.
    #[must_use]
    pub fn unclaimed(&mut self) -> u32 {
        // SAFETY: the reference leads to one live value, which only this card holds.
        unsafe { raw::vfdev_card_unclaimed(&mut self.handle) }
    }

    /// A frame comes from the wire: 14 to 9018 bytes without FCS, at least 18 where it has a VLAN tag.
    ///
    /// # Errors
    /// [`Fault::BadFrame`] where it is none, or longer than the card takes.
    ///
    /// ```
    /// use vfdev::{card::{Card, CardFault, Offloads}, Fault};
    /// let mut card = Card::new(1, &[0], None, 1518, Offloads::NONE)?;
    /// card.wire(&[0xFF; 60])?;
    /// assert_eq!(card.wire(&[0xFF; 1519]), Err(CardFault::Device(Fault::BadFrame)));
    /// # Ok::<(), CardFault>(())
    /// ```
    pub fn wire(&mut self, frame: &[u8]) -> Result<(), CardFault> {
        let (at, len) = (frame.as_ptr(), frame.len());
        // SAFETY: the pointer and the length are those of one live slice, and the handle is this card's alone.
        let reply = unsafe { raw::vfdev_card_wire(&mut self.handle, at, len) };
        match reply.kind {
            0 => Ok(()),
            _ => Err(CardFault::of(reply.value)),
        }
    }

    /// Frames come from the wire one after another: what as many calls of [`Card::wire`] do, in one. They lie behind one another in `bytes`:
    /// the first begins at 0, each other where the one before it ends, and `ends` says where each ends. What [`Card::wire`] would refuse is
    /// passed over, and so is one whose end is before its beginning or past the bytes.
    ///
    /// ```
    /// use vfdev::card::{Card, CardFault, Offloads, WireCount};
    /// let mut card = Card::new(1, &[0], None, 1518, Offloads::NONE)?;
    /// let bytes = [0xFF; 60 + 1519 + 60];
    /// let count = card.wire_burst(&bytes, &[60, 60 + 1519, 60 + 1519 + 60]);
    /// assert_eq!(count, WireCount { taken: 2, refused: 1 });
    /// # Ok::<(), CardFault>(())
    /// ```
    pub fn wire_burst(&mut self, bytes: &[u8], ends: &[usize]) -> WireCount {
        let (at, len) = (bytes.as_ptr(), bytes.len());
        let (ends_at, count) = (ends.as_ptr(), ends.len());
        // SAFETY: each pointer and length are those of one live slice, and the handle is this card's alone.
        let wired =
            unsafe { raw::vfdev_card_wire_burst(&mut self.handle, at, len, ends_at, count) };
        WireCount {
            taken: wired.taken,
            refused: wired.refused,
        }
    }

    /// The functions that have vectors which were raised and not handed out: bit p for function p.
    pub fn raised(&mut self) -> u64 {
        // SAFETY: the reference leads to one live value, which only this card holds.
        unsafe { raw::vfdev_card_raised(&mut self.handle) }
    }

    /// Hands out the vectors of a function that were raised since the last time and have a file: bit v for vector v. Each of these files
    /// is to be written once.
    #[must_use = "these interrupts have to be delivered to their guest"]
    pub fn signal(&mut self, function: u8) -> u32 {
        // SAFETY: the reference leads to one live value, which only this card holds.
        unsafe { raw::vfdev_card_signal(&mut self.handle, function) }
    }

    /// The same of the vectors alone that are named, bit v for vector v: the others go on waiting. So who knows the time keeps the messages
    /// of a vector as far apart as its driver wants ([`Card::interval`]).
    #[must_use = "these interrupts have to be delivered to their guest"]
    pub fn signal_some(&mut self, function: u8, vectors: u32) -> u32 {
        // SAFETY: the reference leads to one live value, which only this card holds.
        unsafe { raw::vfdev_card_signal_some(&mut self.handle, function, vectors) }
    }

    /// How far apart a function's driver wants the messages of a vector to be at least (VTEITR): up to 1022 microseconds. Zero where it wants
    /// nothing of the kind, where there is no such function or vector, and where the card was made without [`Offloads::throttle`].
    #[must_use]
    pub fn interval(&mut self, function: u8, vector: u32) -> Duration {
        // SAFETY: the reference leads to one live value, which only this card holds.
        let micros = unsafe { raw::vfdev_card_interval(&mut self.handle, function, vector) };
        Duration::from_micros(u64::from(micros))
    }

    /// Gives a function a policy, its first or another one. What the new one doesn't grant goes. Answers the function that had chosen the
    /// address and lost it: its driver learns of it by [`Card::flr`].
    ///
    /// # Errors
    /// As [`NotAdmitted`] says.
    ///
    /// ```
    /// use vfdev::card::{Card, NotAdmitted, Offloads, Policy, Vlans};
    /// let mut card = Card::new(2, &[0], None, 1518, Offloads::NONE)?;
    /// let policy = Policy::new([2, 0, 0, 0, 0, 1], Vlans::Joins(1));
    /// assert_eq!(card.admit(0, &policy), Ok(None));
    /// assert_eq!(card.admit(1, &policy), Err(NotAdmitted::AddressOwned));
    /// # Ok::<(), vfdev::card::CardFault>(())
    /// ```
    pub fn admit(&mut self, function: u8, policy: &Policy) -> Result<Option<u8>, NotAdmitted> {
        // SAFETY: the references lead to two live values, the one of which only this card holds.
        let admission = unsafe { raw::vfdev_card_admit(&mut self.handle, function, &policy.raw()) };
        match admission.refusal {
            0 => Ok(u8::try_from(admission.loser).ok().filter(|p| *p != NOBODY)),
            1 => Err(NotAdmitted::NotUnicast),
            2 => Err(NotAdmitted::AddressOwned),
            3 => Err(NotAdmitted::NoSuchPlace),
            5 => Err(NotAdmitted::NoSuchVf),
            other => Err(NotAdmitted::Other(other)),
        }
    }

    /// Takes a function's policy away: it neither receives nor sends.
    ///
    /// # Errors
    /// [`Fault::NoSuchVf`].
    pub fn dismiss(&mut self, function: u8) -> Result<(), CardFault> {
        // SAFETY: the reference leads to one live value, which only this card holds.
        done(unsafe { raw::vfdev_card_dismiss(&mut self.handle, function) })
    }

    /// Puts the host's own message into a function's mailbox, so that its driver asks anew. Answers whether it stands there: where it
    /// doesn't, the driver has the mailbox, and it is to be given again after its client's next message.
    #[must_use = "where it is false, it is to be given again later"]
    pub fn notify(&mut self, function: u8) -> bool {
        // SAFETY: the reference leads to one live value, which only this card holds.
        unsafe { raw::vfdev_card_notify(&mut self.handle, function) == 1 }
    }

    /// Resets a function from outside (function-level reset); its driver is told.
    ///
    /// # Errors
    /// [`Fault::NoSuchVf`].
    pub fn flr(&mut self, function: u8) -> Result<(), CardFault> {
        // SAFETY: the reference leads to one live value, which only this card holds.
        done(unsafe { raw::vfdev_card_flr(&mut self.handle, function) })
    }
}

fn done(answer: u32) -> Result<(), CardFault> {
    match answer {
        0 => Ok(()),
        fault => Err(CardFault::of(fault)),
    }
}

// What a step of C is, by its kind.
fn stepped(step: &raw::CardStep) -> Result<Step, CardFault> {
    let (address, size) = (step.address, step.size);
    let (first, count) = (step.first, step.count);
    let order = match step.kind {
        0 => {
            return Ok(Step::Answered {
                reply: replied(step),
            })
        }
        1 => Order::Map {
            address,
            size,
            offset: step.offset,
            access: match step.access {
                2 => Access::Write,
                3 => Access::Both,
                _ => Access::Read,
            },
        },
        2 => Order::Unmap { address, size },
        3 => Order::Arm { first, count },
        4 => Order::Disarm { first, count },
        5 => return Ok(Step::Ends(Breach::of(step.breach))),
        7 => return Err(CardFault::Device(Fault::NoSuchVf)),
        // neither the handle nor the room is ever another one than C wants, so that is a kind of a later version
        other => return Err(CardFault::Device(Fault::Other(other))),
    };
    Ok(Step::Asks {
        order,
        reply: replied(step),
    })
}

// How long the reply is, inside the room.
fn replied(step: &raw::CardStep) -> usize {
    usize::try_from(step.reply).map_or(ROOM, |count| count.min(ROOM))
}
