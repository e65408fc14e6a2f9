//! A card with the memories of its guests, as they are mapped.

use super::mapping::Mapping;
use super::{has_huge_pages, is_sealed_against_shrinking};
use crate::apart::Apart;
use std::fmt;
use std::fs::File;
use std::io;
use std::os::fd::{AsFd, OwnedFd};
use std::os::unix::fs::MetadataExt;
use std::time::Duration;
use vfdev::card::{
    Access, Card, CardFault, More, NotAdmitted, Offloads, Policy, Step, WireCount, ROOM,
};
use vfdev::{Counts, FileRange};

/// A card, and for each of its functions the files that are mapped as memory of its guest. The two stand together, so that no range of a file
/// is unmapped that the card may still reach.
#[derive(Debug)]
pub struct MappedCard {
    // the card is freed before the memories, which it may reach until then
    card: Card,
    memories: Vec<Vec<Region>>,
    apart: Apart,
}

// Of so many bytes and more the end may take long, and isn't waited for.
const MANY_BYTES: u64 = 64 << 20;

/// One region of a guest's memory.
#[derive(Debug)]
struct Region {
    address: u64,
    range: FileRange,
    // (it is unmapped as this is dropped)
    _mapping: Mapping,
}

// Whether two ranges of guest addresses, each by its first address and how many it has, have one in common. Each has one at least, and none
// goes past 2^64.
fn meet(one: (u64, u64), two: (u64, u64)) -> bool {
    one.0 <= two.0 + (two.1 - 1) && two.0 <= one.0 + (one.1 - 1)
}

// Whether the second range lies wholly in the first one.
fn is_inside(outer: (u64, u64), inner: (u64, u64)) -> bool {
    outer.0 <= inner.0 && inner.0 + (inner.1 - 1) <= outer.0 + (outer.1 - 1)
}

// Unmaps what the card has given back. Where too many others are at it, the caller waits.
fn let_go(apart: &Apart, regions: Vec<Region>) {
    let sizes = regions.iter().map(|region| region.range.len);
    if sizes.fold(0, u64::saturating_add) >= MANY_BYTES {
        drop(apart.let_go(regions));
    }
}

/// Why memory can't be mapped, or unmapped, as a client asks.
#[derive(Debug)]
#[non_exhaustive]
pub enum MapError {
    /// The file may shrink: whoever truncates it would end this process.
    MayShrink,
    /// The file has huge pages, of which a hole may find none.
    HugePages,
    /// The memory may be written and not read, which no map of the processor's can be.
    WriteOnly,
    /// The file ends before the range does. The number is its size in bytes.
    TooShort(u64),
    /// A part of the range is memory of another function, of this number.
    OfAnother(u8),
    /// A region of memory would be unmapped in part: the one at this guest address.
    InPart(u64),
    /// The card refuses it.
    Refused(CardFault),
    /// The operating system refuses it.
    System(io::Error),
}

impl fmt::Display for MapError {
    fn fmt(&self, f: &mut fmt::Formatter<'_>) -> fmt::Result {
        match self {
            MapError::MayShrink => f.write_str(
                "a file for memory isn't sealed against shrinking (QEMU's memory-backend-memfd seals it by itself)",
            ),
            MapError::HugePages => f.write_str("a file for memory has huge pages"),
            MapError::WriteOnly => f.write_str("memory may be written and not read"),
            MapError::TooShort(size) => write!(f, "a file for memory ends at {size} bytes, before its range"),
            MapError::OfAnother(function) => {
                write!(f, "a range of a file is memory of function {function} already")
            }
            MapError::InPart(address) => {
                write!(f, "the region at guest address {address:#x} would be unmapped in part")
            }
            MapError::Refused(fault) => write!(f, "memory is refused: {fault}"),
            MapError::System(error) => write!(f, "memory can't be mapped: {error}"),
        }
    }
}

impl std::error::Error for MapError {}

impl From<io::Error> for MapError {
    fn from(error: io::Error) -> MapError {
        MapError::System(error)
    }
}

impl From<CardFault> for MapError {
    fn from(fault: CardFault) -> MapError {
        MapError::Refused(fault)
    }
}

impl MappedCard {
    /// A card of so many vacant functions, as [`Card::new`] makes it.
    ///
    /// # Errors
    /// As [`Card::new`].
    pub fn new(
        functions: u8,
        ids: &[u16],
        default_function: Option<u8>,
        limit: u16,
        offloads: Offloads,
    ) -> Result<MappedCard, CardFault> {
        Ok(MappedCard {
            card: Card::new(functions.into(), ids, default_function, limit, offloads)?,
            memories: (0..functions).map(|_| Vec::new()).collect(),
            apart: Apart::default(),
        })
    }

    /// A guest comes to a vacant function, without memory.
    ///
    /// # Errors
    /// As [`Card::attach`].
    pub fn attach(&mut self, function: u8) -> Result<(), CardFault> {
        self.card.attach(function)
    }

    /// As [`Card::offer_area`].
    ///
    /// # Errors
    /// As [`Card::offer_area`].
    pub fn offer_area(&mut self, function: u8) -> Result<(), CardFault> {
        self.card.offer_area(function)
    }

    /// A guest goes, and nothing of its memory stays mapped.
    ///
    /// # Errors
    /// As [`Card::detach`].
    pub fn detach(&mut self, function: u8) -> Result<(), CardFault> {
        self.card.detach(function)?;
        if let Some(regions) = self.memories.get_mut(usize::from(function)) {
            // (the table's own room goes too)
            let_go(&self.apart, std::mem::take(regions));
        }
        Ok(())
    }

    /// Maps a range of a file as memory of a function's guest.
    ///
    /// # Errors
    /// As [`MapError`] says. Then nothing is mapped.
    pub fn map(
        &mut self,
        function: u8,
        file: OwnedFd,
        address: u64,
        (offset, size): (u64, u64),
        access: Access,
    ) -> Result<(), MapError> {
        let is_read_only = match access {
            Access::Read => true,
            Access::Both => false,
            Access::Write => return Err(MapError::WriteOnly),
        };
        let file = File::from(file);
        let range = self.checked_range(function, &file, offset, size)?;
        let length = usize::try_from(size).map_err(|_| MapError::TooShort(size))?;
        let mapping = Mapping::new(file.as_fd(), offset, length, is_read_only)?;
        // SAFETY: the block stays mapped as long as the table has it, from which it is taken after the card has given it back, and only
        // the card has a pointer to it. A file that can't shrink has all bytes of its range at any time.
        unsafe {
            self.card
                .map(function, address, mapping.block(), is_read_only)
        }?;
        self.memories[usize::from(function)].push(Region {
            address,
            range,
            _mapping: mapping,
        });
        Ok(())
    }

    // The range of the file, where it can be memory of the function.
    fn checked_range(
        &self,
        function: u8,
        file: &File,
        offset: u64,
        size: u64,
    ) -> Result<FileRange, MapError> {
        // the seals come first: a size that was looked at before could have become smaller
        if !is_sealed_against_shrinking(file.as_fd()) {
            return Err(MapError::MayShrink);
        }
        if has_huge_pages(file.as_fd())? {
            return Err(MapError::HugePages);
        }
        let told = file.metadata()?;
        if size == 0
            || offset
                .checked_add(size)
                .map_or(true, |end| end > told.len())
        {
            return Err(MapError::TooShort(told.len()));
        }
        let range = FileRange {
            device: told.dev(),
            inode: told.ino(),
            from: offset,
            len: size,
        };
        match self.other_with(function, &range) {
            Some(other) => Err(MapError::OfAnother(other)),
            None => Ok(range),
        }
    }

    // Another function of whose memory a part of this range is.
    fn other_with(&self, function: u8, range: &FileRange) -> Option<u8> {
        (0u8..)
            .zip(&self.memories)
            .filter(|(other, _)| *other != function)
            .find(|(_, regions)| regions.iter().any(|region| region.range.meets(range)))
            .map(|(other, _)| other)
    }

    /// Unmaps all regions of a function that lie wholly in the range of guest addresses.
    ///
    /// # Errors
    /// [`MapError::InPart`] where one lies there in part: then nothing is unmapped.
    pub fn unmap(&mut self, function: u8, address: u64, size: u64) -> Result<(), MapError> {
        let outer = (address, size);
        let Some(regions) = self.memories.get_mut(usize::from(function)) else {
            return Ok(());
        };
        for region in regions.iter() {
            let inner = (region.address, region.range.len);
            if size > 0 && meet(outer, inner) && !is_inside(outer, inner) {
                return Err(MapError::InPart(region.address));
            }
        }
        while let Some(place) = regions
            .iter()
            .position(|region| size > 0 && is_inside(outer, (region.address, region.range.len)))
        {
            self.card.unmap(function, regions[place].address)?;
            let_go(&self.apart, vec![regions.swap_remove(place)]);
        }
        Ok(())
    }

    /// How many bytes of files are mapped for a function, and in how many regions.
    #[must_use]
    pub fn mapped(&self, function: u8) -> (u64, usize) {
        let regions = self.memories.get(usize::from(function));
        let regions = regions.map_or(&[][..], |regions| regions.as_slice());
        let bytes = regions.iter().map(|region| region.range.len).sum();
        (bytes, regions.len())
    }

    /// As [`Card::receive`].
    ///
    /// # Errors
    /// As [`Card::receive`].
    pub fn receive(
        &mut self,
        function: u8,
        message: &[u8],
        files: usize,
        room: &mut [u8; ROOM],
    ) -> Result<Step, CardFault> {
        self.card.receive(function, message, files, room)
    }

    /// As [`Card::more`].
    pub fn more(&mut self, function: u8) -> More {
        self.card.more(function)
    }

    /// As [`Card::frame`].
    pub fn frame(&mut self, number: u32, out: &mut [u8]) -> Option<usize> {
        self.card.frame(number, out)
    }

    /// As [`Card::is_busy`].
    pub fn is_busy(&mut self, function: u8) -> bool {
        self.card.is_busy(function)
    }

    /// As [`Card::counts`].
    ///
    /// # Errors
    /// As [`Card::counts`].
    pub fn counts(&mut self, function: u8) -> Result<Counts, CardFault> {
        self.card.counts(function)
    }

    /// As [`Card::unclaimed`].
    pub fn unclaimed(&mut self) -> u32 {
        self.card.unclaimed()
    }

    /// As [`Card::wire_burst`].
    pub fn wire_burst(&mut self, bytes: &[u8], ends: &[usize]) -> WireCount {
        self.card.wire_burst(bytes, ends)
    }

    /// As [`Card::raised`].
    pub fn raised(&mut self) -> u64 {
        self.card.raised()
    }

    /// As [`Card::signal_some`].
    #[must_use = "these interrupts have to be delivered to their guest"]
    pub fn signal(&mut self, function: u8, vectors: u32) -> u32 {
        self.card.signal_some(function, vectors)
    }

    /// As [`Card::interval`].
    pub fn interval(&mut self, function: u8, vector: u32) -> Duration {
        self.card.interval(function, vector)
    }

    /// As [`Card::admit`].
    ///
    /// # Errors
    /// As [`Card::admit`].
    pub fn admit(&mut self, function: u8, policy: &Policy) -> Result<Option<u8>, NotAdmitted> {
        self.card.admit(function, policy)
    }

    /// As [`Card::dismiss`].
    ///
    /// # Errors
    /// As [`Card::dismiss`].
    pub fn dismiss(&mut self, function: u8) -> Result<(), CardFault> {
        self.card.dismiss(function)
    }

    /// As [`Card::notify`].
    #[must_use = "where it is false, it is to be given again later"]
    pub fn notify(&mut self, function: u8) -> bool {
        self.card.notify(function)
    }

    /// As [`Card::flr`].
    ///
    /// # Errors
    /// As [`Card::flr`].
    pub fn flr(&mut self, function: u8) -> Result<(), CardFault> {
        self.card.flr(function)
    }
}

#[cfg(test)]
mod tests {
    use super::*;

    #[test]
    fn ranges_meet_and_lie_inside() {
        // (first, count) of both, whether they meet, whether the second lies in the first one
        for (one, two, meets, inside) in [
            ((0, 4), (4, 4), false, false),
            ((0, 5), (4, 4), true, false),
            ((4, 4), (0, 5), true, false),
            ((0, 8), (4, 4), true, true),
            ((4, 4), (4, 4), true, true),
            ((4, 4), (3, 6), true, false),
            ((0, u64::MAX), (7, 1), true, true),
            ((u64::MAX, 1), (u64::MAX, 1), true, true),
            ((1, u64::MAX), (u64::MAX, 1), true, true),
        ] {
            assert_eq!(meet(one, two), meets, "{one:?} {two:?}");
            assert_eq!(meet(two, one), meets, "{two:?} {one:?}");
            assert_eq!(is_inside(one, two), inside, "{one:?} {two:?}");
        }
    }
}
