//! The page of a function's transmit registers (BAR 0, 0x2000 to 0x2FFF), for a shell that has one: what a guest wrote there as register writes.
//!
//! A shell that offers the page ([`Card::offer_area`](crate::card::Card::offer_area)) has it as memory that its client writes without a message.
//! It reads the words of a queue, each once, says the [`changes`] since it last did to the card as the client itself would
//! (REGION_WRITE), and then puts the words of [`put_back`] back, as their registers read: by a compare and exchange, so that a word that the
//! guest has written meanwhile stays, and is one of the next changes. Words go back after a service too ([`serviced`]), and after a message
//! that wrote registers ([`touched`]).
//!
//! What these functions say is what the archive's contracts say. They keep nothing.
//!
//! ```
//! use vfdev::page::{changes, Words};
//! use vfdev::regs;
//!
//! // a driver has set up a ring of 8 descriptors, turned queue 0 on and queued two frames
//! let was: Words = [0; 8];
//! let now: Words = [0x1000, 0, 128, 0, 0, 0, regs::TXDCTL_ENABLE, 2];
//! let changes = changes(0, &was, &now);
//! let offsets: Vec<u32> = changes.iter().map(|change| change.offset).collect();
//! // the ring, then its queue with its tail, and the tail again
//! let (tail, control) = (regs::tdt(0), regs::txdctl(0));
//! assert_eq!(offsets, [regs::tdbal(0), regs::tdlen(0), tail, control, tail]);
//! ```

use crate::raw;
use std::ops::Deref;

/// How many words of a queue's registers stand in the page.
pub const WORDS: usize = 8;
/// The most writes that the changes of a queue's words give.
pub const MOST_CHANGES: usize = 10;
/// The place of TXDCTL among a queue's words.
pub const CONTROL: usize = 6;

/// The words of a queue's registers in this order, which is their place: TDBAL, TDBAH, TDLEN, TDH, TDWBAL, TDWBAH, TXDCTL, TDT. The card has no
/// register for TDWBAL and TDWBAH, and they read as zero.
pub type Words = [u32; WORDS];

/// A write of a register of BAR 0.
#[derive(Clone, Copy, Debug, PartialEq, Eq)]
pub struct RegisterWrite {
    /// The offset of the register in BAR 0.
    pub offset: u32,
    /// The word that is written.
    pub value: u32,
}

/// Writes in the order in which they are to be done: a slice of [`MOST_CHANGES`] at most.
#[derive(Clone, Debug)]
pub struct Changes {
    writes: [RegisterWrite; MOST_CHANGES],
    count: usize,
}

impl Deref for Changes {
    type Target = [RegisterWrite];

    fn deref(&self) -> &[RegisterWrite] {
        &self.writes[..self.count]
    }
}

/// What a driver did with queue 0 or 1, whose words were so and are so now: nothing where nothing has changed, or there is no such queue.
///
/// Whatever the words are, done in that order the writes make the words that were those that are. A register that hasn't changed is written
/// only where its queue goes off or comes on: its control, and where it comes on its tail. The base, the length and the head are written
/// only while the queue is off, and where it comes on all its other words are written before, and its tail once more behind that.
#[must_use]
pub fn changes(queue: u8, was: &Words, now: &Words) -> Changes {
    let mut room = [raw::RegisterWrite::default(); MOST_CHANGES];
    // SAFETY: each reference leads to one live array of as many words or writes as the function takes.
    let count = unsafe { raw::vfdev_page_changes(queue, was, now, &mut room) };
    let writes = room.map(|write| RegisterWrite {
        offset: write.offset,
        value: write.value,
    });
    Changes { writes, count }
}

/// The places of the words that are to be put back, as their registers read, once these changes were written.
pub fn put_back(was: &Words, now: &Words) -> impl Iterator<Item = usize> {
    // SAFETY: each reference leads to one live array of as many words as the function takes.
    places(unsafe { raw::vfdev_page_put_back(was, now) })
}

/// The places of the words of a queue that are to be put back once its descriptors were taken.
pub fn serviced(words: &Words) -> impl Iterator<Item = usize> {
    // SAFETY: the reference leads to one live array of as many words as the function takes.
    places(unsafe { raw::vfdev_page_serviced(words) })
}

fn places(bits: u32) -> impl Iterator<Item = usize> {
    (0..WORDS).filter(move |place| bits >> place & 1 == 1)
}

/// What a message of the client may change of the registers in the page.
#[derive(Clone, Copy, Debug, PartialEq, Eq)]
pub enum Touched {
    /// Nothing.
    Nothing,
    /// One of them.
    One {
        /// Its queue, 0 or 1.
        queue: usize,
        /// Its place among the words of the queue.
        place: usize,
    },
    /// All of them: it may be a reset.
    All,
}

/// What a whole message of the client may change of the registers in the page, which are then to be put back.
///
/// ```
/// use vfdev::page::{touched, Touched};
/// // DEVICE_RESET
/// let message = [0, 0, 13, 0, 16, 0, 0, 0, 0, 0, 0, 0, 0, 0, 0, 0];
/// assert_eq!(touched(&message), Touched::All);
/// ```
#[must_use]
pub fn touched(message: &[u8]) -> Touched {
    // SAFETY: the pointer and the length are those of one live slice.
    let touch = unsafe { raw::vfdev_page_touched(message.as_ptr(), message.len()) };
    match touch.kind {
        0 => Touched::Nothing,
        1 => Touched::One {
            queue: touch.queue as usize,
            place: touch.place as usize,
        },
        _ => Touched::All,
    }
}

/// Whether a reply of the card is one beside which a file of the page goes.
#[must_use]
pub fn is_offered(reply: &[u8]) -> bool {
    // SAFETY: the pointer and the length are those of one live slice.
    unsafe { raw::vfdev_page_offered(reply.as_ptr(), reply.len()) }
}

/// The offset in BAR 0 of the word at a place of queue 0 or 1.
///
/// ```
/// use vfdev::{page, regs};
/// assert_eq!(page::offset(1, page::CONTROL), Some(regs::txdctl(1)));
/// assert_eq!(page::offset(2, 0), None);
/// ```
#[must_use]
pub fn offset(queue: u8, place: usize) -> Option<u32> {
    let place = u32::try_from(place).ok()?;
    // SAFETY: the function takes numbers alone.
    match unsafe { raw::vfdev_page_offset(queue, place) } {
        0 => None,
        offset => Some(offset),
    }
}

#[cfg(test)]
mod tests {
    use super::*;
    use crate::regs;

    const ON: u32 = regs::TXDCTL_ENABLE;

    fn said(queue: u8, was: &Words, now: &Words) -> Vec<(u32, u32)> {
        let changes = changes(queue, was, now);
        changes
            .iter()
            .map(|write| (write.offset, write.value))
            .collect()
    }

    // Each argument comes to its place, and each write back from it: all words have changed of a queue that was on and is on.
    #[test]
    fn changes_come_through() {
        let was = [1, 2, 3, 4, 5, 6, ON, 7];
        let now = [11, 12, 13, 14, 15, 16, ON | 1, 17];
        let due = [
            (0x2068, 1),
            (0x2040, 11),
            (0x2044, 12),
            (0x2048, 13),
            (0x2050, 14),
            (0x2078, 15),
            (0x207C, 16),
            (0x2058, 17),
            (0x2068, ON | 1),
            (0x2058, 17),
        ];
        assert_eq!(said(1, &was, &now), due);
        assert_eq!(
            said(0, &[0; WORDS], &[0, 0, 0, 0, 0, 0, 0, 9]),
            [(0x2018, 9)]
        );
        assert_eq!(said(0, &was, &was), []);
        assert_eq!(said(2, &was, &now), []);
    }

    #[test]
    fn words_go_back() {
        let was = [1, 2, 3, 4, 5, 6, ON, 7];
        let mut now = was;
        (now[0], now[CONTROL], now[7]) = (9, 0, 9);
        assert_eq!(put_back(&was, &now).collect::<Vec<_>>(), [0, CONTROL]);
        assert_eq!(serviced(&was).collect::<Vec<_>>(), [3, CONTROL]);
        assert_eq!(serviced(&now).count(), 0);
    }

    #[test]
    fn messages_and_places_come_through() {
        let mut message = [0; 36];
        message[2] = 10;
        message[16..20].copy_from_slice(&regs::tdt(1).to_le_bytes());
        assert_eq!(touched(&message), Touched::One { queue: 1, place: 7 });
        message[16..20].copy_from_slice(&0x1000u32.to_le_bytes());
        assert_eq!(touched(&message), Touched::Nothing);
        assert_eq!(touched(&[]), Touched::Nothing);
        let mut reply = [0; 48];
        (reply[2], reply[20]) = (5, 7);
        assert!(is_offered(&reply) && !is_offered(&reply[..20]) && !is_offered(&[]));
        let offsets = [0, 1, 2, 3, 4, 5, 6, 7, 8].map(|place| offset(0, place).unwrap_or(0));
        assert_eq!(
            offsets,
            [0x2000, 0x2004, 0x2008, 0x2010, 0x2038, 0x203C, 0x2028, 0x2018, 0]
        );
    }
}
