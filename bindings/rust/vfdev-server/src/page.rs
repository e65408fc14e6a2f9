//! The page of a function's transmit registers (BAR 0, 0x2000 to 0x2FFF) as memory that its client has too: QEMU maps it into the guest, whose
//! driver then writes a tail without a message.
//!
//! The words of the page are nothing but messages that weren't sent. At a look, the program says for each word that has changed the write of that
//! register to the card, as the function's client; what the card makes of it goes back into the page, where the guest hasn't written again
//! meanwhile. A look is at so many words, and says so many messages at most, whatever the guest writes how fast.
//!
//! A guest writes several words between two looks, and their order is lost. In which order they are said, which words go back, and what a
//! message of the client touches is `vfdev::page`, which is proved. Here is what reads and writes the memory.

use crate::connection::Ended;
use crate::os::{SharedPage, PAGE, PAGE_WORDS};
use crate::registers::Registers;
use std::io;
use std::os::fd::OwnedFd;
use std::sync::Arc;
use vfdev::card::{AREA, AREA_SIZE};
use vfdev::page::{self, Touched, Words, CONTROL, WORDS};
use vfdev::regs;

/// Where the page begins in BAR 0.
pub const FIRST: u32 = AREA as u32;
const _: () = assert!(AREA_SIZE == PAGE);

// How many queues have registers in it.
const QUEUES: usize = 2;
// How often a ring is read at most whose control changes meanwhile.
const MOST_READS: usize = 3;

fn is_on(words: &Words) -> bool {
    words[CONTROL] & regs::TXDCTL_ENABLE != 0
}

// Where a register stands in the page, in words.
fn place_of(offset: u32) -> usize {
    (offset - FIRST) as usize / 4
}

// The offsets of the words of both queues.
fn offsets() -> [[u32; WORDS]; QUEUES] {
    let of = |queue: u8| {
        std::array::from_fn(|place| {
            page::offset(queue, place).expect("both queues have each register")
        })
    };
    [of(0), of(1)]
}

/// The page of a function with a client.
#[derive(Debug)]
pub struct TransmitPage {
    shared: SharedPage,
    // the words that were last seen there, or put there, and the offsets of their registers
    known: [Words; QUEUES],
    offsets: [[u32; WORDS]; QUEUES],
    is_given: bool,
}

impl TransmitPage {
    /// The page of a function whose client has just come.
    ///
    /// # Errors
    /// Where the operating system has no memory or no file for it.
    pub fn new() -> io::Result<TransmitPage> {
        Ok(TransmitPage {
            // (an area of a region stands in its file where it stands in the region)
            shared: SharedPage::new(AREA)?,
            known: [Words::default(); QUEUES],
            offsets: offsets(),
            is_given: false,
        })
    }

    /// Whether the client has it.
    #[must_use]
    pub fn is_given(&self) -> bool {
        self.is_given
    }

    /// Whether a queue was on when it was last looked at.
    #[must_use]
    pub fn is_any_on(&self) -> bool {
        self.known.iter().any(is_on)
    }

    /// Looks at the page, and says what has changed. Tells whether anything has.
    ///
    /// # Errors
    /// Why the connection ends.
    pub fn look(&mut self, registers: &mut Registers<'_>) -> Result<bool, Ended> {
        let mut has_changed = false;
        if !self.is_given {
            return Ok(false);
        }
        for queue in 0..QUEUES {
            let now = self.ring(queue);
            if now != self.known[queue] {
                has_changed = true;
                self.say(queue, now, registers)?;
            }
        }
        Ok(has_changed)
    }

    /// A message of the client is to be handled: what was written in the page before it is said before it. Tells what the message may change.
    ///
    /// # Errors
    /// Why the connection ends.
    pub fn before(
        &mut self,
        message: &[u8],
        registers: &mut Registers<'_>,
    ) -> Result<Touched, Ended> {
        self.look(registers)?;
        Ok(page::touched(message))
    }

    // The words of a queue, as they are at one time: the guest doesn't write the others without its control, and writes that before and after.
    fn ring(&self, queue: usize) -> Words {
        let read = |place: usize| self.shared.read(place_of(self.offsets[queue][place]));
        let mut ring = Words::default();
        let mut control = read(CONTROL);
        for _ in 0..MOST_READS {
            for (place, word) in ring.iter_mut().enumerate() {
                *word = read(place);
            }
            ring[CONTROL] = read(CONTROL);
            if ring[CONTROL] == control {
                break;
            }
            control = ring[CONTROL];
        }
        ring
    }

    fn say(
        &mut self,
        queue: usize,
        now: Words,
        registers: &mut Registers<'_>,
    ) -> Result<(), Ended> {
        let was = std::mem::replace(&mut self.known[queue], now);
        for change in page::changes(queue as u8, &was, &now).iter() {
            registers.write(change.offset, change.value)?;
        }
        for place in page::put_back(&was, &now) {
            self.put_back(queue, place, registers)?;
        }
        Ok(())
    }

    // A register's value goes into the page, where the guest hasn't written another one meanwhile.
    fn put_back(
        &mut self,
        queue: usize,
        place: usize,
        registers: &mut Registers<'_>,
    ) -> Result<(), Ended> {
        let offset = self.offsets[queue][place];
        let value = registers.read(offset)?;
        let known = &mut self.known[queue][place];
        if value != *known && self.shared.replace(place_of(offset), *known, value) {
            *known = value;
        }
        Ok(())
    }

    /// Queues were served: their heads go into the page, whether they are on still, and how many frames were sent.
    ///
    /// # Errors
    /// Why the connection ends.
    pub fn after_service(&mut self, registers: &mut Registers<'_>) -> Result<(), Ended> {
        if !self.is_given {
            return Ok(());
        }
        for queue in 0..QUEUES {
            for place in page::serviced(&self.known[queue]) {
                self.put_back(queue, place, registers)?;
            }
        }
        self.put_count(registers)
    }

    fn put_count(&mut self, registers: &mut Registers<'_>) -> Result<(), Ended> {
        let count = registers.read(regs::VFGPTC)?;
        self.shared.write(place_of(regs::VFGPTC), count);
        Ok(())
    }

    /// A message was done that touched these registers: the page has what they read now.
    ///
    /// # Errors
    /// Why the connection ends.
    pub fn after(&mut self, touched: Touched, registers: &mut Registers<'_>) -> Result<(), Ended> {
        match touched {
            _ if !self.is_given => Ok(()),
            Touched::Nothing => Ok(()),
            Touched::All => self.renew(registers),
            Touched::One { queue, place } => self.put_back(queue, place, registers),
        }
    }

    /// The function may have been reset: all of the page is as its registers are.
    ///
    /// # Errors
    /// Why the connection ends.
    pub fn renew(&mut self, registers: &mut Registers<'_>) -> Result<(), Ended> {
        for place in 0..PAGE_WORDS {
            if !self.is_register(place) {
                self.shared.write(place, 0);
            }
        }
        for queue in 0..QUEUES {
            for place in 0..WORDS {
                self.put_back(queue, place, registers)?;
            }
        }
        self.put_count(registers)
    }

    /// The file that belongs beside this reply, if any: the page is given by it, as the registers are then.
    ///
    /// # Errors
    /// Why the connection ends.
    pub fn beside(
        &mut self,
        reply: &[u8],
        registers: &mut Registers<'_>,
    ) -> Result<Option<Arc<OwnedFd>>, Ended> {
        if !page::is_offered(reply) {
            return Ok(None);
        }
        if !self.is_given {
            self.renew(registers)?;
            self.is_given = true;
        }
        Ok(Some(self.shared.file()))
    }

    // Whether a word of the page is that of a queue's register.
    fn is_register(&self, place: usize) -> bool {
        let mut offsets = self.offsets.iter().flatten();
        offsets.any(|offset| place_of(*offset) == place)
    }
}

#[cfg(test)]
mod tests {
    use super::*;
    use crate::os::MappedCard;
    use vfdev::card::{Offloads, Step, ROOM};

    // A word that the guest writes after a look stays, whatever the card makes of the one before it; and it is said at the next look.
    #[test]
    fn a_word_that_is_written_meanwhile_stays() {
        let mut card = MappedCard::new(1, &[0], None, 1518, Offloads::NONE).expect("a card");
        card.attach(0).expect("a guest");
        let mut room = [0; ROOM];
        let version = [0, 0, 1, 0, 20, 0, 0, 0, 0, 0, 0, 0, 0, 0, 0, 0, 0, 0, 0, 0];
        let agreed = card.receive(0, &version, 0, &mut room);
        assert!(matches!(agreed, Ok(Step::Answered { .. })));
        let mut registers = Registers::new(&mut card, 0, &mut room);
        let mut page = TransmitPage::new().expect("a page");
        page.is_given = true;
        let (offset, base) = (regs::tdbal(0), place_of(regs::tdbal(0)));
        // (the card keeps all but the low bits)
        for (first, second, due) in [(0x181, 0x181, 0x180), (0x281, 0x301, 0x301)] {
            page.shared.write(base, first);
            let now = page.ring(0);
            page.shared.write(base, second);
            page.say(0, now, &mut registers).expect("words");
            assert_eq!(page.shared.read(base), due);
        }
        assert_eq!(registers.read(offset).expect("a word"), 0x280);
        assert!(page.look(&mut registers).expect("a look"));
        assert_eq!(registers.read(offset).expect("a word"), 0x300);
        assert_eq!(page.shared.read(base), 0x300);
        assert!(!page.look(&mut registers).expect("a look"));
    }
}
