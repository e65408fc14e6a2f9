//! A function's registers, read and written as its own client does: by messages to the card. So what is proved of a client's messages holds of
//! all that is done here.

use crate::connection::Ended;
use crate::os::MappedCard;
use vfdev::card::{Step, HEADER, ROOM};

// Commands of the protocol.
const REGION_READ: u16 = 9;
const REGION_WRITE: u16 = 10;

// A command that wants no reply.
const NO_REPLY: u32 = 0x10;
// What stands behind the header of both: the offset, the region, and how many bytes. A reply has as much, and then the bytes.
const ACCESS: usize = 16;
const WORD: usize = 4;
const READ: usize = HEADER + ACCESS;
const WRITE: usize = READ + WORD;

/// The registers of a function that has a client.
#[derive(Debug)]
pub struct Registers<'a> {
    card: &'a mut MappedCard,
    function: u8,
    room: &'a mut [u8; ROOM],
}

// The message that is about the register at that offset of BAR 0.
fn access(command: u16, flags: u32, size: usize, offset: u32) -> [u8; WRITE] {
    let mut message = [0; WRITE];
    message[2..4].copy_from_slice(&command.to_le_bytes());
    message[4..8].copy_from_slice(&(size as u32).to_le_bytes());
    message[8..12].copy_from_slice(&flags.to_le_bytes());
    message[16..20].copy_from_slice(&offset.to_le_bytes());
    message[28..32].copy_from_slice(&(WORD as u32).to_le_bytes());
    message
}

impl<'a> Registers<'a> {
    /// The registers of this function of the card, with room for its replies, which nobody else is told.
    pub fn new(card: &'a mut MappedCard, function: u8, room: &'a mut [u8; ROOM]) -> Self {
        Registers {
            card,
            function,
            room,
        }
    }

    /// What the register at that offset of BAR 0 reads.
    ///
    /// # Errors
    /// Why the connection ends: the card doesn't take the message. (A client that has agreed on a version may read any register.)
    pub fn read(&mut self, offset: u32) -> Result<u32, Ended> {
        let message = access(REGION_READ, 0, READ, offset);
        match self.say(&message[..READ])? {
            reply if reply >= READ + WORD => Ok(word(&self.room[..], READ)),
            _ => Ok(0),
        }
    }

    /// Writes it.
    ///
    /// # Errors
    /// As for [`Registers::read`].
    pub fn write(&mut self, offset: u32, value: u32) -> Result<(), Ended> {
        let mut message = access(REGION_WRITE, NO_REPLY, WRITE, offset);
        message[READ..].copy_from_slice(&value.to_le_bytes());
        self.say(&message).map(drop)
    }

    // Says it as the client, and tells how long the reply is.
    fn say(&mut self, message: &[u8]) -> Result<usize, Ended> {
        let step = self.card.receive(self.function, message, 0, self.room);
        match step.map_err(Ended::Card)? {
            // (no order comes of a register)
            Step::Answered { reply } | Step::Asks { reply, .. } => Ok(reply),
            Step::Ends(breach) => Err(Ended::Breach(breach)),
        }
    }
}

// The number of 32 bits at a place of a message that has it.
fn word(bytes: &[u8], at: usize) -> u32 {
    let mut word = [0; WORD];
    word.copy_from_slice(&bytes[at..at + WORD]);
    u32::from_le_bytes(word)
}
