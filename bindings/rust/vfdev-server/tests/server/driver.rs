//! A driver of a function, which does what ixgbevf does: the mailbox, one ring each way, vector 0 for both.

use crate::client::{settle, Client, READ, WRITE};
use crate::os::{self, Memory};
use crate::program::{Server, PATIENCE};
use std::fs::File;
use std::io::Read;
use std::os::fd::{AsFd, OwnedFd};
use std::time::Instant;
use vfdev::regs;

// The mailbox.
pub const VFMAILBOX: u32 = 0x2FC;
pub const VFMBMEM: u32 = 0x200;
/// A reset from outside is done.
pub const VFMAILBOX_RSTD: u32 = 1 << 7;
/// A message of the host's is there.
pub const VFMAILBOX_PFSTS: u32 = 1 << 4;
const VFMAILBOX_REQ: u32 = 1;
const VFMAILBOX_VFU: u32 = 1 << 2;

// Its messages, and the bits of an answer.
pub const RESET: u32 = 1;
pub const SET_ADDRESS: u32 = 2;
pub const API_NEGOTIATE: u32 = 8;
pub const GET_LINK_STATE: u32 = 16;
pub const ACK: u32 = 1 << 31;
pub const NACK: u32 = 1 << 30;
pub const CTS: u32 = 1 << 29;
// API 1.3 by its number.
const API_1_3: u32 = 4;

// Where a guest has its rings, of how many descriptors, and its buffers.
pub const MEMORY: usize = 4 << 20;
const RX_RING: usize = 0x10000;
pub const TX_RING: usize = 0x20000;
const RX_BUFFERS: usize = 0x10_0000;
const TX_BUFFERS: usize = 0x20_0000;
const BUFFER: usize = 2048;
pub const COUNT: usize = 512;
// After so many frames the driver gives its buffers anew.
const BATCH: usize = 64;

/// A guest with its driver.
pub struct Guest {
    pub client: Client,
    pub memory: Memory,
    pub interrupt: OwnedFd,
    pub mac: [u8; 6],
    rx_next: usize,
    rx_used: usize,
    tx_next: usize,
}

impl Guest {
    /// A guest attaches: its memory is mapped, its vectors have eventfds, its driver has asked the host, and its rings are on.
    pub fn attach(server: &Server, function: u8) -> Guest {
        let mut guest = Guest::begin(server, function);
        guest.start_driver();
        guest
    }

    /// The same, whose transmit registers are a page that it has too.
    pub fn attach_with_page(server: &Server, function: u8) -> Guest {
        let mut guest = Guest::begin(server, function);
        guest.client.take_page();
        guest.start_driver();
        guest
    }

    /// The same without its driver.
    pub fn begin(server: &Server, function: u8) -> Guest {
        let mut guest = Guest {
            client: server.client(function),
            memory: Memory::new(MEMORY),
            interrupt: os::eventfd(),
            mac: [0; 6],
            rx_next: 0,
            rx_used: 0,
            tx_next: 0,
        };
        let mapped = guest
            .client
            .map(&guest.memory.file, READ | WRITE, 0, 0, MEMORY as u64);
        assert_eq!(mapped.expect("a reply"), Ok(Vec::new()));
        let others = [os::eventfd(), os::eventfd()];
        let files = [
            guest.interrupt.as_fd(),
            others[0].as_fd(),
            others[1].as_fd(),
        ];
        assert_eq!(
            guest.client.arm(0, &files).expect("a reply"),
            Ok(Vec::new())
        );
        guest
    }

    /// The driver is loaded.
    pub fn start_driver(&mut self) {
        assert_eq!(
            self.ask(&[API_NEGOTIATE, API_1_3])[0],
            API_NEGOTIATE | NACK,
            "not before a reset"
        );
        self.reset();
        assert_eq!(
            self.ask(&[API_NEGOTIATE, API_1_3])[0],
            API_NEGOTIATE | ACK | CTS
        );
        self.turn_on();
    }

    /// The message RESET, which is answered by the function's address.
    pub fn reset(&mut self) {
        let answer = self.ask(&[RESET, 0, 0, 0]);
        assert_eq!(answer[0], RESET | ACK);
        let bytes = [answer[1].to_le_bytes(), answer[2].to_le_bytes()].concat();
        self.mac.copy_from_slice(&bytes[..6]);
    }

    /// A message to the host, and its answer.
    pub fn ask(&mut self, words: &[u32]) -> [u32; 4] {
        self.client.write(VFMAILBOX, VFMAILBOX_VFU);
        assert_eq!(self.client.read(VFMAILBOX) & VFMAILBOX_VFU, VFMAILBOX_VFU);
        for (place, word) in (0..).zip(words) {
            self.client.write(VFMBMEM + 4 * place, *word);
        }
        self.client.write(VFMAILBOX, VFMAILBOX_REQ);
        self.client.read(VFMAILBOX);
        [0, 1, 2, 3].map(|place| self.client.read(VFMBMEM + 4 * place))
    }

    /// The rings are turned on, and all receive buffers given.
    pub fn turn_on(&mut self) {
        (self.rx_next, self.rx_used, self.tx_next) = (0, 0, 0);
        for place in 0..COUNT {
            self.give(place);
            self.memory.put(TX_RING + 16 * place + 8, 0);
        }
        for (offset, value) in [
            (
                regs::VTIVAR,
                regs::vtivar_rx0(0x80) | regs::vtivar_tx0(0x80),
            ),
            (regs::VTEIAC, 7),
            (regs::VTEIMS, 7),
            (regs::rdbal(0), RX_RING as u32),
            (regs::rdbah(0), 0),
            (regs::rdlen(0), 16 * COUNT as u32),
            (
                regs::srrctl(0),
                regs::srrctl_desctype(1) | regs::srrctl_bsizepacket(2),
            ),
            (regs::rxdctl(0), regs::RXDCTL_ENABLE),
            (regs::rdt(0), COUNT as u32 - 1),
            (regs::tdbal(0), TX_RING as u32),
            (regs::tdbah(0), 0),
            (regs::tdlen(0), 16 * COUNT as u32),
            (regs::txdctl(0), regs::TXDCTL_ENABLE),
        ] {
            self.client.write(offset, value);
        }
        for offset in [regs::rxdctl(0), regs::txdctl(0)] {
            assert_ne!(
                self.client.read(offset) & regs::RXDCTL_ENABLE,
                0,
                "a queue is on"
            );
        }
    }

    // A receive descriptor has its buffer.
    fn give(&self, place: usize) {
        self.memory.put(RX_RING + 16 * place + 8, 0);
        self.memory
            .put(RX_RING + 16 * place, (RX_BUFFERS + BUFFER * place) as u64);
    }

    /// A frame to this address, with these bytes behind its head.
    pub fn frame(&self, to: [u8; 6], payload: &[u8]) -> Vec<u8> {
        let mut frame = [&to[..], &self.mac, &[0x88, 0xB5], payload].concat();
        frame.resize(frame.len().max(60), 0);
        frame
    }

    /// Sends a frame: a descriptor, and the tail.
    pub fn send(&mut self, frame: &[u8]) {
        self.place_frame(TX_BUFFERS + BUFFER * self.tx_next, frame);
    }

    /// Sends a frame whose buffer is named by this address, whatever stands there.
    pub fn send_from(&mut self, address: u64, length: usize) {
        let command = regs::TXD_DEXT
            | regs::txd_dtyp(3)
            | regs::TXD_RS
            | regs::TXD_EOP
            | regs::txd_length(length as u64);
        self.describe(&[(address, command | (length as u64) << 46)]);
    }

    /// Sends a frame that stands there, as these words and the tail say: a context, and what of it the card is to do.
    pub fn send_by(&mut self, context: (u64, u64), command: u64, frame: &[u8]) {
        let at = TX_BUFFERS + BUFFER * self.tx_next;
        self.memory.write(at, frame);
        let first = (context.0, context.1 | regs::TXD_DEXT | regs::txd_dtyp(2));
        let command = command
            | regs::TXD_DEXT
            | regs::txd_dtyp(3)
            | regs::TXD_RS
            | regs::TXD_EOP
            | regs::txd_length(frame.len() as u64);
        self.describe(&[first, (at as u64, command)]);
    }

    // Descriptors, and the tail.
    fn describe(&mut self, descriptors: &[(u64, u64)]) {
        for (first, second) in descriptors {
            self.memory.put(TX_RING + 16 * self.tx_next, *first);
            self.memory.put(TX_RING + 16 * self.tx_next + 8, *second);
            self.tx_next = (self.tx_next + 1) % COUNT;
        }
        self.client.write(regs::tdt(0), self.tx_next as u32);
    }

    fn place_frame(&mut self, at: usize, frame: &[u8]) {
        self.memory.write(at, frame);
        self.send_from(at as u64, frame.len());
    }

    /// The next frame that was received, if there is one.
    pub fn take(&mut self) -> Option<Vec<u8>> {
        let at = RX_RING + 16 * self.rx_next;
        let written = self.memory.get(at + 8);
        if written & regs::RXD_DD == 0 {
            return None;
        }
        assert_ne!(written & regs::RXD_EOP, 0, "a frame in one buffer");
        let length = (written >> 32 & 0xFFFF) as usize;
        let frame = self.memory.read(RX_BUFFERS + BUFFER * self.rx_next, length);
        self.give(self.rx_next);
        self.rx_next = (self.rx_next + 1) % COUNT;
        self.rx_used += 1;
        if self.rx_used == BATCH {
            self.rx_used = 0;
            let tail = (self.rx_next + COUNT - 1) % COUNT;
            self.client.write(regs::rdt(0), tail as u32);
        }
        Some(frame)
    }

    /// The next frame, by looking at the memory.
    pub fn wait(&mut self) -> Vec<u8> {
        let begun = Instant::now();
        for turn in 0u64.. {
            if let Some(frame) = self.take() {
                return frame;
            }
            // (looking costs a processor, which the server may want)
            std::thread::yield_now();
            assert!(
                turn % 1024 != 0 || begun.elapsed() < PATIENCE,
                "a frame came"
            );
        }
        unreachable!()
    }

    /// The next frame, by an interrupt.
    pub fn sleep(&mut self) -> Vec<u8> {
        loop {
            if let Some(frame) = self.take() {
                return frame;
            }
            assert!(
                os::is_readable(&self.interrupt, PATIENCE.as_millis() as i32),
                "an interrupt came"
            );
            let mut count = [0; 8];
            let mut file = File::from(self.interrupt.try_clone().expect("a file"));
            file.read_exact(&mut count).expect("a count");
            self.client.write(regs::VTEIMS, 7);
        }
    }

    /// All that was said before is done, and the queues are served.
    pub fn settle(&mut self) {
        settle(&mut self.client.socket);
    }
}
