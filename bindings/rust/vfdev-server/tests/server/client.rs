//! A client of vfio-user, in QEMU's place.

use crate::os::{self, Memory};
use crate::program::PATIENCE;
use std::io::{self, Read};
use std::os::fd::{AsFd, BorrowedFd, OwnedFd};
use std::os::unix::net::UnixStream;
use std::path::Path;
use std::sync::atomic::{AtomicU32, Ordering};
use vfdev_server::server::MOST_MESSAGES;

// Commands of the protocol.
pub const VERSION: u16 = 1;
pub const DMA_MAP: u16 = 2;
pub const DMA_UNMAP: u16 = 3;
pub const GET_INFO: u16 = 4;
pub const GET_REGION_INFO: u16 = 5;
pub const GET_IRQ_INFO: u16 = 7;
pub const SET_IRQS: u16 = 8;
pub const REGION_READ: u16 = 9;
pub const REGION_WRITE: u16 = 10;
pub const DEVICE_RESET: u16 = 13;

// Flags of a header.
const REPLY: u32 = 1;
const NO_REPLY: u32 = 0x10;
const ERROR: u32 = 0x20;

// Flags of memory.
pub const READ: u32 = 1;
pub const WRITE: u32 = 2;

/// A reply: the bytes behind its header, or the error.
pub type Reply = Result<Vec<u8>, u32>;

/// The page of BAR 0 that a client may be offered: where it begins, and how long it is.
pub const PAGE: u32 = 0x2000;
pub const PAGE_SIZE: u32 = 0x1000;

/// A connection to a function.
pub struct Client {
    pub socket: UnixStream,
    /// The page, where it was taken: registers there are read and written without messages.
    pub page: Option<Memory>,
    next: u16,
}

/// Bytes of 32-bit numbers.
pub fn words(numbers: &[u32]) -> Vec<u8> {
    numbers
        .iter()
        .flat_map(|number| number.to_le_bytes())
        .collect()
}

/// A whole message.
pub fn message(id: u16, command: u16, flags: u32, body: &[u8]) -> Vec<u8> {
    let mut bytes = Vec::new();
    bytes.extend(id.to_le_bytes());
    bytes.extend(command.to_le_bytes());
    bytes.extend(words(&[16 + body.len() as u32, flags, 0]));
    bytes.extend(body);
    bytes
}

/// The body of DMA_MAP.
pub fn map_body(flags: u32, offset: u64, address: u64, size: u64) -> Vec<u8> {
    let numbers = [offset, address, size].map(u64::to_le_bytes).concat();
    [words(&[32, flags]), numbers].concat()
}

// The body of REGION_READ and the front of REGION_WRITE: four bytes of BAR 0.
fn access(offset: u32) -> Vec<u8> {
    [u64::from(offset).to_le_bytes().to_vec(), words(&[0, 4])].concat()
}

fn number(bytes: &[u8], at: usize) -> u32 {
    u32::from_le_bytes(bytes[at..at + 4].try_into().expect("four bytes"))
}

/// Returns when the server has done all that was said to it before, at any of its sockets. A connection has so many messages in one turn at
/// most: the last of these is answered two turns behind the first one at least, so a whole turn has begun and ended meanwhile.
pub fn settle(socket: &mut UnixStream) {
    let ask = message(0xFFFF, REGION_READ, 0, &words(&[0, 0, 7, 2]));
    let count = 2 * MOST_MESSAGES + 1;
    os::send(socket, &ask.repeat(count), &[]).expect("messages");
    for _ in 0..count {
        let mut reply = [0; 34];
        socket.read_exact(&mut reply).expect("a reply");
        assert_eq!(reply[32..], [0x86, 0x80], "the vendor");
    }
}

impl Client {
    pub fn connect(path: &Path) -> Client {
        let socket = UnixStream::connect(path).expect("a server");
        socket.set_read_timeout(Some(PATIENCE)).expect("a limit");
        socket.set_write_timeout(Some(PATIENCE)).expect("a limit");
        Client {
            socket,
            page: None,
            next: 0,
        }
    }

    /// Sends a command, which wants a reply or not.
    pub fn send(
        &mut self,
        command: u16,
        body: &[u8],
        files: &[BorrowedFd<'_>],
        flags: u32,
    ) -> io::Result<()> {
        self.next = self.next.wrapping_add(1);
        os::send(
            &self.socket,
            &message(self.next, command, flags, body),
            files,
        )
    }

    /// The next reply.
    pub fn receive(&mut self) -> io::Result<Reply> {
        let mut header = [0; 16];
        self.socket.read_exact(&mut header)?;
        let mut body = vec![0; number(&header, 4) as usize - 16];
        self.socket.read_exact(&mut body)?;
        assert_eq!(number(&header, 8) & 0xF, REPLY, "a reply");
        assert_eq!(header[..2], self.next.to_le_bytes(), "to this message");
        Ok(match number(&header, 8) & ERROR {
            0 => Ok(body),
            _ => Err(number(&header, 12)),
        })
    }

    /// Sends a command, and waits for its reply.
    pub fn ask(
        &mut self,
        command: u16,
        body: &[u8],
        files: &[BorrowedFd<'_>],
    ) -> io::Result<Reply> {
        self.send(command, body, files, 0)?;
        self.receive()
    }

    /// The same, where the connection stands.
    pub fn call(&mut self, command: u16, body: &[u8], files: &[BorrowedFd<'_>]) -> Reply {
        self.ask(command, body, files).expect("a reply")
    }

    /// The first message: version 0.0, as QEMU proposes it.
    pub fn propose(&mut self) -> Vec<u8> {
        let body = [&[0; 4][..], b"{\"capabilities\":{\"max_msg_fds\":8}}\0"].concat();
        self.call(VERSION, &body, &[]).expect("a version")
    }

    /// A range of a file becomes memory.
    pub fn map(
        &mut self,
        file: impl AsFd,
        flags: u32,
        offset: u64,
        address: u64,
        size: u64,
    ) -> io::Result<Reply> {
        self.ask(
            DMA_MAP,
            &map_body(flags, offset, address, size),
            &[file.as_fd()],
        )
    }

    pub fn unmap(&mut self, address: u64, size: u64) -> io::Result<Reply> {
        let numbers = [address, size].map(u64::to_le_bytes).concat();
        self.ask(DMA_UNMAP, &[words(&[24, 0]), numbers].concat(), &[])
    }

    /// Gives eventfds to vectors, from this one on.
    pub fn arm(&mut self, first: u32, files: &[BorrowedFd<'_>]) -> io::Result<Reply> {
        self.ask(
            SET_IRQS,
            &words(&[20, 0x24, 2, first, files.len() as u32]),
            files,
        )
    }

    /// Takes all of them away.
    pub fn disarm(&mut self) -> Reply {
        self.call(SET_IRQS, &words(&[20, 0x21, 2, 0, 0]), &[])
    }

    /// Asks about a region, with so much room for the answer, and tells which files came beside it.
    pub fn ask_region(&mut self, index: u32, room: u32) -> (Vec<u8>, Vec<OwnedFd>) {
        let asked = words(&[room, 0, index, 0, 0, 0, 0, 0]);
        self.send(GET_REGION_INFO, &asked, &[], 0)
            .expect("a message");
        let is_there = os::is_readable(&self.socket, PATIENCE.as_millis() as i32);
        assert!(is_there, "a reply");
        let (mut reply, mut files) = ([0; 128], Vec::new());
        let received = vfdev_server::os::receive(&self.socket, &mut reply, &mut files);
        let count = received.expect("a reply").count;
        assert_eq!(number(&reply, 4) as usize, count, "a whole one");
        assert_eq!(number(&reply, 8), REPLY, "no error");
        (reply[16..count].to_vec(), files)
    }

    /// Takes the page, as QEMU does: it asks with little room first, and then with enough.
    pub fn take_page(&mut self) {
        self.ask_region(0, 32);
        let (_, mut files) = self.ask_region(0, 64);
        let file = files.pop().expect("a file");
        self.page = Some(Memory::of(file, PAGE.into(), PAGE_SIZE as usize));
    }

    // The word of a register in the page, where it is there.
    fn in_page(&self, offset: u32) -> Option<&AtomicU32> {
        let at = offset.checked_sub(PAGE).filter(|at| *at < PAGE_SIZE)?;
        Some(self.page.as_ref()?.register(at as usize))
    }

    /// Reads a register.
    pub fn read(&mut self, offset: u32) -> u32 {
        if let Some(word) = self.in_page(offset) {
            return word.load(Ordering::Acquire);
        }
        number(
            &self
                .call(REGION_READ, &access(offset), &[])
                .expect("a value"),
            16,
        )
    }

    /// Writes a register, as QEMU does: the message is posted.
    pub fn write(&mut self, offset: u32, value: u32) {
        if let Some(word) = self.in_page(offset) {
            return word.store(value, Ordering::Release);
        }
        let body = [access(offset), words(&[value])].concat();
        self.send(REGION_WRITE, &body, &[], NO_REPLY)
            .expect("a write");
    }

    /// Whether the server has closed the connection.
    pub fn is_closed(&mut self) -> bool {
        matches!(self.socket.read(&mut [0]), Ok(0) | Err(_))
    }
}
