//! One client's connection: bytes to whole messages, and replies back. Nothing here waits, and nothing grows: a message and a reply have a
//! room each, and while a reply isn't sent no more is read.

use crate::os::{self, MapError, NotAnEventfd};
use std::fmt;
use std::io::{self, Write};
use std::ops::Range;
use std::os::fd::{AsFd, BorrowedFd, OwnedFd};
use std::os::unix::net::UnixStream;
use std::sync::Arc;
use vfdev::card::{Breach, CardFault, HEADER, MOST_MESSAGE, ROOM};

/// Why a connection ended.
#[derive(Debug)]
#[non_exhaustive]
pub enum Ended {
    /// The client closed it, or is gone.
    Closed,
    /// It broke the protocol.
    Breach(Breach),
    /// Its message would have so many bytes, more than the longest one.
    TooLong(u32),
    /// More files came with a message than one may have.
    TooManyFiles,
    /// A file came that is neither memory nor an eventfd.
    StrayFile,
    /// Its memory can't be mapped or unmapped as it asks.
    Memory(MapError),
    /// A file that it sent for a vector can't be one.
    Vector(NotAnEventfd),
    /// It made the program wait for an eventfd.
    MadeWait,
    /// The card refuses what the shell asks for it.
    Card(CardFault),
    /// Its socket fails.
    Socket(io::Error),
    /// The program ends.
    Stopped,
}

impl Ended {
    /// A word for the reason, of which there are few: the label of a counter.
    #[must_use]
    pub fn word(&self) -> &'static str {
        match self {
            Ended::Closed => "closed",
            Ended::Breach(_) | Ended::TooLong(_) => "protocol",
            Ended::TooManyFiles | Ended::StrayFile => "files",
            Ended::Memory(_) => "memory",
            Ended::Vector(_) | Ended::MadeWait => "vector",
            Ended::Card(_) => "card",
            Ended::Socket(_) => "socket",
            Ended::Stopped => "stopped",
        }
    }

    /// Whether the client did what it may not do, or can't be served.
    #[must_use]
    pub fn is_by_force(&self) -> bool {
        !matches!(self, Ended::Closed | Ended::Stopped)
    }
}

impl fmt::Display for Ended {
    fn fmt(&self, f: &mut fmt::Formatter<'_>) -> fmt::Result {
        match self {
            Ended::Closed => f.write_str("the client closed it"),
            Ended::Breach(breach) => breach.fmt(f),
            Ended::TooLong(size) => {
                write!(
                    f,
                    "a message of {size} bytes is announced: the longest has {MOST_MESSAGE}"
                )
            }
            Ended::TooManyFiles => {
                write!(f, "more than {} files came with a message", os::MOST_FILES)
            }
            Ended::StrayFile => f.write_str("a file came that is neither a memfd nor an eventfd"),
            Ended::MadeWait => f.write_str("the write of an eventfd had to wait"),
            Ended::Memory(error) => error.fmt(f),
            Ended::Vector(error) => error.fmt(f),
            Ended::Card(fault) => write!(f, "the card refuses it: {fault}"),
            Ended::Socket(error) => write!(f, "its socket fails: {error}"),
            Ended::Stopped => f.write_str("the server ends"),
        }
    }
}

impl std::error::Error for Ended {}

/// A client's connection.
#[derive(Debug)]
pub struct Connection {
    socket: UnixStream,
    message: Box<[u8; MOST_MESSAGE]>,
    // how many bytes of the message have come
    filled: usize,
    // the files that came beside them
    files: Vec<OwnedFd>,
    room: Box<[u8; ROOM]>,
    // the bytes of the room that are still to be sent
    unsent: Range<usize>,
    // the file that goes beside the first of them
    beside: Option<Arc<OwnedFd>>,
}

/// A whole message, with its files, and the room for its reply.
#[derive(Debug)]
pub struct Message<'a> {
    /// Its bytes.
    pub bytes: &'a [u8],
    /// The files that came with it.
    pub files: Vec<OwnedFd>,
    /// Where its reply goes.
    pub room: &'a mut [u8; ROOM],
}

impl Connection {
    /// The connection of a client that has said nothing.
    ///
    /// # Errors
    /// Where the socket can't be set to not wait.
    pub fn new(socket: UnixStream) -> io::Result<Connection> {
        socket.set_nonblocking(true)?;
        Ok(Connection {
            socket,
            message: Box::new([0; MOST_MESSAGE]),
            filled: 0,
            files: Vec::new(),
            room: Box::new([0; ROOM]),
            unsent: 0..0,
            beside: None,
        })
    }

    /// Reads on, up to the end of a message. `None`: there is nothing to be read now.
    ///
    /// The header is read by itself, and then no byte more than the message has. So the files that came are those of this message.
    ///
    /// # Errors
    /// Why the connection ends.
    pub fn read(&mut self) -> Result<Option<Message<'_>>, Ended> {
        loop {
            let whole = self.length()?;
            if self.filled == whole {
                break;
            }
            let rest = &mut self.message[self.filled..whole];
            match os::receive(&self.socket, rest, &mut self.files) {
                Ok(received) if received.lost_files => return Err(Ended::TooManyFiles),
                Ok(received) if received.count == 0 => return Err(Ended::Closed),
                Ok(received) => {
                    self.filled += received.count;
                    if !self.files.iter().all(|file| os::is_wanted(file.as_fd())) {
                        return Err(Ended::StrayFile);
                    }
                }
                Err(error) => match error.kind() {
                    io::ErrorKind::WouldBlock => return Ok(None),
                    io::ErrorKind::Interrupted => {}
                    io::ErrorKind::ConnectionReset => return Err(Ended::Closed),
                    _ => return Err(Ended::Socket(error)),
                },
            }
        }
        let length = std::mem::take(&mut self.filled);
        Ok(Some(Message {
            bytes: &self.message[..length],
            files: std::mem::take(&mut self.files),
            room: &mut self.room,
        }))
    }

    // How many bytes the message has, as far as that is known. A header that names less than itself is a message of its own, which the
    // card ends the connection for.
    fn length(&self) -> Result<usize, Ended> {
        if self.filled < HEADER {
            return Ok(HEADER);
        }
        let mut size = [0; 4];
        size.copy_from_slice(&self.message[4..8]);
        let size = u32::from_ne_bytes(size);
        match usize::try_from(size) {
            Ok(length) if length <= MOST_MESSAGE => Ok(length.max(HEADER)),
            _ => Err(Ended::TooLong(size)),
        }
    }

    /// So many bytes of the room.
    #[must_use]
    pub fn laid(&self, count: usize) -> &[u8] {
        &self.room[..count.min(ROOM)]
    }

    /// Sends so many bytes of the room, and the file beside them, as far as the socket takes them.
    ///
    /// # Errors
    /// Why the connection ends.
    pub fn reply(&mut self, count: usize, beside: Option<Arc<OwnedFd>>) -> Result<(), Ended> {
        self.unsent = 0..count.min(ROOM);
        self.beside = beside;
        self.send()
    }

    /// Sends what is left of a reply, as far as the socket takes it.
    ///
    /// # Errors
    /// Why the connection ends.
    pub fn send(&mut self) -> Result<(), Ended> {
        while !self.unsent.is_empty() {
            let bytes = &self.room[self.unsent.clone()];
            let sent = match &self.beside {
                Some(file) => os::send_with_file(&self.socket, bytes, file.as_fd()),
                None => (&self.socket).write(bytes),
            };
            match sent {
                Ok(0) => return Err(Ended::Closed),
                Ok(count) => {
                    self.unsent.start += count;
                    self.beside = None;
                }
                Err(error) => match error.kind() {
                    io::ErrorKind::WouldBlock => break,
                    io::ErrorKind::Interrupted => {}
                    io::ErrorKind::BrokenPipe | io::ErrorKind::ConnectionReset => {
                        return Err(Ended::Closed)
                    }
                    _ => return Err(Ended::Socket(error)),
                },
            }
        }
        Ok(())
    }

    /// The files of a message that isn't whole, of which some may be of any kind.
    #[must_use]
    pub fn into_files(self) -> Vec<OwnedFd> {
        self.files
    }

    /// Whether a part of a reply isn't sent.
    #[must_use]
    pub fn is_replying(&self) -> bool {
        !self.unsent.is_empty()
    }
}

impl AsFd for Connection {
    fn as_fd(&self) -> BorrowedFd<'_> {
        self.socket.as_fd()
    }
}

#[cfg(test)]
mod tests {
    use super::*;
    use std::os::unix::net::UnixStream;

    fn pair() -> (UnixStream, Connection) {
        let (client, server) = UnixStream::pair().expect("a pair of sockets");
        (client, Connection::new(server).expect("a connection"))
    }

    fn message(size: u32, length: usize) -> Vec<u8> {
        let mut bytes = vec![0x5A; length];
        bytes[4..8].copy_from_slice(&size.to_ne_bytes());
        bytes
    }

    // A message that comes byte by byte, and two that come at once, are whole messages, each by itself.
    #[test]
    fn messages_are_cut_where_they_end() {
        let (mut client, mut connection) = pair();
        let bytes = message(40, 40);
        for (count, byte) in bytes.iter().enumerate() {
            assert!(matches!(connection.read(), Ok(None)), "after {count} bytes");
            client.write_all(&[*byte]).expect("a byte");
        }
        assert!(matches!(connection.read(), Ok(Some(message)) if message.bytes == bytes));
        client
            .write_all(&[message(16, 16), message(4128, 4128)].concat())
            .expect("two messages");
        for length in [16, 4128] {
            assert!(
                matches!(connection.read(), Ok(Some(message)) if message.bytes.len() == length)
            );
        }
        assert!(matches!(connection.read(), Ok(None)));
        drop(client);
        assert!(matches!(connection.read(), Err(Ended::Closed)));
    }

    // A header that names too much ends the connection at once, and one that names too little is a message of a header.
    #[test]
    fn sizes_are_not_trusted() {
        for size in [4129, u32::MAX] {
            let (mut client, mut connection) = pair();
            client.write_all(&message(size, 16)).expect("a header");
            assert!(matches!(connection.read(), Err(Ended::TooLong(told)) if told == size));
        }
        for size in [0, 15] {
            let (mut client, mut connection) = pair();
            client.write_all(&message(size, 16)).expect("a header");
            assert!(matches!(connection.read(), Ok(Some(message)) if message.bytes.len() == 16));
        }
    }

    // A file goes beside the first byte of its reply, and beside no other reply.
    #[test]
    fn a_file_goes_beside_its_reply() {
        let (client, mut connection) = pair();
        let page = os::SharedPage::new(0).expect("a page");
        page.write(0, 0x5A);
        for beside in [Some(page.file()), None] {
            let due = usize::from(beside.is_some());
            connection.reply(16, beside).expect("a reply");
            let (mut bytes, mut files) = ([0; 64], Vec::new());
            let received = os::receive(&client, &mut bytes, &mut files).expect("bytes");
            assert_eq!((received.count, files.len()), (16, due));
        }
    }

    // A reply that the socket doesn't take is sent later, whole.
    #[test]
    fn a_reply_waits_for_its_client() {
        use std::io::Read;
        let (mut client, mut connection) = pair();
        connection.room.fill(7);
        let mut sent = 0;
        while !connection.is_replying() {
            connection.reply(ROOM, None).expect("a reply");
            sent += ROOM;
        }
        let mut bytes = vec![0; sent];
        client.set_nonblocking(true).expect("a socket");
        let mut count = 0;
        while count < sent {
            match client.read(&mut bytes[count..]) {
                Ok(more) => count += more,
                Err(_) => connection.send().expect("the rest"),
            }
        }
        assert!(!connection.is_replying());
        assert!(bytes.iter().all(|byte| *byte == 7));
    }
}
