//! The wire: where frames leave to, and come from. As on a cable, a frame for which there is no room is lost.

use crate::directory::{bind_datagram, Place, Unusable};
use crate::options::WireWord;
use crate::os::open_tap;
use std::fmt;
use std::fs::File;
use std::io::{self, Read, Write};
use std::os::fd::{AsFd, BorrowedFd};
use std::os::unix::net::UnixDatagram;
use std::path::PathBuf;
use vfdev::MOST_FRAME;

/// A wire.
#[derive(Debug)]
pub enum Wire {
    /// A tap device.
    Tap(File),
    /// A datagram socket, and the path of the one that it sends to.
    Unix {
        /// The socket.
        socket: UnixDatagram,
        /// Where frames leave to. Nobody needs to be there.
        peer: PathBuf,
        /// Where the socket stands.
        place: Place,
    },
}

/// Why there is no wire.
#[derive(Debug)]
#[non_exhaustive]
pub enum NoWire {
    /// The tap of this name can't be opened.
    Tap(String, io::Error),
    /// The socket can't be used.
    Unix(Unusable),
}

impl fmt::Display for NoWire {
    fn fmt(&self, f: &mut fmt::Formatter<'_>) -> fmt::Result {
        match self {
            NoWire::Tap(name, error) => write!(f, "the tap '{name}' can't be opened: {error}"),
            NoWire::Unix(unusable) => unusable.fmt(f),
        }
    }
}

impl std::error::Error for NoWire {}

impl Wire {
    /// Opens the wire that the command line names.
    ///
    /// # Errors
    /// Why there is none.
    pub fn open(word: &WireWord) -> Result<Wire, NoWire> {
        match word {
            WireWord::Tap(name) => match open_tap(name) {
                Ok(file) => Ok(Wire::Tap(file)),
                Err(error) => Err(NoWire::Tap(name.clone(), error)),
            },
            WireWord::Unix(path, peer) => {
                let (socket, place) = bind_datagram(path).map_err(NoWire::Unix)?;
                let peer = peer.clone();
                Ok(Wire::Unix {
                    socket,
                    peer,
                    place,
                })
            }
        }
    }

    /// Sends a frame. It is lost where that fails, as where nobody is there or there is no room.
    ///
    /// # Errors
    /// Why it is lost.
    pub fn send(&mut self, frame: &[u8]) -> io::Result<()> {
        let count = match self {
            Wire::Tap(file) => file.write(frame)?,
            Wire::Unix { socket, peer, .. } => socket.send_to(frame, peer)?,
        };
        match count == frame.len() {
            true => Ok(()),
            false => Err(io::ErrorKind::WriteZero.into()),
        }
    }

    /// Takes the next frame, into the front of the room. `None`: there is none now. Of a frame that is longer than the room the rest is lost.
    ///
    /// # Errors
    /// Where the wire can't be read any more.
    pub fn receive(&mut self, room: &mut [u8]) -> io::Result<Option<usize>> {
        let taken = match self {
            Wire::Tap(file) => file.read(room),
            Wire::Unix { socket, .. } => socket.recv(room),
        };
        match taken {
            Ok(count) => Ok(Some(count)),
            Err(error) => match error.kind() {
                io::ErrorKind::WouldBlock | io::ErrorKind::Interrupted => Ok(None),
                _ => Err(error),
            },
        }
    }
}

/// Frames that came from a wire, behind one another.
#[derive(Debug)]
pub struct Arrived {
    // room for as many frames as there may be, each one byte too long, so that it is seen to be
    bytes: Box<[u8]>,
    ends: Vec<usize>,
    most: usize,
}

impl Arrived {
    /// Room for so many frames.
    pub fn new(most: usize) -> Arrived {
        Arrived {
            bytes: vec![0; most * (MOST_FRAME + 1)].into(),
            ends: Vec::with_capacity(most),
            most,
        }
    }

    /// Takes the frames that are there now in place of the former ones, until the room is full.
    ///
    /// # Errors
    /// Where the wire can't be read any more. The frames before that are there.
    pub fn take(&mut self, wire: &mut Wire) -> io::Result<()> {
        self.ends.clear();
        let mut used = 0;
        for _ in 0..self.most {
            match wire.receive(&mut self.bytes[used..][..MOST_FRAME + 1])? {
                Some(length) => used += length,
                None => break,
            }
            self.ends.push(used);
        }
        Ok(())
    }

    /// Their bytes, and where each ends.
    pub fn frames(&self) -> (&[u8], &[usize]) {
        let used = self.ends.last().map_or(0, |end| *end);
        (&self.bytes[..used], &self.ends)
    }
}

impl AsFd for Wire {
    fn as_fd(&self) -> BorrowedFd<'_> {
        match self {
            Wire::Tap(file) => file.as_fd(),
            Wire::Unix { socket, .. } => socket.as_fd(),
        }
    }
}
