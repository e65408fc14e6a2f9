//! One virtual function, as the shell has it: its socket, its client, and the files of its vectors.

use crate::apart::Apart;
use crate::connection::Connection;
use crate::counters::Counters;
use crate::directory::{listen, Place, Unusable};
use crate::os::{EventFile, NotAnEventfd};
use crate::page::TransmitPage;
use crate::rests::Rests;
use std::io;
use std::os::fd::OwnedFd;
use std::os::unix::net::UnixListener;
use std::path::Path;
use tracing::debug;
use vfdev::card::VECTORS;

/// A virtual function.
#[derive(Debug)]
pub struct Function {
    /// Where clients come.
    pub listener: UnixListener,
    /// Where that stands.
    pub place: Place,
    /// The client that is attached. Others wait in the socket's queue.
    pub client: Option<Connection>,
    /// The page of its transmit registers, where its client is offered one.
    pub page: Option<TransmitPage>,
    /// No client is taken any more, until the configuration is read anew: one was hostile.
    pub is_barred: bool,
    /// Whether the client is watched for room for its reply, and not for messages.
    pub is_watched_for_room: bool,
    /// What is counted.
    pub counters: Counters,
    /// Until when its vectors rest.
    pub rests: Rests,
    vectors: [Option<EventFile>; VECTORS as usize],
}

impl Function {
    /// A function without a client, whose socket stands in the folder.
    ///
    /// # Errors
    /// Why there is no socket.
    pub fn new(directory: &Path, number: u8) -> Result<Function, Unusable> {
        let (listener, place) = listen(&directory.join(format!("vf{number}")))?;
        Ok(Function {
            listener,
            place,
            client: None,
            page: None,
            is_barred: false,
            is_watched_for_room: false,
            counters: Counters::default(),
            rests: Rests::default(),
            vectors: Default::default(),
        })
    }

    /// Gives files to vectors, from this one on, one for each.
    ///
    /// # Errors
    /// Where one of them is no eventfd.
    pub fn arm(&mut self, first: u32, files: Vec<OwnedFd>) -> Result<(), NotAnEventfd> {
        let vectors = self.vectors.iter_mut().skip(first as usize);
        for (vector, file) in vectors.zip(files) {
            *vector = Some(EventFile::new(file)?);
        }
        Ok(())
    }

    /// Closes the files of so many vectors, from this one on.
    pub fn disarm(&mut self, first: u32, count: u32) {
        let vectors = self.vectors.iter_mut().skip(first as usize);
        for vector in vectors.take(count as usize) {
            *vector = None;
        }
    }

    /// Signals each vector of the set: bit v for vector v. False where the write of one had to wait.
    pub fn signal(&mut self, set: u32) -> bool {
        for (number, vector) in self.vectors.iter().enumerate() {
            if set >> number & 1 == 0 {
                continue;
            }
            match vector.as_ref().map(EventFile::signal) {
                Some(Ok(())) => self.counters.interrupts += 1,
                Some(Err(error)) if error.kind() == io::ErrorKind::Interrupted => return false,
                Some(Err(error)) => debug!(number, %error, "a vector can't be signalled"),
                // (the card hands out vectors that have files alone)
                None => debug!(number, "a vector has no file"),
            }
        }
        true
    }

    /// The client goes, and with it all that it left here. Files that came from it and were not looked at are let go of apart; where that
    /// can't be they stay open, and nobody comes here any more.
    pub fn forget_client(&mut self, apart: &Apart) {
        self.is_watched_for_room = false;
        self.page = None;
        self.rests = Rests::default();
        self.disarm(0, VECTORS);
        let files = self.client.take().map(Connection::into_files);
        let files = files.unwrap_or_default();
        if files.is_empty() {
            return;
        }
        if let Err(files) = apart.let_go(files) {
            std::mem::forget(files);
            self.is_barred = true;
        }
    }
}
