//! Which files can be read or written (epoll). A file is told of in each turn as long as it can be, so whoever leaves something unread
//! hears of it again.

use super::checked;
use std::io;
use std::os::fd::{AsFd, AsRawFd, FromRawFd, OwnedFd};
use std::os::raw::c_int;
use std::ptr;
use std::time::Duration;

// How many files one turn tells of at most. The others come in the next turn, before these.
const MOST_READY: usize = 64;

/// What is to be told of a file. That its other end is gone is always told.
#[derive(Clone, Copy, Debug, PartialEq, Eq)]
pub enum Interest {
    /// That it can be read.
    Read,
    /// That it can be written.
    Write,
}

impl Interest {
    fn events(self) -> u32 {
        let events = match self {
            Interest::Read => libc::EPOLLIN,
            Interest::Write => libc::EPOLLOUT,
        };
        events as u32
    }
}

/// How long it is waited for something to tell.
#[derive(Clone, Copy, Debug, PartialEq, Eq)]
pub enum Patience {
    /// Not at all.
    None,
    /// So long.
    For(Duration),
    /// Until there is something.
    Endless,
}

/// A set of files that are watched, each with a number of the caller's.
#[derive(Debug)]
pub struct Poller {
    file: OwnedFd,
}

impl Poller {
    /// A set that watches none.
    pub fn new() -> io::Result<Poller> {
        // SAFETY: the call takes a number alone.
        let file = checked(unsafe { libc::epoll_create1(libc::EPOLL_CLOEXEC) })?;
        // SAFETY: the call has just opened this file, and nobody else has it.
        let file = unsafe { OwnedFd::from_raw_fd(file) };
        Ok(Poller { file })
    }

    /// Watches one more file. It is watched until it is closed or forgotten.
    pub fn watch(&self, file: impl AsFd, number: u64, interest: Interest) -> io::Result<()> {
        self.control(libc::EPOLL_CTL_ADD, file, number, interest)
    }

    /// Watches a file for something else.
    pub fn change(&self, file: impl AsFd, number: u64, interest: Interest) -> io::Result<()> {
        self.control(libc::EPOLL_CTL_MOD, file, number, interest)
    }

    /// Watches a file no more.
    pub fn forget(&self, file: impl AsFd) -> io::Result<()> {
        self.control(libc::EPOLL_CTL_DEL, file, 0, Interest::Read)
    }

    fn control(
        &self,
        what: c_int,
        file: impl AsFd,
        number: u64,
        interest: Interest,
    ) -> io::Result<()> {
        let mut event = libc::epoll_event {
            events: interest.events(),
            u64: number,
        };
        let (set, file) = (self.file.as_raw_fd(), file.as_fd().as_raw_fd());
        // SAFETY: both files are open, and the pointer leads to one live value, which the call only reads.
        checked(unsafe { libc::epoll_ctl(set, what, file, &mut event) }).map(drop)
    }

    /// Puts the numbers of the files of which there is something to tell into `ready`, in place of what it has. Where there is none it
    /// waits until there is, for as long as `patience` says. A signal ends the wait with none.
    pub fn wait(&self, ready: &mut Vec<u64>, patience: Patience) -> io::Result<()> {
        let mut events = [libc::epoll_event { events: 0, u64: 0 }; MOST_READY];
        ready.clear();
        match checked(self.wait_for(&mut events, patience)) {
            Ok(count) => {
                let count = usize::try_from(count).unwrap_or(0);
                ready.extend(events.iter().take(count).map(|event| event.u64));
                Ok(())
            }
            Err(error) if error.kind() == io::ErrorKind::Interrupted => Ok(()),
            Err(error) => Err(error),
        }
    }

    // The call alone: how many events it wrote, or -1.
    fn wait_for(&self, events: &mut [libc::epoll_event; MOST_READY], patience: Patience) -> c_int {
        let most = MOST_READY as c_int;
        let (set, room) = (self.file.as_raw_fd(), events.as_mut_ptr());
        let time = match patience {
            // SAFETY: the file is open, and the pointer leads to room for as many events as the call may write.
            Patience::None => return unsafe { libc::epoll_wait(set, room, most, 0) },
            // SAFETY: as above.
            Patience::Endless => return unsafe { libc::epoll_wait(set, room, most, -1) },
            Patience::For(time) => time,
        };
        let exact = libc::timespec {
            tv_sec: time.as_secs() as libc::time_t,
            tv_nsec: time.subsec_nanos().into(),
        };
        let no_mask = ptr::null::<libc::sigset_t>();
        // SAFETY: as above; the time is one live value, which the call only reads, and there is no mask, whose size is then not looked at.
        let answer = unsafe {
            libc::syscall(
                libc::SYS_epoll_pwait2,
                set,
                room,
                most,
                &exact as *const libc::timespec,
                no_mask,
                0usize,
            )
        };
        if answer >= 0 || io::Error::last_os_error().raw_os_error() != Some(libc::ENOSYS) {
            return answer as c_int;
        }
        // a kernel before 5.11 counts milliseconds alone
        let millis = (time.as_micros() + 999) / 1000;
        let millis = c_int::try_from(millis).unwrap_or(c_int::MAX);
        // SAFETY: as above.
        unsafe { libc::epoll_wait(set, room, most, millis) }
    }
}
