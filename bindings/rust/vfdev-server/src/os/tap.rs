//! A tap device of the kernel.

use super::checked;
use std::fs::{File, OpenOptions};
use std::io;
use std::os::fd::AsRawFd;
use std::os::unix::fs::OpenOptionsExt;

// Makes an opened /dev/net/tun the end of an interface: _IOW('T', 202, int) of linux/if_tun.h, which older releases of libc lack.
const TUNSETIFF: libc::c_ulong = 0x4004_54CA;

/// Opens the tap of that name, which is made where there is none and that is allowed. A read gives one frame and a write takes one; neither
/// waits.
pub fn open_tap(name: &str) -> io::Result<File> {
    let file = OpenOptions::new()
        .read(true)
        .write(true)
        .custom_flags(libc::O_NONBLOCK)
        .open("/dev/net/tun")?;
    // SAFETY: all zeros is a value of each field of the request.
    let mut request: libc::ifreq = unsafe { std::mem::zeroed() };
    // (the last byte of the room stays the zero that ends a name)
    if name.is_empty() || name.len() >= request.ifr_name.len() {
        let why = "a name of a network interface has 1 to 15 bytes";
        return Err(io::Error::new(io::ErrorKind::InvalidInput, why));
    }
    for (to, from) in request.ifr_name.iter_mut().zip(name.bytes()) {
        *to = from as libc::c_char;
    }
    request.ifr_ifru.ifru_flags = (libc::IFF_TAP | libc::IFF_NO_PI) as libc::c_short;
    // SAFETY: the file is open, and the request is one live value of the type that this call reads and writes.
    checked(unsafe { libc::ioctl(file.as_raw_fd(), TUNSETIFF, &mut request) })?;
    Ok(file)
}
