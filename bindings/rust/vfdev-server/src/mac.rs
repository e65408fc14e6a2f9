//! Addresses of stations, as text.

use std::fmt;
use std::str::FromStr;

/// The address of one station, which is neither a group's nor 0.
///
/// ```
/// use vfdev_server::mac::Mac;
/// let mac: Mac = "02:82:59:00:00:0A".parse()?;
/// assert_eq!(mac.bytes(), [2, 0x82, 0x59, 0, 0, 10]);
/// assert_eq!(mac.to_string(), "02:82:59:00:00:0a");
/// # Ok::<(), vfdev_server::mac::NoMac>(())
/// ```
#[derive(Clone, Copy, Debug, PartialEq, Eq)]
pub struct Mac([u8; 6]);

/// Why a text is no address of a station.
#[derive(Clone, Debug, PartialEq, Eq)]
#[non_exhaustive]
pub enum NoMac {
    /// It isn't six bytes in hexadecimal digits, with colons between them.
    Malformed(String),
    /// It is the address of a group.
    Group(String),
    /// It is 0.
    Zero,
}

impl fmt::Display for NoMac {
    fn fmt(&self, f: &mut fmt::Formatter<'_>) -> fmt::Result {
        match self {
            NoMac::Malformed(text) => {
                write!(f, "'{text}' is no address, as 02:82:59:00:00:01 is one")
            }
            NoMac::Group(text) => {
                write!(f, "the address {text} is a group's, and not one station's")
            }
            NoMac::Zero => f.write_str("the address 00:00:00:00:00:00 is nobody's"),
        }
    }
}

impl std::error::Error for NoMac {}

impl FromStr for Mac {
    type Err = NoMac;

    fn from_str(text: &str) -> Result<Mac, NoMac> {
        let malformed = || NoMac::Malformed(text.to_owned());
        let mut bytes = [0; 6];
        let mut parts = text.split(':');
        for byte in &mut bytes {
            let part = parts.next().ok_or_else(malformed)?;
            if part.len() != 2 || !part.bytes().all(|digit| digit.is_ascii_hexdigit()) {
                return Err(malformed());
            }
            *byte = u8::from_str_radix(part, 16).map_err(|_| malformed())?;
        }
        if parts.next().is_some() {
            return Err(malformed());
        }
        match bytes {
            [0, 0, 0, 0, 0, 0] => Err(NoMac::Zero),
            [first, ..] if first & 1 == 1 => Err(NoMac::Group(text.to_owned())),
            _ => Ok(Mac(bytes)),
        }
    }
}

impl fmt::Display for Mac {
    fn fmt(&self, f: &mut fmt::Formatter<'_>) -> fmt::Result {
        let [a, b, c, d, e, g] = self.0;
        write!(f, "{a:02x}:{b:02x}:{c:02x}:{d:02x}:{e:02x}:{g:02x}")
    }
}

impl From<[u8; 6]> for Mac {
    fn from(bytes: [u8; 6]) -> Mac {
        Mac(bytes)
    }
}

impl Mac {
    /// Its six bytes, in the order in which they are sent.
    #[must_use]
    pub fn bytes(self) -> [u8; 6] {
        self.0
    }
}
