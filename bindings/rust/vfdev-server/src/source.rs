//! What the loop waits for.

/// Something that the loop waits for, each with a number for epoll.
#[derive(Clone, Copy, Debug, PartialEq, Eq)]
pub enum Source {
    /// A function's client.
    Client(u8),
    /// A function's socket, at which a client waits.
    Listener(u8),
    /// The wire.
    Wire,
    /// The socket of the counters.
    Metrics,
    /// SIGHUP came.
    Reload,
    /// SIGTERM or SIGINT came.
    Stop,
}

// A kind stands above the number of a function.
const CLIENT: u64 = 0;
const LISTENER: u64 = 1;
const WIRE: u64 = 2;
const METRICS: u64 = 3;
const RELOAD: u64 = 4;
const STOP: u64 = 5;

impl Source {
    /// Its number.
    #[must_use]
    pub fn number(self) -> u64 {
        let (kind, function) = match self {
            Source::Client(function) => (CLIENT, function),
            Source::Listener(function) => (LISTENER, function),
            Source::Wire => (WIRE, 0),
            Source::Metrics => (METRICS, 0),
            Source::Reload => (RELOAD, 0),
            Source::Stop => (STOP, 0),
        };
        kind << 8 | u64::from(function)
    }

    /// The one of that number.
    #[must_use]
    pub fn of(number: u64) -> Option<Source> {
        let function = (number & 0xFF) as u8;
        match number >> 8 {
            CLIENT => Some(Source::Client(function)),
            LISTENER => Some(Source::Listener(function)),
            WIRE => Some(Source::Wire),
            METRICS => Some(Source::Metrics),
            RELOAD => Some(Source::Reload),
            STOP => Some(Source::Stop),
            _ => None,
        }
    }
}

#[cfg(test)]
mod tests {
    use super::*;

    #[test]
    fn each_number_leads_back() {
        for source in [
            Source::Client(0),
            Source::Client(63),
            Source::Listener(63),
            Source::Wire,
            Source::Metrics,
            Source::Reload,
            Source::Stop,
        ] {
            assert_eq!(Source::of(source.number()), Some(source));
        }
        assert_eq!(Source::of(u64::MAX), None);
    }
}
