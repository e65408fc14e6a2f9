//! The words of the command line.

use crate::offloads;
use clap::Parser;
use std::path::PathBuf;
use std::str::FromStr;
use vfdev::card::Offloads;

/// Serves the virtual functions of a proved network card to the guests of stock QEMU.
///
/// Each function has a UNIX socket in the folder, vf0 and up, to which one QEMU connects by -device vfio-user-pci. The socket `metrics` there
/// tells the counters of all functions, as text for Prometheus. SIGHUP has the configuration read anew, and SIGTERM ends the program.
#[derive(Clone, Debug, Parser)]
#[command(name = "vfdev-server", version)]
pub struct Options {
    /// How many virtual functions the card has, 1 to 64
    #[arg(long, value_name = "N", value_parser = clap::value_parser!(u8).range(1..=64))]
    pub functions: u8,

    /// The folder of the sockets. It is made with mode 0700 where it is missing
    #[arg(long, value_name = "DIR")]
    pub dir: PathBuf,

    /// The configuration, in TOML. Without it function i has the address 02:82:59:00:00:(i+1), and no VLAN
    #[arg(long, value_name = "FILE")]
    pub config: Option<PathBuf>,

    /// Where frames leave to and come from: tap:NAME, a tap device of that name; or unix:PATH,PEER, a datagram socket at PATH which sends to
    /// the one at PEER. Without it there is no wire
    #[arg(long, value_name = "WIRE", value_parser = WireWord::from_str)]
    pub wire: Option<WireWord>,

    /// How long a frame may be, in bytes without FCS: 1518, or 9018 for jumbo frames; any number between them is taken too
    #[arg(long, value_name = "BYTES", default_value_t = 1518, value_parser = clap::value_parser!(u16).range(1518..=9018))]
    pub frame: u16,

    /// What the card does for the drivers of its guests: all, none, or names of vlan, checksum, segmentation, auto-mask, legacy-receive, throttle
    /// and receive-checksum with commas between. It holds in place of the configuration's `offloads`; without both it is all but
    /// throttle
    #[arg(long, value_name = "LIST", value_parser = offloads::parse)]
    pub offloads: Option<Offloads>,

    /// How many microseconds the program looks for work before it sleeps, 0 to 1000000. A processor is busy meanwhile
    #[arg(long, value_name = "US", default_value_t = 0, value_parser = clap::value_parser!(u32).range(0..=1_000_000))]
    pub poll: u32,

    /// Offer each client its transmit registers as memory, so that a driver's tails are no messages. The program looks there for them, also while
    /// it sleeps otherwise
    #[arg(long)]
    pub transmit_page: bool,

    /// Allow the program any call of the system, and not those alone that it needs to serve: for a debugger, or for a C library that makes
    /// others
    #[arg(long)]
    pub no_seccomp: bool,

    /// Which lines are logged: error, warn, info, debug or trace
    #[arg(long, value_name = "LEVEL", default_value = "info", value_parser = level)]
    pub log_level: tracing::Level,
}

/// What is said of the wire.
#[derive(Clone, Debug, PartialEq, Eq)]
pub enum WireWord {
    /// A tap device of this name.
    Tap(String),
    /// A datagram socket at the first path, which sends to the one at the second path.
    Unix(PathBuf, PathBuf),
}

impl FromStr for WireWord {
    type Err = String;

    /// ```
    /// use vfdev_server::options::WireWord;
    /// assert_eq!("tap:tap0".parse(), Ok(WireWord::Tap("tap0".to_owned())));
    /// assert_eq!("unix:/a,/b".parse(), Ok(WireWord::Unix("/a".into(), "/b".into())));
    /// assert!("unix:/a".parse::<WireWord>().is_err());
    /// ```
    fn from_str(word: &str) -> Result<WireWord, String> {
        if let Some(name) = word.strip_prefix("tap:") {
            return match (1..=15).contains(&name.len()) {
                true => Ok(WireWord::Tap(name.to_owned())),
                false => Err("the name of a tap has 1 to 15 bytes".to_owned()),
            };
        }
        let paths = word
            .strip_prefix("unix:")
            .and_then(|rest| rest.split_once(','));
        match paths {
            Some((path, peer)) if !path.is_empty() && !peer.is_empty() => {
                Ok(WireWord::Unix(path.into(), peer.into()))
            }
            _ => Err("a wire is tap:NAME or unix:PATH,PEER".to_owned()),
        }
    }
}

fn level(word: &str) -> Result<tracing::Level, String> {
    match word {
        "error" => Ok(tracing::Level::ERROR),
        "warn" => Ok(tracing::Level::WARN),
        "info" => Ok(tracing::Level::INFO),
        "debug" => Ok(tracing::Level::DEBUG),
        "trace" => Ok(tracing::Level::TRACE),
        _ => Err("a level is error, warn, info, debug or trace".to_owned()),
    }
}
