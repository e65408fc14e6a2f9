//! The configuration is read anew, at SIGHUP: policies change while guests run.

use crate::config::{Grant, Settings};
use crate::server::{Failed, Server};
use std::fmt;
use std::fs;
use std::io;
use std::path::Path;
use tracing::{error, info, warn};

/// Why a configuration can't be read.
#[derive(Debug)]
pub struct Unread {
    path: String,
    why: String,
}

impl fmt::Display for Unread {
    fn fmt(&self, f: &mut fmt::Formatter<'_>) -> fmt::Result {
        write!(f, "{}: {}", self.path, self.why)
    }
}

impl std::error::Error for Unread {}

// The longest configuration that is read, in bytes: 64 functions with all that may be said of them are far below it.
const MOST_BYTES: u64 = 1 << 20;

/// Reads the file of `--config`, or takes what holds where there is none.
///
/// # Errors
/// The file, the line and the reason.
pub fn read_settings(path: Option<&Path>, functions: u8) -> Result<Settings, Unread> {
    let Some(path) = path else {
        return Ok(Settings::without_file(functions));
    };
    let unread = |why: String| Unread {
        path: path.display().to_string(),
        why,
    };
    let told = fs::metadata(path).map_err(|error| unread(error.to_string()))?;
    if told.len() > MOST_BYTES {
        return Err(unread(format!(
            "has {} bytes: a configuration has {MOST_BYTES} at most",
            told.len()
        )));
    }
    let text = fs::read_to_string(path).map_err(|error| unread(error.to_string()))?;
    Settings::parse(&text, functions).map_err(|refused| unread(refused.to_string()))
}

/// How a function's driver learns of a change.
#[derive(Clone, Copy, Debug, PartialEq, Eq)]
enum Telling {
    /// Nothing has changed for it.
    Nothing,
    /// By the host's own message: it looks at its link, or begins anew.
    Message,
    /// By a reset: what it had as its address or its port VLAN is another now.
    Reset,
}

fn telling(old: Option<&Grant>, new: Option<&Grant>) -> Telling {
    match (old, new) {
        (None, None) => Telling::Nothing,
        (Some(old), Some(new)) if old.policy == new.policy => Telling::Nothing,
        (Some(old), Some(new))
            if old.policy.address == new.policy.address && old.policy.vlans == new.policy.vlans =>
        {
            Telling::Message
        }
        (Some(_), Some(_)) => Telling::Reset,
        (None, Some(_)) | (Some(_), None) => Telling::Message,
    }
}

impl Server {
    /// Reads the configuration anew, and gives each function what it has there. Where that can't be, all stays as it was.
    pub(crate) fn reload(&mut self) -> Result<(), Failed> {
        self.listen_again();
        match read_settings(self.config.as_deref(), self.count()) {
            Err(unread) => error!(%unread, "the configuration is refused, and the old one stays"),
            Ok(new) if !self.can_become(&new) => error!(
                "the configuration is refused, and the old one stays: `vlans`, `default_function` and `offloads` at its top are set when the program starts"
            ),
            Ok(new) => self.become_as(new),
        }
        Ok(())
    }

    fn can_become(&self, new: &Settings) -> bool {
        let old = &self.settings;
        (&old.ids, old.default_function, old.offloads)
            == (&new.ids, new.default_function, new.offloads)
    }

    // Policies go before others come, so that two functions may exchange their addresses.
    fn become_as(&mut self, mut new: Settings) {
        let old = std::mem::take(&mut self.settings.grants);
        let address = |grant: &Option<Grant>| grant.as_ref().map(|grant| grant.policy.address);
        for (function, (old, new)) in (0u8..).zip(old.iter().zip(&new.grants)) {
            if old.is_some() && address(old) != address(new) {
                if let Err(fault) = self.card.dismiss(function) {
                    error!(function, %fault, "the policy stays");
                }
            }
        }
        let mut losers = 0u64;
        for (function, (old, new)) in (0u8..).zip(old.iter().zip(&mut new.grants)) {
            if old.as_ref().map(|grant| grant.policy) != new.as_ref().map(|grant| grant.policy) {
                self.admit(function, new, &mut losers);
            }
        }
        for (function, (old, new)) in (0u8..).zip(old.iter().zip(&new.grants)) {
            let telling = match losers >> function & 1 {
                1 => Telling::Reset,
                _ => telling(old.as_ref(), new.as_ref()),
            };
            self.tell(function, telling);
        }
        self.settings = new;
        info!("the configuration is taken");
    }

    // Gives a function its policy. One that the card refuses is none.
    fn admit(&mut self, function: u8, grant: &mut Option<Grant>, losers: &mut u64) {
        let Some(Grant { name, policy }) = grant.as_ref() else {
            return;
        };
        match self.card.admit(function, policy) {
            Ok(None) => {}
            Ok(Some(loser)) => {
                warn!(function, %name, loser, "the address is taken from a function that had chosen it");
                *losers |= 1 << loser;
            }
            Err(refusal) => {
                error!(function, %name, %refusal, "the policy is refused");
                *grant = None;
            }
        }
    }

    // A driver is told, where there is one. A message that has to wait is given after its client's next one.
    fn tell(&mut self, function: u8, telling: Telling) {
        if self.functions[usize::from(function)].client.is_none() {
            return;
        }
        match telling {
            Telling::Nothing => {}
            Telling::Message => {
                if !self.card.notify(function) {
                    self.untold |= 1 << function;
                }
            }
            Telling::Reset => self.reset(function),
        }
    }
}

/// Tells systemd that the program is ready, or ends, where it asks for that.
pub fn tell_systemd(state: sd_notify::NotifyState) {
    let told: io::Result<()> = sd_notify::notify(false, &[state]);
    if let Err(error) = told {
        warn!(%error, "systemd can't be told");
    }
}
