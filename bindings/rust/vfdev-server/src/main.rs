//! The program: words, log, settings, and then the loop.
#![deny(unsafe_code)]

use clap::Parser;
use sd_notify::NotifyState;
use std::process::ExitCode;
use tracing::{error, info, warn};
use vfdev_server::options::Options;
use vfdev_server::os::allow_serving_alone;
use vfdev_server::reload::{read_settings, tell_systemd};
use vfdev_server::server::Server;

// The status where the words or the configuration are wrong, as clap has it too.
const WRONG_WORDS: u8 = 2;

fn main() -> ExitCode {
    let options = Options::parse();
    tracing_subscriber::fmt()
        .with_max_level(options.log_level)
        .with_writer(std::io::stderr)
        .with_target(false)
        .init();
    let settings = match read_settings(options.config.as_deref(), options.functions) {
        Ok(settings) => settings,
        Err(unread) => {
            error!("{unread}");
            return ExitCode::from(WRONG_WORDS);
        }
    };
    let mut server = match Server::new(&options, settings) {
        Ok(server) => server,
        Err(failed) => {
            error!("{failed}");
            return ExitCode::FAILURE;
        }
    };
    if options.no_seccomp {
        warn!("any call of the system is allowed, by --no-seccomp");
    } else if let Err(error) = allow_serving_alone() {
        error!(%error, "calls of the system can't be filtered: --no-seccomp goes without");
        return ExitCode::FAILURE;
    }
    info!(functions = options.functions, directory = %options.dir.display(), "ready");
    tell_systemd(NotifyState::Ready);
    let served = server.run();
    tell_systemd(NotifyState::Stopping);
    match served {
        Ok(()) => {
            info!("ended");
            ExitCode::SUCCESS
        }
        Err(failed) => {
            error!("{failed}");
            ExitCode::FAILURE
        }
    }
}
