//! The program's filter of its system calls: all other tests run under it.

use crate::program::{wait_until, Folder, Server, PATIENCE};
use std::fs;
use std::os::unix::net::UnixDatagram;
use std::process::{Command, Stdio};

// A number of /proc/PID/status, by its name.
fn status(process: &str, name: &str) -> Option<u32> {
    let text = fs::read_to_string(format!("/proc/{process}/status")).expect("a process");
    let mut lines = text.lines();
    lines.find_map(|line| {
        line.strip_prefix(name)?
            .strip_prefix(':')?
            .trim()
            .parse()
            .ok()
    })
}

#[test]
fn a_filter_is_in_force() {
    let with = Server::new(1);
    let process = with.process().to_string();
    // (its sockets are there before it serves)
    wait_until("the filter", || status(&process, "Seccomp") == Some(2));
    assert_eq!(status(&process, "NoNewPrivs"), Some(1));
    // (what runs the tests may have filters of its own, and a kernel before 5.9 doesn't count them)
    let ours = status("self", "Seccomp_filters");
    assert_eq!(
        status(&process, "Seccomp_filters"),
        ours.map(|count| count + 1)
    );
    let without = Server::with(Folder::new(), 1, &["--no-seccomp"]);
    without.wait_for_line(&["any call of the system is allowed, by --no-seccomp"]);
    let process = without.process().to_string();
    assert_eq!(status(&process, "Seccomp"), status("self", "Seccomp"));
    assert_eq!(status(&process, "Seccomp_filters"), ours);
}

// Under the filter systemd is told too.
#[test]
fn systemd_is_told() {
    let folder = Folder::new();
    let place = folder.at("notify");
    let systemd = UnixDatagram::bind(&place).expect("a socket");
    systemd.set_read_timeout(Some(PATIENCE)).expect("a limit");
    let told = || {
        let mut room = [0; 64];
        let count = systemd.recv(&mut room).expect("a message");
        String::from_utf8_lossy(&room[..count]).into_owned()
    };
    let mut child = Command::new(env!("CARGO_BIN_EXE_vfdev-server"))
        .args(["--functions", "1", "--log-level", "error", "--dir"])
        .arg(folder.at("s"))
        .env("NOTIFY_SOCKET", &place)
        .stdin(Stdio::null())
        .spawn()
        .expect("the program");
    assert_eq!(told(), "READY=1\n");
    crate::os::kill(child.id(), libc::SIGTERM);
    assert_eq!(told(), "STOPPING=1\n");
    assert!(child.wait().expect("a child").success());
}
