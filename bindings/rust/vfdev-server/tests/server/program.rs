//! The program, in a folder of its own.

use crate::client::Client;
use crate::os;
use std::env;
use std::fs::{self, File};
use std::io::Read;
use std::os::unix::net::UnixStream;
use std::path::{Path, PathBuf};
use std::process::{Child, Command, ExitStatus, Stdio};
use std::sync::atomic::{AtomicU32, Ordering};
use std::thread::sleep;
use std::time::{Duration, Instant};

/// How long anything may take here. The machine may be busy.
pub const PATIENCE: Duration = Duration::from_secs(30);

/// Looks until it is so.
pub fn wait_until(what: &str, mut is_so: impl FnMut() -> bool) {
    let begun = Instant::now();
    while !is_so() {
        assert!(begun.elapsed() < PATIENCE, "in vain: {what}");
        sleep(Duration::from_millis(2));
    }
}

/// A folder of a test's own, which is gone afterwards.
pub struct Folder(PathBuf);

impl Folder {
    pub fn new() -> Folder {
        static NEXT: AtomicU32 = AtomicU32::new(0);
        let number = NEXT.fetch_add(1, Ordering::Relaxed);
        let path =
            std::env::temp_dir().join(format!("vfdev-server-{}-{number}", std::process::id()));
        fs::create_dir(&path).expect("a folder");
        Folder(path)
    }

    pub fn at(&self, name: &str) -> PathBuf {
        self.0.join(name)
    }
}

impl Drop for Folder {
    fn drop(&mut self) {
        let _ = fs::remove_dir_all(&self.0);
    }
}

/// Whether all is built with a sanitizer, as `bench/server_sanitized` does.
pub fn is_sanitized() -> bool {
    env::var_os("VFDEV_SANITIZED").is_some()
}

/// The program with these words, with its log in a file. A sanitizer makes calls of the system that its filter doesn't know.
pub fn start(folder: &Folder, words: &[&str]) -> Child {
    let more = is_sanitized().then_some("--no-seccomp");
    let log = File::options()
        .create(true)
        .append(true)
        .open(folder.at("log"))
        .expect("a log");
    Command::new(env!("CARGO_BIN_EXE_vfdev-server"))
        .args(words)
        .args(more)
        .stdin(Stdio::null())
        .stdout(Stdio::null())
        .stderr(log)
        .spawn()
        .expect("the program")
}

/// A program that runs.
pub struct Server {
    pub folder: Folder,
    child: Child,
}

impl Drop for Server {
    fn drop(&mut self) {
        let _ = self.child.kill();
        let _ = self.child.wait();
        if std::thread::panicking() {
            eprintln!("the log:\n{}", self.log());
        }
    }
}

impl Server {
    /// So many functions, as they are without a configuration.
    pub fn new(functions: u8) -> Server {
        Server::with(Folder::new(), functions, &[])
    }

    /// The same, which logs errors alone.
    pub fn quiet(functions: u8) -> Server {
        Server::with(Folder::new(), functions, &["--log-level", "error"])
    }

    /// So many functions in this folder, with more words.
    pub fn with(folder: Folder, functions: u8, words: &[&str]) -> Server {
        let directory = folder.at("s");
        let (count, place) = (functions.to_string(), directory.to_str().expect("a name"));
        let mut all = vec!["--functions", &count, "--dir", place];
        if !words.contains(&"--log-level") {
            all.extend(["--log-level", "debug"]);
        }
        all.extend(words);
        let child = start(&folder, &all);
        let mut server = Server { folder, child };
        // (the socket of the counters is the last one)
        wait_until("the program is ready", || {
            if let Ok(Some(status)) = server.child.try_wait() {
                panic!("it ended by {status}:\n{}", server.log());
            }
            UnixStream::connect(server.socket("metrics")).is_ok()
        });
        server
    }

    /// What it has logged.
    pub fn log(&self) -> String {
        fs::read_to_string(self.folder.at("log")).unwrap_or_default()
    }

    /// Waits until a line has all of these words, and tells how many lines have.
    pub fn wait_for_line(&self, words: &[&str]) {
        wait_until(&words.join(" .. "), || {
            self.log()
                .lines()
                .any(|line| words.iter().all(|word| line.contains(word)))
        });
    }

    pub fn socket(&self, name: &str) -> PathBuf {
        self.folder.at("s").join(name)
    }

    /// A client of a function, which has proposed a version.
    pub fn client(&self, function: u8) -> Client {
        let mut client = self.silent_client(function);
        client.propose();
        client
    }

    /// A client that has said nothing.
    pub fn silent_client(&self, function: u8) -> Client {
        Client::connect(&self.socket(&format!("vf{function}")))
    }

    /// The text of the counters.
    pub fn counters(&self) -> String {
        let mut text = String::new();
        let mut socket = UnixStream::connect(self.socket("metrics")).expect("the counters");
        socket.set_read_timeout(Some(PATIENCE)).expect("a limit");
        socket.read_to_string(&mut text).expect("a text");
        text
    }

    /// One number of it.
    pub fn counter(&self, head: &str) -> u64 {
        let text = self.counters();
        let line = text
            .lines()
            .find_map(|line| line.strip_prefix(head)?.strip_prefix(' '));
        line.and_then(|number| number.parse().ok()).unwrap_or(0)
    }

    /// Waits until one number of a function is this one.
    pub fn wait_for_counter(&self, name: &str, function: u8, number: u64) {
        let head = format!("vfdev_{name}{{function=\"{function}\",name=\"vf{function}\"}}");
        wait_until(&format!("{head} {number}"), || {
            self.counter(&head) == number
        });
    }

    /// Whether a function has no client.
    pub fn is_vacant(&self, function: u8) -> bool {
        self.counter(&format!(
            "vfdev_attached{{function=\"{function}\",name=\"vf{function}\"}}"
        )) == 0
    }

    pub fn signal(&self, signal: libc::c_int) {
        os::kill(self.child.id(), signal);
    }

    pub fn process(&self) -> u32 {
        self.child.id()
    }

    /// Waits until it has ended.
    pub fn wait(&mut self) -> ExitStatus {
        ended(&mut self.child)
    }
}

/// Waits until a program has ended.
pub fn ended(child: &mut Child) -> ExitStatus {
    let mut status = None;
    wait_until("the program ends", || {
        status = child.try_wait().expect("a child");
        status.is_some()
    });
    status.expect("a status")
}

/// What the program says that can't start, and its status.
pub fn refused(folder: &Folder, words: &[&str]) -> (Option<i32>, String) {
    let status = ended(&mut start(folder, words));
    (
        status.code(),
        fs::read_to_string(folder.at("log")).unwrap_or_default(),
    )
}

/// The words that every start needs.
pub fn words_for(directory: &Path) -> Vec<String> {
    let directory = directory.to_str().expect("a name").to_owned();
    vec![
        "--functions".to_owned(),
        "2".to_owned(),
        "--dir".to_owned(),
        directory,
    ]
}
