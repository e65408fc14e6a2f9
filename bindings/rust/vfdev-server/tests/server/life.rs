//! Whole lives of guests. What stock QEMU and stock drivers said to a server, and what they had in their memories, was written down, and is
//! said here again, to a card that does nothing for its drivers, to one that does what the first server did for its own, and to one that does
//! everything: each reply, each write to the memory, each frame and each interrupt is what it was then, but for what `Card::may_differ` lists.
//! The files are in `tests/lives`, whose README says how they came about.

use crate::client::settle;
use crate::os::{self, Memory};
use crate::program::{Folder, Server, PATIENCE};
use std::fmt;
use std::fs::{self, File};
use std::io::Read;
use std::os::fd::{AsFd, BorrowedFd};
use std::os::unix::net::{UnixDatagram, UnixStream};
use std::process::Command;
use std::time::Duration;

// How long something is waited for that may not come.
const SHORT: Duration = Duration::from_millis(100);

/// What the card does for the driver of a life.
#[derive(Clone, Copy, Debug, PartialEq, Eq)]
enum Card {
    /// Nothing.
    Plain,
    /// What the first server did beside its card: tags, sums and segments, of which the drivers asked for none.
    AsThen,
    /// Everything.
    Full,
}

// Where the first frame with a tag of the driver's own stops a queue of a plain card, until the driver begins anew.
const TAGGED: [&str; 9] = [
    "VLAN 7 added, ping in it",
    "VLAN 7 removed",
    "promiscuous on",
    "promiscuous off",
    "all multicast on and off",
    "multicast group joined and left",
    "a second unicast address (by ip maddr)",
    "address changed to another (refused by the PF) and to its own",
    "rings of 256, queues, coalescing",
];

/// Something that isn't as it was.
struct Difference {
    phase: String,
    what: What,
    // what was asked, of a reply
    request: Vec<u8>,
    was: Vec<u8>,
    now: Vec<u8>,
}

impl fmt::Debug for Difference {
    fn fmt(&self, f: &mut fmt::Formatter<'_>) -> fmt::Result {
        let hex = |bytes: &[u8]| -> String { bytes.iter().map(|b| format!("{b:02x}")).collect() };
        writeln!(f, "{:?} in '{}'", self.what, self.phase)?;
        for (what, bytes) in [
            ("asked", &self.request),
            ("was", &self.was),
            ("now", &self.now),
        ] {
            writeln!(f, "  {what} {}", hex(bytes))?;
        }
        Ok(())
    }
}

#[derive(Clone, Copy, Debug, PartialEq, Eq)]
enum What {
    Reply,
    Memory,
    Left,
    Vector,
}

/// A guest that lives again.
struct Life {
    card: Card,
    // it ends with this
    _server: Server,
    socket: UnixStream,
    memory: Memory,
    // guest addresses, sizes and places in the memory
    maps: Vec<(u64, u64, u64)>,
    vectors: [Option<File>; 3],
    wire: UnixDatagram,
    phase: String,
    request: Vec<u8>,
    differences: Vec<Difference>,
}

fn bytes_of(hex: &str) -> Vec<u8> {
    let digits = hex.as_bytes().chunks(2);
    digits
        .map(|pair| {
            let pair = std::str::from_utf8(pair).expect("digits");
            u8::from_str_radix(pair, 16).expect("a byte")
        })
        .collect()
}

fn number(bytes: &[u8], at: usize) -> u64 {
    u64::from_le_bytes(bytes[at..at + 8].try_into().expect("eight bytes"))
}

fn short(bytes: &[u8], at: usize) -> u16 {
    u16::from_le_bytes(bytes[at..at + 2].try_into().expect("two bytes"))
}

// The lines of a life.
fn lines(name: &str) -> Vec<String> {
    let path = format!("{}/tests/lives/{name}", env!("CARGO_MANIFEST_DIR"));
    let output = Command::new("gzip").args(["-dc", &path]).output();
    let output = output.expect("gzip");
    assert!(output.status.success(), "{name} can't be read");
    let text = String::from_utf8(output.stdout).expect("text");
    text.lines().map(str::to_owned).collect()
}

// How many bytes the files have that came with mappings.
fn memory_size(lines: &[String]) -> u64 {
    let maps = lines.iter().filter_map(|line| line.strip_prefix("> 1 "));
    let ends = maps.map(bytes_of).filter(|message| short(message, 2) == 2);
    ends.map(|message| number(&message, 24) + number(&message, 40))
        .max()
        .expect("a mapping")
}

impl Life {
    fn new(card: Card, address: &str, lines: &[String]) -> Life {
        let folder = Folder::new();
        let configuration = format!(
            "vlans = [0, 7]\n[[function]]\nnumber = 0\naddress = \"{address}\"\nvlans = [0, 7]\nall_multicast = true\n"
        );
        fs::write(folder.at("c.toml"), configuration).expect("a configuration");
        let wire = UnixDatagram::bind(folder.at("peer")).expect("a wire");
        let text = |name: &str| folder.at(name).to_str().expect("a name").to_owned();
        let words = [
            "--frame",
            "9018",
            "--offloads",
            card.offloads(),
            "--config",
            &text("c.toml"),
            "--wire",
            &format!("unix:{},{}", text("wire"), text("peer")),
        ]
        .map(str::to_owned);
        let words: Vec<&str> = words.iter().map(String::as_str).collect();
        let server = Server::with(folder, 1, &words);
        wire.connect(server.folder.at("wire")).expect("the wire");
        let socket = UnixStream::connect(server.socket("vf0")).expect("a server");
        socket.set_read_timeout(Some(PATIENCE)).expect("a limit");
        Life {
            card,
            _server: server,
            socket,
            memory: Memory::new(memory_size(lines) as usize),
            maps: Vec::new(),
            vectors: [None, None, None],
            wire,
            phase: String::new(),
            request: Vec::new(),
            differences: Vec::new(),
        }
    }

    // Where a guest address lies in the memory.
    fn place(&self, address: u64, count: usize) -> usize {
        let inside =
            |map: &&(u64, u64, u64)| map.0 <= address && address + count as u64 <= map.0 + map.1;
        let map = self.maps.iter().rev().find(inside).expect("memory");
        (address - map.0 + map.2) as usize
    }

    // A message, with files of its own where it came with some.
    fn say(&mut self, files: usize, message: Vec<u8>) {
        let mut eventfds = Vec::new();
        match short(&message, 2) {
            2 if files > 0 => {
                let map = (
                    number(&message, 32),
                    number(&message, 40),
                    number(&message, 24),
                );
                self.maps.push(map);
            }
            8 => eventfds.extend((0..files).map(|_| File::from(os::eventfd()))),
            _ => {}
        }
        let mut sent: Vec<BorrowedFd<'_>> = eventfds.iter().map(AsFd::as_fd).collect();
        if files > 0 && eventfds.is_empty() {
            sent.push(self.memory.file.as_fd());
        }
        os::send(&self.socket, &message, &sent).expect("a message");
        drop(sent);
        for (place, file) in eventfds.into_iter().enumerate() {
            self.vectors[usize::from(message[28]) + place] = Some(file);
        }
        self.request = message;
    }

    fn reply(&mut self) -> Vec<u8> {
        let mut reply = vec![0; 16];
        self.socket.read_exact(&mut reply).expect("a reply");
        let size = u32::from_le_bytes(reply[4..8].try_into().expect("four bytes"));
        reply.resize(size as usize, 0);
        self.socket.read_exact(&mut reply[16..]).expect("a reply");
        reply
    }

    fn compare(&mut self, what: What, was: Vec<u8>, now: Vec<u8>) {
        if was != now {
            let (phase, request) = (self.phase.clone(), self.request.clone());
            let difference = Difference {
                phase,
                what,
                request,
                was,
                now,
            };
            self.differences.push(difference);
        }
    }

    // How long a frame is waited for here.
    fn patience(&self) -> Duration {
        if self.card == Card::Plain && self.phase == TAGGED[0] {
            SHORT
        } else {
            PATIENCE
        }
    }

    // A frame that left.
    fn frame(&mut self) -> Vec<u8> {
        let limit = Some(self.patience());
        self.wire.set_read_timeout(limit).expect("a limit");
        let mut frame = vec![0; 10_000];
        let count = self.wire.recv(&mut frame).unwrap_or(0);
        frame.truncate(count);
        frame
    }

    // Whether a vector was signalled. (One that is masked is not waited for.)
    fn is_signalled(&mut self, vector: usize) -> bool {
        let patience = match self.card {
            Card::Full => SHORT,
            Card::Plain | Card::AsThen => self.patience(),
        };
        let patience = patience.as_millis() as i32;
        let Some(file) = &mut self.vectors[vector] else {
            return false;
        };
        os::is_readable(&*file, patience) && file.read(&mut [0; 8]).is_ok()
    }

    // One line.
    fn live(&mut self, line: &str) {
        let mut parts = line.splitn(3, ' ');
        let kind = parts.next().unwrap_or_default();
        let (first, second) = (
            parts.next().unwrap_or_default(),
            parts.next().unwrap_or_default(),
        );
        if matches!(kind, "M" | "W" | "F" | "T" | "!") {
            settle(&mut self.socket);
        }
        match kind {
            "=" => self.phase = second.to_owned(),
            ">" => self.say(first.parse().expect("a number"), bytes_of(second)),
            "<" => {
                let now = self.reply();
                self.compare(What::Reply, bytes_of(second), now);
            }
            "M" | "W" => {
                let bytes = bytes_of(second);
                let address = u64::from_str_radix(first, 16).expect("an address");
                let place = self.place(address, bytes.len());
                if kind == "M" {
                    self.memory.write(place, &bytes);
                } else {
                    let now = self.memory.read(place, bytes.len());
                    self.compare(What::Memory, bytes, now);
                }
            }
            "F" => {
                self.wire.send(&bytes_of(first)).expect("a frame");
                settle(&mut self.socket);
            }
            "T" => {
                let now = self.frame();
                self.compare(What::Left, bytes_of(first), now);
            }
            "!" => {
                let is_signalled = self.is_signalled(first.parse().expect("a vector"));
                self.compare(What::Vector, vec![1], vec![u8::from(is_signalled)]);
            }
            // a comment, or the request before so often again, which is said once
            _ => {}
        }
    }
}

impl Card {
    // The word of the command line.
    fn offloads(self) -> &'static str {
        match self {
            Card::Plain => "none",
            Card::AsThen => "vlan,checksum,segmentation",
            Card::Full => "all",
        }
    }

    // What may be otherwise than it was, and why.
    fn may_differ(self, difference: &Difference) -> bool {
        differs_anyway(difference)
            || match self {
                Card::Plain => differs_undone(difference),
                Card::AsThen => false,
                Card::Full => {
                    differs_masked(difference)
                        || differs_received(difference)
                        || differs_summed(difference)
                        || differs_kept(difference)
                }
            }
    }
}

// A reply to a read of a register, by its offset.
fn register(difference: &Difference) -> Option<u64> {
    let request = &difference.request;
    let is_read = short(request, 2) == 9 && request[24] == 0;
    (difference.what == What::Reply && is_read).then(|| number(request, 16))
}

// On any card.
fn differs_anyway(difference: &Difference) -> bool {
    let Difference {
        phase,
        what,
        request,
        was,
        now,
    } = difference;
    if *what != What::Reply {
        return false;
    }
    match (short(request, 2), register(difference)) {
        // the text of the version's capabilities
        (1, _) => true,
        // what the host grants: all multicast or none in place of promiscuous
        (9, Some(0x200 | 0x204)) => {
            phase.starts_with("promiscuous") || phase.starts_with("all multicast")
        }
        // a ring's base has zeros below its 128 bytes
        (9, Some(0x2000 | 0x1000)) => was[32] & 0x80 == now[32] & 0x80 && was[33..] == now[33..],
        // the command register after a function-level reset is as at first
        (9, None) => {
            request[24] == 7
                && number(request, 16) == 4
                && phase.starts_with("function-level reset")
        }
        _ => false,
    }
}

// Where the card leaves undone what the driver leaves to it.
fn differs_undone(difference: &Difference) -> bool {
    let phase = difference.phase.as_str();
    match (difference.what, register(difference)) {
        // sums that nobody makes
        (What::Left, _) if phase.starts_with("TCP") => difference.was[..40] == difference.now[..40],
        // tags that nobody inserts
        (What::Left | What::Memory | What::Vector, _) => phase == TAGGED[0],
        // counters of frames, and the head of a queue that was stopped
        (What::Reply, Some(0x101C | 0x201C | 0x2010)) => TAGGED.contains(&phase),
        (What::Reply, _) => false,
    }
}

// Where the card masks a vector by itself: it isn't signalled again before the driver enables it, and the registers say so.
fn differs_masked(difference: &Difference) -> bool {
    let is_of_mask = matches!(register(difference), Some(0x108 | 0x114));
    difference.what == What::Vector || is_of_mask
}

// Where legacy descriptors receive a frame: its cause stands beside the others.
fn differs_received(difference: &Difference) -> bool {
    register(difference) == Some(0x100) && difference.now[32] == difference.was[32] | 1
}

// Where the card says of a frame that came which of its sums it looked at: none of these has one that doesn't verify.
fn differs_summed(difference: &Difference) -> bool {
    const CHECKED: u8 = 0x60;
    let Difference { what, was, now, .. } = difference;
    let advanced = [&was[..8], &[was[8] | now[8] & CHECKED], &was[9..]].concat();
    *what == What::Memory && was.len() == 16 && was[8] & 3 == 3 && *now == advanced
}

// Where the card keeps how far apart interrupts are to be.
fn differs_kept(difference: &Difference) -> bool {
    matches!(register(difference), Some(0x820 | 0x824 | 0x828))
}

// Lives a life, which has so many lines and differs nowhere where it may not, and tells what differed.
fn lives(name: &str, count: usize, card: Card) -> Vec<Difference> {
    let lines = lines(name);
    assert_eq!(lines.len(), count);
    let mut life = Life::new(card, "02:82:59:90:00:10", &lines);
    for line in &lines {
        life.live(line);
    }
    let all = life.differences;
    let (_, wrong): (Vec<_>, Vec<_>) = all.iter().partition(|found| card.may_differ(found));
    assert!(wrong.is_empty(), "{card:?}: {wrong:?}");
    all
}

#[test]
fn a_linux_guest_lives_again() {
    lives("linux.txt.gz", 11_326, Card::Plain);
}

#[test]
fn a_linux_guest_leaves_tags_and_sums_to_the_card() {
    lives("linux.txt.gz", 11_326, Card::AsThen);
}

#[test]
fn a_linux_guest_leaves_everything_to_the_card() {
    let differences = lives("linux.txt.gz", 11_326, Card::Full);
    let is_masked = |found: &Difference| found.what == What::Vector;
    assert!(differences.iter().any(is_masked), "a vector is masked");
}

#[test]
fn ipxe_lives_again() {
    lives("ipxe.txt.gz", 633, Card::Plain);
}

#[test]
fn ipxe_leaves_everything_to_the_card() {
    let differences = lives("ipxe.txt.gz", 633, Card::Full);
    let received = differences
        .iter()
        .filter(|found| differs_received(found))
        .count();
    assert_eq!(received, 5, "each frame that came is told once");
}
