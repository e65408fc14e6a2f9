//! Random and mutated sessions on some sockets, floods of memories and files, clients that are killed, and words by chance in pages of
//! registers, while two guests on others go on: nothing of theirs changes, and the program keeps nothing.
//!
//! Each test lasts a second, or as many as VFDEV_FUZZ_SECONDS says, and then prints ten times how far it is. Chance begins with the number that
//! VFDEV_FUZZ_SEED names.

use crate::client::{
    map_body, message, words, Client, DMA_MAP, READ, REGION_READ, REGION_WRITE, WRITE,
};
use crate::driver::{Guest, TX_RING};
use crate::os::{self, Memory};
use crate::program::{is_sanitized, wait_until, Folder, Server};
use std::fs::{self, File};
use std::io::{ErrorKind, Read};
use std::os::fd::{AsFd, BorrowedFd, OwnedFd};
use std::process::{Command, Stdio};
use std::sync::atomic::{AtomicBool, AtomicU64, Ordering};
use std::time::{Duration, Instant};
use vfdev::regs;

// Numbers by chance, the same in each run that begins with the same one.
struct Chance(u64);

impl Chance {
    fn below(&mut self, most: u64) -> u64 {
        self.0 = self.0.wrapping_mul(6_364_136_223_846_793_005);
        self.0 = self.0.wrapping_add(1_442_695_040_888_963_407);
        (self.0 >> 33) % most
    }

    fn is_one_in(&mut self, count: u64) -> bool {
        self.below(count) == 0
    }

    fn pick<'a, T>(&mut self, all: &'a [T]) -> &'a T {
        &all[self.below(all.len() as u64) as usize]
    }
}

// What can come beside a message.
struct Files {
    memories: Vec<Memory>,
    event: OwnedFd,
    stray: File,
}

impl Files {
    fn new() -> Files {
        let seals = [libc::F_SEAL_SHRINK, libc::F_SEAL_SHRINK, libc::F_SEAL_GROW];
        Files {
            memories: seals.map(|seals| Memory::sealed(1 << 20, seals)).into(),
            event: os::eventfd(),
            stray: File::open("/dev/null").expect("a file"),
        }
    }

    // Some of them: as many as the command wants, most times.
    fn some(&self, chance: &mut Chance, command: u16) -> Vec<BorrowedFd<'_>> {
        let due = match command {
            2 => 1,
            8 => chance.below(4),
            _ => 0,
        };
        let count = match chance.is_one_in(32) {
            true => chance.below(12),
            false => due,
        };
        let one = |chance: &mut Chance| match chance.below(64) {
            0 => self.stray.as_fd(),
            _ if command == 8 => self.event.as_fd(),
            _ => chance.pick(&self.memories).file.as_fd(),
        };
        (0..count).map(|_| one(chance)).collect()
    }
}

// The body of a command, as a client could say it.
fn body(chance: &mut Chance, command: u16) -> Vec<u8> {
    let page = |chance: &mut Chance, most| 4096 * chance.below(most);
    let offset = 4 * chance.below(0x1000) as u32;
    match command {
        1 => vec![0; 4],
        2 => {
            let flags = *chance.pick(&[READ, READ | WRITE, READ | WRITE]);
            let (offset, address) = (page(chance, 64), page(chance, 4096));
            map_body(flags, offset, address, page(chance, 64))
        }
        3 => {
            let numbers = [page(chance, 4096), page(chance, 4096)];
            [words(&[24, 0]), numbers.map(u64::to_le_bytes).concat()].concat()
        }
        8 => words(&[
            20,
            0x24,
            2,
            chance.below(3) as u32,
            1 + chance.below(3) as u32,
        ]),
        REGION_READ => words(&[offset, 0, 0, 4]),
        REGION_WRITE => words(&[offset, 0, 0, 4, chance.below(1 << 31) as u32]),
        _ => words(&[32, 0, chance.below(9) as u32, 0, 0, 0, 0, 0]),
    }
}

// A message, which one time in eight isn't as it should be.
fn mutated(chance: &mut Chance, command: u16) -> Vec<u8> {
    let flags = *chance.pick(&[0, 0x10]);
    let body = body(chance, command);
    let mut bytes = message(chance.below(1 << 16) as u16, command, flags, &body);
    if chance.is_one_in(8) {
        for _ in 0..=chance.below(3) {
            let place = chance.below(bytes.len() as u64) as usize;
            bytes[place] = chance.below(256) as u8;
        }
    }
    if chance.is_one_in(64) {
        bytes.truncate(chance.below(bytes.len() as u64) as usize + 1);
    }
    bytes
}

// One client's life. It takes its replies, whatever they are, and goes at any moment.
fn live(server: &Server, function: u8, chance: &mut Chance, files: &Files) -> u64 {
    let mut client = match chance.is_one_in(8) {
        true => server.silent_client(function),
        false => server.client(function),
    };
    client.socket.set_nonblocking(true).expect("a socket");
    let mut sent = 0;
    for _ in 0..chance.below(64) {
        let commands = [1, 2, 2, 3, 4, 5, 7, 8, 9, 10, 10, 10, 10, 13, 15, 99];
        let command = match chance.is_one_in(16) {
            true => *chance.pick(&commands),
            false => *chance.pick(&commands[1..14]),
        };
        let bytes = mutated(chance, command);
        let some = files.some(chance, command);
        match os::send(&client.socket, &bytes, &some) {
            Ok(()) => sent += 1,
            Err(error) if error.kind() == ErrorKind::WouldBlock => {}
            Err(_) => break,
        }
        if !drain(&mut client) {
            break;
        }
    }
    sent
}

// Memories until the server wants no more, and files beside them that nobody asked for. No reply is taken.
fn flood(server: &Server, function: u8, chance: &mut Chance, files: &Files) -> u64 {
    let client = server.client(function);
    client.socket.set_nonblocking(true).expect("a socket");
    let with_events = chance.is_one_in(2);
    let mut sent = 0;
    for page in 0..256 {
        let memory = chance.pick(&files.memories).file.as_fd();
        let map = map_body(READ | WRITE, 4096 * page, 4096 * page, 4096);
        let (bytes, some) = match with_events && page % 2 == 1 {
            true => (message(1, 99, 0, &[0; 64]), vec![files.event.as_fd(); 8]),
            false => (message(1, DMA_MAP, 0, &map), vec![memory]),
        };
        if os::send(&client.socket, &bytes, &some).is_err() {
            break;
        }
        sent += 1;
    }
    sent
}

// A word that a guest could write into a page of registers: as a driver would, or anything.
fn word(chance: &mut Chance) -> u32 {
    match chance.below(4) {
        // the queue is on, or off
        0 => *chance.pick(&[0, regs::TXDCTL_ENABLE]),
        // a ring's size, its head or its tail
        1 => 128 * chance.below(33) as u32,
        2 => TX_RING as u32 + 16 * chance.below(64) as u32,
        _ => chance.below(1 << 32) as u32,
    }
}

// A guest that has its page writes there whatever it likes, most of it where queues have their registers, and says messages meanwhile.
fn scribble(server: &Server, function: u8, chance: &mut Chance, files: &Files) -> u64 {
    let mut client = server.client(function);
    let _ = client.map(&files.memories[0].file, READ | WRITE, 0, 0, 1 << 20);
    client.take_page();
    let Some(page) = client.page.take() else {
        return 0;
    };
    client.socket.set_nonblocking(true).expect("a socket");
    let mut sent = 3;
    for _ in 0..chance.below(64) {
        for _ in 0..chance.below(256) {
            let place = match chance.is_one_in(8) {
                true => chance.below(1024),
                false => 16 * chance.below(2) + chance.below(16),
            };
            let register = page.register(4 * place as usize);
            register.store(word(chance), Ordering::Release);
        }
        let command = *chance.pick(&[REGION_READ, REGION_WRITE]);
        match os::send(&client.socket, &mutated(chance, command), &[]) {
            Ok(()) => sent += 1,
            Err(error) if error.kind() == ErrorKind::WouldBlock => {}
            Err(_) => break,
        }
        if !drain(&mut client) {
            break;
        }
    }
    sent
}

// Another process has the only end of a connection with memory, says a lot without waiting, and is killed at any moment.
fn killed(server: &Server, function: u8, chance: &mut Chance, files: &Files) -> u64 {
    let mut client = server.client(function);
    let _ = client.map(&files.memories[0].file, READ | WRITE, 0, 0, 1 << 20);
    let place = server.folder.at(&format!("said-{function}"));
    if !place.exists() {
        fs::write(&place, much(chance)).expect("a file");
    }
    let mut child = Command::new("cat")
        .arg(place)
        .stdin(Stdio::null())
        .stdout(OwnedFd::from(client.socket))
        .stderr(Stdio::null())
        .spawn()
        .expect("a program that writes");
    std::thread::sleep(Duration::from_micros(chance.below(20_000)));
    child.kill().expect("a child");
    child.wait().expect("a child");
    // (how much of it was said isn't known)
    1
}

// 65,536 accesses to registers, of which none wants a reply.
fn much(chance: &mut Chance) -> Vec<u8> {
    let one = |chance: &mut Chance| {
        let command = *chance.pick(&[REGION_WRITE, REGION_WRITE, REGION_READ]);
        let body = body(chance, command);
        message(1, command, 0x10, &body)
    };
    (0..1 << 16).flat_map(|_| one(chance)).collect()
}

// Takes what has come. False: the server has closed the connection.
fn drain(client: &mut Client) -> bool {
    let mut room = [0; 8192];
    loop {
        match client.socket.read(&mut room) {
            Ok(0) => return false,
            Ok(_) => {}
            Err(error) => return error.kind() == ErrorKind::WouldBlock,
        }
    }
}

// How many files the server has open, how many threads, and how many KiB of its own memory are in use.
fn held(server: &Server) -> (usize, u64, u64) {
    let folder = format!("/proc/{}", server.process());
    let files = fs::read_dir(format!("{folder}/fd"))
        .expect("its files")
        .count();
    let status = fs::read_to_string(format!("{folder}/status")).expect("its status");
    let number = |head: &str| {
        let line = status.lines().find_map(|line| line.strip_prefix(head));
        let word = line.and_then(|rest| rest.split_whitespace().next());
        word.and_then(|word| word.parse().ok()).unwrap_or(0)
    };
    (files, number("Threads:"), number("RssAnon:"))
}

// A number of the environment, or this one.
fn number_of(name: &str, otherwise: u64) -> u64 {
    let word = std::env::var(name).ok();
    word.and_then(|word| word.parse().ok()).unwrap_or(otherwise)
}

// A client without end, each time another kind of one.
fn misbehave(
    server: &Server,
    function: u8,
    with_pages: bool,
    is_over: &AtomicBool,
    messages: &AtomicU64,
) {
    let seed = number_of("VFDEV_FUZZ_SEED", 0);
    let (mut chance, files) = (Chance(64 * seed + u64::from(function)), Files::new());
    while !is_over.load(Ordering::Relaxed) {
        let kind = match chance.below(64) {
            0 => flood,
            1 => killed,
            2..=31 if with_pages => scribble,
            _ => live,
        };
        let sent = kind(server, function, &mut chance, &files);
        messages.fetch_add(sent, Ordering::Relaxed);
    }
}

#[test]
fn chance_disturbs_nobody() {
    let server = Server::quiet(4);
    let guests = [0, 1].map(|function| Guest::attach(&server, function));
    nobody_is_disturbed(&server, guests, false);
}

#[test]
fn chance_in_pages_disturbs_nobody() {
    let words = ["--log-level", "error", "--transmit-page"];
    let server = Server::with(Folder::new(), 4, &words);
    let guests = [0, 1].map(|function| Guest::attach_with_page(&server, function));
    nobody_is_disturbed(&server, guests, true);
}

// The guests of functions 0 and 1 send each other frames, while others misbehave on 2 and 3.
fn nobody_is_disturbed(server: &Server, guests: [Guest; 2], with_pages: bool) {
    let seconds = number_of("VFDEV_FUZZ_SECONDS", 1);
    let [mut one, mut two] = guests;
    let before = held(server);
    let (is_over, messages) = (AtomicBool::new(false), AtomicU64::new(0));
    let mut number = 0u32;
    std::thread::scope(|scope| {
        for function in 2..4 {
            let (is_over, messages) = (&is_over, &messages);
            scope.spawn(move || misbehave(server, function, with_pages, is_over, messages));
        }
        let begun = Instant::now();
        let mut tenth = 1;
        while begun.elapsed() < Duration::from_secs(seconds) {
            number += 1;
            let frame = one.frame(two.mac, &number.to_le_bytes());
            one.send(&frame);
            assert!(two.wait() == frame, "frame {number}");
            if begun.elapsed() >= Duration::from_millis(100 * seconds * tenth) {
                tell(begun, number, messages.load(Ordering::Relaxed), server);
                tenth += 1;
            }
        }
        is_over.store(true, Ordering::Relaxed);
        // (in a page it stands once the queue was served)
        wait_until("the count of frames", || {
            one.client.read(regs::VFGPTC) == number
        });
        assert_eq!(two.client.read(regs::VFGPRC), number);
    });
    let sent = messages.into_inner();
    assert!(sent > 0);
    wait_until("the others have gone", || {
        (2..4).all(|function| server.is_vacant(function))
    });
    // (a function is vacant before its thread has ended)
    wait_until("as many files and threads as before", || {
        let now = held(server);
        (now.0, now.1) == (before.0, before.1)
    });
    let after = held(server);
    println!("{number} frames, {sent} messages; files, threads and KiB before {before:?}, after {after:?}");
    // (a sanitizer takes memory of its own)
    let more = if is_sanitized() { 65536 } else { 4096 };
    assert!(
        after.2 < before.2 + more,
        "{} KiB, then {}",
        before.2,
        after.2
    );
}

fn tell(begun: Instant, frames: u32, messages: u64, server: &Server) {
    let seconds = begun.elapsed().as_secs();
    let (files, threads, size) = held(server);
    println!("{seconds} s: {frames} frames, {messages} messages; {files} files, {threads} threads, {size} KiB");
}
