//! Clients that come and go, and clients that misbehave.

use crate::client::{self, message, words, DEVICE_RESET, GET_INFO, GET_IRQ_INFO, GET_REGION_INFO};
use crate::driver::{Guest, GET_LINK_STATE};
use crate::os;
use crate::program::{wait_until, Folder, Server};
use std::io::{ErrorKind, Read, Write};
use std::os::fd::AsFd;
use std::time::Duration;

// The version, as the card says it, and what a function has: nine regions, five types of interrupts.
#[test]
fn a_client_finds_a_function() {
    let server = Server::new(1);
    let mut client = server.silent_client(0);
    let version = client.propose();
    assert_eq!(version[..4], [0; 4]);
    let text = String::from_utf8_lossy(&version[4..]).into_owned();
    assert!(
        text.contains("\"max_msg_fds\":8") && text.ends_with('\0'),
        "{text}"
    );
    let info = client.call(GET_INFO, &words(&[16, 0, 0, 0]), &[]);
    assert_eq!(info, Ok(words(&[16, 3, 9, 5])));
    // BAR 0 and BAR 3 have 16 KiB, configuration space 4 KiB, and BAR 1 nothing
    for (index, size) in [(0, 0x4000), (1, 0), (3, 0x4000), (7, 0x1000)] {
        let asked = words(&[32, 0, index, 0, 0, 0, 0, 0]);
        let told = client.call(GET_REGION_INFO, &asked, &[]).expect("a region");
        assert_eq!(told[16..20], words(&[size])[..], "region {index}");
    }
    let irqs = client
        .call(GET_IRQ_INFO, &words(&[16, 0, 2, 0]), &[])
        .expect("interrupts");
    assert_eq!(irqs[12..16], words(&[3])[..]);
    server.wait_for_counter("attached", 0, 1);
    server.wait_for_line(&["attached", "name=vf0"]);
}

// The driver's own messages, of which the program understands none.
#[test]
fn the_host_answers_a_driver() {
    let server = Server::new(2);
    let mut guest = Guest::attach(&server, 1);
    assert_eq!(guest.mac, [2, 0x82, 0x59, 0, 0, 2]);
    assert_eq!(guest.ask(&[GET_LINK_STATE])[1], 1);
    // another address isn't granted
    let word = crate::driver::SET_ADDRESS;
    let answer = guest.ask(&[word, 0x0059_8202, 9, 0]);
    assert_eq!(answer[0], word | crate::driver::NACK | crate::driver::CTS);
}

// QEMU resets a function as its guest starts: the registers are initial then, and the memory and the vectors stay.
#[test]
fn a_function_is_reset() {
    let server = Server::new(2);
    let (mut one, mut two) = (Guest::attach(&server, 0), Guest::attach(&server, 1));
    assert_eq!(two.client.call(DEVICE_RESET, &[], &[]), Ok(Vec::new()));
    let on = vfdev::regs::RXDCTL_ENABLE;
    assert_eq!(two.client.read(vfdev::regs::rxdctl(0)) & on, 0);
    two.start_driver();
    let frame = one.frame(two.mac, b"again");
    one.send(&frame);
    assert_eq!(two.sleep(), frame);
}

// A second client of a socket waits until the first one has gone.
#[test]
fn a_socket_has_one_client_at_a_time() {
    let server = Server::new(1);
    let first = server.client(0);
    let mut second = server.silent_client(0);
    second
        .send(client::VERSION, &[0; 4], &[], 0)
        .expect("a message");
    second
        .socket
        .set_read_timeout(Some(Duration::from_millis(200)))
        .expect("a limit");
    let waits = second
        .socket
        .read(&mut [0; 1])
        .map_err(|error| error.kind());
    assert_eq!(waits, Err(ErrorKind::WouldBlock));
    drop(first);
    second
        .socket
        .set_read_timeout(Some(crate::program::PATIENCE))
        .expect("a limit");
    assert!(second.receive().expect("a reply").is_ok());
    server.wait_for_counter("attaches_total", 0, 2);
}

// Whoever goes without a word, as a client that is killed, leaves nothing: the next one finds initial registers and no memory.
#[test]
fn the_next_client_finds_nothing_of_the_last() {
    let server = Server::new(2);
    let mut peer = Guest::attach(&server, 1);
    for _ in 0..3 {
        let mut guest = Guest::attach(&server, 0);
        peer.send(&peer.frame(guest.mac, b"hello"));
        assert_eq!(guest.wait()[14..19], *b"hello");
        drop(guest);
        server.wait_for_counter("mapped_regions", 0, 0);
    }
    let mut client = server.client(0);
    assert_eq!(
        client.read(vfdev::regs::rxdctl(0)) & vfdev::regs::RXDCTL_ENABLE,
        0
    );
    server.wait_for_counter("mapped_bytes", 0, 0);
    server.wait_for_line(&["detached", "name=vf0"]);
}

// What ends a connection, and what is logged of it: the bytes, how many files came, and the words of the reason.
#[test]
fn what_breaks_the_protocol_ends_the_connection() {
    let server = Server::new(1);
    let long = message(1, client::VERSION, 0, &[]);
    let cut = [&long[..4], &words(&[8, 0, 0])].concat();
    let long = [&long[..4], &words(&[4129, 0, 0])].concat();
    let version = message(1, client::VERSION, 0, &[0; 4]);
    let twice = [&version[..], &version].concat();
    let other = message(1, client::VERSION, 0, &[1, 0, 0, 0]);
    for (bytes, files, reason) in [
        (
            vec![0xFF; 16],
            0,
            "a message of 4294967295 bytes is announced",
        ),
        (long, 0, "a message of 4129 bytes is announced"),
        (cut, 0, "reason="),
        (message(1, GET_INFO, 0, &[0; 16]), 0, "proposes no version"),
        (other, 0, "the major version isn't 0"),
        (twice, 0, "a version is proposed a second time"),
        (version.clone(), 1, "files came with a version"),
        (version, 9, "more than 8 files came with a message"),
    ] {
        let mut client = server.silent_client(0);
        let file = os::eventfd();
        os::send(&client.socket, &bytes, &vec![file.as_fd(); files]).expect("a message");
        wait_until("the server closes it", || client.is_closed());
        server.wait_for_line(&["the connection is ended", reason]);
    }
    assert!(server.counters().contains("reason=\"protocol\"} 7"));
    assert!(server.counters().contains("reason=\"files\"} 1"));
}

// An eventfd is what a vector gets, and nothing else.
#[test]
fn a_vector_has_an_eventfd() {
    let server = Server::new(1);
    let mut client = server.client(0);
    let file = os::Memory::new(4096);
    assert!(client.arm(0, &[file.file.as_fd()]).is_err());
    server.wait_for_line(&["the connection is ended", "no eventfd, but /memfd:guest"]);
    // and a vector that has one can lose it
    let mut guest = Guest::attach(&server, 0);
    assert_eq!(guest.client.disarm(), Ok(Vec::new()));
    guest.client.write(vfdev::regs::VTEICS, 1);
    guest.settle();
    assert!(!os::is_readable(&guest.interrupt, 50));
    let files = [guest.interrupt.as_fd()];
    assert_eq!(
        guest.client.arm(0, &files).expect("a reply"),
        Ok(Vec::new())
    );
    guest.client.write(vfdev::regs::VTEICS, 1);
    assert!(os::is_readable(&guest.interrupt, 10_000));
}

// A client that fills its eventfd, and lets the next write wait, holds the others up once, for a moment.
#[test]
fn a_vector_that_makes_the_program_wait_ends_the_connection() {
    let server = Server::new(3);
    let (mut one, mut two) = (Guest::attach(&server, 0), Guest::attach(&server, 1));
    let mut guest = Guest::begin(&server, 2);
    guest.start_driver();
    let mut full = std::fs::File::from(guest.interrupt.try_clone().expect("a file"));
    full.write_all(&(u64::MAX - 1).to_ne_bytes())
        .expect("a count");
    os::set_waiting(&guest.interrupt);
    guest.client.write(vfdev::regs::VTEICS, 1);
    for _ in 0..100 {
        one.send(&one.frame(two.mac, b"on"));
        two.wait();
    }
    wait_until("the server closes it", || guest.client.is_closed());
    server.wait_for_line(&[
        "the connection is ended",
        "the write of an eventfd had to wait",
    ]);
    // nobody is served there until the administrator says so
    let mut next = server.silent_client(2);
    next.send(client::VERSION, &[0; 4], &[], 0)
        .expect("a message");
    assert!(!os::is_readable(&next.socket, 300));
    server.signal(libc::SIGHUP);
    assert!(next.receive().expect("a reply").is_ok());
}

// A file that is neither memory nor an eventfd ends the connection, whatever it came with.
#[test]
fn a_stray_file_ends_the_connection() {
    let server = Server::new(1);
    for path in ["/dev/null", "/proc/self/exe", "/"] {
        let mut client = server.client(0);
        let file = std::fs::File::open(path).expect("a file");
        assert!(client.arm(0, &[file.as_fd()]).is_err(), "{path}");
        server.wait_for_line(&["the connection is ended", "neither a memfd nor an eventfd"]);
    }
    server.wait_for_counter("attached", 0, 0);
    assert!(server.counters().contains("reason=\"files\"} 3"));
}

// A client that never takes its replies is not read any more, and holds nobody up.
#[test]
fn a_client_that_takes_no_reply_waits_alone() {
    let server = Server::new(3);
    let mut flood = server.client(0);
    flood.socket.set_nonblocking(true).expect("a socket");
    let asked = message(
        1,
        client::REGION_READ,
        0,
        &[&[0; 8][..], &words(&[7, 4096])].concat(),
    );
    let mut sent = 0;
    while flood.socket.write_all(&asked).is_ok() {
        sent += 1;
        assert!(sent < 100_000, "the server stops reading");
    }
    let (mut one, mut two) = (Guest::attach(&server, 1), Guest::attach(&server, 2));
    for _ in 0..100 {
        one.send(&one.frame(two.mac, b"on"));
        two.wait();
    }
    // the replies are whole, one after another
    flood.socket.set_nonblocking(false).expect("a socket");
    for number in 0..64 {
        let mut reply = vec![0; 16 + 16 + 4096];
        flood.socket.read_exact(&mut reply).expect("a reply");
        assert_eq!(reply[4..8], words(&[4128])[..], "reply {number}");
    }
    // and who goes meanwhile is gone
    while flood
        .socket
        .write(&asked)
        .is_ok_and(|count| count == asked.len())
    {
        flood.socket.set_nonblocking(true).expect("a socket");
    }
    drop(flood);
    server.wait_for_counter("attached", 0, 0);
}

// Where nothing is to be done the program sleeps: but for those who ask for the counters there is no turn.
#[test]
fn an_idle_program_sleeps() {
    let server = Server::new(2);
    let (_one, _two) = (Guest::attach(&server, 0), Guest::attach(&server, 1));
    // (the clock that ends a wait for an eventfd rings twice more)
    std::thread::sleep(Duration::from_millis(500));
    let turns = server.counter("vfdev_turns_total");
    std::thread::sleep(Duration::from_millis(500));
    assert_eq!(server.counter("vfdev_turns_total"), turns + 1);
}

// With --poll it looks for work for so long, and then sleeps too.
#[test]
fn a_program_that_polls_sleeps_in_the_end() {
    let server = Server::with(Folder::new(), 2, &["--poll", "50000"]);
    let (mut one, mut two) = (Guest::attach(&server, 0), Guest::attach(&server, 1));
    for number in 0..1000u32 {
        let sent = one.frame(two.mac, &number.to_le_bytes());
        one.send(&sent);
        assert!(two.sleep() == sent, "frame {number}");
    }
    wait_until("it looks", || {
        let looked = server.counter("vfdev_turns_total");
        std::thread::sleep(Duration::from_millis(10));
        // (who asks makes one turn)
        server.counter("vfdev_turns_total") > looked + 1
    });
    // its state, behind its name: S where it sleeps
    let state = format!("/proc/{}/stat", server.process());
    wait_until("it sleeps", || {
        let text = std::fs::read_to_string(&state).expect("a process");
        text.contains(") S ")
    });
}

// SIGTERM ends the program in order, and takes the sockets away.
#[test]
fn the_program_ends_in_order() {
    let mut server = Server::new(2);
    let mut guest = Guest::attach(&server, 0);
    server.signal(libc::SIGTERM);
    assert_eq!(server.wait().code(), Some(0));
    assert!(guest.client.is_closed());
    for name in ["vf0", "vf1", "metrics"] {
        assert!(!server.socket(name).exists(), "{name}");
    }
    assert!(server.log().contains("the server ends"));
}
