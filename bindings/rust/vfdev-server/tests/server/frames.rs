//! Frames from guest to guest, and by the wire.

use crate::client::REGION_READ;
use crate::driver::Guest;
use crate::os;
use crate::program::{wait_until, Folder, Server, PATIENCE};
use std::io::Write;
use std::net::UdpSocket;
use std::os::unix::net::UnixDatagram;
use std::path::Path;
use std::process::Command;
use std::sync::atomic::{AtomicBool, Ordering};

// How many frames go to and fro.
const FRAMES: u32 = 100_000;

// A frame goes to and fro between two guests, and comes back each time as it was.
fn play(one: &mut Guest, two: &mut Guest, frames: u32) {
    for number in 0..frames / 2 {
        let sent = one.frame(two.mac, &number.to_le_bytes());
        one.send(&sent);
        assert!(two.wait() == sent, "frame {number}");
        let back = two.frame(one.mac, &(!number).to_le_bytes());
        two.send(&back);
        assert!(one.wait() == back, "the answer to frame {number}");
    }
}

#[test]
fn two_guests_play_with_a_hundred_thousand_frames() {
    let server = Server::new(2);
    let (mut one, mut two) = (Guest::attach(&server, 0), Guest::attach(&server, 1));
    play(&mut one, &mut two, FRAMES);
    for guest in [&mut one, &mut two] {
        assert_eq!(guest.client.read(vfdev::regs::VFGPTC), FRAMES / 2);
        assert_eq!(guest.client.read(vfdev::regs::VFGPRC), FRAMES / 2);
    }
}

#[test]
fn guests_are_woken_by_interrupts() {
    let server = Server::new(2);
    let (mut one, mut two) = (Guest::attach(&server, 0), Guest::attach(&server, 1));
    for number in 0..1000u32 {
        let sent = one.frame(two.mac, &number.to_le_bytes());
        one.send(&sent);
        assert!(two.sleep() == sent, "frame {number}");
    }
    assert!(server.counter("vfdev_interrupts_total{function=\"1\",name=\"vf1\"}") > 0);
}

// While two guests go on, others send what is no protocol, stop in the midst of a message, and send as much as they can.
#[test]
fn those_who_misbehave_disturb_nobody() {
    let server = Server::new(5);
    let (mut one, mut two) = (Guest::attach(&server, 0), Guest::attach(&server, 1));
    let is_over = AtomicBool::new(false);
    let _half = {
        let mut half = server.client(2);
        half.socket
            .write_all(&[9, 0, 4, 0, 32])
            .expect("a part of a header");
        half
    };
    std::thread::scope(|scope| {
        scope.spawn(|| {
            let mut seed = 1u64;
            while !is_over.load(Ordering::Relaxed) {
                let mut client = server.client(3);
                let mut bytes = [0; 256];
                for byte in &mut bytes {
                    seed = seed.wrapping_mul(6_364_136_223_846_793_005).wrapping_add(1);
                    *byte = (seed >> 56) as u8;
                }
                let _ = client.socket.write_all(&bytes);
                let _ = client.is_closed();
            }
        });
        scope.spawn(|| {
            let mut client = server.client(4);
            let body = [0; 8]
                .iter()
                .chain(&[7, 0, 0, 0, 4, 0, 0, 0])
                .copied()
                .collect::<Vec<_>>();
            while !is_over.load(Ordering::Relaxed) {
                client.call(REGION_READ, &body, &[]).expect("bytes");
            }
        });
        play(&mut one, &mut two, 4000);
        is_over.store(true, Ordering::Relaxed);
    });
    server.wait_for_line(&["the connection is ended", "function=3"]);
}

// The wire is a datagram socket: a broadcast of a guest leaves by it, one that comes reaches all, and one that is too long is refused.
#[test]
fn frames_leave_and_come_by_a_socket() {
    let folder = Folder::new();
    let (wire, peer) = (folder.at("wire"), folder.at("peer"));
    let cable = UnixDatagram::bind(&peer).expect("a socket");
    cable.set_read_timeout(Some(PATIENCE)).expect("a limit");
    let word = format!("unix:{},{}", wire.display(), peer.display());
    let server = Server::with(folder, 2, &["--wire", &word]);
    let (mut one, mut two) = (Guest::attach(&server, 0), Guest::attach(&server, 1));
    let sent = one.frame([0xFF; 6], b"to all");
    one.send(&sent);
    assert_eq!(two.wait(), sent);
    let mut room = [0; 2048];
    let count = cable.recv(&mut room).expect("a frame");
    assert_eq!(room[..count], sent[..]);
    // one for a guest alone stays inside, and one for nobody here leaves
    one.send(&one.frame(two.mac, b"to one"));
    two.wait();
    let far = [2, 0, 0, 0, 0, 0x99];
    one.send(&one.frame(far, b"far"));
    let count = cable.recv(&mut room).expect("a frame");
    assert_eq!(room[..6], far);
    assert_eq!(room[14..17], *b"far");
    assert_eq!(count, 60);
    come_by(&cable, &wire, &mut [one, two]);
    assert_eq!(server.counter("vfdev_wire_received_frames_total"), 5);
    assert_eq!(server.counter("vfdev_wire_refused_frames_total"), 3);
    server.wait_for_counter("wire_sent_frames_total", 0, 2);
}

// Broadcasts of several lengths come by the wire, of which those of up to 1,518 bytes reach all.
fn come_by(cable: &UnixDatagram, wire: &Path, guests: &mut [Guest]) {
    for (length, arrives) in [
        (60, true),
        (1519, false),
        (9018, false),
        (9019, false),
        (1518, true),
    ] {
        let mut frame = vec![length as u8; length];
        frame[..6].fill(0xFF);
        frame[6..14].copy_from_slice(&[2, 0, 0, 0, 0, 0x99, 0x88, 0xB5]);
        cable.send_to(&frame, wire).expect("a datagram");
        for guest in guests.iter_mut().filter(|_| arrives) {
            assert!(guest.wait() == frame, "{length} bytes");
        }
    }
}

// A frame for a wire where nobody is, is lost and counted, and so is one without a wire.
#[test]
fn frames_are_lost_where_nobody_takes_them() {
    let folder = Folder::new();
    let word = format!(
        "unix:{},{}",
        folder.at("wire").display(),
        folder.at("nobody").display()
    );
    for words in [&["--wire", &word][..], &[]] {
        let server = Server::with(Folder::new(), 1, words);
        let mut guest = Guest::attach(&server, 0);
        for _ in 0..3 {
            guest.send(&guest.frame([2, 0, 0, 0, 0, 0x99], b"far"));
        }
        server.wait_for_counter("wire_lost_frames_total", 0, 3);
    }
}

// A forged source doesn't pass, as without the program.
#[test]
fn a_forged_source_is_dropped() {
    let server = Server::new(2);
    let (mut one, mut two) = (Guest::attach(&server, 0), Guest::attach(&server, 1));
    let mut forged = one.frame(two.mac, b"forged");
    forged[11] ^= 0x40;
    one.send(&forged);
    let honest = one.frame(two.mac, b"honest");
    one.send(&honest);
    assert_eq!(two.wait(), honest);
    assert!(two.take().is_none());
}

// A tap device in a network of this thread's own, where both may be made: who runs the tests keeps the network that he has.
fn make_tap(name: &str) -> bool {
    let ip = |words: &str| {
        let told = Command::new("ip").args(words.split(' ')).output();
        told.is_ok_and(|told| told.status.success())
    };
    os::leave_network()
        && ip(&format!("tuntap add dev {name} mode tap"))
        && ip(&format!(
            "address add 198.51.100.1/30 broadcast + dev {name}"
        ))
        && ip(&format!("link set {name} up"))
}

// By a tap, a guest's broadcast reaches the kernel, and the kernel's the guest.
#[test]
fn frames_leave_and_come_by_a_tap() {
    if !make_tap("vfdev0") {
        eprintln!("left out: no tap can be made here");
        return;
    }
    let server = Server::with(Folder::new(), 1, &["--wire", "tap:vfdev0"]);
    let mut guest = Guest::attach(&server, 0);
    guest.send(&guest.frame([0xFF; 6], b"to all"));
    server.wait_for_counter("wire_sent_frames_total", 0, 1);
    // the kernel has received 60 bytes in one frame there
    let table = std::fs::read_to_string("/proc/thread-self/net/dev").expect("a table");
    let line = table
        .lines()
        .find_map(|line| line.trim().strip_prefix("vfdev0:"));
    let numbers: Vec<&str> = line.unwrap_or("").split_whitespace().take(2).collect();
    assert_eq!(numbers, ["60", "1"], "{table}");
    let socket = UdpSocket::bind("198.51.100.1:0").expect("a socket");
    socket.set_broadcast(true).expect("a socket");
    // (what the kernel sends before it has seen that somebody is there is lost, and it may have something of its own to say)
    wait_until("the kernel's datagram", || {
        let sent = socket.send_to(b"from the kernel", "198.51.100.3:9");
        sent.expect("a datagram");
        let mut taken = std::iter::from_fn(|| guest.take());
        taken.any(|frame| frame.ends_with(b"from the kernel"))
    });
}
