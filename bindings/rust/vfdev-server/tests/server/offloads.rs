//! What the card does for its guests' drivers, and what becomes of it where it doesn't.

use crate::driver::{Guest, COUNT};
use crate::program::{Folder, Server, PATIENCE};
use std::os::unix::net::UnixDatagram;
use std::time::{Duration, Instant};
use vfdev::regs;

// The heads of a frame, in bytes: Ethernet, IPv4, TCP.
const ETHERNET: usize = 14;
const IP: usize = 20;
const TCP: usize = 20;
const HEADS: usize = ETHERNET + IP + TCP;
// Bytes of payload of a segment.
const MSS: usize = 500;
// The flags ACK, and ACK, PSH and FIN.
const ACK: u8 = 0x10;
const ACK_PSH_FIN: u8 = 0x19;

// A server with a wire, and a guest whose frames leave by it.
fn guest_at_wire(offloads: &str) -> (Server, UnixDatagram, Guest) {
    let folder = Folder::new();
    let cable = UnixDatagram::bind(folder.at("peer")).expect("a socket");
    cable.set_read_timeout(Some(PATIENCE)).expect("a limit");
    let word = format!(
        "unix:{},{}",
        folder.at("wire").display(),
        folder.at("peer").display()
    );
    let server = Server::with(folder, 1, &["--wire", &word, "--offloads", offloads]);
    let guest = Guest::attach(&server, 0);
    (server, cable, guest)
}

fn received(cable: &UnixDatagram) -> Vec<u8> {
    let mut frame = vec![0; 2048];
    let count = cable.recv(&mut frame).expect("a frame");
    frame.truncate(count);
    frame
}

fn word(bytes: &[u8], at: usize) -> u16 {
    u16::from_be_bytes([bytes[at], bytes[at + 1]])
}

// The sum of words in ones' complement (RFC 1071), which is all ones where a sum among them is right.
fn sum(bytes: &[u8]) -> u16 {
    let words = bytes.chunks(2);
    let mut sum: u32 = words
        .map(|pair| u32::from(pair[0]) << 8 | u32::from(*pair.get(1).unwrap_or(&0)))
        .sum();
    while sum > 0xFFFF {
        sum = (sum & 0xFFFF) + (sum >> 16);
    }
    sum as u16
}

// The sum of the pseudo header, with so many bytes of TCP.
fn pseudo_sum(frame: &[u8], length: usize) -> u16 {
    let addresses = &frame[ETHERNET + 12..ETHERNET + 20];
    sum(&[addresses, &[0, 6], &(length as u16).to_be_bytes()].concat())
}

// TCP data to a station outside, as a driver leaves it to a card: IPv4 number 0x12FF, sequence number 2^32 - 500.
fn tcp_frame(guest: &Guest, payload: usize) -> Vec<u8> {
    let mut frame = [&[2, 0, 0, 0, 0, 0x99][..], &guest.mac, &[8, 0]].concat();
    frame.extend([
        0x45, 0, 0, 0, 0x12, 0xFF, 0x40, 0, 64, 6, 0, 0, 10, 0, 0, 1, 10, 0, 0, 2,
    ]);
    frame.extend([0, 80, 0x80, 1, 0xFF, 0xFF, 0xFE, 0x0C, 0, 0, 0, 7]);
    frame.extend([0x50, ACK_PSH_FIN, 1, 0, 0, 0, 0, 0]);
    frame.extend((0..payload).map(|place| (place % 251) as u8));
    let partial = pseudo_sum(&frame, TCP + payload);
    frame[ETHERNET + IP + 16..][..2].copy_from_slice(&partial.to_be_bytes());
    frame
}

fn tcp_context() -> (u64, u64) {
    (
        regs::txc_first_iplen(IP as u64) | regs::txc_first_maclen(ETHERNET as u64),
        regs::TXC_SECOND_IPV4
            | regs::txc_second_l4t(1)
            | regs::txc_second_l4len(TCP as u64)
            | regs::txc_second_mss(MSS as u64),
    )
}

// Both sums of a frame are right.
fn verify(frame: &[u8]) {
    let behind = &frame[ETHERNET + IP..];
    assert_eq!(sum(&frame[ETHERNET..ETHERNET + IP]), 0xFFFF, "of IPv4");
    let pseudo = pseudo_sum(frame, behind.len()).to_be_bytes();
    assert_eq!(sum(&[&pseudo, behind].concat()), 0xFFFF, "of TCP");
}

#[test]
fn tcp_data_is_cut_into_segments() {
    let (_server, cable, mut guest) = guest_at_wire("all");
    let frame = tcp_frame(&guest, 1201);
    guest.send_by(tcp_context(), regs::TXD_TSE, &frame);
    for (number, size, sequence, flags) in [
        (0x12FF, 500, 0xFFFF_FE0C_u32, ACK),
        (0x1300, 500, 0, ACK),
        (0x1301, 201, 500, ACK_PSH_FIN),
    ] {
        let segment = received(&cable);
        assert_eq!(segment.len(), HEADS + size);
        assert_eq!(usize::from(word(&segment, ETHERNET + 2)), IP + TCP + size);
        assert_eq!(word(&segment, ETHERNET + 4), number);
        assert_eq!(segment[ETHERNET + IP + 4..][..4], sequence.to_be_bytes());
        assert_eq!(segment[ETHERNET + IP + 13], flags);
        let from = HEADS + MSS * usize::from(number - 0x12FF);
        assert_eq!(segment[HEADS..], frame[from..from + size]);
        verify(&segment);
    }
    assert_eq!(guest.client.read(regs::VFGPTC), 3);
}

#[test]
fn sums_are_put_in() {
    for (offloads, is_made) in [("checksum", true), ("vlan,segmentation", false)] {
        let (_server, cable, mut guest) = guest_at_wire(offloads);
        let mut frame = tcp_frame(&guest, 11);
        frame[ETHERNET + 2..ETHERNET + 4].copy_from_slice(&[0, 51]);
        guest.send_by(tcp_context(), regs::TXD_IXSM | regs::TXD_TXSM, &frame);
        let left = received(&cable);
        if is_made {
            verify(&left);
        } else {
            assert_eq!(left, frame, "as the driver wrote it");
        }
    }
}

// A card that cuts nothing can't use such a descriptor: the queue goes off.
#[test]
fn segments_that_nobody_makes_stop_the_queue() {
    let (server, _cable, mut guest) = guest_at_wire("vlan,checksum");
    let frame = tcp_frame(&guest, 1201);
    guest.send_by(tcp_context(), regs::TXD_TSE, &frame);
    guest.settle();
    assert_eq!(guest.client.read(regs::txdctl(0)) & regs::TXDCTL_ENABLE, 0);
    assert_eq!(guest.client.read(regs::VFGPTC), 0);
    server.wait_for_counter("queue_faults_total", 0, 1);
    assert_eq!(server.counter(&last_fault("not offered")), 1);
}

// What the last fault of function 0's first transmit queue is called.
fn last_fault(reason: &str) -> String {
    const FAULT: &str = "vfdev_last_queue_fault{function=\"0\",name=\"vf0\"";
    format!("{FAULT},queue=\"transmit 0\",reason=\"{reason}\"}}")
}

// A frame for nobody, five more than the guest has descriptors for, one whose source isn't the guest's, and a buffer past its addresses.
#[test]
fn what_is_lost_is_counted_by_its_reason() {
    let (server, cable, mut guest) = guest_at_wire("all");
    let wire = server.folder.at("wire");
    let come = |to: [u8; 6]| {
        let mut frame = [&to[..], &[2, 0, 0, 0, 0, 0x99, 0x88, 0xB5]].concat();
        frame.resize(60, 0);
        cable.send_to(&frame, &wire).expect("a datagram");
    };
    come([2, 0, 0, 0, 0, 0x55]);
    for _ in 0..COUNT - 1 + 5 {
        come(guest.mac);
    }
    server.wait_for_counter("dropped_no_room_total", 0, 5);
    assert_eq!(server.counter("vfdev_wire_unclaimed_frames_total"), 1);
    let mut frame = guest.frame([2, 0, 0, 0, 0, 0x99], b"anothers");
    frame[11] ^= 1;
    guest.send(&frame);
    server.wait_for_counter("refused_total", 0, 1);
    guest.send_from(1 << 46, 60);
    server.wait_for_counter("queue_faults_total", 0, 1);
    assert_eq!(server.counter(&last_fault("buffer")), 1);
    assert_eq!(
        server.counter("vfdev_unclaimed_total{function=\"0\",name=\"vf0\"}"),
        0
    );
    drop(guest);
    let last = "a transmit buffer past the memory";
    server.wait_for_line(&["faults had stopped its queues", "function=0", last]);
}

// A frame that can't be cut is dropped, and one whose sum can't be made leaves as it is. Both are counted, and the queue goes on.
#[test]
fn what_cannot_be_done_is_counted() {
    let (server, cable, mut guest) = guest_at_wire("all");
    let frame = tcp_frame(&guest, 100);
    let (first, second) = tcp_context();
    let without_mss = second & !regs::TXC_SECOND_MSS_MASK;
    guest.send_by((first, without_mss), regs::TXD_TSE, &frame);
    let of_sctp = second & !regs::TXC_SECOND_L4T_MASK | regs::txc_second_l4t(2);
    guest.send_by((first, of_sctp), regs::TXD_TXSM, &frame);
    assert_eq!(received(&cable), frame);
    server.wait_for_counter("shortfalls_total", 0, 2);
}

// A driver wants 1,022 microseconds between interrupts. However many frames come, there are no more than fit into the time; and the last
// frame is told of too.
#[test]
fn interrupts_are_as_far_apart_as_the_driver_asks() {
    const INTERVAL: Duration = Duration::from_micros(1022);
    const COUNTER: &str = "vfdev_interrupts_total{function=\"1\",name=\"vf1\"}";
    let server = Server::with(Folder::new(), 2, &["--offloads", "all"]);
    let (mut one, mut two) = (Guest::attach(&server, 0), Guest::attach(&server, 1));
    two.client.write(regs::vteitr(0), 0xFFFF_FFFF);
    assert_eq!(two.client.read(regs::vteitr(0)), 0xFF8);
    let begun = Instant::now();
    let before = server.counter(COUNTER);
    for number in 0..300u32 {
        let sent = one.frame(two.mac, &number.to_le_bytes());
        one.send(&sent);
        assert!(two.wait() == sent, "frame {number}");
        two.client.write(regs::VTEIMS, 7);
    }
    let told = server.counter(COUNTER) - before;
    let most = begun.elapsed().as_micros() / INTERVAL.as_micros() + 1;
    assert!(u128::from(told) <= most, "{told} interrupts for {most}");
    let last = one.frame(two.mac, b"last");
    one.send(&last);
    assert!(two.sleep() == last);
}
