//! Memory that is mapped and unmapped while a guest runs, and memory that isn't taken.

use crate::client::{READ, WRITE};
use crate::driver::{Guest, MEMORY};
use crate::os::Memory;
use crate::program::{wait_until, Server};
use vfdev::card::SPACE;

const HIGH: u64 = 1 << 32;
const PAGE: u64 = 4096;
const MIB: u64 = 1 << 20;
const BOTH: u32 = READ | WRITE;

// A guest gets memory at 4 GiB while its queues are on, sends from there, and loses it again.
#[test]
fn memory_comes_and_goes_while_a_guest_runs() {
    let server = Server::new(2);
    let (mut one, mut two) = (Guest::attach(&server, 0), Guest::attach(&server, 1));
    let more = Memory::new(2 << 20);
    for round in 0..3u8 {
        let mapped = one.client.map(&more.file, BOTH, 4096, HIGH, 1 << 20);
        assert_eq!(mapped.expect("a reply"), Ok(Vec::new()));
        server.wait_for_counter("mapped_bytes", 0, (MEMORY + (1 << 20)) as u64);
        let frame = one.frame(two.mac, &[round; 100]);
        // (the file's byte 4096 is the first one of the region)
        more.write(4096 + 512, &frame);
        one.send_from(HIGH + 512, frame.len());
        assert_eq!(two.wait(), frame);
        assert!(one.client.unmap(HIGH, 1 << 20).expect("a reply").is_ok());
        server.wait_for_counter("mapped_regions", 0, 1);
    }
    // without it a descriptor that names it sends nothing, and the guest's own memory is as it was
    let frame = one.frame(two.mac, b"late");
    one.send_from(HIGH + 512, frame.len());
    one.settle();
    let back = two.frame(one.mac, b"still there");
    two.send(&back);
    assert_eq!(one.wait(), back);
    assert!(two.take().is_none());
}

// What is unmapped at once: each region that lies in the range. Nothing there is no error.
#[test]
fn a_range_is_unmapped_whole() {
    let server = Server::new(1);
    let mut client = server.client(0);
    let memory = Memory::new(1 << 20);
    for (offset, address) in [(0, 0x10000), (0x10000, 0x20000), (0x20000, 0x40000)] {
        let mapped = client.map(&memory.file, BOTH, offset, address, 0x10000);
        assert_eq!(mapped.expect("a reply"), Ok(Vec::new()));
    }
    server.wait_for_counter("mapped_regions", 0, 3);
    for (address, size, left) in [
        (0x50000, 0x1000, 3),
        (0, 0x30000, 1),
        (0, 0x30000, 1),
        (0, 1 << 40, 0),
    ] {
        assert!(client.unmap(address, size).expect("a reply").is_ok());
        server.wait_for_counter("mapped_regions", 0, left);
    }
    // and memory that is only read is mapped so
    assert!(client
        .map(&memory.file, READ, 0, 0, 0x1000)
        .expect("a reply")
        .is_ok());
    // a part of a region ends the connection
    assert!(client
        .map(&memory.file, BOTH, 0, 0x10000, 0x10000)
        .expect("a reply")
        .is_ok());
    assert!(client.unmap(0x10000, 0x8000).is_err());
    server.wait_for_line(&[
        "the connection is ended",
        "0x10000 would be unmapped in part",
    ]);
}

// How a file is sealed and mapped (flags; offset, guest address, size), and why that ends the connection.
#[test]
fn memory_that_is_not_taken_ends_the_connection() {
    let server = Server::new(1);
    let (sealed, open) = (libc::F_SEAL_SHRINK, libc::F_SEAL_GROW);
    for (seals, flags, (offset, address, size), reason) in [
        (open, BOTH, (0, 0, MIB), "isn't sealed against shrinking"),
        (sealed, WRITE, (0, 0, MIB), "may be written and not read"),
        (sealed, BOTH, (PAGE, 0, MIB), "ends at 1048576 bytes"),
        (sealed, BOTH, (0, 0, 1 << 60), "ends at 1048576 bytes"),
        (sealed, BOTH, (PAGE / 2, 0, PAGE), "memory can't be mapped"),
        (sealed, BOTH, (0, SPACE - PAGE, 2 * PAGE), "passes the end"),
        (sealed, BOTH, (0, 1 << 63, PAGE), "passes the end"),
    ] {
        let memory = Memory::sealed(MIB as usize, seals);
        let mut client = server.client(0);
        let mapped = client.map(&memory.file, flags, offset, address, size);
        assert!(mapped.is_err(), "{reason}");
        server.wait_for_line(&["the connection is ended", reason]);
    }
}

// A range of a file is memory of one function: a page in common is enough.
#[test]
fn two_functions_share_no_memory() {
    let server = Server::new(2);
    let memory = Memory::new(MIB as usize);
    let mut holder = server.client(1);
    let held = holder.map(&memory.file, BOTH, PAGE, 0, PAGE);
    assert!(held.expect("a reply").is_ok());
    for (offset, size, is_taken) in [
        (0, PAGE, false),
        (PAGE, PAGE, true),
        (0, 3 * PAGE, true),
        (2 * PAGE, PAGE, false),
    ] {
        let mut client = server.client(0);
        let mapped = client.map(&memory.file, BOTH, offset, 0, size);
        assert_eq!(mapped.is_err(), is_taken, "from {offset:#x}");
    }
    server.wait_for_line(&["the connection is ended", "memory of function 1 already"]);
    // the holder is left alone, and what it gives up is free
    assert!(holder.unmap(0, PAGE).expect("a reply").is_ok());
    let mut client = server.client(0);
    let mapped = client.map(&memory.file, BOTH, 0, 0, MIB);
    assert!(mapped.expect("a reply").is_ok());
}

// A guest address has one memory, though a range of a file may stand at several.
#[test]
fn a_guest_address_has_one_memory() {
    let server = Server::new(1);
    let memory = Memory::new(MIB as usize);
    let mut client = server.client(0);
    for address in [PAGE, 4 * PAGE] {
        let mapped = client.map(&memory.file, BOTH, 0, address, 2 * PAGE);
        assert!(mapped.expect("a reply").is_ok());
    }
    assert!(client.map(&memory.file, BOTH, 0, 2 * PAGE, PAGE).is_err());
    server.wait_for_line(&["the connection is ended", "overlaps"]);
}

// There are 64 regions at most.
#[test]
fn regions_are_counted() {
    let server = Server::new(1);
    let mut client = server.client(0);
    let memory = Memory::new(1 << 20);
    for place in 0..64 {
        assert!(client
            .map(&memory.file, BOTH, 0, 0x1000 * place, 0x1000)
            .expect("a reply")
            .is_ok());
    }
    server.wait_for_counter("mapped_regions", 0, 64);
    assert!(client
        .map(&memory.file, BOTH, 0, 0x10_0000, 0x1000)
        .is_err());
    server.wait_for_line(&["the connection is ended", "64 regions are mapped already"]);
    server.wait_for_counter("mapped_regions", 0, 0);
}

// A guest's file can be gone, grown, or full of holes: the program goes on.
#[test]
fn what_a_client_does_to_its_file_hurts_nobody() {
    let server = Server::new(2);
    let mut guest = Guest::attach(&server, 0);
    let file = std::fs::File::from(guest.memory.file.try_clone().expect("a file"));
    assert!(file.set_len(0).is_err(), "it is sealed");
    file.set_len(2 * MEMORY as u64).expect("a size");
    assert!(is_mapped(&server));
    let mut peer = Guest::attach(&server, 1);
    peer.send(&peer.frame(guest.mac, b"hello"));
    assert_eq!(guest.wait()[14..19], *b"hello");
    drop((guest, peer, file));
    for function in 0..2 {
        server.wait_for_counter("mapped_regions", function, 0);
    }
    wait_until("it is unmapped", || !is_mapped(&server));
}

// Whether any memory of a guest's is mapped in the server.
fn is_mapped(server: &Server) -> bool {
    let maps = format!("/proc/{}/maps", server.process());
    let text = std::fs::read_to_string(maps).expect("the server's maps");
    text.contains("memfd:guest")
}

// A large memory is unmapped on a thread of its own, be it by message or at the end.
#[test]
fn large_memories_go_too() {
    let server = Server::new(1);
    let memory = Memory::new(128 << 20);
    for by_message in [true, false] {
        let mut client = server.client(0);
        let mapped = client.map(&memory.file, BOTH, 0, 0, 128 << 20);
        assert_eq!(mapped.expect("a reply"), Ok(Vec::new()));
        assert!(is_mapped(&server));
        if by_message {
            assert!(client.unmap(0, 128 << 20).expect("a reply").is_ok());
            wait_until("it is unmapped", || !is_mapped(&server));
        }
        drop(client);
        wait_until("it is unmapped", || !is_mapped(&server));
    }
}
