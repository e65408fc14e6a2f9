//! Pages of transmit registers, which a client writes without messages.

use crate::client::{words, Client, DEVICE_RESET, PAGE, REGION_WRITE};
use crate::driver::{Guest, COUNT, TX_RING};
use crate::os;
use crate::program::{wait_until, Folder, Server};
use std::fs::{self, File};
use std::sync::atomic::{AtomicBool, Ordering};
use vfdev::card::SPACE;
use vfdev::regs;

const ON: u32 = regs::TXDCTL_ENABLE;

// A server that offers pages.
fn offering(functions: u8) -> Server {
    Server::with(Folder::new(), functions, &["--transmit-page"])
}

fn counter(server: &Server, name: &str, function: u8) -> u64 {
    server.counter(&format!(
        "vfdev_{name}{{function=\"{function}\",name=\"vf{function}\"}}"
    ))
}

// What QEMU asks, and finds: BAR 0 may be mapped, but the page 0x2000 alone, and its file comes beside each answer.
#[test]
fn a_page_is_offered() {
    let server = offering(1);
    let mut client = server.client(0);
    // argsz, flags (read, write, map, capabilities), index, where the capabilities stand, size, offset
    let front = words(&[64, 15, 0, 32, 0x4000, 0, 0, 0]);
    let (told, files) = client.ask_region(0, 32);
    assert_eq!((told, files.len()), (front.clone(), 1));
    let (told, files) = client.ask_region(0, 64);
    // sparse areas, version 1: one, and its offset and size
    let area = words(&[1 | 1 << 16, 0, 1, 0, PAGE, 0, 0x1000, 0]);
    assert_eq!((told, files.len()), ([front, area].concat(), 1));
    let seals = libc::F_SEAL_SHRINK | libc::F_SEAL_GROW | libc::F_SEAL_SEAL;
    assert_eq!(os::seals(&files[0]), seals);
    let file = File::from(files.into_iter().next().expect("a file"));
    assert_eq!(file.metadata().expect("a size").len(), 0x3000);
    assert!(file.set_len(0).is_err() && file.set_len(0x4000).is_err());
    for index in [3, 7] {
        let (told, files) = client.ask_region(index, 64);
        assert_eq!((&told[4..8], files.len()), (&words(&[3])[..], 0));
    }
}

#[test]
fn no_page_is_offered_without_the_word() {
    let server = Server::new(1);
    let (told, files) = server.client(0).ask_region(0, 64);
    assert_eq!(told, words(&[32, 3, 0, 0, 0x4000, 0, 0, 0]));
    assert!(files.is_empty());
}

// A queue is set, turned on and driven by the page alone, while the server sleeps, and while it looks for work all the time.
#[test]
fn frames_go_by_the_page_alone() {
    for words in [
        &["--transmit-page"][..],
        &["--transmit-page", "--poll", "1000000"],
    ] {
        let server = Server::with(Folder::new(), 2, words);
        let mut one = Guest::attach_with_page(&server, 0);
        let mut two = Guest::attach(&server, 1);
        one.settle();
        let before = counter(&server, "messages_total", 0);
        let frames = 2 * COUNT as u32 + 7;
        for number in 0..frames {
            let sent = one.frame(two.mac, &number.to_le_bytes());
            one.send(&sent);
            assert!(two.wait() == sent, "frame {number}");
        }
        assert_eq!(counter(&server, "messages_total", 0), before);
        // the head, which is behind the last frame, and the count of those sent
        wait_until("the head", || one.client.read(regs::tdh(0)) == 7);
        assert_eq!(one.client.read(regs::VFGPTC), frames);
        assert_eq!(one.client.read(regs::txdctl(0)), ON);
    }
}

// Many frames at once: no tail is lost.
#[test]
fn frames_go_by_the_page_in_batches() {
    let server = offering(2);
    let (mut one, mut two) = (
        Guest::attach_with_page(&server, 0),
        Guest::attach_with_page(&server, 1),
    );
    for batch in 0..500u32 {
        let sent: Vec<_> = (0..batch % 64)
            .map(|number| {
                one.frame(
                    two.mac,
                    &[batch.to_le_bytes(), number.to_le_bytes()].concat(),
                )
            })
            .collect();
        sent.iter().for_each(|frame| one.send(frame));
        for (number, frame) in sent.iter().enumerate() {
            assert!(two.wait() == *frame, "frame {number} of {batch}");
        }
        let back = two.frame(one.mac, &batch.to_le_bytes());
        two.send(&back);
        assert!(one.wait() == back, "the answer to {batch}");
    }
}

// A client that doesn't take the page is served as ever, and one that has it may write by messages too.
#[test]
fn messages_do_what_they_did() {
    let server = offering(2);
    let (mut one, mut two) = (Guest::attach(&server, 0), Guest::attach(&server, 1));
    for number in 0..2000u32 {
        // (from the middle on it has the page beside)
        if number == 1000 {
            one.client.take_page();
            let page = one.client.page.take().expect("a page");
            assert_eq!(
                page.register(0x18).load(Ordering::Acquire),
                1000 % COUNT as u32
            );
        }
        let sent = one.frame(two.mac, &number.to_le_bytes());
        one.send(&sent);
        assert!(two.wait() == sent, "frame {number}");
    }
    one.client.take_page();
    assert_eq!(one.client.read(regs::tdt(0)), 2000 % COUNT as u32);
}

// All that a reset leaves initial is so in the page, however it comes; and a driver begins anew.
#[test]
fn a_reset_shows_in_the_page() {
    let server = offering(2);
    let (mut one, mut two) = (
        Guest::attach_with_page(&server, 0),
        Guest::attach(&server, 1),
    );
    let reset = |client: &mut Client, kind: u32| match kind {
        0 => {
            client.write(regs::VFCTRL, regs::VFCTRL_RST);
            client.read(regs::VFLINKS);
        }
        1 => assert_eq!(client.call(DEVICE_RESET, &[], &[]), Ok(Vec::new())),
        // a function-level reset, by the capability for PCI Express in configuration space
        _ => {
            let at = 0xA0 + 9;
            let body = [words(&[at, 0, 7, 1]), vec![0x80]].concat();
            client.call(REGION_WRITE, &body, &[]).expect("a write");
        }
    };
    for kind in [0u32, 1, 2] {
        let sent = one.frame(two.mac, &kind.to_le_bytes());
        one.send(&sent);
        assert_eq!(two.wait(), sent);
        // (words that the card has no register for)
        one.client.write(0x200C, 7);
        one.client.write(0x2FFC, 7);
        reset(&mut one.client, kind);
        for offset in (PAGE..PAGE + 0x1000).step_by(4) {
            assert_eq!(one.client.read(offset), 0, "{offset:#x} after reset {kind}");
        }
        one.start_driver();
    }
}

// What the card makes of a word stands in the page in its place.
#[test]
fn words_are_put_right() {
    let server = offering(1);
    let mut guest = Guest::begin(&server, 0);
    guest.client.take_page();
    for (offset, written, due) in [
        (regs::tdbal(0), u32::MAX, 0xFFFF_FF80),
        (regs::tdbah(1), 7, 7),
        (regs::tdlen(1), u32::MAX, 0xF_FF80),
        (regs::tdh(0), 0x1_2345, 0x2345),
        // (where heads would be written to: the card has no such register)
        (0x2038, 7, 0),
        // no ring: it doesn't go on
        (regs::txdctl(0), ON, 0),
        (regs::txdctl(1), 1 << 26, 0),
    ] {
        guest.client.write(offset, written);
        let is_so = || guest.client.read(offset) == due;
        wait_until(&format!("{offset:#x} is {due:#x}"), is_so);
    }
}

// A queue that a descriptor stops is off in the page.
#[test]
fn a_queue_that_faults_is_off_in_the_page() {
    let server = offering(2);
    let mut one = Guest::attach_with_page(&server, 0);
    let _two = Guest::attach(&server, 1);
    // (from behind the last address that a guest has)
    one.send_from(SPACE, 60);
    wait_until("it is off", || one.client.read(regs::txdctl(0)) == 0);
}

// A guest turns its queue off, gives it another ring, and turns it on, while the server doesn't look: the frame of the new ring is sent.
#[test]
fn a_ring_that_changed_between_two_looks_is_the_new_one() {
    let server = offering(2);
    let (mut one, mut two) = (
        Guest::attach_with_page(&server, 0),
        Guest::attach(&server, 1),
    );
    for number in 0..3u8 {
        one.send(&one.frame(two.mac, &[number]));
        assert_eq!(two.wait()[14], number);
    }
    wait_until("the head", || one.client.read(regs::tdh(0)) == 3);
    server.signal(libc::SIGSTOP);
    // the frame of the first descriptor is the second one's of the new ring
    let (old, new) = (TX_RING, TX_RING + 0x8000);
    for at in [0, 8] {
        let word = one.memory.get(old + at) & !regs::TXD_DD;
        one.memory.put(new + 16 + at, word);
        // (nobody is to take this one)
        one.memory.put(new + at, u64::MAX);
    }
    for (offset, word) in [
        (regs::txdctl(0), 1 << 26),
        (regs::tdbal(0), new as u32),
        (regs::tdlen(0), 128),
        (regs::tdh(0), 1),
        (regs::tdt(0), 1),
        (regs::txdctl(0), ON | 8 << 16),
        (regs::tdt(0), 2),
    ] {
        one.client.write(offset, word);
    }
    server.signal(libc::SIGCONT);
    assert_eq!(two.wait()[14], 0, "the frame of the new ring");
    wait_until("the head", || one.client.read(regs::tdh(0)) == 2);
    assert_eq!(one.client.read(regs::txdctl(0)), ON);
    assert!(two.take().is_none());
}

// A message comes behind what was written in the page before it, also where the server hadn't looked: the reset of a guest is behind its tail.
#[test]
fn a_message_comes_behind_what_was_written_before() {
    let server = offering(1);
    let mut guest = Guest::attach_with_page(&server, 0);
    for number in 0..200 {
        guest.client.write(regs::tdbal(1), number << 7);
        guest.client.write(regs::VFCTRL, regs::VFCTRL_RST);
        guest.client.read(regs::VFLINKS);
        assert_eq!(guest.client.read(regs::tdbal(1)), 0);
    }
}

// The administrator's reset shows there too.
#[test]
fn a_reset_by_the_configuration_shows_in_the_page() {
    let folder = Folder::new();
    let path = folder.at("vfdev.toml");
    let write = |address: u8| {
        let text =
            format!("vlans = [0]\n[[function]]\nnumber = 0\nvlans = [0]\naddress = \"02:00:00:00:00:{address:02x}\"\n");
        fs::write(&path, text).expect("a file");
    };
    write(1);
    let word = path.to_str().expect("a name").to_owned();
    let server = Server::with(folder, 1, &["--config", &word, "--transmit-page"]);
    let mut guest = Guest::attach_with_page(&server, 0);
    guest.settle();
    assert_eq!(guest.client.read(regs::tdbal(0)), TX_RING as u32);
    write(2);
    server.signal(libc::SIGHUP);
    wait_until("the reset", || guest.client.read(regs::tdbal(0)) == 0);
    assert_eq!(guest.client.read(regs::txdctl(0)), 0);
}

// How many files the server has open, and how many ranges mapped.
fn held(server: &Server) -> (usize, usize) {
    let place = format!("/proc/{}", server.process());
    let files = fs::read_dir(format!("{place}/fd")).expect("a process");
    let maps = fs::read_to_string(format!("{place}/maps")).expect("a process");
    (files.count(), maps.lines().count())
}

// Who goes leaves nothing, and the next one has another page.
#[test]
fn a_page_goes_with_its_client() {
    let server = offering(2);
    let mut two = Guest::attach(&server, 1);
    server.wait_for_counter("mapped_regions", 1, 1);
    let before = held(&server);
    let mut pages: Vec<os::Memory> = Vec::new();
    for number in 0..4 {
        let mut one = Guest::attach_with_page(&server, 0);
        let sent = one.frame(two.mac, &[number]);
        one.send(&sent);
        assert_eq!(two.wait(), sent);
        // those who went before write their pages, and nobody minds
        for page in &pages {
            page.register(0x28).store(0, Ordering::Release);
            page.register(0x18).store(3, Ordering::Release);
        }
        one.settle();
        assert_eq!(one.client.read(regs::txdctl(0)), ON);
        pages.extend(one.client.page.take());
        drop(one);
        server.wait_for_counter("mapped_regions", 0, 0);
        assert_eq!(held(&server), before, "session {number}");
    }
}

// A guest writes all words of its page as fast as it can, while two others play.
#[test]
fn whoever_scribbles_disturbs_nobody() {
    let server = offering(3);
    let (mut one, mut two) = (
        Guest::attach_with_page(&server, 0),
        Guest::attach_with_page(&server, 1),
    );
    let mut third = Guest::attach_with_page(&server, 2);
    let is_over = AtomicBool::new(false);
    std::thread::scope(|scope| {
        scope.spawn(|| {
            let mut seed = 1u64;
            while !is_over.load(Ordering::Relaxed) {
                for offset in (PAGE..PAGE + 0x80).step_by(4) {
                    seed = seed.wrapping_mul(6_364_136_223_846_793_005).wrapping_add(1);
                    third.client.write(offset, (seed >> 32) as u32);
                }
            }
        });
        for number in 0..2000u32 {
            let sent = one.frame(two.mac, &number.to_le_bytes());
            one.send(&sent);
            assert!(two.wait() == sent, "frame {number}");
            let back = two.frame(one.mac, &number.to_le_bytes());
            two.send(&back);
            assert!(one.wait() == back, "the answer to frame {number}");
        }
        is_over.store(true, Ordering::Relaxed);
    });
    // it is served still
    third.client.write(regs::VFCTRL, regs::VFCTRL_RST);
    third.client.read(regs::VFLINKS);
    third.start_driver();
    let sent = third.frame(two.mac, b"after all");
    third.send(&sent);
    while two.wait() != sent {}
}
