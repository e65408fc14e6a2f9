//! Guests that come to a device, talk in bursts, and go.

use std::ptr::NonNull;
use std::sync::atomic::{AtomicU8, Ordering};
use std::sync::Arc;
use std::thread;
use vfdev::card::Offloads;
use vfdev::{regs, Fault, FileRange, Guests, MappedMemory, Pool, Queue, Served, MOST_FRAME};

const SIZE: usize = 65536;
// Where a guest has its memory, and in that a ring to receive, one to send, and the first buffer and the frame.
const BASE: u64 = 0x10_0000;
const RECEIVES: usize = 0x1000;
const SENDS: usize = 0x2000;
const BUFFER: usize = 0x4000;
const FRAME: usize = 0x6000;
const LENGTH: usize = 60;

fn memory() -> &'static [AtomicU8] {
    Box::leak((0..SIZE).map(|_| AtomicU8::new(0)).collect())
}

fn block(memory: &'static [AtomicU8]) -> NonNull<[u8]> {
    NonNull::slice_from_raw_parts(NonNull::from(memory).cast(), memory.len())
}

fn put(memory: &[AtomicU8], at: usize, bytes: &[u8]) {
    for (cell, byte) in memory[at..].iter().zip(bytes) {
        cell.store(*byte, Ordering::Relaxed);
    }
}

fn bytes(memory: &[AtomicU8], at: usize, count: usize) -> Vec<u8> {
    let cells = memory[at..at + count].iter();
    cells.map(|cell| cell.load(Ordering::Relaxed)).collect()
}

fn frame(to: u8, from: u8, last: u8) -> [u8; LENGTH] {
    let mut bytes = [0; LENGTH];
    bytes[..14].copy_from_slice(&[2, 0, 0, 0, 0, to, 2, 0, 0, 0, 0, from, 8, 0]);
    bytes[LENGTH - 1] = last;
    bytes
}

// A guest with its memory, whose driver has a ring of eight descriptors to receive, one of them given, and one to send.
fn come(device: &mut Guests, function: u8, memory: &'static [AtomicU8]) -> Result<(), Fault> {
    device.attach(function)?;
    // SAFETY: the memory is leaked, and everyone writes it by atomic accesses.
    unsafe { device.map(function, BASE, block(memory), false) }?;
    put(memory, RECEIVES, &(BASE + BUFFER as u64).to_le_bytes());
    for (offset, word) in [
        (regs::rdbal(0), BASE as u32 + RECEIVES as u32),
        (regs::rdlen(0), 128),
        (
            regs::srrctl(0),
            regs::srrctl_desctype(1) | regs::srrctl_bsizepacket(2),
        ),
        (regs::rxdctl(0), regs::RXDCTL_ENABLE),
        (regs::rdt(0), 1),
        (regs::VTIVAR, 0x80),
        (regs::VTEIAC, 1),
        (regs::VTEIMS, 1),
        (regs::tdbal(0), BASE as u32 + SENDS as u32),
        (regs::tdlen(0), 128),
        (regs::txdctl(0), regs::TXDCTL_ENABLE),
    ] {
        assert!(device.vf_write(function, offset, word)?.is_empty());
    }
    Ok(())
}

// Its driver hands over three descriptors of one frame.
fn send(device: &mut Guests, function: u8, memory: &[AtomicU8], bytes: &[u8]) -> Result<(), Fault> {
    put(memory, FRAME, bytes);
    let whole = regs::TXD_DEXT
        | regs::txd_dtyp(3)
        | regs::TXD_RS
        | regs::TXD_EOP
        | regs::txd_length(LENGTH as u64);
    for place in 0..3 {
        let at = SENDS + 16 * place;
        put(memory, at, &(BASE + FRAME as u64).to_le_bytes());
        put(memory, at + 8, &whole.to_le_bytes());
    }
    assert!(device.vf_write(function, regs::tdt(0), 3)?.is_empty());
    Ok(())
}

// A device of two vacant functions, each of which has an address, receives and sends.
fn made() -> Result<Guests, Fault> {
    let mut device = Guests::new(2, 1518, Offloads::NONE)?;
    device.pf_write(regs::pfvfre(0), 3)?;
    device.pf_write(regs::pfvfte(0), 3)?;
    device.pf_write(regs::PFDTXGSWC, regs::PFDTXGSWC_LBE)?;
    for p in 0..2 {
        device.pf_write(regs::ral(p), 2)?;
        device.pf_write(regs::rah(p), regs::RAH_AV | p << 8)?;
        device.pf_write(regs::mpsar(2 * p), 1 << p)?;
    }
    Ok(device)
}

#[test]
fn two_guests_talk_and_one_takes_the_place_of_another() -> Result<(), Fault> {
    let (first, second, third) = (memory(), memory(), memory());
    let mut device = made()?;
    come(&mut device, 0, first)?;
    come(&mut device, 1, second)?;
    let pool = Pool::new(0).expect("a pool");
    send(&mut device, 1, second, &frame(0, 1, 11))?;
    let burst = device.serve_burst(1, Queue::Q0, 1);
    assert_eq!((burst.taken, burst.frames, burst.goes_on), (1, 0, true));
    assert_eq!(burst.messages.iter().collect::<Vec<_>>(), [(pool, 1)]);
    assert_eq!(bytes(first, BUFFER, LENGTH), frame(0, 1, 11));
    put(second, FRAME, &frame(0x77, 1, 12));
    let burst = device.serve_burst(1, Queue::Q0, 100);
    assert_eq!((burst.taken, burst.frames, burst.goes_on), (3, 2, false));
    let mut out = [0; MOST_FRAME];
    assert_eq!(device.frame(1, &mut out), Some(LENGTH));
    assert_eq!(out[..LENGTH], frame(0x77, 1, 12));
    assert_eq!(device.frame(1, &mut out[..LENGTH - 1]), None);
    assert_eq!(device.frame(2, &mut out), None);
    // the first goes, and the third comes in its place
    device.detach(0)?;
    assert_eq!(device.wire(&frame(0, 0x77, 21))?.iter().next(), None);
    device.attach(0)?;
    let mut seen = [7; LENGTH];
    device.mem_read(0, BASE + BUFFER as u64, &mut seen)?;
    assert_eq!(seen, [0; LENGTH]);
    assert_eq!(device.vf_read(0, regs::rdlen(0)), Ok(0));
    device.detach(0)?;
    come(&mut device, 0, third)?;
    let (count, messages) = device.wire_burst(&frame(0, 0x77, 31), &[LENGTH]);
    assert_eq!((count.taken, count.refused), (1, 0));
    assert_eq!(messages.to(pool), 1);
    assert_eq!(bytes(third, BUFFER, LENGTH), frame(0, 0x77, 31));
    assert_eq!(bytes(first, BUFFER, LENGTH), frame(0, 1, 11));
    assert_eq!(device.vf_read(1, regs::tdh(0)), Ok(3));
    Ok(())
}

#[test]
fn each_call_of_a_device_works_on_one_of_guests() -> Result<(), Fault> {
    let memory = memory();
    let mut device = made()?;
    let mut out = [0; MOST_FRAME];
    assert_eq!(device.attach(2), Err(Fault::NoSuchVf));
    assert_eq!(device.detach(0), Err(Fault::NotOpen));
    assert_eq!(device.unmap(0, BASE), Err(Fault::BadMake));
    come(&mut device, 0, memory)?;
    assert_eq!(device.attach(0), Err(Fault::AlreadyOpen));
    assert_eq!(device.unmap(0, 0), Err(Fault::NotThere));
    send(&mut device, 0, memory, &frame(0x77, 0, 1))?;
    let (served, messages) = device.serve(0, Queue::Q0, &mut out)?;
    assert_eq!(served, Served::Sent(Some(LENGTH)));
    assert!(messages.is_empty());
    device.mem_write(0, BASE, &[1, 2])?;
    device.flr(0)?;
    assert_eq!(device.vf_read(0, regs::tdh(0)), Ok(0));
    device.end(0)?;
    assert_eq!(device.end(0), Err(Fault::NotOpen));
    assert_eq!(bytes(memory, 0, 2), [1, 2]);
    device.open(0)?;
    assert_eq!(bytes(memory, 0, 2), [0, 0]);
    assert_eq!(device.pf_read(regs::pfvfre(0)), Ok(3));
    device.pf_reset()?;
    assert_eq!(device.pf_read(regs::pfvfre(0)), Ok(0));
    assert_eq!(device.vf_read(0, regs::VFLINKS), Err(Fault::NotOpen));
    device.unmap(0, BASE)?;
    device.detach(0)?;
    // a device may go to another thread
    thread::spawn(move || device.attach(0))
        .join()
        .expect("it ends")
}

#[test]
fn no_block_is_two_guests() -> Result<(), Fault> {
    let memory = memory();
    let mut device = made()?;
    device.attach(0)?;
    device.attach(1)?;
    // SAFETY: the memory is leaked, and everyone writes it by atomic accesses.
    let mut map = |function, at, from: usize, count: usize| unsafe {
        device.map(function, at, block(&memory[from..from + count]), false)
    };
    map(0, 0, 4096, 4096)?;
    assert_eq!(map(0, 1, 0, 1), Err(Fault::Overlaps));
    assert_eq!(map(0, 1 << 46, 0, 1), Err(Fault::PastEnd));
    for (from, count) in [(4096, 4096), (0, 4097), (8191, 1), (0, SIZE), (5000, 1)] {
        assert_eq!(
            map(1, 0, from, count),
            Err(Fault::Anothers),
            "{from} {count}"
        );
    }
    map(1, 0, 0, 4096)?;
    map(1, 4096, 8192, 4096)?;
    Ok(())
}

// A part of a leaked memory, which says of which file it shows 4096 bytes, and which may be read-only. A clone of the counter tells that it is
// there.
struct Part {
    bytes: &'static [AtomicU8],
    file: Option<FileRange>,
    is_read_only: bool,
    _there: Arc<()>,
}

// SAFETY: the memory is leaked, and everyone writes it by atomic accesses.
unsafe impl MappedMemory for Part {
    fn block(&self) -> NonNull<[u8]> {
        block(self.bytes)
    }

    fn is_read_only(&self) -> bool {
        self.is_read_only
    }

    fn file(&self) -> Option<FileRange> {
        self.file
    }
}

#[test]
fn a_device_holds_memories_that_are_plugged() -> Result<(), Fault> {
    let (memory, there) = (memory(), Arc::new(()));
    let part = |from: usize, is_read_only| {
        Box::new(Part {
            bytes: &memory[from..from + 4096],
            file: None,
            is_read_only,
            _there: there.clone(),
        })
    };
    let held = || Arc::strong_count(&there) - 1;
    let mut device = made()?;
    let refused = device.plug(0, 0, part(0, false)).expect_err("vacant");
    assert_eq!((refused.fault, held()), (Fault::BadMake, 1));
    assert_eq!(refused.to_string(), Fault::BadMake.to_string());
    assert_eq!(refused.memory.block(), block(&memory[..4096]));
    drop(refused);
    device.attach(0)?;
    device.attach(1)?;
    device.plug(0, 0, part(0, false))?;
    device.plug(0, 4096, part(4096, true))?;
    device.plug(1, 0, part(8192, false))?;
    device.plug(1, 4096, part(12288, false))?;
    assert_eq!(held(), 4);
    device.mem_write(0, 4095, &[1, 2])?;
    assert_eq!(bytes(memory, 4095, 2), [1, 0]);
    // out of one guest, and into the other at another address
    assert_eq!(device.unplug(0, 1).err(), Some(Fault::NotThere));
    assert_eq!(device.unplug(2, 0).err(), Some(Fault::NotThere));
    let out = device.unplug(0, 0)?;
    assert_eq!(device.unplug(0, 0).err(), Some(Fault::NotThere));
    device.plug(1, 0x10_0000, out)?;
    let mut seen = [7];
    device.mem_read(0, 4095, &mut seen)?;
    assert_eq!(seen, [0]);
    device.mem_read(1, 0x10_0FFF, &mut seen)?;
    assert_eq!((seen, held()), ([1], 4));
    // unmapped, with their guest, and with the device
    device.unmap(1, 4096)?;
    assert_eq!(held(), 3);
    device.detach(1)?;
    assert_eq!(held(), 1);
    drop(device);
    assert_eq!(held(), 0);
    Ok(())
}

#[test]
fn a_byte_of_a_file_is_plugged_for_one_function() -> Result<(), Fault> {
    let memory = memory();
    let part = |place: usize, inode, from| {
        let file = FileRange {
            device: 1,
            inode,
            from,
            len: 4096,
        };
        Box::new(Part {
            bytes: &memory[4096 * place..4096 * (place + 1)],
            file: Some(file),
            is_read_only: false,
            _there: Arc::new(()),
        })
    };
    let mut device = made()?;
    device.attach(0)?;
    device.attach(1)?;
    device.plug(0, 0, part(0, 7, 8192))?;
    for from in [8192, 12287, 4097] {
        let refused = device.plug(1, 0, part(1, 7, from)).expect_err("the file");
        assert_eq!(refused.fault, Fault::Anothers, "{from}");
    }
    device.plug(1, 0, part(1, 7, 4096))?;
    device.plug(1, 4096, part(2, 8, 8192))?;
    device.plug(1, 8192, part(3, 7, 12288))?;
    // twice for one function, and for another once that one let go of it
    device.plug(0, 4096, part(4, 7, 8192))?;
    device.unmap(0, 0)?;
    device.unmap(0, 4096)?;
    device.plug(1, 12288, part(5, 7, 8192))?;
    Ok(())
}
