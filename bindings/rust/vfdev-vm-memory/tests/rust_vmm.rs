//! Two guests with memories of rust-vmm's, in frames, files and regions that come and go.

use std::fs::File;
use std::os::fd::FromRawFd;
use std::sync::Arc;
use vfdev::card::Offloads;
use vfdev::{regs, Fault, Guests, Queue};
use vm_memory::mmap::MmapRegion;
use vm_memory::{Bytes, FileOffset, GuestAddress, GuestMemoryMmap, GuestRegionMmap};

const GIB: u64 = 1 << 30;
// Where a guest has, above 4 GiB, its rings, its buffer and its frame.
const RECEIVES: u64 = 4 * GIB + 0x1000;
const SENDS: u64 = 4 * GIB + 0x2000;
const BUFFER: u64 = 4 * GIB + 0x4000;
const FRAME: u64 = 4 * GIB + 0x6000;

fn memory(ranges: &[(u64, u64)]) -> GuestMemoryMmap {
    let ranges: Vec<_> = ranges
        .iter()
        .map(|(at, len)| (GuestAddress(*at), *len as usize))
        .collect();
    GuestMemoryMmap::from_ranges(&ranges).unwrap()
}

fn attach(device: &mut Guests, function: u8, memory: &GuestMemoryMmap) -> Result<(), Fault> {
    // SAFETY: each test has one thread.
    unsafe { vfdev_vm_memory::attach(device, function, memory) }
}

fn plug(device: &mut Guests, function: u8, region: Arc<GuestRegionMmap>) -> Result<(), Fault> {
    // SAFETY: each test has one thread.
    unsafe { vfdev_vm_memory::plug(device, function, region) }
}

// Two vacant functions, which may receive and send, to each other too.
fn device() -> Guests {
    let mut device = Guests::new(2, 1518, Offloads::NONE).unwrap();
    device.pf_write(regs::pfvfre(0), 3).unwrap();
    device.pf_write(regs::pfvfte(0), 3).unwrap();
    let both = regs::PFDTXGSWC_LBE;
    device.pf_write(regs::PFDTXGSWC, both).unwrap();
    device
}

fn memfd(len: u64) -> File {
    // SAFETY: the name is a string of C, and the descriptor is new and nobody else's.
    let file = unsafe { File::from_raw_fd(libc::memfd_create(b"memory\0".as_ptr().cast(), 0)) };
    file.set_len(len).unwrap();
    file
}

fn over_file(file: &File, from: u64, at: u64, len: u64) -> GuestMemoryMmap {
    let offset = FileOffset::new(file.try_clone().unwrap(), from);
    let range = (GuestAddress(at), len as usize, Some(offset));
    GuestMemoryMmap::from_ranges_with_files([range]).unwrap()
}

fn region(at: u64, protection: i32) -> Arc<GuestRegionMmap> {
    let flags = libc::MAP_ANONYMOUS | libc::MAP_PRIVATE | libc::MAP_NORESERVE;
    let mapping = MmapRegion::build(None, 4096, protection, flags).unwrap();
    Arc::new(GuestRegionMmap::new(mapping, GuestAddress(at)).unwrap())
}

// A driver's queues: one descriptor to receive, and one to send.
fn drive(device: &mut Guests, function: u8, memory: &GuestMemoryMmap) {
    memory.write_obj(BUFFER, GuestAddress(RECEIVES)).unwrap();
    memory.write_obj(FRAME, GuestAddress(SENDS)).unwrap();
    let whole =
        regs::TXD_DEXT | regs::txd_dtyp(3) | regs::TXD_RS | regs::TXD_EOP | regs::txd_length(60);
    memory.write_obj(whole, GuestAddress(SENDS + 8)).unwrap();
    for (offset, word) in [
        (regs::rdbal(0), RECEIVES as u32),
        (regs::rdbah(0), (RECEIVES >> 32) as u32),
        (regs::rdlen(0), 128),
        (
            regs::srrctl(0),
            regs::srrctl_desctype(1) | regs::srrctl_bsizepacket(2),
        ),
        (regs::rxdctl(0), regs::RXDCTL_ENABLE),
        (regs::rdt(0), 1),
        (regs::tdbal(0), SENDS as u32),
        (regs::tdbah(0), (SENDS >> 32) as u32),
        (regs::tdlen(0), 128),
        (regs::txdctl(0), regs::TXDCTL_ENABLE),
    ] {
        assert!(device.vf_write(function, offset, word).unwrap().is_empty());
    }
}

#[test]
fn a_frame_goes_from_guest_to_guest() {
    let ranges = [(0, GIB), (4 * GIB, GIB)];
    let memories = [memory(&ranges), memory(&ranges)];
    let mut device = device();
    for pool in 0..2u8 {
        attach(&mut device, pool, &memories[usize::from(pool)]).unwrap();
        drive(&mut device, pool, &memories[usize::from(pool)]);
        let index = u32::from(pool);
        for (offset, word) in [
            (regs::ral(index), 2),
            (regs::rah(index), regs::RAH_AV | index << 8),
            (regs::mpsar(2 * index), 1 << index),
        ] {
            device.pf_write(offset, word).unwrap();
        }
    }
    let mut frame = [0u8; 60];
    frame[..14].copy_from_slice(&[2, 0, 0, 0, 0, 1, 2, 0, 0, 0, 0, 0, 8, 0]);
    frame[59] = 0x5A;
    memories[0]
        .write_slice(&frame, GuestAddress(FRAME))
        .unwrap();
    let _ = device.vf_write(0, regs::tdt(0), 1).unwrap();
    let burst = device.serve_burst(0, Queue::Q0, 8);
    assert_eq!((burst.taken, burst.frames), (2, 0));
    let mut came = [0u8; 60];
    memories[1]
        .read_slice(&mut came, GuestAddress(BUFFER))
        .unwrap();
    assert_eq!(came, frame);
    let mut own = [1u8; 60];
    memories[0]
        .read_slice(&mut own, GuestAddress(BUFFER))
        .unwrap();
    assert_eq!(own, [0; 60]);
}

#[test]
fn a_memory_stays_as_long_as_the_device_has_it() {
    let mut device = device();
    let memory = memory(&[(0, GIB)]);
    attach(&mut device, 0, &memory).unwrap();
    drop(memory);
    device.mem_write(0, GIB - 1, &[7]).unwrap();
    let mut byte = [0];
    device.mem_read(0, GIB - 1, &mut byte).unwrap();
    assert_eq!(byte, [7]);
}

#[test]
fn a_byte_of_a_file_is_memory_of_one_function() {
    let file = memfd(0x4000);
    let mut device = device();
    attach(&mut device, 0, &over_file(&file, 0, 0, 0x2000)).unwrap();
    let other = over_file(&file, 0x1000, 0x8000, 0x2000);
    assert_eq!(attach(&mut device, 1, &other), Err(Fault::Anothers));
    // (refused whole: the function is vacant still)
    attach(&mut device, 1, &over_file(&file, 0x2000, 0x8000, 0x2000)).unwrap();
    device.mem_write(1, 0x8000, &[9]).unwrap();
    let mut bytes = [0; 2];
    device.mem_read(0, 0x1FFF, &mut bytes).unwrap();
    assert_eq!(bytes, [0; 2]);
    device.detach(0).unwrap();
    device.detach(1).unwrap();
    attach(&mut device, 1, &other).unwrap();
}

#[test]
fn a_region_that_is_refused_leaves_the_function_vacant() {
    let mut device = device();
    let low = memory(&[(0, 4096)]);
    let unreadable = low.insert_region(region(0x8000, libc::PROT_NONE)).unwrap();
    assert_eq!(attach(&mut device, 0, &unreadable), Err(Fault::BadMake));
    assert_eq!(device.detach(0), Err(Fault::NotOpen));
    // and its other regions aren't held any more
    attach(&mut device, 1, &low).unwrap();
    assert_eq!(attach(&mut device, 2, &low), Err(Fault::NoSuchVf));
    assert_eq!(attach(&mut device, 1, &low), Err(Fault::AlreadyOpen));
}

#[test]
fn memory_is_plugged_in_and_out() {
    let mut device = device();
    attach(&mut device, 0, &memory(&[(0, 4096)])).unwrap();
    let more = region(0x10_0000, libc::PROT_READ | libc::PROT_WRITE);
    plug(&mut device, 0, more.clone()).unwrap();
    assert_eq!(plug(&mut device, 0, more.clone()), Err(Fault::Overlaps));
    assert_eq!(Arc::strong_count(&more), 2);
    device.mem_write(0, 0x10_0000, &[5]).unwrap();
    assert_eq!(
        more.read_obj::<u8>(vm_memory::MemoryRegionAddress(0))
            .unwrap(),
        5
    );
    device.unmap(0, 0x10_0000).unwrap();
    assert_eq!(Arc::strong_count(&more), 1);
    let mut byte = [1];
    device.mem_read(0, 0x10_0000, &mut byte).unwrap();
    assert_eq!(byte, [0]);
}

#[test]
fn a_region_without_write_is_read_only() {
    let mut device = device();
    attach(&mut device, 0, &memory(&[(0, 4096)])).unwrap();
    let rom = region(0xC_0000, libc::PROT_READ);
    plug(&mut device, 0, rom).unwrap();
    device.mem_write(0, 0xC_0000, &[5]).unwrap();
    let mut byte = [1];
    device.mem_read(0, 0xC_0000, &mut byte).unwrap();
    assert_eq!(byte, [0]);
}
