//! Guests that come and go, of a hypervisor that emulates the PCI functions itself: what `examples/guests.c` does, in Rust, where the device
//! holds the guests' memories. It prints what `examples/guests.c.stdout` has.

use std::alloc::{alloc_zeroed, dealloc, handle_alloc_error, Layout};
use std::ptr::NonNull;
use std::sync::atomic::{AtomicU8, Ordering};
use std::sync::Arc;
use vfdev::card::Offloads;
use vfdev::{regs, Fault, Guests, MappedMemory, Pool, Queue, MOST_FRAME};

// Where a guest's memory is, and in that its rings, its buffers of 2 KiB and, in the last page, its frames.
const MIB: usize = 1 << 20;
const SIZE: usize = 1 << 30;
const RECEIVES: usize = 0x1000;
const SENDS: usize = 0x2000;
const BUFFER: usize = SIZE / 2;
const SENT: usize = SIZE - 4096;
const FRAME: usize = 60;
// The second word of a transmit descriptor: a whole frame, whose status is reported.
const WHOLE: u64 = regs::TXD_DEXT
    | regs::txd_dtyp(3)
    | regs::TXD_RS
    | regs::TXD_EOP
    | regs::txd_length(FRAME as u64);

/// A guest's memory: no page of it is there before it is touched. A hypervisor has it by mmap.
struct Ram(NonNull<u8>);

/// A share of it.
#[derive(Clone)]
struct Share(Arc<Ram>);

/// One page of it.
struct Page(Share, usize);

const LAYOUT: Layout = match Layout::from_size_align(SIZE, 4096) {
    Ok(layout) => layout,
    Err(_) => unreachable!(),
};

// SAFETY: the bytes are nobody's but the memory's own, and all accesses to them are atomic.
unsafe impl Send for Ram {}
// SAFETY: as above.
unsafe impl Sync for Ram {}

// SAFETY: the bytes are there as long as somebody has a share, and all accesses to them are atomic.
unsafe impl MappedMemory for Share {
    fn block(&self) -> NonNull<[u8]> {
        NonNull::slice_from_raw_parts(self.0 .0, SIZE)
    }
}

// SAFETY: it is a part of what a share has.
unsafe impl MappedMemory for Page {
    fn block(&self) -> NonNull<[u8]> {
        let page = NonNull::from(&self.0.cells()[self.1]).cast();
        NonNull::slice_from_raw_parts(page, 4096)
    }
}

impl Drop for Ram {
    fn drop(&mut self) {
        // SAFETY: the memory was allocated by this layout, and nobody has a share of it any more.
        unsafe { dealloc(self.0.as_ptr(), LAYOUT) }
    }
}

impl Share {
    fn new() -> Share {
        // SAFETY: the layout has bytes.
        let bytes = unsafe { alloc_zeroed(LAYOUT) };
        let bytes = NonNull::new(bytes).unwrap_or_else(|| handle_alloc_error(LAYOUT));
        Share(Arc::new(Ram(bytes)))
    }

    // Its bytes, as a guest's processors have them.
    fn cells(&self) -> &[AtomicU8] {
        // SAFETY: the bytes are there as long as this share is, and all accesses to them are atomic.
        unsafe { NonNull::slice_from_raw_parts(self.0 .0.cast(), SIZE).as_ref() }
    }

    fn put(&self, at: usize, bytes: &[u8]) {
        for (cell, byte) in self.cells()[at..].iter().zip(bytes) {
            cell.store(*byte, Ordering::Relaxed);
        }
    }

    // A guest's driver lays a frame, and a descriptor for it.
    fn lay(&self, slot: usize, to: u8, from: u8) {
        let mut frame = [0; FRAME];
        frame[..14].copy_from_slice(&[2, 0, 0, 0, 0, to, 2, 0, 0, 0, 0, from, 8, 0]);
        frame[FRAME - 1] = slot as u8 + 1;
        let at = SENT + 64 * slot;
        self.put(at, &frame);
        self.put(SENDS + 16 * slot, &((MIB + at) as u64).to_le_bytes());
        self.put(SENDS + 16 * slot + 8, &WHOLE.to_le_bytes());
    }

    // The last byte of the frame in each of the first buffers, which tells its number.
    fn show(&self, who: &str) {
        let [first, second, third] = [0, 1, 2]
            .map(|slot| self.cells()[BUFFER + 2048 * slot + FRAME - 1].load(Ordering::Relaxed));
        println!("{who} has frames {first} {second} {third}");
    }
}

// Says what came of a step.
fn step<T>(what: &str, answer: Result<T, Fault>) -> Option<T> {
    match answer {
        Ok(done) => {
            println!("{what}: done");
            Some(done)
        }
        Err(fault) => {
            println!("{what}: {fault}");
            None
        }
    }
}

// A guest comes with its memory, and its driver turns on a ring of eight descriptors for each way.
fn come(device: &mut Guests, function: u8, memory: &Share) -> Result<(), Fault> {
    step("a guest comes", device.attach(function));
    let plugged = device.plug(function, MIB as u64, Box::new(memory.clone()));
    step("its memory is mapped", plugged.map_err(Fault::from));
    for slot in 0..8 {
        let buffer = (MIB + BUFFER + 2048 * slot) as u64;
        memory.put(RECEIVES + 16 * slot, &buffer.to_le_bytes());
    }
    for (offset, word) in [
        (regs::rdbal(0), (MIB + RECEIVES) as u32),
        (regs::rdlen(0), 128),
        (
            regs::srrctl(0),
            regs::srrctl_desctype(1) | regs::srrctl_bsizepacket(2),
        ),
        (regs::rxdctl(0), regs::RXDCTL_ENABLE),
        (regs::rdt(0), 7),
        (regs::VTIVAR, regs::vtivar_rx0(0x80)), // vector 0, valid
        (regs::VTEIMS, 1),
        (regs::tdbal(0), (MIB + SENDS) as u32),
        (regs::tdlen(0), 128),
        (regs::txdctl(0), regs::TXDCTL_ENABLE),
    ] {
        let _ = device.vf_write(function, offset, word)?;
    }
    Ok(())
}

// Guest 1 has laid frames up to this slot, and the device takes them.
fn burst(device: &mut Guests, tail: u32) -> Result<(), Fault> {
    let _ = device.vf_write(1, regs::tdt(0), tail)?;
    let burst = device.serve_burst(1, Queue::Q0, 64);
    let raised = Pool::new(0).map_or(0, |pool| burst.messages.to(pool));
    let count = burst.frames;
    println!("a burst: {count} frames for the wire, vectors {raised} for guest 0");
    let mut out = [0; MOST_FRAME];
    for number in 0..count as u32 {
        let length = device.frame(number, &mut out).unwrap_or(0);
        let last = out[FRAME - 1];
        println!("  frame of {length} bytes, number {last}");
    }
    Ok(())
}

fn main() -> Result<(), Fault> {
    let memory = [Share::new(), Share::new(), Share::new()];
    let made = step("a device is made", Guests::new(2, 1518, Offloads::NONE));
    let Some(mut device) = made else {
        return Err(Fault::BadMake);
    };
    device.pf_write(regs::pfvfre(0), 3)?;
    device.pf_write(regs::pfvfte(0), 3)?;
    device.pf_write(regs::PFDTXGSWC, regs::PFDTXGSWC_LBE)?;
    for p in 0..2 {
        device.pf_write(regs::ral(p), 2)?;
        device.pf_write(regs::rah(p), regs::RAH_AV | p << 8)?;
        device.pf_write(regs::mpsar(2 * p), 1 << p)?;
    }
    come(&mut device, 0, &memory[0])?;
    come(&mut device, 1, &memory[1])?;
    let page = Box::new(Page(memory[0].clone(), 4096));
    let refused = device.plug(1, 0, page).map_err(Fault::from);
    step("guest 0's memory for guest 1", refused);

    for (slot, to) in [0, 0, 0x77, 0].into_iter().enumerate() {
        memory[1].lay(slot, to, 1);
    }
    burst(&mut device, 4)?;
    memory[0].show("guest 0");

    step("guest 0 goes", device.detach(0));
    come(&mut device, 0, &memory[2])?;
    memory[1].lay(4, 0, 1);
    burst(&mut device, 5)?;
    memory[2].show("the next guest 0");
    memory[0].show("the memory of the former");
    Ok(())
}
