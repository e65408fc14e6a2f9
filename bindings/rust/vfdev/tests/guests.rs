//! A guest that writes its memory while the device reads it.

use std::ptr::NonNull;
use std::sync::atomic::{AtomicBool, AtomicU8, Ordering};
use std::thread;
use std::time::{Duration, Instant};
use vfdev::{regs, Device, Fault, Queue, Served, MOST_FRAME};

const SIZE: usize = 65536;
// A ring of eight descriptors, and the frame that all of them name.
const RING: usize = 0x2000;
const FRAME: usize = 0x6000;
// A data descriptor of 60 bytes that ends its frame and wants its status.
const COMMAND: u64 = 0x2930_003c;

fn memory() -> &'static [AtomicU8] {
    Box::leak((0..SIZE).map(|_| AtomicU8::new(0)).collect())
}

fn put(memory: &[AtomicU8], at: usize, bytes: &[u8]) {
    for (cell, byte) in memory[at..].iter().zip(bytes) {
        cell.store(*byte, Ordering::Relaxed);
    }
}

fn frame(source: u8) -> [u8; 60] {
    let mut bytes = [source; 60];
    bytes[..14].copy_from_slice(&[2, 0, 0, 0, 0, 9, 2, 0, 0, 0, 0, source, 8, 0]);
    bytes
}

// Function 0 may send by the address that ends in 1 alone, and has a ring.
fn set_up(device: &mut Device, memory: &[AtomicU8]) -> Result<(), Fault> {
    for (offset, word) in [
        (regs::pfvfte(0), 1),
        (regs::ral(0), 2),
        (regs::rah(0), regs::RAH_AV | 0x0100),
        (regs::mpsar(0), 1),
        (regs::pfvfspoof(0), regs::pfvfspoof_macas(1)),
    ] {
        device.pf_write(offset, word)?;
    }
    device.open(0)?;
    for descriptor in 0..8 {
        let at = RING + 16 * descriptor;
        put(memory, at, &(FRAME as u64).to_le_bytes());
        put(memory, at + 8, &COMMAND.to_le_bytes());
    }
    for (offset, word) in [
        (regs::tdbal(0), RING as u32),
        (regs::tdlen(0), 128),
        (regs::txdctl(0), regs::TXDCTL_ENABLE),
    ] {
        assert!(device.vf_write(0, offset, word)?.is_empty());
    }
    Ok(())
}

#[test]
fn no_frame_leaves_under_a_source_that_was_put_there_too_late() -> Result<(), Fault> {
    let memory = memory();
    let cells = NonNull::slice_from_raw_parts(NonNull::from(memory).cast(), SIZE);
    // SAFETY: the memory is leaked, and everyone writes it by atomic accesses.
    let mut device = unsafe { Device::over_guests(&[cells], 1518) }?;
    set_up(&mut device, memory)?;
    let is_over = AtomicBool::new(false);
    let (mut sent, mut dropped) = (0, 0);
    thread::scope(|scope| {
        scope.spawn(|| {
            while !is_over.load(Ordering::Relaxed) {
                put(memory, FRAME, &frame(1));
                put(memory, FRAME, &frame(7));
            }
        });
        let result = serve_until(&mut device, memory, &mut sent, &mut dropped);
        is_over.store(true, Ordering::Relaxed);
        result
    })?;
    assert!(
        sent >= 1000 && dropped >= 1000,
        "{sent} sent, {dropped} dropped"
    );
    Ok(())
}

// Serves until a thousand frames were sent and a thousand dropped, or a minute has passed.
fn serve_until(
    device: &mut Device,
    memory: &[AtomicU8],
    sent: &mut u32,
    dropped: &mut u32,
) -> Result<(), Fault> {
    let end = Instant::now() + Duration::from_secs(60);
    let mut out = [0; MOST_FRAME];
    let mut tail = 0;
    while (*sent < 1000 || *dropped < 1000) && Instant::now() < end {
        put(memory, RING + 16 * tail + 8, &COMMAND.to_le_bytes());
        tail = (tail + 1) % 8;
        assert!(device.vf_write(0, regs::tdt(0), tail as u32)?.is_empty());
        match device.serve(0, Queue::Q0, &mut out)?.0 {
            Served::Sent(Some(60)) => {
                assert_eq!(out[6..12], [2, 0, 0, 0, 0, 1]);
                *sent += 1;
            }
            Served::Dropped => *dropped += 1,
            other => panic!("{other:?}"),
        }
    }
    Ok(())
}
