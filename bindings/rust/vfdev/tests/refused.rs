//! Memory that Rust's allocator refuses, and calls that ask it for none.

use std::alloc::{GlobalAlloc, Layout, System};
use std::cell::Cell;
use std::ptr::{null_mut, NonNull};
use std::sync::atomic::AtomicU8;
use vfdev::card::Offloads;
use vfdev::{Fault, Guests, MappedMemory};

// The system's, which counts, and refuses where it is told to: for each thread by itself, since the one that runs the tests takes memory
// meanwhile.
struct Counting;

thread_local! {
    static ASKED: Cell<usize> = const { Cell::new(0) };
    static REFUSES: Cell<bool> = const { Cell::new(false) };
}

// SAFETY: it is the system's, or refuses.
unsafe impl GlobalAlloc for Counting {
    unsafe fn alloc(&self, layout: Layout) -> *mut u8 {
        ASKED.with(|asked| asked.set(asked.get() + 1));
        if REFUSES.with(Cell::get) {
            return null_mut();
        }
        // SAFETY: the caller's words are handed on.
        unsafe { System.alloc(layout) }
    }

    unsafe fn dealloc(&self, at: *mut u8, layout: Layout) {
        // SAFETY: the caller's words are handed on.
        unsafe { System.dealloc(at, layout) }
    }
}

#[global_allocator]
static ALLOCATOR: Counting = Counting;

struct Page(&'static [AtomicU8]);

// SAFETY: the bytes are leaked, and nobody reads or writes them here.
unsafe impl MappedMemory for Page {
    fn block(&self) -> NonNull<[u8]> {
        NonNull::slice_from_raw_parts(NonNull::from(self.0).cast(), self.0.len())
    }
}

fn page() -> Box<Page> {
    let bytes = (0..4096).map(|_| AtomicU8::new(0)).collect();
    Box::new(Page(Box::leak(bytes)))
}

#[test]
fn no_call_but_the_maker_takes_memory() -> Result<(), Fault> {
    REFUSES.with(|refuses| refuses.set(true));
    let refused = Guests::new(64, 1518, Offloads::NONE).err();
    REFUSES.with(|refuses| refuses.set(false));
    assert_eq!(refused, Some(Fault::NoMemory));
    let mut device = Guests::new(64, 1518, Offloads::NONE)?;
    let mut pages: Vec<_> = (0..64).map(|_| page()).collect();
    let before = ASKED.with(Cell::get);
    device.attach(63)?;
    for at in 0..64 {
        let memory = pages.pop().expect("a page");
        device.plug(63, 4096 * at, memory)?;
    }
    let first = device.unplug(63, 0)?;
    device.unmap(63, 4096)?;
    let refused = device.plug(63, 1 << 46, first).expect_err("past the end");
    assert_eq!(refused.fault, Fault::PastEnd);
    device.plug(63, 0, refused.memory)?;
    device.detach(63)?;
    assert_eq!(ASKED.with(Cell::get), before);
    Ok(())
}
