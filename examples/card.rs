//! A shell around a card, in small: what `examples/card.c` does, in Rust. Two guests of 1 GiB come, whose drivers are played here by the
//! messages that QEMU would send for them; guest 0 sends three frames in a row to guest 1, and a fourth with another's source, which is
//! dropped; then guest 1 is unplugged, and another one takes its place, who sees nothing of it. It prints what `examples/card.c.stdout` has.

use std::alloc::{alloc_zeroed, dealloc, handle_alloc_error, Layout};
use std::error::Error;
use std::ptr::NonNull;
use vfdev::card::{Access, Card, Offloads, Order, Policy, Step, Vlans, ROOM};
use vfdev::regs;

const GUESTS: u8 = 2;
const FRAMES: u8 = 4;
const SLOTS: u32 = 8;
const GIB: usize = 1 << 30;
// Where the driver of a guest has its rings, its frames and its buffers of 2 KiB.
const SENDS: u32 = 0x2000_0000;
const RECEIVES: u32 = 0x2000_1000;
const FRAME: u32 = 0x2000_2000;
const BUFFER: u32 = 0x2001_0000;
// The second word of a transmit descriptor: 60 bytes, a whole frame, whose status is reported.
const WHOLE: u64 =
    regs::TXD_DEXT | regs::txd_dtyp(3) | regs::TXD_RS | regs::TXD_EOP | regs::txd_length(60);

/// A guest's memory, of which the host gives a page when it is touched.
struct Memory {
    at: NonNull<u8>,
}

impl Memory {
    const LAYOUT: Layout = match Layout::from_size_align(GIB, 4096) {
        Ok(layout) => layout,
        Err(_) => panic!("a power of two"),
    };

    fn new() -> Memory {
        // SAFETY: the layout has bytes.
        let at = unsafe { alloc_zeroed(Memory::LAYOUT) };
        match NonNull::new(at) {
            Some(at) => Memory { at },
            None => handle_alloc_error(Memory::LAYOUT),
        }
    }

    // As the guest's processor writes: each byte by one store.
    fn put(&self, at: u32, bytes: &[u8]) {
        for (place, byte) in (at as usize..).zip(bytes) {
            assert!(place < GIB);
            // SAFETY: the place is inside, and all accesses to the memory are volatile.
            unsafe { self.at.as_ptr().add(place).write_volatile(*byte) };
        }
    }

    fn byte(&self, at: u32) -> u8 {
        assert!((at as usize) < GIB);
        // SAFETY: as above.
        unsafe { self.at.as_ptr().add(at as usize).read_volatile() }
    }
}

impl Drop for Memory {
    fn drop(&mut self) {
        // SAFETY: it was taken so, and whoever drops it has detached its guest.
        unsafe { dealloc(self.at.as_ptr(), Memory::LAYOUT) };
    }
}

/// The shell.
struct Shell {
    // it goes first, and with it what it had mapped
    card: Card,
    memories: Vec<Memory>,
    room: [u8; ROOM],
}

impl Shell {
    // A whole message of a guest's QEMU, by its command, with so many files beside it; and what the shell does with it.
    fn say(
        &mut self,
        guest: u8,
        command: u8,
        body: &[u8],
        files: usize,
    ) -> Result<(), Box<dyn Error>> {
        let size = 16 + body.len() as u8;
        let head = [7, 0, command, 0, size, 0, 0, 0, 0, 0, 0, 0, 0, 0, 0, 0];
        let message = [&head, body].concat();
        let step = self.card.receive(guest, &message, files, &mut self.room)?;
        match step {
            Step::Answered { .. } => {}
            // (here it maps the file that came)
            Step::Asks {
                order:
                    Order::Map {
                        address,
                        size,
                        access,
                        ..
                    },
                ..
            } => {
                let block = NonNull::slice_from_raw_parts(
                    self.memories[usize::from(guest)].at,
                    size as usize,
                );
                // SAFETY: the memory is there until its guest is detached, and all accesses to it are volatile.
                unsafe { self.card.map(guest, address, block, access == Access::Read) }?;
                println!("guest {guest}: {} MiB of memory", size >> 20);
            }
            // (here it keeps the eventfds that came)
            Step::Asks {
                order: Order::Arm { count, .. },
                ..
            } => println!("guest {guest}: {count} vectors with files"),
            other => return Err(format!("guest {guest}: {other:?}").into()),
        }
        // (here it sends the reply)
        Ok(())
    }

    fn write(&mut self, guest: u8, offset: u32, value: u32) -> Result<(), Box<dyn Error>> {
        let body = [u64::from(offset).to_le_bytes(), (4u64 << 32).to_le_bytes()].concat();
        self.say(guest, 10, &[&body[..], &value.to_le_bytes()].concat(), 0)
    }

    fn read(&mut self, guest: u8, offset: u32) -> Result<u32, Box<dyn Error>> {
        let body = [u64::from(offset).to_le_bytes(), (4u64 << 32).to_le_bytes()].concat();
        self.say(guest, 9, &body, 0)?;
        Ok(u32::from_le_bytes(self.room[32..36].try_into()?))
    }

    // A guest comes: its memory, which nobody has touched, and its client's first messages.
    fn come(&mut self, guest: u8) -> Result<(), Box<dyn Error>> {
        self.card.attach(guest)?;
        self.say(guest, 1, &[0; 4], 0)?;
        let mut map = [0; 32];
        map[..8].copy_from_slice(&[32, 0, 0, 0, 3, 0, 0, 0]);
        map[24..].copy_from_slice(&(GIB as u64).to_le_bytes());
        self.say(guest, 2, &map, 1)?;
        let mut arm = [0; 20];
        arm[..9].copy_from_slice(&[20, 0, 0, 0, 0x24, 0, 0, 0, 2]);
        arm[16] = 2;
        self.say(guest, 8, &arm, 2)
    }

    // Its driver asks the host for its address, and sets its rings up.
    fn start_driver(&mut self, guest: u8) -> Result<(), Box<dyn Error>> {
        for slot in 0..SLOTS {
            let buffer = u64::from(BUFFER + 2048 * slot).to_le_bytes();
            self.memories[usize::from(guest)].put(RECEIVES + 16 * slot, &buffer);
        }
        for (offset, value) in [
            (0x200, 1),
            (0x2FC, 4),
            (0x2FC, 1),
            (regs::rdbal(0), RECEIVES),
            (regs::rdlen(0), 16 * SLOTS),
            (
                regs::srrctl(0),
                regs::srrctl_desctype(1) | regs::srrctl_bsizepacket(2),
            ),
            (regs::rxdctl(0), regs::RXDCTL_ENABLE),
            (regs::rdt(0), SLOTS - 1),
            (regs::tdbal(0), SENDS),
            (regs::tdlen(0), 16 * SLOTS),
            (regs::txdctl(0), regs::TXDCTL_ENABLE),
            (
                regs::VTIVAR,
                regs::vtivar_rx0(0x80) | regs::vtivar_tx0(0x80),
            ),
            (regs::VTEIMS, 1),
        ] {
            self.write(guest, offset, value)?;
        }
        let address = self.read(guest, 0x208)?;
        println!(
            "guest {guest}: its address ends with {:02x}",
            address >> 8 & 0xFF
        );
        Ok(())
    }

    // Guest 0 hands frames over, all at once, the last of them with another's source.
    fn send(&mut self) -> Result<(), Box<dyn Error>> {
        for number in 0..FRAMES {
            let source = if number == FRAMES - 1 { 0x77 } else { 0 };
            let frame = [2, 0, 0, 0, 0, 1, 2, 0, 0, 0, 0, source, 8, 0, number];
            let (at, slot) = (
                FRAME + 64 * u32::from(number),
                SENDS + 16 * u32::from(number),
            );
            self.memories[0].put(at, &frame);
            self.memories[0].put(
                slot,
                &[u64::from(at).to_le_bytes(), WHOLE.to_le_bytes()].concat(),
            );
        }
        self.write(0, regs::tdt(0), u32::from(FRAMES))
    }

    // What a shell does in turn: the queues of a busy function, what leaves for the wire, and the vectors that were raised.
    fn turn(&mut self) {
        for guest in 0..GUESTS {
            if self.card.is_busy(guest) {
                println!(
                    "guest {guest}: {} frames leave for the wire",
                    self.card.more(guest).frames
                );
            }
        }
        for guest in 0..GUESTS {
            match self.card.signal(guest) {
                0 => {}
                vectors => println!("guest {guest}: interrupt vectors {vectors}"),
            }
        }
    }

    // What guest 1 sees.
    fn look(&mut self) -> Result<(), Box<dyn Error>> {
        let (frames, ring) = (self.read(1, regs::VFGPRC)?, self.read(1, regs::rdbal(0))?);
        let bytes = [BUFFER + 12, BUFFER + 2048 + 14, BUFFER + 2 * 2048 + 14]
            .map(|at| self.memories[1].byte(at));
        let [first, second, third] = bytes;
        println!("guest 1: {frames} frames came; ring at {ring:#x}; in its first buffers {first}, {second}, {third}");
        Ok(())
    }
}

fn main() -> Result<(), Box<dyn Error>> {
    let card = Card::new(u32::from(GUESTS), &[0], None, 1518, Offloads::NONE)?;
    let memories = (0..GUESTS).map(|_| Memory::new()).collect();
    let mut shell = Shell {
        card,
        memories,
        room: [0; ROOM],
    };
    for guest in 0..GUESTS {
        // the administrator's word: an address, and VLAN 0
        shell
            .card
            .admit(guest, &Policy::new([2, 0, 0, 0, 0, guest], Vlans::Joins(1)))?;
        shell.come(guest)?;
        shell.start_driver(guest)?;
    }
    shell.send()?;
    shell.turn();
    shell.look()?;
    shell.card.detach(1)?;
    println!("guest 1: gone");
    shell.memories[1] = Memory::new();
    shell.come(1)?;
    shell.look()
}
