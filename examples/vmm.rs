//! Two guests of a hypervisor that links vfdev: what `examples/vmm.c` does, in Rust. A frame of the wire reaches guest 0 with
//! its interrupt, guest 1 sends one frame to the wire and one to guest 0, a read at offset 2, where no register is,
//! is refused, and a frame with another's source is dropped. It prints what `examples/vmm.rs.stdout` has.

use vfdev::{regs, Device, Fault, Messages, Queue, Served, MOST_FRAME};

const MEMORY: u64 = 65536;

const PF: [(u32, u32); 10] = [
    (regs::pfvfre(0), 3),                                // both guests receive
    (regs::pfvfte(0), 3),                                // both send
    (regs::PFDTXGSWC, regs::PFDTXGSWC_LBE),              // frames go from guest to guest
    (regs::pfvfspoof(0), regs::pfvfspoof_macas(1 << 1)), // the sources of guest 1 are checked
    (regs::ral(0), 2),                                   // the address of guest 0
    (regs::rah(0), regs::RAH_AV),
    (regs::mpsar(0), 1),
    (regs::ral(1), 2), // and of guest 1
    (regs::rah(1), regs::RAH_AV | 1 << 8),
    (regs::mpsar(2), 1 << 1),
];
// A receive ring of eight descriptors at 0x1000, and an interrupt for each frame that comes.
const RECEIVE: [(u32, u32); 8] = [
    (regs::rdbal(0), 0x1000),
    (regs::rdlen(0), 128),
    (
        regs::srrctl(0),
        regs::srrctl_desctype(1) | regs::srrctl_bsizepacket(2),
    ),
    (regs::rxdctl(0), regs::RXDCTL_ENABLE),
    (regs::rdt(0), 7),
    (regs::VTIVAR, regs::vtivar_rx0(0x80)), // vector 0, valid
    (regs::VTEIAC, 1),
    (regs::VTEIMS, 1),
];
// A transmit ring of eight descriptors at 0x2000, of which three are handed over.
const SEND: [(u32, u32); 4] = [
    (regs::tdbal(0), 0x2000),
    (regs::tdlen(0), 128),
    (regs::txdctl(0), regs::TXDCTL_ENABLE),
    (regs::tdt(0), 3),
];
// The second word of a transmit descriptor: 60 bytes, a whole frame, whose status is reported.
const WHOLE: u64 =
    regs::TXD_DEXT | regs::txd_dtyp(3) | regs::TXD_RS | regs::TXD_EOP | regs::txd_length(60);

// A frame of 60 bytes between addresses 02:00:00:00:00:xx.
fn frame(to: u8, from: u8, fill: u8) -> [u8; 60] {
    let mut bytes = [fill; 60];
    bytes[..14].copy_from_slice(&[2, 0, 0, 0, 0, to, 2, 0, 0, 0, 0, from, 8, 0]);
    bytes
}

fn show_messages(messages: &Messages) {
    for (pool, vectors) in messages.iter() {
        println!("  interrupt: guest {}, vectors {vectors}", pool.get());
    }
}

// What came of a call that is expected to be refused.
fn show_refusal<T>(what: &str, answer: Result<T, Fault>) {
    match answer {
        Ok(_) => println!("{what}: done"),
        Err(fault) => println!("{what}: refused, {fault}"),
    }
}

// A register of a guest that is written before any frame comes: no cause is there, so no interrupt is issued.
fn set(device: &mut Device<'_>, guest: u8, offset: u32, word: u32) -> Result<(), Fault> {
    let messages = device.vf_write(guest, offset, word)?;
    assert!(messages.is_empty());
    Ok(())
}

fn set_up(device: &mut Device<'_>) -> Result<(), Fault> {
    device.open(0)?;
    device.open(1)?;
    for (offset, word) in PF {
        device.pf_write(offset, word)?;
    }
    for i in 0..8 {
        device.mem_write(0, 0x1000 + 16 * i, &(0x4000 + 0x800 * i).to_le_bytes())?;
    }
    for (offset, word) in RECEIVE {
        set(device, 0, offset, word)?;
    }
    for (i, bytes) in [
        frame(0x77, 1, 0xaa),
        frame(0, 1, 0xbb),
        frame(0x77, 0, 0xdd),
    ]
    .iter()
    .enumerate()
    {
        let i = i as u64;
        device.mem_write(1, 0x6000 + 0x100 * i, bytes)?;
        device.mem_write(1, 0x2000 + 16 * i, &(0x6000 + 0x100 * i).to_le_bytes())?;
        device.mem_write(1, 0x2008 + 16 * i, &WHOLE.to_le_bytes())?;
    }
    for (offset, word) in SEND {
        set(device, 1, offset, word)?;
    }
    Ok(())
}

// Guest 0 looks at its descriptor and buffer.
fn look(device: &mut Device<'_>, index: u64) -> Result<(), Fault> {
    let (mut d, mut b) = ([0; 16], [0; 60]);
    device.mem_read(0, 0x1000 + 16 * index, &mut d)?;
    device.mem_read(0, 0x4000 + 0x800 * index, &mut b)?;
    println!(
        "  guest 0, descriptor {index}: {} bytes, status {}, from {:02x}, filled with {:02x}",
        u16::from_le_bytes([d[12], d[13]]),
        d[8],
        b[11],
        b[14]
    );
    Ok(())
}

fn main() -> Result<(), Fault> {
    let mut device = Device::new(2, MEMORY, 1518)?;
    set_up(&mut device)?;
    let messages = device.wire(&frame(0, 0x99, 0xcc))?;
    println!("a frame of the wire to guest 0: done");
    show_messages(&messages);
    look(&mut device, 0)?;
    let mut out = [0; MOST_FRAME];
    for _ in 0..4 {
        let (served, messages) = device.serve(1, Queue::Q0, &mut out)?;
        let (what, left) = match served {
            Served::Idle => ("idle", None),
            Served::More => ("more", None),
            Served::Sent(left) => ("sent", left),
            Served::Dropped => ("dropped", None),
            Served::Faulted => ("faulted", None),
        };
        println!("service of guest 1: {what}");
        show_messages(&messages);
        if let Some(left) = left {
            println!("  to the wire: {left} bytes, filled with {:02x}", out[14]);
        }
    }
    look(&mut device, 1)?;
    println!(
        "frames that guest 0 received: value {:#010x}",
        device.vf_read(0, regs::VFGPRC)?
    );
    show_refusal("a register at offset 2", device.vf_read(0, 2));
    show_refusal("guest 9", device.vf_read(9, 8));
    show_refusal(
        "5 bytes of the wire",
        device.wire(&frame(0, 0x99, 0xcc)[..5]),
    );
    Ok(())
}
