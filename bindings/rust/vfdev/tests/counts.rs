//! What a function counts of what was lost, of each kind of device, by numbers worked out by hand.

use vfdev::card::{Card, CardFault, Offloads};
use vfdev::{regs, Counts, Device, Fault, Guests, Queue, QueueFault, Served, MOST_FRAME};

const FRAME: u64 = 0x6000;
const RING: u32 = 0x2000;
const LENGTH: u64 = 60;

fn frame(to: u8, from: u8) -> [u8; LENGTH as usize] {
    let mut bytes = [0; LENGTH as usize];
    bytes[..14].copy_from_slice(&[2, 0, 0, 0, 0, to, 2, 0, 0, 0, 0, from, 8, 0]);
    bytes
}

// A data descriptor of a whole frame.
fn data() -> u64 {
    regs::TXD_DEXT | regs::txd_dtyp(3) | regs::TXD_EOP | regs::txd_length(LENGTH)
}

// A queue of function 0 begins anew, with one descriptor, which is served.
fn serve(
    device: &mut Device<'_>,
    queue: Queue,
    address: u64,
    command: u64,
) -> Result<Served, Fault> {
    let number = u32::from(queue == Queue::Q1);
    device.mem_write(0, RING.into(), &address.to_le_bytes())?;
    device.mem_write(0, u64::from(RING) + 8, &command.to_le_bytes())?;
    for (offset, word) in [
        (regs::txdctl(number), 0),
        (regs::tdt(number), 0),
        (regs::tdh(number), 0),
        (regs::tdbal(number), RING),
        (regs::tdlen(number), 128),
        (regs::txdctl(number), regs::TXDCTL_ENABLE),
        (regs::tdt(number), 1),
    ] {
        assert!(device.vf_write(0, offset, word)?.is_empty());
    }
    let (served, messages) = device.serve(0, queue, &mut [0; MOST_FRAME])?;
    assert!(messages.is_empty());
    Ok(served)
}

#[test]
fn each_fault_has_its_reason_and_its_queue() -> Result<(), Fault> {
    let mut device = Device::new(1, 65536, 1518)?;
    device.open(0)?;
    device.pf_write(regs::pfvfte(0), 1)?;
    device.mem_write(0, FRAME, &frame(0x77, 1))?;
    assert_eq!(
        serve(&mut device, Queue::Q0, FRAME, data())?,
        Served::Sent(Some(60))
    );
    let of_type_1 = data() & !regs::txd_dtyp(3) | regs::txd_dtyp(1);
    for (number, queue, address, command, fault) in [
        (
            1,
            Queue::Q0,
            FRAME,
            of_type_1,
            QueueFault::UnknownType(Queue::Q0),
        ),
        (
            2,
            Queue::Q1,
            FRAME,
            of_type_1,
            QueueFault::UnknownType(Queue::Q1),
        ),
        (
            3,
            Queue::Q0,
            FRAME,
            data() | regs::TXD_TSE,
            QueueFault::NotOffered(Queue::Q0),
        ),
        (
            4,
            Queue::Q1,
            FRAME,
            data() | regs::TXD_VLE,
            QueueFault::NotOffered(Queue::Q1),
        ),
        (
            5,
            Queue::Q1,
            65536 - 59,
            data(),
            QueueFault::PastMemory(Queue::Q1),
        ),
    ] {
        assert_eq!(
            serve(&mut device, queue, address, command)?,
            Served::Faulted
        );
        let due = Counts {
            sent: 1,
            faults: number,
            last_fault: Some(fault),
            ..Counts::default()
        };
        assert_eq!(device.counts(0)?, due);
    }
    assert_eq!(device.counts(1), Err(Fault::NoSuchVf));
    Ok(())
}

// Two descriptors: one frame is placed, the next needs a buffer whose last byte is the first past the memory, and then the queue is off. The
// sender's check refuses a source that isn't the pool's, and nobody gets a frame for another pool that may not receive.
#[test]
fn each_loss_is_counted_once() -> Result<(), Fault> {
    let mut device = Device::recorded(2, 65536, 1518, 64)?;
    device.open(0)?;
    for (offset, word) in [
        (regs::pfvfre(0), 1),
        (regs::pfvfte(0), 1),
        (regs::PFDTXGSWC, regs::PFDTXGSWC_LBE),
        (regs::ral(0), 2),
        (regs::rah(0), regs::RAH_AV),
        (regs::mpsar(0), 1),
        (regs::ral(1), 2),
        (regs::rah(1), regs::RAH_AV | 0x100),
        (regs::mpsar(2), 2),
    ] {
        device.pf_write(offset, word)?;
    }
    for (place, address) in [(0, 0x4000u64), (1, 65536 - 59)] {
        device.mem_write(0, 0x1000 + 16 * place, &address.to_le_bytes())?;
    }
    for (offset, word) in [
        (regs::rdbal(0), 0x1000),
        (regs::rdlen(0), 128),
        (
            regs::srrctl(0),
            regs::srrctl_desctype(1) | regs::srrctl_bsizepacket(2),
        ),
        (regs::rxdctl(0), regs::RXDCTL_ENABLE),
        (regs::rdt(0), 2),
    ] {
        assert!(device.vf_write(0, offset, word)?.is_empty());
    }
    for _ in 0..3 {
        assert!(device.wire(&frame(0, 9))?.is_empty());
    }
    assert!(device.wire(&frame(5, 9))?.is_empty());
    device.mem_write(0, FRAME, &frame(1, 0))?;
    assert_eq!(
        serve(&mut device, Queue::Q0, FRAME, data())?,
        Served::Sent(None)
    );
    device.pf_write(regs::pfvfspoof(0), 1)?;
    device.mem_write(0, FRAME, &frame(1, 3))?;
    assert_eq!(
        serve(&mut device, Queue::Q0, FRAME, data())?,
        Served::Dropped
    );
    let due = Counts {
        received: 1,
        sent: 1,
        no_room: 1,
        refused: 1,
        unclaimed: 1,
        faults: 1,
        last_fault: Some(QueueFault::ReceiveBuffer),
        shortfalls: 0,
    };
    assert_eq!((device.counts(0)?, device.unclaimed()), (due, 1));
    assert_eq!(device.counts(1)?, Counts::default());
    device.flr(0)?;
    let left = Counts {
        unclaimed: 1,
        ..Counts::default()
    };
    assert_eq!((device.counts(0)?, device.unclaimed()), (left, 1));
    Ok(())
}

// The frame of a guest is for nobody, since no pool has its address and none takes the rest.
#[test]
fn devices_of_guests_and_cards_count_too() -> Result<(), CardFault> {
    let mut guests = Guests::new(2, 1518, Offloads::NONE).map_err(CardFault::Device)?;
    let mut card = Card::new(2, &[0], None, 1518, Offloads::ALL)?;
    assert!(guests.wire(&frame(5, 9)).is_ok_and(|it| it.is_empty()));
    card.wire(&frame(5, 9))?;
    card.wire(&frame(6, 9))?;
    assert_eq!((guests.unclaimed(), card.unclaimed()), (1, 2));
    assert_eq!(guests.counts(1), Ok(Counts::default()));
    assert_eq!(guests.counts(2), Err(Fault::NoSuchVf));
    assert_eq!(card.counts(1)?, Counts::default());
    assert_eq!(card.counts(2), Err(CardFault::Device(Fault::NoSuchVf)));
    Ok(())
}
