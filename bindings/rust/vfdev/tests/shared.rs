//! A device that threads share: bars, interrupts and frames.

use std::sync::atomic::{AtomicUsize, Ordering};
use std::sync::{mpsc, Arc, Mutex, OnceLock};
use std::thread;
use std::time::Duration;
use vfdev::{regs, Device, Fault, Frames, Interrupt, Pool, Queue, SharedDevice, WeakDevice};

#[derive(Clone, Default)]
struct Raised(Arc<Mutex<Vec<(u8, u8)>>>);

impl Interrupt for Raised {
    fn trigger(&self, pool: Pool, vector: u8) {
        self.0.lock().unwrap().push((pool.get(), vector));
    }
}

#[derive(Clone, Default)]
struct Tap(Arc<Mutex<Vec<Vec<u8>>>>);

impl Frames for Tap {
    fn send(&self, frame: &[u8]) {
        self.0.lock().unwrap().push(frame.to_vec());
    }
}

type Shared = SharedDevice<'static, Raised, Tap>;

fn frame(to: u8, from: u8) -> [u8; 60] {
    let mut bytes = [0xab; 60];
    bytes[..14].copy_from_slice(&[2, 0, 0, 0, 0, to, 2, 0, 0, 0, 0, from, 8, 0]);
    bytes
}

fn shared() -> Result<(Shared, Raised, Tap), Fault> {
    let (raised, tap) = (Raised::default(), Tap::default());
    let shared = SharedDevice::new(Device::new(2, 65536, 1518)?, raised.clone(), tap.clone());
    set_up(&shared)?;
    Ok((shared, raised, tap))
}

// Two functions with an address each and loopback; function 0 has eight receive descriptors and an interrupt.
fn set_up<I: Interrupt, F: Frames>(shared: &SharedDevice<'_, I, F>) -> Result<(), Fault> {
    for (offset, word) in [
        (0x51e0, 3),
        (0x8110, 3),
        (0x8220, 1),
        (0xa200, 2),
        (0xa204, 0x8000_0000),
        (0xa600, 1),
        (0xa208, 2),
        (0xa20c, 0x8000_0100),
        (0xa608, 2),
    ] {
        shared.with(|mut device| device.pf_write(offset, word))?;
    }
    shared.with(|mut device| device.open(0))?;
    shared.with(|mut device| device.open(1))?;
    let mut bar = shared.bar(0);
    for i in 0..8 {
        shared.with(|mut device| {
            device.mem_write(0, 0x1000 + 16 * i, &(0x4000 + 0x800 * i).to_le_bytes())
        })?;
    }
    for (offset, word) in [
        (0x1000, 0x1000u32),
        (0x1008, 128),
        (0x1014, 0x0200_0002),
        (0x1028, 0x0200_0000),
        (0x1018, 7),
        (0x120, 0x80),
        (0x110, 1),
        (0x108, 1),
    ] {
        bar.write(0xfe00_0000, offset, &word.to_le_bytes());
    }
    Ok(())
}

// A function has two frames in its ring, one to nobody here and one to function 0.
fn fill<I: Interrupt, F: Frames>(shared: &SharedDevice<'_, I, F>, from: u8) -> Result<(), Fault> {
    for (i, to) in [(0u64, 0x77), (1, 0)] {
        shared.with(|mut device| device.mem_write(from, 0x6000 + 0x100 * i, &frame(to, 1)))?;
        let words = [0x6000 + 0x100 * i, 0x2930_003c];
        shared
            .with(|mut device| device.mem_write(from, 0x2000 + 16 * i, &words[0].to_le_bytes()))?;
        shared
            .with(|mut device| device.mem_write(from, 0x2008 + 16 * i, &words[1].to_le_bytes()))?;
    }
    Ok(())
}

// Its guest writes these registers of its ring, in this order.
fn ring<I: Interrupt, F: Frames>(shared: &SharedDevice<'_, I, F>, from: u8, writes: &[(u32, u32)]) {
    let mut bar = shared.bar(from);
    for (offset, word) in writes {
        bar.write(0, u64::from(*offset), &word.to_le_bytes());
    }
}

const BASE: (u32, u32) = (regs::tdbal(0), 0x2000);
const LENGTH: (u32, u32) = (regs::tdlen(0), 128);
const ON: (u32, u32) = (regs::txdctl(0), regs::TXDCTL_ENABLE);
const TAIL: (u32, u32) = (regs::tdt(0), 2);

// Function 1 hands its two frames over.
fn send<I: Interrupt, F: Frames>(shared: &SharedDevice<'_, I, F>) -> Result<(), Fault> {
    fill(shared, 1)?;
    ring(shared, 1, &[BASE, LENGTH, ON, TAIL]);
    Ok(())
}

#[test]
fn a_tail_that_is_written_serves_the_queue() -> Result<(), Fault> {
    let (shared, raised, tap) = shared()?;
    send(&shared)?;
    assert_eq!(*tap.0.lock().unwrap(), [frame(0x77, 1).to_vec()]);
    assert_eq!(*raised.0.lock().unwrap(), [(0, 0)]);
    assert_eq!(shared.pump(1, Queue::Q0, 8)?, 0);
    shared.receive(&frame(0, 9))?;
    assert_eq!(raised.0.lock().unwrap().len(), 2);
    Ok(())
}

// What came of the two frames: one left, and one reached function 0 with an interrupt; nothing is left in the ring.
fn both_are_sent(shared: &Shared, raised: &Raised, tap: &Tap) -> Result<bool, Fault> {
    let left = *tap.0.lock().unwrap() == [frame(0x77, 1).to_vec()];
    let came = *raised.0.lock().unwrap() == [(0, 0)];
    Ok(left && came && shared.pump(1, Queue::Q0, 8)? == 0)
}

#[test]
fn a_tail_before_the_queue_is_on_is_served_when_it_goes_on() -> Result<(), Fault> {
    let (shared, raised, tap) = shared()?;
    fill(&shared, 1)?;
    ring(&shared, 1, &[BASE, LENGTH, TAIL]);
    assert!(tap.0.lock().unwrap().is_empty());
    ring(&shared, 1, &[ON]);
    assert!(both_are_sent(&shared, &raised, &tap)?);
    Ok(())
}

#[test]
fn a_tail_before_the_pool_may_transmit_is_served_when_it_may() -> Result<(), Fault> {
    let (shared, raised, tap) = shared()?;
    let permit = |word| shared.with(|mut device| device.pf_write(regs::pfvfte(0), word));
    permit(0)?;
    send(&shared)?;
    permit(1)?;
    // another word of PFVFTE is that of functions 32 to 63
    shared.with(|mut device| device.pf_write(regs::pfvfte(1), 2))?;
    assert!(tap.0.lock().unwrap().is_empty() && raised.0.lock().unwrap().is_empty());
    permit(2)?;
    assert!(both_are_sent(&shared, &raised, &tap)?);
    Ok(())
}

#[test]
fn each_word_of_pfvfte_permits_its_own_functions() -> Result<(), Fault> {
    let left = Arc::new(Mutex::new(0));
    let tap = {
        let left = left.clone();
        move |_: &[u8]| *left.lock().unwrap() += 1
    };
    let shared = SharedDevice::new(Device::new(34, 65536, 1518)?, Raised::default(), tap);
    for function in [1, 32, 33] {
        shared.with(|mut device| device.open(function))?;
        fill(&shared, function)?;
        ring(&shared, function, &[BASE, LENGTH, ON, TAIL]);
    }
    for (word, permitted, sent) in [(1, 1, 2), (1, 3, 4), (0, 2, 6)] {
        shared.with(|mut device| device.pf_write(regs::pfvfte(word), permitted))?;
        assert_eq!(*left.lock().unwrap(), sent);
    }
    Ok(())
}

// Whoever passes the writes of a function on without a bar serves its queues by calls of pump.
#[test]
fn without_a_bar_nothing_is_served_unasked() -> Result<(), Fault> {
    let (shared, raised, tap) = shared()?;
    let permit = |word| shared.with(|mut device| device.pf_write(regs::pfvfte(0), word));
    permit(0)?;
    fill(&shared, 1)?;
    for (offset, word) in [BASE, LENGTH, ON, TAIL] {
        shared.write(1, offset, word)?;
    }
    permit(2)?;
    assert!(tap.0.lock().unwrap().is_empty() && raised.0.lock().unwrap().is_empty());
    assert_eq!(shared.pump(1, Queue::Q0, 8)?, 2);
    Ok(())
}

#[test]
fn closures_are_triggers_and_sinks() -> Result<(), Fault> {
    let (triggers, frames) = (AtomicUsize::new(0), Mutex::new(Vec::new()));
    let shared = SharedDevice::new(
        Device::new(2, 65536, 1518)?,
        |pool: Pool, vector: u8| {
            assert_eq!((pool.get(), vector), (0, 0));
            triggers.fetch_add(1, Ordering::Relaxed);
        },
        |bytes: &[u8]| frames.lock().unwrap().push(bytes.to_vec()),
    );
    set_up(&shared)?;
    send(&shared)?;
    drop(shared);
    assert_eq!(triggers.into_inner(), 1);
    assert_eq!(frames.into_inner().unwrap(), [frame(0x77, 1).to_vec()]);
    Ok(())
}

#[test]
fn an_arc_is_a_trigger_and_a_sink_also_of_any_kind() -> Result<(), Fault> {
    let (raised, tap) = (Arc::new(Raised::default()), Arc::new(Tap::default()));
    let any: Arc<dyn Interrupt> = raised.clone();
    let shared = SharedDevice::new(Device::new(2, 65536, 1518)?, any, tap.clone());
    set_up(&shared)?;
    send(&shared)?;
    assert_eq!(*raised.0.lock().unwrap(), [(0, 0)]);
    assert_eq!(*tap.0.lock().unwrap(), [frame(0x77, 1).to_vec()]);
    Ok(())
}

// A tap that sends what leaves back in, by a device that it doesn't keep.
struct Mirror(Arc<OnceLock<WeakDevice<'static, Raised, Mirror>>>);

impl Frames for Mirror {
    fn send(&self, _bytes: &[u8]) {
        let device = self.0.get().and_then(WeakDevice::upgrade);
        device
            .expect("the device is there")
            .receive(&frame(0, 9))
            .unwrap();
    }
}

#[test]
fn what_holds_a_device_weakly_lets_it_go() -> Result<(), Fault> {
    let (raised, own) = (Raised::default(), Arc::new(OnceLock::new()));
    let shared = SharedDevice::new(
        Device::new(2, 65536, 1518)?,
        raised.clone(),
        Mirror(own.clone()),
    );
    assert!(own.set(shared.downgrade()).is_ok());
    set_up(&shared)?;
    send(&shared)?;
    // one from the tap, and one from function 1
    assert_eq!(*raised.0.lock().unwrap(), [(0, 0), (0, 0)]);
    drop(shared);
    assert!(own.get().unwrap().upgrade().is_none());
    Ok(())
}

#[test]
fn a_bus_reads_all_ones_where_it_is_refused() -> Result<(), Fault> {
    let (shared, _, _) = shared()?;
    let mut bar = shared.bar(0);
    let mut word = [0; 4];
    bar.read(0, 0x10, &mut word);
    assert_eq!(u32::from_le_bytes(word), 0x7000_0000);
    for offset in [2, 0x4000, u64::MAX] {
        bar.read(0, offset, &mut word);
        assert_eq!(word, [0xff; 4]);
    }
    let mut wide = [0; 8];
    bar.read(0, 0x10, &mut wide);
    assert_eq!(wide, [0xff; 8]);
    // a write of another width is none
    bar.write(0, 0x108, &[0; 2]);
    bar.read(0, 0x108, &mut word);
    assert_eq!(u32::from_le_bytes(word), 1);
    Ok(())
}

#[test]
fn threads_take_turns() -> Result<(), Fault> {
    let (shared, _, _) = shared()?;
    let threads: Vec<_> = (0..4u8)
        .map(|n| {
            let shared = shared.clone();
            thread::spawn(move || {
                for i in 0..1000u64 {
                    let at = 0x8000 + 8 * u64::from(n);
                    shared
                        .with(|mut device| device.mem_write(0, at, &i.to_le_bytes()))
                        .unwrap();
                    let mut out = [0; 8];
                    shared
                        .with(|mut device| device.mem_read(0, at, &mut out))
                        .unwrap();
                    assert_eq!(u64::from_le_bytes(out), i);
                }
            })
        })
        .collect();
    for thread in threads {
        thread.join().expect("a thread ends well");
    }
    Ok(())
}

#[test]
fn a_device_goes_to_another_thread_and_comes_back() -> Result<(), Fault> {
    let mut memory = vec![1u8; 2 * 4096];
    let (first, second) = memory.split_at_mut(4096);
    let mut device = Device::over(vec![first, second], 1518)?;
    device = thread::scope(|scope| {
        scope
            .spawn(move || device.open(1).map(|()| device))
            .join()
            .expect("a thread ends well")
    })?;
    assert_eq!(device.open(1), Err(Fault::AlreadyOpen));
    drop(device);
    // only the function that was opened has its memory blank
    assert!(memory[..4096].iter().all(|byte| *byte == 1));
    assert!(memory[4096..].iter().all(|byte| *byte == 0));
    Ok(())
}

#[test]
fn blocks_of_other_sizes_are_refused() {
    let mut memory = vec![0u8; 4096 + 64];
    assert_eq!(
        Device::over(vec![&mut memory[..]], 1518).err(),
        Some(Fault::BadMake)
    );
    assert_eq!(
        Device::over(vec![&mut memory[..4096]], 1517).err(),
        Some(Fault::BadMake)
    );
    assert_eq!(Device::over(Vec::new(), 1518).err(), Some(Fault::BadMake));
    assert!(Device::over(vec![&mut memory[..4096]], 9018).is_ok());
}

// What calls the device where it is called: a trigger reads its cause register, and a frame that leaves comes back to function 0.
#[derive(Clone, Default)]
struct Back {
    device: Arc<OnceLock<SharedDevice<'static, Back, Back>>>,
    told: Arc<Mutex<Vec<String>>>,
}

impl Back {
    fn device(&self) -> &SharedDevice<'static, Back, Back> {
        self.device.get().expect("the device is set")
    }

    fn tell(&self, what: String) {
        self.told.lock().unwrap().push(what);
    }
}

impl Interrupt for Back {
    fn trigger(&self, pool: Pool, vector: u8) {
        let received = self
            .device()
            .with(|mut device| device.vf_read(pool.get(), 0x101c))
            .unwrap();
        self.tell(format!("vector {vector}, {received} received"));
    }
}

impl Frames for Back {
    fn send(&self, bytes: &[u8]) {
        self.tell(format!("a frame of {} leaves", bytes.len()));
        self.device().receive(&frame(0, 9)).unwrap();
    }
}

#[test]
fn what_is_called_may_call_back() {
    let (done, is_done) = mpsc::channel();
    thread::spawn(move || {
        let back = Back::default();
        let device = Device::new(2, 65536, 1518).unwrap();
        let shared = SharedDevice::new(device, back.clone(), back.clone());
        assert!(back.device.set(shared.clone()).is_ok());
        set_up(&shared).unwrap();
        send(&shared).unwrap();
        done.send(back.told.lock().unwrap().clone()).unwrap();
    });
    let told = is_done
        .recv_timeout(Duration::from_secs(60))
        .expect("nobody waits for the lock forever");
    assert_eq!(
        told,
        [
            "a frame of 60 leaves",
            "vector 0, 1 received",
            "vector 0, 2 received"
        ]
    );
}

#[test]
fn memory_that_is_borrowed_is_shared_too() -> Result<(), Fault> {
    let mut memory = vec![1u8; 2 * 65536];
    let (first, second) = memory.split_at_mut(65536);
    let (raised, tap) = (Raised::default(), Tap::default());
    let device = Device::over(vec![first, second], 1518)?;
    let shared = SharedDevice::new(device, raised.clone(), tap);
    set_up(&shared)?;
    thread::scope(|scope| {
        for _ in 0..3 {
            let shared = shared.clone();
            scope.spawn(move || shared.receive(&frame(0, 9)));
        }
    });
    drop(shared);
    assert_eq!(raised.0.lock().unwrap().len(), 3);
    for i in 0..3 {
        let buffer = 0x4000 + 0x800 * i;
        assert_eq!(memory[buffer..buffer + 60], frame(0, 9));
    }
    Ok(())
}

// Each write raises a cause that clears itself, so each has its message.
#[test]
fn each_message_of_each_thread_is_told() -> Result<(), Fault> {
    let (shared, raised, _) = shared()?;
    thread::scope(|scope| {
        for _ in 0..4 {
            scope.spawn(|| {
                for _ in 0..500 {
                    shared.write(0, 0x104, 1).unwrap();
                }
            });
        }
    });
    assert_eq!(*raised.0.lock().unwrap(), [(0, 0); 2000]);
    Ok(())
}
