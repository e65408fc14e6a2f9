//! A device behind a lock, with where its messages and its frames go.

use crate::device::Device;
use crate::kinds::{Fault, Messages, Pool, Queue, Served, MOST_FRAME, POOLS};
use crate::quiet::Quiet;
use crate::regs;
use std::sync::atomic::{AtomicU64, Ordering};
use std::sync::{Arc, Mutex, MutexGuard, PoisonError, Weak};

/// Where interrupt messages go: the write of an event descriptor, or an injection into a guest. A closure is one, and so is an [`Arc`] of
/// one.
///
/// It is called after the lock is let go, so it may call the device. Several threads may call it at the same time, each whose calls
/// issue messages. A trigger that sends a frame, whose interrupt sends one again, and so on, ends only by the depth of the stack.
pub trait Interrupt: Send + Sync {
    /// Vector `vector`, 0 to 2, of the virtual function of a pool.
    fn trigger(&self, pool: Pool, vector: u8);
}

impl<C: Fn(Pool, u8) + Send + Sync> Interrupt for C {
    fn trigger(&self, pool: Pool, vector: u8) {
        self(pool, vector);
    }
}

impl<I: Interrupt + ?Sized> Interrupt for Arc<I> {
    fn trigger(&self, pool: Pool, vector: u8) {
        (**self).trigger(pool, vector);
    }
}

/// Where frames go that left for the wire: a tap, or a socket. A closure is one, and so is an [`Arc`] of one.
///
/// It is called after the lock is let go, so it may call the device. Threads that pump may call it at the same time. The frames of one
/// queue come in their order where one thread at a time pumps that queue.
pub trait Frames: Send + Sync {
    /// One frame, without FCS.
    fn send(&self, frame: &[u8]);
}

impl<C: Fn(&[u8]) + Send + Sync> Frames for C {
    fn send(&self, frame: &[u8]) {
        self(frame);
    }
}

impl<F: Frames + ?Sized> Frames for Arc<F> {
    fn send(&self, frame: &[u8]) {
        (**self).send(frame);
    }
}

type Room = Box<[u8; MOST_FRAME]>;

struct Locked<'m> {
    device: Device<'m>,
    // room for frames, of those who don't pump at the moment
    rooms: Vec<Room>,
}

struct Inner<'m, I, F> {
    locked: Mutex<Locked<'m>>,
    // the functions that have a bar, one bit each: their queues are served by what is written
    bars: AtomicU64,
    interrupt: I,
    frames: F,
}

/// A device that several threads share, one call at a time. It is cloned for each of them, and for each bar. Its memories are the
/// archive's own, or borrowed for `'m`.
///
/// Messages are told after the lock is let go. So one of a tenant's may be on its way still when another thread has ended the function and
/// opened it for the next tenant. Before a function changes hands, exchange what its messages reach (its eventfds, say), or wait until the
/// other threads have come back from their calls.
///
/// ```
/// use vfdev::{regs, Device, Fault, Pool, SharedDevice};
///
/// let mut memory = vec![0u8; 4096];
/// let interrupt = |pool: Pool, vector: u8| println!("guest {}: vector {vector}", pool.get());
/// let tap = |frame: &[u8]| println!("{} bytes leave", frame.len());
/// let shared = SharedDevice::new(Device::over(vec![&mut memory[..]], 1518)?, interrupt, tap);
/// shared.with(|mut device| device.open(0))?;
/// let mut bar = shared.bar(0);
/// let mut word = [0; 4];
/// bar.read(0xfe00_0000, u64::from(regs::VFLINKS), &mut word);
/// assert_eq!(u32::from_le_bytes(word), 0x7000_0000);
/// # Ok::<(), Fault>(())
/// ```
pub struct SharedDevice<'m, I, F>(Arc<Inner<'m, I, F>>);

impl<I, F> Clone for SharedDevice<'_, I, F> {
    fn clone(&self) -> Self {
        SharedDevice(Arc::clone(&self.0))
    }
}

impl<'m, I: Interrupt, F: Frames> SharedDevice<'m, I, F> {
    /// The device, with where its messages and its frames go.
    pub fn new(device: Device<'m>, interrupt: I, frames: F) -> Self {
        SharedDevice(Arc::new(Inner {
            locked: Mutex::new(Locked {
                device,
                rooms: Vec::new(),
            }),
            bars: AtomicU64::new(0),
            interrupt,
            frames,
        }))
    }

    /// The same device, for what it calls itself: an [`Interrupt`] or [`Frames`] that holds a [`SharedDevice`] would keep it forever.
    #[must_use]
    pub fn downgrade(&self) -> WeakDevice<'m, I, F> {
        WeakDevice(Arc::downgrade(&self.0))
    }

    // A panic of a caller's own code under the lock leaves the device whole: each call of it is one event.
    fn lock(&self) -> MutexGuard<'_, Locked<'m>> {
        self.0.locked.lock().unwrap_or_else(PoisonError::into_inner)
    }

    // Called without the lock.
    fn tell(&self, messages: &Messages) {
        for (pool, vectors) in messages.iter() {
            for vector in (0..3).filter(|v| vectors & (1 << v) != 0) {
                self.0.interrupt.trigger(pool, vector);
            }
        }
    }

    /// Calls that issue no messages, under the lock. `call` may not call this shared device: it would wait forever.
    ///
    /// Where `call` wrote PFVFTE, the queues of the functions that it permits to transmit and that have a [`bar`](SharedDevice::bar) are
    /// served afterwards, without the lock, as after a write of their tails: a guest may have written a tail before.
    ///
    /// The calls that may issue messages, as [`Device::vf_write`], can't be reached here. Use [`write`](SharedDevice::write),
    /// [`receive`](SharedDevice::receive) and [`pump`](SharedDevice::pump), which pass their messages to the [`Interrupt`].
    ///
    /// ```compile_fail,E0599
    /// # use vfdev::{Frames, Interrupt, SharedDevice};
    /// fn lost<I: Interrupt, F: Frames>(shared: &SharedDevice<'_, I, F>) {
    ///     let _messages = shared.with(|mut device| device.vf_write(0, vfdev::regs::VTEICS, 1));
    /// }
    /// ```
    ///
    /// ```compile_fail,E0599
    /// # use vfdev::{Frames, Interrupt, SharedDevice};
    /// fn lost<I: Interrupt, F: Frames>(shared: &SharedDevice<'_, I, F>) {
    ///     let _messages = shared.with(|mut device| device.wire(&[0; 60]));
    /// }
    /// ```
    pub fn with<T>(&self, call: impl FnOnce(Quiet<'_, 'm>) -> T) -> T {
        let mut permitted = 0;
        // the lock is let go at the end of this line
        let result = call(Quiet::of(&mut self.lock().device, &mut permitted));
        let served = permitted & self.0.bars.load(Ordering::Acquire);
        for function in (0..POOLS).filter(|p| served >> p & 1 == 1) {
            for (_, _, queue) in TRANSMIT {
                let _taken = self.pump(function, queue, MOST_DESCRIPTORS);
            }
        }
        result
    }

    /// Writes a register of a function. Its messages go to the [`Interrupt`].
    ///
    /// # Errors
    /// As [`Device::vf_write`].
    pub fn write(&self, function: u8, offset: u32, word: u32) -> Result<(), Fault> {
        let messages = self.lock().device.vf_write(function, offset, word)?;
        self.tell(&messages);
        Ok(())
    }

    /// A frame comes from the tap. Its messages go to the [`Interrupt`].
    ///
    /// # Errors
    /// As [`Device::wire`].
    pub fn receive(&self, frame: &[u8]) -> Result<(), Fault> {
        let messages = self.lock().device.wire(frame)?;
        self.tell(&messages);
        Ok(())
    }

    /// Serves a transmit queue until it is idle or off, or `most` descriptors were taken. Messages go to the [`Interrupt`], and
    /// frames that leave for the wire to [`Frames`]. Answers how many descriptors were taken. The lock is taken anew for each.
    ///
    /// # Errors
    /// As [`Device::serve`].
    pub fn pump(&self, function: u8, queue: Queue, most: u32) -> Result<u32, Fault> {
        let room = self.lock().rooms.pop();
        let mut room = room.unwrap_or_else(|| Box::new([0; MOST_FRAME]));
        let taken = self.pump_through(function, queue, most, &mut room);
        self.lock().rooms.push(room);
        taken
    }

    fn pump_through(
        &self,
        function: u8,
        queue: Queue,
        most: u32,
        room: &mut Room,
    ) -> Result<u32, Fault> {
        for taken in 0..most {
            let (served, messages) = self.lock().device.serve(function, queue, room)?;
            // the frame first: who pumps in a trigger sends later ones
            if let Served::Sent(Some(len)) = served {
                self.0.frames.send(&room[..len]);
            }
            self.tell(&messages);
            match served {
                Served::Sent(_) | Served::More | Served::Dropped => {}
                Served::Faulted => return Ok(taken + 1),
                Served::Idle => return Ok(taken),
            }
        }
        Ok(most)
    }

    /// The register space of a function. From then on what is written serves its transmit queues, as [`MmioBar::write`] says.
    #[must_use]
    pub fn bar(&self, function: u8) -> MmioBar<'m, I, F> {
        if function < POOLS {
            self.0.bars.fetch_or(1 << function, Ordering::Release);
        }
        MmioBar {
            device: self.clone(),
            function,
        }
    }
}

/// A [`SharedDevice`] that keeps nothing alive: what the device calls may hold it, and the device is freed all the same.
pub struct WeakDevice<'m, I, F>(Weak<Inner<'m, I, F>>);

impl<I, F> Clone for WeakDevice<'_, I, F> {
    fn clone(&self) -> Self {
        WeakDevice(Weak::clone(&self.0))
    }
}

impl<'m, I, F> WeakDevice<'m, I, F> {
    /// The device, while a [`SharedDevice`] of it is there.
    #[must_use]
    pub fn upgrade(&self) -> Option<SharedDevice<'m, I, F>> {
        self.0.upgrade().map(SharedDevice)
    }
}

/// The register space of a virtual function (its BAR 0): `base` is where the space begins in the guest's addresses, and `offset` is within
/// it. These are the arguments of `mmio_read` and `mmio_write` of `MutDeviceMmio` in rust-vmm's crate vm-device, as numbers. This crate
/// implements no trait of rust-vmm, since it needs no other crate.
///
/// Accesses have 4 bytes. A bus can't report a refusal. So a read that is refused gives all ones, and a write that is refused does
/// nothing.
pub struct MmioBar<'m, I, F> {
    device: SharedDevice<'m, I, F>,
    function: u8,
}

/// Tail and control of the two transmit queues: a write of the one hands descriptors to the device, one of the other may turn the queue on.
const TRANSMIT: [(u32, u32, Queue); 2] = [
    (regs::tdt(0), regs::txdctl(0), Queue::Q0),
    (regs::tdt(1), regs::txdctl(1), Queue::Q1),
];
/// How many descriptors a ring may have: a write serves no more.
const MOST_DESCRIPTORS: u32 = 4096;

impl<I: Interrupt, F: Frames> MmioBar<'_, I, F> {
    /// A read.
    pub fn read(&mut self, _base: u64, offset: u64, data: &mut [u8]) {
        data.fill(0xff);
        let (Ok(offset), Ok(out)) = (u32::try_from(offset), <&mut [u8; 4]>::try_from(data)) else {
            return;
        };
        if let Ok(word) = self
            .device
            .with(|mut device| device.vf_read(self.function, offset))
        {
            *out = word.to_le_bytes();
        }
    }

    /// A write. A write of the tail of a transmit queue serves the queue, and so does one of its TXDCTL: the tail may have been written
    /// before the queue was turned on. Each serves at most as many descriptors as a ring can have, 4096.
    pub fn write(&mut self, _base: u64, offset: u64, data: &[u8]) {
        let (Ok(place), Ok(bytes)) = (u32::try_from(offset), <[u8; 4]>::try_from(data)) else {
            return;
        };
        if self
            .device
            .write(self.function, place, u32::from_le_bytes(bytes))
            .is_err()
        {
            return;
        }
        for (tail, control, queue) in TRANSMIT {
            if place == tail || place == control {
                let _taken = self.device.pump(self.function, queue, MOST_DESCRIPTORS);
            }
        }
    }
}
