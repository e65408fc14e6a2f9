//! The twin of crates/bench in plain Rust: the same workloads over rings, descriptors and memory of the same behaviour,
//! for the table of docs/PERFORMANCE.md. `rustc -O --edition 2021 plain.rs` builds it; the arguments are those of
//! crates/bench. It has no workload `read`.

use std::hint::black_box;

/// A guest's memory.
trait Mem {
    fn size(&self) -> u64;
    fn read_at(&self, addr: u64, out: &mut [u8]);
    fn write_at(&mut self, addr: u64, source: &[u8]);
}

struct FlatMem(Vec<u8>);

impl Mem for FlatMem {
    fn size(&self) -> u64 {
        self.0.len() as u64
    }

    fn read_at(&self, addr: u64, out: &mut [u8]) {
        let start = addr as usize;
        out.copy_from_slice(&self.0[start..start + out.len()]);
    }

    fn write_at(&mut self, addr: u64, source: &[u8]) {
        let start = addr as usize;
        self.0[start..start + source.len()].copy_from_slice(source);
    }
}

fn read_word(memory: &dyn Mem, addr: u64) -> u64 {
    let mut word = [0; 8];
    memory.read_at(addr, &mut word);
    u64::from_le_bytes(word)
}

fn read_words(memory: &dyn Mem, addr: u64) -> (u64, u64) {
    let mut words = [0; 16];
    memory.read_at(addr, &mut words);
    let words = u128::from_le_bytes(words);
    (words as u64, (words >> 64) as u64)
}

/// A ring of descriptors; one that is on lies inside the memory.
struct Ring {
    base: u64,
    count: u32,
    head: u32,
    tail: u32,
    enabled: bool,
}

impl Ring {
    fn new(base: u64, count: u32) -> Ring {
        Ring {
            base,
            count,
            head: 0,
            tail: 0,
            enabled: true,
        }
    }

    fn wrap(&self, place: u32) -> u32 {
        if place >= self.count {
            place - self.count
        } else {
            place
        }
    }

    fn available(&self) -> u32 {
        if self.enabled {
            self.wrap(self.tail + self.count - self.head)
        } else {
            0
        }
    }

    fn slot(&self, i: u32) -> u64 {
        self.base + 16 * u64::from(self.wrap(self.head + i))
    }

    fn advance(&mut self, k: u32) {
        self.head = self.wrap(self.head + k);
    }

    fn set_tail(&mut self, x: u32) {
        if !self.enabled || x < self.count {
            self.tail = x;
        }
    }
}

/// A frame of up to 9018 bytes.
struct Frame {
    cells: [u8; 9018],
    len: usize,
}

impl Frame {
    fn new(bytes: &[u8]) -> Frame {
        let mut frame = Frame {
            cells: [0; 9018],
            len: 0,
        };
        frame.fill(bytes);
        frame
    }

    fn bytes(&self) -> &[u8] {
        &self.cells[..self.len]
    }

    fn fill(&mut self, bytes: &[u8]) {
        self.cells[..bytes.len()].copy_from_slice(bytes);
        self.len = bytes.len();
    }

    fn fill_tagged(&mut self, tag: u16, bytes: &[u8]) {
        let [high, low] = tag.to_be_bytes();
        self.len = bytes.len() + 4;
        self.cells[..12].copy_from_slice(&bytes[..12]);
        self.cells[12..16].copy_from_slice(&[0x81, 0, high, low]);
        self.cells[16..self.len].copy_from_slice(&bytes[12..]);
    }
}

fn is_tagged(bytes: &[u8]) -> bool {
    bytes.len() >= 14 && bytes[12] == 0x81 && bytes[13] == 0
}

struct RxConfig {
    buffer_size: usize,
    strip_tag: bool,
}

#[derive(PartialEq)]
enum Placed {
    Put,
    NoRoom,
    Faulted,
}

/// Places a frame in the buffers of the ring's next descriptors: all pieces, or none.
fn place(
    memory: &mut Box<dyn Mem>,
    ring: &mut Ring,
    config: &RxConfig,
    frame: &Frame,
    loopback: bool,
) -> Placed {
    if !ring.enabled {
        return Placed::NoRoom;
    }
    let bytes = frame.bytes();
    if config.strip_tag && is_tagged(bytes) {
        let tag = u16::from_be_bytes([bytes[14], bytes[15]]);
        place_parts(
            memory,
            ring,
            config.buffer_size,
            &bytes[..12],
            &bytes[16..],
            loopback,
            Some(tag),
        )
    } else {
        place_parts(memory, ring, config.buffer_size, &[], bytes, loopback, None)
    }
}

fn place_parts(
    memory: &mut Box<dyn Mem>,
    ring: &mut Ring,
    size: usize,
    front: &[u8],
    back: &[u8],
    loopback: bool,
    tag: Option<u16>,
) -> Placed {
    let len = front.len() + back.len();
    let count = len.div_ceil(size);
    if count > ring.available() as usize {
        return Placed::NoRoom;
    }
    let memory_size = memory.size();
    let mut addresses = [0u64; 9];
    let addresses = &mut addresses[..count];
    let mut left = len;
    for (i, address) in addresses.iter_mut().enumerate() {
        let piece = left.min(size);
        *address = read_word(&**memory, ring.slot(i as u32));
        if piece as u64 > memory_size || *address > memory_size - piece as u64 {
            ring.enabled = false;
            return Placed::Faulted;
        }
        left -= piece;
    }
    let (mut front, mut back) = (front, back);
    for &mut address in addresses.iter_mut() {
        let (first, rest) = front.split_at(size.min(front.len()));
        let (second, tail) = back.split_at((size - first.len()).min(back.len()));
        if !first.is_empty() {
            memory.write_at(address, first);
        }
        if !second.is_empty() {
            memory.write_at(address + first.len() as u64, second);
        }
        (front, back) = (rest, tail);
    }
    let mut left = len;
    for i in 0..count {
        let piece = left.min(size);
        left -= piece;
        let mut status = 1 + ((piece as u64) << 32);
        if left == 0 {
            status |= 1 << 1;
            if let Some(tag) = tag {
                status |= 1 << 3 | u64::from(tag) << 48;
            }
        }
        if loopback {
            status |= 1 << 18;
        }
        memory.write_at(
            ring.slot(i as u32),
            &(u128::from(status) << 64).to_le_bytes(),
        );
    }
    ring.advance(count as u32);
    Placed::Put
}

/// The bytes gathered of a frame that is being sent.
struct Pending {
    cells: [u8; 9018],
    len: usize,
    is_overlong: bool,
}

#[derive(Clone, Copy)]
enum PortVlan {
    Descriptor,
    Always(u16),
    Never,
}

#[derive(Clone, Copy, PartialEq)]
enum Progress {
    Idle,
    More,
    Ended,
    Dropped,
    Faulted,
}

fn bit(word: u64, i: u32) -> bool {
    word >> i & 1 == 1
}

/// Takes the descriptor at the head: what came of it, and whether it was written back.
fn fetch(
    memory: &mut Box<dyn Mem>,
    ring: &mut Ring,
    pending: &mut Pending,
    frame: &mut Frame,
    rule: PortVlan,
    limit: usize,
) -> (Progress, bool) {
    if !ring.enabled || ring.head == ring.tail {
        return (Progress::Idle, false);
    }
    let at = ring.slot(0);
    let (buffer, word) = read_words(&**memory, at);
    let len = word % 65_536;
    let (is_advanced, dtyp) = (bit(word, 29), word >> 20 & 15);
    if is_advanced && dtyp == 2 {
        ring.advance(1);
        return (Progress::More, false);
    }
    let is_unknown = is_advanced && (dtyp != 3 || bit(word, 31) || bit(word, 30));
    let memory_size = memory.size();
    if is_unknown || len > memory_size || buffer > memory_size - len {
        ring.enabled = false;
        pending.len = 0;
        pending.is_overlong = false;
        return (Progress::Faulted, false);
    }
    let end = pending.len + len as usize;
    if pending.is_overlong || end > limit {
        pending.is_overlong = true;
    } else {
        memory.read_at(buffer, &mut pending.cells[pending.len..end]);
        pending.len = end;
    }
    let reported = bit(word, 27);
    if reported {
        memory.write_at(at + 8, &(word | 1 << 32).to_le_bytes());
    }
    ring.advance(1);
    if !bit(word, 24) {
        return (Progress::More, reported);
    }
    let is_frame = end_frame(pending, frame, rule, limit, word);
    pending.len = 0;
    pending.is_overlong = false;
    (
        if is_frame {
            Progress::Ended
        } else {
            Progress::Dropped
        },
        reported,
    )
}

/// Ends the frame under the port's rule, and tells whether it is one.
fn end_frame(
    pending: &Pending,
    frame: &mut Frame,
    rule: PortVlan,
    limit: usize,
    word: u64,
) -> bool {
    let bytes = &pending.cells[..pending.len];
    if pending.is_overlong || matches!(rule, PortVlan::Always(_)) && is_tagged(bytes) {
        return false;
    }
    let tag = match rule {
        PortVlan::Always(tag) => Some(tag),
        PortVlan::Descriptor if !bit(word, 29) && bit(word, 30) => Some((word >> 48) as u16),
        _ => None,
    };
    match tag {
        None => {
            let least = if is_tagged(bytes) { 18 } else { 14 };
            if bytes.len() < least || bytes.len() > limit {
                return false;
            }
            frame.fill(bytes);
        }
        Some(tag) => {
            if bytes.len() < 14 || bytes.len() + 4 > limit {
                return false;
            }
            frame.fill_tagged(tag, bytes);
        }
    }
    true
}

/// The causes of a function; masks of vectors.
struct Causes {
    causes: u8,
    enabled: u8,
    auto_clear: u8,
}

impl Causes {
    /// Raises the cause that an entry names; the messages that this issues.
    fn raise_by(&mut self, entry: u8) -> u8 {
        if entry & 0x80 == 0 || entry % 4 > 2 {
            return 0;
        }
        let vector = 1 << (entry % 4);
        if self.causes & vector != 0 {
            return 0;
        }
        if self.enabled & vector == 0 {
            self.causes |= vector;
            return 0;
        }
        if self.auto_clear & vector == 0 {
            self.causes |= vector;
        }
        vector
    }
}

/// The transmit side of a function.
struct Unit {
    is_open: bool,
    memory: Box<dyn Mem>,
    rings: [Ring; 2],
    pending: [Pending; 2],
    causes: Causes,
    queue_vectors: u32,
}

struct Service {
    outcome: Progress,
    #[allow(dead_code)]
    messages: u8,
}

impl Unit {
    fn serve(
        &mut self,
        queue: usize,
        frame: &mut Frame,
        rule: PortVlan,
        limit: usize,
    ) -> Option<Service> {
        if !self.is_open {
            return None;
        }
        let (ring, pending) = (&mut self.rings[queue], &mut self.pending[queue]);
        let (outcome, reported) = fetch(&mut self.memory, ring, pending, frame, rule, limit);
        let mut messages = 0;
        if reported {
            let entry = self.queue_vectors >> (16 * queue + 8);
            messages = self.causes.raise_by(entry as u8);
        }
        Some(Service { outcome, messages })
    }
}

const RING: u64 = 0x4000;
const COUNT: u32 = 256;
const GIVEN: u32 = 128;

fn tail_at(turn: u32) -> u32 {
    (turn % COUNT + GIVEN) % COUNT
}

#[inline(never)]
fn place_many(mut memory: Box<dyn Mem>, frame: &Frame, strip_tag: bool, turns: u32) -> u32 {
    let config = black_box(RxConfig {
        buffer_size: 2048,
        strip_tag,
    });
    let mut ring = Ring::new(RING, COUNT);
    let mut put = 0;
    for turn in 0..turns {
        if turn % GIVEN == 0 {
            ring.set_tail(tail_at(turn));
        }
        if place(&mut memory, &mut ring, &config, frame, turn % 2 == 1) == Placed::Put {
            put += 1;
        }
    }
    put
}

fn sender(mut memory: Box<dyn Mem>, len: u16) -> Unit {
    let [low, high] = len.to_le_bytes();
    for i in 0..COUNT {
        memory.write_at(RING + u64::from(16 * i) + 8, &[low, high, 0x30, 0x29]);
    }
    let pending = || Pending {
        cells: [0; 9018],
        len: 0,
        is_overlong: false,
    };
    Unit {
        is_open: true,
        memory,
        rings: [Ring::new(RING, COUNT), Ring::new(RING, COUNT)],
        pending: [pending(), pending()],
        causes: Causes {
            causes: 0,
            enabled: 7,
            auto_clear: 7,
        },
        queue_vectors: 0x8180,
    }
}

/// Serves a queue; how often that was what came of it.
#[inline(never)]
fn serve_many(
    mut unit: Unit,
    (queue, rule, outcome): (usize, PortVlan, Progress),
    limit: usize,
    turns: u32,
) -> u32 {
    let mut frame = Frame::new(&[0; 14]);
    let mut count = 0;
    for turn in 0..turns {
        if turn % GIVEN == 0 {
            unit.rings[0].set_tail(tail_at(turn));
        }
        let service = unit.serve(queue, black_box(&mut frame), rule, limit);
        if service.is_some_and(|s| s.outcome == outcome) {
            count += 1;
        }
    }
    count
}

fn main() {
    let words: Vec<String> = std::env::args().skip(1).collect();
    let [workload, len, turns] = &words[..] else {
        panic!("usage: plain WORKLOAD LENGTH TURNS");
    };
    let (len, turns): (u16, u32) = (len.parse().unwrap(), turns.parse().unwrap());
    let mut bytes = [7; 9018];
    bytes[12] = 0x81;
    bytes[13] = 0;
    let frame = Frame::new(&bytes[..usize::from(len)]);
    let memory: Box<dyn Mem> = black_box(Box::new(FlatMem(vec![0; 65_536])));
    let limit = (usize::from(len) + 4).max(1518);
    let done = match workload.as_str() {
        "place" => place_many(memory, &frame, false, turns),
        "strip" => place_many(memory, &frame, true, turns),
        workload => {
            let service = match workload {
                "serve" => (0, PortVlan::Never, Progress::Ended),
                "insert" => (0, PortVlan::Always(100), Progress::Ended),
                "idle" => (1, PortVlan::Descriptor, Progress::Idle),
                _ => panic!("no such workload"),
            };
            serve_many(sender(memory, len), service, limit, turns)
        }
    };
    println!("{workload} {len} {turns}: {done}");
}
