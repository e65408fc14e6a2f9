//! The functions of the archives, as `include/vfdev.h` and `include/vfdev_card.h` declare them. No tool compares these declarations with
//! the archives: they are read and tested.

/// What C holds of a device.
#[repr(C)]
#[derive(Debug)]
pub struct Vfdev {
    live: bool,
    owner: *mut u8,
}

impl Vfdev {
    /// It leads to nothing.
    pub const NONE: Vfdev = Vfdev {
        live: false,
        owner: std::ptr::null_mut(),
    };
}

/// A block that is lent.
#[repr(C)]
pub struct Block {
    pub at: *mut u8,
    pub len: usize,
}

/// A reply.
#[repr(C)]
#[derive(Clone, Copy)]
pub struct Reply {
    pub kind: u32,
    pub value: u32,
}

/// What C holds of a card.
#[repr(C)]
#[derive(Debug)]
pub struct VfdevCard {
    live: bool,
    owner: *mut u8,
}

impl VfdevCard {
    /// It leads to nothing.
    pub const NONE: VfdevCard = VfdevCard {
        live: false,
        owner: std::ptr::null_mut(),
    };
}

/// A write of a register.
#[repr(C)]
#[derive(Clone, Copy, Debug, Default, PartialEq, Eq)]
pub struct RegisterWrite {
    pub offset: u32,
    pub value: u32,
}

/// What a message may change of the transmit registers.
#[repr(C)]
pub struct PageTouch {
    pub kind: u32,
    pub queue: u32,
    pub place: u32,
}

/// What a message came to.
#[repr(C)]
#[derive(Clone, Copy, Default)]
pub struct CardStep {
    pub kind: u32,
    pub reply: u32,
    pub access: u32,
    pub breach: u32,
    pub offset: u64,
    pub address: u64,
    pub size: u64,
    pub first: u32,
    pub count: u32,
}

/// What the administrator grants a function.
#[repr(C)]
pub struct CardPolicy {
    pub address: [u8; 6],
    pub may_choose: u8,
    pub all_multicast: u8,
    pub link_up: u8,
    pub has_port: u8,
    pub port: u8,
    pub joins: u64,
}

/// What came of a policy.
#[repr(C)]
#[derive(Clone, Copy)]
pub struct CardAdmission {
    pub refusal: u32,
    pub loser: u32,
}

/// What came of descriptors that were taken.
#[repr(C)]
#[derive(Clone, Copy)]
pub struct CardMore {
    pub frames: usize,
    pub goes_on: u32,
}

/// What came of frames from the wire.
#[repr(C)]
#[derive(Clone, Copy)]
pub struct Wired {
    pub taken: usize,
    pub refused: usize,
}

/// What came of a burst of services.
#[repr(C)]
#[derive(Clone, Copy)]
pub struct Burst {
    pub taken: usize,
    pub frames: usize,
    pub goes_on: u32,
}

/// What a function has counted.
#[repr(C)]
#[derive(Clone, Copy, Default)]
pub struct FunctionCounts {
    pub received: u32,
    pub sent: u32,
    pub no_room: u32,
    pub refused: u32,
    pub unclaimed: u32,
    pub faults: u32,
    pub shortfalls: u32,
    pub last_fault: u32,
    pub last_queue: u32,
}

/// The version of the interface that is declared here.
pub const VERSION: u32 = 2;

/// The flags of offloads.
pub const OFFLOAD_VLAN: u32 = 1;
pub const OFFLOAD_CHECKSUM: u32 = 2;
pub const OFFLOAD_SEGMENTATION: u32 = 4;
pub const OFFLOAD_AUTO_MASK: u32 = 8;
pub const OFFLOAD_LEGACY_RECEIVE: u32 = 16;
pub const OFFLOAD_THROTTLE: u32 = 32;
pub const OFFLOAD_RECEIVE_CHECKSUM: u32 = 64;

extern "C" {
    pub fn vfdev_version() -> u32;
    pub fn vfdev_make(d: &mut Vfdev, functions: u32, memory: u64, limit: u16) -> u32;
    pub fn vfdev_make_recorded(
        d: &mut Vfdev,
        functions: u32,
        memory: u64,
        limit: u16,
        calls: u32,
    ) -> u32;
    pub fn vfdev_lend_at(d: &mut Vfdev, block: Block, address: u64) -> u32;
    pub fn vfdev_make_lent(d: &mut Vfdev, limit: u16) -> u32;
    pub fn vfdev_make_guests(d: &mut Vfdev, functions: u32, limit: u16, offloads: u32) -> u32;
    pub fn vfdev_free(d: &mut Vfdev);
    pub fn vfdev_open(d: &mut Vfdev, function: u8) -> Reply;
    pub fn vfdev_end(d: &mut Vfdev, function: u8) -> Reply;
    pub fn vfdev_flr(d: &mut Vfdev, function: u8) -> Reply;
    pub fn vfdev_vf_read(d: &mut Vfdev, function: u8, offset: u32) -> Reply;
    pub fn vfdev_vf_write(
        d: &mut Vfdev,
        function: u8,
        offset: u32,
        value: u32,
        messages: *mut u8,
        messages_len: usize,
    ) -> Reply;
    pub fn vfdev_mem_read(d: &mut Vfdev, function: u8, at: u64, out: *mut u8, len: usize) -> Reply;
    pub fn vfdev_mem_write(
        d: &mut Vfdev,
        function: u8,
        at: u64,
        bytes: *const u8,
        len: usize,
    ) -> Reply;
    pub fn vfdev_serve_frame(
        d: &mut Vfdev,
        function: u8,
        queue: u8,
        out: *mut u8,
        out_len: usize,
        left: &mut usize,
        messages: *mut u8,
        messages_len: usize,
    ) -> Reply;
    pub fn vfdev_pf_read(d: &mut Vfdev, offset: u32) -> Reply;
    pub fn vfdev_pf_write(d: &mut Vfdev, offset: u32, value: u32) -> Reply;
    pub fn vfdev_pf_reset(d: &mut Vfdev) -> Reply;
    pub fn vfdev_wire(
        d: &mut Vfdev,
        frame: *const u8,
        len: usize,
        messages: *mut u8,
        messages_len: usize,
    ) -> Reply;
    pub fn vfdev_attach(d: &mut Vfdev, function: u8) -> u32;
    pub fn vfdev_detach(d: &mut Vfdev, function: u8) -> u32;
    pub fn vfdev_map_at(
        d: &mut Vfdev,
        function: u8,
        at: u64,
        block: Block,
        address: u64,
        read_only: bool,
    ) -> u32;
    pub fn vfdev_unmap(d: &mut Vfdev, function: u8, at: u64) -> u32;
    pub fn vfdev_serve_burst(
        d: &mut Vfdev,
        function: u8,
        queue: u8,
        most: usize,
        messages: &mut [u8; 64],
    ) -> Burst;
    pub fn vfdev_frame(d: &mut Vfdev, number: u32, out: *mut u8, out_len: usize) -> usize;
    pub fn vfdev_wire_burst(
        d: &mut Vfdev,
        bytes: *const u8,
        len: usize,
        ends: *const usize,
        count: usize,
        messages: &mut [u8; 64],
    ) -> Wired;
    pub fn vfdev_counts(d: &mut Vfdev, function: u8, counts: &mut FunctionCounts) -> Reply;
    pub fn vfdev_unclaimed(d: &mut Vfdev) -> u32;
    pub fn vfdev_kept(d: &mut Vfdev) -> usize;
    pub fn vfdev_replay(d: &mut Vfdev, other: &mut Vfdev) -> u32;

    pub fn vfdev_card_make(
        c: &mut VfdevCard,
        functions: u32,
        ids: *const u16,
        ids_len: usize,
        default_function: u8,
        limit: u16,
        offloads: u32,
    ) -> u32;
    pub fn vfdev_card_free(c: &mut VfdevCard);
    pub fn vfdev_card_functions(c: &mut VfdevCard) -> u32;
    pub fn vfdev_card_attach(c: &mut VfdevCard, function: u8) -> u32;
    pub fn vfdev_card_detach(c: &mut VfdevCard, function: u8) -> u32;
    pub fn vfdev_card_offer_area(c: &mut VfdevCard, function: u8) -> u32;
    pub fn vfdev_card_map(
        c: &mut VfdevCard,
        function: u8,
        at: u64,
        block: Block,
        read_only: bool,
    ) -> u32;
    pub fn vfdev_card_unmap(c: &mut VfdevCard, function: u8, at: u64) -> u32;
    pub fn vfdev_card_receive(
        c: &mut VfdevCard,
        function: u8,
        message: *const u8,
        len: usize,
        files: usize,
        room: &mut [u8; 4128],
        step: &mut CardStep,
    );
    pub fn vfdev_card_more(c: &mut VfdevCard, function: u8) -> CardMore;
    pub fn vfdev_card_frame(c: &mut VfdevCard, number: u32, out: *mut u8, out_len: usize) -> usize;
    pub fn vfdev_card_is_busy(c: &mut VfdevCard, function: u8) -> bool;
    pub fn vfdev_card_shortfalls(c: &mut VfdevCard, function: u8) -> u32;
    pub fn vfdev_card_counts(c: &mut VfdevCard, function: u8, counts: &mut FunctionCounts)
        -> Reply;
    pub fn vfdev_card_unclaimed(c: &mut VfdevCard) -> u32;
    pub fn vfdev_card_wire(c: &mut VfdevCard, frame: *const u8, len: usize) -> Reply;
    pub fn vfdev_card_wire_burst(
        c: &mut VfdevCard,
        bytes: *const u8,
        len: usize,
        ends: *const usize,
        count: usize,
    ) -> Wired;
    pub fn vfdev_card_raised(c: &mut VfdevCard) -> u64;
    pub fn vfdev_card_signal(c: &mut VfdevCard, function: u8) -> u32;
    pub fn vfdev_card_signal_some(c: &mut VfdevCard, function: u8, vectors: u32) -> u32;
    pub fn vfdev_card_interval(c: &mut VfdevCard, function: u8, vector: u32) -> u32;
    pub fn vfdev_card_admit(c: &mut VfdevCard, function: u8, policy: &CardPolicy) -> CardAdmission;
    pub fn vfdev_card_dismiss(c: &mut VfdevCard, function: u8) -> u32;
    pub fn vfdev_card_notify(c: &mut VfdevCard, function: u8) -> u32;
    pub fn vfdev_card_flr(c: &mut VfdevCard, function: u8) -> u32;

    pub fn vfdev_page_changes(
        queue: u8,
        was: &[u32; 8],
        now: &[u32; 8],
        changes: &mut [RegisterWrite; 10],
    ) -> usize;
    pub fn vfdev_page_put_back(was: &[u32; 8], now: &[u32; 8]) -> u32;
    pub fn vfdev_page_serviced(words: &[u32; 8]) -> u32;
    pub fn vfdev_page_touched(message: *const u8, len: usize) -> PageTouch;
    pub fn vfdev_page_offered(reply: *const u8, len: usize) -> bool;
    pub fn vfdev_page_offset(queue: u8, place: u32) -> u32;
}
