/* vfdev: a model of the Intel 82599 in SR-IOV mode, to be linked into a hypervisor.
 *
 * The archive is compiled from source that is proved to meet its contracts. After each call the device is what its definition says. The
 * reply, the messages and the bytes that are handed out are those of the definition. To each virtual function an event is as if
 * that function were alone. Guests may write the blocks that were lent or mapped for a device whenever they like: a call does what the
 * definition says of the bytes that it read, and reads none of them twice. docs/EMBEDDING.md says what this rests on. vfdev_regs.h
 * has the registers by name.
 *
 * The caller's obligations, which nothing checks:
 *   - A vfdev begins as VFDEV_NONE. Its fields are never read or written, and it is never copied while it holds anything.
 *   - A pointer with a length points to so many bytes of one live object, also where the length is 0. No pointer is NULL, but for
 *     `left` of vfdev_serve. A buffer that is written is touched by nothing else during the call, and overlaps no other argument. A
 *     buffer that is only read is written by nobody during the call, and has no byte in common with a block that was lent or mapped: a
 *     frame that comes is read where it stands, first for whom it is, then into their memories, so who gets it from a guest copies it
 *     first. A block that was lent or mapped is no buffer in this sense: see vfdev_lend and vfdev_map.
 *   - One call at a time for one vfdev. It may go from thread to thread; a lock or the like orders the calls.
 *   - No call from a signal handler, or in the child of a fork of a process with threads.
 *   - malloc, realloc and free are those of one allocator, which aligns a block to each power of two up to 16 that divides
 *     its size.
 *
 * No call takes memory but vfdev_make, vfdev_make_recorded, vfdev_lend, vfdev_make_lent and vfdev_make_guests. No call blocks, prints or
 * ends the process.
 *
 * The ABI is that of C on x86-64 Linux, with enums of 32 bits (no -fshort-enums). A header and an archive fit where vfdev_version()
 * answers VFDEV_VERSION, which a program asks before its first call. Within one version no number gets another meaning, no struct and no
 * signature changes, and nothing is taken away; kinds, faults and functions may be added, so a program expects numbers that it does not
 * know. Any other change makes a new version. vfdev_lend, vfdev_map and vfdev_serve are inline here, over vfdev_lend_at, vfdev_map_at and
 * vfdev_serve_frame of the archive: programs in other languages call these.
 */
#ifndef VFDEV_H
#define VFDEV_H

#include <stdbool.h>
#include <stddef.h>
#include <stdint.h>

/* The answer of a call with this mark has to be looked at: compilers that can warn do so where it is not. */
#if defined(__GNUC__)
#define VFDEV_LOOK __attribute__((warn_unused_result))
#else
#define VFDEV_LOOK
#endif

#ifdef __cplusplus
extern "C" {
#endif

/* The version of this interface, which vfdev_version answers. It grows with each change that a caller has to know. */
#define VFDEV_VERSION 2u
/* The release that this header came with, as text. Two releases may have the same interface. */
#define VFDEV_RELEASE "0.1.0"

/* How many pools there are, each of which has a byte of the messages. */
#define VFDEV_POOLS 64u
/* The room that a service wants for a frame, in bytes. */
#define VFDEV_MOST_FRAME 9018u
/* How many bytes of a guest's memory one call reads or writes at most. */
#define VFDEV_MOST_BYTES 2048u

/* Of a device of vfdev_make_guests: how many addresses a guest's memory has, 64 TiB, and how many regions of it may be mapped at once. */
#define VFDEV_GUEST_SPACE (UINT64_C(1) << 46)
#define VFDEV_GUEST_REGIONS 64u
/* The most descriptors that one burst can take while each gives a frame to the wire: there is room for so many frames. */
#define VFDEV_MOST_FRAMES 256u

/* What a device of vfdev_make_guests, or a card (vfdev_card.h), does for the drivers of its guests beyond frames as they stand: flags of the
 * maker, which no later call changes. */
/* It inserts the VLAN tag of a context descriptor where a data descriptor asks for it (VLE). */
#define VFDEV_OFFLOAD_VLAN 1u
/* It makes the checksums that a data descriptor asks for (IXSM, TXSM). */
#define VFDEV_OFFLOAD_CHECKSUM 2u
/* It cuts the TCP data of a frame into segments where a data descriptor asks for it (TSE). */
#define VFDEV_OFFLOAD_SEGMENTATION 4u
/* It masks a vector by itself when it issues its message, where the driver asks for it (VTEIAM). */
#define VFDEV_OFFLOAD_AUTO_MASK 8u
/* It takes legacy receive descriptors (SRRCTL.DESCTYPE 0). */
#define VFDEV_OFFLOAD_LEGACY_RECEIVE 16u
/* It keeps how far apart the driver wants the messages of each vector (VTEITR): the driver reads them back, and vfdev_card_interval tells. */
#define VFDEV_OFFLOAD_THROTTLE 32u
/* It says in the receive descriptor whether the checksums of a frame verify (IPCS, L4CS, IPE, L4E). */
#define VFDEV_OFFLOAD_RECEIVE_CHECKSUM 64u

/* How many calls of a device can be recorded at most. */
#define VFDEV_MOST_CALLS 65536u

/* A handle. It is empty, collects blocks that are lent for a device, or holds a device. */
typedef struct vfdev {
    bool live;
    void *owner;
} vfdev;
/* An empty handle. */
#define VFDEV_NONE { false, NULL }

/* A block of bytes that is lent for a device. Its length is below 2^63. */
typedef struct vfdev_block {
    uint8_t *at;
    size_t len;
} vfdev_block;

/* Kinds of replies. */
enum vfdev_kind {
    VFDEV_DONE = 0,      /* it was done */
    VFDEV_VALUE = 1,     /* a register was read: the value */
    VFDEV_BYTES = 2,     /* the bytes of the memory stand where they were asked */
    VFDEV_IDLE = 3,      /* no descriptor was taken: the pool may not transmit, or the queue is off or empty */
    VFDEV_MORE = 4,      /* a descriptor was taken; its frame continues in the next one, or it is a context descriptor */
    VFDEV_SENT = 5,      /* a frame was sent */
    VFDEV_DROPPED = 6,   /* a frame was dropped: it is overlong or no frame, or its pool's settings do not permit it */
    VFDEV_FAULTED = 7,   /* the descriptor cannot be used, and the queue is off now */
    VFDEV_REFUSED = 8,   /* refused, and nothing has changed: the value is an enum vfdev_fault */
    VFDEV_NO_DEVICE = 9, /* there is no device: none was made, or it was freed */
    VFDEV_NO_ROOM = 10,  /* there is no room for a frame, or for the messages; the device was not asked */
    VFDEV_NO_QUEUE = 11, /* there is no transmit queue of that number; the device was not asked */
    VFDEV_HISTORY_FULL = 12 /* the recording of this device is full; it was not asked, and nothing has changed */
};

/* Why a call is refused, and what the makers answer. */
enum vfdev_fault {
    VFDEV_OK = 0,           /* it was made, or lent */
    VFDEV_NO_SUCH_VF = 1,   /* the device has no virtual function of that number */
    VFDEV_NOT_OPEN = 2,     /* the virtual function is closed */
    VFDEV_BAD_OFFSET = 3,   /* the offset is no multiple of 4, or past the registers */
    VFDEV_BAD_RANGE = 4,    /* the bytes pass the end of the guest's memory */
    VFDEV_TOO_LONG = 5,     /* more than VFDEV_MOST_BYTES bytes */
    VFDEV_BAD_FRAME = 6,    /* the bytes are no frame, or the frame is longer than the device takes */
    VFDEV_ALREADY_OPEN = 7, /* the virtual function is open already */
    VFDEV_NO_MEMORY = 9,    /* the host refused memory */
    VFDEV_BAD_MAKE = 10,    /* a size or a count is outside its limits */
    VFDEV_HELD = 11,        /* the handle isn't empty, or holds a device already */
    VFDEV_OVERLAPS = 13,    /* the block overlaps one that was lent for the same device, or a region has one of these guest addresses */
    VFDEV_NO_GUESTS = 32,   /* the handle holds no device of vfdev_make_guests */
    VFDEV_TOO_MANY = 33,    /* 64 regions are mapped already */
    VFDEV_NOT_THERE = 34,   /* no region begins at that address */
    VFDEV_PAST_END = 35,    /* the region passes the end of the guest's addresses */
    VFDEV_ANOTHERS = 36     /* the block has a byte of one that is mapped for another function */
};

/* What a replay answers. */
enum vfdev_replayed {
    VFDEV_SAME = 0,         /* the other device gave the recorded answer to each recorded call */
    VFDEV_DIFFERENT = 1,    /* it gave another answer to one of them */
    VFDEV_NOT_RECORDED = 2, /* there is no first device, or its calls are not recorded; the other was not asked */
    VFDEV_NO_OTHER = 3      /* there is no other device, its own calls are recorded, or guests write its memories; it was not asked */
};

/* A reply. The value is 0 but for VFDEV_VALUE and VFDEV_REFUSED. */
typedef struct vfdev_reply {
    enum vfdev_kind kind;
    uint32_t value; /* of VFDEV_VALUE the register, of VFDEV_REFUSED an enum vfdev_fault */
} vfdev_reply;

/* What came of a burst of services. */
typedef struct vfdev_burst_result {
    size_t taken;     /* how many services there were, with the one that ended it: which found nothing, faulted or was refused */
    size_t frames;    /* how many frames left for the wire: vfdev_frame has them until the next burst */
    uint32_t goes_on; /* 1: the queue may have more */
} vfdev_burst_result;

/* What came of frames from the wire that came in one call. */
typedef struct vfdev_wire_result {
    size_t taken;   /* how many frames were taken */
    size_t refused; /* how many were refused: those that are longer than the limit, and what is no frame */
} vfdev_wire_result;

/* Why a fault stopped a queue of a function. */
enum vfdev_queue_fault {
    VFDEV_QUEUE_NO_FAULT = 0,       /* none did */
    VFDEV_QUEUE_RECEIVE_BUFFER = 1, /* receive queue 0: a frame came, and the buffer of a descriptor that it needed passes the end of the memory */
    VFDEV_QUEUE_UNKNOWN_TYPE = 2,   /* a transmit queue: an advanced descriptor is neither a context nor a data descriptor (DTYP 2, 3) */
    VFDEV_QUEUE_NOT_OFFERED = 3,    /* a transmit queue: a tag or segments are asked for (VLE, TSE), and the device was made without */
    VFDEV_QUEUE_PAST_MEMORY = 4     /* a transmit queue: the bytes of a descriptor pass the end of the memory */
};

/* What a function has counted. The first seven are numbers modulo 2^32. They begin at 0 when the function is opened or its guest comes, and with
 * each reset of the function or the device; `unclaimed` begins at 0 when the device is made, and goes on. A frame that comes to an open function
 * counts once: as received, as one without room, or as a fault. One that a pool accepts while its function is closed is in no number. */
typedef struct vfdev_function_counts {
    uint32_t received;   /* frames that were placed in its receive queue: what VFGPRC reads */
    uint32_t sent;       /* its frames that passed the check of senders: what VFGPTC reads */
    uint32_t no_room;    /* frames that came while its receive queue was off, or had too few descriptors or no size of buffers (SRRCTL) */
    uint32_t refused;    /* its frames that the check of senders refused, by their source or their VLAN (82599 datasheet, PFVFSPOOF) */
    uint32_t unclaimed;  /* its frames that nobody got: they left for no wire, and no pool that may receive accepted them */
    uint32_t faults;     /* how often a fault stopped a queue */
    uint32_t shortfalls; /* how often sums or segments that its driver left to the device could not be made */
    uint32_t last_fault; /* an enum vfdev_queue_fault: what stopped a queue the last time */
    uint32_t last_queue; /* the transmit queue that it stopped, 0 or 1; 0 where it stopped none */
} vfdev_function_counts;

/* The archive answers numbers of 32 bits. */
#ifdef __cplusplus
static_assert(sizeof(enum vfdev_kind) == 4 && sizeof(enum vfdev_fault) == 4 && sizeof(enum vfdev_replayed) == 4, "enums have 32 bits");
#else
_Static_assert(sizeof(enum vfdev_kind) == 4 && sizeof(enum vfdev_fault) == 4 && sizeof(enum vfdev_replayed) == 4, "enums have 32 bits");
#endif

/* The version of the archive. */
uint32_t vfdev_version(void);

/* ---- makers: each answers VFDEV_OK or why not -------------------------------------------------------------------- */

/* Makes a device of `functions` closed virtual functions, each over `memory` zero bytes of the archive's own. Functions are
 * 1 to 64, memory is 4096 to 16777216 and a multiple of 128, frames have up to `limit` bytes, 1518 to 9018.
 * VFDEV_HELD where the handle isn't empty, then VFDEV_BAD_MAKE exactly where a number is outside its limits, and
 * VFDEV_NO_MEMORY only where the host refused. Where the answer is not VFDEV_OK, the handle is as it was before. */
VFDEV_LOOK enum vfdev_fault vfdev_make(vfdev *device, uint32_t functions, uint64_t memory, uint16_t limit);

/* Makes a device as vfdev_make does, whose calls are recorded from the first on, `calls` at most, 1 to VFDEV_MOST_CALLS. The makers'
 * answers are those of vfdev_make; VFDEV_BAD_MAKE also for that number.
 *
 * Room for all calls is taken at once: 9074 bytes for each, of which a call touches 32, the bytes that it brings or reads, and
 * 8 for each vector of its messages. */
VFDEV_LOOK enum vfdev_fault vfdev_make_recorded(vfdev *device, uint32_t functions, uint64_t memory, uint16_t limit, uint32_t calls);

/* Lends a block, whose first byte is at the address, as the memory of the next virtual function. vfdev_lend calls
 * it with the address of the block. */
VFDEV_LOOK enum vfdev_fault vfdev_lend_at(vfdev *device, vfdev_block block, uint64_t address);

/* Lends a block as the memory of the next virtual function of a device that is to be made; its first byte is at address 0 of
 * that memory. Blocks have the sizes of memories, and there are at most 64. VFDEV_HELD where there is a device, then
 * VFDEV_BAD_MAKE exactly where the length is no memory's or 64 were lent, then VFDEV_OVERLAPS exactly where the block has a byte in
 * common with one that was lent for this device, and VFDEV_NO_MEMORY only where the host refused: some 2 KB are taken for each
 * block. Wherever the answer is not VFDEV_OK the block is not used. Overlap is checked by address within one device only: blocks of two
 * devices are not compared, and two mappings of one memory are not detected.
 *
 * The block stays mapped until vfdev_free. The processors of its guest may read and write it at any time, also during a call. So may
 * threads of this process, by volatile or atomic accesses. What a call reads of it, it reads once, and it does what it would do had
 * the guest written just those bytes right before it. So what stands there during a call is the guest's own affair: it changes nothing
 * for another function but the frames that the filters let through. vfdev_open writes zeros over all of it. */
VFDEV_LOOK static inline enum vfdev_fault vfdev_lend(vfdev *device, vfdev_block block)
{
    return vfdev_lend_at(device, block, (uint64_t)(uintptr_t)block.at);
}

/* Makes a device of closed virtual functions over the blocks that were lent, in their order. VFDEV_HELD where there is a
 * device already; VFDEV_BAD_MAKE exactly where none was lent or the limit is not 1518 to 9018; VFDEV_NO_MEMORY only where the
 * host refused. After VFDEV_NO_MEMORY the handle is empty, and the blocks are no longer lent. */
VFDEV_LOOK enum vfdev_fault vfdev_make_lent(vfdev *device, uint16_t limit);

/* Makes a device of vacant virtual functions, 1 to 64, to which guests come by vfdev_attach and go by vfdev_detach. Frames have up to `limit`
 * bytes, 1518 to 9018. `offloads` are flags VFDEV_OFFLOAD_.. that are or-ed, 0 for none. VFDEV_HELD where the handle isn't empty, then
 * VFDEV_BAD_MAKE exactly where a number is outside its limits, or another flag is set, and VFDEV_NO_MEMORY only where the host refused: some
 * 640 KB are taken, and 5 KB for each function. Where the answer is not VFDEV_OK, the handle is as it was before. */
VFDEV_LOOK enum vfdev_fault vfdev_make_guests(vfdev *device, uint32_t functions, uint16_t limit, uint32_t offloads);

/* Frees what the handle holds. It is empty then, and a second call does nothing. Blocks that were lent or mapped are the
 * caller's again. */
void vfdev_free(vfdev *device);

/* ---- events ------------------------------------------------------------------------------------------------------
 *
 * Each call gives one event to the device and answers its reply. A call whose reply is VFDEV_REFUSED has changed nothing.
 *
 * Messages: messages[p] has bit v set where the call issued the interrupt of vector v, 0 to 2, of function p, for p below 64.
 * Whatever the reply is, they are those of this call: zeros where no interrupt was issued. One reply leaves them alone, VFDEV_NO_ROOM
 * because of messages_len. The calls that have no argument `messages` issue no interrupts.
 *
 * Refusals, the first that fits: VFDEV_NO_ROOM for messages_len below 64; VFDEV_NO_QUEUE; VFDEV_NO_ROOM for a frame;
 * VFDEV_BAD_FRAME of bytes that are no frame, VFDEV_TOO_LONG of bytes to be written; VFDEV_NO_DEVICE; VFDEV_HISTORY_FULL; what
 * the device refuses. */

/* Opens a function: its registers become initial, and its memory zero. VFDEV_NO_SUCH_VF, VFDEV_ALREADY_OPEN. */
VFDEV_LOOK vfdev_reply vfdev_open(vfdev *device, uint8_t function);

/* Closes a function. VFDEV_NO_SUCH_VF, VFDEV_NOT_OPEN. */
VFDEV_LOOK vfdev_reply vfdev_end(vfdev *device, uint8_t function);

/* Function-level reset: the registers become initial, and the memory stays. VFDEV_NO_SUCH_VF, VFDEV_NOT_OPEN. */
VFDEV_LOOK vfdev_reply vfdev_flr(vfdev *device, uint8_t function);

/* Reads a register of a function; offsets are in bytes, below 0x4000. VFDEV_NO_SUCH_VF, VFDEV_NOT_OPEN, VFDEV_BAD_OFFSET. */
VFDEV_LOOK vfdev_reply vfdev_vf_read(vfdev *device, uint8_t function, uint32_t offset);

/* Writes a register of a function. Refused as vfdev_vf_read is. A write to a tail of a transmit queue serves nothing: the
 * caller calls vfdev_serve when it sees fit. docs/EMBEDDING.md says after which writes a queue may be ready. */
vfdev_reply vfdev_vf_write(vfdev *device, uint8_t function, uint32_t offset, uint32_t value, uint8_t *messages,
                           size_t messages_len);

/* Reads `len` bytes of a function's memory from the address `at` on into `out`; where it is refused, `out` stays.
 * VFDEV_NO_SUCH_VF, VFDEV_NOT_OPEN, VFDEV_TOO_LONG, VFDEV_BAD_RANGE. */
VFDEV_LOOK vfdev_reply vfdev_mem_read(vfdev *device, uint8_t function, uint64_t at, uint8_t *out, size_t len);

/* Writes `len` bytes of a function's memory from the address `at` on. VFDEV_TOO_LONG before the device is asked,
 * VFDEV_NO_SUCH_VF, VFDEV_NOT_OPEN, VFDEV_BAD_RANGE. */
VFDEV_LOOK vfdev_reply vfdev_mem_write(vfdev *device, uint8_t function, uint64_t at, const uint8_t *bytes, size_t len);

/* As vfdev_serve, but `left` must not be NULL. */
VFDEV_LOOK vfdev_reply vfdev_serve_frame(vfdev *device, uint8_t function, uint8_t queue, uint8_t *out, size_t out_len, size_t *left,
                                         uint8_t *messages, size_t messages_len);

/* Takes the next descriptor of transmit queue 0 or 1 of a function. A frame that leaves for the wire stands in the first
 * *left bytes of `out`; *left is 0 where none leaves, and then `out` stays. `left` may be NULL where no frame is wanted, as of a device
 * without a wire; `out` is needed all the same. `out_len` is at least VFDEV_MOST_FRAME.
 * VFDEV_NO_SUCH_VF, VFDEV_NOT_OPEN; else VFDEV_IDLE, VFDEV_MORE, VFDEV_SENT, VFDEV_DROPPED or VFDEV_FAULTED. */
VFDEV_LOOK static inline vfdev_reply vfdev_serve(vfdev *device, uint8_t function, uint8_t queue, uint8_t *out, size_t out_len,
                                                 size_t *left, uint8_t *messages, size_t messages_len)
{
    size_t unwanted;
    return vfdev_serve_frame(device, function, queue, out, out_len, left ? left : &unwanted, messages, messages_len);
}

/* Reads a register of the physical function; offsets are in bytes, below 0x20000. VFDEV_BAD_OFFSET. */
VFDEV_LOOK vfdev_reply vfdev_pf_read(vfdev *device, uint32_t offset);

/* Writes a register of the physical function. VFDEV_BAD_OFFSET. */
VFDEV_LOOK vfdev_reply vfdev_pf_write(vfdev *device, uint32_t offset, uint32_t value);

/* Resets the device: every function is closed and every setting initial. VFDEV_DONE where there is a device, but for
 * VFDEV_HISTORY_FULL. */
VFDEV_LOOK vfdev_reply vfdev_pf_reset(vfdev *device);

/* A frame comes from the wire: 14 to 9018 bytes without FCS, at least 18 where it has a VLAN tag. VFDEV_BAD_FRAME where it is
 * none, before the device is asked, and where it is longer than the device takes. VFDEV_DONE also where nobody received it. */
vfdev_reply vfdev_wire(vfdev *device, const uint8_t *frame, size_t len, uint8_t *messages, size_t messages_len);

/* ---- guests that come and go -------------------------------------------------------------------------------------
 *
 * A device of vfdev_make_guests begins with vacant functions. Guests come by vfdev_attach and go by vfdev_detach, and blocks of their memories
 * come and go by vfdev_map and vfdev_unmap. These four leave all other functions as they are: their registers, their memories and their
 * settings. Each answers VFDEV_OK, or the first of the faults that it names, and VFDEV_NO_GUESTS where the handle holds no device of
 * vfdev_make_guests. Where it isn't VFDEV_OK, nothing has changed, and a block is not used.
 *
 * The settings that the physical function has for a pool aren't its guest's: they stay when a guest goes, and the next one has them unless
 * they are written anew. The events above do the same as on any other device. In particular vfdev_end and vfdev_pf_reset close a function
 * whose guest is still there, with its memory; vfdev_open opens it again, and writes zeros over all that is mapped of it. Without a guest
 * vfdev_open opens a function without memory, which does no harm. */

/* A guest comes to a vacant function, which is open then: no byte of its memory is mapped, and its registers are initial.
 * VFDEV_NO_SUCH_VF; VFDEV_ALREADY_OPEN where it isn't vacant. */
VFDEV_LOOK enum vfdev_fault vfdev_attach(vfdev *device, uint8_t function);

/* A guest goes, and its function is vacant: nothing of the guest is left for the next one, and the blocks that were mapped for it are the
 * caller's again. VFDEV_NO_SUCH_VF where the number isn't below 64; VFDEV_NOT_OPEN where the function is vacant, or there is none. */
VFDEV_LOOK enum vfdev_fault vfdev_detach(vfdev *device, uint8_t function);

/* Maps a block, whose first byte is at the host's address, as vfdev_map does, which calls it with the address of the block. */
VFDEV_LOOK enum vfdev_fault vfdev_map_at(vfdev *device, uint8_t function, uint64_t at, vfdev_block block, uint64_t address, bool read_only);

/* The block is memory of the function's guest from the address `at` on. It stays mapped until vfdev_unmap, vfdev_detach or vfdev_free. The
 * processors of its guest may read and write it at any time, as a block that was lent (vfdev_lend). An address that no region has reads as
 * zero, and what is written there is dropped; so are the device's writes to a read-only region.
 *
 * VFDEV_ANOTHERS exactly where the block has a byte of one that is mapped for another function of this device, whatever else holds; then
 * VFDEV_NO_SUCH_VF; VFDEV_BAD_MAKE where the function is vacant, or the block is empty; VFDEV_PAST_END; VFDEV_OVERLAPS where a region of this
 * guest has one of these guest addresses; VFDEV_TOO_MANY, which comes before these where 4096 blocks are mapped, 64 for each of 64 functions.
 *
 * Blocks are compared by their addresses and lengths in this process. Two maps of one file have different addresses: who maps files compares
 * the files and their offsets. A block may be mapped for one guest at several of its addresses. */
VFDEV_LOOK static inline enum vfdev_fault vfdev_map(vfdev *device, uint8_t function, uint64_t at, vfdev_block block, bool read_only)
{
    return vfdev_map_at(device, function, at, block, (uint64_t)(uintptr_t)block.at, read_only);
}

/* The region that begins at the address is mapped no more, and its block is the caller's again. VFDEV_NO_SUCH_VF; VFDEV_BAD_MAKE where the
 * function is vacant; VFDEV_NOT_THERE. */
VFDEV_LOOK enum vfdev_fault vfdev_unmap(vfdev *device, uint8_t function, uint64_t at);

/* Takes descriptors of a transmit queue one after another, `most` at most: what as many calls of vfdev_serve do, in one. It ends where the
 * queue has no more, after `most` of them, or where there is no room for one more of the longest frames: there is room for VFDEV_MOST_FRAMES,
 * and for 262144 bytes. Frames that left at a former burst are gone. messages[p] is that of all services together, as of the events above.
 * All numbers are 0, and no message is issued, where there is no such queue, and where the handle holds no device of vfdev_make_guests. */
VFDEV_LOOK vfdev_burst_result vfdev_serve_burst(vfdev *device, uint8_t function, uint8_t queue, size_t most, uint8_t messages[VFDEV_POOLS]);

/* The frame of that number, from 0 on, of those that left at the last vfdev_serve_burst: its length, and its bytes at the front of `out`. 0
 * where there is none, or `out` is shorter, and then `out` stays. */
VFDEV_LOOK size_t vfdev_frame(vfdev *device, uint32_t number, uint8_t *out, size_t out_len);

/* Frames come from the wire, `count` of them one after another: what as many calls of vfdev_wire do, in one. They lie behind one another in
 * `bytes`: the first begins at 0, each other where the one before it ends, and ends[i] says where frame i ends. What vfdev_wire would refuse
 * is passed over, and so is one whose end is before its beginning or past the bytes. messages[p] is that of all of them together. Both numbers
 * are 0, and no message is issued, where the handle holds no device of vfdev_make_guests. */
vfdev_wire_result vfdev_wire_burst(vfdev *device, const uint8_t *bytes, size_t len, const size_t *ends, size_t count,
                                   uint8_t messages[VFDEV_POOLS]);

/* ---- what was lost -----------------------------------------------------------------------------------------------
 *
 * These change nothing, and a recording has none of them: of a device whose calls are recorded they say the same. */

/* What a function has counted: all of it stands in `counts`, and zeros where it isn't VFDEV_DONE. Of a closed function all are 0 but `unclaimed`.
 * VFDEV_NO_DEVICE; VFDEV_REFUSED with VFDEV_NO_SUCH_VF. */
vfdev_reply vfdev_counts(vfdev *device, uint8_t function, vfdev_function_counts *counts);

/* How many frames from the wire nobody got, modulo 2^32, since the device was made: no pool that may receive accepted them. 0 where there is no
 * device. Frames that vfdev_wire refuses are not among them. */
uint32_t vfdev_unclaimed(vfdev *device);

/* ---- recording and replay ----------------------------------------------------------------------------------------
 *
 * The recording of a device of vfdev_make_recorded has each event that the device is asked, with its answer: the reply with its
 * bytes, and the messages of each pool. An event that the device refuses is recorded too. One that is refused before the device is
 * asked is not. A read of more than 65535 bytes is recorded as one of 65535, which is refused in the same way. */

/* How many calls are recorded; 0 where none are. */
size_t vfdev_kept(vfdev *device);

/* Replays the recording of `device`: gives `other`, a device whose own calls are not recorded, the recorded events in their order.
 * Answers VFDEV_SAME exactly where `other` gave each recorded answer, and else VFDEV_DIFFERENT. But it answers VFDEV_NOT_RECORDED
 * where the calls of `device` are not recorded, and then VFDEV_NO_OTHER where there is no such `other`. Nothing of `device` changes;
 * `other` is what the events make of it.
 *
 * A device over lent blocks, or of guests, can't be `other`, since its guests may write them meanwhile. A fresh device of vfdev_make, with as many
 * functions, memories of the same size and the same limit, always gives VFDEV_SAME, and ends in the state that `device` is in. A replay
 * takes no memory, but more stack than an event (docs/PERFORMANCE.md). */
VFDEV_LOOK enum vfdev_replayed vfdev_replay(vfdev *device, vfdev *other);

/* ---- texts ------------------------------------------------------------------------------------------------------- */

/* What a kind of reply is, in a few words. */
static inline const char *vfdev_kind_text(enum vfdev_kind kind)
{
    switch (kind) {
    case VFDEV_DONE: return "done";
    case VFDEV_VALUE: return "value";
    case VFDEV_BYTES: return "bytes";
    case VFDEV_IDLE: return "idle";
    case VFDEV_MORE: return "more";
    case VFDEV_SENT: return "sent";
    case VFDEV_DROPPED: return "dropped";
    case VFDEV_FAULTED: return "faulted";
    case VFDEV_REFUSED: return "refused";
    case VFDEV_NO_DEVICE: return "no device";
    case VFDEV_NO_ROOM: return "no room";
    case VFDEV_NO_QUEUE: return "no queue";
    case VFDEV_HISTORY_FULL: return "no more calls can be kept";
    default: return "no kind of this version";
    }
}

/* What a replay answered, in a few words. */
static inline const char *vfdev_replayed_text(enum vfdev_replayed answer)
{
    switch (answer) {
    case VFDEV_SAME: return "the same";
    case VFDEV_DIFFERENT: return "different";
    case VFDEV_NOT_RECORDED: return "not recorded";
    case VFDEV_NO_OTHER: return "no other device";
    default: return "no answer of this version";
    }
}

/* Why a fault stopped a queue, in a few words. */
static inline const char *vfdev_queue_fault_text(uint32_t fault)
{
    switch (fault) {
    case VFDEV_QUEUE_NO_FAULT: return "no fault";
    case VFDEV_QUEUE_RECEIVE_BUFFER: return "a receive buffer past the memory";
    case VFDEV_QUEUE_UNKNOWN_TYPE: return "a descriptor of an unknown type";
    case VFDEV_QUEUE_NOT_OFFERED: return "a tag or segments that are not offered";
    case VFDEV_QUEUE_PAST_MEMORY: return "a transmit buffer past the memory";
    default: return "no queue fault of this version";
    }
}

/* What a fault means, as a sentence: of a maker's answer, or of the value of a reply that is VFDEV_REFUSED. */
static inline const char *vfdev_fault_text(uint32_t fault)
{
    switch (fault) {
    case VFDEV_OK: return "done";
    case VFDEV_NO_SUCH_VF: return "no such virtual function";
    case VFDEV_NOT_OPEN: return "the virtual function is not open";
    case VFDEV_BAD_OFFSET: return "the register offset is not valid";
    case VFDEV_BAD_RANGE: return "the range passes the end of the memory";
    case VFDEV_TOO_LONG: return "the access is longer than 2048 bytes";
    case VFDEV_BAD_FRAME: return "the bytes are no frame";
    case VFDEV_ALREADY_OPEN: return "the virtual function is open already";
    case VFDEV_NO_MEMORY: return "no memory";
    case VFDEV_BAD_MAKE: return "a size or a count is outside its limits";
    case VFDEV_HELD: return "the handle leads to something already";
    case VFDEV_OVERLAPS: return "the block overlaps one that was lent";
    case VFDEV_NO_GUESTS: return "the handle holds no device of guests";
    case VFDEV_TOO_MANY: return "64 regions are mapped already";
    case VFDEV_NOT_THERE: return "no region begins at that address";
    case VFDEV_PAST_END: return "the region passes the end of the guest's addresses";
    case VFDEV_ANOTHERS: return "the block has a byte of another function's memory";
    default: return "no fault of this version";
    }
}

#ifdef __cplusplus
}
#endif

#endif
