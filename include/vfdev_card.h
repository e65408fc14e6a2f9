/* vfdev_card: a whole network card for guests whose QEMU attaches by vfio-user.
 *
 * A card is the device of vfdev.h together with its host, which alone writes the physical function's registers and answers the drivers'
 * mailboxes, and for each virtual function the end of the connection on which its client speaks: a session of vfio-user with its
 * configuration space, which vectors have files, which transmit queues are busy, and which vectors wait to be signalled.
 *
 * It has no socket, no file and no memory of a guest's but what it is given. Around it stands a shell, as vfdev-server, which reads whole
 * messages, maps files and writes eventfds. What is proved of the card is in docs/proof/CARD.md.
 *
 * The caller's obligations are those of vfdev.h: a handle begins as VFDEV_CARD_NONE, pointers lead to what their lengths say, one call at a
 * time for one handle, which may go from thread to thread.
 *
 * No call takes memory but vfdev_card_make. No call blocks, prints or ends the process.
 */
#ifndef VFDEV_CARD_H
#define VFDEV_CARD_H

#include "vfdev.h"

#ifdef __cplusplus
extern "C" {
#endif

/* The room for a reply, in bytes: the longest that there is. */
#define VFDEV_CARD_ROOM 4128u
/* The longest message that a client may send, in bytes: a longer one ends its connection. A header is 16 bytes, and its size, a number of
 * 32 bits in the byte order of the machine at offset 4, counts it too. */
#define VFDEV_CARD_MESSAGE 4128u
/* How many addresses a guest's memory has: 64 TiB. */
#define VFDEV_CARD_SPACE (UINT64_C(1) << 46)
/* How many regions of it may be mapped at once. */
#define VFDEV_CARD_REGIONS 64u
/* How many vectors a function has. */
#define VFDEV_CARD_VECTORS 3u
/* The page of BAR 0 that a client may be offered (vfdev_card_offer_area): its offset, and its bytes. */
#define VFDEV_CARD_AREA 0x2000u
#define VFDEV_CARD_AREA_SIZE 0x1000u
/* The flag of a region by which a reply says that a file goes beside it (VFIO_REGION_INFO_FLAG_MMAP). */
#define VFDEV_CARD_MMAP 4u
/* No function, where one may be named. */
#define VFDEV_CARD_NOBODY 255u

/* How many words of a queue's registers stand in that page, in this order, which is their place: TDBAL, TDBAH, TDLEN, TDH, TDWBAL, TDWBAH,
 * TXDCTL, TDT. The card has no register for TDWBAL and TDWBAH, and they read as zero. */
#define VFDEV_PAGE_WORDS 8u
/* The most writes that the changes of a queue's words give. */
#define VFDEV_PAGE_CHANGES 10u

/* A handle. It is empty, or holds a card. */
typedef struct vfdev_card {
    bool live;
    void *owner;
} vfdev_card;
/* An empty handle. */
#define VFDEV_CARD_NONE { false, NULL }

/* What the calls below answer beside the faults of vfdev.h. */
enum vfdev_card_fault {
    VFDEV_CARD_NO_CARD = 32,   /* the handle is empty */
    VFDEV_CARD_TOO_MANY = 33,  /* 64 regions are mapped already */
    VFDEV_CARD_NOT_THERE = 34, /* no region begins at that address */
    VFDEV_CARD_PAST_END = 35   /* the region passes the end of the guest's addresses */
};

/* What is to be done with a message. */
enum vfdev_card_step_kind {
    VFDEV_STEP_ANSWERED = 0, /* nothing more than to send the reply, if there is one */
    VFDEV_STEP_MAP = 1,      /* the file that came with the message is memory at these guest addresses */
    VFDEV_STEP_UNMAP = 2,    /* there is no memory at these guest addresses any more; that there was none is no error */
    VFDEV_STEP_ARM = 3,      /* the files that came with the message are those of these vectors, one for each in their order */
    VFDEV_STEP_DISARM = 4,   /* these vectors have no file any more */
    VFDEV_STEP_ENDS = 5,     /* the connection is to be closed, and its guest detached */
    VFDEV_STEP_NO_CARD = 6,  /* the handle is empty; nothing was done */
    VFDEV_STEP_NO_SUCH_VF = 7 /* the number is no function's, which are below 64; nothing was done */
};

/* Why a connection ends. */
enum vfdev_card_breach {
    VFDEV_BREACH_NO_HEADER = 1,      /* no header can be made out */
    VFDEV_BREACH_WRONG_SIZE = 2,     /* the message isn't as long as its header says */
    VFDEV_BREACH_NO_VERSION = 3,     /* the first message proposes no version */
    VFDEV_BREACH_OTHER_VERSION = 4,  /* the major version isn't 0 */
    VFDEV_BREACH_SECOND_VERSION = 5, /* a version is proposed a second time */
    VFDEV_BREACH_STRAY_FILES = 6     /* files came with a version */
};

/* What a device may do with memory. */
enum vfdev_card_access { VFDEV_ACCESS_READ = 1, VFDEV_ACCESS_WRITE = 2, VFDEV_ACCESS_BOTH = 3 };

/* What a message came to. Fields that a kind doesn't name are 0. */
typedef struct vfdev_card_step {
    uint32_t kind;    /* an enum vfdev_card_step_kind */
    uint32_t reply;   /* how many bytes of the room are the reply; 0 where the client wants none */
    uint32_t access;  /* MAP: an enum vfdev_card_access */
    uint32_t breach;  /* ENDS: an enum vfdev_card_breach */
    uint64_t offset;  /* MAP: how many bytes of the file stand in front of the memory */
    uint64_t address; /* MAP, UNMAP: the first guest address */
    uint64_t size;    /* MAP, UNMAP: how many addresses there are */
    uint32_t first;   /* ARM, DISARM: the first vector */
    uint32_t count;   /* ARM, DISARM: how many */
} vfdev_card_step;

/* What the administrator grants a function. */
typedef struct vfdev_card_policy {
    uint8_t address[6];    /* its permanent address */
    uint8_t may_choose;    /* 1: its driver may choose another address, and one more */
    uint8_t all_multicast; /* 1: its driver may ask for all multicast */
    uint8_t link_up;       /* 0: its driver is told that the link is down, and it neither receives nor sends */
    uint8_t has_port;      /* 1: it has one VLAN, at place `port` of the ids, whose tag is inserted into each frame that it sends */
    uint8_t port;          /* of has_port 1: the place */
    uint64_t joins;        /* of has_port 0: the VLANs that its driver may join, bit k for place k of the ids */
} vfdev_card_policy;

/* Why a policy is not taken. */
enum vfdev_card_refusal {
    VFDEV_ADMITTED = 0,
    VFDEV_NOT_UNICAST = 1,   /* its address is not one station's: it is a group's, or 0 */
    VFDEV_ADDRESS_OWNED = 2, /* its address is the permanent one of another function */
    VFDEV_NO_SUCH_PLACE = 3, /* the place of its port VLAN is none of the ids' */
    VFDEV_ADMIT_NO_CARD = 4, /* the handle is empty */
    VFDEV_ADMIT_NO_SUCH_VF = 5 /* the number is no function's, which are below 64 */
};

/* What came of a policy. */
typedef struct vfdev_card_admission {
    uint32_t refusal; /* an enum vfdev_card_refusal */
    uint32_t loser;   /* the function that had chosen the address and lost it, or VFDEV_CARD_NOBODY; its driver learns of it by vfdev_card_flr */
} vfdev_card_admission;

/* What came of descriptors that were taken. */
typedef struct vfdev_card_more_result {
    size_t frames;    /* how many frames left for the wire: vfdev_card_frame has them until the next call of vfdev_card_more */
    uint32_t goes_on; /* 1: a queue may have more, also where there was no room for more frames; the next call goes on with it */
} vfdev_card_more_result;

/* What came of frames from the wire that came in one call. */
typedef vfdev_wire_result vfdev_card_wire_result;

/* ---- makers */

/* Makes a card of so many vacant functions, 1 to 64. Policies may name the VLAN ids by their places, at most 64 ids of 0 to 4095. Frames that
 * nobody accepts go to the default function, a number below 64; they are dropped where it is VFDEV_CARD_NOBODY, or one that the card doesn't
 * have. Frames have up to `limit` bytes, 1518 to 9018. `offloads` are flags VFDEV_OFFLOAD_.. that are or-ed, 0 for none.
 * VFDEV_HELD where the handle holds a card; VFDEV_BAD_MAKE exactly where a number is outside its limits, or another flag is set; VFDEV_NO_MEMORY only
 * where the host refused. Some 500 KB are taken, and 5 KB for each function. */
VFDEV_LOOK uint32_t vfdev_card_make(vfdev_card *card, uint32_t functions, const uint16_t *ids, size_t ids_len, uint8_t default_function,
                                    uint16_t limit, uint32_t offloads);

/* Frees what the handle holds. Blocks that were mapped are the caller's again. */
void vfdev_card_free(vfdev_card *card);

/* How many functions there are; 0 where the handle is empty. */
uint32_t vfdev_card_functions(vfdev_card *card);

/* ---- guests */

/* A guest comes to a vacant function: no byte of its memory is mapped, its registers are initial, and its client has said nothing.
 * VFDEV_NO_SUCH_VF, VFDEV_ALREADY_OPEN, VFDEV_CARD_NO_CARD. */
VFDEV_LOOK uint32_t vfdev_card_attach(vfdev_card *card, uint8_t function);

/* A guest goes: nothing of it or of its client is left, and the blocks that were mapped are the caller's again.
 * VFDEV_NO_SUCH_VF, VFDEV_NOT_OPEN where it is vacant, VFDEV_CARD_NO_CARD. */
VFDEV_LOOK uint32_t vfdev_card_detach(vfdev_card *card, uint8_t function);

/* Offers the function's client to map the page of its registers with those of the transmit queues, offsets VFDEV_CARD_AREA to
 * VFDEV_CARD_AREA + VFDEV_CARD_AREA_SIZE - 1 of BAR 0. It is for a shell that keeps such a page: it calls this once the guest has come, before
 * its client speaks. From then on the reply to DEVICE_GET_REGION_INFO of BAR 0 (vfdev_card_receive) names the page, and a file of BAR 0 goes
 * beside each such reply, and beside no other. The shell knows it by the reply (vfdev_page_offered): it has 48 bytes or more, its command, 2
 * bytes at offset 2, is 5, and its flags, 4 bytes at offset 20, have VFDEV_CARD_MMAP. What a guest writes into the page the card doesn't know:
 * the shell hands it on (vfdev_page_changes).
 * The offer goes with the guest, and with its client's connection. A reset leaves it.
 * VFDEV_OK; VFDEV_NO_SUCH_VF where the number is none below 64; VFDEV_CARD_NO_CARD. */
uint32_t vfdev_card_offer_area(vfdev_card *card, uint8_t function);

/* The block is memory of the function's guest from the address on: the order VFDEV_STEP_MAP. It stays mapped until vfdev_card_unmap,
 * vfdev_card_detach or vfdev_card_free, and its guest may read and write it at any time. Writes to a read-only one are dropped.
 * VFDEV_NO_SUCH_VF; VFDEV_BAD_MAKE where the function is vacant, or the block is empty; VFDEV_CARD_PAST_END; VFDEV_OVERLAPS where a region has
 * one of these guest addresses; VFDEV_CARD_TOO_MANY; VFDEV_CARD_NO_CARD. Then nothing is mapped. */
VFDEV_LOOK uint32_t vfdev_card_map(vfdev_card *card, uint8_t function, uint64_t at, vfdev_block block, bool read_only);

/* The region that begins at the address is mapped no more. VFDEV_NO_SUCH_VF; VFDEV_BAD_MAKE where the function is vacant;
 * VFDEV_CARD_NOT_THERE; VFDEV_CARD_NO_CARD. */
VFDEV_LOOK uint32_t vfdev_card_unmap(vfdev_card *card, uint8_t function, uint64_t at);

/* ---- messages */

/* A whole message of a function's client, with the number of files that came beside it. Registers are read and written before the call
 * returns. The reply is laid at the front of the room, and the rest of the room stays as it was.
 *
 * The reply is the one that the client gets once the order is done: the shell does the order first, and where it can't, it closes the
 * connection in place of sending it. Files that no order names are to be closed. No descriptor is taken: vfdev_card_more takes them. */
void vfdev_card_receive(vfdev_card *card, uint8_t function, const uint8_t *message, size_t len, size_t files, uint8_t room[VFDEV_CARD_ROOM],
                        vfdev_card_step *step);

/* ---- the page of transmit registers
 *
 * Who offers the page (vfdev_card_offer_area) has it as memory that the client writes without a message, and gives the card what was written
 * there as register writes: REGION_WRITE by vfdev_card_receive, as the client itself would. These calls say which. They take no handle, and
 * keep nothing. The caller reads the words of a queue (each once), says the changes since it last did, and puts words back where they are
 * still what it knows (by a compare and exchange), else the guest has written meanwhile, and its word is one of the next changes. */

/* A write of a register of BAR 0. */
typedef struct vfdev_register_write {
    uint32_t offset;
    uint32_t value;
} vfdev_register_write;

/* What a message may change of the registers in the page. */
enum vfdev_page_touch_kind {
    VFDEV_TOUCHES_NOTHING = 0,
    VFDEV_TOUCHES_ONE = 1, /* one of them */
    VFDEV_TOUCHES_ALL = 2  /* all of them: it may be a reset */
};
typedef struct vfdev_page_touch {
    uint32_t kind;  /* an enum vfdev_page_touch_kind */
    uint32_t queue; /* ONE: its queue, else 0 */
    uint32_t place; /* ONE: its place among the words, else 0 */
} vfdev_page_touch;

/* What a driver did with queue 0 or 1, whose words were so and are so now: the writes stand at the front of `changes` in the order in which
 * they are to be done, and the rest of it stays. How many there are, 10 at most; 0 where nothing has changed, or there is no such queue.
 *
 * Whatever the words are, done in that order the writes make the words that were those that are. A register that hasn't changed is written only
 * where its queue goes off or comes on: its control, and where it comes on its tail. The base, the length and the head are written only while the
 * queue is off, and where it comes on all its other words are written before, and its tail once more behind that. (docs/proof/CARD.md has it
 * in the words of its laws.) */
size_t vfdev_page_changes(uint8_t queue, const uint32_t was[VFDEV_PAGE_WORDS], const uint32_t now[VFDEV_PAGE_WORDS],
                          vfdev_register_write changes[VFDEV_PAGE_CHANGES]);

/* The words that are to be put back, as their registers read, once these changes were written: bit k for the word at place k. */
uint32_t vfdev_page_put_back(const uint32_t was[VFDEV_PAGE_WORDS], const uint32_t now[VFDEV_PAGE_WORDS]);

/* The words of a queue that are to be put back once its descriptors were taken (vfdev_card_more): bit k for the word at place k. */
uint32_t vfdev_page_serviced(const uint32_t words[VFDEV_PAGE_WORDS]);

/* What a whole message of the client may change of the registers in the page, which are then to be put back. */
vfdev_page_touch vfdev_page_touched(const uint8_t *message, size_t len);

/* Whether the reply is one beside which a file of the page goes. */
bool vfdev_page_offered(const uint8_t *reply, size_t len);

/* The offset in BAR 0 of the word at a place of queue 0 or 1; 0 where there is none. */
uint32_t vfdev_page_offset(uint8_t queue, uint32_t place);

/* ---- frames and interrupts */

/* Takes descriptors of a function's busy transmit queues, and sends segments of frames that are cut: 128 services of each at most, of one
 * descriptor or one segment. */
VFDEV_LOOK vfdev_card_more_result vfdev_card_more(vfdev_card *card, uint8_t function);

/* The frame of that number, of those that left at the last vfdev_card_more: its length, and its bytes at the front of `out`. 0 where there is
 * none, or `out` is shorter. */
VFDEV_LOOK size_t vfdev_card_frame(vfdev_card *card, uint32_t number, uint8_t *out, size_t out_len);

/* Whether a transmit queue of the function may have descriptors that were not taken. */
bool vfdev_card_is_busy(vfdev_card *card, uint8_t function);

/* How often something that the function's driver left to the card could not be done, modulo 2^32, since its guest came or it was reset: sums
 * that a frame then lacks, or segments, where the whole frame is dropped. 0 where there is no such function. */
uint32_t vfdev_card_shortfalls(vfdev_card *card, uint8_t function);

/* What a function has counted, shortfalls among it: as vfdev_counts of vfdev.h. VFDEV_NO_DEVICE where the handle is empty; VFDEV_REFUSED with
 * VFDEV_NO_SUCH_VF. */
vfdev_reply vfdev_card_counts(vfdev_card *card, uint8_t function, vfdev_function_counts *counts);

/* How many frames from the wire nobody got, as vfdev_unclaimed of vfdev.h. 0 where the handle is empty. */
uint32_t vfdev_card_unclaimed(vfdev_card *card);

/* A frame comes from the wire. VFDEV_DONE; VFDEV_REFUSED with VFDEV_BAD_FRAME; VFDEV_NO_DEVICE where the handle is empty. */
vfdev_reply vfdev_card_wire(vfdev_card *card, const uint8_t *frame, size_t len);

/* Frames come from the wire, `count` of them one after another: what as many calls of vfdev_card_wire do, in one. They lie behind one another
 * in `bytes`: the first begins at 0, each other where the one before it ends, and ends[i] says where frame i ends. What vfdev_card_wire would
 * refuse is passed over, and so is one whose end is before its beginning or past the bytes. Both numbers are 0 where the handle is empty. */
vfdev_card_wire_result vfdev_card_wire_burst(vfdev_card *card, const uint8_t *bytes, size_t len, const size_t *ends, size_t count);

/* The functions that have vectors which were raised and not handed out: bit p for function p. */
uint64_t vfdev_card_raised(vfdev_card *card);

/* Hands out the vectors of a function that were raised since the last time and have a file: bit v for vector v. */
uint32_t vfdev_card_signal(vfdev_card *card, uint8_t function);

/* The same of the vectors alone that are named, bit v for vector v: the others go on waiting. So a caller that knows the time keeps the
 * messages of a vector as far apart as its driver wants (vfdev_card_interval). */
uint32_t vfdev_card_signal_some(vfdev_card *card, uint8_t function, uint32_t vectors);

/* How many microseconds apart a function's driver wants the messages of a vector to be at least (VTEITR), 0 to 1022. 0 where it wants nothing
 * of the kind, where there is no such function or vector, and where the card was made without VFDEV_OFFLOAD_THROTTLE. */
uint32_t vfdev_card_interval(vfdev_card *card, uint8_t function, uint32_t vector);

/* ---- the administrator */

/* Gives a function a policy, its first or another one. What the new one doesn't grant goes. Where it is refused nothing changes. */
VFDEV_LOOK vfdev_card_admission vfdev_card_admit(vfdev_card *card, uint8_t function, const vfdev_card_policy *policy);

/* Takes its policy away: it neither receives nor sends. VFDEV_OK, VFDEV_NO_SUCH_VF, VFDEV_CARD_NO_CARD. */
uint32_t vfdev_card_dismiss(vfdev_card *card, uint8_t function);

/* Puts the host's own message into a function's mailbox, so that its driver asks anew. 1: it stands there; 0: the driver has the mailbox, so
 * that it is to be given again later, or the number is no function's, or there is no card. */
uint32_t vfdev_card_notify(vfdev_card *card, uint8_t function);

/* Resets a function from outside (function-level reset); its driver is told. VFDEV_OK, VFDEV_NO_SUCH_VF, VFDEV_CARD_NO_CARD. */
uint32_t vfdev_card_flr(vfdev_card *card, uint8_t function);

#ifdef __cplusplus
}
#endif

#endif
