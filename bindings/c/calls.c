/* The calls of vfdev.h, by numbers worked out by hand: makers and freeing, refusals in their order, frames that come and leave,
 * what was lost, recordings and their replay. It writes nothing, and ends with 0, where all is as it should be. */
#include "vfdev.h"

#include <stdio.h>
#include <stdlib.h>
#include <string.h>

#define EQUAL(got, due) equal(__LINE__, (got), (due))
#define REPLY(got, due_kind, due_value) reply(__LINE__, (got), (due_kind), (due_value))

static void equal(int line, unsigned long long got, unsigned long long due)
{
    if (got != due) {
        fprintf(stderr, "calls.c:%d: %llu, and not %llu\n", line, got, due);
        exit(1);
    }
}

static void reply(int line, vfdev_reply got, uint32_t kind, uint32_t value)
{
    equal(line, got.kind, kind);
    equal(line, got.value, value);
}

struct write {
    uint32_t offset;
    uint32_t value;
};

static uint8_t messages[66];
static uint8_t out[VFDEV_MOST_FRAME];
static uint8_t many[65537];

/* A frame of 60 bytes between addresses that end so. */
static const uint8_t *frame(uint8_t to, uint8_t from)
{
    static uint8_t bytes[60];
    memset(bytes, 0, sizeof bytes);
    bytes[0] = 2;
    bytes[5] = to;
    bytes[6] = 2;
    bytes[11] = from;
    bytes[12] = 8;
    return bytes;
}

static void write_all(vfdev *device, uint8_t function, const struct write *writes, size_t count)
{
    for (size_t at = 0; at < count; at++) {
        REPLY(vfdev_vf_write(device, function, writes[at].offset, writes[at].value, messages, 64), VFDEV_DONE, 0);
    }
}

/* Opens functions 0 and 1, of which 0 receives and 1 sends, in 26 calls: an address and both directions, loopback, a ring of
 * eight descriptors with an interrupt for 0, and one of which two are handed over for 1: to a station on the wire, and to 0. */
static void set_up(vfdev *device)
{
    static const struct write settings[] = {{0x51E0, 3}, {0x8110, 3}, {0x8220, 1},
                                            {0xA200, 2}, {0xA204, 0x80000000}, {0xA600, 1}};
    static const struct write receives[] = {{0x1000, 0x1000}, {0x1008, 128}, {0x1014, 0x02000002}, {0x1028, 0x02000000},
                                            {0x1018, 2}, {0x120, 0x80}, {0x110, 1}, {0x108, 1}};
    static const struct write sends[] = {{0x2000, 0x2000}, {0x2008, 128}, {0x2028, 0x02000000}, {0x2018, 2}};
    static const uint8_t buffers[2][8] = {{0, 0x40}, {0, 0x48}};
    static const uint8_t descriptors[2][16] = {{0, 0x60, 0, 0, 0, 0, 0, 0, 0x3C, 0, 0x30, 0x29},
                                               {0, 0x61, 0, 0, 0, 0, 0, 0, 0x3C, 0, 0x30, 0x29}};
    REPLY(vfdev_open(device, 0), VFDEV_DONE, 0);
    REPLY(vfdev_open(device, 1), VFDEV_DONE, 0);
    for (size_t at = 0; at < 6; at++) {
        REPLY(vfdev_pf_write(device, settings[at].offset, settings[at].value), VFDEV_DONE, 0);
    }
    REPLY(vfdev_mem_write(device, 0, 0x1000, buffers[0], 8), VFDEV_DONE, 0);
    REPLY(vfdev_mem_write(device, 0, 0x1010, buffers[1], 8), VFDEV_DONE, 0);
    write_all(device, 0, receives, 8);
    REPLY(vfdev_mem_write(device, 1, 0x2000, descriptors[0], 16), VFDEV_DONE, 0);
    REPLY(vfdev_mem_write(device, 1, 0x6000, frame(0x77, 1), 60), VFDEV_DONE, 0);
    REPLY(vfdev_mem_write(device, 1, 0x2010, descriptors[1], 16), VFDEV_DONE, 0);
    REPLY(vfdev_mem_write(device, 1, 0x6100, frame(0, 1), 60), VFDEV_DONE, 0);
    write_all(device, 1, sends, 4);
}

static void makes_once_and_frees_for_good(void)
{
    vfdev device = VFDEV_NONE;
    EQUAL(vfdev_version(), VFDEV_VERSION);
    REPLY(vfdev_open(&device, 0), VFDEV_NO_DEVICE, 0);
    EQUAL(vfdev_make(&device, 65, 65536, 1518), VFDEV_BAD_MAKE);
    EQUAL(vfdev_make(&device, 2, 65536, 1517), VFDEV_BAD_MAKE);
    EQUAL(vfdev_make_lent(&device, 1518), VFDEV_BAD_MAKE);
    EQUAL(vfdev_make(&device, 2, 65536, 1518), VFDEV_OK);
    EQUAL(vfdev_make(&device, 2, 65536, 1518), VFDEV_HELD);
    EQUAL(vfdev_make_lent(&device, 1518), VFDEV_HELD);
    REPLY(vfdev_open(&device, 0), VFDEV_DONE, 0);
    REPLY(vfdev_open(&device, 0), VFDEV_REFUSED, VFDEV_ALREADY_OPEN);
    vfdev_free(&device);
    REPLY(vfdev_open(&device, 0), VFDEV_NO_DEVICE, 0);
    vfdev_free(&device);
    EQUAL(vfdev_make(&device, 1, 4096, 9018), VFDEV_OK);
    REPLY(vfdev_open(&device, 1), VFDEV_REFUSED, VFDEV_NO_SUCH_VF);
    vfdev_free(&device);
}

/* A function is opened, reset, closed and opened again, and the device is reset. */
static void functions_live_and_end(void)
{
    vfdev device = VFDEV_NONE;
    EQUAL(vfdev_make(&device, 1, 4096, 1518), VFDEV_OK);
    REPLY(vfdev_flr(&device, 0), VFDEV_REFUSED, VFDEV_NOT_OPEN);
    REPLY(vfdev_open(&device, 0), VFDEV_DONE, 0);
    REPLY(vfdev_vf_write(&device, 0, 0x1000, 256, messages, 64), VFDEV_DONE, 0);
    REPLY(vfdev_vf_read(&device, 0, 0x1000), VFDEV_VALUE, 256);
    REPLY(vfdev_flr(&device, 0), VFDEV_DONE, 0);
    REPLY(vfdev_vf_read(&device, 0, 0x1000), VFDEV_VALUE, 0);
    REPLY(vfdev_end(&device, 0), VFDEV_DONE, 0);
    REPLY(vfdev_end(&device, 0), VFDEV_REFUSED, VFDEV_NOT_OPEN);
    REPLY(vfdev_open(&device, 0), VFDEV_DONE, 0);
    REPLY(vfdev_pf_write(&device, 0x51E0, 1), VFDEV_DONE, 0);
    REPLY(vfdev_pf_read(&device, 0x51E0), VFDEV_VALUE, 1);
    REPLY(vfdev_pf_read(&device, 0x20000), VFDEV_REFUSED, VFDEV_BAD_OFFSET);
    REPLY(vfdev_pf_reset(&device), VFDEV_DONE, 0);
    REPLY(vfdev_pf_read(&device, 0x51E0), VFDEV_VALUE, 0);
    REPLY(vfdev_vf_read(&device, 0, 0x1000), VFDEV_REFUSED, VFDEV_NOT_OPEN);
    vfdev_free(&device);
}

static void refuses_arguments_by_name(void)
{
    vfdev device = VFDEV_NONE;
    uint8_t bytes[128];
    size_t left = 7;
    memset(messages, 9, sizeof messages);
    memset(bytes, 5, sizeof bytes);
    memset(many, 1, 2049);
    EQUAL(vfdev_make(&device, 1, 4096, 1518), VFDEV_OK);
    REPLY(vfdev_open(&device, 0), VFDEV_DONE, 0);
    REPLY(vfdev_wire(&device, frame(0, 9), 60, messages, 63), VFDEV_NO_ROOM, 0);
    EQUAL(messages[0], 9);
    REPLY(vfdev_wire(&device, frame(0, 9), 13, messages, 64), VFDEV_REFUSED, VFDEV_BAD_FRAME);
    EQUAL(messages[0], 0);
    EQUAL(messages[64], 9);
    REPLY(vfdev_vf_write(&device, 0, 0x1000, 128, messages, 63), VFDEV_NO_ROOM, 0);
    REPLY(vfdev_vf_read(&device, 0, 0x1000), VFDEV_VALUE, 0);
    REPLY(vfdev_mem_write(&device, 0, 0, many, 2049), VFDEV_REFUSED, VFDEV_TOO_LONG);
    REPLY(vfdev_mem_read(&device, 0, 4000, bytes, 128), VFDEV_REFUSED, VFDEV_BAD_RANGE);
    EQUAL(bytes[0], 5);
    REPLY(vfdev_mem_read(&device, 0, 0, bytes, 128), VFDEV_BYTES, 0);
    EQUAL(bytes[127], 0);
    REPLY(vfdev_serve(&device, 0, 2, bytes, 128, &left, messages, 64), VFDEV_NO_QUEUE, 0);
    EQUAL(left, 0);
    REPLY(vfdev_serve(&device, 0, 0, bytes, 128, &left, messages, 64), VFDEV_NO_ROOM, 0);
    vfdev_free(&device);
}

static void frames_come_and_leave_with_their_messages(void)
{
    static const uint8_t received[12] = {2, 0, 0, 0, 0, 0, 2, 0, 0, 0, 0, 9};
    vfdev device = VFDEV_NONE;
    uint8_t bytes[12];
    size_t left = 7;
    EQUAL(vfdev_make(&device, 2, 65536, 1518), VFDEV_OK);
    set_up(&device);
    messages[64] = 8;
    REPLY(vfdev_wire(&device, frame(0, 9), 60, messages, 66), VFDEV_DONE, 0);
    EQUAL(messages[0], 1);
    EQUAL(messages[1], 0);
    EQUAL(messages[64], 8);
    REPLY(vfdev_mem_read(&device, 0, 0x4000, bytes, 12), VFDEV_BYTES, 0);
    EQUAL(memcmp(bytes, received, 12), 0);
    /* the frame to another station leaves, and the one to function 0 stays */
    memset(out, 0, sizeof out);
    REPLY(vfdev_serve(&device, 1, 0, out, sizeof out, &left, messages, 64), VFDEV_SENT, 0);
    EQUAL(left, 60);
    EQUAL(memcmp(out, frame(0x77, 1), 60), 0);
    EQUAL(messages[0], 0);
    REPLY(vfdev_serve(&device, 1, 0, out, sizeof out, &left, messages, 64), VFDEV_SENT, 0);
    EQUAL(left, 0);
    EQUAL(memcmp(out, frame(0x77, 1), 60), 0);
    EQUAL(messages[0], 1);
    REPLY(vfdev_serve(&device, 1, 0, out, sizeof out, &left, messages, 64), VFDEV_IDLE, 0);
    EQUAL(messages[0], 0);
    vfdev_free(&device);
}

/* A function over a block of the caller's: opening clears it, and what the guest writes stands in it. */
static void lends_blocks(void)
{
    static uint8_t block[4096];
    vfdev device = VFDEV_NONE;
    uint8_t bytes[2] = {7, 8};
    memset(block, 9, sizeof block);
    EQUAL(vfdev_lend(&device, (vfdev_block){block, 4095}), VFDEV_BAD_MAKE);
    EQUAL(vfdev_lend(&device, (vfdev_block){block, sizeof block}), VFDEV_OK);
    /* the order of refusals: a size that is no memory's, a block that overlaps */
    EQUAL(vfdev_lend(&device, (vfdev_block){block, 4095}), VFDEV_BAD_MAKE);
    EQUAL(vfdev_lend(&device, (vfdev_block){block, sizeof block}), VFDEV_OVERLAPS);
    EQUAL(vfdev_make_lent(&device, 1518), VFDEV_OK);
    EQUAL(vfdev_lend(&device, (vfdev_block){block, sizeof block}), VFDEV_HELD);
    REPLY(vfdev_open(&device, 0), VFDEV_DONE, 0);
    EQUAL(block[0], 0);
    EQUAL(block[4095], 0);
    REPLY(vfdev_mem_write(&device, 0, 4094, bytes, 2), VFDEV_DONE, 0);
    EQUAL(block[4094], 7);
    block[4095] = 10;
    REPLY(vfdev_mem_read(&device, 0, 4094, bytes, 2), VFDEV_BYTES, 0);
    EQUAL(bytes[1], 10);
    vfdev_free(&device);
}

/* Blocks of 4096 bytes at 4096 and at 12288: what has a byte in common with one is refused, and what only touches it is lent. */
static void refuses_blocks_that_overlap(void)
{
    static uint8_t bytes[6 * 4096];
    static const struct {
        size_t at;
        size_t len;
        enum vfdev_fault due;
    } next[] = {{4096, 4096, VFDEV_OVERLAPS}, {0, 4224, VFDEV_OVERLAPS}, {8064, 4096, VFDEV_OVERLAPS}, {0, 24576, VFDEV_OVERLAPS},
                {8192, 4224, VFDEV_OVERLAPS}, {16256, 4096, VFDEV_OVERLAPS}, {0, 4096, VFDEV_OK}, {8192, 4096, VFDEV_OK},
                {16384, 8192, VFDEV_OK}, {20480, 4096, VFDEV_OVERLAPS}};
    vfdev device = VFDEV_NONE, second = VFDEV_NONE;
    EQUAL(vfdev_lend(&device, (vfdev_block){bytes + 4096, 4096}), VFDEV_OK);
    EQUAL(vfdev_lend(&device, (vfdev_block){bytes + 12288, 4096}), VFDEV_OK);
    for (size_t at = 0; at < sizeof next / sizeof *next; at++) {
        EQUAL(vfdev_lend(&device, (vfdev_block){bytes + next[at].at, next[at].len}), next[at].due);
    }
    /* five were lent, and function 1 has the block at 12288 */
    EQUAL(vfdev_make_lent(&device, 1518), VFDEV_OK);
    bytes[12288] = 1;
    bytes[8192] = 1;
    REPLY(vfdev_open(&device, 1), VFDEV_DONE, 0);
    EQUAL(bytes[12288], 0);
    EQUAL(bytes[8192], 1);
    REPLY(vfdev_open(&device, 5), VFDEV_REFUSED, VFDEV_NO_SUCH_VF);
    vfdev_free(&device);
    /* a block is free again */
    EQUAL(vfdev_lend(&second, (vfdev_block){bytes, 4096}), VFDEV_OK);
    vfdev_free(&second);
    EQUAL(vfdev_lend(&second, (vfdev_block){bytes, 4096}), VFDEV_OK);
    vfdev_free(&second);
}

/* Two services of frames whose length nobody wants: one leaves, and one stays. */
static void serves_where_no_frame_is_wanted(void)
{
    vfdev device = VFDEV_NONE;
    EQUAL(vfdev_make(&device, 2, 65536, 1518), VFDEV_OK);
    set_up(&device);
    REPLY(vfdev_serve(&device, 1, 0, out, sizeof out, NULL, messages, 64), VFDEV_SENT, 0);
    EQUAL(messages[0], 0);
    REPLY(vfdev_serve(&device, 1, 0, out, sizeof out, NULL, messages, 64), VFDEV_SENT, 0);
    EQUAL(messages[0], 1);
    REPLY(vfdev_serve(&device, 1, 0, out, sizeof out, NULL, messages, 64), VFDEV_IDLE, 0);
    REPLY(vfdev_serve(&device, 1, 2, out, sizeof out, NULL, messages, 64), VFDEV_NO_QUEUE, 0);
    vfdev_free(&device);
}

/* Each number of an enum has a text of its own, and the next one has none. */
static void numbers_have_texts(void)
{
    for (unsigned number = 0; number <= VFDEV_HISTORY_FULL; number++) {
        EQUAL(strncmp(vfdev_kind_text((enum vfdev_kind)number), "no kind", 7) != 0, 1);
    }
    EQUAL(strncmp(vfdev_kind_text((enum vfdev_kind)13), "no kind", 7), 0);
    for (unsigned number = 0; number <= VFDEV_OVERLAPS; number++) {
        EQUAL(strncmp(vfdev_fault_text(number), "no fault", 8) == 0, number == 8 || number == 12);
    }
    for (unsigned number = 0; number <= VFDEV_QUEUE_PAST_MEMORY; number++) {
        EQUAL(strncmp(vfdev_queue_fault_text(number), "no queue fault", 14) != 0, 1);
    }
    EQUAL(strncmp(vfdev_queue_fault_text(5), "no queue fault", 14), 0);
    for (unsigned number = 0; number <= VFDEV_NO_OTHER; number++) {
        EQUAL(strncmp(vfdev_replayed_text((enum vfdev_replayed)number), "no answer", 9) != 0, 1);
    }
}

/* A frame from the wire, a read of its bytes, and two services: 4 calls. */
static void frames(vfdev *device)
{
    uint8_t bytes[12];
    size_t left;
    REPLY(vfdev_wire(device, frame(0, 9), 60, messages, 64), VFDEV_DONE, 0);
    REPLY(vfdev_mem_read(device, 0, 0x4000, bytes, 12), VFDEV_BYTES, 0);
    REPLY(vfdev_serve(device, 1, 0, out, sizeof out, &left, messages, 64), VFDEV_SENT, 0);
    REPLY(vfdev_serve(device, 1, 0, out, sizeof out, &left, messages, 64), VFDEV_SENT, 0);
}

/* A device of functions over 65,536 bytes each, whose calls are not recorded. */
static vfdev other(uint32_t functions)
{
    vfdev device = VFDEV_NONE;
    EQUAL(vfdev_make(&device, functions, 65536, 1518), VFDEV_OK);
    return device;
}

/* What a function has counted, in the order of the struct. */
#define COUNTED(device, function, ...) counted(__LINE__, (device), (function), (const uint32_t[9]){__VA_ARGS__})

static void counted(int line, vfdev *device, uint8_t function, const uint32_t due[9])
{
    vfdev_function_counts got;
    memset(&got, 0xA5, sizeof got);
    reply(line, vfdev_counts(device, function, &got), VFDEV_DONE, 0);
    const uint32_t all[9] = {got.received, got.sent, got.no_room, got.refused, got.unclaimed, got.faults, got.shortfalls, got.last_fault,
                             got.last_queue};
    for (size_t at = 0; at < 9; at++) {
        equal(line, all[at], due[at]);
    }
}

/* Function 1 begins a queue anew, with one descriptor of these words, which is served. */
static vfdev_reply sends_one(vfdev *device, uint8_t queue, uint16_t buffer, uint32_t word)
{
    const uint8_t bytes[16] = {[0] = buffer & 0xFF, [1] = buffer >> 8, [8] = word & 0xFF, [9] = word >> 8 & 0xFF,
                               [10] = word >> 16 & 0xFF, [11] = word >> 24};
    const uint32_t to = 0x40u * queue;
    const struct write writes[] = {{0x2028 + to, 0}, {0x2018 + to, 0}, {0x2010 + to, 0}, {0x2000 + to, 0x3000},
                                   {0x2008 + to, 128}, {0x2028 + to, 0x02000000}, {0x2018 + to, 1}};
    REPLY(vfdev_mem_write(device, 1, 0x3000, bytes, 16), VFDEV_DONE, 0);
    write_all(device, 1, writes, sizeof writes / sizeof *writes);
    return vfdev_serve(device, 1, queue, out, sizeof out, NULL, messages, 64);
}

/* Each number once. A data descriptor that ends a frame of 60 bytes is 0x2930003C; the frame at 0x6000 is for the wire, that at 0x6100 for
 * function 0. */
static void counts_each_loss(vfdev *device)
{
    static const struct write third = {0x1018, 3};
    static const uint8_t past[2] = {0xE0, 0xFF};
    set_up(device);
    COUNTED(device, 0, 0);
    COUNTED(device, 1, 0);
    /* two frames for two descriptors, one without room, and one for nobody */
    for (int count = 0; count < 3; count++) {
        REPLY(vfdev_wire(device, frame(0, 9), 60, messages, 64), VFDEV_DONE, 0);
    }
    EQUAL(vfdev_unclaimed(device), 0);
    REPLY(vfdev_wire(device, frame(5, 9), 60, messages, 64), VFDEV_DONE, 0);
    REPLY(vfdev_wire(device, frame(5, 9), 13, messages, 64), VFDEV_REFUSED, VFDEV_BAD_FRAME);
    EQUAL(vfdev_unclaimed(device), 1);
    COUNTED(device, 0, 2, 0, 1);
    /* a third descriptor, whose buffer has 32 bytes before the end of the memory */
    REPLY(vfdev_mem_write(device, 0, 0x1020, past, 2), VFDEV_DONE, 0);
    write_all(device, 0, &third, 1);
    REPLY(vfdev_wire(device, frame(0, 9), 60, messages, 64), VFDEV_DONE, 0);
    COUNTED(device, 0, 2, 0, 1, 0, 0, 1, 0, VFDEV_QUEUE_RECEIVE_BUFFER);
    /* function 1 sends to the wire; to function 0 while that may not receive; and while its source is checked, which isn't its own */
    REPLY(sends_one(device, 0, 0x6000, 0x2930003C), VFDEV_SENT, 0);
    REPLY(vfdev_pf_write(device, 0x51E0, 2), VFDEV_DONE, 0);
    REPLY(sends_one(device, 1, 0x6100, 0x2930003C), VFDEV_SENT, 0);
    COUNTED(device, 1, 0, 2, 0, 0, 1);
    REPLY(vfdev_pf_write(device, 0x8200, 2), VFDEV_DONE, 0);
    REPLY(sends_one(device, 0, 0x6000, 0x2930003C), VFDEV_DROPPED, 0);
    COUNTED(device, 1, 0, 2, 0, 1, 1);
    /* descriptors that can't be used: of type 1, with TSE, with VLE, and with 28 bytes past the end */
    REPLY(sends_one(device, 0, 0x6000, 0x2910003C), VFDEV_FAULTED, 0);
    COUNTED(device, 1, 0, 2, 0, 1, 1, 1, 0, VFDEV_QUEUE_UNKNOWN_TYPE, 0);
    REPLY(sends_one(device, 1, 0x6000, 0xA930003C), VFDEV_FAULTED, 0);
    COUNTED(device, 1, 0, 2, 0, 1, 1, 2, 0, VFDEV_QUEUE_NOT_OFFERED, 1);
    REPLY(sends_one(device, 0, 0x6000, 0x6930003C), VFDEV_FAULTED, 0);
    COUNTED(device, 1, 0, 2, 0, 1, 1, 3, 0, VFDEV_QUEUE_NOT_OFFERED, 0);
    REPLY(sends_one(device, 1, 0xFFE0, 0x2930003C), VFDEV_FAULTED, 0);
    COUNTED(device, 1, 0, 2, 0, 1, 1, 4, 0, VFDEV_QUEUE_PAST_MEMORY, 1);
    COUNTED(device, 0, 2, 0, 1, 0, 0, 1, 0, VFDEV_QUEUE_RECEIVE_BUFFER);
    /* a reset takes all but the frames that nobody got, and so does the end */
    REPLY(vfdev_flr(device, 1), VFDEV_DONE, 0);
    COUNTED(device, 1, 0, 0, 0, 0, 1);
    REPLY(vfdev_end(device, 0), VFDEV_DONE, 0);
    COUNTED(device, 0, 0);
    REPLY(vfdev_pf_reset(device), VFDEV_DONE, 0);
    COUNTED(device, 1, 0, 0, 0, 0, 1);
    EQUAL(vfdev_unclaimed(device), 1);
}

/* Where there is nothing to tell the numbers are zeros. */
static void tells_no_counts(vfdev *device, uint8_t function, uint32_t kind, uint32_t value)
{
    vfdev_function_counts got;
    static const vfdev_function_counts none;
    memset(&got, 0xA5, sizeof got);
    REPLY(vfdev_counts(device, function, &got), kind, value);
    EQUAL(memcmp(&got, &none, sizeof none), 0);
}

/* The same of a device over memories of its own, of one that is recorded, and of one over blocks. */
static void counts_what_was_lost(void)
{
    static uint8_t blocks[2][65536];
    vfdev devices[3] = {VFDEV_NONE, VFDEV_NONE, VFDEV_NONE};
    tells_no_counts(&devices[0], 0, VFDEV_NO_DEVICE, 0);
    EQUAL(vfdev_unclaimed(&devices[0]), 0);
    EQUAL(vfdev_make(&devices[0], 2, 65536, 1518), VFDEV_OK);
    EQUAL(vfdev_make_recorded(&devices[1], 2, 65536, 1518, 256), VFDEV_OK);
    EQUAL(vfdev_lend(&devices[2], (vfdev_block){blocks[0], sizeof *blocks}), VFDEV_OK);
    tells_no_counts(&devices[2], 0, VFDEV_NO_DEVICE, 0);
    EQUAL(vfdev_lend(&devices[2], (vfdev_block){blocks[1], sizeof *blocks}), VFDEV_OK);
    EQUAL(vfdev_make_lent(&devices[2], 1518), VFDEV_OK);
    for (int kind = 0; kind < 3; kind++) {
        counts_each_loss(&devices[kind]);
        tells_no_counts(&devices[kind], 2, VFDEV_REFUSED, VFDEV_NO_SUCH_VF);
        tells_no_counts(&devices[kind], 255, VFDEV_REFUSED, VFDEV_NO_SUCH_VF);
    }
    /* to ask is no call that is kept, and a replay counts the same */
    const size_t kept = vfdev_kept(&devices[1]);
    COUNTED(&devices[1], 1, 0, 0, 0, 0, 1);
    EQUAL(vfdev_kept(&devices[1]), kept);
    vfdev fresh = other(2);
    EQUAL(vfdev_replay(&devices[1], &fresh), VFDEV_SAME);
    COUNTED(&fresh, 1, 0, 0, 0, 0, 1);
    vfdev_free(&fresh);
    for (int kind = 0; kind < 3; kind++) {
        vfdev_free(&devices[kind]);
    }
}

static void kept_calls_replay(void)
{
    vfdev device = VFDEV_NONE;
    EQUAL(vfdev_kept(&device), 0);
    EQUAL(vfdev_make_recorded(&device, 2, 65536, 1518, 0), VFDEV_BAD_MAKE);
    EQUAL(vfdev_make_recorded(&device, 2, 65536, 1518, 65537), VFDEV_BAD_MAKE);
    EQUAL(vfdev_make_recorded(&device, 2, 65537, 1518, 64), VFDEV_BAD_MAKE);
    EQUAL(vfdev_make_recorded(&device, 2, 65536, 1518, 64), VFDEV_OK);
    EQUAL(vfdev_make_recorded(&device, 2, 65536, 1518, 64), VFDEV_HELD);
    EQUAL(vfdev_make_lent(&device, 1518), VFDEV_HELD);
    set_up(&device);
    EQUAL(vfdev_kept(&device), 26);
    frames(&device);
    EQUAL(vfdev_kept(&device), 30);
    /* a device as it is made answers so, and no longer once it has these calls behind it */
    vfdev fresh = other(2);
    EQUAL(vfdev_replay(&device, &fresh), VFDEV_SAME);
    REPLY(vfdev_open(&fresh, 0), VFDEV_REFUSED, VFDEV_ALREADY_OPEN);
    EQUAL(vfdev_replay(&device, &fresh), VFDEV_DIFFERENT);
    EQUAL(vfdev_kept(&device), 30);
    vfdev_free(&fresh);
    vfdev_free(&device);
    EQUAL(vfdev_kept(&device), 0);
}

static void finds_planted_differences(void)
{
    vfdev device = VFDEV_NONE, none = VFDEV_NONE, second = VFDEV_NONE;
    EQUAL(vfdev_make_recorded(&device, 2, 65536, 1518, 64), VFDEV_OK);
    set_up(&device);
    frames(&device);
    /* frames of pool 1 are dropped: its source is not its own */
    vfdev strict = other(2);
    REPLY(vfdev_pf_write(&strict, 0x8200, 2), VFDEV_DONE, 0);
    EQUAL(vfdev_replay(&device, &strict), VFDEV_DIFFERENT);
    /* function 1 is missing */
    vfdev small = other(1);
    EQUAL(vfdev_replay(&device, &small), VFDEV_DIFFERENT);
    /* a third function changes no answer */
    vfdev large = other(3);
    EQUAL(vfdev_replay(&device, &large), VFDEV_SAME);
    /* there is no other device, and that one has no recording */
    EQUAL(vfdev_replay(&device, &none), VFDEV_NO_OTHER);
    EQUAL(vfdev_replay(&none, &large), VFDEV_NOT_RECORDED);
    EQUAL(vfdev_replay(&large, &small), VFDEV_NOT_RECORDED);
    EQUAL(vfdev_make_recorded(&second, 2, 65536, 1518, 64), VFDEV_OK);
    EQUAL(vfdev_replay(&device, &second), VFDEV_NO_OTHER);
    EQUAL(vfdev_kept(&second), 0);
    vfdev_free(&second);
    /* guests may write memories that were lent, so such a device is not asked */
    static uint8_t block[4096];
    EQUAL(vfdev_lend(&second, (vfdev_block){block, sizeof block}), VFDEV_OK);
    EQUAL(vfdev_replay(&device, &second), VFDEV_NO_OTHER);
    EQUAL(vfdev_make_lent(&second, 1518), VFDEV_OK);
    EQUAL(vfdev_replay(&device, &second), VFDEV_NO_OTHER);
    REPLY(vfdev_vf_read(&second, 0, 0x10), VFDEV_REFUSED, VFDEV_NOT_OPEN);
    EQUAL(vfdev_replay(&second, &large), VFDEV_NOT_RECORDED);
    vfdev_free(&second);
    vfdev_free(&large);
    vfdev_free(&small);
    vfdev_free(&strict);
    vfdev_free(&device);
}

static void asks_no_device_of_a_full_history(void)
{
    vfdev device = VFDEV_NONE;
    size_t left = 3;
    memset(messages, 7, sizeof messages);
    memset(out, 5, sizeof out);
    memset(many, 1, 2049);
    EQUAL(vfdev_make_recorded(&device, 1, 4096, 1518, 2), VFDEV_OK);
    REPLY(vfdev_open(&device, 0), VFDEV_DONE, 0);
    /* what is refused before the device is asked is no call of it */
    REPLY(vfdev_mem_write(&device, 0, 0, many, 2049), VFDEV_REFUSED, VFDEV_TOO_LONG);
    EQUAL(vfdev_kept(&device), 1);
    /* what the device refuses is */
    REPLY(vfdev_open(&device, 0), VFDEV_REFUSED, VFDEV_ALREADY_OPEN);
    EQUAL(vfdev_kept(&device), 2);
    REPLY(vfdev_pf_write(&device, 0x51E0, 1), VFDEV_HISTORY_FULL, 0);
    REPLY(vfdev_mem_read(&device, 0, 0, out, 8), VFDEV_HISTORY_FULL, 0);
    EQUAL(out[0], 5);
    REPLY(vfdev_wire(&device, frame(0, 9), 60, messages, 64), VFDEV_HISTORY_FULL, 0);
    EQUAL(messages[0], 0);
    REPLY(vfdev_serve(&device, 0, 0, out, sizeof out, &left, messages, 64), VFDEV_HISTORY_FULL, 0);
    EQUAL(left, 0);
    EQUAL(out[0], 5);
    REPLY(vfdev_wire(&device, frame(0, 9), 13, messages, 64), VFDEV_REFUSED, VFDEV_BAD_FRAME);
    EQUAL(vfdev_kept(&device), 2);
    vfdev_free(&device);
}

static void keeps_reads_longer_than_an_entry_names(void)
{
    vfdev device = VFDEV_NONE;
    memset(many, 5, sizeof many);
    EQUAL(vfdev_make_recorded(&device, 1, 65536, 1518, 4), VFDEV_OK);
    REPLY(vfdev_mem_read(&device, 0, 0, many, 65537), VFDEV_REFUSED, VFDEV_NOT_OPEN);
    REPLY(vfdev_open(&device, 0), VFDEV_DONE, 0);
    REPLY(vfdev_mem_read(&device, 0, 0, many, 65537), VFDEV_REFUSED, VFDEV_TOO_LONG);
    REPLY(vfdev_mem_read(&device, 0, 0, many, 65535), VFDEV_REFUSED, VFDEV_TOO_LONG);
    EQUAL(many[0], 5);
    EQUAL(vfdev_kept(&device), 4);
    vfdev fresh = other(1);
    EQUAL(vfdev_replay(&device, &fresh), VFDEV_SAME);
    vfdev_free(&fresh);
    vfdev_free(&device);
}

int main(void)
{
    makes_once_and_frees_for_good();
    functions_live_and_end();
    refuses_arguments_by_name();
    frames_come_and_leave_with_their_messages();
    lends_blocks();
    refuses_blocks_that_overlap();
    serves_where_no_frame_is_wanted();
    numbers_have_texts();
    counts_what_was_lost();
    kept_calls_replay();
    finds_planted_differences();
    asks_no_device_of_a_full_history();
    keeps_reads_longer_than_an_entry_names();
    return 0;
}
