/* Guests that come to a device of vfdev_make_guests and go, by numbers worked out by hand: makers, refusals in their order, blocks of two
 * guests that overlap, frames in bursts, what was lost, and a guest that takes another's place and sees nothing of it. It writes nothing, and ends with 0,
 * where all is as it should be. */
#include "vfdev.h"
#include "vfdev_regs.h"

#include <stdio.h>
#include <stdlib.h>
#include <string.h>

#define EQUAL(got, due) equal(__LINE__, (unsigned long long)(got), (unsigned long long)(due))
#define REPLY(got, due_kind, due_value) reply(__LINE__, (got), (due_kind), (due_value))

static void equal(int line, unsigned long long got, unsigned long long due)
{
    if (got != due) {
        fprintf(stderr, "guests.c:%d: %llu, and not %llu\n", line, got, due);
        exit(1);
    }
}

static void reply(int line, vfdev_reply got, uint32_t kind, uint32_t value)
{
    equal(line, got.kind, kind);
    equal(line, got.value, value);
}

/* Where a guest has its memory, and in that a ring to receive, one to send, and where the buffers of the one and the frames of the other
 * begin. */
enum { SIZE = 65536, BASE = 0x100000, RECEIVES = 0x1000, SENDS = 0x2000, BUFFERS = 0x4000, SENT = 0x8000, FRAME = 60 };

static uint8_t memory[3][SIZE];
static uint8_t messages[VFDEV_POOLS];
static uint8_t out[VFDEV_MOST_FRAME];

static vfdev_block block(uint8_t *at, size_t len)
{
    return (vfdev_block){at, len};
}

/* How many messages there are, of all functions and vectors. */
static unsigned all_messages(void)
{
    unsigned count = 0;
    for (unsigned p = 0; p < VFDEV_POOLS; p++) {
        count += messages[p];
    }
    return count;
}

static void put_word(uint8_t *at, uint64_t word)
{
    memcpy(at, &word, 8);
}

/* A frame of 60 bytes between addresses that end so, whose last byte has a number. */
static void lay_frame(uint8_t *bytes, uint8_t to, uint8_t from, uint8_t number)
{
    memset(bytes, 0, FRAME);
    bytes[0] = 2;
    bytes[5] = to;
    bytes[6] = 2;
    bytes[11] = from;
    bytes[12] = 8;
    bytes[FRAME - 1] = number;
}

static void makes_what_numbers_allow(void)
{
    vfdev device = VFDEV_NONE;
    EQUAL(vfdev_attach(&device, 0), VFDEV_NO_GUESTS);
    EQUAL(vfdev_make_guests(&device, 0, 1518, 0), VFDEV_BAD_MAKE);
    EQUAL(vfdev_make_guests(&device, 65, 1518, 0), VFDEV_BAD_MAKE);
    EQUAL(vfdev_make_guests(&device, 64, 1517, 0), VFDEV_BAD_MAKE);
    EQUAL(vfdev_make_guests(&device, 64, 9019, 0), VFDEV_BAD_MAKE);
    EQUAL(vfdev_make_guests(&device, 64, 9018, 128), VFDEV_BAD_MAKE);
    EQUAL(vfdev_make_guests(&device, 64, 9018, 127), VFDEV_OK);
    EQUAL(vfdev_make_guests(&device, 64, 9018, 127), VFDEV_HELD);
    EQUAL(vfdev_make_lent(&device, 1518), VFDEV_HELD);
    EQUAL(vfdev_lend(&device, block(memory[0], SIZE)), VFDEV_HELD);
    EQUAL(vfdev_kept(&device), 0);
    EQUAL(vfdev_attach(&device, 63), VFDEV_OK);
    vfdev_free(&device);
    EQUAL(vfdev_detach(&device, 63), VFDEV_NO_GUESTS);
    /* the calls of guests are none of another device's */
    EQUAL(vfdev_make(&device, 1, 4096, 1518), VFDEV_OK);
    EQUAL(vfdev_attach(&device, 0), VFDEV_NO_GUESTS);
    EQUAL(vfdev_detach(&device, 0), VFDEV_NO_GUESTS);
    EQUAL(vfdev_map(&device, 0, 0, block(memory[0], SIZE), false), VFDEV_NO_GUESTS);
    EQUAL(vfdev_unmap(&device, 0, 0), VFDEV_NO_GUESTS);
    memset(messages, 7, sizeof messages);
    vfdev_burst_result burst = vfdev_serve_burst(&device, 0, 0, 5, messages);
    EQUAL(burst.taken + burst.frames + burst.goes_on + all_messages(), 0);
    memset(messages, 7, sizeof messages);
    vfdev_wire_result wired = vfdev_wire_burst(&device, out, 60, (const size_t[]){60}, 1, messages);
    EQUAL(wired.taken + wired.refused + all_messages(), 0);
    EQUAL(vfdev_frame(&device, 0, out, sizeof out), 0);
    vfdev_free(&device);
}

static void refuses_in_order(void)
{
    vfdev device = VFDEV_NONE;
    EQUAL(vfdev_make_guests(&device, 2, 1518, 0), VFDEV_OK);
    EQUAL(vfdev_attach(&device, 2), VFDEV_NO_SUCH_VF);
    EQUAL(vfdev_attach(&device, 64), VFDEV_NO_SUCH_VF);
    EQUAL(vfdev_detach(&device, 0), VFDEV_NOT_OPEN);
    EQUAL(vfdev_detach(&device, 2), VFDEV_NOT_OPEN);
    EQUAL(vfdev_detach(&device, 64), VFDEV_NO_SUCH_VF);
    EQUAL(vfdev_map(&device, 2, 0, block(memory[0], SIZE), false), VFDEV_NO_SUCH_VF);
    EQUAL(vfdev_map(&device, 64, 0, block(memory[0], SIZE), false), VFDEV_NO_SUCH_VF);
    EQUAL(vfdev_map(&device, 0, 0, block(memory[0], SIZE), false), VFDEV_BAD_MAKE);
    EQUAL(vfdev_unmap(&device, 2, 0), VFDEV_NO_SUCH_VF);
    EQUAL(vfdev_unmap(&device, 0, 0), VFDEV_BAD_MAKE);
    EQUAL(vfdev_attach(&device, 0), VFDEV_OK);
    EQUAL(vfdev_attach(&device, 0), VFDEV_ALREADY_OPEN);
    EQUAL(vfdev_map(&device, 0, 0, block(memory[0], 0), false), VFDEV_BAD_MAKE);
    EQUAL(vfdev_map(&device, 0, VFDEV_GUEST_SPACE - 1, block(memory[0], 2), false), VFDEV_PAST_END);
    EQUAL(vfdev_map(&device, 0, VFDEV_GUEST_SPACE - 2, block(memory[0], 2), false), VFDEV_OK);
    EQUAL(vfdev_map(&device, 0, BASE, block(memory[0] + 2, 8), false), VFDEV_OK);
    EQUAL(vfdev_map(&device, 0, BASE + 7, block(memory[0] + 16, 8), false), VFDEV_OVERLAPS);
    EQUAL(vfdev_unmap(&device, 0, BASE + 1), VFDEV_NOT_THERE);
    for (unsigned region = 2; region < VFDEV_GUEST_REGIONS; region++) {
        EQUAL(vfdev_map(&device, 0, BASE + 16 * region, block(memory[0] + 16 * region, 8), false), VFDEV_OK);
    }
    EQUAL(vfdev_map(&device, 0, 0, block(memory[0] + 4096, 8), false), VFDEV_TOO_MANY);
    EQUAL(vfdev_unmap(&device, 0, BASE), VFDEV_OK);
    EQUAL(vfdev_unmap(&device, 0, BASE), VFDEV_NOT_THERE);
    EQUAL(vfdev_map(&device, 0, 0, block(memory[0] + 4096, 8), false), VFDEV_OK);
    vfdev_free(&device);
}

/* A block of two guests is refused, wherever they overlap, until the one of them is mapped no more. */
static void keeps_blocks_apart(void)
{
    vfdev device = VFDEV_NONE;
    EQUAL(vfdev_make_guests(&device, 3, 1518, 0), VFDEV_OK);
    EQUAL(vfdev_attach(&device, 0), VFDEV_OK);
    EQUAL(vfdev_attach(&device, 1), VFDEV_OK);
    EQUAL(vfdev_map(&device, 0, 0, block(memory[0] + 4096, 4096), false), VFDEV_OK);
    EQUAL(vfdev_map(&device, 0, BASE, block(memory[0] + 4096, 4096), false), VFDEV_OK); /* an alias of one guest */
    EQUAL(vfdev_map(&device, 1, 0, block(memory[0] + 4096, 4096), false), VFDEV_ANOTHERS);
    EQUAL(vfdev_map(&device, 1, 0, block(memory[0], 4097), false), VFDEV_ANOTHERS);
    EQUAL(vfdev_map(&device, 1, 0, block(memory[0] + 8191, 4096), true), VFDEV_ANOTHERS);
    EQUAL(vfdev_map(&device, 1, 0, block(memory[0], SIZE), false), VFDEV_ANOTHERS);
    EQUAL(vfdev_map(&device, 1, 0, block(memory[0] + 5000, 1), false), VFDEV_ANOTHERS);
    EQUAL(vfdev_map(&device, 1, 0, block(memory[0] + 5000, 0), false), VFDEV_BAD_MAKE); /* none of its bytes is another's */
    EQUAL(vfdev_map(&device, 2, 0, block(memory[0] + 5000, 1), false), VFDEV_ANOTHERS); /* whatever else holds */
    EQUAL(vfdev_map(&device, 1, 0, block(memory[0], 4096), false), VFDEV_OK);
    EQUAL(vfdev_map(&device, 1, 4096, block(memory[0] + 8192, 4096), false), VFDEV_OK);
    EQUAL(vfdev_unmap(&device, 0, 0), VFDEV_OK);
    EQUAL(vfdev_map(&device, 1, 8192, block(memory[0] + 4096, 1), false), VFDEV_ANOTHERS);
    EQUAL(vfdev_unmap(&device, 0, BASE), VFDEV_OK);
    EQUAL(vfdev_map(&device, 1, 8192, block(memory[0] + 4096, 1), false), VFDEV_OK);
    EQUAL(vfdev_map(&device, 0, 0, block(memory[0], 1), false), VFDEV_ANOTHERS);
    EQUAL(vfdev_detach(&device, 1), VFDEV_OK);
    EQUAL(vfdev_map(&device, 0, 0, block(memory[0], SIZE), false), VFDEV_OK);
    vfdev_free(&device);
}

static void pf(vfdev *device, uint32_t offset, uint32_t value)
{
    REPLY(vfdev_pf_write(device, offset, value), VFDEV_DONE, 0);
}

static void vf(vfdev *device, uint8_t function, uint32_t offset, uint32_t value)
{
    REPLY(vfdev_vf_write(device, function, offset, value, messages, sizeof messages), VFDEV_DONE, 0);
}

/* A guest with its memory, whose driver has a ring of eight descriptors to receive, all of them given, with an interrupt, and one to send. */
static void come(vfdev *device, uint8_t function, uint8_t *bytes)
{
    EQUAL(vfdev_attach(device, function), VFDEV_OK);
    EQUAL(vfdev_map(device, function, BASE, block(bytes, SIZE), false), VFDEV_OK);
    for (uint64_t at = 0; at < 8; at++) {
        put_word(bytes + RECEIVES + 16 * at, BASE + BUFFERS + 2048 * at);
        put_word(bytes + RECEIVES + 16 * at + 8, 0);
    }
    vf(device, function, VFDEV_RDBAL(0), BASE + RECEIVES);
    vf(device, function, VFDEV_RDLEN(0), 128);
    vf(device, function, VFDEV_SRRCTL(0), VFDEV_SRRCTL_DESCTYPE(1) | VFDEV_SRRCTL_BSIZEPACKET(2));
    vf(device, function, VFDEV_RXDCTL(0), VFDEV_RXDCTL_ENABLE);
    vf(device, function, VFDEV_RDT(0), 7);
    vf(device, function, VFDEV_VTIVAR, 0x80);
    vf(device, function, VFDEV_VTEIAC, 1);
    vf(device, function, VFDEV_VTEIMS, 1);
    vf(device, function, VFDEV_TDBAL(0), BASE + SENDS);
    vf(device, function, VFDEV_TDLEN(0), 128);
    vf(device, function, VFDEV_TXDCTL(0), VFDEV_TXDCTL_ENABLE);
}

/* Its driver lays a frame, and a descriptor for it. */
static void send(uint8_t *bytes, unsigned place, uint8_t to, uint8_t from, uint8_t number)
{
    lay_frame(bytes + SENT + 64 * place, to, from, number);
    put_word(bytes + SENDS + 16 * place, BASE + SENT + 64 * (uint64_t)place);
    put_word(bytes + SENDS + 16 * place + 8, VFDEV_TXD_DEXT | VFDEV_TXD_DTYP(3) | VFDEV_TXD_EOP | VFDEV_TXD_RS | VFDEV_TXD_LENGTH(FRAME));
}

/* The last byte of the frame in a buffer. */
static unsigned number_in(const uint8_t *bytes, unsigned buffer)
{
    return bytes[BUFFERS + 2048 * buffer + FRAME - 1];
}

/* What a function has counted. */
static vfdev_function_counts counts(vfdev *device, uint8_t function)
{
    vfdev_function_counts counts;
    memset(&counts, 0xA5, sizeof counts);
    REPLY(vfdev_counts(device, function, &counts), VFDEV_DONE, 0);
    return counts;
}

/* A guest's numbers go with it, but how many of its function's frames nobody got. */
static void counts_by_guest(void)
{
    static const vfdev_function_counts none;
    vfdev_function_counts got;
    vfdev device = VFDEV_NONE;
    memset(memory, 0, sizeof memory);
    EQUAL(vfdev_make_guests(&device, 2, 1518, VFDEV_OFFLOAD_VLAN), VFDEV_OK);
    REPLY(vfdev_counts(&device, 2, &got), VFDEV_REFUSED, VFDEV_NO_SUCH_VF);
    EQUAL(memcmp(&got, &none, sizeof none), 0);
    got = counts(&device, 1); /* it is vacant */
    EQUAL(memcmp(&got, &none, sizeof none), 0);
    /* function 0 has an address, and may not receive; function 1 sends it a frame, and one to the wire */
    pf(&device, VFDEV_PFVFTE(0), 2);
    pf(&device, VFDEV_PFDTXGSWC, VFDEV_PFDTXGSWC_LBE);
    pf(&device, VFDEV_RAL(0), 2);
    pf(&device, VFDEV_RAH(0), VFDEV_RAH_AV);
    pf(&device, VFDEV_MPSAR(0), 1);
    come(&device, 0, memory[0]);
    come(&device, 1, memory[1]);
    send(memory[1], 0, 0, 1, 11);
    send(memory[1], 1, 0x77, 1, 12);
    vf(&device, 1, VFDEV_TDT(0), 2);
    EQUAL(vfdev_serve_burst(&device, 1, 0, 9, messages).frames, 1);
    EQUAL(counts(&device, 1).sent, 2);
    EQUAL(counts(&device, 1).unclaimed, 1);
    EQUAL(counts(&device, 0).unclaimed, 0);
    EQUAL(vfdev_unclaimed(&device), 0);
    /* now it may: eight frames for the seven descriptors that it has given */
    pf(&device, VFDEV_PFVFRE(0), 1);
    static uint8_t bytes[8 * FRAME];
    static const size_t ends[] = {FRAME, 2 * FRAME, 3 * FRAME, 4 * FRAME, 5 * FRAME, 6 * FRAME, 7 * FRAME, 8 * FRAME};
    for (unsigned at = 0; at < 8; at++) {
        lay_frame(bytes + FRAME * at, 0, 0x77, 1);
    }
    EQUAL(vfdev_wire_burst(&device, bytes, sizeof bytes, ends, 8, messages).taken, 8);
    EQUAL(counts(&device, 0).received, 7);
    EQUAL(counts(&device, 0).no_room, 1);
    /* segments aren't offered, a tag is */
    send(memory[1], 2, 0x77, 1, 13);
    memory[1][SENDS + 16 * 2 + 11] |= 0x80;
    vf(&device, 1, VFDEV_TDT(0), 3);
    EQUAL(vfdev_serve_burst(&device, 1, 0, 9, messages).frames, 0);
    EQUAL(counts(&device, 1).faults, 1);
    EQUAL(counts(&device, 1).last_fault, VFDEV_QUEUE_NOT_OFFERED);
    EQUAL(counts(&device, 1).last_queue, 0);
    EQUAL(vfdev_detach(&device, 1), VFDEV_OK);
    EQUAL(vfdev_attach(&device, 1), VFDEV_OK);
    got = counts(&device, 1);
    EQUAL(got.unclaimed, 1);
    got.unclaimed = 0;
    EQUAL(memcmp(&got, &none, sizeof none), 0);
    EQUAL(counts(&device, 0).received, 7);
    vfdev_free(&device);
}

/* Two guests talk in bursts, one goes, and another takes its place. */
static void guests_come_and_go(void)
{
    vfdev device = VFDEV_NONE;
    uint8_t word[8];
    memset(memory, 0, sizeof memory);
    EQUAL(vfdev_make_guests(&device, 2, 1518, 0), VFDEV_OK);
    /* an event of a vacant function is refused, and to open it does no harm */
    REPLY(vfdev_vf_read(&device, 0, VFDEV_VFLINKS), VFDEV_REFUSED, VFDEV_NOT_OPEN);
    REPLY(vfdev_open(&device, 0), VFDEV_DONE, 0);
    REPLY(vfdev_mem_read(&device, 0, 0, word, 1), VFDEV_REFUSED, VFDEV_BAD_RANGE);
    EQUAL(vfdev_map(&device, 0, 0, block(memory[0], SIZE), false), VFDEV_BAD_MAKE);
    /* each function has an address, receives and sends, and the device forwards between them */
    pf(&device, VFDEV_PFVFRE(0), 3);
    pf(&device, VFDEV_PFVFTE(0), 3);
    pf(&device, VFDEV_PFDTXGSWC, VFDEV_PFDTXGSWC_LBE);
    for (uint32_t p = 0; p < 2; p++) {
        pf(&device, VFDEV_RAL(p), 2);
        pf(&device, VFDEV_RAH(p), VFDEV_RAH_AV | p << 8);
        pf(&device, VFDEV_MPSAR(2 * p), 1u << p);
    }
    come(&device, 0, memory[0]);
    come(&device, 1, memory[1]);
    /* guest 1 sends three frames to guest 0 and one to the wire; a burst of two, and the others */
    send(memory[1], 0, 0, 1, 11);
    send(memory[1], 1, 0x77, 1, 12);
    send(memory[1], 2, 0, 1, 13);
    send(memory[1], 3, 0, 1, 14);
    vf(&device, 1, VFDEV_TDT(0), 4);
    vfdev_burst_result burst = vfdev_serve_burst(&device, 1, 0, 2, messages);
    EQUAL(burst.taken, 2);
    EQUAL(burst.frames, 1);
    EQUAL(burst.goes_on, 1);
    EQUAL(messages[0], 1);
    EQUAL(all_messages(), 1);
    EQUAL(vfdev_frame(&device, 0, out, FRAME - 1), 0);
    EQUAL(vfdev_frame(&device, 0, out, sizeof out), FRAME);
    EQUAL(out[5], 0x77);
    EQUAL(out[FRAME - 1], 12);
    EQUAL(vfdev_frame(&device, 1, out, sizeof out), 0);
    burst = vfdev_serve_burst(&device, 1, 0, 100, messages);
    EQUAL(burst.taken, 3); /* the third found nothing */
    EQUAL(burst.frames, 0);
    EQUAL(burst.goes_on, 0);
    EQUAL(messages[0], 1);
    EQUAL(vfdev_frame(&device, 0, out, sizeof out), 0);
    EQUAL(number_in(memory[0], 0), 11);
    EQUAL(number_in(memory[0], 1), 13);
    EQUAL(number_in(memory[0], 2), 14);
    burst = vfdev_serve_burst(&device, 1, 2, 100, messages);
    EQUAL(burst.taken + burst.frames + burst.goes_on + all_messages(), 0);
    burst = vfdev_serve_burst(&device, 7, 0, 100, messages);
    EQUAL(burst.taken, 1); /* and was refused */
    EQUAL(burst.goes_on, 0);
    /* three frames of the wire in one call, the second of them too long: one for each guest */
    static uint8_t bytes[FRAME + 1519 + FRAME];
    static const size_t ends[] = {FRAME, FRAME + 1519, FRAME + 1519 + FRAME};
    lay_frame(bytes, 0, 0x77, 21);
    lay_frame(bytes + FRAME, 1, 0x77, 22);
    lay_frame(bytes + FRAME + 1519, 1, 0x77, 23);
    vfdev_wire_result wired = vfdev_wire_burst(&device, bytes, sizeof bytes, ends, 3, messages);
    EQUAL(wired.taken, 2);
    EQUAL(wired.refused, 1);
    EQUAL(messages[0], 1);
    EQUAL(messages[1], 1);
    EQUAL(number_in(memory[0], 3), 21);
    EQUAL(number_in(memory[1], 0), 23);
    /* guest 0 goes, and another comes in its place, of whom nothing is mapped yet: it sees nothing of the former, and nothing more is
     * written into the former's memory */
    EQUAL(vfdev_detach(&device, 0), VFDEV_OK);
    static uint8_t before[SIZE];
    memcpy(before, memory[0], SIZE);
    wired = vfdev_wire_burst(&device, bytes, FRAME, ends, 1, messages);
    EQUAL(wired.taken, 1);
    EQUAL(all_messages(), 0);
    EQUAL(vfdev_attach(&device, 0), VFDEV_OK);
    REPLY(vfdev_vf_read(&device, 0, VFDEV_RDT(0)), VFDEV_VALUE, 0);
    REPLY(vfdev_vf_read(&device, 0, VFDEV_RDLEN(0)), VFDEV_VALUE, 0);
    memset(word, 7, sizeof word);
    REPLY(vfdev_mem_read(&device, 0, BASE + BUFFERS, word, sizeof word), VFDEV_BYTES, 0);
    EQUAL(word[0] | word[1] | word[2] | word[7], 0);
    REPLY(vfdev_mem_write(&device, 0, BASE + BUFFERS, (const uint8_t[]){1, 2}, 2), VFDEV_DONE, 0);
    EQUAL(vfdev_detach(&device, 0), VFDEV_OK);
    come(&device, 0, memory[2]);
    send(memory[1], 4, 0, 1, 31);
    vf(&device, 1, VFDEV_TDT(0), 5);
    burst = vfdev_serve_burst(&device, 1, 0, 100, messages);
    EQUAL(burst.taken, 2);
    EQUAL(messages[0], 1);
    EQUAL(number_in(memory[2], 0), 31);
    EQUAL(memcmp(before, memory[0], SIZE), 0);
    /* guest 1 was there all the while */
    REPLY(vfdev_vf_read(&device, 1, VFDEV_TDH(0)), VFDEV_VALUE, 5);
    /* a region that is mapped no more is not written, and a read-only one isn't either */
    EQUAL(vfdev_unmap(&device, 0, BASE), VFDEV_OK);
    REPLY(vfdev_mem_write(&device, 0, BASE + SENT, (const uint8_t[]){1}, 1), VFDEV_DONE, 0);
    EQUAL(memory[2][SENT], 0);
    EQUAL(vfdev_map(&device, 0, BASE, block(memory[2], SIZE), true), VFDEV_OK);
    REPLY(vfdev_mem_write(&device, 0, BASE + SENT, (const uint8_t[]){1}, 1), VFDEV_DONE, 0);
    EQUAL(memory[2][SENT], 0);
    vfdev_free(&device);
}

/* As many frames leave in one burst as there is room for, and the next goes on with the others. */
static void a_burst_ends_where_there_is_no_room(void)
{
    vfdev device = VFDEV_NONE;
    memset(memory, 0, sizeof memory);
    EQUAL(vfdev_make_guests(&device, 1, 1518, 0), VFDEV_OK);
    pf(&device, VFDEV_PFVFTE(0), 1);
    come(&device, 0, memory[0]);
    /* a ring of 512 descriptors, which name one frame */
    send(memory[0], 0, 0x77, 0, 1);
    for (unsigned at = 0; at < 512; at++) {
        memcpy(memory[0] + 0xA000 + 16 * at, memory[0] + SENDS, 16);
    }
    vf(&device, 0, VFDEV_TXDCTL(0), 0);
    vf(&device, 0, VFDEV_TDBAL(0), BASE + 0xA000);
    vf(&device, 0, VFDEV_TDLEN(0), 512 * 16);
    vf(&device, 0, VFDEV_TXDCTL(0), VFDEV_TXDCTL_ENABLE);
    vf(&device, 0, VFDEV_TDT(0), 300);
    vfdev_burst_result burst = vfdev_serve_burst(&device, 0, 0, SIZE_MAX, messages);
    EQUAL(burst.taken, VFDEV_MOST_FRAMES);
    EQUAL(burst.frames, VFDEV_MOST_FRAMES);
    EQUAL(burst.goes_on, 1);
    EQUAL(vfdev_frame(&device, VFDEV_MOST_FRAMES - 1, out, sizeof out), FRAME);
    EQUAL(vfdev_frame(&device, VFDEV_MOST_FRAMES, out, sizeof out), 0);
    burst = vfdev_serve_burst(&device, 0, 0, SIZE_MAX, messages);
    EQUAL(burst.taken, 300 - VFDEV_MOST_FRAMES + 1);
    EQUAL(burst.frames, 300 - VFDEV_MOST_FRAMES);
    EQUAL(burst.goes_on, 0);
    EQUAL(vfdev_serve_burst(&device, 0, 0, 0, messages).goes_on, 1); /* nothing was asked, so nothing is known */
    vfdev_free(&device);
}

int main(void)
{
    makes_what_numbers_allow();
    refuses_in_order();
    keeps_blocks_apart();
    counts_by_guest();
    guests_come_and_go();
    a_burst_ends_where_there_is_no_room();
    return 0;
}
