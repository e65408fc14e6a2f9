/* Prints the table of docs/PERFORMANCE.md on a device of guests that come and go, through the C interface: 64 guests, each with a block that is
 * mapped for it; what a frame costs by a call of its own and in a burst, and what it costs that a guest goes and another comes. The shortest of
 * many rounds. A driver lays 64 descriptors out at once and writes the tail once for them, which isn't counted. Each descriptor names a buffer
 * of its own, so a frame comes into memory that the nearest caches don't hold; by the word `near` they all name one, which these do hold.
 *
 *   bindings/test && cc -O2 -Iinclude bench/guests.c bindings/native/libvfdev_c.a bindings/native/liblibc_c.a -o guests
 *   LD_BIND_NOW=1 ./guests [near]
 */
#include "measure.h"
#include "vfdev.h"
#include "vfdev_regs.h"
#include <stdio.h>
#include <stdlib.h>

/* (ROUNDS times CALLS is so often the whole ring, so that it is as it was after them) */
enum { ROUNDS = 32, GUESTS = 64, MEMORY = 1 << 19, SLOTS = 128, BURST = 64, SHORT = 60, LONG = 1518 };
enum { RECEIVE_RING = 0x1000, SEND_RING = 0x2000, TO_GUEST = 0x3000, TO_WIRE = 0x3800, BUFFERS = 0x10000 };

static uint8_t memory[GUESTS][MEMORY], messages[VFDEV_POOLS], out[VFDEV_MOST_FRAME], frame[LONG], frames[BURST * LONG];
static size_t short_ends[BURST], long_ends[BURST];
static vfdev device = VFDEV_NONE;
static uint32_t given[GUESTS], sent, due, apart = 2048;
static bool is_wrong;

static void must(enum vfdev_fault answer)
{
    is_wrong |= answer != VFDEV_OK;
}

static void vf(uint8_t function, uint32_t offset, uint32_t value)
{
    is_wrong |= vfdev_vf_write(&device, function, offset, value, messages, sizeof messages).kind != VFDEV_DONE;
}

static void pf(uint32_t offset, uint32_t value)
{
    is_wrong |= vfdev_pf_write(&device, offset, value).kind != VFDEV_DONE;
}

static void put(uint8_t function, uint32_t ring, uint32_t slot, uint64_t first, uint64_t second)
{
    memcpy(memory[function] + ring + 16 * slot, (const uint64_t[2]){first, second}, 16);
}

/* ---- the calls, and what has to come before each so that it does its work */

static void vf_read(void) { is_wrong |= vfdev_vf_read(&device, 0, VFDEV_RDH(0)).kind != VFDEV_VALUE; }
static void vf_write(void) { vf(0, VFDEV_RDT(0), given[0]); }
static void pf_read(void) { is_wrong |= vfdev_pf_read(&device, VFDEV_PFVFRE(0)).kind != VFDEV_VALUE; }

/* A driver gives buffers, whose descriptors the frames of before have written over. */
static void give(uint8_t function, uint32_t count)
{
    for (uint32_t slot = given[function]; slot < given[function] + count; slot++)
        put(function, RECEIVE_RING, slot % SLOTS, BUFFERS + apart * (slot % SLOTS), 0);
    given[function] = (given[function] + count) % SLOTS;
    vf(function, VFDEV_RDT(0), given[function]);
}

static void buffers(void) { give(0, BURST); }

static void one_buffer_each(void)
{
    for (uint8_t function = 0; function < GUESTS; function++)
        give(function, 1);
}

static void wire(size_t size)
{
    frame[5] = 1;
    is_wrong |= vfdev_wire(&device, frame, size, messages, sizeof messages).kind != VFDEV_DONE;
}

static void wire_each(size_t size)
{
    for (size_t i = 0; i < BURST; i++)
        wire(size);
}

static void wire_each_short(void) { wire_each(SHORT); }
static void wire_each_long(void) { wire_each(LONG); }

static void wire_all(void)
{
    static const uint8_t all[LONG] = {255, 255, 255, 255, 255, 255, 2, 0, 0, 0, 0, 9, 8, 0};
    is_wrong |= vfdev_wire(&device, all, SHORT, messages, sizeof messages).kind != VFDEV_DONE;
}

static void wire_burst(size_t size, const size_t *ends)
{
    is_wrong |= vfdev_wire_burst(&device, frames, BURST * size, ends, BURST, messages).taken != BURST;
}

static void wire_burst_short(void) { wire_burst(SHORT, short_ends); }
static void wire_burst_long(void) { wire_burst(LONG, long_ends); }

/* Guest 1 has frames to send that stand at an address of it. */
static void hand_over(uint64_t at, uint32_t count)
{
    const uint64_t data = UINT64_C(0x29300000), size = SHORT;
    for (uint32_t slot = sent; slot < sent + count; slot++)
        put(1, SEND_RING, slot % SLOTS, at, data | size | size << 46);
    sent = (sent + count) % SLOTS;
    vf(1, VFDEV_TDT(0), sent);
}

static void to_a_guest(void)
{
    give(0, BURST);
    hand_over(TO_GUEST, BURST);
}

static void to_the_wire(void) { hand_over(TO_WIRE, BURST); }

static void serve_each(void)
{
    for (size_t i = 0; i < BURST; i++) {
        size_t left;
        is_wrong |= vfdev_serve(&device, 1, 0, out, sizeof out, &left, messages, sizeof messages).kind != VFDEV_SENT;
    }
}

static void serve_burst(void)
{
    vfdev_burst_result burst = vfdev_serve_burst(&device, 1, 0, BURST, messages);
    is_wrong |= burst.taken != BURST;
    for (uint32_t number = 0; number < burst.frames; number++)
        is_wrong |= vfdev_frame(&device, number, out, sizeof out) != SHORT;
}

static void come(uint8_t function)
{
    must(vfdev_attach(&device, function));
    must(vfdev_map(&device, function, 0, (vfdev_block){memory[function], MEMORY}, false));
}

static void exchange(void)
{
    must(vfdev_detach(&device, 63));
    come(63);
}

/* By how many a call is divided, and how many frames guest 0 gets by it. */
static const struct {
    struct workload does;
    uint32_t parts, got;
} ROWS[] = {
    {{"register read of a function", nothing, vf_read}, 1, 0},
    {{"register write of a function", nothing, vf_write}, 1, 0},
    {{"register read of the physical function", nothing, pf_read}, 1, 0},
    {{"60 bytes from the wire to a guest, a call each", buffers, wire_each_short}, BURST, BURST},
    {{"60 bytes from the wire to a guest, of 64 in one call", buffers, wire_burst_short}, BURST, BURST},
    {{"1518 bytes from the wire to a guest, a call each", buffers, wire_each_long}, BURST, BURST},
    {{"1518 bytes from the wire to a guest, of 64 in one call", buffers, wire_burst_long}, BURST, BURST},
    {{"60 bytes from the wire to 64 guests", one_buffer_each, wire_all}, 1, 1},
    {{"60 bytes from guest to guest, a call each", to_a_guest, serve_each}, BURST, BURST},
    {{"60 bytes from guest to guest, of 64 in one call", to_a_guest, serve_burst}, BURST, BURST},
    {{"60 bytes to the wire, of 64 in one call", to_the_wire, serve_burst}, BURST, 0},
    {{"a guest goes, and another comes", nothing, exchange}, 1, 0},
};

/* The driver of a function: rings for both ways. */
static void start_driver(uint8_t function)
{
    const uint32_t words[][2] = {
        {VFDEV_RDBAL(0), RECEIVE_RING}, {VFDEV_RDLEN(0), 16 * SLOTS},
        {VFDEV_SRRCTL(0), VFDEV_SRRCTL_DESCTYPE(1) | VFDEV_SRRCTL_BSIZEPACKET(2)}, {VFDEV_RXDCTL(0), VFDEV_RXDCTL_ENABLE},
        {VFDEV_TDBAL(0), SEND_RING}, {VFDEV_TDLEN(0), 16 * SLOTS}, {VFDEV_TXDCTL(0), VFDEV_TXDCTL_ENABLE}
    };
    for (size_t i = 0; i < sizeof words / sizeof *words; i++)
        vf(function, words[i][0], words[i][1]);
}

static void set_up(void)
{
    must(vfdev_make_guests(&device, GUESTS, LONG, 0));
    pf(VFDEV_PFDTXGSWC, VFDEV_PFDTXGSWC_LBE);
    for (uint32_t half = 0; half < 2; half++) {
        pf(VFDEV_PFVFRE(half), UINT32_MAX);
        pf(VFDEV_PFVFTE(half), UINT32_MAX);
    }
    for (uint8_t function = 0; function < GUESTS; function++) {
        come(function);
        pf(VFDEV_VMOLR(function), VFDEV_VMOLR_BAM | VFDEV_VMOLR_AUPE);
        start_driver(function);
    }
    pf(VFDEV_RAL(0), 2);
    pf(VFDEV_RAH(0), VFDEV_RAH_AV | 1u << 8);
    pf(VFDEV_MPSAR(0), 1);
    memcpy(frame, (const uint8_t[14]){2, 0, 0, 0, 0, 1, 2, 0, 0, 0, 0, 9, 8, 0}, 14);
    memcpy(memory[1] + TO_GUEST, (const uint8_t[14]){2, 0, 0, 0, 0, 1, 2, 0, 0, 0, 0, 2, 8, 0}, 14);
    memcpy(memory[1] + TO_WIRE, (const uint8_t[14]){2, 0, 0, 0, 0, 7, 2, 0, 0, 0, 0, 2, 8, 0}, 14);
    for (size_t i = 0; i < BURST; i++) {
        short_ends[i] = SHORT * (i + 1);
        long_ends[i] = LONG * (i + 1);
    }
}

/* The frames of a burst, of one size. */
static void lay_frames(size_t size)
{
    for (size_t i = 0; i < BURST; i++)
        memcpy(frames + size * i, frame, 14);
}

int main(int words, char **word)
{
    if (words > 1 && !strcmp(word[1], "near"))
        apart = 0;
    set_up();
    printf("| Call, or a frame | ns |\n|---|---|\n");
    for (size_t i = 0; i < sizeof ROWS / sizeof *ROWS; i++) {
        const struct workload *does = &ROWS[i].does;
        lay_frames(does->call == wire_burst_long ? LONG : SHORT);
        double took = shortest_of(ROUNDS, does->before, does->call) - shortest_of(ROUNDS, does->before, nothing);
        due += ROUNDS * CALLS * ROWS[i].got;
        printf("| %s | %.0f |\n", does->name, took / ROWS[i].parts);
    }
    /* each frame came */
    is_wrong |= vfdev_vf_read(&device, 0, VFDEV_VFGPRC).value != due;
    vfdev_free(&device);
    return is_wrong;
}
