/* Prints the table of docs/PERFORMANCE.md on what a card's work for a driver costs: frames from guest to guest as they stand, with a tag and a
 * sum, and cut from TCP data, all through the C interface, by the shortest of many rounds.
 *
 *   bindings/test && cc -O2 -Iinclude bench/offload.c bindings/native/libvfdev_c.a bindings/native/liblibc_c.a -o offload
 *   LD_BIND_NOW=1 ./offload
 */
#include "measure.h"
#include "vfdev_card.h"
#include "vfdev_regs.h"
#include <stdio.h>
#include <stdlib.h>

enum { ROUNDS = 20, SLOTS = 128, BURST = 64, HEADERS = 54, MSS = 1448, SEGMENTS = 45, FRAME = 0x20000, FRAMES = 0x40000, BUFFERS = 0x10000 };

static uint8_t memory[2][1 << 19], room[VFDEV_CARD_ROOM];
static vfdev_card card = VFDEV_CARD_NONE;
static uint32_t sent, given;

/* A message of a function's client, which is answered. */
static void say(uint8_t function, const uint8_t *message, size_t size)
{
    vfdev_card_step step;
    vfdev_card_receive(&card, function, message, size, 0, room, &step);
    if (step.kind == VFDEV_STEP_ENDS)
        exit(1);
}

static void write_register(uint8_t function, uint32_t offset, uint32_t value)
{
    uint8_t message[36] = {7, 0, 10, 0, 36, [8] = 0x10, [28] = 4};
    memcpy(message + 16, &offset, 4);
    memcpy(message + 32, &value, 4);
    say(function, message, sizeof message);
}

/* The words of a descriptor of function 0. */
static void put(uint32_t slot, uint64_t first, uint64_t second)
{
    memcpy(memory[0] + 0x1000 + 16 * slot, (const uint64_t[2]){first, second}, 16);
}

/* Function 1 is given buffers, and function 0 so many descriptors more. */
static void give(uint32_t buffers, uint32_t descriptors)
{
    given = (given + buffers) % SLOTS;
    write_register(1, VFDEV_RDT(0), given);
    sent = (sent + descriptors) % SLOTS;
    write_register(0, VFDEV_TDT(0), sent);
}

static void burst(void) { give(BURST, BURST); }
static void pairs(void) { give(BURST / 2, BURST); }
static void one_large(void) { give(SEGMENTS, 1); }

static void serve(void)
{
    vfdev_card_more_result more;
    do
        more = vfdev_card_more(&card, 0);
    while (more.goes_on);
    if (more.frames)
        exit(1);
}

/* ---- what the ring holds */

enum { DATA = 0x29300000, VLE = 1 << 30 };
static const uint64_t CONTEXT = 0x20200c00 | (uint64_t)20 << 40 | (uint64_t)MSS << 48, LENGTHS = 14 << 9 | 20, TXSM = 1ull << 41;

static void plain_60(void)
{
    for (uint32_t slot = 0; slot < SLOTS; slot++)
        put(slot, FRAME, DATA | 60);
}

static void summed(void)
{
    for (uint32_t slot = 0; slot < SLOTS; slot++)
        put(slot, FRAME, TXSM | VLE | DATA | 60);
}
static void summed_in_pairs(void)
{
    for (uint32_t slot = 0; slot < SLOTS; slot += 2) {
        put(slot, LENGTHS, CONTEXT);
        put(slot + 1, FRAME, TXSM | VLE | DATA | 60);
    }
}
static void cut(void)
{
    for (uint32_t slot = 0; slot < SLOTS; slot++)
        put(slot, FRAME, 1ull << 31 | DATA | (HEADERS + SEGMENTS * MSS));
}

/* The bytes that `cut` sends, in frames that lie behind one another as a driver would have made them. */
static void give_large(uint64_t asks)
{
    for (uint32_t i = 0; i < SEGMENTS; i++)
        put((sent + i) % SLOTS, FRAMES + (HEADERS + MSS) * i, asks | DATA | (HEADERS + MSS));
    give(SEGMENTS, SEGMENTS);
}
static void plain_large(void) { give_large(0); }
static void summed_large(void) { give_large(TXSM); }

static const struct row {
    const char *name;
    void (*fill)(void), (*before)(void);
    int frames;
} ROWS[] = {
    {"60 bytes, as they stand", plain_60, burst, BURST},
    {"60 bytes, a context before each, with tag and sum", summed_in_pairs, pairs, BURST / 2},
    {"60 bytes with tag and sum, under one context", summed, burst, BURST},
    {"1,502 bytes, as they stand", nothing, plain_large, SEGMENTS},
    {"1,502 bytes with their sum", nothing, summed_large, SEGMENTS},
    {"1,502 bytes, cut from 65,214", cut, one_large, SEGMENTS},
};

static void start_driver(uint8_t function)
{
    static const uint32_t writes[][2] = {{0x200, 1}, {0x2FC, 4}, {0x2FC, 1}, {VFDEV_RDBAL(0), 0x1800}, {VFDEV_RDLEN(0), 16 * SLOTS},
                                         {VFDEV_SRRCTL(0), VFDEV_SRRCTL_DESCTYPE(1) | VFDEV_SRRCTL_BSIZEPACKET(2)},
                                         {VFDEV_RXDCTL(0), VFDEV_RXDCTL_ENABLE}, {VFDEV_TDBAL(0), 0x1000}, {VFDEV_TDLEN(0), 16 * SLOTS},
                                         {VFDEV_TXDCTL(0), VFDEV_TXDCTL_ENABLE}};
    const vfdev_card_policy policy = {.address = {2, 0, 0, 0, 0, function}, .link_up = 1, .joins = 1};
    const uint8_t version[20] = {0, 0, 1, 0, 20};
    if (vfdev_card_admit(&card, function, &policy).refusal || vfdev_card_attach(&card, function) != VFDEV_OK ||
        vfdev_card_map(&card, function, 0, (vfdev_block){memory[function], sizeof memory[function]}, false) != VFDEV_OK)
        exit(1);
    say(function, version, sizeof version);
    for (uint32_t slot = 0; slot < SLOTS; slot++)
        memcpy(memory[function] + 0x1800 + 16 * slot, (const uint64_t[2]){BUFFERS + 2048 * slot, 0}, 16);
    for (size_t at = 0; at < sizeof writes / sizeof *writes; at++)
        write_register(function, writes[at][0], writes[at][1]);
}

int main(void)
{
    static const uint16_t ids[] = {0};
    static const uint8_t headers[HEADERS] = {2, 0, 0, 0, 0, 1, 2, 0, 0, 0, 0, 0, 8, 0, 0x45, [22] = 64, 6, [26] = 10, 0, 0, 1, 10, 0, 0, 2,
                                             [46] = 0x50, 0x18};
    if (vfdev_card_make(&card, 2, ids, 1, VFDEV_CARD_NOBODY, 1518,
                        VFDEV_OFFLOAD_VLAN | VFDEV_OFFLOAD_CHECKSUM | VFDEV_OFFLOAD_SEGMENTATION) != VFDEV_OK)
        return 1;
    start_driver(0);
    start_driver(1);
    memcpy(memory[0] + FRAME, headers, HEADERS);
    for (uint32_t at = 0; at < SEGMENTS * MSS; at++)
        memory[0][FRAME + HEADERS + at] = (uint8_t)(at * 2654435761u >> 13);
    for (uint32_t i = 0; i < SEGMENTS; i++) {
        uint8_t *frame = memory[0] + FRAMES + (HEADERS + MSS) * i;
        memcpy(frame, headers, HEADERS);
        memcpy(frame + HEADERS, memory[0] + FRAME + HEADERS + MSS * i, MSS);
    }
    printf("| A frame of | ns |\n|---|---|\n");
    for (size_t i = 0; i < sizeof ROWS / sizeof *ROWS; i++) {
        const struct row *row = &ROWS[i];
        row->fill();
        double took = shortest_of(ROUNDS, row->before, serve);
        double besides = shortest_of(ROUNDS, row->before, nothing);
        serve();
        printf("| %s | %.0f |\n", row->name, (took - besides) / row->frames);
    }
    uint32_t came;
    memcpy(&came, memory[1] + 0x180c + 16 * ((given + SLOTS - 1) % SLOTS), 4);
    if (vfdev_card_shortfalls(&card, 0) || (came & 0xffff) < 60)
        return 1;
    vfdev_card_free(&card);
    return 0;
}
