/* Prints the table of docs/PERFORMANCE.md on what a call of a card costs through the C interface: the shortest of many rounds of 2,000 calls,
 * and how much of a fresh stack a call writes.
 *
 *   bindings/test && cc -O2 -Iinclude bench/card.c bindings/native/libvfdev_c.a bindings/native/liblibc_c.a -o card
 *   LD_BIND_NOW=1 ./card
 */
#include "measure.h"
#include "vfdev_card.h"
#include "vfdev_regs.h"
#include <stdio.h>
#include <stdlib.h>

enum { FUNCTIONS = 64, ROUNDS = 200, MEMORY = 65536, FRAME = 60, SLOTS = 128, BURST = 64 };

static uint8_t memory[FUNCTIONS][MEMORY];
static uint8_t room[VFDEV_CARD_ROOM], frame[FRAME], to_all[FRAME];
static vfdev_card card = VFDEV_CARD_NONE;
static uint32_t sent, given[FUNCTIONS];

/* A message of a function's client, which is answered. */
static void say(uint8_t function, const uint8_t *message, size_t size, size_t files)
{
    vfdev_card_step step;
    vfdev_card_receive(&card, function, message, size, files, room, &step);
    if (step.kind == VFDEV_STEP_ENDS)
        exit(1);
}

static void read_register(uint8_t function, uint32_t offset)
{
    uint8_t message[32] = {7, 0, 9, 0, 32, [28] = 4};
    memcpy(message + 16, &offset, 4);
    say(function, message, sizeof message, 0);
}

static void write_register(uint8_t function, uint32_t offset, uint32_t value)
{
    uint8_t message[36] = {7, 0, 10, 0, 36, [8] = 0x10, [28] = 4};
    memcpy(message + 16, &offset, 4);
    memcpy(message + 32, &value, 4);
    say(function, message, sizeof message, 0);
}

/* ---- the calls, and what has to come before each so that it does its work */

static void read_one(void) { read_register(0, VFDEV_VFLINKS); }
static void write_one(void) { write_register(0, VFDEV_VTEIMS, 1); }

/* The driver asks its host for the version of the mailbox that both speak. */
static void ask(void)
{
    write_register(0, 0x2FC, 2);
    write_register(0, 0x200, 8);
    write_register(0, 0x204, 1);
    write_register(0, 0x2FC, 1);
}

static void give(uint8_t function)
{
    given[function] = (given[function] + BURST) % SLOTS;
    write_register(function, VFDEV_RDT(0), given[function]);
}

/* Function 0 sends to function 1, 64 frames in one call. */
static void more_frames(void)
{
    give(1);
    sent = (sent + BURST) % SLOTS;
    write_register(0, VFDEV_TDT(0), sent);
}
static void burst(void)
{
    vfdev_card_more_result more = vfdev_card_more(&card, 0);
    if (more.frames || more.goes_on)
        exit(1);
}

static void more_buffers(void)
{
    static uint32_t turn;
    write_register(1, VFDEV_RDT(0), given[1] = ++turn % SLOTS);
}
static void wire(void) { vfdev_card_wire(&card, frame, sizeof frame); }

static void buffers_for_all(void)
{
    static uint32_t turn;
    turn++;
    for (uint8_t function = 0; function < FUNCTIONS; function++)
        write_register(function, VFDEV_RDT(0), given[function] = turn % SLOTS);
}
static void broadcast(void) { vfdev_card_wire(&card, to_all, sizeof to_all); }

static void hand_out(void) { vfdev_card_signal(&card, 1); }

/* The last function's guest goes, and another comes to its memory. */
static void replace(void)
{
    if (vfdev_card_detach(&card, FUNCTIONS - 1) != VFDEV_OK || vfdev_card_attach(&card, FUNCTIONS - 1) != VFDEV_OK)
        exit(1);
}

static const struct workload WORKLOADS[] = {
    {"message that reads a register", nothing, read_one},
    {"message that writes a register", nothing, write_one},
    {"four messages by which a driver asks its host", nothing, ask},
    {"64 frames of 60 bytes from guest to guest, in one call", more_frames, burst},
    {"frame of 60 bytes from the wire to a guest", more_buffers, wire},
    {"frame of 60 bytes from the wire to 64 guests", buffers_for_all, broadcast},
    {"vectors of a function, where none was raised", nothing, hand_out},
    {"a guest goes, and another comes", nothing, replace},
};

static void come(uint8_t function)
{
    const vfdev_card_policy policy = {.address = {2, 0, 0, 0, 0, function}, .link_up = 1, .joins = 1};
    const uint8_t version[20] = {0, 0, 1, 0, 20};
    if (vfdev_card_admit(&card, function, &policy).refusal || vfdev_card_attach(&card, function) != VFDEV_OK ||
        vfdev_card_map(&card, function, 0, (vfdev_block){memory[function], MEMORY}, false) != VFDEV_OK)
        exit(1);
    say(function, version, sizeof version, 0);
}

/* The driver's mailbox and rings; each transmit descriptor sends the frame at 0x2000 to function 1. */
static void start_driver(uint8_t function)
{
    static const uint32_t writes[][2] = {{0x200, 1}, {0x2FC, 4}, {0x2FC, 1}, {VFDEV_RDBAL(0), 0x1000}, {VFDEV_RDLEN(0), 16 * SLOTS},
                                         {VFDEV_SRRCTL(0), VFDEV_SRRCTL_DESCTYPE(1) | VFDEV_SRRCTL_BSIZEPACKET(2)},
                                         {VFDEV_RXDCTL(0), VFDEV_RXDCTL_ENABLE}, {VFDEV_TDBAL(0), 0x1800}, {VFDEV_TDLEN(0), 16 * SLOTS},
                                         {VFDEV_TXDCTL(0), VFDEV_TXDCTL_ENABLE}};
    const uint8_t buffer[16] = {0, 0x40}, descriptor[16] = {0, 0x28, [8] = FRAME, [10] = 0x30, 0x29};
    for (size_t slot = 0; slot < SLOTS; slot++) {
        memcpy(memory[function] + 0x1000 + 16 * slot, buffer, sizeof buffer);
        memcpy(memory[function] + 0x1800 + 16 * slot, descriptor, sizeof descriptor);
    }
    memcpy(memory[function] + 0x2800, (const uint8_t[14]){2, 0, 0, 0, 0, 1, 2, 0, 0, 0, 0, function, 8, 0}, 14);
    for (size_t at = 0; at < sizeof writes / sizeof *writes; at++)
        write_register(function, writes[at][0], writes[at][1]);
}

int main(void)
{
    static const uint16_t ids[] = {0};
    if (vfdev_card_make(&card, FUNCTIONS, ids, 1, VFDEV_CARD_NOBODY, 1518, 0) != VFDEV_OK)
        return 1;
    for (uint8_t function = 0; function < FUNCTIONS; function++) {
        come(function);
        start_driver(function);
    }
    memcpy(frame, (const uint8_t[14]){2, 0, 0, 0, 0, 1, 2, 0, 0, 0, 1, 0, 8, 0}, 14);
    memcpy(to_all, (const uint8_t[14]){255, 255, 255, 255, 255, 255, 2, 0, 0, 0, 1, 0, 8, 0}, 14);
    printf("| Call | ns | Stack at first, bytes | Later |\n|---|---|---|---|\n");
    size_t blank = stack_of(nothing);
    for (size_t i = 0; i < sizeof WORKLOADS / sizeof *WORKLOADS; i++) {
        const struct workload *w = &WORKLOADS[i];
        w->before();
        size_t at_first = stack_of(w->call) - blank;
        double took = shortest_of(ROUNDS, w->before, w->call) - shortest_of(ROUNDS, w->before, nothing);
        w->before();
        printf("| %s | %.0f | %zu | %zu |\n", w->name, took, at_first, stack_of(w->call) - blank);
    }
    vfdev_card_free(&card);
    return 0;
}
