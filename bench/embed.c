/* Prints the table of docs/PERFORMANCE.md on what a call costs through the C interface: the shortest of many rounds of 2,000
 * calls, and how much of a fresh stack a call writes.
 *
 *   bindings/test && cc -O2 -Iinclude bench/embed.c bindings/native/libvfdev_c.a bindings/native/liblibc_c.a -o embed
 *   LD_BIND_NOW=1 ./embed
 *
 * The word `own` lets the device be over memories of the archive's own, and `kept` lets its calls be kept besides. */
#include "measure.h"
#include "vfdev.h"
#include "vfdev_regs.h"
#include <stdio.h>
#include <stdlib.h>
#include <string.h>

enum { ROUNDS = 2000, MEMORY = 65536, FRAME = 60 };
/* So many rounds of two calls fit into a history of the most calls, beside those of the setup; so many histories are filled. */
enum { KEPT_ROUNDS = 16, HISTORIES = 40 };

static enum { LENT, OWN, KEPT } how;

static uint8_t memory[2][MEMORY];
static uint8_t messages[VFDEV_POOLS], out[VFDEV_MOST_FRAME], bytes[16], frame[FRAME];
static vfdev device = VFDEV_NONE;
static size_t left;
static uint32_t turn;
static vfdev_reply last;

static void vf(uint8_t function, uint32_t offset, uint32_t value)
{
    vfdev_vf_write(&device, function, offset, value, messages, sizeof messages);
}

/* ---- the calls, and what has to come before each so that it does its work */

static void vf_read(void) { last = vfdev_vf_read(&device, 0, 8); }
static void vf_write(void) { vf(0, VFDEV_VTEIMS, 1); }
static void pf_read(void) { last = vfdev_pf_read(&device, VFDEV_PFVFRE(0)); }
static void mem_write(void) { last = vfdev_mem_write(&device, 1, 0x3000, bytes, sizeof bytes); }
static void mem_read(void) { last = vfdev_mem_read(&device, 1, 0x3000, bytes, sizeof bytes); }
static void more_buffers(void) { vf(0, VFDEV_RDT(0), ++turn & 7); }
static void wire(void) { vfdev_wire(&device, frame, FRAME, messages, sizeof messages); }
static void more_frames(void) { vf(1, VFDEV_TDT(0), ++turn & 7); }
static void serve(void) { last = vfdev_serve(&device, 1, 0, out, sizeof out, &left, messages, sizeof messages); }

static const struct workload WORKLOADS[] = {
    {"register read of a function", nothing, vf_read},
    {"register write of a function", nothing, vf_write},
    {"register read of the physical function", nothing, pf_read},
    {"16 bytes of a guest's memory, written", nothing, mem_write},
    {"16 bytes of a guest's memory, read", nothing, mem_read},
    {"frame of 60 bytes from the wire to a guest", more_buffers, wire},
    {"service that sends 60 bytes to the wire", more_frames, serve},
};

static void set_up(void);

static double shortest(void (*first)(void), void (*second)(void))
{
    if (how != KEPT)
        return shortest_of(ROUNDS, first, second);
    double best = 1e9;
    for (int history = 0; history < HISTORIES; history++) {
        vfdev_free(&device);
        set_up();
        double took = shortest_of(KEPT_ROUNDS, first, second);
        if (took < best)
            best = took;
    }
    return best;
}

static void must(enum vfdev_fault answer)
{
    if (answer != VFDEV_OK)
        exit(1);
}

static void done(vfdev_reply reply)
{
    if (reply.kind != VFDEV_DONE)
        exit(1);
}

static void set_up(void)
{
    static const uint32_t PF[][2] = {
        {VFDEV_PFVFRE(0), 3}, {VFDEV_PFVFTE(0), 3}, {VFDEV_RAL(0), 2}, {VFDEV_RAH(0), VFDEV_RAH_AV}, {VFDEV_MPSAR(0), 1}
    };
    static const uint32_t RECEIVE[][2] = {
        {VFDEV_RDBAL(0), 0x1000}, {VFDEV_RDLEN(0), 128},
        {VFDEV_SRRCTL(0), VFDEV_SRRCTL_DESCTYPE(1) | VFDEV_SRRCTL_BSIZEPACKET(2)}, {VFDEV_RXDCTL(0), VFDEV_RXDCTL_ENABLE}
    };
    static const uint32_t SEND[][2] = {
        {VFDEV_TDBAL(0), 0x2000}, {VFDEV_TDLEN(0), 128}, {VFDEV_TXDCTL(0), VFDEV_TXDCTL_ENABLE}
    };
    static const uint8_t ADDRESSES[14] = {2, 0, 0, 0, 0, 0, 2, 0, 0, 0, 0, 9, 8, 0};
    if (how == KEPT) {
        must(vfdev_make_recorded(&device, 2, MEMORY, 1518, VFDEV_MOST_CALLS));
    } else if (how == OWN) {
        must(vfdev_make(&device, 2, MEMORY, 1518));
    } else {
        must(vfdev_lend(&device, (vfdev_block){memory[0], MEMORY}));
        must(vfdev_lend(&device, (vfdev_block){memory[1], MEMORY}));
        must(vfdev_make_lent(&device, 1518));
    }
    done(vfdev_open(&device, 0));
    done(vfdev_open(&device, 1));
    for (size_t i = 0; i < 5; i++)
        done(vfdev_pf_write(&device, PF[i][0], PF[i][1]));
    for (size_t i = 0; i < 8; i++) {
        const uint8_t buffer[16] = {0, 0x40}, sent[16] = {0, 0x60, 0, 0, 0, 0, 0, 0, 0x3c, 0, 0x30, 0x29};
        done(vfdev_mem_write(&device, 0, 0x1000 + 16 * i, buffer, 16));
        done(vfdev_mem_write(&device, 1, 0x2000 + 16 * i, sent, 16));
    }
    memcpy(frame, ADDRESSES, sizeof ADDRESSES);
    done(vfdev_mem_write(&device, 1, 0x6000, (const uint8_t[]){2, 0, 0, 0, 0, 0x77, 2, 0, 0, 0, 0, 1, 8, 0}, 14));
    for (size_t i = 0; i < 4; i++)
        vf(0, RECEIVE[i][0], RECEIVE[i][1]);
    for (size_t i = 0; i < 3; i++)
        vf(1, SEND[i][0], SEND[i][1]);
}

int main(int argc, char **argv)
{
    if (argc > 1)
        how = strcmp(argv[1], "kept") == 0 ? KEPT : OWN;
    set_up();
    printf("| Call | ns | Stack at first, bytes | Later |\n|---|---|---|---|\n");
    size_t blank = stack_of(nothing);
    for (size_t i = 0; i < sizeof WORKLOADS / sizeof *WORKLOADS; i++) {
        const struct workload *w = &WORKLOADS[i];
        w->before();
        size_t at_first = stack_of(w->call) - blank;
        double took = shortest(w->before, w->call) - shortest(w->before, nothing);
        w->before();
        printf("| %s | %.0f | %zu | %zu |\n", w->name, took, at_first, stack_of(w->call) - blank);
    }
    vfdev_free(&device);
    return 0;
}
