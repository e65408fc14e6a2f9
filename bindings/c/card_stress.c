/* Guests that write their memories while a card reads them, and whose memories come and go: card_stress events N, or card_stress seconds N.
 *
 * Four functions have guests. The memory of each is three regions, each between two pages that nobody may touch: LOW, where its rings are and
 * its frames, which is always mapped; HIGH, for receive buffers, which is mapped and unmapped all the time; and FIXED, which is read-only.
 * Three threads write to LOW of functions 0 to 2 all the time: sources of frames are forged, descriptors written whole or in part, and some
 * of them lead into each region, over its end, or into no memory at all. Meanwhile the clients write tails and turn queues on, the card
 * takes descriptors, frames come from the wire, regions are mapped and unmapped, functions are reset, and guests go and come.
 *
 * After each call it looks at what no guest may change by that, whatever it writes, and whenever:
 *   - a frame that leaves has 14 to 1518 bytes, the address of its function as its source, and, of function 1, the tag of its port;
 *   - the room behind a frame is as it was;
 *   - vectors are signalled of functions that have guests, and only those that have files;
 *   - no byte of a read-only region has changed, of a region that is unmapped, or of function 3's, whose driver does nothing.
 * At the end it prints how often what came up, on one line, and wants a least number of each. It ends with 0 where all is well. */
#define _GNU_SOURCE
#include "client.h"
#include "stress.h"
#include "vfdev_regs.h"

enum {
    BUSY = 3,      /* functions whose guests do something */
    FUNCTIONS = 4, /* functions that there are */
    SLOTS = 8,     /* descriptors of a ring */
    SENDS = 0x000, /* of LOW: the ring of transmit descriptors */
    RECEIVES = 0x80, /* of LOW: the ring of receive descriptors */
    PORT_TAG = 7
};

/* The regions, and which they are. */
enum { LOW, HIGH, FIXED, REGIONS };
static const struct {
    uint64_t at;
    size_t size;
} regions[REGIONS] = {{0x10000, 0x4000}, {UINT64_C(0x100000000), 0x2000}, {0x200000, 0x1000}};

/* Where frames stand in LOW that are sent. */
static const uint32_t frames[] = {0x100, 0x180, 0x200, 0x800};

static vfdev_card card = VFDEV_CARD_NONE;
static uint8_t *memory[FUNCTIONS][REGIONS];
static bool is_mapped[FUNCTIONS];
static uint8_t out[VFDEV_MOST_FRAME + 64];

/* What came up. */
static uint64_t left_count, signal_count, wire_count, map_count, guest_count, reset_count;

/* ---- the guests' processors ---------------------------------------------------------------------------------------- */

static void forge(uint64_t *chance, unsigned guest)
{
    uint8_t *frame = memory[guest][LOW] + frames[below(chance, COUNT(frames))];
    store(frame + 11, below(chance, 2) ? guest : below(chance, FUNCTIONS));
}

/* Where a frame is, or a buffer: mostly in a region, and else over its end, or where no memory is. */
static uint64_t place(uint64_t *chance, bool is_buffer)
{
    unsigned region = below(chance, REGIONS), which = below(chance, 16);
    if (which == 0)
        return regions[region].at + regions[region].size - 1 - below(chance, 100);
    if (which == 1)
        return below(chance, 2) ? UINT64_C(1) << 45 : UINT64_MAX - 15;
    if (!is_buffer)
        return regions[LOW].at + frames[below(chance, COUNT(frames))];
    return region == LOW ? regions[LOW].at + 0x1000 + 0x400 * below(chance, 8) : regions[region].at + 0x400 * below(chance, 4);
}

static void describe(uint64_t *chance, unsigned guest)
{
    static const uint64_t whole = VFDEV_TXD_DEXT | VFDEV_TXD_DTYP(3) | VFDEV_TXD_EOP | VFDEV_TXD_RS;
    static const uint64_t lengths[] = {60, 60, 64, 100, 18, 14, 13, 0, 500, 1514, 1518, 1600};
    uint8_t *send = memory[guest][LOW] + SENDS + 16 * below(chance, SLOTS);
    uint8_t *receive = memory[guest][LOW] + RECEIVES + 16 * below(chance, SLOTS);
    unsigned which = below(chance, 8);
    if (which < 4)
        store_word(send, place(chance, false));
    if (which > 2 && which < 6)
        store_word(send + 8, (below(chance, 8) ? whole : whole & ~(uint64_t)VFDEV_TXD_EOP) | VFDEV_TXD_LENGTH(lengths[below(chance, COUNT(lengths))]));
    if (which >= 6)
        store_word(receive, place(chance, true));
}

/* Writes the destination of a frame, its source and type, or any byte behind. */
static void scribble(uint64_t *chance, unsigned guest)
{
    static const uint8_t last[] = {0, 1, 2, 3, 0x77, 0x77};
    uint8_t *frame = memory[guest][LOW] + frames[below(chance, COUNT(frames))];
    unsigned which = below(chance, 64), whom = below(chance, COUNT(last) + 1);
    const uint8_t head[14] = {2, 0x82, 0x59, 0, 0, 0, 2, 0x82, 0x59, 0, 0, (uint8_t)guest, 8, 0};
    if (which < 30)
        for (unsigned i = 0; i < 6; i++)
            store(frame + i, whom == COUNT(last) ? 255 : i == 5 ? last[whom] : head[i]);
    else if (which < 50)
        for (unsigned i = 6; i < 14; i++)
            store(frame + i, i == 12 && below(chance, 8) == 0 ? 0x81 : head[i]);
    else
        store(frame + 14 + below(chance, 50), next(chance));
}

/* ---- the host ------------------------------------------------------------------------------------------------------ */

static void map(unsigned guest, unsigned region)
{
    vfdev_block block = {memory[guest][region], regions[region].size};
    WANT(vfdev_card_map(&card, (uint8_t)guest, regions[region].at, block, region == FIXED) == VFDEV_OK);
    WANT(vfdev_card_map(&card, (uint8_t)guest, regions[region].at + 1, block, region == FIXED) == VFDEV_OVERLAPS);
    map_count++;
}

/* HIGH is mapped, or unmapped. What stood there while it was not mapped stands there still. */
static void map_or_unmap(unsigned guest)
{
    if (is_mapped[guest]) {
        WANT(vfdev_card_unmap(&card, (uint8_t)guest, regions[HIGH].at) == VFDEV_OK);
        WANT(vfdev_card_unmap(&card, (uint8_t)guest, regions[HIGH].at) == VFDEV_CARD_NOT_THERE);
        memset(memory[guest][HIGH], PATTERN, regions[HIGH].size);
    } else {
        map(guest, HIGH);
    }
    is_mapped[guest] = !is_mapped[guest];
}

static void start_driver(unsigned guest)
{
    static const uint32_t writes[][2] = {
        {0x200, 1}, {0x2FC, 4}, {0x2FC, 1}, {VFDEV_VTIVAR, VFDEV_VTIVAR_RX0(0x80) | VFDEV_VTIVAR_TX0(0x81)}, {VFDEV_VTEIAC, 7}, {VFDEV_VTEIMS, 7},
        {VFDEV_RDBAL(0), 0x10000 + RECEIVES}, {VFDEV_RDLEN(0), 16 * SLOTS},
        {VFDEV_SRRCTL(0), VFDEV_SRRCTL_DESCTYPE(1) | VFDEV_SRRCTL_BSIZEPACKET(1)}, {VFDEV_RXDCTL(0), VFDEV_RXDCTL_ENABLE},
        {VFDEV_TDBAL(0), 0x10000 + SENDS}, {VFDEV_TDLEN(0), 16 * SLOTS}, {VFDEV_TXDCTL(0), VFDEV_TXDCTL_ENABLE}};
    for (size_t at = 0; at < COUNT(writes); at++)
        write_register(&card, (uint8_t)guest, writes[at][0], writes[at][1]);
}

/* A guest comes, with LOW and FIXED; vectors 0 and 1 have files. Function 3's does no more than that. */
static void come(unsigned guest)
{
    const uint8_t arm[36] = {7, 0, 8, 0, 36, [16] = 20, [20] = 0x24, [24] = 2, [32] = 2};
    WANT(vfdev_card_attach(&card, (uint8_t)guest) == VFDEV_OK);
    WANT(vfdev_card_attach(&card, (uint8_t)guest) == VFDEV_ALREADY_OPEN);
    map(guest, LOW);
    map(guest, FIXED);
    WANT(say(&card, (uint8_t)guest, version, 0).kind == VFDEV_STEP_ANSWERED);
    WANT(say(&card, (uint8_t)guest, arm, 2).kind == VFDEV_STEP_ARM);
    if (guest < BUSY)
        start_driver(guest);
    guest_count++;
}

/* It goes, and the next one comes to the same memory. */
static void replace(unsigned guest)
{
    WANT(vfdev_card_detach(&card, (uint8_t)guest) == VFDEV_OK);
    WANT(vfdev_card_detach(&card, (uint8_t)guest) == VFDEV_NOT_OPEN);
    WANT(vfdev_card_signal(&card, (uint8_t)guest) == 0 && !vfdev_card_is_busy(&card, (uint8_t)guest));
    is_mapped[guest] = false;
    memset(memory[guest][HIGH], PATTERN, regions[HIGH].size);
    come(guest);
}

static void set_up(void)
{
    static const uint16_t ids[] = {0, PORT_TAG};
    EQUAL(vfdev_card_make(&card, FUNCTIONS, ids, 2, VFDEV_CARD_NOBODY, 1518, 0), VFDEV_OK);
    memset(out, PATTERN, sizeof out);
    for (unsigned guest = 0; guest < FUNCTIONS; guest++) {
        vfdev_card_policy granted = policy((uint8_t)guest);
        granted.has_port = granted.port = guest == 1;
        EQUAL(vfdev_card_admit(&card, (uint8_t)guest, &granted).refusal, VFDEV_ADMITTED);
        for (unsigned region = 0; region < REGIONS; region++) {
            memory[guest][region] = guarded(regions[region].size);
            memset(memory[guest][region], PATTERN, regions[region].size);
        }
        come(guest);
    }
}

/* What nobody may have written is as it was. */
static void look(void)
{
    calls++;
    for (unsigned guest = 0; guest < FUNCTIONS; guest++) {
        WANT(is_pattern(memory[guest][FIXED], regions[FIXED].size));
        WANT(is_mapped[guest] || is_pattern(memory[guest][HIGH], regions[HIGH].size));
    }
    WANT(is_pattern(memory[3][LOW], regions[LOW].size));
}

static void look_at_frame(unsigned guest, size_t len)
{
    const uint8_t source[6] = {2, 0x82, 0x59, 0, 0, (uint8_t)guest};
    WANT(len >= 14 && len <= 1518);
    WANT(memcmp(out + 6, source, 6) == 0);
    WANT(guest != 1 || (out[12] == 0x81 && out[13] == 0 && (out[14] & 15) == 0 && out[15] == PORT_TAG));
    WANT(is_pattern(out + len, sizeof out - len));
    memset(out, PATTERN, len);
    left_count++;
}

static void serve(unsigned guest)
{
    vfdev_card_more_result more = vfdev_card_more(&card, (uint8_t)guest);
    for (uint32_t number = 0; number < more.frames; number++)
        look_at_frame(guest, vfdev_card_frame(&card, number, out, VFDEV_MOST_FRAME));
    WANT(vfdev_card_frame(&card, (uint32_t)more.frames, out, VFDEV_MOST_FRAME) == 0);
}

static void hand_out(void)
{
    uint64_t raised = vfdev_card_raised(&card);
    WANT(raised >> FUNCTIONS == 0);
    for (unsigned guest = 0; guest < FUNCTIONS; guest++) {
        uint32_t vectors = vfdev_card_signal(&card, (uint8_t)guest);
        WANT(vectors < 4 && (guest < BUSY || vectors == 0));
        signal_count += vectors != 0;
    }
    WANT(vfdev_card_raised(&card) == 0);
}

/* A frame of the wire to one of the first functions, or to an address that nobody has; function 3 would have no buffer for it. */
static void wire(uint64_t *chance)
{
    static uint8_t bytes[1518] = {2, 0x82, 0x59, 0, 0, 0, 2, 0, 0, 0, 0, 0x99, 8};
    bytes[5] = (uint8_t)below(chance, FUNCTIONS + 1);
    WANT(vfdev_card_wire(&card, bytes, 60 + below(chance, below(chance, 4) ? 40 : 1459)).kind == VFDEV_DONE);
    wire_count++;
}

static void event(uint64_t *chance)
{
    unsigned guest = below(chance, BUSY), which = below(chance, 1024);
    if (which < 400)
        serve(guest);
    else if (which < 540)
        wire(chance);
    else if (which < 680)
        write_register(&card, (uint8_t)guest, VFDEV_TDT(0), below(chance, SLOTS + 1));
    else if (which < 780)
        write_register(&card, (uint8_t)guest, VFDEV_RDT(0), below(chance, SLOTS + 1));
    else if (which < 840)
        write_register(&card, (uint8_t)guest, VFDEV_TXDCTL(0), VFDEV_TXDCTL_ENABLE);
    else if (which < 880)
        write_register(&card, (uint8_t)guest, VFDEV_RXDCTL(0), VFDEV_RXDCTL_ENABLE);
    else if (which < 960)
        hand_out();
    else if (which < 1000)
        map_or_unmap(guest);
    else if (which < 1012)
        start_driver(guest);
    else if (which < 1018)
        reset_count += vfdev_card_flr(&card, (uint8_t)guest) == VFDEV_OK;
    else
        replace(guest);
    look();
}

/* ---- the run ------------------------------------------------------------------------------------------------------- */

static void report(double began, const struct writer *writers, size_t count)
{
    uint64_t least = calls / 1000;
    printf("%" PRIu64 " calls in %.1f s: %" PRIu64 " frames left, %" PRIu64 " from the wire, %" PRIu64 " with interrupts, %" PRIu64
           " regions mapped, %" PRIu64 " guests came, %" PRIu64 " resets;",
           calls, seconds() - began, left_count, wire_count, signal_count, map_count, guest_count, reset_count);
    for (size_t at = 0; at < count; at++)
        printf(" %" PRIu64, writers[at].writes);
    printf(" writes\n");
    WANT(calls >= 10000);
    WANT(left_count >= least && wire_count >= least && signal_count >= least && map_count >= least);
    WANT(guest_count >= least && reset_count >= least);
    for (size_t at = 0; at < count; at++)
        WANT(writers[at].writes >= calls / 10);
}

int main(int count, char **words)
{
    bool by_events = count == 3 && strcmp(words[1], "events") == 0;
    if (!by_events && !(count == 3 && strcmp(words[1], "seconds") == 0)) {
        fprintf(stderr, "usage: card_stress events N, or card_stress seconds N\n");
        return 2;
    }
    uint64_t most = strtoull(words[2], NULL, 10), chance = 88172645463325252u;
    struct writer writers[] = {{.guests = BUSY, .write = forge, .chance = 1},
                               {.guests = BUSY, .write = describe, .chance = 2},
                               {.guests = BUSY, .write = scribble, .chance = 3}};
    set_up();
    for (size_t at = 0; at < COUNT(writers); at++)
        WANT(pthread_create(&writers[at].thread, NULL, write_on, &writers[at]) == 0);
    double began = seconds();
    for (uint64_t round = 0; by_events ? calls < most : round % 1024 || seconds() - began < (double)most; round++)
        event(&chance);
    atomic_store(&is_over, true);
    for (size_t at = 0; at < COUNT(writers); at++)
        WANT(pthread_join(writers[at].thread, NULL) == 0);
    report(began, writers, COUNT(writers));
    vfdev_card_free(&card);
    return 0;
}
