/* Guests that write their memories while the device reads them, from C: stress events N, or stress seconds N.
 *
 * Four blocks are lent, each between two pages that nobody may touch, so that an access outside a block ends the program. Functions
 * 0 to 2 are opened, and function 3 stays closed. Three threads write to the blocks of the open ones all the time: one swaps the
 * sources of frames for another function's and back, one writes descriptors, whole or in part, and one writes anything. Meanwhile
 * the main thread serves the queues, lets frames come from the wire, moves tails, turns queues on, reads and writes the memories, and
 * closes and opens functions 0 and 1.
 *
 * After each call it looks at what no guest may change by that, whatever it writes, and whenever:
 *   - the kind of the reply is one that the call may have;
 *   - a frame that leaves has 14 to 1518 bytes, 18 at least where it is tagged, the source address of its function, and, of
 *     function 1, the tag of its port;
 *   - the room behind a frame, behind what is read and behind the messages is as it was;
 *   - messages are those of open functions, for vectors that there are;
 *   - the block of the closed function is as it was, and so is a part of function 2's that no buffer and no ring of it has. Nobody
 *     but the device could have written there.
 * At the end it prints how often what came up, on one line, and wants a least number of each. It ends with 0 where all is well. */
#define _GNU_SOURCE
#include "stress.h"
#include "vfdev.h"
#include "vfdev_regs.h"

enum {
    OPEN = 3,       /* functions that are opened */
    BLOCKS = 4,     /* functions that there are */
    MEMORY = 16384, /* bytes of a block */
    LIMIT = 1518,   /* the longest frame */
    SLOTS = 8,      /* descriptors of a ring */
    SENDS = 0x000,  /* the ring of transmit descriptors */
    RECEIVES = 0x80, /* the ring of receive descriptors */
    KEPT = 0x3000,  /* of function 2, what nobody writes from here to the end */
    PORT_TAG = 5
};

/* Where frames stand that are sent, and where the receive buffers of 1 KiB stand. */
static const uint32_t frames[] = {0x100, 0x180, 0x200, 0x800};
static const uint32_t buffers[] = {0x1000, 0x1400, 0x1800, 0x1C00};

static vfdev device = VFDEV_NONE;
static uint8_t *block[BLOCKS];
static bool is_open[BLOCKS];
static uint8_t messages[VFDEV_POOLS + 8];
static uint8_t out[VFDEV_MOST_FRAME + 64];

/* What came up: replies by their kinds, frames that left, calls with messages, and frames that the wire gave. */
static uint64_t kinds[VFDEV_HISTORY_FULL + 1];
static uint64_t left_count, messages_count, wire_count;

/* ---- the guests' processors ---------------------------------------------------------------------------------------- */

/* The last byte of a source: the function's own, or another's. */
static unsigned source_of(uint64_t *chance, unsigned guest)
{
    return below(chance, 2) ? guest : below(chance, BLOCKS);
}

/* Swaps the last byte of a frame's source. */
static void forge(uint64_t *chance, unsigned guest)
{
    uint8_t *frame = block[guest] + frames[below(chance, COUNT(frames))];
    store(frame + 11, source_of(chance, guest));
}

/* The address of what a descriptor sends: mostly a frame, and else what lies in the rings, at the end or past it. */
static uint64_t frame_address(uint64_t *chance)
{
    static const uint64_t others[] = {0, 8, 0x3C, 0x7C, 0x80, MEMORY - 60, MEMORY - 1, MEMORY, UINT64_MAX - 7};
    return below(chance, 8) ? frames[below(chance, COUNT(frames))] : others[below(chance, COUNT(others))];
}

/* The second word of a transmit descriptor. */
static uint64_t command(uint64_t *chance)
{
    static const uint64_t whole = VFDEV_TXD_DEXT | VFDEV_TXD_DTYP(3) | VFDEV_TXD_EOP | VFDEV_TXD_RS;
    static const uint64_t others[] = {
        VFDEV_TXD_DEXT | VFDEV_TXD_DTYP(3) | VFDEV_TXD_RS,
        VFDEV_TXD_DEXT | VFDEV_TXD_DTYP(2),
        VFDEV_TXD_DEXT | VFDEV_TXD_DTYP(1) | VFDEV_TXD_EOP,
        VFDEV_TXD_EOP | VFDEV_TXD_RS,
        VFDEV_TXD_EOP | VFDEV_TXD_VLE | VFDEV_TXD_VLAN(7),
        VFDEV_TXD_RS,
    };
    static const uint64_t lengths[] = {60, 64, 60, 100, 18, 14, 13, 0, 500, 1514, 1518, 1600};
    uint64_t bits = below(chance, 4) ? whole : others[below(chance, COUNT(others))];
    return bits | VFDEV_TXD_LENGTH(lengths[below(chance, below(chance, 4) ? 4 : COUNT(lengths))]);
}

/* Writes a descriptor, or one word of it. No guest writes the receive descriptors of function 2, so its buffers are where they are. */
static void describe(uint64_t *chance, unsigned guest)
{
    static const uint64_t others[] = {0x100, 0x40, 0, MEMORY - 1023, UINT64_MAX - 15};
    uint8_t *send = block[guest] + SENDS + 16 * below(chance, SLOTS);
    uint8_t *receive = block[guest] + RECEIVES + 16 * below(chance, SLOTS);
    unsigned which = below(chance, 8);
    if (which < 5)
        store_word(send, frame_address(chance));
    if (which > 2 && which < 7)
        store_word(send + 8, command(chance));
    if (which == 7 && guest != 2)
        store_word(receive, below(chance, 8) ? buffers[below(chance, COUNT(buffers))] : others[below(chance, COUNT(others))]);
}

/* Writes the destination of a frame, its source and type, or any byte behind; now and then any byte of a descriptor. */
static void scribble(uint64_t *chance, unsigned guest)
{
    static const uint8_t to[][6] = {{2, 0, 0, 0, 0, 0}, {2, 0, 0, 0, 0, 1}, {2, 0, 0, 0, 0, 2}, {2, 0, 0, 0, 0, 0x77},
                                    {2, 0, 0, 0, 0, 0x77}, {255, 255, 255, 255, 255, 255}, {1, 0, 0x5E, 0, 0, 1}};
    uint8_t *frame = block[guest] + frames[below(chance, COUNT(frames))];
    unsigned which = below(chance, 1024), whom = below(chance, COUNT(to));
    if (which < 500)
        for (unsigned i = 0; i < 6; i++)
            store(frame + i, to[whom][i]);
    else if (which < 800)
        for (unsigned i = 6; i < 14; i++)
            store(frame + i, i == 6 ? 2 : i == 11 ? source_of(chance, guest) : i == 12 ? (below(chance, 4) ? 8 : 0x81) : 0);
    else if (which)
        store(frame + 14 + below(chance, 50), next(chance));
    else
        store(block[guest] + SENDS + below(chance, 16 * SLOTS), next(chance));
}

/* ---- the host ------------------------------------------------------------------------------------------------------ */

static void pf(uint32_t offset, uint32_t value)
{
    WANT(vfdev_pf_write(&device, offset, value).kind == VFDEV_DONE);
}

/* Looks at what each call leaves alone, and counts its reply. */
static vfdev_reply after(vfdev_reply reply)
{
    calls++;
    WANT(reply.kind <= VFDEV_HISTORY_FULL);
    kinds[reply.kind]++;
    bool is_any = false;
    for (unsigned p = 0; p < VFDEV_POOLS; p++) {
        WANT(messages[p] == 0 || (p < OPEN && is_open[p] && messages[p] < 8));
        is_any = is_any || messages[p];
    }
    messages_count += is_any;
    WANT(is_pattern(messages + VFDEV_POOLS, sizeof messages - VFDEV_POOLS));
    WANT(is_pattern(block[3], MEMORY));
    WANT(is_pattern(block[2] + KEPT, MEMORY - KEPT));
    return reply;
}

/* Whether an event of a function is done where it is open, and is refused where it is not. */
static void done_where_open(unsigned guest, vfdev_reply reply)
{
    after(reply);
    if (is_open[guest])
        WANT(reply.kind == VFDEV_DONE && reply.value == 0);
    else
        WANT(reply.kind == VFDEV_REFUSED && reply.value == VFDEV_NOT_OPEN);
}

static void vf(unsigned guest, uint32_t offset, uint32_t value)
{
    done_where_open(guest, vfdev_vf_write(&device, (uint8_t)guest, offset, value, messages, VFDEV_POOLS));
}

/* Gives all receive descriptors of a function their buffers. */
static void give_buffers(unsigned guest)
{
    for (unsigned slot = 0; slot < SLOTS; slot++)
        store_word(block[guest] + RECEIVES + 16 * slot, buffers[slot % COUNT(buffers)]);
}

/* Hands receive descriptors over. Those that were written back have the address 0, so function 2 gives them their buffers first. */
static void hand_over(uint64_t *chance, unsigned guest)
{
    if (guest == 2)
        give_buffers(guest);
    vf(guest, VFDEV_RDT(0), below(chance, SLOTS + 1));
}

/* Both rings of a function, with an interrupt for each frame that comes or goes. */
static void set_up_rings(unsigned guest)
{
    give_buffers(guest);
    vf(guest, VFDEV_RDBAL(0), RECEIVES);
    vf(guest, VFDEV_RDLEN(0), 16 * SLOTS);
    vf(guest, VFDEV_SRRCTL(0), VFDEV_SRRCTL_DESCTYPE(1) | VFDEV_SRRCTL_BSIZEPACKET(1));
    vf(guest, VFDEV_RXDCTL(0), VFDEV_RXDCTL_ENABLE);
    vf(guest, VFDEV_TDBAL(0), SENDS);
    vf(guest, VFDEV_TDLEN(0), 16 * SLOTS);
    vf(guest, VFDEV_TXDCTL(0), VFDEV_TXDCTL_ENABLE);
    vf(guest, VFDEV_VTIVAR, VFDEV_VTIVAR_RX0(0x80) | VFDEV_VTIVAR_TX0(0x81));
    vf(guest, VFDEV_VTEIAC, 7);
    vf(guest, VFDEV_VTEIMS, 7);
}

/* Opens a function, which clears its memory, but for what is kept of it. */
static void open_function(unsigned guest)
{
    WANT(vfdev_open(&device, (uint8_t)guest).kind == VFDEV_DONE);
    is_open[guest] = true;
    if (guest == 2)
        memset(block[2] + KEPT, PATTERN, MEMORY - KEPT);
    set_up_rings(guest);
}

/* Lends the blocks, and sets the filters up: the sources of all are checked, frames go from one function to another, and function 1
 * has the tag of its port. */
static void set_up(void)
{
    WANT(vfdev_version() == VFDEV_VERSION);
    for (unsigned guest = 0; guest < BLOCKS; guest++) {
        block[guest] = guarded(MEMORY);
        memset(block[guest], PATTERN, MEMORY);
        WANT(vfdev_lend(&device, (vfdev_block){block[guest], MEMORY}) == VFDEV_OK);
    }
    WANT(vfdev_make_lent(&device, LIMIT) == VFDEV_OK);
    memset(messages, 0, VFDEV_POOLS);
    memset(messages + VFDEV_POOLS, PATTERN, sizeof messages - VFDEV_POOLS);
    memset(block[2] + KEPT, PATTERN, MEMORY - KEPT);
    pf(VFDEV_PFVFRE(0), 15);
    pf(VFDEV_PFVFTE(0), 15);
    pf(VFDEV_PFDTXGSWC, VFDEV_PFDTXGSWC_LBE);
    pf(VFDEV_PFVFSPOOF(0), VFDEV_PFVFSPOOF_MACAS(15));
    pf(VFDEV_VMVIR(1), VFDEV_VMVIR_VLANA(1) | VFDEV_VMVIR_PORT_VLAN_ID(PORT_TAG));
    for (unsigned guest = 0; guest < BLOCKS; guest++) {
        pf(VFDEV_RAL(guest), 2);
        pf(VFDEV_RAH(guest), VFDEV_RAH_AV | guest << 8);
        pf(VFDEV_MPSAR(2 * guest), 1u << guest);
        pf(VFDEV_VMOLR(guest), VFDEV_VMOLR_BAM | VFDEV_VMOLR_AUPE);
    }
    for (unsigned guest = 0; guest < OPEN; guest++)
        open_function(guest);
}

/* Whether a frame that leaves is one that its function may send. */
static void look_at_frame(unsigned guest, size_t left)
{
    const uint8_t source[6] = {2, 0, 0, 0, 0, (uint8_t)guest};
    bool is_tagged = out[12] == 0x81 && out[13] == 0;
    WANT(left >= 14 && left <= LIMIT);
    WANT(memcmp(out + 6, source, 6) == 0);
    WANT(!is_tagged || left >= 18);
    WANT(guest != 1 || (is_tagged && out[14] == 0 && out[15] == PORT_TAG));
    left_count++;
}

static void serve(unsigned guest)
{
    size_t left = 1;
    memset(out, PATTERN, sizeof out);
    vfdev_reply reply = after(vfdev_serve(&device, (uint8_t)guest, 0, out, VFDEV_MOST_FRAME, &left, messages, VFDEV_POOLS));
    WANT(left <= VFDEV_MOST_FRAME && is_pattern(out + left, sizeof out - left));
    WANT(left == 0 || reply.kind == VFDEV_SENT);
    if (is_open[guest])
        WANT(reply.value == 0 && reply.kind >= VFDEV_IDLE && reply.kind <= VFDEV_FAULTED);
    else
        WANT(reply.kind == VFDEV_REFUSED && reply.value == VFDEV_NOT_OPEN);
    if (left)
        look_at_frame(guest, left);
}

/* A frame of the wire to one of the functions, or to all. */
static void wire(uint64_t *chance)
{
    static uint8_t bytes[LIMIT] = {2, 0, 0, 0, 0, 0, 2, 0, 0, 0, 0, 0x99, 8};
    size_t count = 60 + below(chance, below(chance, 4) ? 40 : LIMIT - 59);
    memset(bytes, below(chance, 8) ? 0 : 255, 6);
    if (bytes[0] == 0) {
        bytes[0] = 2;
        bytes[5] = (uint8_t)below(chance, BLOCKS);
    }
    WANT(after(vfdev_wire(&device, bytes, count, messages, VFDEV_POOLS)).kind == VFDEV_DONE);
    wire_count++;
}

/* Reads bytes of a memory, some of which pass its end, or are too many. */
static void read_memory(uint64_t *chance, unsigned guest)
{
    uint64_t at = below(chance, MEMORY);
    size_t count = below(chance, below(chance, 4) ? 64 : 2100);
    memset(out, PATTERN, sizeof out);
    memset(messages, 0, VFDEV_POOLS);
    vfdev_reply reply = after(vfdev_mem_read(&device, (uint8_t)guest, at, out, count));
    uint32_t fault = !is_open[guest]            ? VFDEV_NOT_OPEN
                     : count > VFDEV_MOST_BYTES ? VFDEV_TOO_LONG
                     : at + count > MEMORY      ? VFDEV_BAD_RANGE
                                                : VFDEV_OK;
    WANT(reply.value == fault && reply.kind == (fault ? VFDEV_REFUSED : VFDEV_BYTES));
    size_t read = fault ? 0 : count;
    WANT(is_pattern(out + read, sizeof out - read));
    if (guest == 2 && read && at >= KEPT)
        WANT(is_pattern(out, read));
}

/* Writes bytes of a frame, as the host may. */
static void write_memory(uint64_t *chance, unsigned guest)
{
    uint8_t bytes[32];
    for (unsigned i = 0; i < sizeof bytes; i++)
        bytes[i] = (uint8_t)next(chance);
    memset(messages, 0, VFDEV_POOLS);
    done_where_open(guest, vfdev_mem_write(&device, (uint8_t)guest, frames[below(chance, COUNT(frames))] + 14, bytes, sizeof bytes));
}

/* Closes a function that is open, and opens one that is closed. */
static void close_or_open(unsigned guest)
{
    memset(messages, 0, VFDEV_POOLS);
    if (!is_open[guest]) {
        open_function(guest);
        return;
    }
    is_open[guest] = false;
    WANT(after(vfdev_end(&device, (uint8_t)guest)).kind == VFDEV_DONE);
}

/* One event, by chance. */
static void event(uint64_t *chance)
{
    unsigned guest = below(chance, OPEN), which = below(chance, 64);
    if (which < 28)
        serve(guest);
    else if (which < 36)
        wire(chance);
    else if (which < 44)
        vf(guest, VFDEV_TDT(0), below(chance, SLOTS + 1));
    else if (which < 50)
        hand_over(chance, guest);
    else if (which < 54)
        vf(guest, VFDEV_TXDCTL(0), VFDEV_TXDCTL_ENABLE);
    else if (which < 57)
        vf(guest, VFDEV_RXDCTL(0), VFDEV_RXDCTL_ENABLE);
    else if (which < 61)
        read_memory(chance, guest);
    else if (which < 63)
        write_memory(chance, guest);
    else if (guest != 2 && below(chance, is_open[guest] ? 64 : 4) == 0)
        close_or_open(guest);
}

/* ---- the run ------------------------------------------------------------------------------------------------------- */

/* Prints how often what came up, and wants a least number of each: one in a thousand calls, of which there are 10,000 at least. */
static void report(double began, const struct writer *writers, size_t count)
{
    uint64_t least = calls / 1000;
    printf("%" PRIu64 " calls in %.1f s: %" PRIu64 " sent, of which %" PRIu64 " left, %" PRIu64 " dropped, %" PRIu64
           " faulted, %" PRIu64 " go on, %" PRIu64 " from the wire, %" PRIu64 " with interrupts;",
           calls, seconds() - began, kinds[VFDEV_SENT], left_count, kinds[VFDEV_DROPPED], kinds[VFDEV_FAULTED],
           kinds[VFDEV_MORE], wire_count, messages_count);
    for (size_t at = 0; at < count; at++)
        printf(" %" PRIu64, writers[at].writes);
    printf(" writes\n");
    WANT(calls >= 10000);
    WANT(kinds[VFDEV_SENT] > left_count && left_count >= least);
    WANT(kinds[VFDEV_DROPPED] >= least && kinds[VFDEV_FAULTED] >= least && kinds[VFDEV_MORE] >= least);
    WANT(kinds[VFDEV_BYTES] >= least && kinds[VFDEV_REFUSED] >= least);
    WANT(wire_count >= least && messages_count >= least);
    for (size_t at = 0; at < count; at++)
        WANT(writers[at].writes >= calls / 10);
}

int main(int count, char **words)
{
    bool by_events = count == 3 && strcmp(words[1], "events") == 0;
    if (!by_events && !(count == 3 && strcmp(words[1], "seconds") == 0)) {
        fprintf(stderr, "usage: stress events N, or stress seconds N\n");
        return 2;
    }
    uint64_t most = strtoull(words[2], NULL, 10), chance = 88172645463325252u;
    struct writer writers[] = {{.guests = OPEN, .write = forge, .chance = 1}, {.guests = OPEN, .write = describe, .chance = 2}, {.guests = OPEN, .write = scribble, .chance = 3}};
    set_up();
    for (size_t at = 0; at < COUNT(writers); at++)
        WANT(pthread_create(&writers[at].thread, NULL, write_on, &writers[at]) == 0);
    double began = seconds();
    for (uint64_t round = 0; by_events ? calls < most : round % 1024 || seconds() - began < (double)most; round++)
        event(&chance);
    atomic_store(&is_over, true);
    for (size_t at = 0; at < COUNT(writers); at++)
        WANT(pthread_join(writers[at].thread, NULL) == 0);
    report(began, writers, COUNT(writers));
    vfdev_free(&device);
    return 0;
}
