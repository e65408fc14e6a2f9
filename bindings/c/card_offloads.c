/* What a card does for a driver, beside the plain way of offloads.h: 100,000 chains of descriptors by chance, sane ones and hostile ones, with
 * contexts, tags, sums and segments. The frames that come to another guest are those of the plain way, byte for byte and in order, as far as the
 * card lets them leave: with the sender's own source, and no tag but that of VLAN 0, where the sender is. It writes nothing, and ends with 0,
 * where all is as it should be. */
#include "chance.h"
#include "client.h"
#include "offloads.h"

enum { CHAINS = 100000, MEMORY = 1 << 19, RING = 0x1000, SLOTS = 128, DATA = 0x20000, DATA_SIZE = 0x20000, BUFFERS = 0x40000 };

static uint8_t memory[2][MEMORY];
static vfdev_card card = VFDEV_CARD_NONE;
static struct plain plain;
static uint64_t seed = 0x59;
static uint32_t tail, given, came;
static unsigned long checked, cut, summed, faults;

static uint32_t pick(uint32_t bound)
{
    return below(&seed, bound);
}

static void turn_on(void)
{
    write_register(&card, 0, 0x2028, 0);
    write_register(&card, 0, 0x2010, 0);
    write_register(&card, 0, 0x2018, 0);
    write_register(&card, 0, 0x2028, 0x2000000);
    tail = 0;
}

static void begin(void)
{
    static const uint16_t ids[] = {0};
    static const uint32_t receive[][2] = {{0x1000, RING}, {0x1008, 16 * SLOTS}, {0x1014, 0x2000002}, {0x1028, 0x2000000}};
    EQUAL(vfdev_card_make(&card, 2, ids, 1, VFDEV_CARD_NOBODY, LIMIT, 31), VFDEV_OK);
    for (uint8_t function = 0; function < 2; function++) {
        vfdev_card_policy granted = policy(function);
        EQUAL(vfdev_card_admit(&card, function, &granted).refusal, VFDEV_ADMITTED);
        EQUAL(vfdev_card_attach(&card, function), VFDEV_OK);
        EQUAL(vfdev_card_map(&card, function, 0, (vfdev_block){memory[function], MEMORY}, false), VFDEV_OK);
        EQUAL(say(&card, function, version, 0).kind, VFDEV_STEP_ANSWERED);
        write_register(&card, function, 0x200, 1);
        write_register(&card, function, 0x2FC, 4);
        write_register(&card, function, 0x2FC, 1);
    }
    for (size_t at = 0; at < sizeof receive / sizeof *receive; at++)
        write_register(&card, 1, receive[at][0], receive[at][1]);
    write_register(&card, 0, 0x2000, RING);
    write_register(&card, 0, 0x2008, 16 * SLOTS);
    turn_on();
}

/* Function 1 has a buffer of 2 KiB for each frame that may come. */
static void give_buffers(void)
{
    for (uint32_t slot = 0; slot < SLOTS; slot++) {
        const uint64_t words[2] = {BUFFERS + 2048 * slot, 0};
        memcpy(memory[1] + RING + 16 * slot, words, sizeof words);
    }
    given = (came + SLOTS - 1) % SLOTS;
    write_register(&card, 1, 0x1018, given);
}

/* A frame with headers that mostly are what a driver writes, somewhere in the data. */
static uint64_t put_frame(unsigned maclen, bool v4)
{
    uint64_t at = DATA + pick(DATA_SIZE - 4096);
    static const uint8_t to[6] = {0x02, 0x82, 0x59, 0, 0, 1}, from[6] = {0x02, 0x82, 0x59, 0, 0, 0};
    for (size_t i = 0; i < 200; i++)
        memory[0][at + i] = (uint8_t)pick(256);
    memcpy(memory[0] + at, to, 6);
    memcpy(memory[0] + at + 6, from, 6);
    if (pick(16) == 0)
        memory[0][at + 11] = (uint8_t)pick(4);
    if (maclen == 14)
        memcpy(memory[0] + at + 12, v4 ? "\x08\x00" : "\x86\xdd", 2);
    return at;
}

/* A context that fits, or any. */
static void some_context(uint64_t words[2], bool *v4, unsigned *maclen, unsigned *mss)
{
    bool sane = pick(8) != 0;
    *v4 = pick(3) != 0;
    *maclen = sane ? 14 : pick(128);
    *mss = sane ? 500 + pick(900) : pick(4) ? pick(2000) : pick(65536);
    unsigned iplen = sane ? (*v4 ? 20 + 4 * pick(4) : 40) : pick(512), l4len = sane ? 20 + 4 * pick(6) : pick(256);
    unsigned l4t = sane ? pick(4) != 0 : pick(4), vlan = pick(4) ? 0x2000 * pick(8) : pick(65536);
    words[0] = iplen | *maclen << 9 | (uint64_t)vlan << 16;
    words[1] = 0x20200000 | (uint64_t)*v4 << 10 | (uint64_t)l4t << 11 | (uint64_t)pick(2) << 36 | (uint64_t)l4len << 40 | (uint64_t)*mss << 48;
}

static uint32_t posted;
static uint64_t posts[SLOTS][2];

static void post(uint64_t address, uint64_t word)
{
    const uint64_t words[2] = {address, word};
    memcpy(memory[0] + RING + 16 * tail, words, sizeof words);
    memcpy(posts[posted++], words, sizeof words);
    tail = (tail + 1) % SLOTS;
}

/* The descriptors of a frame: a context before it as a rule, and one to five of data. */
static void post_chain(void)
{
    uint64_t words[2], asks = 0x20300000;
    static unsigned maclen = 14, mss = 1000;
    static bool v4 = true;
    uint32_t pieces = 1 + pick(5), index = pick(2);
    bool segments = pick(3) == 0;
    posted = 0;
    if (pick(5)) {
        some_context(words, &v4, &maclen, &mss);
        index = words[1] >> 36 & 1;
        post(words[0], words[1]);
    }
    uint64_t at = put_frame(maclen, v4);
    asks |= (uint64_t)index << 36 | (uint64_t)pick(4) << 40 | (pick(4) == 0 ? 1ull << 30 : 0) | (segments ? 1ull << 31 : 0);
    if (pick(20) == 0)
        asks = (uint64_t)pick(1 << 24) << 24 | pick(1 << 24);
    uint32_t most = segments ? 1 + pick(pick(4) ? 10000 : 70000) : 1 + pick(1600), left = most;
    if (segments && mss < 600 && left > 100 * mss + 200)
        left = 100 * mss + 200;
    for (uint32_t piece = 0; piece < pieces; piece++) {
        uint32_t length = piece + 1 == pieces || left == 0 ? left : pick(left + 1);
        if (length > 65535)
            length = 65535;
        uint64_t word = (asks & ~0xffffull) | length;
        word = piece + 1 == pieces ? word | 1 << 24 : word & ~(1ull << 24);
        if (at + length > MEMORY)
            at = DATA;
        if (pick(500) == 0) /* past the end of the memory, or of all addresses */
            at = (pick(2) ? (uint64_t)MEMORY : 1ull << 46) - length + 1;
        post(at, pick(3) ? word : word | 1 << 27);
        at += length;
        left -= length;
    }
}

/* The frame may leave: its source is the sender's, its tag is of VLAN 0, and it is for function 1. */
static bool comes(const uint8_t *frame, size_t length)
{
    static const uint8_t both[12] = {0x02, 0x82, 0x59, 0, 0, 1, 0x02, 0x82, 0x59, 0, 0, 0};
    bool tagged = frame[12] == 0x81 && frame[13] == 0;
    return length && memcmp(frame, both, 12) == 0 && (!tagged || ((frame[14] & 0x0f) == 0 && frame[15] == 0));
}

static void compare(void)
{
    uint32_t slot = came;
    for (unsigned long i = 0; i < plain.frames && i < FRAMES; i++) {
        const uint8_t *due = plain.frame[i], *descriptor = memory[1] + RING + 16 * slot;
        if (!comes(due, plain.lengths[i]) || slot == given)
            continue;
        EQUAL(descriptor[8] & 3, 3);
        EQUAL(descriptor[12] | descriptor[13] << 8, plain.lengths[i]);
        EQUAL(memcmp(memory[1] + BUFFERS + 2048 * slot, due, plain.lengths[i]), 0);
        slot = (slot + 1) % SLOTS;
        checked++;
    }
    came = slot;
    EQUAL(read_register(&card, 1, 0x1010), came);
}

int main(void)
{
    begin();
    for (unsigned long chain = 0; chain < CHAINS; chain++) {
        bool usable = true;
        unsigned long lacked = plain.shortfalls;
        plain.frames = 0;
        give_buffers();
        post_chain();
        for (uint32_t i = 0; i < posted && usable; i++)
            usable = take_plainly(&plain, memory[0], MEMORY, posts[i][0], posts[i][1]);
        write_register(&card, 0, 0x2018, tail);
        while (vfdev_card_more(&card, 0).goes_on)
            ;
        compare();
        cut += plain.frames > 1;
        summed += plain.frames == 1 && plain.shortfalls == lacked;
        EQUAL(vfdev_card_shortfalls(&card, 0), plain.shortfalls & 0xffffffff);
        EQUAL(read_register(&card, 0, 0x2028) >> 25 & 1, usable);
        if (!usable) {
            faults++;
            turn_on();
        }
    }
    /* chance did try all of it */
    EQUAL(checked > CHAINS && cut > CHAINS / 10 && summed > CHAINS / 10 && plain.shortfalls > CHAINS / 100 && faults > 100, 1);
    vfdev_card_free(&card);
    return 0;
}
