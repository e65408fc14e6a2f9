/* Two cards of four functions. On both, function 2 sends frames to function 3, and their clients speak with the card. On one of them the
 * clients of functions 0 and 1, which are in another VLAN, say a million messages by chance meanwhile, and their guests write what they like
 * into their rings: functions 2 and 3 see nothing of it. Their replies, vectors and memories are the same on both cards, byte for byte.
 * It writes nothing, and ends with 0, where all is as it should be. */
#include "chance.h"
#include "client.h"

enum { MESSAGES = 1000000, TURN = 10, MEMORY = 0x4000, RING = 0x1100, ROOM_AT = 0x2800 };

/* A card with its guests' memories, and what functions 2 and 3 were answered in a turn. */
struct side {
    vfdev_card card;
    uint8_t memory[4][MEMORY];
    uint8_t shown[256];
    size_t shown_len;
};

static struct side calm, loud;
static uint64_t seed = 0x82599;
static unsigned long answered, asked, ended, sent;
static const uint16_t ids[] = {0, 7};

/* A driver's first writes: its mailbox, its vector, a receive queue and a transmit queue of 8 descriptors. */
static const uint32_t driver[][2] = {{0x200, 1},          {0x2FC, 4},    {0x2FC, 1},          {0x120, 0x80},       {0x110, 1},   {0x108, 1},
                                     {0x1000, 0x1000},    {0x1008, 128}, {0x1014, 0x2000002}, {0x1028, 0x2000000}, {0x2000, RING},
                                     {0x2008, 128},       {0x2028, 0x2000000}};
enum { WRITES = sizeof driver / sizeof *driver };

static uint32_t chance(void)
{
    return (uint32_t)next(&seed);
}

/* Descriptor `at` of the transmit ring: a frame of 60 bytes at 0x2000. */
static void put_frame(uint8_t *memory, uint32_t at, const uint8_t to[6], uint8_t from, uint32_t number)
{
    const uint8_t descriptor[16] = {0, 0x20, [8] = 60, [10] = 0x30, 0x29}, source[6] = {0x02, 0x82, 0x59, 0, 0, from};
    memcpy(memory + RING + 16 * (at % 8), descriptor, sizeof descriptor);
    memcpy(memory + 0x2000, to, 6);
    memcpy(memory + 0x2006, source, 6);
    memcpy(memory + 0x2010, &number, 4);
}

static void attach(struct side *side, uint8_t function)
{
    EQUAL(vfdev_card_attach(&side->card, function), VFDEV_OK);
    EQUAL(vfdev_card_map(&side->card, function, 0, (vfdev_block){side->memory[function], MEMORY}, false), VFDEV_OK);
    EQUAL(say(&side->card, function, version, 0).kind, VFDEV_STEP_ANSWERED);
}

static void begin(struct side *side)
{
    const uint8_t arm[36] = {7, 0, 8, 0, 36, [16] = 20, [20] = 0x24, [24] = 2, [32] = 1};
    side->card = (vfdev_card)VFDEV_CARD_NONE;
    EQUAL(vfdev_card_make(&side->card, 4, ids, 2, VFDEV_CARD_NOBODY, 1518, 31), VFDEV_OK);
    for (uint8_t function = 0; function < 4; function++) {
        vfdev_card_policy granted = policy(function);
        if (function < 2) {
            granted.may_choose = granted.all_multicast = granted.has_port = granted.port = 1;
        }
        EQUAL(vfdev_card_admit(&side->card, function, &granted).refusal, VFDEV_ADMITTED);
        attach(side, function);
        if (function >= 2) {
            EQUAL(say(&side->card, function, arm, 1).kind, VFDEV_STEP_ARM);
            for (size_t at = 0; at < WRITES; at++) {
                write_register(&side->card, function, driver[at][0], driver[at][1]);
            }
        }
    }
}

static void show(struct side *side, const void *bytes, size_t len)
{
    EQUAL(side->shown_len + len <= sizeof side->shown, 1);
    memcpy(side->shown + side->shown_len, bytes, len);
    side->shown_len += len;
}

/* Function 2 sends a frame, function 3 receives it, and both look at registers. */
static void turn(struct side *side, uint32_t number)
{
    static const uint32_t looked_at[] = {0x008, 0x200, 0x204, 0x101C, 0x1010, 0x201C, 0x2010};
    const uint8_t to[6] = {0x02, 0x82, 0x59, 0, 0, 3}, buffer[16] = {0, ROOM_AT >> 8};
    uint32_t next = (number + 1) % 8, vectors;
    vfdev_card_more_result more;
    side->shown_len = 0;
    memcpy(side->memory[3] + 0x1000 + 16 * (number % 8), buffer, sizeof buffer);
    write_register(&side->card, 3, 0x1018, next);
    put_frame(side->memory[2], number, to, 2, number);
    write_register(&side->card, 2, 0x2018, next);
    more = vfdev_card_more(&side->card, 2);
    show(side, &more.frames, sizeof more.frames);
    show(side, &more.goes_on, sizeof more.goes_on);
    EQUAL(vfdev_card_raised(&side->card) >> 2, 2);
    vectors = vfdev_card_signal(&side->card, 3);
    show(side, &vectors, sizeof vectors);
    for (uint8_t function = 2; function < 4; function++) {
        for (size_t at = 0; at < sizeof looked_at / sizeof *looked_at; at++) {
            read_register(&side->card, function, looked_at[at]);
            show(side, room + 32, 4);
        }
    }
    /* the frame has come */
    EQUAL(memcmp(side->memory[3] + ROOM_AT + 16, &number, 4), 0);
}

/* REGION_READ or REGION_WRITE of four bytes of a region. */
static void access_to(uint8_t message[48], uint8_t command, uint8_t region, uint32_t offset, uint32_t value)
{
    memcpy(message, (const uint8_t[32]){7, 0, command, 0, command == 9 ? 32 : 36, [24] = region, [28] = 4}, 32);
    memcpy(message + 16, &offset, 4);
    memcpy(message + 32, &value, 4);
}

/* A message by chance, with so many files: the next of a driver's writes, or a tail; an access to a register, to the mailbox or to the
 * configuration space; vectors; memory; or any bytes behind a header. */
static size_t by_chance(uint8_t message[48], size_t *next_write)
{
    uint32_t kind = chance() % 64, offset = chance() % 0x1000 * 4, value = chance();
    for (size_t at = 0; at < 48; at++)
        message[at] = (uint8_t)chance();
    if (kind < 24) {
        access_to(message, 10, 0, driver[*next_write][0], driver[*next_write][1]);
        *next_write = (*next_write + 1) % WRITES;
    } else if (kind < 40) {
        access_to(message, 10, 0, 0x2018, value % 9);
    } else if (kind < 44) {
        access_to(message, 9, 0, offset, 0);
    } else if (kind < 46) {
        access_to(message, 10, 0, offset, value);
    } else if (kind < 48) {
        access_to(message, 10, 7, offset % 0x100, value);
    } else if (kind < 52) {
        access_to(message, 10, 0, 0x200 + offset % 0x40, value % 16);
    } else if (kind < 54) {
        access_to(message, 10, 0, 0x2FC, value % 8);
    } else if (kind < 58) {
        memcpy(message, (const uint8_t[36]){7, 0, 8, 0, 36, [16] = 20, [20] = 0x24, [24] = 2, [28] = value % 4, [32] = offset / 4 % 4}, 36);
        return value / 4 % 4;
    } else if (kind < 62) {
        /* DMA_MAP, and DMA_UNMAP */
        memcpy(message, (const uint8_t[24]){7, 0, kind < 60 ? 2 : 3, 0, kind < 60 ? 48 : 40, [16] = kind < 60 ? 32 : 24, [20] = kind < 60 ? 3 : 0}, 24);
        memset(message + 29, 0, 3);
        memset(message + 38, 0, 2);
        memset(message + 45, 0, 3);
        return kind < 60;
    } else {
        memcpy(message + 2, (const uint8_t[6]){message[2] % 16, 0, 36}, 6);
        return value % 3;
    }
    return 0;
}

/* Function 0 or 1 says something by chance. Who breaks the protocol goes, and comes anew. */
static void disturb(struct side *side, uint8_t function)
{
    static const uint8_t all[6] = {255, 255, 255, 255, 255, 255}, third[6] = {0x02, 0x82, 0x59, 0, 0, 3};
    static size_t next_write[2];
    uint8_t message[48];
    size_t files = by_chance(message, &next_write[function]);
    vfdev_card_step step;
    put_frame(side->memory[function], chance(), chance() % 2 ? all : third, function + chance() % 2, ~0u);
    step = say(&side->card, function, message, files);
    answered += step.kind == VFDEV_STEP_ANSWERED;
    asked += step.kind != VFDEV_STEP_ANSWERED && step.kind != VFDEV_STEP_ENDS;
    if (step.kind == VFDEV_STEP_ENDS) {
        ended++;
        EQUAL(vfdev_card_detach(&side->card, function), VFDEV_OK);
        attach(side, function);
    }
    sent += vfdev_card_more(&side->card, function).frames;
    vfdev_card_signal(&side->card, function);
}

int main(void)
{
    begin(&calm);
    begin(&loud);
    for (uint32_t number = 0; number < MESSAGES / TURN; number++) {
        for (uint32_t count = 0; count < TURN; count++) {
            disturb(&loud, count % 2);
        }
        turn(&loud, number);
        turn(&calm, number);
        EQUAL(loud.shown_len, calm.shown_len);
        EQUAL(memcmp(loud.shown, calm.shown, calm.shown_len), 0);
        EQUAL(memcmp(loud.memory[2], calm.memory[2], 2 * MEMORY), 0);
    }
    /* and not for want of trying */
    EQUAL(answered > MESSAGES / 2 && asked > MESSAGES / 100 && ended > MESSAGES / 1000 && sent > MESSAGES / 1000, 1);
    vfdev_card_free(&calm.card);
    vfdev_card_free(&loud.card);
    return 0;
}
