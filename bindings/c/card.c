/* The calls of vfdev_card.h, by numbers worked out by hand: makers and freeing, guests and their regions, messages of a client, frames,
 * policies, what a driver leaves to a card, what was lost, the page of registers that a client may map, and what is to be done about its words. It writes
 * nothing, and ends with 0, where all is as it should be. */
#include "client.h"
#include "vfdev_regs.h"

static uint8_t memory[0x3000], other[0x3000], frame[VFDEV_MOST_FRAME];
static const uint16_t ids[] = {0, 7};

static void makers(vfdev_card *card)
{
    const uint16_t past[] = {4096};
    EQUAL(vfdev_card_functions(card), 0);
    EQUAL(vfdev_card_make(card, 0, ids, 2, VFDEV_CARD_NOBODY, 1518, 0), VFDEV_BAD_MAKE);
    EQUAL(vfdev_card_make(card, 65, ids, 2, VFDEV_CARD_NOBODY, 1518, 0), VFDEV_BAD_MAKE);
    EQUAL(vfdev_card_make(card, 2, past, 1, VFDEV_CARD_NOBODY, 1518, 0), VFDEV_BAD_MAKE);
    EQUAL(vfdev_card_make(card, 2, ids, 2, 64, 1518, 0), VFDEV_BAD_MAKE);
    EQUAL(vfdev_card_make(card, 2, ids, 2, VFDEV_CARD_NOBODY, 1517, 0), VFDEV_BAD_MAKE);
    EQUAL(vfdev_card_make(card, 2, ids, 2, VFDEV_CARD_NOBODY, 1518, 128), VFDEV_BAD_MAKE);
    EQUAL(vfdev_card_attach(card, 0), VFDEV_CARD_NO_CARD);
    EQUAL(say(card, 0, version, 0).kind, VFDEV_STEP_NO_CARD);
    EQUAL(vfdev_card_make(card, 2, ids, 2, VFDEV_CARD_NOBODY, 1518, 0), VFDEV_OK);
    EQUAL(vfdev_card_make(card, 2, ids, 2, VFDEV_CARD_NOBODY, 1518, 0), VFDEV_HELD);
    EQUAL(vfdev_card_functions(card), 2);
}

static void guests(vfdev_card *card)
{
    const vfdev_block block = {memory, sizeof memory}, none = {memory, 0};
    EQUAL(vfdev_card_attach(card, 2), VFDEV_NO_SUCH_VF);
    EQUAL(vfdev_card_attach(card, 64), VFDEV_NO_SUCH_VF);
    EQUAL(vfdev_card_detach(card, 0), VFDEV_NOT_OPEN);
    EQUAL(vfdev_card_map(card, 0, 0, block, false), VFDEV_BAD_MAKE);
    EQUAL(vfdev_card_attach(card, 0), VFDEV_OK);
    EQUAL(vfdev_card_attach(card, 0), VFDEV_ALREADY_OPEN);
    EQUAL(vfdev_card_map(card, 0, 0, none, false), VFDEV_BAD_MAKE);
    EQUAL(vfdev_card_map(card, 0, VFDEV_CARD_SPACE, block, false), VFDEV_CARD_PAST_END);
    EQUAL(vfdev_card_map(card, 0, 0x1000, block, false), VFDEV_OK);
    EQUAL(vfdev_card_map(card, 0, 0x3FFF, block, false), VFDEV_OVERLAPS);
    EQUAL(vfdev_card_unmap(card, 0, 0x2000), VFDEV_CARD_NOT_THERE);
    EQUAL(vfdev_card_unmap(card, 0, 0x1000), VFDEV_OK);
    EQUAL(vfdev_card_map(card, 0, 0, block, false), VFDEV_OK);
}

static void policies(vfdev_card *card)
{
    vfdev_card_policy first = policy(1), group = policy(2), placed = policy(2);
    group.address[0] = 3;
    placed.has_port = 1;
    placed.port = 2;
    EQUAL(vfdev_card_admit(card, 64, &first).refusal, VFDEV_ADMIT_NO_SUCH_VF);
    EQUAL(vfdev_card_admit(card, 0, &first).refusal, VFDEV_ADMITTED);
    EQUAL(vfdev_card_admit(card, 1, &first).refusal, VFDEV_ADDRESS_OWNED);
    EQUAL(vfdev_card_admit(card, 1, &group).refusal, VFDEV_NOT_UNICAST);
    EQUAL(vfdev_card_admit(card, 1, &placed).refusal, VFDEV_NO_SUCH_PLACE);
    EQUAL(vfdev_card_admit(card, 1, &(vfdev_card_policy){.address = {2}}).loser, VFDEV_CARD_NOBODY);
    EQUAL(vfdev_card_dismiss(card, 1), VFDEV_OK);
    EQUAL(vfdev_card_dismiss(card, 64), VFDEV_NO_SUCH_VF);
}

/* A client: a version, memory that the shell maps, vectors with files; what has no header ends the connection. */
static void client(vfdev_card *card)
{
    uint8_t map[48] = {7, 0, 2, 0, 48}, arm[36] = {7, 0, 8, 0, 36};
    vfdev_card_step step = say(card, 0, version, 0);
    EQUAL(step.kind, VFDEV_STEP_ANSWERED);
    EQUAL(step.reply, 114);
    EQUAL(room[114], 0xA5);
    map[16] = 32;
    map[20] = 1;
    map[25] = 0x10; /* offset 0x1000 */
    map[34] = 1;    /* address 0x10000 */
    map[41] = 0x20; /* size 0x2000 */
    step = say(card, 0, map, 1);
    EQUAL(step.kind, VFDEV_STEP_MAP);
    EQUAL(step.reply, 16);
    EQUAL(step.access, VFDEV_ACCESS_READ);
    EQUAL(step.offset, 0x1000);
    EQUAL(step.address, 0x10000);
    EQUAL(step.size, 0x2000);
    arm[16] = 20;
    arm[20] = 0x24;
    arm[24] = 2;
    arm[32] = 2;
    step = say(card, 0, arm, 2);
    EQUAL(step.kind, VFDEV_STEP_ARM);
    EQUAL(step.first, 0);
    EQUAL(step.count, 2);
    step = say(card, 0, version, 0);
    EQUAL(step.kind, VFDEV_STEP_ENDS);
    EQUAL(step.breach, VFDEV_BREACH_SECOND_VERSION);
    EQUAL(say(card, 64, map, 0).kind, VFDEV_STEP_NO_SUCH_VF);
}

/* Function 1 has a guest too, which receives into one buffer, and gets vector 0 for it: function 0 sends it a frame. */
static void guest_to_guest(vfdev_card *card)
{
    const vfdev_card_policy second = policy(2);
    const uint32_t driver[][2] = {{0x200, 1},      {0x2FC, 4},          {0x2FC, 1},          {0x120, 0x80}, {0x108, 1}, {0x1000, 0x1000},
                                  {0x1008, 128},   {0x1014, 0x2000002}, {0x1028, 0x2000000}, {0x1018, 1}};
    const uint8_t arm[36] = {7, 0, 8, 0, 36, [16] = 20, [20] = 0x24, [24] = 2, [32] = 1};
    const uint8_t sent[16] = {0, 0x20, [8] = 60, [10] = 0x30, 0x29};

    EQUAL(vfdev_card_admit(card, 1, &second).refusal, VFDEV_ADMITTED);
    EQUAL(vfdev_card_attach(card, 1), VFDEV_OK);
    EQUAL(vfdev_card_map(card, 1, 0, (vfdev_block){other, sizeof other}, false), VFDEV_OK);
    say(card, 1, version, 0);
    EQUAL(say(card, 1, arm, 1).kind, VFDEV_STEP_ARM);
    other[0x1001] = 0x28;
    for (size_t at = 0; at < sizeof driver / sizeof *driver; at++) {
        write_register(card, 1, driver[at][0], driver[at][1]);
    }
    memcpy(memory + 0x1110, sent, sizeof sent);
    memcpy(memory + 0x2000, (uint8_t[6]){0x02, 0x82, 0x59, 0, 0, 2}, 6);
    memory[0x203B] = 0x77;
    write_register(card, 0, 0x2018, 2);
    EQUAL(vfdev_card_more(card, 0).frames, 0);
    EQUAL(vfdev_card_raised(card), 2);
    EQUAL(vfdev_card_signal(card, 1), 1);
    EQUAL(other[0x2805], 2);
    EQUAL(other[0x283B], 0x77);
    EQUAL(other[0x100C], 60);
}

/* A driver that the host answers sends a frame, which leaves, and gets one; vector 1 tells of it, once. */
static void frames(vfdev_card *card)
{
    const uint8_t arm[36] = {7, 0, 8, 0, 36, [16] = 20, [20] = 0x24, [24] = 2, [32] = 2};
    const uint32_t driver[][2] = {{0x200, 1},      {0x2FC, 4},    {0x2FC, 1},  {0x120, 0x81}, {0x108, 2},    {0x1000, 0x1000},
                                  {0x1008, 128},   {0x1014, 0x2000002}, {0x1028, 0x2000000}, {0x1018, 1},
                                  {0x2000, 0x1100}, {0x2008, 128}, {0x2028, 0x2000000}, {0x2018, 1}};
    const uint8_t sent[16] = {0, 0x20, [8] = 60, [10] = 0x30, 0x29};
    vfdev_card_more_result more;
    vfdev_reply reply;

    say(card, 0, version, 0);
    EQUAL(say(card, 0, arm, 2).kind, VFDEV_STEP_ARM);
    memset(memory, 0, sizeof memory);
    memory[0x1001] = 0x28;
    memcpy(memory + 0x1100, sent, sizeof sent);
    memcpy(memory + 0x2000, (uint8_t[14]){2, 0, 0, 0, 0, 9, 0x02, 0x82, 0x59, 0, 0, 1, 8, 0}, 14);
    EQUAL(vfdev_card_is_busy(card, 0), 0);
    for (size_t at = 0; at < sizeof driver / sizeof *driver; at++) {
        write_register(card, 0, driver[at][0], driver[at][1]);
    }
    EQUAL(read_register(card, 0, 0x200), 0x80000001);
    EQUAL(vfdev_card_is_busy(card, 0), 1);
    more = vfdev_card_more(card, 0);
    EQUAL(more.frames, 1);
    EQUAL(more.goes_on, 0);
    EQUAL(vfdev_card_frame(card, 0, frame, 59), 0);
    EQUAL(vfdev_card_frame(card, 0, frame, sizeof frame), 60);
    EQUAL(frame[5], 9);
    EQUAL(vfdev_card_frame(card, 1, frame, sizeof frame), 0);
    reply = vfdev_card_wire(card, frame, 13);
    EQUAL(reply.kind, VFDEV_REFUSED);
    EQUAL(reply.value, VFDEV_BAD_FRAME);
    memset(frame, 0xFF, 6);
    EQUAL(vfdev_card_wire(card, frame, 60).kind, VFDEV_DONE);
    EQUAL(vfdev_card_raised(card), 1);
    EQUAL(vfdev_card_signal_some(card, 0, 5), 0);
    EQUAL(vfdev_card_raised(card), 1);
    EQUAL(vfdev_card_signal_some(card, 0, 0xFFFFFFFF), 2);
    EQUAL(vfdev_card_raised(card), 0);
    EQUAL(vfdev_card_signal(card, 0), 0);
    EQUAL(vfdev_card_signal_some(card, 64, 7), 0);
    EQUAL(memory[0x2800], 0xFF);
    EQUAL(memory[0x100C], 60);
}

/* A card whose one guest receives into two buffers, and gets vector 1 for it. */
static void begin_receiving(vfdev_card *card, uint8_t *bytes, size_t size)
{
    const uint8_t arm[36] = {7, 0, 8, 0, 36, [16] = 20, [20] = 0x24, [24] = 2, [32] = 2};
    const uint32_t driver[][2] = {{0x200, 1},    {0x2FC, 4},          {0x2FC, 1},          {0x120, 0x81}, {0x108, 2}, {0x1000, 0x1000},
                                  {0x1008, 128}, {0x1014, 0x2000002}, {0x1028, 0x2000000}, {0x1018, 2}};
    const vfdev_card_policy first = policy(1);
    EQUAL(vfdev_card_make(card, 1, ids, 2, VFDEV_CARD_NOBODY, 1518, 0), VFDEV_OK);
    EQUAL(vfdev_card_admit(card, 0, &first).refusal, VFDEV_ADMITTED);
    EQUAL(vfdev_card_attach(card, 0), VFDEV_OK);
    EQUAL(vfdev_card_map(card, 0, 0, (vfdev_block){bytes, size}, false), VFDEV_OK);
    say(card, 0, version, 0);
    EQUAL(say(card, 0, arm, 2).kind, VFDEV_STEP_ARM);
    memset(bytes, 0, size);
    bytes[0x1001] = 0x20;
    bytes[0x1011] = 0x28;
    for (size_t at = 0; at < sizeof driver / sizeof *driver; at++) {
        write_register(card, 0, driver[at][0], driver[at][1]);
    }
}

/* Three broadcasts, of which the second is too long, come to one card in one call and to another one by one: the same to their guests. */
static void bursts(void)
{
    static uint8_t bytes[60 + 1519 + 60];
    const size_t ends[] = {60, 60 + 1519, sizeof bytes}, none[] = {60, 20, sizeof bytes + 1, 14};
    const uint32_t kinds[] = {VFDEV_DONE, VFDEV_REFUSED, VFDEV_DONE};
    vfdev_card burst = VFDEV_CARD_NONE, single = VFDEV_CARD_NONE;
    vfdev_card_wire_result came = vfdev_card_wire_burst(&burst, bytes, sizeof bytes, ends, 3);
    EQUAL(came.taken + came.refused, 0);
    begin_receiving(&burst, memory, sizeof memory);
    begin_receiving(&single, other, sizeof other);
    memset(bytes, 0xFF, sizeof bytes);
    bytes[59] = 1;
    bytes[sizeof bytes - 1] = 3;
    came = vfdev_card_wire_burst(&burst, bytes, sizeof bytes, ends, 3);
    EQUAL(came.taken, 2);
    EQUAL(came.refused, 1);
    for (size_t number = 0, start = 0; number < 3; start = ends[number++]) {
        EQUAL(vfdev_card_wire(&single, bytes + start, ends[number] - start).kind, kinds[number]);
    }
    EQUAL(memcmp(memory, other, sizeof memory), 0);
    EQUAL(memory[0x203B], 1);
    EQUAL(memory[0x283B], 3);
    EQUAL(read_register(&burst, 0, VFDEV_RDH(0)), 2);
    EQUAL(read_register(&single, 0, VFDEV_RDH(0)), 2);
    EQUAL(vfdev_card_raised(&burst), vfdev_card_raised(&single));
    EQUAL(vfdev_card_signal(&burst, 0), 2);
    EQUAL(vfdev_card_signal(&single, 0), 2);
    /* an end before its beginning, or past the bytes, is that of no frame */
    came = vfdev_card_wire_burst(&burst, bytes, sizeof bytes, none, 4);
    EQUAL(came.taken, 1);
    EQUAL(came.refused, 3);
    vfdev_card_free(&burst);
    vfdev_card_free(&single);
}

/* The sum of words of two bytes in ones' complement, and of a number before: all ones where a sum among them is right. */
static uint32_t sum(const uint8_t *bytes, size_t size, uint32_t before)
{
    for (size_t at = 0; at < size; at++) {
        before += at % 2 ? bytes[at] : (uint32_t)bytes[at] << 8;
    }
    while (before > 0xFFFF) {
        before = (before & 0xFFFF) + (before >> 16);
    }
    return before;
}

/* A guest of a card that does everything for drivers, and a frame of 250 bytes of TCP data. */
static void begin_full(vfdev_card *card)
{
    static const uint8_t headers[54] = {2, 0, 0, 0, 0, 9, 0x02, 0x82, 0x59, 0, 0, 1, 8, 0, 0x45, [18] = 1, 2, [22] = 64, 6,
                                        [26] = 10, 0, 0, 1, 10, 0, 0, 2, [46] = 0x50, 0x19};
    const uint32_t driver[][2] = {{0x200, 1}, {0x2FC, 4}, {0x2FC, 1}, {VFDEV_TDBAL(0), 0x1000}, {VFDEV_TDLEN(0), 128},
                                  {VFDEV_TXDCTL(0), VFDEV_TXDCTL_ENABLE}};
    const vfdev_card_policy first = policy(1);
    EQUAL(vfdev_card_make(card, 1, ids, 2, VFDEV_CARD_NOBODY, 1518,
                          VFDEV_OFFLOAD_VLAN | VFDEV_OFFLOAD_CHECKSUM | VFDEV_OFFLOAD_SEGMENTATION | VFDEV_OFFLOAD_AUTO_MASK |
                              VFDEV_OFFLOAD_LEGACY_RECEIVE | VFDEV_OFFLOAD_THROTTLE | VFDEV_OFFLOAD_RECEIVE_CHECKSUM), VFDEV_OK);
    EQUAL(vfdev_card_admit(card, 0, &first).refusal, VFDEV_ADMITTED);
    EQUAL(vfdev_card_attach(card, 0), VFDEV_OK);
    EQUAL(vfdev_card_map(card, 0, 0, (vfdev_block){memory, sizeof memory}, false), VFDEV_OK);
    say(card, 0, version, 0);
    for (size_t at = 0; at < sizeof driver / sizeof *driver; at++) {
        write_register(card, 0, driver[at][0], driver[at][1]);
    }
    memset(memory, 0x5A, sizeof memory);
    memcpy(memory + 0x2000, headers, sizeof headers);
}

/* Its driver has the frame cut under a context of this protocol, which stands at that place of the ring. */
static vfdev_card_more_result cut(vfdev_card *card, uint32_t place, uint64_t protocol)
{
    const uint64_t words[4] = {
        VFDEV_TXC_FIRST_MACLEN(14) | VFDEV_TXC_FIRST_IPLEN(20),
        VFDEV_TXD_DEXT | VFDEV_TXD_DTYP(2) | VFDEV_TXC_SECOND_IPV4 | VFDEV_TXC_SECOND_L4T(protocol) | VFDEV_TXC_SECOND_L4LEN(20) |
            VFDEV_TXC_SECOND_MSS(100),
        0x2000,
        VFDEV_TXD_DEXT | VFDEV_TXD_DTYP(3) | VFDEV_TXD_EOP | VFDEV_TXD_RS | VFDEV_TXD_TSE | VFDEV_TXD_LENGTH(304)};
    memcpy(memory + 0x1000 + 16 * place, words, sizeof words);
    write_register(card, 0, VFDEV_TDT(0), place + 2);
    return vfdev_card_more(card, 0);
}

/* How far apart the driver wants the interrupts of its vectors. */
static void intervals(vfdev_card *card)
{
    write_register(card, 0, VFDEV_VTEITR(1), VFDEV_VTEITR_ITR_INTERVAL(25));
    EQUAL(read_register(card, 0, VFDEV_VTEITR(1)), 200);
    EQUAL(vfdev_card_interval(card, 0, 0), 0);
    EQUAL(vfdev_card_interval(card, 0, 1), 50);
    EQUAL(vfdev_card_interval(card, 0, 3), 0);
    EQUAL(vfdev_card_interval(card, 64, 1), 0);
}

/* Each segment has its lengths, its numbers, its flags and its sums; a frame of UDP can't be cut, and is counted. */
static void offloads(void)
{
    vfdev_card card = VFDEV_CARD_NONE;
    EQUAL(vfdev_card_shortfalls(&card, 0), 0);
    EQUAL(vfdev_card_interval(&card, 0, 1), 0);
    begin_full(&card);
    intervals(&card);
    vfdev_card_more_result more = cut(&card, 0, 1);
    EQUAL(more.frames, 3);
    EQUAL(more.goes_on, 0);
    for (uint32_t number = 0; number < 3; number++) {
        const uint32_t size = number == 2 ? 50 : 100;
        EQUAL(vfdev_card_frame(&card, number, frame, sizeof frame), 54 + size);
        EQUAL(frame[17], 40 + size);
        EQUAL(frame[18] << 8 | frame[19], 0x102 + number);
        EQUAL(frame[41], 100 * number);
        EQUAL(frame[47], number == 2 ? 0x19 : 0x10);
        EQUAL(sum(frame + 14, 20, 0), 0xFFFF);
        EQUAL(sum(frame + 34, 20 + size, sum(frame + 26, 8, 6 + 20 + size)), 0xFFFF);
    }
    EQUAL(memory[0x101C] & 1, 1);
    EQUAL(vfdev_card_shortfalls(&card, 0), 0);
    EQUAL(cut(&card, 2, 0).frames, 0);
    EQUAL(memory[0x103C] & 1, 1);
    EQUAL(vfdev_card_shortfalls(&card, 0), 1);
    EQUAL(vfdev_card_shortfalls(&card, 64), 0);
    vfdev_card_free(&card);
}

/* What function 0 has counted. */
static vfdev_function_counts counts(vfdev_card *card)
{
    vfdev_function_counts counts;
    memset(&counts, 0xA5, sizeof counts);
    const vfdev_reply reply = vfdev_card_counts(card, 0, &counts);
    EQUAL(reply.kind, VFDEV_DONE);
    EQUAL(reply.value, 0);
    return counts;
}

/* Its driver has one descriptor taken, which stands at that place of the ring, and no frame leaves. */
static void lose(vfdev_card *card, uint32_t place, uint64_t buffer, uint64_t word)
{
    const uint64_t words[2] = {buffer, word};
    memcpy(memory + 0x1000 + 16 * place, words, sizeof words);
    write_register(card, 0, VFDEV_TDT(0), place + 1);
    EQUAL(vfdev_card_more(card, 0).frames, 0);
}

/* Each frame that is lost is counted by its reason, until the guest resets its function. */
static void losses(void)
{
    const uint64_t data = VFDEV_TXD_DEXT | VFDEV_TXD_EOP | VFDEV_TXD_RS | VFDEV_TXD_LENGTH(60);
    static const vfdev_function_counts none;
    vfdev_function_counts got;
    vfdev_card card = VFDEV_CARD_NONE;
    memset(&got, 0xA5, sizeof got);
    EQUAL(vfdev_card_counts(&card, 0, &got).kind, VFDEV_NO_DEVICE);
    EQUAL(memcmp(&got, &none, sizeof none), 0);
    EQUAL(vfdev_card_unclaimed(&card), 0);
    begin_full(&card);
    memset(&got, 0xA5, sizeof got);
    EQUAL(vfdev_card_counts(&card, 1, &got).value, VFDEV_NO_SUCH_VF);
    EQUAL(memcmp(&got, &none, sizeof none), 0);
    EQUAL(vfdev_card_counts(&card, 64, &got).kind, VFDEV_REFUSED);
    /* from the wire: to the function, which has no ring, and to nobody */
    memcpy(frame, (uint8_t[14]){0x02, 0x82, 0x59, 0, 0, 1, 2, 0, 0, 0, 0, 9, 8, 0}, 14);
    EQUAL(vfdev_card_wire(&card, frame, 60).kind, VFDEV_DONE);
    EQUAL(counts(&card).no_room, 1);
    EQUAL(vfdev_card_unclaimed(&card), 0);
    frame[5] = 5;
    EQUAL(vfdev_card_wire(&card, frame, 60).kind, VFDEV_DONE);
    EQUAL(vfdev_card_unclaimed(&card), 1);
    EQUAL(counts(&card).no_room, 1);
    EQUAL(counts(&card).received, 0);
    /* three segments leave, and UDP can't be cut */
    EQUAL(cut(&card, 0, 1).frames, 3);
    EQUAL(cut(&card, 2, 0).frames, 0);
    EQUAL(counts(&card).sent, 3);
    EQUAL(counts(&card).shortfalls, 1);
    /* a frame whose source isn't the function's, a descriptor of type 1, and one whose last byte is the first past the addresses */
    memory[0x200B] = 2;
    lose(&card, 4, 0x2000, data | VFDEV_TXD_DTYP(3));
    EQUAL(counts(&card).refused, 1);
    EQUAL(counts(&card).faults, 0);
    lose(&card, 5, 0x2000, data | VFDEV_TXD_DTYP(1));
    EQUAL(counts(&card).faults, 1);
    EQUAL(counts(&card).last_fault, VFDEV_QUEUE_UNKNOWN_TYPE);
    write_register(&card, 0, VFDEV_TDH(0), 0);
    write_register(&card, 0, VFDEV_TDT(0), 0);
    write_register(&card, 0, VFDEV_TXDCTL(0), VFDEV_TXDCTL_ENABLE);
    lose(&card, 0, VFDEV_CARD_SPACE - 59, data | VFDEV_TXD_DTYP(3));
    EQUAL(counts(&card).faults, 2);
    EQUAL(counts(&card).last_fault, VFDEV_QUEUE_PAST_MEMORY);
    EQUAL(counts(&card).last_queue, 0);
    EQUAL(counts(&card).unclaimed, 0);
    EQUAL(vfdev_card_flr(&card, 0), VFDEV_OK);
    got = counts(&card);
    EQUAL(memcmp(&got, &none, sizeof none), 0);
    EQUAL(vfdev_card_unclaimed(&card), 1);
    vfdev_card_free(&card);
}

/* The flags of BAR 0, told to a client that asks with room for 64 bytes. The reply has `due` bytes. */
static uint32_t asked(vfdev_card *card, uint8_t function, size_t due)
{
    const uint8_t ask[48] = {7, 0, 5, 0, 48, [16] = 64};
    EQUAL(say(card, function, ask, 0).reply, due);
    EQUAL(room[2], 5);
    return room[20];
}

/* A client is offered the page of its registers by that call alone, no other function's is, and not the next guest's; a reset leaves it so. */
static void areas(void)
{
    vfdev_card card = VFDEV_CARD_NONE;
    EQUAL(vfdev_card_offer_area(&card, 0), VFDEV_CARD_NO_CARD);
    EQUAL(vfdev_card_make(&card, 2, ids, 2, VFDEV_CARD_NOBODY, 1518, 0), VFDEV_OK);
    EQUAL(vfdev_card_offer_area(&card, 64), VFDEV_NO_SUCH_VF);
    for (uint8_t function = 0; function < 2; function++) {
        EQUAL(vfdev_card_attach(&card, function), VFDEV_OK);
    }
    EQUAL(vfdev_card_offer_area(&card, 0), VFDEV_OK);
    for (uint8_t function = 0; function < 2; function++) {
        EQUAL(say(&card, function, version, 0).reply, 114);
    }
    EQUAL(asked(&card, 1, 48) & VFDEV_CARD_MMAP, 0);
    EQUAL(vfdev_card_flr(&card, 0), VFDEV_OK);
    EQUAL(asked(&card, 0, 80) & VFDEV_CARD_MMAP, VFDEV_CARD_MMAP);
    EQUAL(room[65] << 8, VFDEV_CARD_AREA);
    EQUAL(room[73] << 8, VFDEV_CARD_AREA_SIZE);
    EQUAL(vfdev_card_detach(&card, 0), VFDEV_OK);
    EQUAL(vfdev_card_attach(&card, 0), VFDEV_OK);
    EQUAL(say(&card, 0, version, 0).reply, 114);
    EQUAL(asked(&card, 0, 48) & VFDEV_CARD_MMAP, 0);
    vfdev_card_free(&card);
}

/* The writes of a queue's changes go to a card, whose queue then reads as the words say. */
static void give(vfdev_card *card, uint8_t queue, const uint32_t *was, const uint32_t *now)
{
    vfdev_register_write changes[VFDEV_PAGE_CHANGES];
    const size_t count = vfdev_page_changes(queue, was, now, changes);
    for (size_t at = 0; at < count; at++) {
        write_register(card, 0, changes[at].offset, changes[at].value);
    }
    for (uint32_t place = 0; place < VFDEV_PAGE_WORDS; place++) {
        EQUAL(read_register(card, 0, vfdev_page_offset(queue, place)), now[place]);
    }
}

/* What a driver did with a ring in the page: set up and turned on with two frames, moved to another address, turned off; for each queue. */
static void pages(void)
{
    const uint32_t none[VFDEV_PAGE_WORDS] = {0}, first[VFDEV_PAGE_WORDS] = {0x1000, 0, 128, 0, 0, 0, VFDEV_TXDCTL_ENABLE, 2},
                   second[VFDEV_PAGE_WORDS] = {0x2000, 0, 256, 0, 0, 0, VFDEV_TXDCTL_ENABLE, 1}, off[VFDEV_PAGE_WORDS] = {0x2000, 0, 256};
    const uint32_t due[][2] = {{VFDEV_TXDCTL(1), 0}, {VFDEV_TDBAL(1), 0x2000}, {VFDEV_TDLEN(1), 256}, {VFDEV_TDT(1), 1},
                               {VFDEV_TXDCTL(1), VFDEV_TXDCTL_ENABLE}, {VFDEV_TDT(1), 1}};
    vfdev_register_write changes[VFDEV_PAGE_CHANGES];
    vfdev_card card = VFDEV_CARD_NONE;
    memset(changes, 0xA5, sizeof changes);
    EQUAL(vfdev_page_changes(1, first, second, changes), 6);
    for (size_t at = 0; at < 6; at++) {
        EQUAL(changes[at].offset, due[at][0]);
        EQUAL(changes[at].value, due[at][1]);
    }
    EQUAL(changes[6].offset, 0xA5A5A5A5);
    EQUAL(vfdev_page_changes(1, first, first, changes), 0);
    EQUAL(vfdev_page_changes(2, none, first, changes), 0);
    EQUAL(changes[0].offset, due[0][0]);
    EQUAL(vfdev_page_offset(2, 0) + vfdev_page_offset(0, VFDEV_PAGE_WORDS), 0);
    begin_receiving(&card, memory, sizeof memory);
    for (uint8_t queue = 0; queue < 2; queue++) {
        give(&card, queue, none, first);
        give(&card, queue, first, second);
        give(&card, queue, second, off);
    }
    vfdev_card_free(&card);
}

/* Which words go back, and what messages touch. */
static void touches(void)
{
    const uint32_t was[VFDEV_PAGE_WORDS] = {0x1000, 0, 128, 0, 0, 0, VFDEV_TXDCTL_ENABLE, 2}, now[VFDEV_PAGE_WORDS] = {0x1001, 0, 128, 5, 0, 0, 0, 6};
    uint8_t message[36] = {7, 0, 10, 0, 36}, reply[48] = {7, 0, 5, 0, 48, [8] = 1, [20] = 3 | VFDEV_CARD_MMAP};
    EQUAL(vfdev_page_put_back(was, now), 1u << 0 | 1u << 3 | 1u << 6);
    EQUAL(vfdev_page_serviced(was), 1u << 3 | 1u << 6);
    EQUAL(vfdev_page_serviced(now), 0);
    EQUAL(vfdev_page_touched(message, sizeof message).kind, VFDEV_TOUCHES_ALL);
    message[16] = 0x50;
    message[17] = 0x20;
    const vfdev_page_touch touch = vfdev_page_touched(message, sizeof message);
    EQUAL(touch.kind, VFDEV_TOUCHES_ONE);
    EQUAL(touch.queue, 1);
    EQUAL(touch.place, 3);
    EQUAL(vfdev_page_touched(message, 1).kind, VFDEV_TOUCHES_NOTHING);
    EQUAL(vfdev_page_offered(reply, sizeof reply), true);
    reply[8] |= 0x20;
    EQUAL(vfdev_page_offered(reply, sizeof reply), false);
}

int main(void)
{
    vfdev_card card = VFDEV_CARD_NONE;
    makers(&card);
    guests(&card);
    policies(&card);
    client(&card);
    frames(&card);
    guest_to_guest(&card);
    /* the host's message waits until the driver has looked at its mailbox */
    write_register(&card, 0, VFDEV_VTIVAR_MISC, VFDEV_VTIVAR_MISC_INT_ALLOC_VAL | VFDEV_VTIVAR_MISC_INT_ALLOC(0));
    write_register(&card, 0, VFDEV_VTEIMS, 1);
    EQUAL(vfdev_card_notify(&card, 0), 0);
    EQUAL(vfdev_card_raised(&card), 0);
    EQUAL(read_register(&card, 0, 0x2FC) & 0x10, 0x10);
    EQUAL(vfdev_card_notify(&card, 0), 1);
    /* and tells the driver by its vector */
    EQUAL(vfdev_card_signal(&card, 0), 1);
    EQUAL(vfdev_card_flr(&card, 0), VFDEV_OK);
    EQUAL(read_register(&card, 0, 0x200), 0x40000100);
    EQUAL(vfdev_card_detach(&card, 0), VFDEV_OK);
    EQUAL(vfdev_card_attach(&card, 0), VFDEV_OK);
    vfdev_card_free(&card);
    EQUAL(vfdev_card_flr(&card, 0), VFDEV_CARD_NO_CARD);
    EQUAL(vfdev_card_wire(&card, frame, 60).kind, VFDEV_NO_DEVICE);
    vfdev_card_free(&card);
    bursts();
    offloads();
    losses();
    areas();
    pages();
    touches();
    return 0;
}
