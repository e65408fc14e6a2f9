/* A shell around a card, in small: two guests of 1 GiB come, whose drivers are played here by the messages that QEMU would send for them. Guest
 * 0 sends three frames in a row to guest 1, and a fourth with another's source, which is dropped. Then guest 1 is unplugged, and another one
 * takes its place, who sees nothing of it.
 *
 * A real shell reads the messages from a UNIX socket of each function, maps the files that come with them, and writes eventfds; the program
 * vfdev-server is one.
 *
 * Build, in a clone after bindings/test: cc -Iinclude examples/card.c bindings/native/libvfdev_c.a bindings/native/liblibc_c.a -o card
 * It prints what examples/card.c.stdout has. */
#define _GNU_SOURCE
#include "vfdev_card.h"
#include "vfdev_regs.h"
#include <stdio.h>
#include <stdlib.h>
#include <string.h>
#include <sys/mman.h>

enum { GUESTS = 2, FRAMES = 4, SLOTS = 8 };
static const uint64_t GIB = UINT64_C(1) << 30;
/* Where the driver of a guest has its rings, its frames and its buffers of 2 KiB. */
static const uint64_t SENDS = 0x20000000, RECEIVES = 0x20001000, FRAME = 0x20002000, BUFFER = 0x20010000;

static vfdev_card card = VFDEV_CARD_NONE;
static uint8_t *memory[GUESTS];
static uint8_t room[VFDEV_CARD_ROOM];

/* Ends the program where a call is not done. */
static void must(uint32_t answer)
{
    if (answer != VFDEV_OK) {
        printf("answered %u\n", answer);
        exit(1);
    }
}

static void put(uint8_t *at, uint64_t number, int bytes)
{
    for (int i = 0; i < bytes; i++)
        at[i] = (uint8_t)(number >> (8 * i));
}

/* A whole message of a guest's QEMU, by its command, with so many files beside it; and what the shell does with it. */
static void say(uint8_t guest, uint8_t command, const uint8_t *body, size_t size, size_t files)
{
    uint8_t message[64] = {7, 0, command, 0, (uint8_t)(16 + size)};
    vfdev_card_step step;
    memcpy(message + 16, body, size);
    vfdev_card_receive(&card, guest, message, 16 + size, files, room, &step);
    switch (step.kind) {
    case VFDEV_STEP_ANSWERED:
        break;
    case VFDEV_STEP_MAP:
        /* (here it maps the file that came) */
        must(vfdev_card_map(&card, guest, step.address, (vfdev_block){memory[guest], step.size}, step.access == VFDEV_ACCESS_READ));
        printf("guest %u: %llu MiB of memory\n", guest, (unsigned long long)(step.size >> 20));
        break;
    case VFDEV_STEP_ARM:
        /* (here it keeps the eventfds that came) */
        printf("guest %u: %u vectors with files\n", guest, step.count);
        break;
    default:
        printf("guest %u: step %u\n", guest, step.kind);
        exit(1);
    }
    /* (here it sends the reply, the first step.reply bytes of the room) */
}

static void write_register(uint8_t guest, uint32_t offset, uint32_t value)
{
    uint8_t body[20] = {0};
    put(body, offset, 8);
    put(body + 12, 4, 4);
    put(body + 16, value, 4);
    say(guest, 10, body, sizeof body, 0);
}

static uint32_t read_register(uint8_t guest, uint32_t offset)
{
    uint8_t body[16] = {0};
    uint32_t value;
    put(body, offset, 8);
    put(body + 12, 4, 4);
    say(guest, 9, body, sizeof body, 0);
    memcpy(&value, room + 32, 4);
    return value;
}

/* A guest comes: its memory, which nobody has touched, and its client's first messages. */
static void come(uint8_t guest)
{
    const uint8_t version[4] = {0}, arm[20] = {20, 0, 0, 0, 0x24, 0, 0, 0, 2, [16] = 2};
    uint8_t map[32] = {32, [4] = 3};
    memory[guest] = mmap(NULL, GIB, PROT_READ | PROT_WRITE, MAP_PRIVATE | MAP_ANONYMOUS | MAP_NORESERVE, -1, 0);
    if (memory[guest] == MAP_FAILED)
        exit(1);
    must(vfdev_card_attach(&card, guest));
    say(guest, 1, version, sizeof version, 0);
    put(map + 24, GIB, 8);
    say(guest, 2, map, sizeof map, 1);
    say(guest, 8, arm, sizeof arm, 2);
}

/* It goes, with its memory. */
static void go(uint8_t guest)
{
    must(vfdev_card_detach(&card, guest));
    munmap(memory[guest], GIB);
    printf("guest %u: gone\n", guest);
}

/* Its driver asks the host for its address, and sets its rings up. */
static void start_driver(uint8_t guest)
{
    const uint32_t writes[][2] = {{0x200, 1},
                                  {0x2FC, 4},
                                  {0x2FC, 1},
                                  {VFDEV_RDBAL(0), RECEIVES},
                                  {VFDEV_RDLEN(0), 16 * SLOTS},
                                  {VFDEV_SRRCTL(0), VFDEV_SRRCTL_DESCTYPE(1) | VFDEV_SRRCTL_BSIZEPACKET(2)},
                                  {VFDEV_RXDCTL(0), VFDEV_RXDCTL_ENABLE},
                                  {VFDEV_RDT(0), SLOTS - 1},
                                  {VFDEV_TDBAL(0), SENDS},
                                  {VFDEV_TDLEN(0), 16 * SLOTS},
                                  {VFDEV_TXDCTL(0), VFDEV_TXDCTL_ENABLE},
                                  {VFDEV_VTIVAR, VFDEV_VTIVAR_RX0(0x80) | VFDEV_VTIVAR_TX0(0x80)},
                                  {VFDEV_VTEIMS, 1}};
    for (uint32_t slot = 0; slot < SLOTS; slot++)
        put(memory[guest] + RECEIVES + 16 * slot, BUFFER + 2048 * slot, 8);
    for (size_t at = 0; at < sizeof writes / sizeof *writes; at++)
        write_register(guest, writes[at][0], writes[at][1]);
    printf("guest %u: its address ends with %02x\n", guest, read_register(guest, 0x208) >> 8 & 0xFF);
}

/* Guest 0 hands frames over, all at once, the last of them with another's source. */
static void send(void)
{
    for (uint8_t number = 0; number < FRAMES; number++) {
        const uint8_t head[14] = {2, 0, 0, 0, 0, 1, 2, 0, 0, 0, 0, number == FRAMES - 1 ? 0x77 : 0, 8, 0};
        uint8_t *frame = memory[0] + FRAME + 64 * number, *descriptor = memory[0] + SENDS + 16 * number;
        memcpy(frame, head, sizeof head);
        frame[14] = number;
        put(descriptor, FRAME + 64u * number, 8);
        put(descriptor + 8, VFDEV_TXD_DEXT | VFDEV_TXD_DTYP(3) | VFDEV_TXD_EOP | VFDEV_TXD_RS | VFDEV_TXD_LENGTH(60), 8);
    }
    write_register(0, VFDEV_TDT(0), FRAMES);
}

/* What a shell does in turn: the queues of a busy function, what leaves for the wire, and the vectors that were raised. */
static void turn(void)
{
    for (uint8_t guest = 0; guest < GUESTS; guest++) {
        if (vfdev_card_is_busy(&card, guest))
            printf("guest %u: %zu frames leave for the wire\n", guest, vfdev_card_more(&card, guest).frames);
    }
    for (uint8_t guest = 0; guest < GUESTS; guest++) {
        uint32_t vectors = vfdev_card_signal(&card, guest);
        if (vectors)
            printf("guest %u: interrupt vectors %u\n", guest, vectors);
    }
}

/* What guest 1 sees. */
static void look(void)
{
    printf("guest 1: %u frames came; ring at 0x%x; in its first buffers %u, %u, %u\n", read_register(1, VFDEV_VFGPRC),
           read_register(1, VFDEV_RDBAL(0)), memory[1][BUFFER + 12], memory[1][BUFFER + 2048 + 14], memory[1][BUFFER + 2 * 2048 + 14]);
}

int main(void)
{
    static const uint16_t ids[] = {0};
    if (vfdev_version() != VFDEV_VERSION)
        return 1;
    must(vfdev_card_make(&card, GUESTS, ids, 1, VFDEV_CARD_NOBODY, 1518, 0));
    for (uint8_t guest = 0; guest < GUESTS; guest++) {
        /* the administrator's word: an address, and VLAN 0 */
        const vfdev_card_policy policy = {.address = {2, 0, 0, 0, 0, guest}, .link_up = 1, .joins = 1};
        must(vfdev_card_admit(&card, guest, &policy).refusal);
        come(guest);
        start_driver(guest);
    }
    send();
    turn();
    look();
    go(1);
    come(1);
    look();
    vfdev_card_free(&card);
    return 0;
}
