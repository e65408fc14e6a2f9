/* A card of 64 functions, whose guests have 1 GiB each, which is mapped and hardly touched: each sends a frame to the next one by rings and
 * buffers at the end of its memory, all go, and others take their places, who see nothing of them. Only the pages that are used take memory,
 * and how big a guest is costs no time as it comes and goes. It writes nothing, and ends with 0, where all is as it should be. */
#define _GNU_SOURCE
#include "client.h"
#include "vfdev_regs.h"

#include <sys/mman.h>
#include <time.h>
#include <unistd.h>

enum { FUNCTIONS = 64, LOW = 1 << 16 };
static const uint64_t GIB = UINT64_C(1) << 30;
/* A guest's memory begins at 4 GiB; its rings and frames are at its end. */
static const uint64_t BASE = UINT64_C(4) << 30, SENDS = 0x1000, RECEIVES = 0x1080, FRAME = 0x2000, BUFFER = 0x2800;

static vfdev_card card = VFDEV_CARD_NONE;
static uint8_t *memory[FUNCTIONS];

static uint64_t guest_address(uint64_t at)
{
    return BASE + GIB - LOW + at;
}

static uint8_t *host_address(uint8_t function, uint64_t at)
{
    return memory[function] + GIB - LOW + at;
}

static void put_word(uint8_t function, uint64_t at, uint64_t word)
{
    memcpy(host_address(function, at), &word, 8);
}

static double microseconds(void)
{
    struct timespec now;
    EQUAL(clock_gettime(CLOCK_MONOTONIC, &now), 0);
    return (double)now.tv_sec * 1e6 + (double)now.tv_nsec / 1e3;
}

/* How many bytes of this process are in memory. */
static uint64_t resident(void)
{
    unsigned long long pages = 0;
    FILE *file = fopen("/proc/self/statm", "r");
    EQUAL(file != NULL && fscanf(file, "%*u %llu", &pages) == 1, 1);
    fclose(file);
    return pages * (uint64_t)sysconf(_SC_PAGESIZE);
}

static void come(uint8_t function)
{
    EQUAL(vfdev_card_attach(&card, function), VFDEV_OK);
    EQUAL(vfdev_card_map(&card, function, BASE, (vfdev_block){memory[function], GIB}, false), VFDEV_OK);
    say(&card, function, version, 0);
}

/* The driver's mailbox, a receive queue with one buffer, and a transmit queue with a frame for the next function. */
static void start_driver(uint8_t function)
{
    const uint8_t addresses[12] = {2, 0x82, 0x59, 0, 0, (function + 1) % FUNCTIONS, 2, 0x82, 0x59, 0, 0, function};
    const uint32_t high = (uint32_t)(BASE >> 32);
    const uint32_t writes[][2] = {{0x200, 1},
                                  {0x2FC, 4},
                                  {0x2FC, 1},
                                  {VFDEV_RDBAL(0), (uint32_t)guest_address(RECEIVES)},
                                  {VFDEV_RDBAH(0), high},
                                  {VFDEV_RDLEN(0), 128},
                                  {VFDEV_SRRCTL(0), VFDEV_SRRCTL_DESCTYPE(1) | VFDEV_SRRCTL_BSIZEPACKET(2)},
                                  {VFDEV_RXDCTL(0), VFDEV_RXDCTL_ENABLE},
                                  {VFDEV_RDT(0), 1},
                                  {VFDEV_TDBAL(0), (uint32_t)guest_address(SENDS)},
                                  {VFDEV_TDBAH(0), high},
                                  {VFDEV_TDLEN(0), 128},
                                  {VFDEV_TXDCTL(0), VFDEV_TXDCTL_ENABLE}};
    put_word(function, RECEIVES, guest_address(BUFFER));
    put_word(function, SENDS, guest_address(FRAME));
    put_word(function, SENDS + 8, VFDEV_TXD_DEXT | VFDEV_TXD_DTYP(3) | VFDEV_TXD_EOP | VFDEV_TXD_RS | VFDEV_TXD_LENGTH(60));
    memcpy(host_address(function, FRAME), addresses, sizeof addresses);
    *host_address(function, FRAME + 12) = 8;
    *host_address(function, FRAME + 59) = function;
    for (size_t at = 0; at < sizeof writes / sizeof *writes; at++) {
        write_register(&card, function, writes[at][0], writes[at][1]);
    }
}

/* Each sends its frame to the next. */
static void talk(void)
{
    for (uint8_t function = 0; function < FUNCTIONS; function++) {
        start_driver(function);
    }
    for (uint8_t function = 0; function < FUNCTIONS; function++) {
        uint8_t to = (function + 1) % FUNCTIONS;
        write_register(&card, function, VFDEV_TDT(0), 1);
        EQUAL(vfdev_card_more(&card, function).frames, 0);
        EQUAL(*host_address(to, BUFFER + 59), function);
        EQUAL(*host_address(to, RECEIVES + 12), 60);
        EQUAL(read_register(&card, function, VFDEV_VFGPTC), 1);
    }
}

int main(void)
{
    static const uint16_t ids[] = {0};
    double comes = 1e9, goes = 1e9, began;
    uint64_t before;
    EQUAL(vfdev_card_make(&card, FUNCTIONS, ids, 1, VFDEV_CARD_NOBODY, 1518, 0), VFDEV_OK);
    before = resident();
    for (uint8_t function = 0; function < FUNCTIONS; function++) {
        const vfdev_card_policy granted = policy(function);
        memory[function] = mmap(NULL, GIB, PROT_READ | PROT_WRITE, MAP_PRIVATE | MAP_ANONYMOUS | MAP_NORESERVE, -1, 0);
        EQUAL(memory[function] != MAP_FAILED, 1);
        EQUAL(vfdev_card_admit(&card, function, &granted).refusal, VFDEV_ADMITTED);
    }
    for (int life = 0; life < 2; life++) {
        for (uint8_t function = 0; function < FUNCTIONS; function++) {
            began = microseconds();
            come(function);
            comes = microseconds() - began < comes ? microseconds() - began : comes;
            /* the one before has left no register, and nothing that was counted */
            EQUAL(read_register(&card, function, VFDEV_RDBAL(0)), 0);
            EQUAL(read_register(&card, function, VFDEV_VFGPRC), 0);
        }
        talk();
        /* of the 1 GiB of each guest 64 KiB at most are there */
        EQUAL(resident() - before < FUNCTIONS * (uint64_t)LOW, 1);
        for (uint8_t function = 0; function < FUNCTIONS; function++) {
            began = microseconds();
            EQUAL(vfdev_card_detach(&card, function), VFDEV_OK);
            goes = microseconds() - began < goes ? microseconds() - began : goes;
            EQUAL(munmap(memory[function], GIB), 0);
            memory[function] = mmap(NULL, GIB, PROT_READ | PROT_WRITE, MAP_PRIVATE | MAP_ANONYMOUS | MAP_NORESERVE, -1, 0);
            EQUAL(memory[function] != MAP_FAILED, 1);
        }
    }
    /* microseconds: to touch 1 GiB takes a hundred thousand and more */
    EQUAL(comes < 1000 && goes < 1000, 1);
    vfdev_card_free(&card);
    return 0;
}
