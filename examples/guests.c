/* Guests that come and go, of a hypervisor that emulates the PCI functions itself. Two guests come, each with a block of 1 GiB from 1 MiB on, of
 * which a few pages are touched; a page of guest 0 is refused to guest 1; guest 1 sends three frames to guest 0 and one to the wire, all in one
 * burst; then guest 0 goes, and another one takes its place, who sees nothing of it.
 *
 * Build, in a clone after bindings/test: cc -Iinclude examples/guests.c bindings/native/libvfdev_c.a bindings/native/liblibc_c.a -o guests
 * docs/EMBEDDING.md has other ways. It prints what examples/guests.c.stdout has. */
#include "vfdev.h"
#include "vfdev_regs.h"
#include <stdio.h>
#include <stdlib.h>
#include <string.h>

/* Where a guest's memory is, and in that its rings, its buffers of 2 KiB and, in the last page, its frames. */
enum { MIB = 1 << 20, SIZE = 1 << 30, RECEIVES = 0x1000, SENDS = 0x2000, BUFFER = SIZE / 2, SENT = SIZE - 4096, FRAME = 60 };

static uint8_t *memory[3];
static uint8_t messages[VFDEV_POOLS];
static uint8_t out[VFDEV_MOST_FRAME];
static vfdev device = VFDEV_NONE;

/* Says what came of a step. */
static void step(const char *what, enum vfdev_fault answer)
{
    printf("%s: %s\n", what, vfdev_fault_text(answer));
}

/* Ends the program where a step of the setup is not done. */
static void must(vfdev_reply reply)
{
    if (reply.kind != VFDEV_DONE) {
        printf("setup: %s\n", vfdev_kind_text(reply.kind));
        exit(1);
    }
}

static void vf(uint8_t function, uint32_t offset, uint32_t value)
{
    must(vfdev_vf_write(&device, function, offset, value, messages, sizeof messages));
}

/* Writes a number of 8 bytes, lowest first, as a guest's driver does. */
static void put(uint8_t *at, uint64_t word)
{
    for (size_t byte = 0; byte < 8; byte++)
        at[byte] = (uint8_t)(word >> (8 * byte));
}

/* A guest comes with a block, and its driver turns on a ring of eight descriptors for each way. */
static void come(uint8_t function, uint8_t *bytes)
{
    step("a guest comes", vfdev_attach(&device, function));
    step("its memory is mapped", vfdev_map(&device, function, MIB, (vfdev_block){bytes, SIZE}, false));
    for (uint64_t slot = 0; slot < 8; slot++)
        put(bytes + RECEIVES + 16 * slot, MIB + (uint64_t)BUFFER + 2048 * slot);
    vf(function, VFDEV_RDBAL(0), MIB + RECEIVES);
    vf(function, VFDEV_RDLEN(0), 128);
    vf(function, VFDEV_SRRCTL(0), VFDEV_SRRCTL_DESCTYPE(1) | VFDEV_SRRCTL_BSIZEPACKET(2));
    vf(function, VFDEV_RXDCTL(0), VFDEV_RXDCTL_ENABLE);
    vf(function, VFDEV_RDT(0), 7);
    vf(function, VFDEV_VTIVAR, VFDEV_VTIVAR_RX0(0x80)); /* vector 0, valid */
    vf(function, VFDEV_VTEIMS, 1);
    vf(function, VFDEV_TDBAL(0), MIB + SENDS);
    vf(function, VFDEV_TDLEN(0), 128);
    vf(function, VFDEV_TXDCTL(0), VFDEV_TXDCTL_ENABLE);
}

/* A guest's driver lays a frame, and a descriptor for it. */
static void lay(uint8_t *bytes, unsigned slot, uint8_t to, uint8_t from)
{
    const uint8_t addresses[14] = {2, 0, 0, 0, 0, to, 2, 0, 0, 0, 0, from, 8, 0};
    memcpy(bytes + SENT + 64 * slot, addresses, sizeof addresses);
    bytes[SENT + 64 * slot + FRAME - 1] = (uint8_t)(slot + 1);
    put(bytes + SENDS + 16 * slot, MIB + (uint64_t)SENT + 64 * slot);
    put(bytes + SENDS + 16 * slot + 8, VFDEV_TXD_DEXT | VFDEV_TXD_DTYP(3) | VFDEV_TXD_EOP | VFDEV_TXD_RS | VFDEV_TXD_LENGTH(FRAME));
}

/* The last byte of the frame in each of the first buffers, which tells its number. */
static void show(const char *who, const uint8_t *bytes)
{
    printf("%s has frames %u %u %u\n", who, bytes[BUFFER + FRAME - 1], bytes[BUFFER + 2048 + FRAME - 1], bytes[BUFFER + 4096 + FRAME - 1]);
}

int main(void)
{
    for (size_t guest = 0; guest < 3; guest++) {
        memory[guest] = calloc(1, SIZE); /* (no page of it is there before it is touched) */
        if (!memory[guest])
            return 1;
    }
    step("a device is made", vfdev_make_guests(&device, 2, 1518, 0));
    must(vfdev_pf_write(&device, VFDEV_PFVFRE(0), 3));
    must(vfdev_pf_write(&device, VFDEV_PFVFTE(0), 3));
    must(vfdev_pf_write(&device, VFDEV_PFDTXGSWC, VFDEV_PFDTXGSWC_LBE));
    for (uint32_t p = 0; p < 2; p++) {
        must(vfdev_pf_write(&device, VFDEV_RAL(p), 2));
        must(vfdev_pf_write(&device, VFDEV_RAH(p), VFDEV_RAH_AV | p << 8));
        must(vfdev_pf_write(&device, VFDEV_MPSAR(2 * p), 1u << p));
    }
    come(0, memory[0]);
    come(1, memory[1]);
    step("guest 0's memory for guest 1", vfdev_map(&device, 1, 0, (vfdev_block){memory[0] + 4096, 4096}, false));

    lay(memory[1], 0, 0, 1);
    lay(memory[1], 1, 0, 1);
    lay(memory[1], 2, 0x77, 1);
    lay(memory[1], 3, 0, 1);
    vf(1, VFDEV_TDT(0), 4);
    vfdev_burst_result burst = vfdev_serve_burst(&device, 1, 0, 64, messages);
    printf("a burst: %zu frames for the wire, vectors %u for guest 0\n", burst.frames, messages[0]);
    for (uint32_t number = 0; number < burst.frames; number++) {
        size_t length = vfdev_frame(&device, number, out, sizeof out);
        printf("  frame of %zu bytes, number %u\n", length, out[FRAME - 1]);
    }
    show("guest 0", memory[0]);

    step("guest 0 goes", vfdev_detach(&device, 0));
    come(0, memory[2]);
    lay(memory[1], 4, 0, 1);
    vf(1, VFDEV_TDT(0), 5);
    burst = vfdev_serve_burst(&device, 1, 0, 64, messages);
    printf("a burst: %zu frames for the wire, vectors %u for guest 0\n", burst.frames, messages[0]);
    show("the next guest 0", memory[2]);
    show("the memory of the former", memory[0]);
    vfdev_free(&device);
    for (size_t guest = 0; guest < 3; guest++)
        free(memory[guest]);
    return 0;
}
