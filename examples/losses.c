/* What was lost of two guests, and why. Nobody takes a broadcast; then function 0 does, without a ring. Function 1 sends a frame whose source
 * isn't its own, and hands over a descriptor whose bytes pass the end of its memory.
 *
 * Build, in a clone after bindings/test: cc -Iinclude examples/losses.c bindings/native/libvfdev_c.a bindings/native/liblibc_c.a -o losses
 * docs/EMBEDDING.md has other ways. It prints what examples/losses.c.stdout has. */
#include "vfdev.h"
#include "vfdev_regs.h"
#include <inttypes.h>
#include <stdio.h>
#include <stdlib.h>

enum { FUNCTIONS = 2, MEMORY = 65536, LIMIT = 1518, RING = 0x1000, FRAME = 60 };

static uint8_t messages[VFDEV_POOLS], out[VFDEV_MOST_FRAME];

/* Ends the program where a call is refused that should be done. */
static void must(vfdev_reply reply)
{
    if (reply.kind == VFDEV_REFUSED) {
        printf("refused: %s\n", vfdev_fault_text(reply.value));
        exit(1);
    }
}

static void vf_write(vfdev *device, uint32_t offset, uint32_t value)
{
    must(vfdev_vf_write(device, 1, offset, value, messages, sizeof messages));
}

/* Function 1 hands over one more descriptor, of a frame at that address. */
static void send(vfdev *device, uint32_t place, uint64_t at)
{
    const uint64_t words[2] = {at, VFDEV_TXD_DEXT | VFDEV_TXD_DTYP(3) | VFDEV_TXD_EOP | VFDEV_TXD_LENGTH(FRAME)};
    must(vfdev_mem_write(device, 1, RING + 16 * place, (const uint8_t *)words, sizeof words));
    vf_write(device, VFDEV_TDT(0), place + 1);
    must(vfdev_serve(device, 1, 0, out, sizeof out, NULL, messages, sizeof messages));
}

static void tell(vfdev *device)
{
    printf("from the wire, for nobody: %" PRIu32 "\n", vfdev_unclaimed(device));
    for (uint8_t function = 0; function < FUNCTIONS; function++) {
        vfdev_function_counts counts;
        must(vfdev_counts(device, function, &counts));
        printf("function %u: %" PRIu32 " without room, %" PRIu32 " refused, %" PRIu32 " faults, the last: %s\n", function, counts.no_room,
               counts.refused, counts.faults, vfdev_queue_fault_text(counts.last_fault));
    }
}

int main(void)
{
    vfdev device = VFDEV_NONE;
    const uint8_t broadcast[FRAME] = {0xFF, 0xFF, 0xFF, 0xFF, 0xFF, 0xFF, 2, 0, 0, 0, 0, 9, 8, 0};
    if (vfdev_make(&device, FUNCTIONS, MEMORY, LIMIT) != VFDEV_OK)
        return 1;
    must(vfdev_open(&device, 0));
    must(vfdev_open(&device, 1));
    must(vfdev_wire(&device, broadcast, sizeof broadcast, messages, sizeof messages));
    must(vfdev_pf_write(&device, VFDEV_PFVFRE(0), 1)); /* function 0 may receive, and broadcasts are for it */
    must(vfdev_pf_write(&device, VFDEV_VMOLR(0), VFDEV_VMOLR_AUPE | VFDEV_VMOLR_BAM));
    must(vfdev_wire(&device, broadcast, sizeof broadcast, messages, sizeof messages));
    must(vfdev_pf_write(&device, VFDEV_PFVFTE(0), 2)); /* function 1 may send, and its source is looked at: it has no address */
    must(vfdev_pf_write(&device, VFDEV_PFVFSPOOF(0), 2));
    must(vfdev_mem_write(&device, 1, 0x4000, broadcast, sizeof broadcast));
    vf_write(&device, VFDEV_TDBAL(0), RING);
    vf_write(&device, VFDEV_TDLEN(0), 128);
    vf_write(&device, VFDEV_TXDCTL(0), VFDEV_TXDCTL_ENABLE);
    send(&device, 0, 0x4000);
    send(&device, 1, MEMORY - FRAME + 1);
    tell(&device);
    vfdev_free(&device);
    return 0;
}
