/* A device whose calls are recorded, and an auditor. A guest opens, writes its memory and reads it; then the recording is full. A
 * fresh device gives each recorded answer. A device with a register that was written before does not.
 *
 * Build, in a clone after bindings/test: cc -Iinclude examples/audit.c bindings/native/libvfdev_c.a bindings/native/liblibc_c.a -o audit
 * docs/EMBEDDING.md has other ways. It prints what examples/audit.c.stdout has. */
#include "vfdev.h"
#include "vfdev_regs.h"
#include <stdio.h>
#include <stdlib.h>
#include <string.h>

enum { FUNCTIONS = 1, MEMORY = 4096, LIMIT = 1518, CALLS = 6 };

/* Ends the program where a call is refused that should be done. */
static void must(vfdev_reply reply)
{
    if (reply.kind == VFDEV_REFUSED) {
        printf("refused: %s\n", vfdev_fault_text(reply.value));
        exit(1);
    }
}

/* Replays the recording on a device of the same make that was given one more event before, or none. */
static void audit(vfdev *device, int planted)
{
    vfdev other = VFDEV_NONE;
    if (vfdev_make(&other, FUNCTIONS, MEMORY, LIMIT) != VFDEV_OK)
        return;
    if (planted)
        must(vfdev_pf_write(&other, VFDEV_PFVFRE(0), 1)); /* function 0 may receive */
    printf("%s: %s\n", planted ? "a device with a register that was written" : "a fresh device",
           vfdev_replayed_text(vfdev_replay(device, &other)));
    vfdev_free(&other);
}

int main(void)
{
    vfdev device = VFDEV_NONE;
    uint8_t bytes[4] = {1, 2, 3, 4};
    if (vfdev_make_recorded(&device, FUNCTIONS, MEMORY, LIMIT, CALLS) != VFDEV_OK)
        return 1;
    printf("kept before the first call: %zu\n", vfdev_kept(&device));
    must(vfdev_open(&device, 0));
    must(vfdev_mem_write(&device, 0, 16, bytes, sizeof bytes));
    memset(bytes, 0, sizeof bytes);
    must(vfdev_mem_read(&device, 0, 16, bytes, sizeof bytes));
    must(vfdev_pf_read(&device, VFDEV_PFVFRE(0)));
    printf("kept: %zu\n", vfdev_kept(&device));
    audit(&device, 0);
    audit(&device, 1);
    if (vfdev_open(&device, 0).value == VFDEV_ALREADY_OPEN)
        must(vfdev_end(&device, 0));
    printf("kept, with a call that was refused: %zu\n", vfdev_kept(&device));
    if (vfdev_open(&device, 0).kind == VFDEV_HISTORY_FULL)
        printf("no more calls can be kept\n");
    audit(&device, 0);
    vfdev_free(&device);
    printf("kept after it was freed: %zu\n", vfdev_kept(&device));
    return 0;
}
