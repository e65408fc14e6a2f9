/* Two guests of a hypervisor that links vfdev. The memories are the hypervisor's own, lent to the device: the guests' drivers
 * write their rings straight into them. A frame of the wire reaches guest 0 with its interrupt, guest 1 sends one frame to
 * the wire and one to guest 0, a read at offset 2, where no register is, is refused, and a frame with another's source is
 * dropped.
 *
 * Build, in a clone after bindings/test: cc -Iinclude examples/vmm.c bindings/native/libvfdev_c.a bindings/native/liblibc_c.a -o vmm
 * docs/EMBEDDING.md has other ways. It prints what examples/vmm.c.stdout has. */
#include "vfdev.h"
#include "vfdev_regs.h"
#include <stdio.h>
#include <stdlib.h>
#include <string.h>

enum { GUESTS = 2, MEMORY = 65536, FRAME = 60 };

static uint8_t memory[GUESTS][MEMORY];
static uint8_t messages[VFDEV_POOLS];
static uint8_t out[VFDEV_MOST_FRAME];
static vfdev device = VFDEV_NONE;

/* Prints a reply. */
static void show(const char *what, vfdev_reply reply)
{
    printf("%s: %s", what, vfdev_kind_text(reply.kind));
    if (reply.kind == VFDEV_VALUE)
        printf(" 0x%08x", reply.value);
    if (reply.kind == VFDEV_REFUSED)
        printf(", %s", vfdev_fault_text(reply.value));
    printf("\n");
}

/* Prints the interrupts that the last call issued. */
static void show_messages(void)
{
    for (unsigned p = 0; p < VFDEV_POOLS; p++)
        if (messages[p])
            printf("  interrupt: guest %u, vectors %u\n", p, messages[p]);
}

/* Ends the program where a step of the setup is not done. */
static void must(vfdev_reply reply)
{
    if (reply.kind != VFDEV_DONE) {
        show("setup", reply);
        exit(1);
    }
}

static void pf(uint32_t offset, uint32_t value)
{
    must(vfdev_pf_write(&device, offset, value));
}

static void vf(uint8_t guest, uint32_t offset, uint32_t value)
{
    must(vfdev_vf_write(&device, guest, offset, value, messages, sizeof messages));
}

/* Writes a number of 8 bytes, lowest first, as a guest's driver does. */
static void put(uint8_t guest, size_t at, uint64_t word)
{
    for (int i = 0; i < 8; i++)
        memory[guest][at + i] = (uint8_t)(word >> (8 * i));
}

/* A frame of 60 bytes between addresses 02:00:00:00:00:xx. */
static void frame(uint8_t *at, uint8_t to, uint8_t from, uint8_t fill)
{
    memset(at, 0, FRAME);
    at[0] = at[6] = 2;
    at[5] = to;
    at[11] = from;
    at[12] = 8;
    memset(at + 14, fill, FRAME - 14);
}

/* The host: both guests receive and send, frames go from guest to guest, each guest has the address that ends with its
 * number, and the sources of guest 1 are checked. */
static void set_up_host(void)
{
    pf(VFDEV_PFVFRE(0), 3);
    pf(VFDEV_PFVFTE(0), 3);
    pf(VFDEV_PFDTXGSWC, VFDEV_PFDTXGSWC_LBE);
    pf(VFDEV_PFVFSPOOF(0), VFDEV_PFVFSPOOF_MACAS(1u << 1));
    for (uint32_t g = 0; g < GUESTS; g++) {
        pf(VFDEV_RAL(g), 2);
        pf(VFDEV_RAH(g), VFDEV_RAH_AV | g << 8);
        pf(VFDEV_MPSAR(2 * g), 1u << g);
    }
}

/* Guest 0: eight receive descriptors with buffers of 2048 bytes, and an interrupt for each frame that comes. */
static void set_up_receiver(void)
{
    for (size_t i = 0; i < 8; i++)
        put(0, 0x1000 + 16 * i, 0x4000 + 0x800 * i);
    vf(0, VFDEV_RDBAL(0), 0x1000);
    vf(0, VFDEV_RDLEN(0), 128);
    vf(0, VFDEV_SRRCTL(0), VFDEV_SRRCTL_DESCTYPE(1) | VFDEV_SRRCTL_BSIZEPACKET(2));
    vf(0, VFDEV_RXDCTL(0), VFDEV_RXDCTL_ENABLE);
    vf(0, VFDEV_RDT(0), 7);
    vf(0, VFDEV_VTIVAR, VFDEV_VTIVAR_RX0(0x80)); /* vector 0, valid */
    vf(0, VFDEV_VTEIAC, 1);
    vf(0, VFDEV_VTEIMS, 1);
}

/* Guest 1: three frames to send: to the wire, to guest 0, and one with the source of guest 0. */
static void set_up_sender(void)
{
    frame(memory[1] + 0x6000, 0x77, 1, 0xaa);
    frame(memory[1] + 0x6100, 0, 1, 0xbb);
    frame(memory[1] + 0x6200, 0x77, 0, 0xdd);
    for (size_t i = 0; i < 3; i++) {
        put(1, 0x2000 + 16 * i, 0x6000 + 0x100 * i);
        put(1, 0x2008 + 16 * i,
            VFDEV_TXD_DEXT | VFDEV_TXD_DTYP(3) | VFDEV_TXD_RS | VFDEV_TXD_EOP | VFDEV_TXD_LENGTH(FRAME));
    }
    vf(1, VFDEV_TDBAL(0), 0x2000);
    vf(1, VFDEV_TDLEN(0), 128);
    vf(1, VFDEV_TXDCTL(0), VFDEV_TXDCTL_ENABLE);
    vf(1, VFDEV_TDT(0), 3);
}

/* Guest 0 looks at its descriptor and buffer. */
static void look(size_t index)
{
    const uint8_t *descriptor = memory[0] + 0x1000 + 16 * index;
    const uint8_t *buffer = memory[0] + 0x4000 + 0x800 * index;
    printf("  guest 0, descriptor %zu: %u bytes, status %u, from %02x, filled with %02x\n", index,
           descriptor[12] | descriptor[13] << 8, descriptor[8], buffer[11], buffer[14]);
}

int main(void)
{
    if (vfdev_version() != VFDEV_VERSION)
        return 1;
    for (int g = 0; g < GUESTS; g++)
        if (vfdev_lend(&device, (vfdev_block){memory[g], MEMORY}) != VFDEV_OK)
            return 1;
    if (vfdev_make_lent(&device, 1518) != VFDEV_OK)
        return 1;
    printf("make again: %s\n", vfdev_fault_text(vfdev_make(&device, 2, MEMORY, 1518)));
    must(vfdev_open(&device, 0));
    must(vfdev_open(&device, 1));
    set_up_host();
    set_up_receiver();
    set_up_sender();

    uint8_t arriving[FRAME];
    frame(arriving, 0, 0x99, 0xcc);
    show("a frame of the wire to guest 0", vfdev_wire(&device, arriving, FRAME, messages, sizeof messages));
    show_messages();
    look(0);
    for (int i = 0; i < 4; i++) {
        size_t left;
        show("service of guest 1", vfdev_serve(&device, 1, 0, out, sizeof out, &left, messages, sizeof messages));
        show_messages();
        if (left)
            printf("  to the wire: %zu bytes, filled with %02x\n", left, out[14]);
    }
    look(1);
    show("frames that guest 0 received", vfdev_vf_read(&device, 0, VFDEV_VFGPRC));
    show("a register at offset 2", vfdev_vf_read(&device, 0, 2));
    show("guest 9", vfdev_vf_read(&device, 9, 8));
    show("5 bytes of the wire", vfdev_wire(&device, arriving, 5, messages, sizeof messages));
    show("a service without room", vfdev_serve(&device, 1, 0, out, 100, &(size_t){0}, messages, sizeof messages));
    vfdev_free(&device);
    vfdev_free(&device);
    show("after it was freed", vfdev_vf_read(&device, 0, 8));
    return 0;
}
