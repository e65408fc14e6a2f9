/* What the tests of a card share: a client's messages, and numbers that must be equal. */
#ifndef CLIENT_H
#define CLIENT_H

#include "vfdev_card.h"

#include <stdio.h>
#include <stdlib.h>
#include <string.h>

#define EQUAL(got, due) equal(__FILE__, __LINE__, (got), (due))

static inline void equal(const char *file, int line, unsigned long long got, unsigned long long due)
{
    if (got != due) {
        fprintf(stderr, "%s:%d: %llu, and not %llu\n", file, line, got, due);
        exit(1);
    }
}

/* The room of the last reply. */
static uint8_t room[VFDEV_CARD_ROOM];

/* The first message: version 0.0. */
static const uint8_t version[20] = {0, 0, 1, 0, 20};

/* The address 02:82:59:00:00:LAST, and VLAN 0. */
static inline vfdev_card_policy policy(uint8_t last)
{
    return (vfdev_card_policy){.address = {0x02, 0x82, 0x59, 0, 0, last}, .link_up = 1, .joins = 1};
}

/* A message whose size stands in its fifth byte. */
static inline vfdev_card_step say(vfdev_card *card, uint8_t function, const uint8_t *message, size_t files)
{
    vfdev_card_step step;
    memset(room, 0xA5, sizeof room);
    vfdev_card_receive(card, function, message, message[4], files, room, &step);
    return step;
}

/* REGION_READ and REGION_WRITE of a register of BAR 0; the write is posted. */
static inline uint32_t read_register(vfdev_card *card, uint8_t function, uint32_t offset)
{
    uint8_t message[32] = {7, 0, 9, 0, 32}, *value = room + 32;
    memcpy(message + 16, &offset, 4);
    message[28] = 4;
    EQUAL(say(card, function, message, 0).reply, 36);
    return value[0] | value[1] << 8 | value[2] << 16 | (uint32_t)value[3] << 24;
}

static inline void write_register(vfdev_card *card, uint8_t function, uint32_t offset, uint32_t value)
{
    uint8_t message[36] = {7, 0, 10, 0, 36, 0, 0, 0, 0x10};
    memcpy(message + 16, &offset, 4);
    message[28] = 4;
    memcpy(message + 32, &value, 4);
    EQUAL(say(card, function, message, 0).reply, 0);
}

#endif
