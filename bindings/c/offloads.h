/* A second way to do what a driver leaves to its card, written plainly from the datasheet and the RFCs, for card_offloads.c: byte by byte,
 * with sums that carry after each word, over a copy of what the descriptors name. */
#ifndef OFFLOADS_H
#define OFFLOADS_H

#include <stdbool.h>
#include <stdint.h>
#include <string.h>

enum { MOST_CUT = 66428, LIMIT = 1518, FRAMES = 256 };

struct setup {
    unsigned iplen, maclen, vlan, v4, l4t, l4len, mss;
};

/* What one queue is sending, and the frames that have left since `frames` was set to 0: no more than FRAMES are kept. */
struct plain {
    struct setup setups[2];
    uint8_t bytes[MOST_CUT], frame[FRAMES][LIMIT];
    size_t length, lengths[FRAMES];
    uint64_t first;
    bool begun, overlong;
    unsigned long frames, shortfalls;
};

static inline unsigned field_of(uint64_t word, unsigned low, unsigned bits)
{
    return (unsigned)(word >> low & ((1u << bits) - 1));
}

static inline unsigned plain_sum(const uint8_t *bytes, size_t length, unsigned total)
{
    for (size_t at = 0; at < length; at++) {
        total += at % 2 ? bytes[at] : (unsigned)bytes[at] << 8;
        total = (total & 0xffff) + (total >> 16);
    }
    return total;
}

static inline void put_word(uint8_t *at, unsigned word)
{
    at[0] = (uint8_t)(word >> 8);
    at[1] = (uint8_t)word;
}

static inline void put_long(uint8_t *at, uint32_t number)
{
    put_word(at, number >> 16);
    put_word(at + 2, number & 0xffff);
}

static inline uint32_t long_at(const uint8_t *at)
{
    return (uint32_t)at[0] << 24 | at[1] << 16 | at[2] << 8 | at[3];
}

/* Bytes leave with a tag, if any: a frame of the device's own limits, or they are dropped. */
static inline void leaves(struct plain *q, const uint8_t *bytes, size_t length, bool has_tag, unsigned tag)
{
    size_t whole = length + (has_tag ? 4 : 0);
    if (length < 14 || whole > LIMIT || (!has_tag && length < 18 && bytes[12] == 0x81 && bytes[13] == 0))
        return;
    if (q->frames++ >= FRAMES)
        return;
    uint8_t *frame = q->frame[q->frames - 1];
    memcpy(frame, bytes, 12);
    if (has_tag) {
        put_word(frame + 12, 0x8100);
        put_word(frame + 14, tag);
    }
    memcpy(frame + whole - length + 12, bytes + 12, length - 12);
    q->lengths[q->frames - 1] = whole;
}

/* The sums that the first descriptor asked for, or none of them. */
static inline void insert_plain_sums(struct plain *q, const struct setup *c, bool ip, bool transport)
{
    size_t behind = c->maclen + c->iplen, least = c->l4t == 0 ? 8 : 20;
    bool ip_fits = c->v4 && c->iplen >= 20 && behind <= q->length, transport_fits = c->l4t < 2 && behind + least <= q->length;
    uint8_t *header = q->bytes + c->maclen, *l4 = q->bytes + behind;
    if ((ip && !ip_fits) || (transport && !transport_fits)) {
        q->shortfalls++;
        return;
    }
    if (ip) {
        put_word(header + 10, 0);
        put_word(header + 10, 0xffff - plain_sum(header, c->iplen, 0));
    }
    if (transport) {
        unsigned sum = 0xffff - plain_sum(l4, q->length - behind, 0);
        put_word(l4 + (c->l4t == 0 ? 6 : 16), c->l4t == 0 && sum == 0 ? 0xffff : sum);
    }
}

static inline void leave_segments(struct plain *q, const struct setup *c, bool has_tag)
{
    static uint8_t segment[1 << 17];
    size_t headers = c->maclen + c->iplen + c->l4len, payload = q->length > headers ? q->length - headers : 0;
    size_t longest = headers + (payload < c->mss ? payload : c->mss);
    if (q->overlong || c->l4t != 1 || c->iplen < (c->v4 ? 20 : 40) || c->l4len < 20 || !payload || !c->mss ||
        longest > LIMIT - (has_tag ? 4u : 0u)) {
        q->shortfalls++;
        return;
    }
    for (size_t from = 0, number = 0; from < payload; from += c->mss, number++) {
        size_t size = payload - from < c->mss ? payload - from : c->mss, behind = c->l4len + size;
        uint8_t *ip = segment + c->maclen, *tcp = ip + c->iplen;
        memcpy(segment, q->bytes, headers);
        memcpy(segment + headers, q->bytes + headers + from, size);
        const uint8_t pseudo[4] = {0, 6, (uint8_t)(behind >> 8), (uint8_t)behind};
        unsigned sum = plain_sum(pseudo, 4, plain_sum(ip + (c->v4 ? 12 : 8), c->v4 ? 8 : 32, 0));
        if (c->v4) {
            put_word(ip + 2, (unsigned)(c->iplen + behind));
            put_word(ip + 4, ((unsigned)ip[4] << 8 | ip[5]) + (unsigned)number);
            put_word(ip + 10, 0);
            put_word(ip + 10, 0xffff - plain_sum(ip, c->iplen, 0));
        } else {
            put_word(ip + 4, (unsigned)(c->iplen - 40 + behind));
        }
        put_long(tcp + 4, long_at(tcp + 4) + (uint32_t)from);
        if (number)
            tcp[13] &= 0x7f;
        if (from + size < payload)
            tcp[13] &= 0xf6;
        put_word(tcp + 16, 0);
        put_word(tcp + 16, 0xffff - plain_sum(tcp, behind, sum));
        leaves(q, segment, headers + size, has_tag, c->vlan);
    }
}

/* The frame ends with a descriptor of this word. */
static inline void end_plainly(struct plain *q, uint64_t last)
{
    const struct setup *c = &q->setups[field_of(q->first, 36, 1)];
    bool advanced = field_of(q->first, 29, 1), has_tag = advanced && field_of(q->first, 30, 1);
    if (advanced && field_of(q->first, 31, 1)) {
        leave_segments(q, c, has_tag);
    } else if (!q->overlong) {
        insert_plain_sums(q, c, advanced && field_of(q->first, 40, 1), advanced && field_of(q->first, 41, 1));
        if (has_tag)
            leaves(q, q->bytes, q->length, true, c->vlan);
        else
            leaves(q, q->bytes, q->length, !field_of(last, 29, 1) && field_of(last, 30, 1), field_of(last, 48, 16));
    }
    q->begun = q->overlong = false;
    q->length = 0;
}

/* A descriptor of these words, over a memory of so many bytes, behind which zeros are read up to 64 TiB; false where it can't be used, and all
 * is forgotten. */
static inline bool take_plainly(struct plain *q, const uint8_t *memory, size_t size, uint64_t address, uint64_t word)
{
    const uint64_t end = 1ull << 46;
    size_t length = field_of(word, 0, 16);
    bool advanced = field_of(word, 29, 1);
    if (advanced && field_of(word, 20, 4) == 2) {
        q->setups[field_of(word, 36, 1)] =
            (struct setup){field_of(address, 0, 9), field_of(address, 9, 7), field_of(address, 16, 16), field_of(word, 10, 1),
                           field_of(word, 11, 2),   field_of(word, 40, 8),   field_of(word, 48, 16)};
        return true;
    }
    if ((advanced && field_of(word, 20, 4) != 3) || address > end || length > end - address) {
        memset(q->setups, 0, sizeof q->setups);
        q->begun = q->overlong = false;
        q->length = 0;
        return false;
    }
    if (!q->begun) {
        q->begun = true;
        q->first = word;
    }
    size_t most = field_of(q->first, 29, 1) && field_of(q->first, 31, 1) ? MOST_CUT : LIMIT;
    if (q->overlong || q->length + length > most) {
        q->overlong = true;
    } else {
        size_t held = address >= size ? 0 : size - address < length ? size - address : length;
        memset(q->bytes + q->length, 0, length);
        memcpy(q->bytes + q->length, memory + (held ? address : 0), held);
        q->length += length;
    }
    if (field_of(word, 24, 1))
        end_plainly(q, word);
    return true;
}

#endif
