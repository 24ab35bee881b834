/*
 * The rings of the ports, and faults in how large one is taken to be: by the line of an overrun, by the place of a
 * slot, by the share of the lent buffer. The library does the rest, on rings that are changed for it and changed back.
 */
#ifndef WRONG_RINGS_H
#define WRONG_RINGS_H

#include "port_words.h"
#include "wrong.h"

uint32_t __real_kh_open(kh_memory *memory, uint32_t port, const uint8_t *sheet, size_t sheet_bytes);
uint32_t __real_kh_close(kh_memory *memory, uint32_t port);
uint32_t __real_kh_turn(kh_memory *memory, uint8_t *rings, size_t rings_bytes, const uint8_t *grants,
                        size_t grants_bytes, uint64_t *answer);
uint32_t __real_kh_complete(kh_memory *memory, uint8_t *rings, size_t rings_bytes, uint32_t port, uint32_t tag,
                            uint32_t serial, int32_t result, uint64_t *answer);

/* ---- the rings of the ports, by the last opening of each; the tests have one backend at a time */

static enum kh_abi abis[KH_PORTS];
static uint32_t orders[KH_PORTS]; /* 0 for one page, 1 for two */

static inline uint32_t pages_of(uint64_t port) {
    return 1 + orders[port];
}

static inline uint8_t *share_of(uint8_t *rings, uint64_t port) {
    return rings + KH_RING_BYTES * port;
}

/* A slot of a port, in a ring of so many. */
static inline uint8_t *slot_among(uint8_t *rings, uint64_t port, uint32_t slots, uint32_t index) {
    return share_of(rings, port) + KH_HEADER_BYTES + kh_slot_bytes(abis[port]) * (index % slots);
}

static inline uint8_t *slot_of(uint8_t *rings, uint64_t port, uint32_t index) {
    return slot_among(rings, port, kh_slots(pages_of(port)), index);
}

static inline uint32_t index_at(const uint8_t *rings, uint64_t port, unsigned field) {
    uint32_t index;
    memcpy(&index, rings + KH_RING_BYTES * port + field, sizeof index);
    return index;
}

static inline void set_index(uint8_t *rings, uint64_t port, unsigned field, uint32_t index) {
    memcpy(share_of(rings, port) + field, &index, sizeof index);
}

/* The slot of a port's last response. */
static inline uint8_t *last_response(uint8_t *rings, uint64_t port) {
    return slot_of(rings, port, index_at(rings, port, KH_RSP_PROD) - 1);
}

/* A response as a 64-bit guest has it, in the slot of a 32-bit one. */
static inline void pad_response(uint8_t *rings, uint64_t port) {
    if (abis[port] == KH_BITS32)
        memset(last_response(rings, port) + KH_RESPONSE32_BYTES, 0, KH_RESPONSE_BYTES - KH_RESPONSE32_BYTES);
}

/* ---- a ring taken for one of another size */

/* By its words. */
static inline bool is_open(kh_memory *memory, uint64_t port) {
    return words_of_port(memory, port)[0] == 1;
}

/* How many requests are in flight on a port or published and not taken: an overrun where they are more than its slots.
 */
static inline uint32_t unanswered(kh_memory *memory, const uint8_t *rings, uint64_t port) {
    return index_at(rings, port, KH_REQ_PROD) - (uint32_t)words_of_port(memory, port)[PRODUCED];
}

/* req_prod as it has to be for the library to find an overrun where one of these is due, and none elsewhere. */
static inline uint32_t req_prod_for_line(kh_memory *memory, const uint8_t *rings, uint64_t port) {
    uint32_t count = unanswered(memory, rings, port), req_prod = index_at(rings, port, KH_REQ_PROD);
    if (!is_open(memory, port) || count <= KH_PAGE_SLOTS || count > KH_TAGS)
        return req_prod;
    if (wrong("line_at_32_on_two_pages") && pages_of(port) == 2)
        return req_prod + 1000;
    if (wrong("line_at_64_on_one_page") && pages_of(port) == 1)
        return req_prod - (count - KH_PAGE_SLOTS);
    return req_prod;
}

/* A turn that draws the line of an overrun by another ring size. */
static inline uint32_t turn_by_other_line(kh_memory *memory, uint8_t *rings, const uint8_t *grants, size_t grants_bytes,
                                          uint64_t *answer) {
    uint32_t published[KH_PORTS], number;
    for (uint64_t port = 0; port < KH_PORTS; port++) {
        uint32_t req_prod = req_prod_for_line(memory, rings, port);
        published[port] = index_at(rings, port, KH_REQ_PROD);
        set_index(rings, port, KH_REQ_PROD, req_prod);
    }
    number = __real_kh_turn(memory, rings, KH_RINGS_BYTES, grants, grants_bytes, answer);
    for (uint64_t port = 0; port < KH_PORTS; port++)
        set_index(rings, port, KH_REQ_PROD, published[port]);
    return number;
}

/* How many slots the ring of a port is taken to have. */
static inline uint32_t slots_taken_for(uint64_t port) {
    if (wrong("slots_by_32") || wrong("responses_by_32"))
        return KH_PAGE_SLOTS;
    if (wrong("slots_by_64") || wrong("responses_by_64"))
        return KH_TAGS;
    return kh_slots(pages_of(port));
}

static inline void restore_slots(uint8_t *rings, const uint8_t *before) {
    for (uint64_t port = 0; port < KH_PORTS; port++)
        memcpy(share_of(rings, port) + KH_HEADER_BYTES, before + KH_RING_BYTES * port + KH_HEADER_BYTES,
               KH_RING_BYTES - KH_HEADER_BYTES);
}

/* Puts all slots back, and the response that a call gave to where it would be in a ring of another size. */
static inline void misplace_response(uint8_t *rings, const uint8_t *before, uint64_t port) {
    uint32_t index = index_at(rings, port, KH_RSP_PROD) - 1;
    size_t bytes = kh_response_bytes(abis[port]);
    uint8_t response[KH_RESPONSE_BYTES];
    memcpy(response, slot_of(rings, port, index), bytes);
    restore_slots(rings, before);
    memcpy(slot_among(rings, port, slots_taken_for(port), index), response, bytes);
}

/* A turn that looks for a request, and puts a response, where it would be in a ring of another size. */
static inline uint32_t turn_by_other_slots(kh_memory *memory, uint8_t *rings, const uint8_t *grants,
                                           size_t grants_bytes, uint64_t *answer) {
    static uint8_t before[KH_RINGS_BYTES];
    uint32_t number;
    memcpy(before, rings, sizeof before);
    for (uint64_t port = 0; port < KH_PORTS; port++) {
        uint32_t index = (uint32_t)words_of_port(memory, port)[CONSUMED];
        if (is_open(memory, port))
            memmove(slot_of(rings, port, index), slot_among(rings, port, slots_taken_for(port), index),
                    kh_slot_bytes(abis[port]));
    }
    number = __real_kh_turn(memory, rings, KH_RINGS_BYTES, grants, grants_bytes, answer);
    if (number == KH_OK && answer[KH_TURN_KIND] == KH_ANSWERED)
        misplace_response(rings, before, answer[KH_TURN_PORT]);
    else
        restore_slots(rings, before);
    return number;
}

/* A turn on rings whose shares are of one page each, as they were before there were two. */
static inline uint32_t turn_by_pages(kh_memory *memory, uint8_t *rings, const uint8_t *grants, size_t grants_bytes,
                                     uint64_t *answer) {
    static uint8_t moved[KH_RINGS_BYTES];
    uint32_t number;
    for (uint64_t port = 0; port < KH_PORTS; port++)
        memcpy(share_of(moved, port), rings + KH_PAGE_BYTES * port, KH_PAGE_BYTES);
    number = __real_kh_turn(memory, moved, sizeof moved, grants, grants_bytes, answer);
    for (uint64_t port = 0; port < KH_PORTS; port++)
        memcpy(rings + KH_PAGE_BYTES * port, share_of(moved, port), KH_PAGE_BYTES);
    return number;
}

/* The second half of the share of each open port of one page. */
static inline void touch_second_halves(kh_memory *memory, uint8_t *rings) {
    for (uint64_t port = 0; port < KH_PORTS; port++) {
        volatile uint8_t *at = share_of(rings, port) + KH_PAGE_BYTES;
        if (!is_open(memory, port) || pages_of(port) != 1)
            continue;
        if (wrong("second_half_read"))
            (void)at[0];
        if (wrong("second_half_written"))
            at[0] ^= 1;
    }
}

/* A sheet that asks for one page where this one asks for two: ring-page-order is the last body. */
static inline const uint8_t *with_one_page(const uint8_t *sheet, size_t sheet_bytes) {
    static uint8_t changed[256];
    if (kh_read_pages(sheet, sheet_bytes) != 2 || sheet_bytes > sizeof changed)
        return sheet;
    memcpy(changed, sheet, sheet_bytes);
    changed[sheet_bytes - 1] = '0';
    return changed;
}

#endif
