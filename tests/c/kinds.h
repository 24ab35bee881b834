/*
 * What guests ask of their disks: requests of every kind, good and broken, with what is due on each. A port and a
 * number say which request it is, which reason it gets, and how its I/O ends; guests and hosts know it from here alike.
 */
#ifndef KINDS_H
#define KINDS_H

#include <stdbool.h>

#include "xen.h"

/* ---- disks, and which guest has which */

enum { GUESTS = 8 };

enum disk { FULL, READ_ONLY, PLAIN, COARSE, DISKS };

static const char *const disk_nodes[DISKS] = {
    "1:w 2:1 3:1 4:1 5:1 6:512 7:2008",
    "1:r 2:1 3:1 4:1 5:0 6:512 7:2008",
    "1:w 6:512 7:2008",
    "1:w 2:1 3:1 4:1 5:0 6:4096 7:2008",
};

/* Two guests to each layout and each number of a ring's pages, and to each disk. */
static const struct {
    enum disk disk;
    bool is_32_bit;
    uint32_t pages;
} guest_of[GUESTS] = {
    {FULL, false, 1}, {READ_ONLY, true, 2},  {PLAIN, false, 2}, {COARSE, true, 1},
    {FULL, true, 2},  {READ_ONLY, false, 1}, {PLAIN, true, 1},  {COARSE, false, 2},
};

/* Frames 0 to 15 are granted for read and write, but for this one. */
enum { FRAME = 5, FRAME_TO_READ = 6, FRAME_NOT_GRANTED = 100 };

/* ---- requests, all segments of one alike */

typedef struct {
    uint8_t operation;
    uint8_t n; /* segments, or a discard's flag */
    uint64_t start;
    uint32_t frame;
    uint8_t first, last;
    uint64_t sectors;    /* a discard's */
    uint32_t due[DISKS]; /* reason, 0 where it starts */
} kind;

static const kind kinds[] = {
    {BLKIF_OP_READ, 1, 2000, FRAME, 0, 7, 0, {0, 0, 0, 0}},
    {BLKIF_OP_READ, 11, 8, FRAME, 0, 7, 0, {0, 0, 0, 0}},
    {BLKIF_OP_READ, 8, 16, FRAME, 3, 5, 0, {0, 0, 0, 29}},
    {BLKIF_OP_WRITE, 2, 24, FRAME, 0, 7, 0, {0, 24, 0, 0}},
    {BLKIF_OP_WRITE, 11, 32, FRAME_TO_READ, 0, 7, 0, {0, 24, 0, 0}},
    {BLKIF_OP_WRITE_BARRIER, 3, 40, FRAME, 0, 7, 0, {0, 24, 22, 0}},
    {BLKIF_OP_WRITE_BARRIER, 0, 2009, 0, 0, 0, 0, {0, 24, 22, 0}},
    {BLKIF_OP_FLUSH_DISKCACHE, 0, 2009, 0, 0, 0, 0, {0, 0, 22, 0}},
    {BLKIF_OP_DISCARD, 0, 8, 0, 0, 0, 2000, {0, 24, 22, 0}},
    {BLKIF_OP_DISCARD, BLKIF_DISCARD_SECURE, 0, 0, 0, 0, 96, {0, 24, 22, 0}},
    {BLKIF_OP_DISCARD, 255, 8, 0, 0, 0, 2000, {0, 24, 22, 0}},
    {BLKIF_OP_DISCARD, 255 - BLKIF_DISCARD_SECURE, 16, 0, 0, 0, 8, {0, 24, 22, 0}},
    {BLKIF_OP_RESERVED_1, 1, 0, FRAME, 0, 7, 0, {21, 21, 21, 21}},
    {BLKIF_OP_INDIRECT, 1, 0, FRAME, 0, 7, 0, {21, 21, 21, 21}},
    {255, 1, 0, FRAME, 0, 7, 0, {21, 21, 21, 21}},
    {BLKIF_OP_READ, 0, 0, FRAME, 0, 7, 0, {25, 25, 25, 25}},
    {BLKIF_OP_READ, 12, 0, FRAME, 0, 7, 0, {25, 25, 25, 25}},
    {BLKIF_OP_WRITE, 12, 0, FRAME, 0, 7, 0, {25, 24, 25, 25}},
    {BLKIF_OP_FLUSH_DISKCACHE, 1, 0, FRAME, 0, 7, 0, {25, 25, 22, 25}},
    {BLKIF_OP_DISCARD, 0, 8, 0, 0, 0, 0, {25, 24, 22, 25}},
    {BLKIF_OP_DISCARD, BLKIF_DISCARD_SECURE, 8, 0, 0, 0, 0, {25, 24, 22, 25}},
    {BLKIF_OP_READ, 1, 0, FRAME, 3, 2, 0, {26, 26, 26, 26}},
    {BLKIF_OP_READ, 11, 0, FRAME, 0, 8, 0, {26, 26, 26, 26}},
    {BLKIF_OP_READ, 2, 0, FRAME_NOT_GRANTED, 0, 7, 0, {27, 27, 27, 27}},
    {BLKIF_OP_READ, 2, 0, FRAME_TO_READ, 0, 7, 0, {27, 27, 27, 27}},
    {BLKIF_OP_READ, 1, 2008, FRAME, 0, 7, 0, {28, 28, 28, 28}},
    {BLKIF_OP_WRITE, 1, UINT64_MAX, FRAME, 7, 7, 0, {28, 24, 28, 28}},
    {BLKIF_OP_DISCARD, BLKIF_DISCARD_SECURE, 2000, 0, 0, 0, 9, {28, 24, 22, 28}},
    {BLKIF_OP_READ, 1, 4, FRAME, 0, 7, 0, {0, 0, 0, 29}},
    {BLKIF_OP_DISCARD, BLKIF_DISCARD_SECURE, 4, 0, 0, 0, 8, {0, 24, 22, 29}},
    {BLKIF_OP_READ, 1, 8, FRAME, 0, 4, 0, {0, 0, 0, 29}},
    {BLKIF_OP_READ, 2, 8, FRAME, 0, 3, 0, {0, 0, 0, 29}},
    {BLKIF_OP_WRITE, 4, 8, FRAME, 4, 7, 0, {0, 24, 0, 29}},
    {BLKIF_OP_WRITE_BARRIER, 8, 8, FRAME_TO_READ, 7, 7, 0, {0, 24, 22, 29}},
};

enum { KINDS = sizeof kinds / sizeof kinds[0] };

static inline const kind *kind_of(uint32_t port, uint32_t number) {
    return &kinds[(number + 5 * port) % KINDS];
}

static inline uint64_t id_of(uint32_t port, uint32_t number) {
    return UINT64_C(0xFEDCBA9800000000) + ((uint64_t)port << 28) + number;
}

static inline uint64_t count_of(const kind *k) {
    if (k->operation == BLKIF_OP_DISCARD)
        return k->sectors;
    return (uint64_t)k->n * (uint64_t)(k->last - k->first + 1);
}

/* ---- what is due */

/* The ways that I/O can end. In the long run each kind of request ends in each of them. */
enum { WAYS = 5 };

static inline uint32_t reason_due(uint32_t port, uint32_t number) {
    return kind_of(port, number)->due[guest_of[port].disk];
}

/* Whether it is a secure discard, should it start: by Xen's header a disk without discard-secure ignores the flag. */
static inline bool is_secure(uint32_t port, uint32_t number) {
    const kind *k = kind_of(port, number);
    bool asks = k->operation == BLKIF_OP_DISCARD && (k->n & BLKIF_DISCARD_SECURE) != 0;
    return asks && strstr(disk_nodes[guest_of[port].disk], " 5:1") != NULL;
}

/* What the host says of the I/O of a started request. */
static inline int32_t result_of(uint32_t port, uint32_t number) {
    const kind *k = kind_of(port, number);
    int32_t all = k->operation <= BLKIF_OP_WRITE_BARRIER ? (int32_t)count_of(k) : 0;
    const int32_t results[WAYS] = {all, all, all - 1, -5, -95};
    return results[number % WAYS];
}

/* The status that the guest gets: by the reason, or by how the I/O ends. */
static inline int16_t status_due(uint32_t port, uint32_t number) {
    static const int16_t ends[WAYS] = {BLKIF_RSP_OKAY, BLKIF_RSP_OKAY, BLKIF_RSP_ERROR, BLKIF_RSP_ERROR,
                                       BLKIF_RSP_EOPNOTSUPP};
    uint32_t reason = reason_due(port, number);
    if (reason == 0)
        return ends[number % WAYS];
    return reason <= 22 ? BLKIF_RSP_EOPNOTSUPP : BLKIF_RSP_ERROR;
}

#endif
