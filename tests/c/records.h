/*
 * The sizes and offsets of Xen's records and ring are the numbers of the rules, as kernelharp.h names them: those of a
 * 32-bit guest where the compiler is for i386, or aligns as for i386, else those of a 64-bit guest.
 *
 * numbers.h has the numbers of kernelharp.h. The header itself is for 64-bit hosts alone.
 */
#ifndef RECORDS_H
#define RECORDS_H

#include <stddef.h>

#include "check.h"
#include "numbers.h"
#include "xen.h"

#if defined(__i386__) || defined(AS_I386)
enum { SLOT = KH_SLOT32_BYTES, RESPONSE = KH_RESPONSE32_BYTES, ID = 4, START = 12, SEGMENTS = 20 };
#else
enum { SLOT = KH_SLOT_BYTES, RESPONSE = KH_RESPONSE_BYTES, ID = 8, START = 16, SEGMENTS = 24 };
#endif

#define HOLDS(fact)             _Static_assert(fact, #fact)
#define AT(type, field, offset) _Static_assert(offsetof(type, field) == (offset), #type "." #field)
#define SIZE(type, bytes)       _Static_assert(sizeof(type) == (bytes), #type)

SIZE(blkif_request_t, SLOT);
AT(blkif_request_t, operation, 0);
AT(blkif_request_t, nr_segments, 1);
AT(blkif_request_t, handle, 2);
AT(blkif_request_t, id, ID);
AT(blkif_request_t, sector_number, START);
AT(blkif_request_t, seg, SEGMENTS);
SIZE(((blkif_request_t *)0)->id, 8);
SIZE(((blkif_request_t *)0)->sector_number, 8);
SIZE(((blkif_request_t *)0)->seg, 8 * KH_EXTENTS);

SIZE(struct blkif_request_segment, 8);
AT(struct blkif_request_segment, gref, 0);
AT(struct blkif_request_segment, first_sect, 4);
AT(struct blkif_request_segment, last_sect, 5);

HOLDS(sizeof(blkif_request_discard_t) <= SLOT);
AT(blkif_request_discard_t, operation, 0);
AT(blkif_request_discard_t, flag, 1);
AT(blkif_request_discard_t, id, ID);
AT(blkif_request_discard_t, sector_number, START);
AT(blkif_request_discard_t, nr_sectors, SEGMENTS);
SIZE(((blkif_request_discard_t *)0)->nr_sectors, 8);

SIZE(blkif_response_t, RESPONSE);
AT(blkif_response_t, id, 0);
AT(blkif_response_t, operation, 8);
AT(blkif_response_t, status, 10);
SIZE(((blkif_response_t *)0)->status, 2);

SIZE(((blkif_sring_t *)0)->ring[0], SLOT);
AT(blkif_sring_t, req_prod, KH_REQ_PROD);
AT(blkif_sring_t, req_event, KH_REQ_EVENT);
AT(blkif_sring_t, rsp_prod, KH_RSP_PROD);
AT(blkif_sring_t, rsp_event, KH_RSP_EVENT);
AT(blkif_sring_t, ring, KH_HEADER_BYTES);
SIZE(RING_IDX, 4);
HOLDS(__CONST_RING_SIZE(blkif, KH_PAGE_BYTES) == KH_PAGE_SLOTS);
HOLDS(__CONST_RING_SIZE(blkif, KH_RING_BYTES) == KH_TAGS);
HOLDS(BLKIF_MAX_SEGMENTS_PER_REQUEST == KH_EXTENTS);

/* The macros find as many slots in a ring of so many pages, and find them there. */
static inline void check_slots_of(uint8_t *ring, unsigned pages) {
    blkif_front_ring_t front;
    unsigned slots = pages * KH_PAGE_SLOTS;
    FRONT_RING_INIT(&front, (blkif_sring_t *)(void *)ring, pages * KH_PAGE_BYTES);
    CHECK_EQ(RING_SIZE(&front), slots);
    for (unsigned i = 0; i < 3 * slots; i++)
        CHECK_EQ((uint8_t *)RING_GET_REQUEST(&front, i) - ring, KH_HEADER_BYTES + i % slots * SLOT);
    CHECK_EQ((uint8_t *)RING_GET_RESPONSE(&front, UINT32_MAX) - ring, KH_HEADER_BYTES + (slots - 1) * SLOT);
}

/* In rings of one page and of two. */
static inline void check_slots(uint8_t *ring) {
    check_slots_of(ring, 1);
    check_slots_of(ring, KH_RING_PAGES);
}

#endif
