/*
 * The guest's half with a ledger of what is outstanding. Of each call it checks all that is due by section 16 of
 * docs/RULES.md: the number, the words of the answer, every byte of the page, and what is left alone.
 */
#ifndef FRONT_H
#define FRONT_H

#include "test.h"

static inline kh_guest *guest_memory(const host *h) {
    return (kh_guest *)(void *)h->at[GUEST];
}

static inline uint32_t page_index(const host *h, unsigned field) {
    return (uint32_t)get(h->at[PAGE] + field, 4);
}

static inline void set_page_index(const host *h, unsigned field, uint32_t value) {
    put(h->at[PAGE] + field, 4, value);
}

/* ---- requests, as words */

/* Sectors 0 to 7 of frame 5 in each segment; of the disk 8 sectors from 8 on, should it be a discard. */
static inline kh_request request_of(uint32_t operation, uint64_t id, uint32_t n) {
    kh_request r = {operation, id, 8, n, 0, 8, {{5, 0, 7}}};
    for (int i = 1; i < KH_SEGMENTS; i++)
        r.segments[i] = r.segments[0];
    return r;
}

/* Any bits in the words that no request uses. */
static inline void write_words(const host *h, kh_request r) {
    kh_write_request(&r, words(h, REQUEST));
    words(h, REQUEST)[6] = UINT64_MAX;
    words(h, REQUEST)[7] = FIRST_ID;
}

static inline void write_request(const host *h, uint32_t operation, uint64_t id, uint32_t n) {
    write_words(h, request_of(operation, id, n));
}

static inline uint64_t *segment_words(const host *h, unsigned i) {
    return words(h, REQUEST) + KH_REQUEST_SEGMENTS + KH_SEGMENT_WORDS * i;
}

/* ---- what is due */

static inline bool fits(const uint64_t *segment) {
    return segment[KH_SEGMENT_FRAME] <= UINT32_MAX && segment[KH_SEGMENT_FIRST] <= segment[KH_SEGMENT_LAST] &&
           segment[KH_SEGMENT_LAST] < KH_FRAME_SECTORS;
}

static inline bool has_segments(const host *h, uint64_t least) {
    uint64_t n = words(h, REQUEST)[KH_REQUEST_SEGMENT_COUNT];
    bool sound = least <= n && n <= KH_SEGMENTS;
    for (unsigned i = 0; sound && i < n; i++)
        sound = fits(segment_words(h, i));
    return sound;
}

static inline bool is_sound(const host *h) {
    const uint64_t *request = words(h, REQUEST);
    switch (request[KH_REQUEST_OPERATION]) {
    case KH_READ:
    case KH_WRITE:
        return has_segments(h, 1);
    case KH_BARRIER:
        return has_segments(h, 0);
    case KH_FLUSH:
        return request[KH_REQUEST_SEGMENT_COUNT] == 0;
    case KH_DISCARD:
        return request[KH_REQUEST_SECTORS] != 0;
    default:
        return false;
    }
}

static inline bool is_outstanding(const ledger *front, uint64_t id) {
    uint32_t i = 0;
    while (i < front->count && front->outstanding[i].id != id)
        i++;
    return i < front->count;
}

static inline uint32_t put_due(const host *h) {
    if (h->bytes[PAGE] != KH_GUEST_PAGE_BYTES)
        return KH_WRONG_LENGTH;
    if (h->front.count == KH_PAGE_SLOTS)
        return KH_RING_FULL;
    if (is_outstanding(&h->front, words(h, REQUEST)[KH_REQUEST_ID]))
        return KH_ID_OUTSTANDING;
    return is_sound(h) ? KH_OK : KH_BAD_REQUEST;
}

/* The bytes of a slot: all that the request doesn't use is zero. */
static inline void expect_slot(const host *h, uint8_t *slot) {
    const uint64_t *request = words(h, REQUEST);
    bool is_discard = request[KH_REQUEST_OPERATION] == KH_DISCARD;
    uint64_t n = is_discard ? 0 : request[KH_REQUEST_SEGMENT_COUNT];
    memset(slot, 0, KH_SLOT_BYTES);
    slot[0] = (uint8_t)request[KH_REQUEST_OPERATION];
    slot[1] = is_discard ? request[KH_REQUEST_FLAG] & 1 : (uint8_t)n;
    put(slot + 8, 8, request[KH_REQUEST_ID]);
    if (is_discard || n > 0)
        put(slot + 16, 8, request[KH_REQUEST_START]);
    if (is_discard)
        put(slot + 24, 8, request[KH_REQUEST_SECTORS]);
    for (unsigned i = 0; i < n; i++) {
        const uint64_t *segment = segment_words(h, i);
        put(slot + 24 + 8 * i, 4, segment[KH_SEGMENT_FRAME]);
        slot[28 + 8 * i] = (uint8_t)segment[KH_SEGMENT_FIRST];
        slot[29 + 8 * i] = (uint8_t)segment[KH_SEGMENT_LAST];
    }
}

/* A put that was done, and what is outstanding then. */
static inline void check_put(host *h) {
    ledger *front = &h->front;
    uint8_t *page = h->before[PAGE];
    expect_slot(h, slot_in(page, front->req_prod));
    front->outstanding[front->count].id = words(h, REQUEST)[KH_REQUEST_ID];
    front->outstanding[front->count++].operation = words(h, REQUEST)[KH_REQUEST_OPERATION];
    put(page + KH_REQ_PROD, 4, ++front->req_prod);
    check_same(h, PAGE);
    CHECK_EQ(words(h, PUT_ANSWER)[KH_PUT_NOTIFY], get(page + KH_REQ_EVENT, 4) == front->req_prod);
}

/* The outstanding request that the next response is for, or KH_PAGE_SLOTS. */
static inline uint32_t answered_one(const host *h) {
    const uint8_t *slot = slot_in(h->at[PAGE], h->front.rsp_cons);
    for (uint32_t i = 0; i < h->front.count; i++)
        if (h->front.outstanding[i].id == get(slot, 8) && h->front.outstanding[i].operation == slot[8])
            return i;
    return KH_PAGE_SLOTS;
}

static inline uint32_t collect_due(const host *h) {
    uint32_t distance;
    if (h->bytes[PAGE] != KH_GUEST_PAGE_BYTES)
        return KH_WRONG_LENGTH;
    distance = page_index(h, KH_RSP_PROD) - h->front.rsp_cons;
    if (distance > h->front.count)
        return KH_BAD_RSP_PROD;
    return distance > 0 && answered_one(h) == KH_PAGE_SLOTS ? KH_NOT_OUTSTANDING : KH_OK;
}

static inline void check_nothing_collected(host *h) {
    put(h->before[PAGE] + KH_RSP_EVENT, 4, h->front.rsp_cons + 1);
    memset(h->before[COLLECT_ANSWER], 0, h->bytes[COLLECT_ANSWER]);
    check_same(h, PAGE);
    check_same(h, GUEST);
    check_same(h, COLLECT_ANSWER);
}

static inline void check_collected(host *h) {
    ledger *front = &h->front;
    const uint8_t *slot = slot_in(h->at[PAGE], front->rsp_cons);
    const uint64_t *answer = words(h, COLLECT_ANSWER);
    CHECK_EQ(answer[KH_COLLECT_FOUND], 1);
    CHECK_EQ(answer[KH_COLLECT_ID], get(slot, 8));
    CHECK_EQ(answer[KH_COLLECT_OPERATION], slot[8]);
    CHECK_EQ(answer[KH_COLLECT_STATUS], get(slot + 10, 2));
    check_same(h, PAGE);
    front->outstanding[answered_one(h)] = front->outstanding[front->count - 1];
    front->count--;
    front->rsp_cons++;
}

/* ---- the calls; each returns the call's number */

static inline uint32_t do_put(host *h) {
    uint32_t due = put_due(h), number;
    memset(h->at[PUT_ANSWER], 0xA5, h->bytes[PUT_ANSWER]);
    remember(h);
    allow_writes(h->at[REQUEST], h->bytes[REQUEST], false);
    number = kh_guest_put(guest_memory(h), h->at[PAGE], h->bytes[PAGE], words(h, REQUEST), words(h, PUT_ANSWER));
    allow_writes(h->at[REQUEST], h->bytes[REQUEST], true);
    CHECK_EQ(number, due);
    check_kept(h, number, 1 << GUEST | 1 << PAGE | 1 << PUT_ANSWER);
    if (number == KH_OK && due == KH_OK)
        check_put(h);
    return number;
}

static inline uint32_t do_collect(host *h) {
    uint32_t due = collect_due(h), number;
    memset(h->at[COLLECT_ANSWER], 0xA5, h->bytes[COLLECT_ANSWER]);
    remember(h);
    number = kh_guest_collect(guest_memory(h), h->at[PAGE], h->bytes[PAGE], words(h, COLLECT_ANSWER));
    CHECK_EQ(number, due);
    check_kept(h, number, 1 << GUEST | 1 << PAGE | 1 << COLLECT_ANSWER);
    if (number != KH_OK || due != KH_OK)
        return number;
    if (get(h->before[PAGE] + KH_RSP_PROD, 4) == h->front.rsp_cons)
        check_nothing_collected(h);
    else
        check_collected(h);
    return number;
}

/* Puts the request as it is, not as its words were changed before. */
static inline uint32_t do_put_request(host *h, kh_request r) {
    write_words(h, r);
    return do_put(h);
}

static inline uint32_t do_ask(host *h, uint32_t operation, uint64_t id, uint32_t n) {
    write_request(h, operation, id, n);
    return do_put(h);
}

#define PUT(h)                   MADE_HERE(do_put(h))
#define PUT_REQUEST(h, r)        MADE_HERE(do_put_request(h, r))
#define ASK(h, operation, id, n) MADE_HERE(do_ask(h, operation, id, n))
#define COLLECT(h)               MADE_HERE(do_collect(h))

/* ---- a backend's half, as far as the page shows it */

/* A response in the slot of the page's rsp_prod, with rubbish where no field is; published. */
static inline void respond(const host *h, uint64_t id, uint64_t operation, uint64_t status) {
    uint32_t index = page_index(h, KH_RSP_PROD);
    uint8_t *slot = slot_in(h->at[PAGE], index);
    memset(slot, 0xEE, KH_RESPONSE_BYTES);
    put(slot, 8, id);
    slot[8] = (uint8_t)operation;
    put(slot + 10, 2, status);
    set_page_index(h, KH_RSP_PROD, index + 1);
}

/* So many reads put, with ids from the first on. */
static inline void do_put_reads(host *h, uint64_t first_id, unsigned reads) {
    for (unsigned i = 0; i < reads; i++)
        CHECK_EQ(do_ask(h, KH_READ, first_id + i, 1), KH_OK);
}

/* One read with that id answered and collected. */
static inline void do_end_read(host *h, uint64_t id) {
    respond(h, id, KH_READ, KH_OKAY);
    CHECK_EQ(do_collect(h), KH_OK);
    CHECK_EQ(words(h, COLLECT_ANSWER)[KH_COLLECT_ID], id);
}

/* A fresh guest that has put and collected so many reads. */
static inline void do_begin_front(host *h, unsigned rounds) {
    reset(h);
    for (unsigned i = 0; i < rounds; i++) {
        do_put_reads(h, FIRST_ID + i, 1);
        do_end_read(h, FIRST_ID + i);
    }
}

#define PUT_READS(h, first_id, reads) MADE_HERE(do_put_reads(h, first_id, reads))
#define END_READ(h, id)               MADE_HERE(do_end_read(h, id))
#define BEGIN_FRONT(h, rounds)        MADE_HERE(do_begin_front(h, rounds))

#endif
