#include "standins.h"

#include <emmintrin.h>
#include <string.h>

static const char *const names[] = {
    [NO_FAULT] = "no-fault",
    [REQ_PROD_TWICE] = "req-prod-twice",
    [REQ_PROD_BY_BYTES] = "req-prod-by-bytes",
    [LOOKS_FURTHER] = "looks-further",
    [SLOT_FIRST] = "slot-first",
    [SLOT_OVERLAP] = "slot-overlap",
    [TAIL_OVERLAP] = "tail-overlap",
    [SLOT_TOO_FAR] = "slot-too-far",
    [SLOT_OF_112] = "slot-of-112",
    [SLOT_BY_LIBRARY] = "slot-by-library",
    [SECOND_LOOK] = "second-look",
    [BOUNDARIES_AGAIN] = "boundaries-again",
    [FLAG_AGAIN] = "flag-again",
    [RSP_EVENT_FIRST] = "rsp-event-first",
    [RSP_EVENT_TWICE] = "rsp-event-twice",
    [RSP_EVENT_ALWAYS] = "rsp-event-always",
    [RSP_PROD_READ] = "rsp-prod-read",
    [BYTE_TOO_MANY] = "byte-too-many",
    [RESPONSE_OF_16] = "response-of-16",
    [RSP_PROD_STORED_TWICE] = "rsp-prod-stored-twice",
    [RSP_PROD_FIRST] = "rsp-prod-first",
    [ARMED_ON_SERVICE] = "armed-on-service",
    [SECOND_HALF_LOADED] = "second-half-loaded",
    [SECOND_HALF_STORED] = "second-half-stored",
    [SLOT_BY_32] = "slot-by-32",
    [SLOT_BY_64] = "slot-by-64",
    [RESPONSE_BY_32] = "response-by-32",
    [RESPONSE_BY_64] = "response-by-64",
    [LIST_PUBLISHED_EACH] = "list-published-each",
    [LIST_PUBLISHED_BEFORE_THE_LAST] = "list-published-before-the-last",
    [LIST_PUBLISHED_BY_BYTES] = "list-published-by-bytes",
    [LIST_EVENT_EACH] = "list-event-each",
    [LIST_EVENT_BY_BYTES] = "list-event-by-bytes",
    [LIST_RESPONSES_TWICE] = "list-responses-twice",
    [LIST_SLOT_READ] = "list-slot-read",
    [LIST_EMPTY_PUBLISHES] = "list-empty-publishes",
    [LIST_EMPTY_LOOKS] = "list-empty-looks",
    [LIST_REFUSED_LOOKS] = "list-refused-looks",
    [LIST_DONE_UNTIL_THE_BAD] = "list-done-until-the-bad",
    [PUT_BY_THE_PAGE] = "put-by-the-page",
    [REQ_EVENT_FIRST] = "req-event-first",
    [REQ_EVENT_TWICE] = "req-event-twice",
    [REQ_EVENT_WHERE_REFUSED] = "req-event-where-refused",
    [REQ_PROD_FIRST] = "req-prod-first",
    [PUT_TOO_FAR] = "put-too-far",
    [PUT_TWICE] = "put-twice",
    [RSP_PROD_TWICE] = "rsp-prod-twice",
    [RSP_PROD_BY_BYTES] = "rsp-prod-by-bytes",
    [RESPONSE_FIRST] = "response-first",
    [RESPONSE_TWICE] = "response-twice",
    [RESPONSE_ALWAYS] = "response-always",
    [RESPONSE_TOO_FAR] = "response-too-far",
    [RESPONSE_SECOND_LOOK] = "response-second-look",
    [ARMED_ON_COLLECTING] = "armed-on-collecting",
};

enum fault fault;

/* The call is made on a copy of what was looked at; then what it wrote goes to the rings. */
uint8_t copy[KH_RINGS_BYTES];
uint8_t *live;

void take_byte(unsigned at) {
    copy[at] = *(volatile uint8_t *)(live + at);
}

void take32(unsigned at) {
    store32(copy + at, *(volatile uint32_t *)(live + at));
}

void take_words(unsigned at, unsigned bytes) {
    for (unsigned i = 0; i < bytes; i += 4)
        take32(at + i);
}

/* By loads of 16 bytes; what is left over by one more, which ends with the last byte and so meets the one before. */
static void take_by_16(unsigned at, unsigned bytes) {
    for (unsigned i = 0; i < bytes; i += 16) {
        unsigned from = at + (i + 16 <= bytes ? i : bytes - 16);
        _mm_storeu_si128((__m128i *)(copy + from), _mm_loadu_si128((const __m128i *)(live + from)));
    }
}

void give_byte(unsigned at) {
    *(volatile uint8_t *)(live + at) = copy[at];
}

void give32(unsigned at) {
    *(volatile uint32_t *)(live + at) = load32(copy + at);
}

static void take_req_prod(unsigned port) {
    unsigned at = header_at(port, REQ_PROD);
    if (fault == REQ_PROD_BY_BYTES) {
        for (unsigned i = 0; i < INDEX_BYTES; i++)
            take_byte(at + i);
        return;
    }
    take32(at);
    if (fault == REQ_PROD_TWICE)
        take32(at);
}

/* Where the slot of an index would be in every ring, if it had as many slots as these faults say. */
static unsigned slot_seen(unsigned port, uint32_t index, enum fault by_32, enum fault by_64) {
    unsigned slots = fault == by_32 ? 32 : fault == by_64 ? 64 : slots_of(port);
    return slot_among(port, slots, index);
}

static void take_slot(unsigned port) {
    static void *(*volatile library_copy)(void *, const void *, size_t) = memcpy;
    uint32_t index = bench.ports[port].taken;
    unsigned at = slot_seen(port, index, SLOT_BY_32, SLOT_BY_64), bytes = layout_of(port)->slot_bytes;
    if (fault == SLOT_BY_LIBRARY)
        library_copy(copy + at, live + at, bytes);
    if (fault == TAIL_OVERLAP)
        take_by_16(at, bytes);
    else
        take_words(at, fault == SLOT_OF_112 ? KH_SLOT_BYTES : bytes);
    if (fault == SLOT_OVERLAP)
        take32(at + 26);
    if (fault == SLOT_TOO_FAR)
        take_byte(at + bytes);
    if (fault == LOOKS_FURTHER)
        take32(header_at((port + 1) % PORTS, REQ_PROD));
    if (fault == SECOND_HALF_LOADED && bench.ports[port].pages == 1)
        take32(SHARE_BYTES * port + PAGE_BYTES);
    memmove(copy + slot_at(port, index), copy + at, bytes);
}

/* The port that has something to serve, or PORTS. */
static unsigned look(void) {
    for (unsigned i = 0; i < PORTS; i++) {
        unsigned k = (bench.pointer + i) % PORTS;
        if (bench.ports[k].state != OPEN)
            continue;
        if (fault == SLOT_FIRST)
            take_slot(k);
        take_req_prod(k);
        if (load32(copy + header_at(k, REQ_PROD)) != bench.ports[k].taken)
            return k;
    }
    return PORTS;
}

static bool waits(unsigned port) {
    const struct book *book = &bench.ports[port];
    uint32_t distance = load32(copy + header_at(port, REQ_PROD)) - book->taken;
    return distance + (uint64_t)(book->taken - book->answered) <= slots_of(port);
}

/* Whether rsp_event, as it was looked at, is the index of one of so many responses. */
static bool is_event_passed(unsigned port, uint32_t responses) {
    return load32(copy + header_at(port, RSP_PROD)) - load32(copy + header_at(port, RSP_EVENT)) < responses;
}

/* What a call that gives responses does before them, and must not. */
static void begin_responses(unsigned port) {
    if (fault == RSP_EVENT_FIRST)
        take32(header_at(port, RSP_EVENT));
}

/* Looked at when rsp_prod is out. */
static bool notifies(unsigned port, uint32_t responses) {
    if (fault == RSP_EVENT_FIRST)
        return is_event_passed(port, responses);
    take32(header_at(port, RSP_EVENT));
    if (fault == RSP_EVENT_TWICE)
        take32(header_at(port, RSP_EVENT));
    if (fault == RSP_PROD_READ)
        take32(header_at(port, RSP_PROD));
    return is_event_passed(port, responses);
}

static void give_response(unsigned port, uint32_t index) {
    unsigned at = slot_seen(port, index, RESPONSE_BY_32, RESPONSE_BY_64), bytes = layout_of(port)->response_bytes;
    memmove(copy + at, copy + slot_at(port, index), bytes);
    for (unsigned i = 0; i < (fault == RESPONSE_OF_16 ? KH_RESPONSE_BYTES : bytes); i += 4)
        give32(at + i);
    if (fault == BYTE_TOO_MANY)
        give_byte(at + bytes);
}

static void give_rsp_prod(unsigned port) {
    if (fault == SECOND_HALF_STORED && bench.ports[port].pages == 1)
        give32(SHARE_BYTES * port + PAGE_BYTES);
    give32(header_at(port, RSP_PROD));
    if (fault == RSP_PROD_STORED_TWICE)
        give32(header_at(port, RSP_PROD));
}

/* The one response of a turn or a completion: whether it notifies. */
static bool respond(unsigned port) {
    begin_responses(port);
    if (fault == RSP_PROD_FIRST)
        give32(header_at(port, RSP_PROD));
    give_response(port, bench.ports[port].answered);
    give_rsp_prod(port);
    return notifies(port, 1);
}

/* The old worker's: judged by one look at the slot, done by another. */
static void look_again(unsigned port, uint64_t *answer) {
    unsigned at = slot_at(port, bench.ports[port].taken) + layout_of(port)->segments;
    for (unsigned i = 0; i < answer[KH_TURN_EXTENT_COUNT]; i++) {
        take32(at + 8 * i);
        answer[KH_TURN_EXTENTS + KH_EXTENT_WORDS * i + KH_EXTENT_FRAME] = load32(copy + at + 8 * i);
    }
}

/* One look at the segments for 26 to 28, which a call on copies tells, and another for the boundaries of a disk of
   larger sectors. */
static void look_at_boundaries(unsigned port, const kh_memory *memory, const uint8_t *grants) {
    static kh_memory tried;
    static uint8_t tried_rings[KH_RINGS_BYTES];
    uint64_t answer[KH_TURN_WORDS];
    unsigned at = slot_at(port, bench.ports[port].taken) + layout_of(port)->segments;
    tried = *memory;
    memcpy(tried_rings, copy, sizeof tried_rings);
    if (kh_turn(&tried, tried_rings, KH_RINGS_BYTES, grants, KH_GRANTS_BYTES, answer) != KH_OK)
        abort();
    for (unsigned i = 0; bench.ports[port].unit > 1 && i < answer[KH_TURN_EXTENT_COUNT]; i++)
        take32(at + 8 * i + 4);
}

/* One look at the slot for the checks, and another at a discard's flag for the mark. */
static void look_at_flag(unsigned port, uint64_t *answer) {
    unsigned at = slot_at(port, bench.ports[port].taken) + 1;
    if (answer[KH_TURN_OPERATION] != KH_DISCARD)
        return;
    take_byte(at);
    answer[KH_TURN_SECURE] = bench.ports[port].secure && (copy[at] & KH_DISCARD_SECURE) != 0;
}

static void end_turn(unsigned port, uint64_t *answer) {
    if (answer[KH_TURN_KIND] == IDLE)
        for (unsigned k = 0; k < PORTS; k++)
            if (bench.ports[k].state == OPEN)
                give32(header_at(k, REQ_EVENT));
    if (answer[KH_TURN_KIND] == ANSWERED)
        answer[KH_TURN_NOTIFY] = respond(port);
    if (answer[KH_TURN_KIND] == STARTED && fault == SECOND_LOOK)
        look_again(port, answer);
    if (answer[KH_TURN_KIND] == STARTED && fault == FLAG_AGAIN)
        look_at_flag(port, answer);
    if (answer[KH_TURN_KIND] == STARTED && fault == RSP_EVENT_ALWAYS)
        take32(header_at(port, RSP_EVENT));
    if (answer[KH_TURN_KIND] == STARTED && fault == ARMED_ON_SERVICE)
        give32(header_at(port, REQ_EVENT));
}

static uint32_t turn(kh_memory *memory, uint8_t *lent, size_t rings_bytes, const uint8_t *grants, size_t grants_bytes,
                     uint64_t *answer) {
    if (rings_bytes != KH_RINGS_BYTES || grants_bytes != KH_GRANTS_BYTES)
        return kh_turn(memory, copy, rings_bytes, grants, grants_bytes, answer);
    live = lent;
    unsigned port = look();
    if (port != PORTS && waits(port) && fault != SLOT_FIRST)
        take_slot(port);
    if (port != PORTS && fault == BOUNDARIES_AGAIN)
        look_at_boundaries(port, memory, grants);
    uint32_t refusal = kh_turn(memory, copy, rings_bytes, grants, grants_bytes, answer);
    end_turn(port, answer);
    return refusal;
}

static uint32_t complete(kh_memory *memory, uint8_t *lent, size_t rings_bytes, uint32_t port, uint32_t tag,
                         uint32_t serial, int32_t result, uint64_t *answer) {
    uint32_t refusal = kh_complete(memory, copy, rings_bytes, port, tag, serial, result, answer);
    live = lent;
    if (refusal == KH_OK)
        answer[KH_DONE_NOTIFY] = respond(port);
    return refusal;
}

/* ---- lists of completions */

static void give_responses(unsigned port, unsigned count) {
    uint32_t first = bench.ports[port].answered;
    for (unsigned i = 0; i < count; i++) {
        if (i + 1 == count && (fault == LIST_PUBLISHED_BEFORE_THE_LAST || fault == RSP_PROD_FIRST))
            give32(header_at(port, RSP_PROD));
        if (fault == LIST_SLOT_READ)
            take32(slot_at(port, first + i));
        give_response(port, first + i);
        if (fault == LIST_PUBLISHED_EACH)
            give32(header_at(port, RSP_PROD));
        if (fault == LIST_RESPONSES_TWICE)
            give_response(port, first + i);
    }
}

static bool notifies_of_list(unsigned port, unsigned count) {
    for (unsigned i = 1; fault == LIST_EVENT_EACH && i < count; i++)
        take32(header_at(port, RSP_EVENT));
    for (unsigned i = 0; fault == LIST_EVENT_BY_BYTES && i < INDEX_BYTES; i++)
        take_byte(header_at(port, RSP_EVENT) + i);
    if (fault == LIST_EVENT_BY_BYTES)
        return is_event_passed(port, count);
    return notifies(port, count);
}

static void meet_empty_list(unsigned port) {
    if (fault == LIST_EMPTY_PUBLISHES)
        give32(header_at(port, RSP_PROD));
    if (fault == LIST_EMPTY_LOOKS)
        take32(header_at(port, RSP_EVENT));
}

/* What is refused has an entry at fault. */
static void meet_bad_list(unsigned port) {
    if (fault == LIST_REFUSED_LOOKS)
        take32(header_at(port, RSP_EVENT));
    if (fault == LIST_DONE_UNTIL_THE_BAD)
        give_response(port, bench.ports[port].answered);
}

static uint32_t complete_many(kh_memory *memory, uint8_t *lent, size_t rings_bytes, uint32_t port,
                              const uint64_t *entries, size_t entry_words, uint64_t *answer) {
    uint32_t refusal = kh_complete_many(memory, copy, rings_bytes, port, entries, entry_words, answer);
    unsigned count = (unsigned)(entry_words / KH_ENTRY_WORDS);
    live = lent;
    if (refusal == KH_NOT_BUSY)
        meet_bad_list(port);
    if (refusal != KH_OK)
        return refusal;
    if (count == 0) {
        meet_empty_list(port);
        return KH_OK;
    }
    begin_responses(port);
    give_responses(port, count);
    for (unsigned i = 0; fault == LIST_PUBLISHED_BY_BYTES && i < INDEX_BYTES; i++)
        give_byte(header_at(port, RSP_PROD) + i);
    if (fault != LIST_PUBLISHED_BEFORE_THE_LAST && fault != LIST_PUBLISHED_BY_BYTES)
        give_rsp_prod(port);
    answer[KH_MANY_NOTIFY] = notifies_of_list(port, count);
    return KH_OK;
}

const struct backend *backend_named(const char *name) {
    static const struct backend standin = {turn, complete, complete_many, standin_put, standin_collect};
    if (!name)
        return &archive;
    for (unsigned i = 0; i < sizeof names / sizeof *names; i++)
        if (strcmp(name, names[i]) == 0) {
            fault = i;
            return &standin;
        }
    fail("no stand-in is called %s", name);
}
