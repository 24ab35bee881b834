/*
 * A host that keeps books of what was answered, and checks of each call all that holds of every call: what a refused
 * one leaves alone, the words that an answer does not use, and every ring byte. It hands each answer over to the meter
 * of its port, and sees to it that the meters say what it counted by itself.
 */
#ifndef HOST_H
#define HOST_H

#include "check.h"
#include "kernelharp.h"

/* The number of a reason that is not given any more. */
enum { WITHDRAWN = 23 };

/* What was lent, in the order of the buffers below: to the backend's calls, then to a guest's (front.h has those). */
enum area {
    MEMORY,
    RINGS,
    GRANTS,
    TURNED,
    COMPLETED,
    LISTED,
    METERS,
    GUEST,
    PAGE,
    REQUEST,
    PUT_ANSWER,
    COLLECT_ANSWER,
    AREAS
};

typedef struct {
    uint64_t id;
    uint8_t operation;
    uint32_t serial;
    int64_t expected; /* the result that gives okay */
} started;

/* How a guest lays out a slot (rules 2.3 to 2.10): its bytes, a response's, and where a request has its fields. */
typedef struct {
    const char *protocol;
    unsigned slot, response;
    unsigned id, start, segments;
} layout;

static const layout layouts[] = {
    [KH_BITS64] = {"x86_64-abi", 112, 16, 8, 16, 24},
    [KH_BITS32] = {"x86_32-abi", 108, 12, 4, 12, 20},
};

/* What a guest's ring is like (rules 2.3 and 3.5). */
typedef struct {
    enum kh_abi abi;
    uint32_t pages;
} shape;

/* One to each: rings of both layouts and both sizes. */
static const shape shapes[] = {{KH_BITS64, 1}, {KH_BITS32, 1}, {KH_BITS64, 2}, {KH_BITS32, 2}};

/* What the answers so far say of a port. */
typedef struct {
    bool open;
    shape ring;
    uint32_t taken;
    uint32_t answered;
    uint64_t busy;
    started tags[KH_TAGS];
} book;

/* What the answers so far say of the guest. The indices are called as in ring.h. */
typedef struct {
    uint32_t req_prod, rsp_cons;
    uint32_t count; /* outstanding */
    struct {
        uint64_t id, operation;
    } outstanding[KH_PAGE_SLOTS];
} ledger;

typedef struct {
    uint8_t *at[AREAS];
    uint8_t *before[AREAS]; /* as it was before the last call */
    size_t bytes[AREAS];
    book books[KH_PORTS];
    kh_meter counts[KH_PORTS]; /* what each meter has to say, whatever opens and closes between */
    shape ring;                /* of the ports that are opened by nodes that don't say it */
    bool shuts;                /* pages of the rings that no call may reach are out of reach while one runs */
    ledger front;
} host;

static inline uint64_t *words(const host *h, enum area area) {
    return (uint64_t *)(void *)h->at[area];
}

static inline kh_memory *memory_of(const host *h) {
    return (kh_memory *)(void *)h->at[MEMORY];
}

static inline kh_meter *meter_of(const host *h, uint32_t port) {
    return (kh_meter *)(void *)h->at[METERS] + port;
}

/* Puts other numbers into a port's meter; zeros begin it anew. */
static inline void set_meter(host *h, uint32_t port, kh_meter numbers) {
    *meter_of(h, port) = h->counts[port] = numbers;
}

static inline uint8_t *ring(const host *h, uint32_t port) {
    return h->at[RINGS] + KH_RING_BYTES * port;
}

static inline uint32_t index_at(const host *h, uint32_t port, unsigned field) {
    return (uint32_t)get(ring(h, port) + field, 4);
}

static inline void set_index(const host *h, uint32_t port, unsigned field, uint32_t value) {
    put(ring(h, port) + field, 4, value);
}

static inline const layout *layout_of(const host *h, uint32_t port) {
    return &layouts[h->books[port].ring.abi];
}

/* How many slots a ring has, and tags its port. */
static inline uint32_t slots_in(shape s) {
    return s.pages == 2 ? 64 : 32;
}

static inline uint32_t slots_of(const host *h, uint32_t port) {
    return slots_in(h->books[port].ring);
}

/* Where a slot lies in its ring. */
static inline unsigned slot_offset(shape s, uint32_t index) {
    return KH_HEADER_BYTES + layouts[s.abi].slot * (index % slots_in(s));
}

/* A slot of a port's ring. */
static inline uint8_t *slot_of(const host *h, uint32_t port, uint32_t index) {
    return ring(h, port) + slot_offset(h->books[port].ring, index);
}

/* A slot of the guest's page. */
static inline uint8_t *slot_in(uint8_t *page, uint32_t index) {
    return page + slot_offset((shape){KH_BITS64, 1}, index);
}

static inline void grant(const host *h, uint32_t port, uint32_t frame, uint8_t value) {
    h->at[GRANTS][KH_PORT_GRANTS * port + frame] = value;
}

/* Another length for one of the buffers; 0 is a null pointer. */
static inline void resize(host *h, enum area area, size_t bytes) {
    if (h->at[area] != NULL)
        give_back(h->at[area], h->bytes[area]);
    free(h->before[area]);
    h->bytes[area] = bytes;
    h->at[area] = bytes > 0 ? lend(bytes) : NULL;
    h->before[area] = bytes > 0 ? (uint8_t *)malloc(bytes) : NULL;
}

/*
 * The empty backend, empty rings, new meters, and frames 0 to 15 of every port granted for read and write; a fresh
 * guest and its page. Second halves of the ports' shares are rubbish, which a ring of one page has nothing to do with.
 */
static inline void reset(host *h) {
    static const size_t bytes[AREAS] = {[MEMORY] = 8 * KH_MEMORY_WORDS,
                                        [RINGS] = KH_RINGS_BYTES,
                                        [GRANTS] = KH_GRANTS_BYTES,
                                        [TURNED] = 8 * KH_TURN_WORDS,
                                        [COMPLETED] = 8 * KH_DONE_WORDS,
                                        [LISTED] = 8 * KH_MANY_WORDS,
                                        [METERS] = KH_PORTS * sizeof(kh_meter),
                                        [GUEST] = 8 * KH_GUEST_WORDS,
                                        [PAGE] = KH_GUEST_PAGE_BYTES,
                                        [REQUEST] = 8 * KH_REQUEST_WORDS,
                                        [PUT_ANSWER] = 8 * KH_PUT_WORDS,
                                        [COLLECT_ANSWER] = 8 * KH_COLLECT_WORDS};
    for (int area = 0; area < AREAS; area++) {
        if (h->bytes[area] != bytes[area])
            resize(h, (enum area)area, bytes[area]);
        memset(h->at[area], 0, bytes[area]);
    }
    for (uint32_t port = 0; port < KH_PORTS; port++) {
        memset(ring(h, port) + KH_PAGE_BYTES, 0xEE, KH_PAGE_BYTES);
        memset(h->at[GRANTS] + KH_PORT_GRANTS * port, KH_GRANT_READ_WRITE, 16);
    }
    memset(h->books, 0, sizeof h->books);
    memset(h->counts, 0, sizeof h->counts);
    memset(&h->front, 0, sizeof h->front);
}

/* ---- what holds of every call */

static inline void remember(const host *h) {
    for (int area = 0; area < AREAS; area++)
        if (h->bytes[area] > 0)
            memcpy(h->before[area], h->at[area], h->bytes[area]);
}

static inline void check_same(const host *h, enum area area) {
    static const char *const names[AREAS] = {
        "memory", "rings",        "grants", "turn's answer", "completion's answer", "list's answer",
        "meters", "guest memory", "page",   "request",       "put's answer",        "collect's answer"};
    size_t i = 0;
    if (h->bytes[area] == 0 || memcmp(h->at[area], h->before[area], h->bytes[area]) == 0)
        return;
    while (h->at[area][i] == h->before[area][i])
        i++;
    report(__FILE__, __LINE__, names[area]);
    printf(": byte %zu is %02x, not %02x\n", i, h->at[area][i], h->before[area][i]);
}

/* A refused call changed nothing, and one that was done only areas of `changes`, a bit to each. */
static inline void check_kept(const host *h, uint32_t number, unsigned changes) {
    for (int area = 0; area < AREAS; area++)
        if (number != KH_OK || (changes >> area & 1) == 0)
            check_same(h, (enum area)area);
}

/* Up to the top, where a number stays. */
static inline void raise_number(uint64_t *number) {
    *number += *number < UINT64_MAX;
}

/* Counts a response by its status, the sign left out. */
static inline void count_status(kh_meter *counts, uint64_t status) {
    raise_number(status == 0 ? &counts->okay : status == 1 ? &counts->error : &counts->not_supported);
}

/* Raises a meter by an answer, which is left as it was. */
static inline void raise_meter(const host *h, enum area area, kh_meter *meter, uint32_t number) {
    memcpy(h->before[area], h->at[area], h->bytes[area]);
    allow_writes(h->at[area], h->bytes[area], false);
    (area == TURNED   ? kh_meter_turn
     : area == LISTED ? kh_meter_many
                      : kh_meter_completion)(meter, number, words(h, area));
    allow_writes(h->at[area], h->bytes[area], true);
    check_same(h, area);
}

/* Hands an answer over to a port's meter, with the number that its call returned: all meters say what was counted. */
static inline void hand_over(const host *h, enum area area, uint32_t number, uint32_t port) {
    raise_meter(h, area, meter_of(h, port), number);
    memcpy(h->before[METERS], h->counts, sizeof h->counts);
    check_same(h, METERS);
}

/* Puts a port's next response into the ring that it was before the call. */
static inline void expect_response(host *h, uint32_t port, const started *request, uint64_t status) {
    const layout *l = layout_of(h, port);
    uint8_t *page = h->before[RINGS] + KH_RING_BYTES * port;
    uint8_t *slot = page + slot_offset(h->books[port].ring, h->books[port].answered++);
    count_status(&h->counts[port], status);
    put(slot, 8, request->id);
    put(slot + 8, 2, request->operation);
    put(slot + 10, 2, 0 - status);
    put(slot + 12, l->response - 12, 0);
    put(page + KH_RSP_PROD, 4, h->books[port].answered);
}

/* The notify of a call that gave so many responses: rsp_event is one of their indices (rules 6.5 and 6.20). */
static inline void check_notify(const host *h, uint32_t port, uint32_t responses, uint64_t notify) {
    uint32_t rsp_event = (uint32_t)get(h->before[RINGS] + KH_RING_BYTES * port + KH_RSP_EVENT, 4);
    uint32_t behind = h->books[port].answered - rsp_event;
    CHECK_EQ(notify, behind < responses);
}

static inline bool is_busy(const book *b, uint32_t tag) {
    return (b->busy >> tag % KH_TAGS & 1) != 0;
}

/* Whether it is what a started request was answered with. */
static inline bool names_request(const book *b, uint32_t tag, uint32_t serial) {
    return tag < slots_in(b->ring) && is_busy(b, tag) && b->tags[tag].serial == serial;
}

/* The sign left out. */
static inline uint64_t status_of_result(const started *request, int64_t result) {
    return result == request->expected ? 0 : result == KH_RESULT_NOT_SUPPORTED ? 2 : 1;
}

static inline uint32_t lowest_free(const book *b) {
    uint32_t tag = 0;
    while (tag < slots_in(b->ring) && is_busy(b, tag))
        tag++;
    return tag;
}

static inline void check_started(book *b, started request, const uint64_t *answer) {
    CHECK_EQ(answer[KH_TURN_TAG], lowest_free(b));
    CHECK(answer[KH_TURN_TAG] < slots_in(b->ring));
    CHECK_EQ(answer[KH_TURN_SERIAL], b->taken);
    CHECK_EQ(answer[KH_TURN_OPERATION], request.operation);
    CHECK(answer[KH_TURN_SECURE] <= (request.operation == KH_DISCARD));
    CHECK(answer[KH_TURN_EXTENT_COUNT] <= KH_EXTENTS);
    request.serial = b->taken++;
    request.expected = request.operation <= KH_BARRIER ? (int64_t)answer[KH_TURN_COUNT] : 0;
    b->busy |= UINT64_C(1) << answer[KH_TURN_TAG] % KH_TAGS;
    b->tags[answer[KH_TURN_TAG] % KH_TAGS] = request;
}

static inline void check_answered(host *h, uint32_t port, started request, const uint64_t *answer) {
    uint64_t reason = answer[KH_TURN_REASON];
    CHECK(reason >= KH_UNKNOWN_OPERATION && reason <= KH_UNALIGNED && reason != WITHDRAWN);
    CHECK_EQ(answer[KH_TURN_STATUS], reason <= KH_FEATURE_OFF ? 2 : 1);
    h->books[port].taken++;
    expect_response(h, port, &request, answer[KH_TURN_STATUS]);
    check_notify(h, port, 1, answer[KH_TURN_NOTIFY]);
}

/* Nothing is published that was not taken. */
static inline void expect_req_events(host *h) {
    for (uint32_t port = 0; port < KH_PORTS; port++) {
        uint8_t *header = h->before[RINGS] + KH_RING_BYTES * port;
        if (!h->books[port].open)
            continue;
        CHECK_EQ(get(header + KH_REQ_PROD, 4), h->books[port].taken);
        put(header + KH_REQ_EVENT, 4, h->books[port].taken + 1);
    }
}

/* Whether a request waits on a port, or it overruns: by what was published, and by what is in flight. */
static inline void check_line(const host *h, uint32_t port, uint64_t kind) {
    const book *b = &h->books[port];
    uint32_t waiting = (uint32_t)get(h->before[RINGS] + KH_RING_BYTES * port + KH_REQ_PROD, 4) - b->taken;
    uint64_t room = slots_in(b->ring) - (uint64_t)(b->taken - b->answered);
    CHECK(b->open && waiting > 0);
    CHECK_EQ(kind == KH_OVERRUN, waiting > room);
}

/* Whether a kind uses a word of the answer. */
static inline bool uses_word(const uint64_t *answer, unsigned word) {
    uint64_t kind = answer[KH_TURN_KIND];
    if (word == KH_TURN_KIND || (word == KH_TURN_PORT && kind != KH_IDLE))
        return true;
    if (kind == KH_ANSWERED)
        return word >= KH_TURN_REASON && word <= KH_TURN_NOTIFY;
    return kind == KH_STARTED &&
           ((word >= KH_TURN_TAG && word <= KH_TURN_EXTENT_COUNT) ||
            (word >= KH_TURN_EXTENTS && (word - KH_TURN_EXTENTS) / KH_EXTENT_WORDS < answer[KH_TURN_EXTENT_COUNT]));
}

/* The answer of a turn that was done, the rings after it, and what both say of the port. */
static inline void check_turn(host *h) {
    const uint64_t *answer = words(h, TURNED);
    uint32_t port = (uint32_t)(answer[KH_TURN_PORT] % KH_PORTS);
    book *b = &h->books[port];
    const layout *l = layout_of(h, port);
    const uint8_t *slot = h->before[RINGS] + KH_RING_BYTES * port + slot_offset(b->ring, b->taken);
    started request = {get(slot + l->id, 8), slot[0], 0, 0};
    CHECK(answer[KH_TURN_KIND] <= KH_OVERRUN && answer[KH_TURN_PORT] < KH_PORTS);
    if (answer[KH_TURN_KIND] != KH_IDLE)
        check_line(h, port, answer[KH_TURN_KIND]);
    if (answer[KH_TURN_KIND] == KH_IDLE)
        expect_req_events(h);
    else if (answer[KH_TURN_KIND] == KH_STARTED)
        check_started(b, request, answer);
    else if (answer[KH_TURN_KIND] == KH_ANSWERED)
        check_answered(h, port, request, answer);
    else
        b->open = false;
    if (answer[KH_TURN_KIND] == KH_STARTED || answer[KH_TURN_KIND] == KH_ANSWERED)
        raise_number(&h->counts[port].taken);
    check_same(h, RINGS);
    for (unsigned word = 0; word < KH_TURN_WORDS; word++)
        if (!uses_word(answer, word))
            CHECK_EQ(answer[word], 0);
}

static inline void check_completion(host *h, uint32_t port, uint32_t tag, uint32_t serial, int32_t result) {
    const uint64_t *answer = words(h, COMPLETED);
    book *b = &h->books[port % KH_PORTS];
    started *request = &b->tags[tag % KH_TAGS];
    CHECK(port < KH_PORTS && names_request(b, tag, serial));
    CHECK_EQ(answer[KH_DONE_PORT], port);
    CHECK_EQ(answer[KH_DONE_STATUS], status_of_result(request, result));
    for (unsigned word = KH_DONE_NOTIFY + 1; word < KH_DONE_WORDS; word++)
        CHECK_EQ(answer[word], 0);
    b->busy &= ~(UINT64_C(1) << tag % KH_TAGS);
    expect_response(h, port % KH_PORTS, request, answer[KH_DONE_STATUS]);
    check_notify(h, port % KH_PORTS, 1, answer[KH_DONE_NOTIFY]);
    check_same(h, RINGS);
}

/* ---- lists of completions */

/* Whether all entries name started requests, and each another one. */
static inline bool names_requests(const book *b, const uint64_t *entries, size_t count) {
    uint64_t named = 0;
    for (const uint64_t *entry = entries; entry < entries + KH_ENTRY_WORDS * count; entry += KH_ENTRY_WORDS) {
        uint64_t tag = entry[KH_ENTRY_TAG], serial = entry[KH_ENTRY_SERIAL];
        if (tag > UINT32_MAX || serial > UINT32_MAX || !names_request(b, (uint32_t)tag, (uint32_t)serial))
            return false;
        if ((named >> tag & 1) != 0)
            return false;
        named |= UINT64_C(1) << tag;
    }
    return true;
}

/* What a list is refused with, or 0. A closed port has no pages. */
static inline uint32_t list_due(const host *h, uint32_t port, const uint64_t *entries, size_t entry_words) {
    const book *b = &h->books[port % KH_PORTS];
    if (h->bytes[RINGS] != KH_RINGS_BYTES || entry_words % KH_ENTRY_WORDS != 0)
        return 1;
    if (port >= KH_PORTS)
        return 2;
    if (b->ring.pages == 0)
        return 4;
    if (entry_words / KH_ENTRY_WORDS > 64)
        return 7;
    return names_requests(b, entries, entry_words / KH_ENTRY_WORDS) ? KH_OK : 6;
}

/* The answer of a list that was done, and the rings after it. */
static inline void check_list(host *h, uint32_t port, const uint64_t *entries, size_t count) {
    const uint64_t *answer = words(h, LISTED);
    book *b = &h->books[port];
    CHECK_EQ(answer[KH_MANY_PORT], port);
    CHECK_EQ(answer[KH_MANY_COUNT], count);
    CHECK_EQ(answer[KH_MANY_NOTIFY + 1], 0);
    for (size_t i = 0; i < KH_ENTRIES; i++) {
        const uint64_t *entry = entries + KH_ENTRY_WORDS * i;
        const started *request;
        if (i >= count) {
            CHECK_EQ(answer[KH_MANY_STATUSES + i], 0);
            continue;
        }
        request = &b->tags[entry[KH_ENTRY_TAG]];
        CHECK_EQ(answer[KH_MANY_STATUSES + i], status_of_result(request, (int64_t)entry[KH_ENTRY_RESULT]));
        b->busy &= ~(UINT64_C(1) << entry[KH_ENTRY_TAG]);
        expect_response(h, port, request, answer[KH_MANY_STATUSES + i]);
    }
    check_notify(h, port, (uint32_t)count, answer[KH_MANY_NOTIFY]);
    check_same(h, RINGS);
}

/* ---- the calls; each returns the call's number */

/* The second half of each share but those of rings that go so far, where the host shuts them. */
static inline void shut_pages(const host *h, bool shut) {
    if (!h->shuts || placement == ON_HEAP)
        return;
    for (uint32_t port = 0; port < KH_PORTS; port++)
        if (h->books[port].ring.pages != 2)
            forbid(ring(h, port) + KH_PAGE_BYTES, KH_PAGE_BYTES, shut);
}

static inline uint32_t do_open(host *h, uint32_t port, const uint8_t *sheet, size_t bytes) {
    uint8_t *lent = bytes > 0 ? lend(bytes) : NULL;
    shape asked;
    uint32_t number;
    if (bytes > 0)
        memcpy(lent, sheet, bytes);
    asked = (shape){kh_read_abi(lent, bytes), kh_read_pages(lent, bytes)};
    remember(h);
    number = kh_open(memory_of(h), port, lent, bytes);
    check_kept(h, number, 1 << MEMORY);
    if (bytes > 0) {
        CHECK(memcmp(lent, sheet, bytes) == 0);
        give_back(lent, bytes);
    }
    if (number == KH_OK) {
        memset(&h->books[port], 0, sizeof h->books[port]);
        h->books[port].open = true;
        h->books[port].ring = asked;
    }
    return number;
}

static inline uint32_t do_close(host *h, uint32_t port) {
    uint32_t number;
    remember(h);
    number = kh_close(memory_of(h), port);
    check_kept(h, number, 1 << MEMORY);
    if (number == KH_OK)
        memset(&h->books[port], 0, sizeof h->books[port]);
    return number;
}

static inline uint32_t do_turn(host *h) {
    uint32_t number;
    memset(h->at[TURNED], 0xA5, h->bytes[TURNED]);
    remember(h);
    shut_pages(h, true);
    number = kh_turn(memory_of(h), h->at[RINGS], h->bytes[RINGS], h->at[GRANTS], h->bytes[GRANTS], words(h, TURNED));
    shut_pages(h, false);
    check_kept(h, number, 1 << MEMORY | 1 << RINGS | 1 << TURNED);
    if (number == KH_OK)
        check_turn(h);
    hand_over(h, TURNED, number, words(h, TURNED)[KH_TURN_PORT] % KH_PORTS);
    return number;
}

static inline uint32_t do_complete(host *h, uint32_t port, uint32_t tag, uint32_t serial, int32_t result) {
    uint32_t number;
    memset(h->at[COMPLETED], 0xA5, h->bytes[COMPLETED]);
    remember(h);
    shut_pages(h, true);
    number = kh_complete(memory_of(h), h->at[RINGS], h->bytes[RINGS], port, tag, serial, result, words(h, COMPLETED));
    shut_pages(h, false);
    check_kept(h, number, 1 << MEMORY | 1 << RINGS | 1 << COMPLETED);
    if (number == KH_OK)
        check_completion(h, port, tag, serial, result);
    CHECK(number != KH_NOT_BUSY || !names_request(&h->books[port % KH_PORTS], tag, serial));
    hand_over(h, COMPLETED, number, port % KH_PORTS);
    return number;
}

/* A list of completions; its words are lent as they are, and can't be written to. */
static inline uint32_t do_complete_many(host *h, uint32_t port, const uint64_t *entries, size_t entry_words) {
    size_t bytes = sizeof *entries * entry_words;
    uint64_t *lent = bytes > 0 ? (uint64_t *)(void *)lend(bytes) : NULL;
    uint32_t number, due = list_due(h, port, entries, entry_words);
    if (bytes > 0) {
        memcpy(lent, entries, bytes);
        allow_writes((uint8_t *)lent, bytes, false);
    }
    memset(h->at[LISTED], 0xA5, h->bytes[LISTED]);
    remember(h);
    shut_pages(h, true);
    number = kh_complete_many(memory_of(h), h->at[RINGS], h->bytes[RINGS], port, lent, entry_words, words(h, LISTED));
    shut_pages(h, false);
    CHECK_EQ(number, due);
    check_kept(h, number, (entry_words > 0 ? 1 << MEMORY | 1 << RINGS : 0) | 1 << LISTED);
    if (number == KH_OK && due == KH_OK)
        check_list(h, port, entries, entry_words / KH_ENTRY_WORDS);
    if (bytes > 0) {
        CHECK(memcmp(lent, entries, bytes) == 0);
        give_back((uint8_t *)lent, bytes);
    }
    hand_over(h, LISTED, number, port % KH_PORTS);
    return number;
}

#define OPEN(h, port, sheet, bytes)            MADE_HERE(do_open(h, port, sheet, bytes))
#define CLOSE(h, port)                         MADE_HERE(do_close(h, port))
#define TURN(h)                                MADE_HERE(do_turn(h))
#define COMPLETE(h, port, tag, serial, result) MADE_HERE(do_complete(h, port, tag, serial, result))
#define COMPLETE_MANY(h, port, entries, count) MADE_HERE(do_complete_many(h, port, entries, count))

#endif
