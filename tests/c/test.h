/* What a test takes: the host with its calls, sheets and requests in short, and the run of a list of tests. */
#ifndef TEST_H
#define TEST_H

#include "host.h"

/* ---- sheets */

typedef struct {
    uint8_t bytes[256];
    size_t length;
} sheet;

/* A sheet from its nodes, such as "1:w 6:512 7:2008". */
static inline sheet sheet_of(const char *nodes) {
    sheet s;
    char text[sizeof s.bytes];
    size_t bodies = 0;
    uint8_t *entry = s.bytes + 1;
    memset(&s, 0, sizeof s);
    while (*nodes != '\0') {
        size_t length = strcspn(nodes + 2, " ");
        memcpy(text + bodies, nodes + 2, length);
        put(entry, 2, (uint64_t)(nodes[0] - '0'));
        put(entry + 2, 2, length);
        bodies += length;
        entry += 4;
        s.bytes[0]++;
        nodes += 2 + length;
        nodes += *nodes == ' ';
    }
    memcpy(entry, text, bodies);
    s.length = (size_t)(entry - s.bytes) + bodies;
    return s;
}

/* A sheet from its nodes, and those of a ring's shape where they have neither. Without these it is for a 64-bit guest
 * and one page. */
static inline sheet sheet_for(shape ring, const char *nodes) {
    char text[256];
    if (strstr(nodes, " 8:") != NULL || strstr(nodes, " 9:") != NULL)
        return sheet_of(nodes);
    snprintf(text, sizeof text, "%s%s%s", nodes, ring.abi == KH_BITS32 ? " 8:x86_32-abi" : "",
             ring.pages == 2 ? " 9:1" : "");
    return sheet_of(text);
}

static inline uint32_t do_open_nodes(host *h, uint32_t port, const char *nodes) {
    sheet s = sheet_for(h->ring, nodes);
    return do_open(h, port, s.bytes, s.length);
}

#define OPEN_NODES(h, port, nodes) MADE_HERE(do_open_nodes(h, port, nodes))

#define USUAL_NODES  "1:w 6:512 7:2008"
#define ALL_FEATURES "1:w 2:1 3:1 4:1 5:1 6:512 7:2008"

/* ---- requests */

typedef struct {
    uint32_t frame;
    uint8_t first, last;
} segment;

typedef struct {
    uint8_t operation;
    uint8_t n; /* number of segments, or a discard's flag */
    uint64_t start;
    uint64_t sectors; /* a discard's */
    segment segments[KH_EXTENTS];
} request;

/* Sectors 0 to 7 of frame 5 in each segment. */
static inline request transfer(uint8_t operation, uint8_t n, uint64_t start) {
    request r = {operation, n, start, 0, {{0, 0, 0}}};
    for (int i = 0; i < KH_EXTENTS; i++)
        r.segments[i] = (segment){5, 0, 7};
    return r;
}

static inline request discard(uint8_t flag, uint64_t start, uint64_t sectors) {
    return (request){KH_DISCARD, flag, start, sectors, {{0, 0, 0}}};
}

#define FIRST_ID UINT64_C(0x1122334455667788)

/* The bytes of a slot; those that the request doesn't use are rubbish. */
static inline void write_slot(uint8_t *slot, const layout *l, uint64_t id, request r) {
    uint8_t *segments = slot + l->segments;
    memset(slot, 0xEE, l->slot);
    slot[0] = r.operation;
    slot[1] = r.n;
    put(slot + l->id, 8, id);
    put(slot + l->start, 8, r.start);
    for (int i = 0; i < KH_EXTENTS; i++) {
        put(segments + 8 * i, 4, r.segments[i].frame);
        segments[8 * i + 4] = r.segments[i].first;
        segments[8 * i + 5] = r.segments[i].last;
    }
    if (r.operation == KH_DISCARD)
        put(segments, 8, r.sectors);
}

/* Puts a request on a port's ring and publishes it. */
static inline void post(const host *h, uint32_t port, request r) {
    uint32_t index = index_at(h, port, KH_REQ_PROD);
    write_slot(slot_of(h, port, index), layout_of(h, port), FIRST_ID + index, r);
    set_index(h, port, KH_REQ_PROD, index + 1);
}

/* A turn's kind, with its port checked. */
static inline uint64_t do_serve(host *h, uint32_t port) {
    CHECK_EQ(do_turn(h), KH_OK);
    CHECK_EQ(words(h, TURNED)[KH_TURN_PORT], port);
    return words(h, TURNED)[KH_TURN_KIND];
}

#define SERVE(h, port) MADE_HERE(do_serve(h, port))

/* Completes the request that the last turn started, as the host expects it. */
static inline uint32_t do_finish(host *h) {
    kh_turned turned = kh_read_turn(words(h, TURNED));
    const started *request = &h->books[turned.port].tags[turned.plan.tag];
    return do_complete(h, turned.port, turned.plan.tag, turned.plan.serial, (int32_t)request->expected);
}

#define FINISH(h) MADE_HERE(do_finish(h))

/* ---- lists of completions */

/* With room for more entries than a list may have. */
typedef struct {
    size_t count;
    uint64_t words[KH_ENTRY_WORDS * 5 * KH_ENTRIES];
} list;

static inline uint64_t *entry_of(list *l, size_t i) {
    return l->words + KH_ENTRY_WORDS * i;
}

static inline void add_entry(list *l, uint32_t tag, uint32_t serial, int32_t result) {
    kh_write_entry(l->words, l->count++, tag, serial, result);
}

/* An entry for a busy tag, as the host expects it. */
static inline void add_started(list *l, const host *h, uint32_t port, uint32_t tag) {
    const started *request = &h->books[port].tags[tag];
    add_entry(l, tag, request->serial, (int32_t)request->expected);
}

static inline uint32_t do_complete_list(host *h, uint32_t port, const list *l) {
    return do_complete_many(h, port, l->words, KH_ENTRY_WORDS * l->count);
}

#define COMPLETE_LIST(h, port, l) MADE_HERE(do_complete_list(h, port, l))

/* ---- what tests begin with */

/* A request on port 0, served, and completed where it starts: the reason, or 0. The turn's answer is left to look at.
 */
static inline uint32_t do_judge(host *h, request r) {
    const uint64_t *answer = words(h, TURNED);
    post(h, 0, r);
    CHECK_EQ(do_turn(h), KH_OK);
    CHECK(answer[KH_TURN_KIND] == KH_STARTED || answer[KH_TURN_KIND] == KH_ANSWERED);
    if (answer[KH_TURN_KIND] == KH_STARTED)
        CHECK_EQ(do_finish(h), KH_OK);
    return (uint32_t)answer[KH_TURN_REASON];
}

#define JUDGE(h, r) MADE_HERE(do_judge(h, r))

/* Port 0 of an empty backend opened with these nodes. */
static inline void do_begin(host *h, const char *nodes) {
    reset(h);
    CHECK_EQ(do_open_nodes(h, 0, nodes), KH_OK);
}

#define BEGIN(h, nodes) MADE_HERE(do_begin(h, nodes))

/* Port 0 closed and opened again, with its guest's ring new too. */
static inline void do_reopen(host *h) {
    CHECK_EQ(do_close(h, 0), KH_OK);
    CHECK_EQ(do_open_nodes(h, 0, USUAL_NODES), KH_OK);
    set_index(h, 0, KH_REQ_PROD, 0);
}

#define REOPEN(h) MADE_HERE(do_reopen(h))

/*
 * Port 0 open, with both indices at a value that no test can get to by requests. Their words are those that one
 * answered request raises from 0 to 1; the pointer would be a third, so it is moved to 1 before.
 */
static inline void do_begin_at_index(host *h, uint32_t value) {
    int found = 0;
    do_begin(h, USUAL_NODES);
    set_index(h, 0, KH_REQ_PROD, slots_of(h, 0) + 1);
    CHECK_EQ(do_serve(h, 0), KH_OVERRUN);
    do_reopen(h);
    post(h, 0, transfer(KH_READ, 0, 0));
    CHECK_EQ(do_serve(h, 0), KH_ANSWERED);
    for (int i = 0; i < KH_MEMORY_WORDS; i++)
        if (words(h, MEMORY)[i] == 1 && get(h->before[MEMORY] + 8 * i, 8) == 0) {
            words(h, MEMORY)[i] = value;
            found++;
        }
    CHECK_EQ(found, 2);
    h->books[0].taken = h->books[0].answered = value;
}

#define BEGIN_AT_INDEX(h, value) MADE_HERE(do_begin_at_index(h, value))

/* ---- the run */

typedef struct {
    const char *name;
    void (*run)(host *h);
} test;

#define TEST(name)                                                                                                     \
    { #name, name }

static inline void on_fault(int number) {
    static const char what[] = ": an access out of bounds (fault)\n";
    ssize_t written = write(STDOUT_FILENO, running.name, strlen(running.name));
    written += write(STDOUT_FILENO, what, sizeof what - 1);
    _exit(written > 0 ? number : 1);
}

static inline void run_placed(const test *t, shape ring, enum placement where) {
    host h;
    memset(&h, 0, sizeof h);
    h.ring = ring;
    placement = where;
    running.file = NULL;
    reset(&h);
    t->run(&h);
    for (int area = 0; area < AREAS; area++)
        resize(&h, (enum area)area, 0);
}

/* Where a test's buffers are put, in one run of it after the other. */
#ifdef __SANITIZE_ADDRESS__
static const enum placement places[] = {ON_HEAP};
#else
static const enum placement places[] = {AFTER_GUARD, BEFORE_GUARD};
#endif

/* All tests with the buffers in one place and one shape, before any in the next: what one of them finds is found soon,
 * and ends the run. */
static inline void run_until_the_first(size_t shape_count, const test *tests, size_t count) {
    for (size_t run = 0; run < shape_count * COUNT_OF(places); run++)
        for (size_t i = 0; i < count; i++) {
            running.name = tests[i].name;
            run_placed(&tests[i], shapes[run / COUNT_OF(places)], places[run % COUNT_OF(places)]);
        }
}

/* Runs the tests with so many of the shapes and the buffers in every place; a line for each test. */
static inline int run_in_shapes(size_t shape_count, const test *tests, size_t count) {
    int failed = 0;
    setvbuf(stdout, NULL, _IOLBF, 0);
#ifndef __SANITIZE_ADDRESS__
    signal(SIGSEGV, on_fault);
#endif
    if (getenv("STOP_AT_FIRST") != NULL) {
        run_until_the_first(shape_count, tests, count);
        return 0;
    }
    for (size_t i = 0; i < count; i++) {
        running.name = tests[i].name;
        running.failures = 0;
        for (size_t run = 0; run < shape_count * COUNT_OF(places); run++)
            run_placed(&tests[i], shapes[run / COUNT_OF(places)], places[run % COUNT_OF(places)]);
        printf("%s %s\n", running.failures == 0 ? "ok  " : "FAIL", tests[i].name);
        failed += running.failures != 0;
    }
    return failed != 0;
}

/* For tests that open 64-bit ports of one page, or say what those are like that they open. */
static inline int run_tests(const test *tests, size_t count) {
    return run_in_shapes(1, tests, count);
}

/* For tests of which every word holds in either layout, with rings of one page and of two. */
static inline int run_in_every_shape(const test *tests, size_t count) {
    return run_in_shapes(COUNT_OF(shapes), tests, count);
}

#endif
