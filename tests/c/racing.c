/*
 * A guest that writes while the helper takes turns: a thread that publishes requests on rings of all four shapes, and
 * goes on to change them where they wait. Each field that it changes has some values, good ones and bad ones. A plan
 * has good ones only, each of them a value of its field, whatever mixture it is; and each request is answered once.
 * The guest also writes to rsp_prod, which is not its own.
 *
 *     racing copies | pages
 */
#include "any.h"

#include <kernelharp_host.h>
#include <pthread.h>
#include <sched.h>
#include <stdatomic.h>

#define WORD(at) ((at) / sizeof(uint32_t))

enum { RINGS = 4, REQUESTS = 5000, SECTORS = 2008, READ_WRITE = 5, READ_ONLY = 6, NOT_GRANTED = 700 };

static kh_host host;
static _Alignas(KH_PAGE_BYTES) volatile uint32_t rings[KH_RINGS_BYTES / 4]; /* the guest's */

static const struct {
    enum kh_abi abi;
    uint32_t pages;
    size_t slot, id, start; /* in words; the segments come behind the start */
} shapes[RINGS] = {
    {KH_BITS64, 1, 28, 2, 4}, {KH_BITS32, 1, 27, 1, 3}, {KH_BITS64, 2, 28, 2, 4}, {KH_BITS32, 2, 27, 1, 3}};

static _Atomic uint32_t collected[RINGS];
static bool answered[RINGS][REQUESTS];
static uint32_t taken[RINGS], given[RINGS];
static unsigned long started, changed, refused[KH_REASONS];

static volatile uint32_t *ring_of(uint32_t port) {
    return rings + WORD(KH_RING_BYTES) * port;
}

static volatile uint32_t *slot_of(uint32_t port, uint32_t index) {
    uint32_t slot = index % (32 * shapes[port].pages);
    return ring_of(port) + WORD(KH_HEADER_BYTES) + shapes[port].slot * slot;
}

static uint32_t operation_of(uint32_t index) {
    return index % 2 == 0 ? KH_READ : KH_WRITE;
}

/* ---- the guest */

static uint64_t drawn = 1;

static uint32_t draw(uint32_t bound) {
    drawn = drawn * UINT64_C(6364136223846793005) + UINT64_C(1442695040888963407);
    return (uint32_t)(drawn >> 33) % bound;
}

/* The first value is that which a request is published with. */
static const uint32_t starts[] = {8, 16, 24, SECTORS}, highs[] = {0, 0, 0, 1};
static const uint32_t frames[] = {READ_WRITE, READ_WRITE, READ_WRITE, READ_ONLY, NOT_GRANTED, 5000};
static const uint32_t firsts[] = {0, 3, 1, 5}, lasts[] = {7, 4, 6, 2};

static void publish(uint32_t port, uint32_t index) {
    volatile uint32_t *slot = slot_of(port, index);
    slot[0] = operation_of(index) | KH_SEGMENTS << 8;
    slot[shapes[port].id] = index;
    slot[shapes[port].id + 1] = port;
    slot[shapes[port].start] = starts[0];
    slot[shapes[port].start + 1] = highs[0];
    for (size_t i = 0; i < KH_SEGMENTS; i++) {
        slot[shapes[port].start + 2 + 2 * i] = frames[0];
        slot[shapes[port].start + 3 + 2 * i] = firsts[0] | lasts[0] << 8;
    }
    atomic_thread_fence(memory_order_release);
    ring_of(port)[WORD(KH_REQ_PROD)] = index + 1;
}

/* One field, at times of a request that was taken by now: no part of a response is there. */
static void change(uint32_t port, uint32_t index) {
    volatile uint32_t *field = slot_of(port, index) + shapes[port].start;
    uint32_t segment = draw(KH_SEGMENTS + 1), part = draw(draw(8) == 0 ? 4 : 3);
    bool second = draw(2) == 0;
    if (segment < KH_SEGMENTS && second)
        field[3 + 2 * segment] = firsts[part] | lasts[part] << 8;
    else if (segment < KH_SEGMENTS)
        field[2 + 2 * segment] = frames[draw(draw(8) == 0 ? 6 : 3)];
    else
        field[second] = second ? highs[draw(4)] : starts[draw(4)];
    ring_of(port)[WORD(draw(2) == 0 ? KH_RSP_PROD : KH_RSP_EVENT)] = draw(UINT32_MAX);
}

static void *run_guest(void *unused) {
    uint32_t published[RINGS] = {0};
    for (uint32_t ended = 0; ended < RINGS;) {
        ended = 0;
        for (uint32_t port = 0; port < RINGS; port++) {
            uint32_t before = atomic_load(&collected[port]);
            if (published[port] < REQUESTS && published[port] - before < 32 * shapes[port].pages)
                publish(port, published[port]++);
            for (int i = 0; i < 8 && before < published[port]; i++)
                change(port, published[port] - 1 - draw(published[port] - before));
            ended += before == REQUESTS;
        }
        sched_yield();
    }
    return unused;
}

/* ---- the host */

static kh_turned plans[RINGS * KH_TAGS];
static uint32_t in_flight;

static bool is_one_of(uint64_t value, const uint32_t *values, size_t count) {
    size_t i = 0;
    while (i < count && value != values[i])
        i++;
    return i < count;
}

static void check_plan(const kh_plan *plan, uint32_t index) {
    uint64_t sector = plan->start;
    bool as_published = plan->start == starts[0];
    CHECK_EQ(plan->operation, operation_of(index));
    CHECK_EQ(plan->extent_count, KH_SEGMENTS);
    CHECK(is_one_of(plan->start, starts, 3));
    for (size_t i = 0; i < KH_SEGMENTS; i++) {
        const kh_extent *extent = &plan->extents[i];
        CHECK(extent->frame == READ_WRITE || (extent->frame == READ_ONLY && plan->operation == KH_WRITE));
        CHECK(is_one_of(extent->first, firsts, 4) && is_one_of(extent->first + extent->length - 1, lasts, 3));
        CHECK(extent->length >= 1 && extent->first + extent->length <= KH_FRAME_SECTORS);
        CHECK_EQ(extent->sector, sector);
        sector += extent->length;
        as_published = as_published && extent->frame == frames[0] && extent->length == KH_FRAME_SECTORS;
    }
    CHECK_EQ(plan->start + plan->count, sector);
    CHECK(sector <= SECTORS);
    changed += !as_published;
}

/* The response that went out last, for a request with this operation and status. */
static void check_response(uint32_t port, uint32_t operation, int32_t status) {
    const volatile uint32_t *slot = slot_of(port, given[port]++);
    uint32_t index = slot[0];
    CHECK_EQ(slot[1], port);
    CHECK(index < taken[port] && !answered[port][index % REQUESTS]);
    CHECK_EQ(slot[2], operation | (uint32_t)status << 16);
    CHECK_EQ(operation, operation_of(index));
    answered[port][index % REQUESTS] = true;
}

static void take_turn(void) {
    kh_turned turned = kh_host_turn(&host);
    uint32_t index = taken[turned.port];
    CHECK(turned.kind != KH_OVERRUN);
    if (turned.kind == KH_IDLE)
        sched_yield();
    if (turned.kind == KH_STARTED || turned.kind == KH_ANSWERED)
        taken[turned.port]++;
    if (turned.kind == KH_STARTED) {
        check_plan(&turned.plan, index);
        plans[in_flight++] = turned;
        started++;
    }
    if (turned.kind == KH_ANSWERED) {
        check_response(turned.port, operation_of(index), KH_ERROR);
        refused[turned.reason - KH_UNKNOWN_OPERATION]++;
        atomic_store(&collected[turned.port], given[turned.port]);
    }
}

static void complete_one(void) {
    uint32_t i = below(in_flight), port = plans[i].port;
    kh_plan plan = plans[i].plan;
    bool notify;
    plans[i] = plans[--in_flight];
    CHECK_EQ(kh_host_complete(&host, port, plan.tag, plan.serial, kh_expected_result(&plan), &notify), KH_OK);
    check_response(port, plan.operation, KH_OKAY);
    atomic_store(&collected[port], given[port]);
}

static void open_ports(void) {
    for (uint32_t port = 0; port < RINGS; port++) {
        kh_sheet disk = {.writable = true, .sector_size = 512, .sectors = SECTORS};
        void *pages[] = {(void *)ring_of(port), (void *)(ring_of(port) + WORD(KH_PAGE_BYTES))};
        uint8_t sheet[KH_SHEET_BYTES];
        disk.abi = shapes[port].abi;
        disk.pages = shapes[port].pages;
        kh_host_grants(&host, port)[READ_WRITE] = KH_GRANT_READ_WRITE;
        kh_host_grants(&host, port)[READ_ONLY] = KH_GRANT_READ;
        CHECK_EQ(kh_host_open(&host, port, sheet, kh_write_sheet(&disk, sheet), pages), KH_OK);
    }
}

int main(int words, char **word) {
    bool has_row = words > 1 && strcmp(word[1], "pages") == 0;
    pthread_t guest;
    running.name = "racing";
    if (!(has_row ? kh_host_init_pages(&host, (void *)rings) : kh_host_init(&host)))
        return 2;
    open_ports();
    if (pthread_create(&guest, NULL, run_guest, NULL) != 0)
        return 2;
    for (uint32_t ended = 0; ended < RINGS * REQUESTS && running.failures == 0;) {
        take_turn();
        if (in_flight > below(64))
            complete_one();
        ended = given[0] + given[1] + given[2] + given[3];
    }
    if (running.failures > 0) /* the guest would wait for ever */
        return 1;
    pthread_join(guest, NULL);
    CHECK(started > 0 && changed > 0);
    for (uint32_t i = 0; i < KH_REASONS; i++)
        CHECK_EQ(refused[i] > 0, i >= KH_WRONG_SEGMENT - 21 && i <= KH_PAST_END - 21);
    printf("     %d requests: %lu started, %lu of these changed while they waited; bad segments %lu, grants %lu, ends "
           "%lu\n",
           RINGS * REQUESTS, started, changed, refused[5], refused[6], refused[7]);
    return running.failures != 0;
}
