/*
 * Eight front ends on Xen's own ring macros, half of them with the records of 32-bit guests and half with rings of two
 * pages, served through the library. Requests of every kind, good and broken, go through many wraps of the rings; each
 * gets one response, with its id, its operation and the status due. Beside the library runs a back end on the same
 * macros, on a copy of the pages: both leave the same bytes and say the same of notifications, of single responses and
 * of several that are published together, from a list of completions. The ports' meters say at the end what was due.
 *
 * Nobody looks at a ring without being notified: a wake-up that is missing leaves requests unanswered at the end.
 */
#include "due.h"
#include "guest.h"
#include "test.h"

enum { REQUESTS = 1024, STEPS = 200000 };

/* ---- the host, and a back end on the macros beside it */

typedef struct {
    guest guests[KH_PORTS];
    bool heard[KH_PORTS];                /* the guest was notified since it collected */
    uint8_t *shadow;                     /* the pages that the macros' back end works on */
    bool looking;                        /* notified since its last idle turn */
    uint32_t numbers[KH_PORTS][KH_TAGS]; /* the request of each tag */
    uint32_t most[KH_PORTS];             /* that the guest had outstanding */
    unsigned long notified[2];
    unsigned long notified_of_lists[2]; /* of more than one response */
    size_t longest[KH_PORTS];           /* of the lists */
    unsigned long steps;
} world;

static void respond_by_macros(const world *w, uint32_t port, uint32_t number) {
    response due = {id_of(port, number), kind_of(port, number)->operation, status_due(port, number)};
    w->guests[port].macros->respond(port, &due);
}

/* The macros say the same of the event that all responses since the last time have together. */
static void publish_by_macros(world *w, uint32_t port, bool notify) {
    CHECK_EQ(notify, w->guests[port].macros->publish(port));
    w->heard[port] |= notify;
    w->notified[notify]++;
}

static void sleep_by_macros(world *w) {
    for (uint32_t port = 0; port < KH_PORTS; port++)
        CHECK(!w->guests[port].macros->rest(port));
    w->looking = false;
}

static void take_by_macros(world *w, const kh_turned *turned) {
    uint32_t number = 0;
    CHECK(w->guests[turned->port].macros->take(turned->port, &number));
    check_taken(turned, number);
    if (turned->kind == KH_STARTED) {
        w->numbers[turned->port][turned->plan.tag] = number;
        return;
    }
    respond_by_macros(w, turned->port, number);
    publish_by_macros(w, turned->port, turned->notify);
}

static void take_turn(world *w, host *h) {
    memcpy(w->shadow, h->at[RINGS], KH_RINGS_BYTES);
    CHECK_EQ(TURN(h), KH_OK);
    kh_turned turned = kh_read_turn(words(h, TURNED));
    if (turned.kind == KH_IDLE)
        sleep_by_macros(w);
    else
        take_by_macros(w, &turned);
    CHECK(memcmp(w->shadow, h->at[RINGS], KH_RINGS_BYTES) == 0);
}

/* Completes the busy tag that comes first from `tag` on, if there is one. */
static void end_request(world *w, host *h, uint32_t port, uint32_t tag) {
    const book *b = &h->books[port];
    if (b->busy == 0)
        return;
    while (!is_busy(b, tag))
        tag++;
    tag %= KH_TAGS;
    uint32_t number = w->numbers[port][tag];
    memcpy(w->shadow, h->at[RINGS], KH_RINGS_BYTES);
    CHECK_EQ(COMPLETE(h, port, tag, b->tags[tag].serial, result_of(port, number)), KH_OK);
    respond_by_macros(w, port, number);
    publish_by_macros(w, port, words(h, COMPLETED)[KH_DONE_NOTIFY] != 0);
    CHECK(memcmp(w->shadow, h->at[RINGS], KH_RINGS_BYTES) == 0);
}

/* Completes busy tags from `tag` on in one call, so many at most; with none, the macros have nothing to publish. */
static void end_requests(world *w, host *h, uint32_t port, uint32_t tag, size_t most) {
    list l = {.count = 0};
    for (uint32_t i = 0; i < KH_TAGS && l.count < most; i++, tag = (tag + 1) % KH_TAGS)
        if (is_busy(&h->books[port], tag))
            add_entry(&l, tag, h->books[port].tags[tag].serial, result_of(port, w->numbers[port][tag]));
    memcpy(w->shadow, h->at[RINGS], KH_RINGS_BYTES);
    CHECK_EQ(COMPLETE_LIST(h, port, &l), KH_OK);
    for (size_t i = 0; i < l.count; i++)
        respond_by_macros(w, port, w->numbers[port][entry_of(&l, i)[KH_ENTRY_TAG]]);
    publish_by_macros(w, port, words(h, LISTED)[KH_MANY_NOTIFY] != 0);
    CHECK(memcmp(w->shadow, h->at[RINGS], KH_RINGS_BYTES) == 0);
    if (l.count > 1)
        w->notified_of_lists[words(h, LISTED)[KH_MANY_NOTIFY] % 2]++;
    if (w->longest[port] < l.count)
        w->longest[port] = l.count;
}

/* ---- the run */

static shape ring_of(uint32_t port) {
    return (shape){guest_of[port].is_32_bit ? KH_BITS32 : KH_BITS64, guest_of[port].pages};
}

static void attach(world *w, host *h) {
    w->shadow = lend(KH_RINGS_BYTES);
    w->looking = true;
    for (uint32_t port = 0; port < KH_PORTS; port++) {
        const halves *macros = guest_of[port].is_32_bit ? &as_i386 : &as_compiled;
        sheet s = sheet_for(ring_of(port), disk_nodes[guest_of[port].disk]);
        w->guests[port].macros = macros;
        w->guests[port].requests = REQUESTS;
        macros->open_front(port, ring(h, port));
        macros->open_back(port, w->shadow + KH_RING_BYTES * port);
        grant(h, port, FRAME_TO_READ, KH_GRANT_READ);
        CHECK_EQ(OPEN(h, port, s.bytes, s.length), KH_OK);
    }
}

/* One thing happens: a guest sends, a guest that was notified collects, the host takes a turn, or I/O ends, unless the
 * disks are slow for a while. */
static void step(world *w, host *h, uint32_t draw) {
    uint32_t port = draw % KH_PORTS;
    bool slow = w->steps / 512 % 2 == 0;
    draw /= KH_PORTS;
    switch (draw % 8) {
    case 0:
        w->looking |= send_some(&w->guests[port], port, draw / 8 % 24);
        if (w->most[port] < w->guests[port].macros->outstanding(port))
            w->most[port] = w->guests[port].macros->outstanding(port);
        break;
    case 1:
        if (w->heard[port])
            collect_all(&w->guests[port], port, draw / 8 % 4);
        w->heard[port] = false;
        break;
    case 2:
        if (!slow)
            end_request(w, h, port, draw / 8 % KH_TAGS);
        break;
    case 3:
        if (!slow)
            end_requests(w, h, port, draw / 8 % KH_TAGS, draw / 512 % 2 == 0 ? KH_ENTRIES : draw / 1024 % 8);
        break;
    default:
        if (w->looking)
            take_turn(w, h);
    }
}

static bool all_collected(const world *w) {
    for (uint32_t port = 0; port < KH_PORTS; port++)
        if (w->guests[port].collected < REQUESTS)
            return false;
    return true;
}

/* Each request was taken and answered once, with the status that was due on it. */
static void check_meter(const host *h, uint32_t port) {
    kh_meter due = {REQUESTS, 0, 0, 0};
    for (uint32_t number = 0; number < REQUESTS; number++) {
        int16_t status = status_due(port, number);
        due.okay += status == BLKIF_RSP_OKAY;
        due.error += status == BLKIF_RSP_ERROR;
        due.not_supported += status == BLKIF_RSP_EOPNOTSUPP;
    }
    CHECK(due.okay > 0 && due.error > 0 && due.not_supported > 0);
    CHECK(memcmp(meter_of(h, port), &due, sizeof due) == 0);
}

static void frontend_on_xen_macros(host *h) {
    static world w;
    uint64_t state = 1;
    memset(&w, 0, sizeof w);
    attach(&w, h);
    while (!all_collected(&w) && running.failures == 0 && w.steps++ < STEPS) {
        state = state * UINT64_C(6364136223846793005) + 1;
        step(&w, h, (uint32_t)(state >> 33));
    }
    for (uint32_t port = 0; port < KH_PORTS; port++) {
        CHECK_EQ(w.guests[port].collected, REQUESTS);
        CHECK_EQ(index_at(h, port, KH_RSP_PROD), REQUESTS);
        CHECK_EQ(w.most[port], guest_of[port].pages == 2 ? 64 : 32); /* the ring was full */
        CHECK(w.longest[port] > 8);
        check_meter(h, port);
        CHECK_EQ(CLOSE(h, port), KH_OK);
    }
    CHECK(w.notified[0] > 1000 && w.notified[1] > 1000);
    CHECK(w.notified_of_lists[0] > 100 && w.notified_of_lists[1] > 100);
    if (placement != BEFORE_GUARD)
        printf("     %d requests of %d kinds on each of %d rings, %d wraps or %d, published with notify %lu times, "
               "without %lu; more than one response with notify %lu times, without %lu\n",
               REQUESTS, KINDS, KH_PORTS, REQUESTS / KH_PAGE_SLOTS, REQUESTS / KH_TAGS, w.notified[1], w.notified[0],
               w.notified_of_lists[1], w.notified_of_lists[0]);
    give_back(w.shadow, KH_RINGS_BYTES);
}

int main(void) {
    static const test tests[] = {TEST(frontend_on_xen_macros)};
    return run_tests(tests, COUNT_OF(tests));
}
