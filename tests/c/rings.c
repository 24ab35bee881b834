/*
 * Rings of both layouts, of one page and of two: full ones, ports of all four shapes on one backend, what a close
 * forgets, and the second half of a one-page port's share, which no call reaches.
 */
#include "any.h"
#include "test.h"

/* ---- full rings: every slot waits, then every tag is busy, and each is completed in whatever order */

/* Takes as many requests as the ring has slots, published together, from an index on. */
static void start_full_ring(host *h, uint32_t first) {
    uint32_t slots = slots_in(h->ring);
    for (uint32_t i = 0; i < slots; i++)
        post(h, 0, transfer(KH_READ, 1, i));
    for (uint32_t i = 0; i < slots; i++) {
        kh_plan plan;
        CHECK_EQ(SERVE(h, 0), KH_STARTED);
        plan = kh_read_plan(words(h, TURNED));
        CHECK(plan.tag == i && plan.serial == first + i && plan.start == i);
    }
    CHECK_EQ(SERVE(h, 0), KH_IDLE);
}

/* Every tag, a step on from the one before; steps are odd, so that none comes twice. */
static void complete_full_ring(host *h, uint32_t first, uint32_t step) {
    uint32_t slots = slots_in(h->ring);
    for (uint32_t i = 0; i < slots; i++) {
        uint32_t tag = step * (i + 1) % slots;
        CHECK_EQ(COMPLETE(h, 0, tag, first + tag, 8), KH_OK);
        CHECK_EQ(get(slot_of(h, 0, first + i), 8), FIRST_ID + (uint32_t)(first + tag));
    }
    CHECK_EQ(index_at(h, 0, KH_RSP_PROD), first + slots);
}

static void full_rings(host *h) {
    static const uint32_t steps[] = {1, 63, 5, 31, 37, 33};
    BEGIN(h, USUAL_NODES);
    for (uint32_t i = 0; i < COUNT_OF(steps); i++) {
        start_full_ring(h, i * slots_in(h->ring));
        complete_full_ring(h, i * slots_in(h->ring), steps[i]);
    }
    CHECK_EQ(CLOSE(h, 0), KH_OK);
}

/* The indices pass 2^32 at one slot of the ring after the other. */
static void full_rings_across_the_wrap(host *h) {
    for (uint32_t before = 1; before <= slots_in(h->ring); before += 9) {
        uint32_t first = 0 - before;
        BEGIN_AT_INDEX(h, first);
        set_index(h, 0, KH_REQ_PROD, first);
        start_full_ring(h, first);
        complete_full_ring(h, first, 2 * before - 1);
    }
}

/* ---- rings of every shape on one backend */

/* A port open with every feature for a ring of that shape. */
static void open_as(host *h, uint32_t port, shape ring) {
    sheet s = sheet_for(ring, ALL_FEATURES);
    CHECK_EQ(OPEN(h, port, s.bytes, s.length), KH_OK);
    CHECK_EQ(h->books[port].ring.abi, ring.abi);
    CHECK_EQ(h->books[port].ring.pages, ring.pages);
    set_index(h, port, KH_REQ_PROD, 0);
}

/* The shape that comes so many after the one that is looked at. */
static shape shape_after(const host *h, uint32_t more) {
    uint32_t at = 0;
    while (shapes[at].abi != h->ring.abi || shapes[at].pages != h->ring.pages)
        at++;
    return shapes[(at + more) % COUNT_OF(shapes)];
}

/* A write of one sector, with a start and a frame of its own; then a discard; then what is refused. */
static request nth_request(uint32_t n) {
    request r = transfer(KH_WRITE, 1, 100 + n);
    r.segments[0] = (segment){n % 16, 1, 1};
    if (n % 3 == 1)
        return discard(0, 200 + n, 1000 + n);
    return n % 3 == 0 ? r : transfer(KH_WRITE, 12, 0);
}

static void check_nth_plan(const kh_plan *plan, uint32_t n) {
    CHECK_EQ(plan->serial, n);
    CHECK_EQ(plan->start, n % 3 == 0 ? 100 + n : 200 + n);
    CHECK_EQ(plan->count, n % 3 == 0 ? 1 : 1000 + n);
    CHECK_EQ(plan->extent_count, n % 3 == 0);
    CHECK_EQ(plan->extents[0].frame, n % 3 == 0 ? n % 16 : 0);
}

/* Serves request n of a port, which was posted, and completes it if it starts. */
static void serve_nth(host *h, uint32_t port, uint32_t n) {
    uint64_t kind = SERVE(h, port);
    CHECK_EQ(kind, n % 3 == 2 ? KH_ANSWERED : KH_STARTED);
    if (kind == KH_STARTED) {
        kh_plan plan = kh_read_plan(words(h, TURNED));
        check_nth_plan(&plan, n);
        CHECK_EQ(FINISH(h), KH_OK);
    }
    CHECK_EQ(get(slot_of(h, port, n), 8), FIRST_ID + n);
}

/* Ports of all shapes side by side; each goes through two wraps of its ring or more, and stays as it is. */
static void ports_of_every_shape(host *h) {
    for (uint32_t port = 0; port < KH_PORTS; port++)
        open_as(h, port, shape_after(h, port));
    for (uint32_t n = 0; n < 2 * KH_TAGS + 1; n++) {
        for (uint32_t port = 0; port < KH_PORTS; port++)
            post(h, port, nth_request(n));
        for (uint32_t port = 0; port < KH_PORTS; port++)
            serve_nth(h, port, n);
    }
}

/* Every ring full at once; then each has one request too many, or its req_prod moved back. */
static void full_rings_of_every_shape(host *h) {
    for (uint32_t port = 0; port < KH_PORTS; port++) {
        open_as(h, port, shape_after(h, port));
        for (uint32_t i = 0; i < slots_of(h, port); i++)
            post(h, port, transfer(KH_READ, 1, 0));
    }
    for (uint32_t i = 0; i < KH_TAGS; i++)
        for (uint32_t port = 0; port < KH_PORTS; port++)
            if (i < slots_of(h, port))
                CHECK_EQ(SERVE(h, port), KH_STARTED);
    CHECK_EQ(SERVE(h, 0), KH_IDLE);
    for (uint32_t port = 0; port < KH_PORTS; port++)
        set_index(h, port, KH_REQ_PROD, KH_PAGE_SLOTS + 1);
    for (uint32_t port = 0; port < KH_PORTS; port++) {
        CHECK_EQ(TURN(h), KH_OK);
        CHECK_EQ(words(h, TURNED)[KH_TURN_KIND], KH_OVERRUN);
    }
    for (uint32_t port = 0; port < KH_PORTS; port++)
        for (uint32_t tag = slots_of(h, port); tag-- > 0;)
            CHECK_EQ(COMPLETE(h, port, tag, tag, 8), KH_OK);
}

/* Each of the shapes from index 0 on, over whatever bytes the opening before left, and then the first again. */
static void port_reopened_in_every_shape(host *h) {
    for (uint32_t opening = 0; opening <= COUNT_OF(shapes); opening++) {
        open_as(h, 0, shape_after(h, opening));
        CHECK_EQ(COMPLETE(h, 0, 0, 0, 8), KH_NOT_BUSY);
        for (uint32_t n = 0; n < KH_TAGS + 5; n++) {
            post(h, 0, nth_request(n));
            serve_nth(h, 0, n);
        }
        CHECK_EQ(SERVE(h, 0), KH_IDLE);
        CHECK_EQ(index_at(h, 0, KH_REQ_EVENT), KH_TAGS + 6);
        CHECK_EQ(index_at(h, 0, KH_RSP_PROD), KH_TAGS + 5);
        CHECK_EQ(CLOSE(h, 0), KH_OK);
    }
}

/* ---- what a close forgets */

/* Memory is as if no port had ever been open, but for the pointer. */
static void check_forgotten(const host *h) {
    for (int i = 0; i < KH_MEMORY_WORDS - 1; i++)
        CHECK_EQ(words(h, MEMORY)[i], 0);
}

static void close_forgets_layout_and_pages(host *h) {
    open_as(h, 5, h->ring);
    CHECK_EQ(CLOSE(h, 5), KH_OK);
    check_forgotten(h);
    CHECK_EQ(words(h, MEMORY)[KH_MEMORY_WORDS - 1], 0);
}

/* Every tag was busy, and every request of the ring was taken. */
static void close_forgets_every_tag(host *h) {
    BEGIN(h, USUAL_NODES);
    start_full_ring(h, 0);
    complete_full_ring(h, 0, 3);
    CHECK_EQ(CLOSE(h, 0), KH_OK);
    check_forgotten(h);
    BEGIN(h, USUAL_NODES);
    start_full_ring(h, 0);
    set_index(h, 0, KH_REQ_PROD, 0);
    CHECK_EQ(SERVE(h, 0), KH_OVERRUN);
    complete_full_ring(h, 0, 7);
    CHECK_EQ(CLOSE(h, 0), KH_OK);
    check_forgotten(h);
}

/* After a ring of two pages, whose second is left full of requests, the same port has one of one page, and the other
 * way round: slots, line and tags are those of the ring that it has. */
static void close_forgets_the_second_page(host *h) {
    for (uint32_t opening = 0; opening < 4; opening++) {
        shape ring = {h->ring.abi, 2 - (opening + h->ring.pages) % 2};
        uint32_t slots = slots_in(ring);
        open_as(h, 0, ring);
        set_index(h, 0, KH_REQ_PROD, slots + 1);
        CHECK_EQ(SERVE(h, 0), KH_OVERRUN);
        CHECK_EQ(CLOSE(h, 0), KH_OK);
        open_as(h, 0, ring);
        for (uint32_t n = 0; n < 2 * slots; n++) {
            post(h, 0, transfer(KH_READ, 1, n));
            CHECK_EQ(SERVE(h, 0), KH_STARTED);
            CHECK_EQ(words(h, TURNED)[KH_TURN_START], n);
            CHECK_EQ(COMPLETE(h, 0, 0, n, 8), KH_OK);
            CHECK_EQ(COMPLETE(h, 0, slots, n, 8), KH_NOT_BUSY);
        }
        CHECK_EQ(CLOSE(h, 0), KH_OK);
        check_forgotten(h);
    }
}

/* ---- the second half of a one-page port's share */

/* Rubbish, and requests that could be taken where a ring of two pages would have its last slots. */
static void fill_second_half(const host *h, uint32_t port) {
    shape longer = {h->books[port].ring.abi, 2};
    fill(ring(h, port) + KH_PAGE_BYTES, KH_PAGE_BYTES);
    for (uint32_t slot = 40; slot < KH_TAGS; slot++)
        write_slot(ring(h, port) + slot_offset(longer, slot), layout_of(h, port), slot, transfer(KH_WRITE, 1, slot));
}

/*
 * Whatever it holds, it changes nothing and stays as it is; and no call reaches it, of any port, nor the share of a
 * closed one. Ports of two pages are in between.
 */
static void second_half_is_out_of_reach(host *h) {
    state = 1;
    h->shuts = true;
    for (uint32_t port = 0; port < KH_PORTS - 1; port++)
        open_as(h, port, shape_after(h, port));
    for (uint32_t n = 0; n < 2 * KH_TAGS + 1; n++) {
        for (uint32_t port = 0; port < KH_PORTS - 1; port++)
            post(h, port, nth_request(n));
        for (uint32_t port = 0; port < KH_PORTS; port++)
            if (h->books[port].ring.pages != 2)
                fill_second_half(h, port);
        for (uint32_t port = 0; port < KH_PORTS - 1; port++)
            serve_nth(h, port, n);
        CHECK_EQ(SERVE(h, 0), KH_IDLE);
    }
    for (uint32_t port = 0; port < KH_PORTS - 1; port++) {
        set_index(h, port, KH_REQ_PROD, 0);
        CHECK_EQ(SERVE(h, port), KH_OVERRUN);
        CHECK_EQ(COMPLETE(h, port, KH_PAGE_SLOTS, 0, 8), KH_NOT_BUSY);
    }
    CHECK_EQ(SERVE(h, 0), KH_IDLE);
    h->shuts = false;
}

int main(void) {
    static const test tests[] = {
        TEST(full_rings),
        TEST(full_rings_across_the_wrap),
        TEST(ports_of_every_shape),
        TEST(full_rings_of_every_shape),
        TEST(port_reopened_in_every_shape),
        TEST(close_forgets_layout_and_pages),
        TEST(close_forgets_every_tag),
        TEST(close_forgets_the_second_page),
        TEST(second_half_is_out_of_reach),
    };
    return run_in_every_shape(tests, COUNT_OF(tests));
}
