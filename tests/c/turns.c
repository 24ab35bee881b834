/*
 * Turns and completions: indices and overruns, whose turn it is, plans, tags and serials, results and responses, for
 * rings of every shape.
 */
#include "test.h"

/* Port 0 open, with so many requests taken and answered, and so many more taken. */
static void begin_at(host *h, unsigned answered, unsigned in_flight) {
    BEGIN(h, USUAL_NODES);
    for (unsigned i = 0; i < answered; i++)
        CHECK_EQ(JUDGE(h, transfer(KH_READ, 1, 0)), 0);
    for (unsigned i = 0; i < in_flight; i++) {
        post(h, 0, transfer(KH_READ, 1, 0));
        CHECK_EQ(SERVE(h, 0), KH_STARTED);
    }
}

/* 37 and 38 of a ring of one page, 69 and 70 of one of two. */
static void line_c_5_r_5(host *h) {
    uint32_t most = h->ring.pages == 2 ? 69 : 37;
    const struct {
        uint32_t req_prod;
        uint64_t kind;
    } lines[] = {{6, KH_STARTED},          {37, KH_STARTED},
                 {most, KH_STARTED},       {most + 1, KH_OVERRUN},
                 {most + 32, KH_OVERRUN},  {4, KH_OVERRUN},
                 {0, KH_OVERRUN},          {5, KH_IDLE},
                 {UINT32_MAX, KH_OVERRUN}, {UINT32_C(5) + (UINT32_C(1) << 31), KH_OVERRUN}};
    for (size_t i = 0; i < COUNT_OF(lines); i++) {
        begin_at(h, 5, 0);
        post(h, 0, transfer(KH_READ, 1, 0));
        set_index(h, 0, KH_REQ_PROD, lines[i].req_prod);
        CHECK_EQ(SERVE(h, 0), lines[i].kind);
    }
}

static void line_c_5_r_0(host *h) {
    uint32_t most = h->ring.pages == 2 ? 64 : 32;
    begin_at(h, 0, 5);
    post(h, 0, transfer(KH_READ, 1, 0));
    set_index(h, 0, KH_REQ_PROD, most);
    CHECK_EQ(SERVE(h, 0), KH_STARTED);
    begin_at(h, 0, 5);
    set_index(h, 0, KH_REQ_PROD, most + 1);
    CHECK_EQ(SERVE(h, 0), KH_OVERRUN);
}

/* With so many in flight, as many more may wait as the ring has slots left; req_prod moved back is an overrun too. */
static void line_by_in_flight(host *h) {
    uint32_t slots = slots_in(h->ring), counts[] = {0, 1, 13, 31, 32, slots - 1, slots};
    for (size_t i = 0; i < COUNT_OF(counts); i++) {
        for (uint32_t more = 0; more < 2; more++) {
            begin_at(h, 3, counts[i]);
            post(h, 0, transfer(KH_READ, 1, 0));
            set_index(h, 0, KH_REQ_PROD, 3 + slots + more);
            CHECK_EQ(SERVE(h, 0), more != 0 ? KH_OVERRUN : counts[i] == slots ? KH_IDLE : KH_STARTED);
        }
        begin_at(h, 3, counts[i]);
        set_index(h, 0, KH_REQ_PROD, 2 + counts[i]);
        CHECK_EQ(SERVE(h, 0), KH_OVERRUN);
    }
}

static void line_full_ring_in_flight(host *h) {
    uint32_t slots = slots_in(h->ring);
    begin_at(h, 0, slots);
    CHECK_EQ(SERVE(h, 0), KH_IDLE);
    set_index(h, 0, KH_REQ_PROD, slots + 1);
    CHECK_EQ(SERVE(h, 0), KH_OVERRUN);
}

static void line_indices_wrap(host *h) {
    uint32_t last = h->ring.pages == 2 ? 63 : 31;
    BEGIN_AT_INDEX(h, UINT32_MAX);
    set_index(h, 0, KH_REQ_PROD, UINT32_MAX);
    CHECK_EQ(SERVE(h, 0), KH_IDLE);
    CHECK_EQ(index_at(h, 0, KH_REQ_EVENT), 0);
    post(h, 0, transfer(KH_READ, 1, 0)); /* the last slot; req_prod becomes 0 */
    CHECK_EQ(index_at(h, 0, KH_REQ_PROD), 0);
    CHECK_EQ(SERVE(h, 0), KH_STARTED);
    CHECK_EQ(words(h, TURNED)[KH_TURN_SERIAL], UINT32_MAX);
    CHECK_EQ(FINISH(h), KH_OK);
    CHECK_EQ(index_at(h, 0, KH_RSP_PROD), 0);
    CHECK_EQ(get(slot_of(h, 0, last), 8), FIRST_ID + UINT32_MAX);
    post(h, 0, transfer(KH_READ, 0, 0)); /* slot 0 */
    CHECK_EQ(SERVE(h, 0), KH_ANSWERED);
    CHECK_EQ(index_at(h, 0, KH_RSP_PROD), 1);
    BEGIN_AT_INDEX(h, UINT32_MAX);
    set_index(h, 0, KH_REQ_PROD, last);
    CHECK(SERVE(h, 0) != KH_OVERRUN);
    BEGIN_AT_INDEX(h, UINT32_MAX);
    set_index(h, 0, KH_REQ_PROD, last + 1);
    CHECK_EQ(SERVE(h, 0), KH_OVERRUN);
}

static void overrun_breaks_the_port(host *h) {
    begin_at(h, 0, 2);
    set_index(h, 0, KH_REQ_PROD, 1);
    CHECK_EQ(SERVE(h, 0), KH_OVERRUN);
    set_index(h, 0, KH_REQ_PROD, 3);
    CHECK_EQ(SERVE(h, 0), KH_IDLE); /* and its req_event stays */
    CHECK_EQ(COMPLETE(h, 0, 1, 1, 8), KH_OK);
    CHECK_EQ(COMPLETE(h, 0, 0, 0, -5), KH_OK);
    CHECK_EQ(SERVE(h, 0), KH_IDLE);
    REOPEN(h);
    post(h, 0, transfer(KH_READ, 1, 0));
    CHECK_EQ(SERVE(h, 0), KH_STARTED);
    CHECK_EQ(words(h, TURNED)[KH_TURN_SERIAL], 0);
}

static void idle_sets_req_event_of_open_ports(host *h) {
    memset(h->at[RINGS], 0xEE, KH_RINGS_BYTES); /* closed ports have nothing to serve, whatever is there */
    CHECK_EQ(SERVE(h, 0), KH_IDLE);
    memset(h->at[RINGS], 0, KH_RINGS_BYTES);
    CHECK_EQ(OPEN_NODES(h, 2, USUAL_NODES), KH_OK);
    CHECK_EQ(OPEN_NODES(h, 5, USUAL_NODES), KH_OK);
    CHECK_EQ(SERVE(h, 0), KH_IDLE);
    CHECK_EQ(index_at(h, 2, KH_REQ_EVENT), 1);
    CHECK_EQ(index_at(h, 5, KH_REQ_EVENT), 1);
    CHECK_EQ(index_at(h, 3, KH_REQ_EVENT), 0);
    post(h, 5, transfer(KH_READ, 1, 0));
    CHECK_EQ(SERVE(h, 5), KH_STARTED);
    CHECK_EQ(SERVE(h, 0), KH_IDLE);
    CHECK_EQ(index_at(h, 5, KH_REQ_EVENT), 2);
}

static void ports_in_ring_order(host *h) {
    for (uint32_t port = 0; port < KH_PORTS; port++) {
        CHECK_EQ(OPEN_NODES(h, port, USUAL_NODES), KH_OK);
        for (int i = 0; i < 3; i++)
            post(h, port, transfer(KH_READ, 1, 0));
    }
    for (uint32_t i = 0; i < 2 * KH_PORTS; i++)
        CHECK_EQ(SERVE(h, i % KH_PORTS), KH_STARTED);
    set_index(h, 0, KH_REQ_PROD, 2);
    CHECK_EQ(SERVE(h, 1), KH_STARTED);
    post(h, 0, transfer(KH_READ, 1, 0));
    CHECK_EQ(SERVE(h, 2), KH_STARTED);
    set_index(h, 4, KH_REQ_PROD, 99);
    CHECK_EQ(SERVE(h, 3), KH_STARTED);
    CHECK_EQ(SERVE(h, 4), KH_OVERRUN);
    CHECK_EQ(SERVE(h, 5), KH_STARTED);
}

static void only_a_service_moves_the_pointer(host *h) {
    CHECK_EQ(OPEN_NODES(h, 2, USUAL_NODES), KH_OK);
    CHECK_EQ(OPEN_NODES(h, 6, USUAL_NODES), KH_OK);
    post(h, 2, transfer(KH_READ, 1, 0));
    CHECK_EQ(SERVE(h, 2), KH_STARTED);
    CHECK_EQ(COMPLETE(h, 2, 0, 0, 8), KH_OK);
    CHECK_EQ(SERVE(h, 0), KH_IDLE);
    CHECK_EQ(OPEN_NODES(h, 7, USUAL_NODES), KH_OK);
    CHECK_EQ(CLOSE(h, 7), KH_OK);
    post(h, 2, transfer(KH_READ, 1, 0));
    post(h, 6, transfer(KH_READ, 1, 0));
    CHECK_EQ(SERVE(h, 6), KH_STARTED);
    CHECK_EQ(SERVE(h, 2), KH_STARTED);
}

static void plan_of_eleven_segments(host *h) {
    request r = transfer(KH_WRITE, 11, 100);
    uint64_t sector = 100;
    kh_plan plan;
    BEGIN(h, USUAL_NODES);
    for (int i = 0; i < KH_EXTENTS; i++)
        r.segments[i] = (segment){(uint32_t)(15 - i), (uint8_t)(i % 4), (uint8_t)(i % 4 + i / 3)};
    post(h, 0, r);
    CHECK_EQ(SERVE(h, 0), KH_STARTED);
    plan = kh_read_plan(words(h, TURNED));
    CHECK_EQ(plan.extent_count, 11);
    for (int i = 0; i < KH_EXTENTS; i++) {
        CHECK_EQ(plan.extents[i].frame, 15 - i);
        CHECK_EQ(plan.extents[i].first, i % 4);
        CHECK_EQ(plan.extents[i].length, 1 + i / 3);
        CHECK_EQ(plan.extents[i].sector, sector);
        sector += plan.extents[i].length;
    }
    CHECK_EQ(plan.start, 100);
    CHECK_EQ(plan.count, sector - 100);
    CHECK(!plan.secure);
}

/* A discard of sectors 7 to 2007, served on a port and completed: whether it was secure. */
static bool do_discard(host *h, uint32_t port, uint8_t flag) {
    kh_plan plan;
    post(h, port, discard(flag, 7, 2001));
    CHECK_EQ(do_serve(h, port), KH_STARTED);
    plan = kh_read_plan(words(h, TURNED));
    CHECK(plan.operation == KH_DISCARD && plan.start == 7 && plan.count == 2001);
    CHECK_EQ(plan.extent_count, 0);
    CHECK_EQ(plan.secure, words(h, TURNED)[KH_TURN_SECURE]);
    CHECK_EQ(do_finish(h), KH_OK);
    return plan.secure;
}

#define DISCARDED(h, port, flag) MADE_HERE(do_discard(h, port, flag))

#define SECURE_NODES "1:w 4:1 5:1 6:512 7:2008"
#define PLAIN_NODES  "1:w 4:1 5:0 6:512 7:2008"

/* It takes both for the mark: bit 0 of the flag, and discard-secure 1. */
static void plan_of_a_discard(host *h) {
    for (int flag = 0; flag < 256; flag++) {
        BEGIN(h, SECURE_NODES);
        CHECK_EQ(DISCARDED(h, 0, (uint8_t)flag), flag % 2);
        BEGIN(h, PLAIN_NODES);
        CHECK(!DISCARDED(h, 0, (uint8_t)flag));
        BEGIN(h, "1:w 4:1 6:512 7:2008");
        CHECK(!DISCARDED(h, 0, (uint8_t)flag));
    }
}

/* Every second port can be secure, and at the next opening the others. */
static void secure_by_the_port_and_its_opening(host *h) {
    for (uint32_t opening = 0; opening < 4; opening++) {
        for (uint32_t port = 0; port < KH_PORTS; port++) {
            CHECK_EQ(OPEN_NODES(h, port, (port + opening) % 2 == 0 ? SECURE_NODES : PLAIN_NODES), KH_OK);
            set_index(h, port, KH_REQ_PROD, 0);
        }
        for (uint32_t port = 0; port < KH_PORTS; port++) {
            CHECK_EQ(DISCARDED(h, port, 255), (port + opening) % 2 == 0);
            CHECK_EQ(CLOSE(h, port), KH_OK);
        }
    }
}

static void lowest_free_tag_comes_back(host *h) {
    uint32_t slots = slots_in(h->ring), freed[] = {3, 20, slots - 1};
    begin_at(h, 0, slots);
    for (size_t i = COUNT_OF(freed); i-- > 0;)
        CHECK_EQ(COMPLETE(h, 0, freed[i], freed[i], 8), KH_OK);
    for (size_t i = 0; i < COUNT_OF(freed); i++) {
        post(h, 0, transfer(KH_READ, 1, 0));
        CHECK_EQ(SERVE(h, 0), KH_STARTED);
        CHECK_EQ(words(h, TURNED)[KH_TURN_TAG], freed[i]);
        CHECK_EQ(words(h, TURNED)[KH_TURN_SERIAL], slots + i);
    }
}

static void stale_completion_of_a_newer_request(host *h) {
    begin_at(h, 0, 1);
    CHECK_EQ(COMPLETE(h, 0, 0, 0, 8), KH_OK);
    REOPEN(h);
    CHECK_EQ(COMPLETE(h, 0, 0, 0, 8), 6);
    post(h, 0, transfer(KH_READ, 1, 0));
    CHECK_EQ(SERVE(h, 0), KH_STARTED);
    CHECK_EQ(COMPLETE(h, 0, 0, 0, 8), KH_OK);
}

/* The status that a result gives to the request that one turn starts. */
static int32_t status_of(host *h, request r, int32_t result) {
    BEGIN(h, ALL_FEATURES);
    post(h, 0, r);
    CHECK_EQ(SERVE(h, 0), KH_STARTED);
    CHECK_EQ(COMPLETE(h, 0, 0, 0, result), KH_OK);
    return kh_read_completion(words(h, COMPLETED)).status;
}

static void results_where_8_is_expected(host *h) {
    static const uint8_t operations[] = {KH_READ, KH_WRITE, KH_BARRIER};
    static const int32_t others[] = {7, 9, 0, 1, -1, -5, -8, -94, -96, -2147483647 - 1, 2147483647, 8 + 65536};
    for (size_t o = 0; o < COUNT_OF(operations); o++) {
        request r = transfer(operations[o], 1, 0);
        CHECK_EQ(status_of(h, r, 8), KH_OKAY);
        CHECK_EQ(status_of(h, r, -95), KH_NOT_SUPPORTED);
        for (size_t i = 0; i < COUNT_OF(others); i++)
            CHECK_EQ(status_of(h, r, others[i]), KH_ERROR);
    }
    CHECK_EQ(status_of(h, transfer(KH_READ, 11, 0), 88), KH_OKAY);
    CHECK_EQ(status_of(h, transfer(KH_READ, 11, 0), 8), KH_ERROR);
}

static void results_where_0_is_expected(host *h) {
    request lines[] = {transfer(KH_FLUSH, 0, 0), transfer(KH_BARRIER, 0, 0), discard(0, 0, 8), discard(1, 0, 2008)};
    for (size_t i = 0; i < COUNT_OF(lines); i++) {
        CHECK_EQ(status_of(h, lines[i], 0), KH_OKAY);
        CHECK_EQ(status_of(h, lines[i], 8), KH_ERROR);
        CHECK_EQ(status_of(h, lines[i], -5), KH_ERROR);
        CHECK_EQ(status_of(h, lines[i], -95), KH_NOT_SUPPORTED);
    }
}

/* In both layouts a request's start is the first field that the response leaves. */
static void response_bytes(host *h) {
    static const uint8_t due[16] = {0x88, 0x77, 0x66, 0x55, 0x44, 0x33, 0x22, 0x11, 0, 0, 0xFF, 0xFF, 0, 0, 0, 0};
    static const uint64_t start = UINT64_C(0x99AABBCCDDEEFF00);
    const layout *l = &layouts[h->ring.abi];
    BEGIN(h, USUAL_NODES);
    CHECK_EQ(JUDGE(h, transfer(KH_READ, 0, start)), 25);
    CHECK(memcmp(slot_of(h, 0, 0), due, l->response) == 0);
    CHECK_EQ(get(slot_of(h, 0, 0) + l->response, 8), start);
    CHECK_EQ(slot_of(h, 0, 0)[l->segments], 5);
    BEGIN(h, USUAL_NODES);
    CHECK_EQ(JUDGE(h, transfer(KH_FLUSH, 0, 0)), 22);
    CHECK_EQ(get(slot_of(h, 0, 0) + 8, l->response - 8), 0xFFFE0003);
}

static void responses_go_by_our_own_index(host *h) {
    begin_at(h, 3, 0);
    set_index(h, 0, KH_RSP_PROD, 77);
    CHECK_EQ(JUDGE(h, transfer(KH_READ, 1, 0)), 0);
    CHECK_EQ(index_at(h, 0, KH_RSP_PROD), 4);
    set_index(h, 0, KH_RSP_PROD, UINT32_MAX);
    CHECK_EQ(JUDGE(h, transfer(KH_READ, 0, 0)), 25);
    CHECK_EQ(index_at(h, 0, KH_RSP_PROD), 5);
}

static void notify_where_rsp_event_is_the_new_index(host *h) {
    for (uint32_t event = 0; event < 6; event++) {
        begin_at(h, 2, 0);
        set_index(h, 0, KH_RSP_EVENT, event);
        CHECK_EQ(JUDGE(h, transfer(KH_READ, 0, 0)), 25);
        CHECK_EQ(words(h, TURNED)[KH_TURN_NOTIFY], event == 3);
        CHECK_EQ(JUDGE(h, transfer(KH_READ, 1, 0)), 0);
        CHECK_EQ(words(h, COMPLETED)[KH_DONE_NOTIFY], event == 4);
    }
}

static void two_backends_are_apart(host *h) {
    kh_memory other;
    memset(&other, 0, sizeof other);
    begin_at(h, 0, 1);
    CHECK_EQ(kh_close(&other, 0), KH_IS_CLOSED);
    CHECK_EQ(CLOSE(h, 0), KH_IN_FLIGHT);
}

int main(void) {
    static const test tests[] = {
        TEST(line_c_5_r_5),
        TEST(line_c_5_r_0),
        TEST(line_by_in_flight),
        TEST(line_full_ring_in_flight),
        TEST(line_indices_wrap),
        TEST(overrun_breaks_the_port),
        TEST(idle_sets_req_event_of_open_ports),
        TEST(ports_in_ring_order),
        TEST(only_a_service_moves_the_pointer),
        TEST(plan_of_eleven_segments),
        TEST(plan_of_a_discard),
        TEST(secure_by_the_port_and_its_opening),
        TEST(lowest_free_tag_comes_back),
        TEST(stale_completion_of_a_newer_request),
        TEST(results_where_8_is_expected),
        TEST(results_where_0_is_expected),
        TEST(response_bytes),
        TEST(responses_go_by_our_own_index),
        TEST(notify_where_rsp_event_is_the_new_index),
        TEST(two_backends_are_apart),
    };
    return run_in_every_shape(tests, COUNT_OF(tests));
}
