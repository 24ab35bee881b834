/* One test or more for each refusal number from 1 to 6, on both sides of its line, for rings of every shape. Those of
 * lists of completions are in lists.c. */
#include "test.h"

#include "port_words.h"

enum { RINGS_OF_ONE_PAGE = KH_PORTS * KH_PAGE_BYTES };

static void refusal_01_wrong_length_in_turn(host *h) {
    static const size_t lengths[][2] = {{KH_RINGS_BYTES - 1, KH_GRANTS_BYTES},
                                        {KH_RINGS_BYTES + 1, KH_GRANTS_BYTES},
                                        {RINGS_OF_ONE_PAGE, KH_GRANTS_BYTES},
                                        {2 * KH_RINGS_BYTES, KH_GRANTS_BYTES},
                                        {0, KH_GRANTS_BYTES},
                                        {KH_RINGS_BYTES, KH_GRANTS_BYTES - 1},
                                        {KH_RINGS_BYTES, KH_GRANTS_BYTES + 1},
                                        {KH_RINGS_BYTES, 0},
                                        {KH_GRANTS_BYTES, KH_RINGS_BYTES},
                                        {KH_RING_BYTES, KH_PORT_GRANTS},
                                        {1, 1},
                                        {0, 0}};
    CHECK_EQ(TURN(h), KH_OK);
    for (size_t i = 0; i < COUNT_OF(lengths); i++) {
        BEGIN(h, USUAL_NODES);
        resize(h, RINGS, lengths[i][0]);
        resize(h, GRANTS, lengths[i][1]);
        if (h->bytes[RINGS] > 0)
            h->at[RINGS][KH_REQ_PROD] = 1;
        CHECK_EQ(TURN(h), 1);
    }
}

static void refusal_01_wrong_length_in_complete(host *h) {
    static const size_t lengths[] = {
        0, 1, KH_RING_BYTES, RINGS_OF_ONE_PAGE, KH_RINGS_BYTES - 1, KH_RINGS_BYTES + 1, 2 * KH_RINGS_BYTES};
    for (size_t i = 0; i < COUNT_OF(lengths); i++) {
        BEGIN(h, USUAL_NODES);
        post(h, 0, transfer(KH_READ, 1, 0));
        CHECK_EQ(TURN(h), KH_OK);
        resize(h, RINGS, lengths[i]);
        CHECK_EQ(COMPLETE(h, 0, 0, 0, 8), 1);
        CHECK_EQ(COMPLETE(h, 8, 0, 0, 8), 1);
        CHECK_EQ(COMPLETE(h, 1, 0, 0, 8), 1);
        CHECK_EQ(COMPLETE(h, 0, KH_TAGS, 0, 8), 1);
        resize(h, RINGS, KH_RINGS_BYTES);
        CHECK_EQ(COMPLETE(h, 0, 0, 0, 8), KH_OK);
    }
}

/* Lengths that no buffer has: nothing of it is looked at. */
static void refusal_01_greatest_length(host *h) {
    static const size_t lengths[] = {SIZE_MAX, SIZE_MAX / 2 + 1, KH_RINGS_BYTES + (SIZE_MAX / 2 + 1),
                                     KH_RINGS_BYTES + (UINT64_C(1) << 32)};
    BEGIN(h, USUAL_NODES);
    post(h, 0, transfer(KH_READ, 1, 0));
    for (size_t i = 0; i < COUNT_OF(lengths); i++) {
        remember(h);
        CHECK_EQ(kh_turn(memory_of(h), h->at[RINGS], lengths[i], h->at[GRANTS], KH_GRANTS_BYTES, words(h, TURNED)), 1);
        CHECK_EQ(kh_complete(memory_of(h), h->at[RINGS], lengths[i], 0, 0, 0, 8, words(h, COMPLETED)), 1);
        check_kept(h, 1, 0);
    }
}

static void refusal_02_port_above_7(host *h) {
    static const uint32_t ports[] = {8, 9, 255, 256, 65536, UINT32_C(1) << 29, UINT32_C(1) << 31, UINT32_MAX};
    for (size_t i = 0; i < COUNT_OF(ports); i++) {
        CHECK_EQ(OPEN_NODES(h, ports[i], USUAL_NODES), 2);
        CHECK_EQ(OPEN(h, ports[i], NULL, 0), 2);
        CHECK_EQ(CLOSE(h, ports[i]), 2);
        CHECK_EQ(COMPLETE(h, ports[i], KH_TAGS, 0, 0), 2);
    }
    CHECK_EQ(OPEN_NODES(h, 7, USUAL_NODES), KH_OK);
    post(h, 7, transfer(KH_READ, 1, 0));
    CHECK_EQ(TURN(h), KH_OK);
    CHECK_EQ(COMPLETE(h, 7, 0, 0, 8), KH_OK);
    CHECK_EQ(CLOSE(h, 7), KH_OK);
}

static void refusal_03_port_not_closed(host *h) {
    BEGIN(h, USUAL_NODES);
    CHECK_EQ(OPEN_NODES(h, 0, USUAL_NODES), 3);
    CHECK_EQ(OPEN(h, 0, NULL, 0), 3);
    set_index(h, 0, KH_REQ_PROD, slots_of(h, 0) + 1);
    CHECK_EQ(TURN(h), KH_OK);
    CHECK_EQ(words(h, TURNED)[KH_TURN_KIND], KH_OVERRUN);
    CHECK_EQ(OPEN_NODES(h, 0, USUAL_NODES), 3);
    CHECK_EQ(CLOSE(h, 0), KH_OK);
    CHECK_EQ(OPEN_NODES(h, 0, USUAL_NODES), KH_OK);
    CHECK_EQ(OPEN_NODES(h, 1, USUAL_NODES), KH_OK);
}

static void refusal_04_port_closed(host *h) {
    for (uint32_t port = 0; port < KH_PORTS; port++) {
        CHECK_EQ(CLOSE(h, port), 4);
        CHECK_EQ(COMPLETE(h, port, 0, 0, 0), 4);
        CHECK_EQ(COMPLETE(h, port, KH_TAGS, 0, 0), 4);
        CHECK_EQ(OPEN_NODES(h, port, USUAL_NODES), KH_OK);
        CHECK_EQ(COMPLETE(h, port, 0, 0, 0), 6);
        CHECK_EQ(CLOSE(h, port), KH_OK);
        CHECK_EQ(CLOSE(h, port), 4);
    }
}

static void refusal_05_in_flight(host *h) {
    BEGIN(h, USUAL_NODES);
    post(h, 0, transfer(KH_READ, 1, 0));
    post(h, 0, transfer(KH_READ, 0, 0));
    CHECK_EQ(TURN(h), KH_OK);
    CHECK_EQ(CLOSE(h, 0), 5);
    CHECK_EQ(TURN(h), KH_OK); /* answered at once, so not in flight */
    set_index(h, 0, KH_REQ_PROD, 0);
    CHECK_EQ(TURN(h), KH_OK);
    CHECK_EQ(words(h, TURNED)[KH_TURN_KIND], KH_OVERRUN);
    CHECK_EQ(CLOSE(h, 0), 5);
    CHECK_EQ(COMPLETE(h, 0, 0, 0, 8), KH_OK);
    CHECK_EQ(CLOSE(h, 0), KH_OK);
}

static void refusal_05_requests_waiting_only(host *h) {
    BEGIN(h, USUAL_NODES);
    post(h, 0, transfer(KH_READ, 1, 0));
    CHECK_EQ(CLOSE(h, 0), KH_OK);
}

/* A read in flight on port 0: tag 0, serial 0. */
static void begin_in_flight(host *h) {
    BEGIN(h, USUAL_NODES);
    post(h, 0, transfer(KH_READ, 1, 0));
    CHECK_EQ(TURN(h), KH_OK);
}

static void refusal_06_tag_beyond_the_ring(host *h) {
    static const uint32_t tags[] = {31, 32, 33, 63, 64, 65, 127, 128, 256, UINT32_C(1) << 31, UINT32_MAX};
    begin_in_flight(h);
    for (size_t i = 0; i < COUNT_OF(tags); i++)
        CHECK_EQ(COMPLETE(h, 0, tags[i], 0, 8), 6);
    CHECK_EQ(COMPLETE(h, 0, 0, 0, 8), KH_OK);
}

/* As many reads in flight on port 0 as its ring has slots: tag and serial of each are the same. */
static void begin_full(host *h) {
    BEGIN(h, USUAL_NODES);
    for (uint32_t i = 0; i < slots_of(h, 0); i++) {
        post(h, 0, transfer(KH_READ, 1, 0));
        CHECK_EQ(TURN(h), KH_OK);
    }
}

/* 31 of a ring of one page, 63 of one of two. */
static void refusal_06_last_tag_is_a_tag(host *h) {
    uint32_t last = h->ring.pages == 2 ? 63 : 31;
    begin_full(h);
    CHECK_EQ(words(h, TURNED)[KH_TURN_TAG], last);
    CHECK_EQ(COMPLETE(h, 0, last + 1, last + 1, 8), 6);
    CHECK_EQ(COMPLETE(h, 0, last, last, 8), KH_OK);
    CHECK_EQ(COMPLETE(h, 0, last, last, 8), 6);
}

/*
 * Memory with tags 31 to 63 busy, each with its own number as its serial: of a ring of one page only the first of them
 * is a tag. No calls lead there, so the host's books know of that one alone.
 */
static void refusal_06_marks_beyond_the_ring(host *h) {
    bool is_tag = h->ring.pages == 2;
    BEGIN(h, USUAL_NODES);
    words_of_port(memory_of(h), 0)[BUSY] = h->books[0].busy = UINT64_MAX << 31;
    for (uint32_t tag = 31; tag < KH_TAGS; tag++) {
        uint64_t *kept = words_of_tag(memory_of(h), 0, tag);
        kept[TAG_SERIAL] = h->books[0].tags[tag].serial = tag;
        kept[TAG_EXPECTED] = 8;
        h->books[0].tags[tag].expected = 8;
    }
    for (uint32_t tag = 32; tag < KH_TAGS; tag++)
        CHECK_EQ(COMPLETE(h, 0, tag, tag, 8), is_tag ? KH_OK : 6);
    CHECK_EQ(COMPLETE(h, 0, 31, 31, 8), KH_OK);
}

static void refusal_06_not_busy(host *h) {
    begin_in_flight(h);
    for (uint32_t tag = 1; tag < KH_TAGS; tag++)
        CHECK_EQ(COMPLETE(h, 0, tag, 0, 8), 6);
    CHECK_EQ(COMPLETE(h, 0, 0, 0, 8), KH_OK);
    CHECK_EQ(COMPLETE(h, 0, 0, 0, 8), 6);
}

static void refusal_06_another_serial(host *h) {
    static const uint32_t serials[] = {1, 32, 64, 256, UINT32_C(1) << 31, UINT32_MAX};
    begin_in_flight(h);
    for (size_t i = 0; i < COUNT_OF(serials); i++)
        CHECK_EQ(COMPLETE(h, 0, 0, serials[i], 8), 6);
    CHECK_EQ(COMPLETE(h, 0, 0, 0, 8), KH_OK);
    post(h, 0, transfer(KH_READ, 1, 0));
    CHECK_EQ(TURN(h), KH_OK);
    CHECK_EQ(COMPLETE(h, 0, 0, 0, 8), 6);
    CHECK_EQ(COMPLETE(h, 0, 0, 1, 8), KH_OK);
}

int main(void) {
    static const test tests[] = {
        TEST(refusal_01_wrong_length_in_turn),
        TEST(refusal_01_wrong_length_in_complete),
        TEST(refusal_01_greatest_length),
        TEST(refusal_02_port_above_7),
        TEST(refusal_03_port_not_closed),
        TEST(refusal_04_port_closed),
        TEST(refusal_05_in_flight),
        TEST(refusal_05_requests_waiting_only),
        TEST(refusal_06_tag_beyond_the_ring),
        TEST(refusal_06_last_tag_is_a_tag),
        TEST(refusal_06_marks_beyond_the_ring),
        TEST(refusal_06_not_busy),
        TEST(refusal_06_another_serial),
    };
    return run_in_every_shape(tests, COUNT_OF(tests));
}
