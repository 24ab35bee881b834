/*
 * The guest's half puts requests: refusals 1, 31, 32 and 33 on both sides of their lines and in their order, every byte
 * of the page, and notify.
 */
#include "front.h"

/* Words that no small field holds; cut to its bits, some of them would be good. */
static const uint64_t wide[] = {256,
                                257,
                                263,
                                267,
                                UINT64_C(1) << 16,
                                UINT32_MAX,
                                UINT64_C(1) << 32,
                                (UINT64_C(1) << 32) + 1,
                                (UINT64_C(1) << 32) + 7,
                                UINT64_C(1) << 63,
                                (UINT64_C(1) << 63) + 1,
                                UINT64_MAX};

static const uint32_t operations[] = {KH_READ, KH_WRITE, KH_BARRIER, KH_FLUSH, KH_DISCARD};

/* Puts the words as they stand, into a page full of rubbish, and ends the request where it was put. */
static uint32_t do_judge_words(host *h) {
    uint32_t number, index = h->front.rsp_cons;
    memset(h->at[PAGE], 0xFF, KH_GUEST_PAGE_BYTES);
    set_page_index(h, KH_RSP_PROD, index);
    number = do_put(h);
    if (number == KH_OK) {
        respond(h, words(h, REQUEST)[KH_REQUEST_ID], words(h, REQUEST)[KH_REQUEST_OPERATION], 0);
        CHECK_EQ(do_collect(h), KH_OK);
        CHECK_EQ(words(h, COLLECT_ANSWER)[KH_COLLECT_FOUND], 1);
    }
    return number;
}

#define JUDGE_WORDS(h) MADE_HERE(do_judge_words(h))

/* ---- refusals 1, 31 and 32 */

static void refusal_01_wrong_length(host *h) {
    static const size_t lengths[] = {
        0, 1, KH_GUEST_PAGE_BYTES - 1, KH_GUEST_PAGE_BYTES + 1, 2 * KH_GUEST_PAGE_BYTES, KH_RINGS_BYTES};
    write_request(h, KH_READ, FIRST_ID, 1);
    for (size_t i = 0; i < COUNT_OF(lengths); i++) {
        resize(h, PAGE, lengths[i]); /* 0 is a null pointer */
        CHECK_EQ(PUT(h), 1);
    }
    resize(h, PAGE, KH_GUEST_PAGE_BYTES);
    CHECK_EQ(kh_guest_put(guest_memory(h), h->at[PAGE], 0, words(h, REQUEST), words(h, PUT_ANSWER)), 1);
    CHECK_EQ(PUT(h), KH_OK);
}

static void refusal_01_before_31_32_33(host *h) {
    BEGIN_FRONT(h, 0);
    PUT_READS(h, 0, KH_PAGE_SLOTS - 1);
    for (int full = 0; full < 2; full++) {
        resize(h, PAGE, KH_GUEST_PAGE_BYTES - 1);
        CHECK_EQ(ASK(h, KH_READ, 0, 1), 1);
        CHECK_EQ(ASK(h, 4, 100, 1), 1);
        resize(h, PAGE, KH_GUEST_PAGE_BYTES);
        CHECK_EQ(ASK(h, KH_READ, 0, 1), full ? 31 : 32);
        CHECK_EQ(ASK(h, 4, 100, 1), full ? 31 : 33);
        if (!full)
            PUT_READS(h, 31, 1);
    }
}

static void refusal_31_ring_full(host *h) {
    for (unsigned rounds = 0; rounds < 2 * KH_PAGE_SLOTS; rounds += 7) {
        BEGIN_FRONT(h, rounds);
        PUT_READS(h, 1, KH_PAGE_SLOTS - 1);
        CHECK_EQ(ASK(h, KH_FLUSH, 32, 0), KH_OK);
        CHECK_EQ(ASK(h, KH_FLUSH, 33, 0), 31);
        CHECK_EQ(ASK(h, KH_READ, 34, 1), 31);
        END_READ(h, 1 + rounds % 31);
        CHECK_EQ(ASK(h, KH_READ, 34, 1), KH_OK);
        CHECK_EQ(ASK(h, KH_READ, 35, 1), 31);
    }
}

/* Responses that wait in the page make no room: they are not collected yet. */
static void refusal_31_responses_waiting(host *h) {
    BEGIN_FRONT(h, 3);
    PUT_READS(h, 1, KH_PAGE_SLOTS);
    for (uint64_t id = 1; id <= KH_PAGE_SLOTS; id++)
        respond(h, id, KH_READ, 0);
    CHECK_EQ(ASK(h, KH_READ, 100, 1), 31);
    CHECK_EQ(COLLECT(h), KH_OK);
    CHECK_EQ(ASK(h, KH_READ, 100, 1), KH_OK);
}

static void refusal_31_before_32_33(host *h) {
    BEGIN_FRONT(h, 0);
    PUT_READS(h, 1, KH_PAGE_SLOTS);
    CHECK_EQ(ASK(h, KH_READ, 1, 1), 31);
    CHECK_EQ(ASK(h, KH_READ, 100, 0), 31);
    CHECK_EQ(ASK(h, 4, 1, 12), 31);
    END_READ(h, 9);
    CHECK_EQ(ASK(h, KH_READ, 1, 1), 32);
    CHECK_EQ(ASK(h, KH_READ, 100, 0), 33);
    CHECK_EQ(ASK(h, 4, 1, 12), 32);
}

static void refusal_32_id_outstanding(host *h) {
    for (unsigned bit = 0; bit < 64; bit++) {
        BEGIN_FRONT(h, bit % 5);
        PUT_READS(h, FIRST_ID, 1);
        for (size_t i = 0; i < COUNT_OF(operations); i++)
            CHECK_EQ(ASK(h, operations[i], FIRST_ID, operations[i] < KH_FLUSH), 32);
        CHECK_EQ(ASK(h, KH_READ, FIRST_ID ^ UINT64_C(1) << bit, 1), KH_OK);
        END_READ(h, FIRST_ID);
        CHECK_EQ(ASK(h, KH_WRITE, FIRST_ID, 1), KH_OK);
        CHECK_EQ(ASK(h, KH_READ, FIRST_ID, 1), 32);
    }
}

/* No request is outstanding on a fresh guest, not even one with id 0. */
static void refusal_32_id_0(host *h) {
    CHECK_EQ(ASK(h, KH_READ, 0, 1), KH_OK);
    CHECK_EQ(ASK(h, KH_READ, 0, 1), 32);
    CHECK_EQ(ASK(h, KH_READ, UINT64_MAX, 1), KH_OK);
    END_READ(h, 0);
    CHECK_EQ(ASK(h, KH_READ, 0, 1), KH_OK);
    CHECK_EQ(ASK(h, KH_READ, UINT64_MAX, 1), 32);
}

/* Whatever its place among the others, an id is found while it is outstanding, and no longer. */
static void refusal_32_every_place(host *h) {
    for (uint64_t ended = 0; ended < KH_PAGE_SLOTS; ended++) {
        BEGIN_FRONT(h, ended % 5);
        PUT_READS(h, 0, KH_PAGE_SLOTS);
        END_READ(h, ended);
        for (uint64_t id = 0; id < KH_PAGE_SLOTS; id++)
            if (id != ended)
                CHECK_EQ(ASK(h, KH_WRITE, id, 1), 32);
        CHECK_EQ(ASK(h, KH_WRITE, ended, 1), KH_OK);
    }
}

static void refusal_32_before_33(host *h) {
    PUT_READS(h, 7, 1);
    CHECK_EQ(ASK(h, 4, 7, 1), 32);
    CHECK_EQ(ASK(h, KH_READ, 7, 12), 32);
    CHECK_EQ(ASK(h, 4, 8, 1), 33);
    CHECK_EQ(ASK(h, KH_READ, 8, 12), 33);
    CHECK_EQ(ASK(h, KH_READ, 8, 11), KH_OK);
}

/* ---- refusal 33 */

static bool is_known(uint64_t operation) {
    return operation <= KH_FLUSH || operation == KH_DISCARD;
}

static void refusal_33_unknown_operation(host *h) {
    for (uint32_t n = 0; n < 2; n++)
        for (uint32_t operation = 0; operation < 256 + COUNT_OF(wide); operation++) {
            uint64_t word = operation < 256 ? operation : wide[operation - 256];
            bool by_amount = word == KH_BARRIER || word == KH_DISCARD || (n == 0) == (word == KH_FLUSH);
            write_request(h, KH_READ, FIRST_ID, n);
            words(h, REQUEST)[KH_REQUEST_OPERATION] = word;
            CHECK_EQ(JUDGE_WORDS(h), is_known(word) && by_amount ? KH_OK : 33);
        }
}

/* The number of segments: from `least` to `most`. */
static void count_segments(host *h, uint32_t operation, uint64_t least, uint64_t most) {
    for (uint64_t i = 0; i < 16 + COUNT_OF(wide); i++) {
        uint64_t n = i < 14 ? i : i == 14 ? 128 : i == 15 ? 255 : wide[i - 16];
        write_request(h, operation, FIRST_ID + i, 0);
        words(h, REQUEST)[KH_REQUEST_SEGMENT_COUNT] = n;
        CHECK_EQ(JUDGE_WORDS(h), least <= n && n <= most ? KH_OK : 33);
    }
}

static void refusal_33_segment_count(host *h) {
    count_segments(h, KH_READ, 1, 11);
    count_segments(h, KH_WRITE, 1, 11);
    count_segments(h, KH_BARRIER, 0, 11);
    count_segments(h, KH_FLUSH, 0, 0);
    count_segments(h, KH_DISCARD, 0, UINT64_MAX);
}

static void refusal_33_discard_of_no_sectors(host *h) {
    static const uint64_t sectors[] = {1, 2, UINT32_MAX, UINT64_C(1) << 32, UINT64_C(1) << 63, UINT64_MAX};
    write_request(h, KH_DISCARD, FIRST_ID, 0);
    words(h, REQUEST)[KH_REQUEST_SECTORS] = 0;
    CHECK_EQ(JUDGE_WORDS(h), 33);
    for (size_t i = 0; i < COUNT_OF(sectors); i++) {
        words(h, REQUEST)[KH_REQUEST_SECTORS] = sectors[i];
        CHECK_EQ(JUDGE_WORDS(h), KH_OK);
    }
}

/* One of the segments has these words. */
static uint32_t judge_segment(host *h, uint32_t n, unsigned at, uint64_t frame, uint64_t first, uint64_t last) {
    write_request(h, n % 3, FIRST_ID, n);
    segment_words(h, at)[KH_SEGMENT_FRAME] = frame;
    segment_words(h, at)[KH_SEGMENT_FIRST] = first;
    segment_words(h, at)[KH_SEGMENT_LAST] = last;
    return do_judge_words(h);
}

#define JUDGE_SEGMENT(h, n, at, frame, first, last) MADE_HERE(judge_segment(h, n, at, frame, first, last))

static void refusal_33_first_and_last(host *h) {
    enum { SMALL = 10, ALL = SMALL + 1 + COUNT_OF(wide) };
    for (unsigned i = 0; i < ALL * ALL; i++) {
        uint64_t pair[2];
        for (unsigned k = 0; k < 2; k++) {
            unsigned which = k == 0 ? i % ALL : i / ALL;
            pair[k] = which < SMALL ? which : which == SMALL ? 255 : wide[which - SMALL - 1];
        }
        bool sound = pair[0] <= pair[1] && pair[1] <= 7;
        CHECK_EQ(JUDGE_SEGMENT(h, 1 + i % 11, i % (1 + i % 11), 5, pair[0], pair[1]), sound ? KH_OK : 33);
    }
}

/* Each of the first n is judged, and none after them. */
static void refusal_33_every_segment(host *h) {
    for (uint32_t n = 1; n <= KH_SEGMENTS; n++)
        for (unsigned at = 0; at < KH_SEGMENTS; at++) {
            uint32_t due = at < n ? 33 : KH_OK;
            CHECK_EQ(JUDGE_SEGMENT(h, n, at, 5, 3, 2), due);
            CHECK_EQ(JUDGE_SEGMENT(h, n, at, 5, 0, 8), due);
            CHECK_EQ(JUDGE_SEGMENT(h, n, at, 5, 8, 8), due);
            CHECK_EQ(JUDGE_SEGMENT(h, n, at, UINT64_C(1) << 32, 0, 7), due);
            CHECK_EQ(JUDGE_SEGMENT(h, n, at, 5, 7, 7), KH_OK);
        }
}

static void refusal_33_frame(host *h) {
    for (unsigned bit = 0; bit < 64; bit++) {
        uint32_t due = bit < 32 ? KH_OK : 33;
        CHECK_EQ(JUDGE_SEGMENT(h, 11, bit % 11, UINT64_C(1) << bit, 0, 7), due);
        CHECK_EQ(JUDGE_SEGMENT(h, 1, 0, (UINT64_C(1) << bit) + 5, 0, 7), due);
    }
    CHECK_EQ(JUDGE_SEGMENT(h, 2, 1, 0, 0, 7), KH_OK);
    CHECK_EQ(JUDGE_SEGMENT(h, 2, 1, UINT32_MAX, 0, 7), KH_OK);
    CHECK_EQ(JUDGE_SEGMENT(h, 2, 1, UINT64_MAX, 0, 7), 33);
}

/* ---- what is not looked at */

static void set_segments(const host *h, unsigned from, uint64_t value) {
    for (unsigned word = KH_SEGMENT_WORDS * from; word < KH_SEGMENT_WORDS * KH_SEGMENTS; word++)
        segment_words(h, 0)[word] = value;
}

static void unused_words_are_not_looked_at(host *h) {
    for (size_t i = 0; i < COUNT_OF(wide); i++) {
        uint64_t *request = words(h, REQUEST);
        for (uint32_t n = 0; n <= KH_SEGMENTS; n++) { /* with none it is a barrier */
            write_request(h, n == 0 ? KH_BARRIER : n % 3, FIRST_ID, n);
            request[KH_REQUEST_FLAG] = request[KH_REQUEST_SECTORS] = request[6] = request[7] = wide[i];
            set_segments(h, n, wide[i]);
            CHECK_EQ(JUDGE_WORDS(h), KH_OK);
        }
        write_request(h, KH_FLUSH, FIRST_ID, 0);
        request[KH_REQUEST_START] = request[KH_REQUEST_FLAG] = request[KH_REQUEST_SECTORS] = wide[i];
        set_segments(h, 0, wide[i]);
        CHECK_EQ(JUDGE_WORDS(h), KH_OK);
        write_request(h, KH_DISCARD, FIRST_ID, 0);
        request[KH_REQUEST_SEGMENT_COUNT] = wide[i];
        set_segments(h, 0, wide[i]);
        CHECK_EQ(JUDGE_WORDS(h), KH_OK);
    }
}

/* A read is no discard: one of no sectors is put, and a flush likewise. */
static void sectors_count_for_a_discard_alone(host *h) {
    for (size_t i = 0; i < COUNT_OF(operations); i++) {
        write_request(h, operations[i], FIRST_ID, operations[i] < KH_FLUSH);
        words(h, REQUEST)[KH_REQUEST_SECTORS] = 0;
        CHECK_EQ(JUDGE_WORDS(h), operations[i] == KH_DISCARD ? 33 : KH_OK);
    }
}

/* ---- the bytes of a slot, written out */

static void check_slot(host *h, const uint8_t *begin, size_t count) {
    uint8_t due[KH_SLOT_BYTES] = {0};
    uint8_t *slot = slot_in(h->at[PAGE], 0);
    memcpy(due, begin, count);
    memset(h->at[PAGE], 0xFF, KH_GUEST_PAGE_BYTES);
    CHECK_EQ(PUT(h), KH_OK);
    CHECK(memcmp(slot, due, sizeof due) == 0);
    CHECK_EQ(page_index(h, KH_REQ_PROD), 1);
}

static void slot_of_a_transfer(host *h) {
    static const uint8_t due[] = {1,    2,    0,    0,    0,    0,    0,    0,    /* write, 2 segments, handle 0 */
                                  0x88, 0x77, 0x66, 0x55, 0x44, 0x33, 0x22, 0x11, /* id */
                                  0xF0, 0xDE, 0xBC, 0x9A, 0x78, 0x56, 0x34, 0x12, /* start */
                                  0x04, 0x03, 0x02, 0x01, 2,    6,    0,    0,    /* frame, first, last */
                                  0xFF, 0xFF, 0xFF, 0xFF, 7,    7,    0,    0};
    kh_request r = request_of(KH_WRITE, FIRST_ID, 2);
    r.start = UINT64_C(0x123456789ABCDEF0);
    r.segments[0] = (kh_segment){0x01020304, 2, 6};
    r.segments[1] = (kh_segment){UINT32_MAX, 7, 7};
    write_words(h, r);
    check_slot(h, due, sizeof due);
}

static void slot_of_eleven_segments(host *h) {
    uint8_t due[KH_SLOT_BYTES] = {0, 11};
    kh_request r = request_of(KH_READ, 1, 11);
    due[8] = 1;
    due[16] = 8;
    for (unsigned i = 0; i < KH_SEGMENTS; i++) {
        r.segments[i] = (kh_segment){UINT32_C(0xA0B0C000) + i, i % 8, 7};
        due[24 + 8 * i] = (uint8_t)i;
        due[25 + 8 * i] = 0xC0;
        due[26 + 8 * i] = 0xB0;
        due[27 + 8 * i] = 0xA0;
        due[28 + 8 * i] = (uint8_t)(i % 8);
        due[29 + 8 * i] = 7;
    }
    write_words(h, r);
    check_slot(h, due, sizeof due);
}

/* The start of a flush and of an empty barrier is zero, whatever is asked. */
static void slot_without_segments(host *h) {
    static const uint32_t empty[] = {KH_BARRIER, KH_FLUSH};
    for (size_t i = 0; i < COUNT_OF(empty); i++) {
        uint8_t due[] = {(uint8_t)empty[i], 0, 0, 0, 0, 0, 0, 0, 0x88, 0x77, 0x66, 0x55, 0x44, 0x33, 0x22, 0x11};
        kh_request r = request_of(empty[i], FIRST_ID, 0);
        r.start = UINT64_MAX;
        reset(h);
        write_words(h, r);
        check_slot(h, due, sizeof due);
    }
}

static void slot_of_a_discard(host *h) {
    static const uint64_t flags[] = {0, 1, 2, 3, 254, 255, 256, 257, UINT64_C(1) << 63, UINT64_MAX};
    uint8_t due[] = {5, 0, 0, 0, 0, 0, 0, 0, 0x88, 0x77, 0x66, 0x55, 0x44, 0x33, 0x22, 0x11,
                     8, 0, 0, 0, 0, 0, 0, 0, 0xEF, 0xCD, 0xAB, 0x89, 0x67, 0x45, 0x23, 0x01};
    for (size_t i = 0; i < COUNT_OF(flags); i++) {
        kh_request r = request_of(KH_DISCARD, FIRST_ID, 3);
        r.sectors = UINT64_C(0x0123456789ABCDEF);
        reset(h);
        write_words(h, r);
        words(h, REQUEST)[KH_REQUEST_FLAG] = flags[i];
        due[1] = flags[i] & 1;
        check_slot(h, due, sizeof due);
    }
}

/* ---- indices and notify */

/* By turns of its own index, whatever the page says of it; no other index counts but req_event, for notify alone. */
static void slots_by_its_own_index(host *h) {
    for (uint32_t i = 0; i < 5 * KH_PAGE_SLOTS; i++) {
        memset(h->at[PAGE], (int)(i % 256), KH_GUEST_PAGE_BYTES);
        set_page_index(h, KH_RSP_PROD, i + 3); /* makes no sense, and putting doesn't look */
        PUT_READS(h, FIRST_ID + i, 1);
        CHECK_EQ(page_index(h, KH_REQ_PROD), i + 1);
        CHECK_EQ(get(slot_in(h->at[PAGE], i) + 8, 8), FIRST_ID + i);
        set_page_index(h, KH_RSP_PROD, i);
        END_READ(h, FIRST_ID + i);
    }
}

/* A read is put and ended, with req_event so far from the new req_prod. */
static uint64_t notify_at(host *h, uint32_t distance) {
    uint64_t notify;
    set_page_index(h, KH_REQ_EVENT, h->front.req_prod + 1 + distance);
    do_put_reads(h, FIRST_ID, 1);
    notify = words(h, PUT_ANSWER)[KH_PUT_NOTIFY];
    do_end_read(h, FIRST_ID);
    return notify;
}

#define NOTIFY_AT(h, distance) MADE_HERE(notify_at(h, distance))

static void notify_exactly_at_req_event(host *h) {
    for (unsigned round = 0; round < 5; round++) {
        CHECK_EQ(NOTIFY_AT(h, 0), 1);
        CHECK_EQ(NOTIFY_AT(h, 1), 0);
        CHECK_EQ(NOTIFY_AT(h, UINT32_MAX), 0);
        for (unsigned bit = 0; bit < 32; bit++) {
            CHECK_EQ(NOTIFY_AT(h, UINT32_C(1) << bit), 0);
            CHECK_EQ(NOTIFY_AT(h, 0), 1);
        }
    }
}

/* req_event stays where the backend has put it; requests before it and after it don't notify. */
static void notify_once_on_the_way(host *h) {
    BEGIN_FRONT(h, 20);
    set_page_index(h, KH_REQ_EVENT, 20 + 17);
    for (uint32_t i = 1; i <= KH_PAGE_SLOTS; i++) {
        PUT_READS(h, i, 1);
        CHECK_EQ(words(h, PUT_ANSWER)[KH_PUT_NOTIFY], i == 17);
    }
}

/* A page has bytes, not words: it may lie at any address. */
static void page_at_any_address(host *h) {
    uint8_t *room = lend(KH_GUEST_PAGE_BYTES + 8);
    uint64_t answer[KH_COLLECT_WORDS];
    for (size_t at = 0; at <= 8; at++) {
        kh_guest guest = {{0}};
        BEGIN_FRONT(h, 0);
        memset(room, 0, KH_GUEST_PAGE_BYTES + 8);
        for (uint64_t id = 0; id < 3; id++) {
            CHECK_EQ(ASK(h, KH_WRITE, id, 11), KH_OK);
            CHECK_EQ(kh_guest_put(&guest, room + at, KH_GUEST_PAGE_BYTES, words(h, REQUEST), answer), KH_OK);
        }
        CHECK(memcmp(room + at, h->at[PAGE], KH_GUEST_PAGE_BYTES) == 0);
        respond(h, 1, KH_WRITE, KH_OKAY);
        memcpy(room + at, h->at[PAGE], KH_GUEST_PAGE_BYTES);
        CHECK_EQ(COLLECT(h), KH_OK);
        CHECK_EQ(kh_guest_collect(&guest, room + at, KH_GUEST_PAGE_BYTES, answer), KH_OK);
        CHECK(memcmp(answer, words(h, COLLECT_ANSWER), sizeof answer) == 0);
    }
    give_back(room, KH_GUEST_PAGE_BYTES + 8);
}

int main(void) {
    static const test tests[] = {
        TEST(refusal_01_wrong_length),
        TEST(refusal_01_before_31_32_33),
        TEST(refusal_31_ring_full),
        TEST(refusal_31_responses_waiting),
        TEST(refusal_31_before_32_33),
        TEST(refusal_32_id_outstanding),
        TEST(refusal_32_id_0),
        TEST(refusal_32_every_place),
        TEST(refusal_32_before_33),
        TEST(refusal_33_unknown_operation),
        TEST(refusal_33_segment_count),
        TEST(refusal_33_discard_of_no_sectors),
        TEST(refusal_33_first_and_last),
        TEST(refusal_33_every_segment),
        TEST(refusal_33_frame),
        TEST(unused_words_are_not_looked_at),
        TEST(sectors_count_for_a_discard_alone),
        TEST(slot_of_a_transfer),
        TEST(slot_of_eleven_segments),
        TEST(slot_without_segments),
        TEST(slot_of_a_discard),
        TEST(slots_by_its_own_index),
        TEST(notify_exactly_at_req_event),
        TEST(notify_once_on_the_way),
        TEST(page_at_any_address),
    };
    return run_tests(tests, COUNT_OF(tests));
}
