/*
 * The guest's half collects responses: refusals 1, 34 and 35 on both sides of their lines and in their order, what a
 * response says, and what a look that finds none leaves.
 */
#include "any.h"
#include "front.h"

static uint64_t found(const host *h) {
    return words(h, COLLECT_ANSWER)[KH_COLLECT_FOUND];
}

/* ---- nothing to collect */

static void nothing_to_collect(host *h) {
    for (unsigned rounds = 0; rounds < 3 * KH_PAGE_SLOTS; rounds += 31)
        for (unsigned outstanding = 0; outstanding <= KH_PAGE_SLOTS; outstanding += 8) {
            BEGIN_FRONT(h, rounds);
            PUT_READS(h, 0, outstanding);
            for (int times = 0; times < 2; times++) {
                set_page_index(h, KH_RSP_EVENT, UINT32_MAX);
                CHECK_EQ(COLLECT(h), KH_OK);
                CHECK_EQ(found(h), 0);
                CHECK_EQ(page_index(h, KH_RSP_EVENT), rounds + 1);
            }
        }
}

/* What isn't outstanding, in the slot that comes next, is not looked at before rsp_prod gets there. */
static void nothing_to_collect_whatever_the_slot_says(host *h) {
    BEGIN_FRONT(h, 2);
    memset(h->at[PAGE], 0xFF, KH_GUEST_PAGE_BYTES);
    set_page_index(h, KH_RSP_PROD, 2);
    CHECK_EQ(COLLECT(h), KH_OK);
    CHECK_EQ(found(h), 0);
}

/* ---- what a response says */

static void collect_status(host *h, uint64_t operation, uint32_t n, uint64_t status) {
    uint64_t id = FIRST_ID * (status + 1);
    CHECK_EQ(do_ask(h, (uint32_t)operation, id, n), KH_OK);
    respond(h, id, operation, status);
    CHECK_EQ(do_collect(h), KH_OK);
    CHECK_EQ(found(h), 1);
    CHECK_EQ(words(h, COLLECT_ANSWER)[KH_COLLECT_ID], id);
    CHECK_EQ(words(h, COLLECT_ANSWER)[KH_COLLECT_OPERATION], operation);
    CHECK_EQ(words(h, COLLECT_ANSWER)[KH_COLLECT_STATUS], status);
    CHECK_EQ(kh_read_collected(words(h, COLLECT_ANSWER)).status, (int16_t)(uint16_t)status);
}

#define COLLECT_STATUS(h, operation, n, status) MADE_HERE(collect_status(h, operation, n, status))

static void any_status_as_it_stands(host *h) {
    static const uint64_t statuses[] = {0, 1, 2, 0x7FFF, 0x8000, 0x8001, 0xFFFD, 0xFFFE, 0xFFFF};
    static const struct {
        uint64_t operation;
        uint32_t n;
    } lines[] = {{KH_READ, 1}, {KH_WRITE, 11}, {KH_BARRIER, 1}, {KH_BARRIER, 0}, {KH_FLUSH, 0}, {KH_DISCARD, 0}};
    for (size_t i = 0; i < COUNT_OF(lines); i++) {
        for (size_t k = 0; k < COUNT_OF(statuses); k++)
            COLLECT_STATUS(h, lines[i].operation, lines[i].n, statuses[k]);
        for (unsigned bit = 0; bit < 16; bit++)
            COLLECT_STATUS(h, lines[i].operation, lines[i].n, UINT64_C(1) << bit);
    }
}

/* Neither the padding of a response nor the rest of its slot is judged or given. */
static void padding_does_not_count(host *h) {
    static const unsigned places[] = {9, 12, 13, 14, 15, 16, 17, 24, 111};
    for (size_t i = 0; i < COUNT_OF(places); i++)
        for (int bit = 0; bit < 8; bit++) {
            PUT_READS(h, FIRST_ID, 1);
            respond(h, FIRST_ID, KH_READ, KH_OKAY);
            slot_in(h->at[PAGE], page_index(h, KH_RSP_PROD) - 1)[places[i]] ^= (uint8_t)(1 << bit);
            CHECK_EQ(COLLECT(h), KH_OK);
            CHECK_EQ(found(h), 1);
            CHECK_EQ(words(h, COLLECT_ANSWER)[KH_COLLECT_STATUS], 0);
        }
}

static void one_response_a_call(host *h) {
    PUT_READS(h, 1, KH_PAGE_SLOTS);
    for (uint64_t id = KH_PAGE_SLOTS; id > 0; id--)
        respond(h, id, KH_READ, id);
    for (uint64_t id = KH_PAGE_SLOTS; id > 0; id--) {
        CHECK_EQ(COLLECT(h), KH_OK);
        CHECK_EQ(words(h, COLLECT_ANSWER)[KH_COLLECT_ID], id);
        CHECK_EQ(words(h, COLLECT_ANSWER)[KH_COLLECT_STATUS], id);
    }
    CHECK_EQ(COLLECT(h), KH_OK);
    CHECK_EQ(found(h), 0);
}

/* Rings of any fill, answered in any order, round and round. */
static void responses_in_any_order(host *h) {
    uint64_t ids[KH_PAGE_SLOTS], next = 0;
    uint32_t waiting = 0;
    state = 2;
    for (int round = 0; round < 120; round++) {
        for (uint32_t more = below(KH_PAGE_SLOTS + 1 - waiting); more > 0; more--) {
            PUT_READS(h, next, 1);
            ids[waiting++] = next++;
        }
        for (uint32_t ends = below(waiting + 1); ends > 0; ends--) {
            uint32_t which = below(waiting);
            END_READ(h, ids[which]);
            ids[which] = ids[--waiting];
        }
    }
    CHECK(next > 20 * KH_PAGE_SLOTS);
}

/* The guest's indices are its own: what the page says of them changes nothing. */
static void page_is_not_asked_for_its_own_indices(host *h) {
    for (uint32_t i = 0; i < 3 * KH_PAGE_SLOTS; i++) {
        PUT_READS(h, FIRST_ID + i, 1);
        respond(h, FIRST_ID + i, KH_READ, KH_OKAY);
        set_page_index(h, KH_REQ_PROD, i * UINT32_C(2654435761));
        set_page_index(h, KH_REQ_EVENT, i * UINT32_C(2654435761) + 1);
        set_page_index(h, KH_RSP_EVENT, i % 2 == 0 ? 0 : UINT32_MAX - i);
        CHECK_EQ(COLLECT(h), KH_OK);
        CHECK_EQ(found(h), 1);
        CHECK_EQ(COLLECT(h), KH_OK);
        CHECK_EQ(found(h), 0);
    }
}

/* ---- refusals */

static void refusal_01_wrong_length(host *h) {
    static const size_t lengths[] = {
        0, 1, KH_GUEST_PAGE_BYTES - 1, KH_GUEST_PAGE_BYTES + 1, 2 * KH_GUEST_PAGE_BYTES, KH_RINGS_BYTES};
    PUT_READS(h, FIRST_ID, 1);
    for (size_t i = 0; i < COUNT_OF(lengths); i++) {
        resize(h, PAGE, lengths[i]); /* 0 is a null pointer; a page of zeros has nothing to collect */
        CHECK_EQ(COLLECT(h), 1);
        for (size_t at = 0; at < lengths[i]; at++)
            h->at[PAGE][at] = 0xFF; /* 34 in a page of the right length */
        CHECK_EQ(COLLECT(h), 1);
    }
    resize(h, PAGE, KH_GUEST_PAGE_BYTES);
    respond(h, FIRST_ID, KH_WRITE, KH_OKAY); /* 35 there */
    CHECK_EQ(kh_guest_collect(guest_memory(h), h->at[PAGE], 0, words(h, COLLECT_ANSWER)), 1);
    CHECK_EQ(kh_guest_collect(guest_memory(h), h->at[PAGE], KH_GUEST_PAGE_BYTES - 1, words(h, COLLECT_ANSWER)), 1);
    set_page_index(h, KH_RSP_PROD, 0);
    END_READ(h, FIRST_ID);
}

/* With so many outstanding: as many responses as that, and none more. */
static void judge_distances(host *h, unsigned rounds, uint32_t outstanding) {
    uint32_t too_far[] = {outstanding + 1,          outstanding + 2, 33,        64, UINT32_C(1) << 31,
                          UINT32_MAX - outstanding, UINT32_MAX - 31, UINT32_MAX};
    do_begin_front(h, rounds);
    do_put_reads(h, 0, outstanding);
    respond(h, 0, KH_READ, KH_OKAY);
    for (size_t i = 0; i < COUNT_OF(too_far); i++) {
        set_page_index(h, KH_RSP_PROD, rounds + too_far[i]);
        CHECK_EQ(do_collect(h), 34);
    }
    set_page_index(h, KH_RSP_PROD, rounds + outstanding);
    CHECK_EQ(do_collect(h), KH_OK);
    CHECK_EQ(found(h), outstanding > 0);
}

static void refusal_34_rsp_prod_too_far(host *h) {
    static const unsigned rounds[] = {0, 1, 5, 31, 32, 70};
    static const uint32_t outstanding[] = {0, 1, 2, 13, 30, 31, 32};
    for (size_t i = 0; i < COUNT_OF(rounds) * COUNT_OF(outstanding); i++)
        MADE_HERE(judge_distances(h, rounds[i % COUNT_OF(rounds)], outstanding[i / COUNT_OF(rounds)]));
}

static void refusal_34_rsp_prod_behind(host *h) {
    BEGIN_FRONT(h, 40);
    PUT_READS(h, 0, 30);
    for (uint32_t behind = 1; behind <= 40; behind++) {
        set_page_index(h, KH_RSP_PROD, 40 - behind);
        CHECK_EQ(COLLECT(h), 34);
    }
}

/* As responses are collected, there are fewer outstanding: the line moves with them. */
static void refusal_34_after_collecting(host *h) {
    PUT_READS(h, 0, 3);
    for (uint64_t id = 0; id < 3; id++) {
        respond(h, id, KH_READ, KH_OKAY);
        set_page_index(h, KH_RSP_PROD, 4);
        CHECK_EQ(COLLECT(h), 34);
        set_page_index(h, KH_RSP_PROD, 3);
        CHECK_EQ(COLLECT(h), KH_OK);
        set_page_index(h, KH_RSP_PROD, (uint32_t)id + 1);
    }
    set_page_index(h, KH_RSP_PROD, 4);
    CHECK_EQ(COLLECT(h), 34);
}

static void refusal_34_before_35(host *h) {
    PUT_READS(h, 1, 2);
    respond(h, 99, KH_READ, KH_OKAY);
    set_page_index(h, KH_RSP_PROD, 3);
    CHECK_EQ(COLLECT(h), 34);
    set_page_index(h, KH_RSP_PROD, UINT32_MAX);
    CHECK_EQ(COLLECT(h), 34);
    set_page_index(h, KH_RSP_PROD, 2);
    CHECK_EQ(COLLECT(h), 35);
}

/* The next response is this one, for one call. */
static uint32_t collect_as(host *h, uint64_t id, uint64_t operation) {
    uint32_t index = page_index(h, KH_RSP_PROD), number;
    respond(h, id, operation, KH_OKAY);
    number = do_collect(h);
    if (number != KH_OK)
        set_page_index(h, KH_RSP_PROD, index);
    return number;
}

#define COLLECT_AS(h, id, operation) MADE_HERE(collect_as(h, id, operation))

static void refusal_35_another_id(host *h) {
    for (unsigned bit = 0; bit < 64; bit++) {
        PUT_READS(h, FIRST_ID, 1);
        CHECK_EQ(COLLECT_AS(h, FIRST_ID ^ UINT64_C(1) << bit, KH_READ), 35);
        CHECK_EQ(COLLECT_AS(h, FIRST_ID, KH_READ), KH_OK);
    }
}

static void refusal_35_another_operation(host *h) {
    for (uint64_t operation = 0; operation < 256; operation++) {
        CHECK_EQ(ASK(h, KH_BARRIER, FIRST_ID, 2), KH_OK);
        CHECK_EQ(COLLECT_AS(h, FIRST_ID, operation), operation == KH_BARRIER ? KH_OK : 35);
        if (operation != KH_BARRIER)
            CHECK_EQ(COLLECT_AS(h, FIRST_ID, KH_BARRIER), KH_OK);
    }
}

/* Both are outstanding, but not together. */
static void refusal_35_id_of_one_operation_of_another(host *h) {
    CHECK_EQ(ASK(h, KH_READ, 1, 1), KH_OK);
    CHECK_EQ(ASK(h, KH_WRITE, 2, 1), KH_OK);
    CHECK_EQ(ASK(h, KH_FLUSH, 3, 0), KH_OK);
    CHECK_EQ(COLLECT_AS(h, 1, KH_WRITE), 35);
    CHECK_EQ(COLLECT_AS(h, 2, KH_READ), 35);
    CHECK_EQ(COLLECT_AS(h, 3, KH_READ), 35);
    CHECK_EQ(COLLECT_AS(h, 3, KH_FLUSH), KH_OK);
    CHECK_EQ(COLLECT_AS(h, 2, KH_FLUSH), 35);
    CHECK_EQ(COLLECT_AS(h, 2, KH_WRITE), KH_OK);
    CHECK_EQ(COLLECT_AS(h, 1, KH_READ), KH_OK);
}

/* A response of zeros names no request, unless a read with id 0 is outstanding. */
static void refusal_35_zeros(host *h) {
    PUT_READS(h, FIRST_ID, 2);
    CHECK_EQ(COLLECT_AS(h, 0, KH_READ), 35);
    PUT_READS(h, 0, 1);
    CHECK_EQ(COLLECT_AS(h, 0, KH_READ), KH_OK);
    CHECK_EQ(COLLECT_AS(h, 0, KH_READ), 35);
}

static void refusal_35_answered_twice(host *h) {
    for (uint64_t which = 0; which < KH_PAGE_SLOTS; which++) {
        BEGIN_FRONT(h, which % 5);
        PUT_READS(h, 0, KH_PAGE_SLOTS);
        CHECK_EQ(COLLECT_AS(h, which, KH_READ), KH_OK);
        CHECK_EQ(COLLECT_AS(h, which, KH_READ), 35);
        CHECK_EQ(ASK(h, KH_WRITE, which, 1), KH_OK);
        CHECK_EQ(COLLECT_AS(h, which, KH_READ), 35);
        CHECK_EQ(COLLECT_AS(h, which, KH_WRITE), KH_OK);
    }
}

/* The request's own bytes are no response, though they lie where it will be. */
static void refusal_35_slot_not_written(host *h) {
    PUT_READS(h, FIRST_ID, 1);
    set_page_index(h, KH_RSP_PROD, 1);
    CHECK_EQ(COLLECT(h), 35);
    set_page_index(h, KH_RSP_PROD, 0);
    END_READ(h, FIRST_ID);
}

int main(void) {
    static const test tests[] = {
        TEST(nothing_to_collect),
        TEST(nothing_to_collect_whatever_the_slot_says),
        TEST(any_status_as_it_stands),
        TEST(padding_does_not_count),
        TEST(one_response_a_call),
        TEST(responses_in_any_order),
        TEST(page_is_not_asked_for_its_own_indices),
        TEST(refusal_01_wrong_length),
        TEST(refusal_34_rsp_prod_too_far),
        TEST(refusal_34_rsp_prod_behind),
        TEST(refusal_34_after_collecting),
        TEST(refusal_34_before_35),
        TEST(refusal_35_another_id),
        TEST(refusal_35_another_operation),
        TEST(refusal_35_id_of_one_operation_of_another),
        TEST(refusal_35_zeros),
        TEST(refusal_35_answered_twice),
        TEST(refusal_35_slot_not_written),
    };
    return run_tests(tests, COUNT_OF(tests));
}
