/*
 * The guest's half with any words, any page bytes and any lengths, in long pseudo-random lists of calls: each returns
 * its number, a refused one changes nothing, and none reads or writes beside its buffers.
 *
 * No expression below draws twice where C leaves the order open, so that a seed gives one list of calls.
 */
#include "any.h"
#include "front.h"

enum { CALLS = 50000, LAST_NUMBER = 35 };

static const uint64_t seed = UINT64_C(0x6B65726E656C6861);

/* ---- which numbers came */

enum call { CALL_PUT, CALL_COLLECT, CALL_COUNT };

static const struct {
    const char *name;
    unsigned numbers[6]; /* that it may return, up to the first 0, which is one of them */
} calls[CALL_COUNT] = {{"put", {1, 31, 32, 33}}, {"collect", {1, 34, 35}}};

static unsigned long came[CALL_COUNT][LAST_NUMBER + 1];
static unsigned long notified[2], found[2];
static unsigned long wrapped[CALL_COUNT]; /* calls that wrote an index that had passed 2^32 */

static void begin_counts(void) {
    state = seed;
    memset(came, 0, sizeof came);
    memset(notified, 0, sizeof notified);
    memset(found, 0, sizeof found);
    memset(wrapped, 0, sizeof wrapped);
}

static bool may_return(enum call call, uint32_t number) {
    const unsigned *numbers = calls[call].numbers;
    while (*numbers != 0 && *numbers != number)
        numbers++;
    return *numbers == number;
}

static void count(const host *h, enum call call, uint32_t number) {
    CHECK(number <= LAST_NUMBER && may_return(call, number));
    came[call][number % (LAST_NUMBER + 1)]++;
    if (number != KH_OK)
        return;
    if (call == CALL_PUT) {
        CHECK(words(h, PUT_ANSWER)[KH_PUT_NOTIFY] <= 1);
        notified[words(h, PUT_ANSWER)[KH_PUT_NOTIFY] % 2]++;
    } else {
        CHECK(words(h, COLLECT_ANSWER)[KH_COLLECT_FOUND] <= 1);
        found[words(h, COLLECT_ANSWER)[KH_COLLECT_FOUND] % 2]++;
    }
}

/* All numbers came, and each kind of answer. */
static void end_counts(void) {
    bool prints = placement != BEFORE_GUARD || running.failures > 0; /* the same in both places */
    if (prints)
        printf("     %d calls, seed 0x%llx:", CALLS, (unsigned long long)seed);
    for (enum call call = CALL_PUT; call < CALL_COUNT; call++)
        for (uint32_t number = 0; number <= LAST_NUMBER; number++)
            if (may_return(call, number)) {
                CHECK(came[call][number] > 0);
                if (prints)
                    printf(" %s %u: %lu,", calls[call].name, number, came[call][number]);
            }
    CHECK(notified[0] > 0 && notified[1] > 0 && found[0] > 0 && found[1] > 0);
    if (prints)
        printf(" notify: %lu, nothing to collect: %lu\n", notified[1], found[0]);
}

/* ---- arguments */

static uint64_t any_word(void) {
    uint64_t word = one_in(2) ? below(14) : any();
    return one_in(2) ? word : word >> below(64);
}

/* A sound request, or one with some words changed, or any words. Its id is one of a few, so that ids come again. */
static void any_request(const host *h) {
    static const uint32_t operations[] = {0, 1, 2, 3, 5, 4};
    uint32_t operation = operations[below(one_in(8) ? 6 : 5)];
    uint64_t id = below(64);
    kh_request r = request_of(operation, id, operation == KH_FLUSH ? 0 : 1 + below(KH_SEGMENTS));
    r.start = any();
    write_words(h, r);
    for (uint32_t changes = one_in(3) ? 1 + below(3) : 0; changes > 0; changes--) {
        uint32_t word = below(KH_REQUEST_WORDS);
        words(h, REQUEST)[word] = any_word();
    }
    if (one_in(16))
        fill(h->at[REQUEST], h->bytes[REQUEST]);
}

/* A response to one of the outstanding requests, right or nearly so. */
static void any_response(const host *h) {
    const ledger *front = &h->front;
    uint32_t which = front->count > 0 ? below(front->count) : 0;
    uint64_t id = front->count > 0 ? front->outstanding[which].id : any();
    uint64_t operation = front->count > 0 ? front->outstanding[which].operation : below(6);
    if (one_in(16))
        id ^= UINT64_C(1) << below(64);
    if (one_in(16))
        operation = (uint8_t)any();
    set_page_index(h, KH_RSP_PROD, front->rsp_cons);
    respond(h, id, operation, any() >> 48);
}

/* What a backend may do to the page between two calls; nobody looks at what the guest says of itself there. */
static void backend_writes(const host *h) {
    uint32_t ahead = one_in(8) ? (uint32_t)any() : below(3);
    fill(h->at[PAGE] + KH_REQ_PROD, 4);
    fill(h->at[PAGE] + KH_RSP_EVENT, 4);
    set_page_index(h, KH_REQ_EVENT, h->front.req_prod + ahead);
    set_page_index(h, KH_RSP_PROD, h->front.rsp_cons);
    if (one_in(2))
        any_response(h);
    if (one_in(8)) {
        ahead = below(KH_PAGE_SLOTS + 2);
        set_page_index(h, KH_RSP_PROD, h->front.rsp_cons + ahead);
    }
    if (one_in(40))
        set_page_index(h, KH_RSP_PROD, (uint32_t)any());
    if (one_in(100))
        fill(h->at[PAGE], h->bytes[PAGE]);
}

/* Another length for one call, once in a while. */
static bool lend_wrongly(host *h) {
    static const size_t lengths[] = {
        0, 1, 64, KH_GUEST_PAGE_BYTES - 1, KH_GUEST_PAGE_BYTES + 1, 2 * KH_GUEST_PAGE_BYTES};
    if (!one_in(64))
        return false;
    resize(h, PAGE, lengths[below(COUNT_OF(lengths))]);
    fill(h->at[PAGE], h->bytes[PAGE]);
    return true;
}

/* ---- lists of calls from a fresh guest, all that is due of each checked by the ledger */

/* In some stretches more is put than is collected, in others the ring runs empty. */
static void call_any(host *h, uint32_t stretch) {
    if (below(4) <= stretch % 3) {
        any_request(h);
        count(h, CALL_PUT, PUT(h));
    } else {
        count(h, CALL_COLLECT, COLLECT(h));
    }
}

static void any_calls_from_a_fresh_guest(host *h) {
    begin_counts();
    for (uint32_t i = 0; i < CALLS && running.failures == 0; i++) {
        bool wrong;
        backend_writes(h);
        wrong = lend_wrongly(h);
        call_any(h, i / 256);
        if (wrong)
            resize(h, PAGE, KH_GUEST_PAGE_BYTES);
    }
    end_counts();
}

/* ---- calls on guest memory of any content, which is some guest too; no ledger can be kept of it */

/* What a call that was done may have changed in the page is taken over, so that what it may not shows. */
static void take_over(const host *h, unsigned at, unsigned bytes) {
    memcpy(h->before[PAGE] + at, h->at[PAGE] + at, bytes);
}

static void put_on_any_memory(host *h) {
    uint32_t number;
    any_request(h);
    remember(h);
    number = kh_guest_put(guest_memory(h), h->at[PAGE], h->bytes[PAGE], words(h, REQUEST), words(h, PUT_ANSWER));
    count(h, CALL_PUT, number);
    if (number == KH_OK) {
        uint32_t req_prod = page_index(h, KH_REQ_PROD);
        take_over(h, KH_REQ_PROD, 4);
        expect_slot(h, slot_in(h->before[PAGE], req_prod - 1));
        CHECK_EQ(words(h, PUT_ANSWER)[KH_PUT_NOTIFY], page_index(h, KH_REQ_EVENT) == req_prod);
        wrapped[CALL_PUT] += req_prod == 0;
    }
    check_kept(h, number, 1 << GUEST | 1 << PUT_ANSWER);
}

static void collect_on_any_memory(host *h) {
    const uint64_t *answer = words(h, COLLECT_ANSWER);
    uint32_t number;
    remember(h);
    number = kh_guest_collect(guest_memory(h), h->at[PAGE], h->bytes[PAGE], words(h, COLLECT_ANSWER));
    count(h, CALL_COLLECT, number);
    if (number == KH_OK && answer[KH_COLLECT_FOUND] == 0) {
        put(h->before[PAGE] + KH_RSP_EVENT, 4, page_index(h, KH_RSP_PROD) + 1);
        check_same(h, GUEST);
        wrapped[CALL_COLLECT] += page_index(h, KH_RSP_EVENT) == 0;
    }
    check_kept(h, number, 1 << GUEST | 1 << COLLECT_ANSWER);
}

/* An index a little before 2^32, or after. */
static uint32_t near_the_end(void) {
    return below(6) - 4;
}

/* Some words of the guest, or all, are any words, many of them small, or as an index near its end. */
static void scribble_guest(const host *h) {
    uint32_t changes = one_in(4) ? KH_GUEST_WORDS : below(8);
    for (; changes > 0; changes--) {
        uint32_t word = below(KH_GUEST_WORDS);
        words(h, GUEST)[word] = one_in(3) ? any() : one_in(2) ? near_the_end() : below(40);
    }
    if (one_in(8))
        fill(h->at[GUEST], h->bytes[GUEST]);
    if (one_in(4))
        set_page_index(h, KH_RSP_PROD, near_the_end());
    if (one_in(4))
        set_page_index(h, KH_REQ_EVENT, near_the_end());
}

/* From a guest that has come by its words rightly, so that much of its page still fits it; that one goes on after. */
static void any_calls_on_any_memory(host *h) {
    kh_guest right;
    begin_counts();
    for (uint32_t i = 0; i < CALLS && running.failures == 0; i++) {
        bool wrong;
        backend_writes(h);
        if (one_in(2)) {
            call_any(h, i / 256);
            continue;
        }
        right = *guest_memory(h);
        scribble_guest(h);
        wrong = lend_wrongly(h);
        (one_in(2) ? put_on_any_memory : collect_on_any_memory)(h);
        if (wrong)
            resize(h, PAGE, KH_GUEST_PAGE_BYTES);
        *guest_memory(h) = right;
    }
    end_counts();
    CHECK(wrapped[CALL_PUT] > 0 && wrapped[CALL_COLLECT] > 0);
    if (placement != BEFORE_GUARD)
        printf("     indices passed 2^32: req_prod %lu, rsp_event %lu\n", wrapped[CALL_PUT], wrapped[CALL_COLLECT]);
}

int main(void) {
    static const test tests[] = {
        TEST(any_calls_from_a_fresh_guest),
        TEST(any_calls_on_any_memory),
    };
    return run_tests(tests, COUNT_OF(tests));
}
