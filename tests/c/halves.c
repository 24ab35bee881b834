/*
 * The guest's half beside Xen's own macros, and with the library's backend.
 *
 * Side by side: the same requests go to one page by our half and to another by a front end on the macros; on each page
 * is a back end on the macros, which reads every field of every request. After each step both pages are the same, byte
 * for byte, and both front ends say the same of notifications and responses.
 *
 * Together: our half sends to a port of the library, over one page. Nobody looks at the page without being notified;
 * the requests are taken in the order that they were put in, and collected as they were answered.
 */
#include "any.h"
#include "front.h"
#include "records.h"

enum { STEPS = 20000 };

/* ---- requests, by their numbers */

/* What request `number` asks: every operation, with each number of segments that it can have. */
static kh_request request_by(uint32_t number) {
    static const uint32_t operations[] = {KH_READ, KH_WRITE, KH_BARRIER, KH_FLUSH, KH_DISCARD, KH_READ, KH_BARRIER};
    uint32_t operation = operations[number % COUNT_OF(operations)];
    uint32_t n = operation == KH_FLUSH || number % COUNT_OF(operations) == 6 ? 0 : 1 + number % KH_SEGMENTS;
    kh_request r = request_of(operation, FIRST_ID * (number + 1), n);
    r.start = n == 0 ? 0 : 8 * (number % 128);
    r.flag = number % 2;
    r.sectors = 1 + number % 900;
    for (unsigned i = 0; i < KH_SEGMENTS; i++)
        r.segments[i] = (kh_segment){(number + i) % 16, i % 8, i % 8 + (number + i) % (8 - i % 8)};
    return r;
}

static int16_t status_of(uint32_t number) {
    static const int16_t statuses[] = {BLKIF_RSP_OKAY, BLKIF_RSP_ERROR, BLKIF_RSP_EOPNOTSUPP};
    return statuses[number % COUNT_OF(statuses)];
}

/* ---- front end and back ends on the macros */

typedef struct {
    blkif_front_ring_t front; /* on the second page */
    blkif_back_ring_t back[2];
    uint32_t sent, collected;
    uint32_t numbers[KH_PAGE_SLOTS]; /* taken by the back ends and not answered */
    uint32_t unanswered;
    unsigned long notified[2], full, empty;
} world;

static void fill_request(blkif_request_t *request, const kh_request *r) {
    memset(request, 0, sizeof *request);
    request->operation = (uint8_t)r->operation;
    request->id = r->id;
    request->sector_number = r->start;
    if (r->operation == BLKIF_OP_DISCARD) {
        blkif_request_discard_t *discard = (blkif_request_discard_t *)request;
        discard->flag = (uint8_t)r->flag;
        discard->nr_sectors = r->sectors;
        return;
    }
    request->nr_segments = (uint8_t)r->segment_count;
    for (uint32_t i = 0; i < r->segment_count; i++) {
        request->seg[i].gref = r->segments[i].frame;
        request->seg[i].first_sect = (uint8_t)r->segments[i].first;
        request->seg[i].last_sect = (uint8_t)r->segments[i].last;
    }
}

/* What a back end finds in a slot is what was asked, field by field. */
static void check_request(const blkif_request_t *request, const kh_request *r) {
    const blkif_request_discard_t *discard = (const blkif_request_discard_t *)request;
    CHECK_EQ(request->operation, r->operation);
    CHECK_EQ(request->handle, 0);
    CHECK_EQ(request->id, r->id);
    CHECK_EQ(request->sector_number, r->start);
    if (r->operation == BLKIF_OP_DISCARD) {
        CHECK_EQ(discard->flag, r->flag);
        CHECK_EQ(discard->nr_sectors, r->sectors);
        return;
    }
    CHECK_EQ(request->nr_segments, r->segment_count);
    for (uint32_t i = 0; i < r->segment_count; i++) {
        CHECK_EQ(request->seg[i].gref, r->segments[i].frame);
        CHECK_EQ(request->seg[i].first_sect, r->segments[i].first);
        CHECK_EQ(request->seg[i].last_sect, r->segments[i].last);
    }
}

/* A response by the macros; says whether the front end wants to be notified. */
static bool answer_by(blkif_back_ring_t *back, uint32_t number) {
    blkif_response_t *slot = RING_GET_RESPONSE(back, back->rsp_prod_pvt++);
    int notify;
    slot->id = request_by(number).id;
    slot->operation = (uint8_t)request_by(number).operation;
    slot->status = status_of(number);
    RING_PUSH_RESPONSES_AND_CHECK_NOTIFY(back, notify);
    return notify != 0;
}

/* ---- a step of both front ends, or of both back ends */

static void send_both(world *w, host *h) {
    kh_request r = request_by(w->sent);
    int notify;
    CHECK_EQ(h->front.count == KH_PAGE_SLOTS, RING_FULL(&w->front));
    if (RING_FULL(&w->front)) {
        CHECK_EQ(PUT_REQUEST(h, r), KH_RING_FULL);
        w->full++;
        return;
    }
    CHECK_EQ(PUT_REQUEST(h, r), KH_OK);
    fill_request(RING_GET_REQUEST(&w->front, w->front.req_prod_pvt++), &r);
    RING_PUSH_REQUESTS_AND_CHECK_NOTIFY(&w->front, notify);
    CHECK_EQ(words(h, PUT_ANSWER)[KH_PUT_NOTIFY], notify != 0);
    w->notified[notify != 0]++;
    w->sent++;
}

static void collect_both(world *w, host *h) {
    kh_collected collected;
    blkif_response_t copy;
    int more;
    CHECK_EQ(COLLECT(h), KH_OK);
    collected = kh_read_collected(words(h, COLLECT_ANSWER));
    CHECK_EQ(collected.found, RING_HAS_UNCONSUMED_RESPONSES(&w->front) != 0);
    if (!collected.found) {
        RING_FINAL_CHECK_FOR_RESPONSES(&w->front, more);
        CHECK_EQ(more, 0);
        w->empty++;
        return;
    }
    RING_COPY_RESPONSE(&w->front, w->front.rsp_cons++, &copy);
    CHECK_EQ(collected.id, copy.id);
    CHECK_EQ(collected.operation, copy.operation);
    CHECK_EQ(collected.status, copy.status);
    w->collected++;
}

static void take_both(world *w) {
    blkif_request_t copy;
    uint32_t number = w->back[0].req_cons;
    kh_request r = request_by(number);
    bool waits = number != w->sent;
    for (int i = 0; i < 2; i++) {
        int more;
        CHECK_EQ(RING_HAS_UNCONSUMED_REQUESTS(&w->back[i]) != 0, waits);
        if (waits) {
            RING_COPY_REQUEST(&w->back[i], w->back[i].req_cons++, &copy);
            check_request(&copy, &r);
        } else {
            RING_FINAL_CHECK_FOR_REQUESTS(&w->back[i], more);
            CHECK_EQ(more, 0);
        }
    }
    if (waits)
        w->numbers[w->unanswered++] = number;
}

/* Any of those that were taken: answers go out of order. */
static void answer_both(world *w, uint32_t draw) {
    uint32_t *number = &w->numbers[w->unanswered > 0 ? draw % w->unanswered : 0];
    bool notify;
    if (w->unanswered == 0)
        return;
    notify = answer_by(&w->back[0], *number);
    CHECK_EQ(answer_by(&w->back[1], *number), notify);
    *number = w->numbers[--w->unanswered];
}

static void attach(world *w, host *h, uint8_t *second) {
    blkif_sring_t *pages[] = {(blkif_sring_t *)(void *)h->at[PAGE], (blkif_sring_t *)(void *)second};
    memset(w, 0, sizeof *w);
    for (int i = 0; i < 2; i++) {
        SHARED_RING_INIT(pages[i]);
        BACK_RING_INIT(&w->back[i], pages[i], KH_GUEST_PAGE_BYTES);
    }
    FRONT_RING_INIT(&w->front, pages[1], KH_GUEST_PAGE_BYTES);
}

/* In some stretches the ring fills, in some it is emptied. */
static void step_both(world *w, host *h, uint32_t stretch) {
    uint32_t draw = below(8 + stretch % 3 * 3);
    if (draw < 2)
        take_both(w);
    else if (draw < 4)
        answer_both(w, below(KH_PAGE_SLOTS));
    else if (draw < 6)
        collect_both(w, h);
    else
        send_both(w, h);
}

static void side_by_side_with_xen_macros(host *h) {
    static world w;
    uint8_t *second = lend(KH_GUEST_PAGE_BYTES);
    attach(&w, h, second);
    state = 3;
    for (uint32_t i = 0; i < STEPS && running.failures == 0; i++) {
        step_both(&w, h, i / 256);
        CHECK(memcmp(h->at[PAGE], second, KH_GUEST_PAGE_BYTES) == 0);
    }
    CHECK(w.sent > 100 * KH_PAGE_SLOTS && w.full > 0 && w.empty > 0 && w.notified[0] > 0 && w.notified[1] > 0);
    if (placement != BEFORE_GUARD)
        printf("     %u requests put, %u responses collected, %u wraps, notify %lu, no notify %lu\n", w.sent,
               w.collected, w.sent / KH_PAGE_SLOTS, w.notified[1], w.notified[0]);
    give_back(second, KH_GUEST_PAGE_BYTES);
}

/* ---- together with the library's backend */

typedef struct {
    uint32_t sent, taken, collected;
    uint32_t answered[KH_PAGE_SLOTS]; /* numbers, by the index of their responses */
    uint32_t of_tag[KH_TAGS];
    bool looking, heard; /* the host, and the guest, was notified since it last found nothing */
    bool never_secure;   /* the disk's discard-secure is 0 */
} pair;

/* A host lends a copy, so the page goes there and back. */
static void lend_page(const host *h) {
    memcpy(ring(h, 0), h->at[PAGE], KH_GUEST_PAGE_BYTES);
}

static void hand_back(const host *h) {
    memcpy(h->at[PAGE], ring(h, 0), KH_GUEST_PAGE_BYTES);
}

static uint32_t result_of(const host *h, uint32_t tag, uint32_t number) {
    static const int32_t faults[] = {0, -5, KH_RESULT_NOT_SUPPORTED};
    int32_t expected = (int32_t)h->books[0].tags[tag].expected;
    return (uint32_t)(number % 3 == 0 ? expected : faults[number % 3]);
}

/* The response of request `number` is the next one. */
static void note_answer(pair *p, const host *h, uint32_t number, bool notify) {
    p->answered[(h->books[0].answered - 1) % KH_PAGE_SLOTS] = number;
    p->heard |= notify;
}

static void send_one(pair *p, host *h) {
    bool is_full = p->sent - p->collected == KH_PAGE_SLOTS;
    CHECK_EQ(PUT_REQUEST(h, request_by(p->sent)), is_full ? KH_RING_FULL : KH_OK);
    if (is_full)
        return;
    p->looking |= words(h, PUT_ANSWER)[KH_PUT_NOTIFY] != 0;
    p->sent++;
}

/* Every request may start: the disk has all features, and room for each. */
static void turn_once(pair *p, host *h) {
    kh_turned turned;
    kh_request r = request_by(p->taken);
    lend_page(h);
    CHECK_EQ(TURN(h), KH_OK);
    hand_back(h);
    turned = kh_read_turn(words(h, TURNED));
    CHECK_EQ(turned.kind, p->taken == p->sent ? KH_IDLE : KH_STARTED);
    p->looking = turned.kind != KH_IDLE;
    if (turned.kind != KH_STARTED)
        return;
    CHECK_EQ(turned.plan.operation, r.operation);
    CHECK_EQ(turned.plan.start, r.start);
    CHECK_EQ(turned.plan.secure, r.operation == KH_DISCARD && r.flag == 1 && !p->never_secure);
    CHECK_EQ(h->books[0].tags[turned.plan.tag].id, r.id);
    p->of_tag[turned.plan.tag] = p->taken++;
}

static void complete_one(pair *p, host *h, uint32_t tag) {
    const book *b = &h->books[0];
    if (b->busy == 0)
        return;
    while ((b->busy >> tag % KH_TAGS & 1) == 0)
        tag++;
    tag %= KH_TAGS;
    lend_page(h);
    CHECK_EQ(COMPLETE(h, 0, tag, b->tags[tag].serial, (int32_t)result_of(h, tag, p->of_tag[tag])), KH_OK);
    hand_back(h);
    note_answer(p, h, p->of_tag[tag], words(h, COMPLETED)[KH_DONE_NOTIFY] != 0);
}

/* Completes busy tags from `tag` on in one call, so many at most: the guest collects them in that order. */
static void complete_some(pair *p, host *h, uint32_t tag, size_t most) {
    list l = {.count = 0};
    uint32_t first = h->books[0].answered;
    for (uint32_t i = 0; i < KH_TAGS && l.count < most; i++, tag++)
        if (is_busy(&h->books[0], tag)) {
            uint32_t at = tag % KH_TAGS, number = p->of_tag[at];
            p->answered[(first + l.count) % KH_PAGE_SLOTS] = number;
            add_entry(&l, at, h->books[0].tags[at].serial, (int32_t)result_of(h, at, number));
        }
    lend_page(h);
    CHECK_EQ(COMPLETE_LIST(h, 0, &l), KH_OK);
    hand_back(h);
    p->heard |= words(h, LISTED)[KH_MANY_NOTIFY] != 0;
}

static void collect_one(pair *p, host *h) {
    kh_collected collected;
    uint32_t number = p->answered[p->collected % KH_PAGE_SLOTS];
    CHECK_EQ(COLLECT(h), KH_OK);
    collected = kh_read_collected(words(h, COLLECT_ANSWER));
    p->heard = collected.found;
    CHECK_EQ(collected.found, p->collected != h->books[0].answered);
    if (!collected.found)
        return;
    CHECK_EQ(collected.id, request_by(number).id);
    CHECK_EQ(collected.operation, request_by(number).operation);
    CHECK_EQ(collected.status, status_of(number));
    p->collected++;
}

static void step_pair(pair *p, host *h, uint32_t stretch) {
    uint32_t draw = below(8 + stretch % 3 * 3);
    if (draw < 2 && p->looking)
        turn_once(p, h);
    else if (draw < 3)
        complete_one(p, h, below(KH_TAGS));
    else if (draw < 4)
        complete_some(p, h, draw * stretch, stretch % 16);
    else if (draw < 6 && p->heard)
        collect_one(p, h);
    else if (draw >= 6)
        send_one(p, h);
}

static bool is_quiet(const pair *p, const host *h) {
    return !p->looking && !p->heard && h->books[0].busy == 0;
}

/* What both have still to do, until neither is notified of anything: nothing may be left then. */
static void finish_pair(pair *p, host *h) {
    for (int i = 0; i < 1000 && !is_quiet(p, h) && running.failures == 0; i++) {
        if (p->looking)
            turn_once(p, h);
        complete_one(p, h, 0);
        if (p->heard)
            collect_one(p, h);
    }
    CHECK_EQ(p->taken, p->sent);
    CHECK_EQ(p->collected, p->sent);
}

static void together_with_the_backend(host *h) {
    pair p = {.looking = true, .heard = true};
    BEGIN(h, ALL_FEATURES);
    state = 4;
    for (uint32_t i = 0; i < STEPS && running.failures == 0; i++)
        step_pair(&p, h, i / 256);
    finish_pair(&p, h);
    CHECK(p.sent > 50 * KH_PAGE_SLOTS);
    CHECK_EQ(CLOSE(h, 0), KH_OK);
    if (placement != BEFORE_GUARD)
        printf("     %u requests put, taken, answered and collected, %u wraps\n", p.sent, p.sent / KH_PAGE_SLOTS);
}

/* Requests one by one, from a page of zeros: put, taken, answered, collected. */
static void one_by_one(host *h, bool never_secure) {
    pair p = {.looking = true, .heard = true, .never_secure = never_secure};
    turn_once(&p, h);
    collect_one(&p, h);
    for (uint32_t i = 0; i < 10 * KH_PAGE_SLOTS && running.failures == 0; i++) {
        send_one(&p, h);
        CHECK(p.looking);
        turn_once(&p, h);
        turn_once(&p, h);
        complete_one(&p, h, 0);
        CHECK(p.heard);
        collect_one(&p, h);
        collect_one(&p, h);
        CHECK(is_quiet(&p, h) && p.collected == i + 1);
    }
}

static void one_request_at_a_time(host *h) {
    BEGIN(h, ALL_FEATURES);
    one_by_one(h, false);
}

/* The guest can't tell: its secure discards are answered as on any other disk. */
static void secure_flag_ignored(host *h) {
    BEGIN(h, "1:w 2:1 3:1 4:1 5:0 6:512 7:2008");
    one_by_one(h, true);
}

/* Whole rings at a time, completed one by one or in one list. */
static void full_rings(host *h) {
    pair p = {.looking = true, .heard = true};
    BEGIN(h, ALL_FEATURES);
    for (uint32_t round = 0; round < 40 && running.failures == 0; round++) {
        for (unsigned i = 0; i <= KH_PAGE_SLOTS; i++)
            send_one(&p, h);
        for (unsigned i = 0; i <= KH_PAGE_SLOTS; i++)
            turn_once(&p, h);
        for (unsigned i = 0; round % 2 == 0 && i < KH_PAGE_SLOTS; i++)
            complete_one(&p, h, 7 * i + round);
        if (round % 2 != 0)
            complete_some(&p, h, 7 * round, KH_ENTRIES);
        CHECK(p.heard);
        for (unsigned i = 0; i <= KH_PAGE_SLOTS; i++)
            collect_one(&p, h);
        CHECK_EQ(p.collected, KH_PAGE_SLOTS * (round + 1));
    }
}

int main(void) {
    static const test tests[] = {
        TEST(side_by_side_with_xen_macros), TEST(one_request_at_a_time), TEST(secure_flag_ignored), TEST(full_rings),
        TEST(together_with_the_backend),
    };
    return run_tests(tests, COUNT_OF(tests));
}
