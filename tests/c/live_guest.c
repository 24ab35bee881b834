/*
 * The listings of docs/GUEST.md, run: over a live page the guest leaves what one leaves that is lent the page itself,
 * and answers alike, with a backend on the other side and with one that writes anything. One thread, in which the other
 * side takes its steps at the listing's fences; every order of two threads is for host/tests/wakeup_guest.rs.
 */
#include "fences.h"

#include "image.c" /* the listings */

enum { STEPS = 200000, IDS = 40 };

struct side {
    kh_memory memory;
    uint32_t rings[WORD(KH_RINGS_BYTES)]; /* port 0 has the guest's page */
};

static struct side live, lent;
static struct front front;
static kh_guest guest; /* of the lent page */
static uint8_t grants[KH_GRANTS_BYTES];
static kh_turned plans[KH_TAGS];
static bool held[KH_TAGS];
static unsigned long put[64], collected[64], notified, started, slept;

static uint64_t state = UINT64_C(0x6B65726E656C6861);

static uint32_t below(uint32_t bound) {
    state = state * UINT64_C(6364136223846793005) + UINT64_C(1442695040888963407);
    return (uint32_t)(state >> 33) % bound;
}

static void must(const char *what, bool holds) {
    if (!holds) {
        printf("tests/c/live_guest.c: %s\n", what);
        exit(1);
    }
}

static void same(const char *what, bool holds) {
    must(what, holds && memcmp(live.rings, lent.rings, sizeof live.rings) == 0);
}

/* ---- the guests */

static void any_request(uint64_t *request) {
    static const uint64_t operations[] = {KH_READ, KH_WRITE, KH_BARRIER, KH_FLUSH, KH_DISCARD, 4, 6, 256};
    for (size_t i = 0; i < KH_REQUEST_WORDS; i++)
        request[i] = below(8);
    request[KH_REQUEST_OPERATION] = operations[below(below(8) == 0 ? 8 : 5)];
    request[KH_REQUEST_ID] = below(IDS);
    request[KH_REQUEST_START] = below(2100);
    request[KH_REQUEST_SEGMENT_COUNT] = request[KH_REQUEST_OPERATION] == KH_FLUSH ? 0 : below(13);
    for (size_t i = 0; i < KH_SEGMENTS && below(30) != 0; i++) {
        uint64_t *segment = request + KH_REQUEST_SEGMENTS + KH_SEGMENT_WORDS * i;
        segment[KH_SEGMENT_FRAME] = below(KH_PORT_GRANTS);
        segment[KH_SEGMENT_LAST] = segment[KH_SEGMENT_FIRST] + below(8 - (uint32_t)segment[KH_SEGMENT_FIRST]);
    }
}

static void put_both(void) {
    uint64_t request[KH_REQUEST_WORDS], answer[KH_PUT_WORDS] = {0};
    bool notify = false;
    any_request(request);
    uint32_t here = front_put(&front, request, &notify);
    uint32_t there = kh_guest_put(&guest, (uint8_t *)lent.rings, KH_GUEST_PAGE_BYTES, request, answer);
    same("put", here == there && notify == (answer[KH_PUT_NOTIFY] != 0));
    put[here]++;
    notified += notify;
}

static void collect_both(void) {
    uint64_t here[KH_COLLECT_WORDS] = {0}, there[KH_COLLECT_WORDS] = {0};
    uint32_t refusal = front_collect(&front, here);
    uint32_t due = kh_guest_collect(&guest, (uint8_t *)lent.rings, KH_GUEST_PAGE_BYTES, there);
    same("collect", refusal == due && memcmp(here, there, sizeof here) == 0);
    collected[refusal == KH_OK ? here[KH_COLLECT_FOUND] : refusal]++;
}

/* ---- a backend to each */

static kh_turned turn(struct side *side) {
    uint64_t answer[KH_TURN_WORDS];
    must("turn",
         kh_turn(&side->memory, (uint8_t *)side->rings, sizeof side->rings, grants, sizeof grants, answer) == KH_OK);
    return kh_read_turn(answer);
}

static uint32_t complete(struct side *side, const kh_plan *plan) {
    uint64_t answer[KH_DONE_WORDS];
    int32_t result = plan->operation == KH_DISCARD ? 0 : (int32_t)plan->count;
    return kh_complete(&side->memory, (uint8_t *)side->rings, sizeof side->rings, 0, plan->tag, plan->serial, result,
                       answer);
}

static void turn_both(void) {
    kh_turned here = turn(&live), there = turn(&lent);
    same("turn", here.kind == there.kind && here.kind != KH_OVERRUN);
    if (here.kind == KH_STARTED) {
        plans[here.plan.tag] = here;
        held[here.plan.tag] = true;
        started++;
    }
}

static void complete_both(uint32_t tag) {
    if (!held[tag])
        return;
    held[tag] = false;
    same("complete", complete(&live, &plans[tag].plan) == KH_OK && complete(&lent, &plans[tag].plan) == KH_OK);
}

/* ---- or one that writes anything */

static void scribble_both(void) {
    size_t at = below(3) == 0 ? WORD(KH_RSP_PROD) : below(PAGE_WORDS);
    uint32_t word = at == WORD(KH_RSP_PROD) ? front.rsp_cons + below(36) - 2 : below(UINT32_MAX);
    if (below(2) == 0) { /* what is due, if the id and the operation happen to be */
        at = slot_word(front.rsp_cons);
        live.rings[at] = lent.rings[at] = htole32(below(IDS));
        live.rings[at + 1] = lent.rings[at + 1] = 0;
        at += 2;
        word = below(6);
    }
    live.rings[at] = lent.rings[at] = htole32(word);
}

static void begin(void) {
    static const uint8_t sheet[] =
        "\x06\x01\0\x01\0\x02\0\x01\0\x03\0\x01\0\x04\0\x01\0\x06\0\x03\0\x07\0\x04\0w1115122008";
    memset(&lent, 0, sizeof lent);
    memset(&live, 0xA5, sizeof live);
    memset(&live.memory, 0, sizeof live.memory);
    memset(live.rings + PAGE_WORDS, 0, sizeof live.rings - KH_GUEST_PAGE_BYTES);
    memset(&guest, 0, sizeof guest);
    memset(held, 0, sizeof held);
    memset(grants, KH_GRANT_READ_WRITE, sizeof grants);
    must("front_init", front_init(&front, live.rings));
    same("page of zeros", kh_open(&live.memory, 0, sheet, sizeof sheet - 1) == KH_OK &&
                              kh_open(&lent.memory, 0, sheet, sizeof sheet - 1) == KH_OK);
}

/* ---- what the backend does in the middle of a call */

static kh_plan answered_late;

/* It finds no request, though it is in its slot, and its wish for an event is there when the request is published. */
static void asks_for_an_event(memory_order order) {
    size_t at = slot_word(front.req_prod);
    if (order == memory_order_release) {
        must("the request goes out first", memcmp(live.rings + at, front.page + at, KH_SLOT_BYTES) == 0);
        must("then req_prod", turn(&live).kind == KH_IDLE);
        live.rings[WORD(KH_REQ_EVENT)] = 0;
    } else {
        must("then a full fence", le32toh(live.rings[WORD(KH_REQ_PROD)]) == front.req_prod);
        live.rings[WORD(KH_REQ_EVENT)] = htole32(front.req_prod);
    }
}

/* It answers when the guest has asked for an event. */
static void answers_late(memory_order order) {
    if (order == memory_order_seq_cst)
        must("complete", complete(&live, &answered_late) == KH_OK);
}

/* It finishes a response whose index the guest has loaded. */
static void finishes_a_response(memory_order order) {
    size_t status = slot_word(front.rsp_cons) + WORD(8);
    if (order == memory_order_acquire)
        live.rings[status] = htole32(KH_DISCARD | UINT32_C(7) << 16);
}

static uint64_t collect_while(void (*step)(memory_order)) {
    uint64_t answer[KH_COLLECT_WORDS];
    at_fence = step;
    must("a second look finds it", front_collect(&front, answer) == KH_OK && answer[KH_COLLECT_FOUND]);
    at_fence = NULL;
    return answer[KH_COLLECT_STATUS];
}

static void between_the_steps(void) {
    static const uint64_t discard[KH_REQUEST_WORDS] = {[KH_REQUEST_OPERATION] = KH_DISCARD, [KH_REQUEST_SECTORS] = 1};
    begin();
    for (int i = 0; i < 100; i++) {
        bool notify = false;
        at_fence = asks_for_an_event;
        must("a second look sees that it asked", front_put(&front, discard, &notify) == KH_OK && notify);
        at_fence = NULL;
        answered_late = turn(&live).plan;
        if (i % 2 == 0) {
            must("a response as it is given", collect_while(answers_late) == KH_OKAY);
        } else {
            answers_late(memory_order_seq_cst);
            must("a response after its index", collect_while(finishes_a_response) == 7);
        }
    }
}

/* ---- the read that is waited for */

void notify_backend(void) {
    notified++;
}

void wait_for_event(void) {
    kh_turned turned = turn(&live);
    must("the guest slept over a response", ++slept < 100);
    if (turned.kind == KH_STARTED)
        must("complete", complete(&live, &turned.plan) == KH_OK);
}

static void read_frames(void) {
    begin();
    for (uint64_t id = 0; id < 100; id++) {
        slept = 0;
        must("a read within the disk", read_frame(&front, id % 2, 2000, 5) && slept == 1);
        slept = 0;
        must("a read behind its end", !read_frame(&front, id, 2001, 5) && slept == 1);
    }
    live.rings[WORD(KH_RSP_PROD)] = htole32(front.rsp_cons + 2);
    must("a backend that lies", !read_frame(&front, 0, 2000, 5));
}

int main(void) {
    begin();
    for (long i = 0; i < STEPS; i++) {
        uint32_t kind = below(100), putting = i / 2000 % 2 ? 30 : 60;
        if (kind < putting)
            put_both();
        else if (kind < putting + 15)
            collect_both();
        else if (kind % 2)
            turn_both();
        else
            complete_both(below(KH_TAGS));
    }
    must("a backend answers what was put", collected[KH_BAD_RSP_PROD] == 0 && collected[KH_NOT_OUTSTANDING] == 0);
    must("each case of a put", put[KH_OK] && put[KH_RING_FULL] && put[KH_ID_OUTSTANDING] && put[KH_BAD_REQUEST] &&
                                   notified > 0 && notified < put[KH_OK]);
    must("each case of a collect", collected[0] && collected[1] && started);
    begin();
    for (long i = 0; i < STEPS; i++)
        below(3) == 0 ? scribble_both() : below(2) ? put_both() : collect_both();
    must("each refusal of a collect", collected[KH_BAD_RSP_PROD] && collected[KH_NOT_OUTSTANDING]);
    between_the_steps();
    read_frames();
    printf("     %d steps: put %lu, full %lu, id taken %lu, bad %lu, collected %lu, nothing %lu, 34 %lu, 35 %lu\n",
           2 * STEPS, put[KH_OK], put[KH_RING_FULL], put[KH_ID_OUTSTANDING], put[KH_BAD_REQUEST], collected[1],
           collected[0], collected[KH_BAD_RSP_PROD], collected[KH_NOT_OUTSTANDING]);
    return 0;
}
