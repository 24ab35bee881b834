#include "guests.h"

#include <string.h>

#include "place.h"

/* Where a call finds the guest: its page, how many requests it has put and collected, and how many more put. */
struct stand {
    unsigned port, rounds, outstanding;
};

static const struct stand stands[] = {{2, 5, 3}, {0, 0, 0}, {7, 31, 31}, {3, 32, 1}, {5, 63, 30}, {6, 40, 16}};

enum { STANDS = sizeof stands / sizeof *stands };

static const struct taker *taker;
static const uint64_t first_id = 0x1122334455667788;

static uint8_t *page(void) {
    return rings + SHARE_BYTES * bench.front.port;
}

/* A request's words: whole frames, and the last of them given by its number of segments. */
static void ask(uint64_t operation, uint64_t id, uint64_t n) {
    static const kh_segment whole = {9, 0, 7};
    kh_request request = {(uint32_t)operation, id, 8, (uint32_t)n, 1, 8, {{0, 0, 0}}};
    for (unsigned i = 0; i < KH_SEGMENTS; i++)
        request.segments[i] = whole;
    kh_write_request(&request, bench.request);
}

/* ---- calls that are not looked at, on the way to a stand */

static uint64_t operation_of(uint32_t index) {
    static const uint64_t operations[] = {KH_READ, KH_FLUSH, KH_DISCARD, KH_BARRIER, KH_WRITE};
    return operations[index % 5];
}

static void put_next(void) {
    uint32_t index = bench.front.req_prod++;
    uint64_t notify[KH_PUT_WORDS];
    ask(operation_of(index), first_id + index, operation_of(index) == KH_FLUSH ? 0 : 1);
    if (kh_guest_put(&bench.guest, page(), PAGE_BYTES, bench.request, notify) != KH_OK)
        fail("request %u of the guest was not put", index);
}

/* The next response is for that request, and rsp_prod says so. */
static void respond(uint32_t index, uint64_t status) {
    unsigned at = slot_at(bench.front.port, bench.front.rsp_cons);
    store64(rings + at, first_id + index);
    rings[at + 8] = (uint8_t)operation_of(index);
    rings[at + 10] = (uint8_t)status;
    rings[at + 11] = (uint8_t)(status >> 8);
    store32(page() + RSP_PROD, bench.front.rsp_cons + 1);
}

static void collect_next(void) {
    uint64_t answer[KH_COLLECT_WORDS];
    respond(bench.front.rsp_cons, 0);
    if (kh_guest_collect(&bench.guest, page(), PAGE_BYTES, answer) != KH_OK || answer[KH_COLLECT_FOUND] != 1)
        fail("response %u of the guest was not collected", bench.front.rsp_cons);
    bench.front.rsp_cons++;
}

/* Rubbish is left in every byte of the page that no index or slot has need of. */
static void stand_at(const struct stand *stand) {
    memset(&bench.guest, 0, sizeof bench.guest);
    bench.front = (struct ledger){.port = stand->port};
    while (bench.front.rsp_cons < stand->rounds) {
        put_next();
        collect_next();
    }
    for (unsigned i = 0; i < stand->outstanding; i++)
        put_next();
    store32(page() + RSP_PROD, bench.front.rsp_cons);
}

/* ---- puttings */

static void put_with(const char *name, bool notify) {
    struct call call = {.callee = CALL_PUT, .rings_bytes = PAGE_BYTES, .port = bench.front.port};
    struct expect expect = {.kind = PUT, .port = bench.front.port, .notify = notify};
    store32(page() + REQ_EVENT, bench.front.req_prod + (notify ? 1 : 2));
    taker->hand_over(name, &call, &expect);
}

static const struct {
    const char *name;
    uint64_t operation, n, flag;
} asked[] = {
    {"put: read, 1 segment", KH_READ, 1, 0},
    {"put: read, 2 segments", KH_READ, 2, 0},
    {"put: read, 3 segments", KH_READ, 3, 0},
    {"put: read, 10 segments", KH_READ, 10, 0},
    {"put: read, 11 segments", KH_READ, 11, 0},
    {"put: write, 1 segment", KH_WRITE, 1, 0},
    {"put: write, 8 segments", KH_WRITE, 8, 0},
    {"put: barrier, no segment", KH_BARRIER, 0, 0},
    {"put: barrier, 4 segments", KH_BARRIER, 4, 0},
    {"put: flush", KH_FLUSH, 0, 0},
    {"put: discard", KH_DISCARD, 0, 0},
    {"put: secure discard", KH_DISCARD, 0, 1},
};

static void puttings(void) {
    static const char *const everywhere = "put: every slot, any number outstanding";
    for (unsigned a = 0; a < sizeof asked / sizeof *asked; a++)
        for (unsigned i = 0; i < 2 * STANDS && taker->is_wanted(asked[a].name); i++) {
            stand_at(&stands[i / 2]);
            ask(asked[a].operation, 1, asked[a].n);
            bench.request[KH_REQUEST_FLAG] = asked[a].flag;
            put_with(asked[a].name, i % 2);
        }
    for (unsigned i = 0; i < 4 * PAGE_SLOTS && taker->is_wanted(everywhere); i++) {
        struct stand stand = {i % PORTS, i / 2, i / 4};
        stand_at(&stand);
        ask(KH_READ, 1, 1 + i % KH_SEGMENTS);
        put_with(everywhere, i % 2);
    }
}

static void refuse(const char *name, enum callee callee, size_t page_bytes, uint32_t number) {
    struct call call = {.callee = callee, .rings_bytes = page_bytes, .port = bench.front.port};
    struct expect expect = {.kind = callee == CALL_PUT ? PUT : COLLECTED, .port = bench.front.port, .refusal = number};
    taker->hand_over(name, &call, &expect);
}

static void refuse_lengths(const char *name, enum callee callee) {
    static const size_t wrong[] = {0, PAGE_BYTES - 1, PAGE_BYTES + 1, SHARE_BYTES, KH_RINGS_BYTES, SIZE_MAX};
    for (unsigned i = 0; i < sizeof wrong / sizeof *wrong && taker->is_wanted(name); i++) {
        stand_at(&stands[i]);
        ask(KH_READ, 1, 1);
        refuse(name, callee, wrong[i], KH_WRONG_LENGTH);
    }
}

/* Words of one request after the other, each with one that is refused with 33. */
static void puttings_refused_33(void) {
    static const struct {
        const char *name;
        uint64_t operation, n;
        unsigned word;
        uint64_t value;
    } lines[] = {
        {"put refused 33: operation", KH_READ, 1, KH_REQUEST_OPERATION, 4},
        {"put refused 33: operation above 255", KH_READ, 1, KH_REQUEST_OPERATION, 256},
        {"put refused 33: read, no segment", KH_READ, 0, 6, 0},
        {"put refused 33: barrier, 12 segments", KH_BARRIER, 12, 6, 0},
        {"put refused 33: flush, 1 segment", KH_FLUSH, 1, 6, 0},
        {"put refused 33: discard, no sectors", KH_DISCARD, 0, KH_REQUEST_SECTORS, 0},
        {"put refused 33: first above last", KH_READ, 11, KH_REQUEST_WORDS - 1, 2},
        {"put refused 33: last above 7", KH_WRITE, 1, KH_REQUEST_SEGMENTS + KH_SEGMENT_LAST, 8},
        {"put refused 33: frame", KH_WRITE, 4, KH_REQUEST_SEGMENTS + 3 * KH_SEGMENT_WORDS, UINT64_C(1) << 32},
    };
    for (unsigned i = 0; i < sizeof lines / sizeof *lines; i++) {
        stand_at(&stands[i % 2]);
        ask(lines[i].operation, 1, lines[i].n);
        bench.request[KH_REQUEST_WORDS - 2] = lines[i].word == KH_REQUEST_WORDS - 1 ? 3 : 0;
        bench.request[lines[i].word] = lines[i].value;
        refuse(lines[i].name, CALL_PUT, PAGE_BYTES, KH_BAD_REQUEST);
    }
}

static void puttings_refused(void) {
    static const struct stand full = {4, 33, PAGE_SLOTS};
    static const char *const again = "put refused 32";
    refuse_lengths("put refused 1", CALL_PUT);
    stand_at(&full);
    ask(KH_READ, 1, 1);
    refuse("put refused 31", CALL_PUT, PAGE_BYTES, KH_RING_FULL);
    /* From the last on, so that the few that are sampled look at every id before theirs. */
    for (unsigned i = 31; i > 0 && taker->is_wanted(again); i--) {
        stand_at(&stands[2]);
        ask(KH_WRITE, first_id + bench.front.rsp_cons + i - 1, 1);
        refuse(again, CALL_PUT, PAGE_BYTES, KH_ID_OUTSTANDING);
    }
    puttings_refused_33();
}

/* ---- collectings */

static void collect_with(const char *name, enum kind kind) {
    struct call call = {.callee = CALL_COLLECT, .rings_bytes = PAGE_BYTES, .port = bench.front.port};
    struct expect expect = {.kind = kind, .port = bench.front.port};
    taker->hand_over(name, &call, &expect);
}

/* A response to each of the outstanding requests, in whatever place the guest has noted it. */
static void collect_each(const char *name, const struct stand *stand) {
    static const uint64_t statuses[] = {0, 0xFFFF, 0xFFFE, 0x8000, 1};
    for (unsigned i = 0; i < stand->outstanding && taker->is_wanted(name); i++) {
        stand_at(stand);
        respond(bench.front.rsp_cons + i, statuses[i % 5]);
        store32(page() + RSP_PROD, bench.front.rsp_cons + 1 + i);
        collect_with(name, COLLECTED);
    }
}

static void collectings(void) {
    static const struct stand full = {1, 45, PAGE_SLOTS};
    static const char *const nothing = "nothing to collect";
    for (unsigned s = 0; s < STANDS; s++)
        collect_each("collected: one of some", &stands[s]);
    collect_each("collected: one of a full ring", &full);
    for (unsigned s = 0; s < STANDS && taker->is_wanted(nothing); s++) {
        stand_at(&stands[s]);
        collect_with(nothing, NOTHING);
    }
}

/* A response that is right but for a bit of that byte. */
static void refuse_response(const char *name, unsigned byte) {
    for (unsigned s = 0; s < STANDS && taker->is_wanted(name); s++) {
        if (stands[s].outstanding == 0)
            continue;
        stand_at(&stands[s]);
        respond(bench.front.rsp_cons, 0);
        rings[slot_at(bench.front.port, bench.front.rsp_cons) + byte] ^= 0x40;
        refuse(name, CALL_COLLECT, PAGE_BYTES, KH_NOT_OUTSTANDING);
    }
}

/* One more than are outstanding, and further; one behind. */
static void refuse_rsp_prod(const char *name, const uint32_t *beyond, unsigned count) {
    for (unsigned i = 0; i < STANDS * count && taker->is_wanted(name); i++) {
        stand_at(&stands[i / count]);
        store32(page() + RSP_PROD, bench.front.req_prod + beyond[i % count]);
        refuse(name, CALL_COLLECT, PAGE_BYTES, KH_BAD_RSP_PROD);
    }
}

static void collectings_refused(void) {
    static const uint32_t ahead[] = {1, 2, PAGE_SLOTS + 1, UINT32_C(1) << 31}, behind[] = {UINT32_MAX - PAGE_SLOTS};
    refuse_lengths("collecting refused 1", CALL_COLLECT);
    refuse_rsp_prod("collecting refused 34: ahead", ahead, sizeof ahead / sizeof *ahead);
    refuse_rsp_prod("collecting refused 34: behind", behind, 1);
    refuse_response("collecting refused 35: id", 0);
    refuse_response("collecting refused 35: operation", 8);
}

void each_guest_call(const struct taker *to) {
    taker = to;
    puttings();
    puttings_refused();
    collectings();
    collectings_refused();
}
