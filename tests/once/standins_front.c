/* The guest's half by stand-ins: each call is made on a copy of what was looked at. */
#include <string.h>

#include "standins.h"

/* The copy's page of the guest, and what `live` counts places from. */
static uint8_t *begin(uint8_t *page) {
    live = page - SHARE_BYTES * bench.front.port;
    return copy + SHARE_BYTES * bench.front.port;
}

/* ---- putting */

static void take_req_event(unsigned port) {
    take32(header_at(port, REQ_EVENT));
    if (fault == REQ_EVENT_TWICE)
        take32(header_at(port, REQ_EVENT));
}

static void give_request(unsigned port) {
    unsigned at = slot_at(port, bench.front.req_prod);
    uint32_t next = load32(copy + header_at(port, REQ_PROD));
    if (fault == PUT_BY_THE_PAGE) {
        take32(header_at(port, REQ_PROD));
        store32(copy + header_at(port, REQ_PROD), next);
    }
    if (fault == REQ_PROD_FIRST)
        give32(header_at(port, REQ_PROD));
    for (unsigned i = 0; i < MOST_SLOT_BYTES; i += 4)
        give32(at + i);
    if (fault == PUT_TWICE)
        give32(at + 24);
    if (fault == PUT_TOO_FAR)
        give_byte(at + MOST_SLOT_BYTES);
    if (fault != REQ_PROD_FIRST)
        give32(header_at(port, REQ_PROD));
}

/* No refusal depends on the page's bytes, so a call on the copy shows whether there is one. */
uint32_t standin_put(kh_guest *guest, uint8_t *page, size_t page_bytes, const uint64_t *request, uint64_t *answer) {
    uint8_t *lent = begin(page);
    kh_guest trial = *guest;
    uint32_t refusal = kh_guest_put(&trial, lent, page_bytes, request, answer);
    if (refusal != KH_OK) {
        if (fault == REQ_EVENT_WHERE_REFUSED)
            take_req_event(bench.front.port);
        return refusal;
    }
    *guest = trial;
    if (fault == REQ_EVENT_FIRST)
        take_req_event(bench.front.port);
    give_request(bench.front.port);
    if (fault != REQ_EVENT_FIRST)
        take_req_event(bench.front.port);
    answer[KH_PUT_NOTIFY] = load32(lent + REQ_EVENT) == load32(lent + REQ_PROD);
    return KH_OK;
}

/* ---- collecting */

static void take_rsp_prod(unsigned port) {
    unsigned at = header_at(port, RSP_PROD);
    if (fault == RSP_PROD_BY_BYTES) {
        for (unsigned i = 0; i < INDEX_BYTES; i++)
            take_byte(at + i);
        return;
    }
    take32(at);
    if (fault == RSP_PROD_TWICE)
        take32(at);
}

/* Whether there is a response, in a page that makes sense. */
static bool waits(unsigned port) {
    const struct ledger *front = &bench.front;
    uint32_t distance = load32(copy + header_at(port, RSP_PROD)) - front->rsp_cons;
    return 0 < distance && distance <= front->req_prod - front->rsp_cons;
}

static void take_response(unsigned port) {
    unsigned at = slot_at(port, bench.front.rsp_cons);
    take_words(at, KH_RESPONSE_BYTES);
    if (fault == RESPONSE_TWICE)
        take32(at + 8);
    if (fault == RESPONSE_TOO_FAR)
        take_byte(at + KH_RESPONSE_BYTES);
}

/* Found by one look at the response, given by another. */
static void look_again(unsigned port, uint64_t *answer) {
    unsigned at = slot_at(port, bench.front.rsp_cons);
    take_words(at, KH_RESPONSE_BYTES);
    memcpy(&answer[KH_COLLECT_ID], copy + at, sizeof *answer);
    answer[KH_COLLECT_OPERATION] = copy[at + 8];
    answer[KH_COLLECT_STATUS] = load32(copy + at + 8) >> 16;
}

uint32_t standin_collect(kh_guest *guest, uint8_t *page, size_t page_bytes, uint64_t *answer) {
    uint8_t *lent = begin(page);
    unsigned port = bench.front.port;
    if (page_bytes != PAGE_BYTES)
        return kh_guest_collect(guest, lent, page_bytes, answer);
    if (fault == RESPONSE_FIRST)
        take_response(port);
    take_rsp_prod(port);
    if (fault != RESPONSE_FIRST && (waits(port) || fault == RESPONSE_ALWAYS))
        take_response(port);
    uint32_t refusal = kh_guest_collect(guest, lent, page_bytes, answer);
    if (refusal != KH_OK)
        return refusal;
    if (answer[KH_COLLECT_FOUND] == 0 || fault == ARMED_ON_COLLECTING)
        give32(header_at(port, RSP_EVENT));
    if (answer[KH_COLLECT_FOUND] == 1 && fault == RESPONSE_SECOND_LOOK)
        look_again(port, answer);
    return KH_OK;
}
