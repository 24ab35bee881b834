#include "changes.h"

#include <string.h>

#include "requests.h"

static void move_index(const char *name, unsigned port, unsigned field, uint32_t value, changer *with) {
    uint8_t bytes[INDEX_BYTES];
    store32(bytes, value);
    struct change change = {name, header_at(port, field), sizeof bytes, true, bytes};
    with(&change);
}

/* Of the port that is looked at most: nothing to serve, one or two requests, as many as may be, one too many, and one
   behind. Of the others: one request or too many, whether anybody may look there or not. */
static void move_req_prod(unsigned port, changer *with) {
    for (unsigned k = 0; k < PORTS; k++) {
        uint32_t distances[] = {1, slots_of(k) + 1, 0, 2, slots_of(k), UINT32_MAX};
        for (unsigned i = 0; i < (k == port ? 6 : 2); i++)
            move_index("req_prod", k, REQ_PROD, bench.ports[k].taken + distances[i], with);
    }
}

/* rsp_event: before the responses that the call gives, among them and behind them. */
static void move_others(unsigned port, unsigned responses, changer *with) {
    uint32_t answered = bench.ports[port].answered;
    for (uint32_t step = 0; step < 3; step++)
        move_index("rsp_event", port, RSP_EVENT, answered + step, with);
    for (uint32_t step = responses; step < responses + 2 && responses > 1; step++)
        move_index("rsp_event", port, RSP_EVENT, answered + step, with);
    move_index("rsp_prod", port, RSP_PROD, answered + 7, with);
    move_index("req_event", port, REQ_EVENT, answered + 7, with);
}

/* Every fifth request of the list in the place of the one that is there, with another id; the next scenario begins at
 * the next request. */
static void replace_slot(unsigned port, changer *with) {
    enum { STEP = 5 };
    static unsigned first;
    uint32_t index = bench.ports[port].taken;
    unsigned at = slot_at(port, index);
    const struct layout *layout = layout_of(port);
    uint8_t bytes[MOST_SLOT_BYTES];
    first = (first + 1) % STEP;
    for (unsigned i = first; i < request_count; i += STEP) {
        memcpy(bytes, rings + at, layout->slot_bytes);
        write_request(bytes, layout, index + 1, &requests[i]);
        struct change change = {"slot", at, layout->slot_bytes, false, bytes};
        with(&change);
    }
}

/* Another flag of a discard, or number of segments: with bit 0 changed, with another bit, with all. */
static void change_byte_1(unsigned port, changer *with) {
    static const uint8_t bits[] = {1, 2, 255};
    unsigned at = slot_at(port, bench.ports[port].taken) + 1;
    for (unsigned i = 0; i < sizeof bits; i++) {
        uint8_t byte = rings[at] ^ bits[i];
        struct change change = {"byte 1", at, 1, false, &byte};
        with(&change);
    }
}

/* Another part of its frame for a segment, at both ends of the request and between: on the boundaries of every disk, of
   some, of none, and no part at all. */
static void move_segments(unsigned port, changer *with) {
    static const struct span parts[] = {{0, 7}, {4, 7}, {2, 3}, {1, 2}, {3, 2}};
    unsigned at = slot_at(port, bench.ports[port].taken);
    unsigned n = rings[at + 1] < KH_SEGMENTS ? rings[at + 1] : KH_SEGMENTS;
    unsigned step = n > 2 ? (n - 1) / 2 : 1;
    for (unsigned place = 0; place < n; place += step)
        for (unsigned i = 0; i < sizeof parts / sizeof *parts; i++) {
            uint8_t bytes[] = {parts[i].first, parts[i].last};
            struct change change = {"segment", at + layout_of(port)->segments + 8 * place + 4, sizeof bytes, false,
                                    bytes};
            with(&change);
        }
}

static void flip(const char *name, unsigned at, unsigned size, changer *with) {
    static uint8_t bytes[KH_RINGS_BYTES];
    for (unsigned i = 0; i < size; i++)
        bytes[i] = rings[at + i] ^ 0xFF;
    struct change change = {name, at, size, false, bytes};
    with(&change);
}

/* A response with another id, operation and status, in the place of the one that is there. */
static void replace_response(unsigned at, changer *with) {
    uint8_t bytes[KH_RESPONSE_BYTES];
    for (unsigned fields = 1; fields < 8; fields++) {
        memcpy(bytes, rings + at, sizeof bytes);
        bytes[0] ^= fields & 1 ? 1 : 0;
        bytes[8] ^= fields & 2 ? 1 : 0;
        bytes[10] ^= fields & 4 ? 0xFF : 0;
        struct change change = {"response", at, sizeof bytes, false, bytes};
        with(&change);
    }
}

/* Nothing to collect, one, as many as may be, one too many, one behind; and each index that is the guest's own. */
static void each_guest_change(const struct ledger *front, changer *with) {
    uint32_t outstanding = front->req_prod - front->rsp_cons;
    uint32_t distances[] = {0, 1, outstanding, outstanding + 1, UINT32_MAX};
    for (unsigned i = 0; i < sizeof distances / sizeof *distances; i++)
        move_index("rsp_prod", front->port, RSP_PROD, front->rsp_cons + distances[i], with);
    for (uint32_t step = 0; step < 3; step++)
        move_index("req_event", front->port, REQ_EVENT, front->req_prod + step, with);
    move_index("req_prod", front->port, REQ_PROD, front->req_prod + 7, with);
    move_index("rsp_event", front->port, RSP_EVENT, front->rsp_cons + 7, with);
    replace_response(slot_at(front->port, front->rsp_cons), with);
    flip("slot flipped", slot_at(front->port, front->req_prod), MOST_SLOT_BYTES, with);
    flip("page flipped", SHARE_BYTES * front->port, PAGE_BYTES, with);
}

void each_change(const struct scenario *scenario, changer *with) {
    unsigned port = scenario->expect.port;
    if (scenario->expect.kind >= PUT) {
        each_guest_change(&bench.front, with);
        return;
    }
    move_req_prod(port, with);
    move_others(port, scenario->expect.entries, with);
    if (scenario->expect.kind == STARTED || scenario->expect.kind == ANSWERED) {
        replace_slot(port, with);
        change_byte_1(port, with);
        move_segments(port, with);
    }
    flip("slot flipped", slot_at(port, bench.ports[port].taken), layout_of(port)->slot_bytes, with);
    flip("ring flipped", SHARE_BYTES * port, PAGE_BYTES * bench.ports[port].pages, with);
    flip("second half flipped", SHARE_BYTES * port + PAGE_BYTES, PAGE_BYTES, with);
    flip("all rings flipped", 0, KH_RINGS_BYTES, with);
}
