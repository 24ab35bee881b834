#include "rules.h"

#include <stdio.h>
#include <string.h>

#include "lists.h"

struct named {
    bool load[KH_RINGS_BYTES], store[KH_RINGS_BYTES];
};

static void name_bytes(bool *marks, unsigned at, unsigned bytes) {
    memset(marks + at, true, bytes);
}

static void name_slot(struct named *named, unsigned port) {
    name_bytes(named->load, slot_at(port, bench.ports[port].taken), layout_of(port)->slot_bytes);
}

/* So many responses; for none, no byte. */
static void name_responses(struct named *named, unsigned port, unsigned count) {
    if (count == 0)
        return;
    for (uint32_t i = 0; i < count; i++)
        name_bytes(named->store, slot_at(port, bench.ports[port].answered + i), layout_of(port)->response_bytes);
    name_bytes(named->store, header_at(port, RSP_PROD), INDEX_BYTES);
    name_bytes(named->load, header_at(port, RSP_EVENT), INDEX_BYTES);
}

/* The turn looks at the ports from the pointer on, and no further than the one it serves. */
static void name_look(struct named *named, const struct expect *expect) {
    for (unsigned i = 0; i < PORTS; i++) {
        unsigned k = (bench.pointer + i) % PORTS;
        if (bench.ports[k].state == OPEN)
            name_bytes(named->load, header_at(k, REQ_PROD), INDEX_BYTES);
        if (expect->kind != IDLE && k == expect->port)
            break;
    }
}

static void name_armed(struct named *named) {
    for (unsigned k = 0; k < PORTS; k++)
        if (bench.ports[k].state == OPEN)
            name_bytes(named->store, header_at(k, REQ_EVENT), INDEX_BYTES);
}

/* A put looks at req_event alone, and writes its whole slot. */
static void name_put(struct named *named) {
    const struct ledger *front = &bench.front;
    name_bytes(named->load, header_at(front->port, REQ_EVENT), INDEX_BYTES);
    name_bytes(named->store, slot_at(front->port, front->req_prod), MOST_SLOT_BYTES);
    name_bytes(named->store, header_at(front->port, REQ_PROD), INDEX_BYTES);
}

/* A collecting looks at a response where rsp_prod makes sense, and arms where there is none. */
static void name_collecting(struct named *named, const struct expect *expect) {
    const struct ledger *front = &bench.front;
    name_bytes(named->load, header_at(front->port, RSP_PROD), INDEX_BYTES);
    if (expect->refusal == KH_BAD_RSP_PROD)
        return;
    if (expect->kind == NOTHING)
        name_bytes(named->store, header_at(front->port, RSP_EVENT), INDEX_BYTES);
    else
        name_bytes(named->load, slot_at(front->port, front->rsp_cons), KH_RESPONSE_BYTES);
}

static void name_guest_call(struct named *named, const struct expect *expect) {
    if (expect->kind != PUT && expect->refusal != KH_WRONG_LENGTH)
        name_collecting(named, expect);
    if (expect->kind == PUT && expect->refusal == KH_OK)
        name_put(named);
}

/* By the books as they stand before the call. */
static void name_all(struct named *named, const struct expect *expect) {
    memset(named, 0, sizeof *named);
    if (expect->kind >= PUT) {
        name_guest_call(named, expect);
        return;
    }
    if (expect->refusal)
        return;
    if (expect->kind < COMPLETED)
        name_look(named, expect);
    if (expect->kind == IDLE)
        name_armed(named);
    if (expect->kind == STARTED || expect->kind == ANSWERED)
        name_slot(named, expect->port);
    if (expect->kind == ANSWERED || expect->kind == COMPLETED)
        name_responses(named, expect->port, 1);
    if (expect->kind == LISTED)
        name_responses(named, expect->port, expect->entries);
}

const char *place_name(unsigned at) {
    static const char *const header[] = {"req_prod", "req_event", "rsp_prod", "rsp_event"};
    static char name[64];
    unsigned port = at / SHARE_BYTES, in_ring = at % SHARE_BYTES, slot_bytes = layout_of(port)->slot_bytes;
    if (is_second_half(at))
        snprintf(name, sizeof name, "port %u, second half, byte %u", port, in_ring - PAGE_BYTES);
    else if (in_ring < 16)
        snprintf(name, sizeof name, "port %u, %s, byte %u", port, header[in_ring / 4], in_ring % 4);
    else if (in_ring >= FIRST_SLOT && in_ring < FIRST_SLOT + slots_of(port) * slot_bytes)
        snprintf(name, sizeof name, "port %u, slot %u, byte %u", port, (in_ring - FIRST_SLOT) / slot_bytes,
                 (in_ring - FIRST_SLOT) % slot_bytes);
    else
        snprintf(name, sizeof name, "port %u, ring byte %u", port, in_ring);
    return name;
}

static unsigned fault(const struct scenario *scenario, const struct access *access, unsigned at, const char *what) {
    fprintf(stderr, "%s: %s: %s: %s, by the instruction at %#lx (%u bytes)\n", scenario->shape->name, scenario->name,
            what, place_name(at), (unsigned long)access->instruction, access->size);
    return 1;
}

/* An index is stored whole and after what it publishes, and loaded before what it speaks of; whether to notify is asked
   when the call's own is out. */
static const char *out_of_order(const struct access *access, const struct named *named, const struct named *seen) {
    unsigned header = access->at / SHARE_BYTES * SHARE_BYTES;
    if (access->load && access->at == header + REQ_EVENT && !seen->store[header + REQ_PROD])
        return "loaded before req_prod is out";
    if (access->load && access->at == header + RSP_EVENT && named->load[access->at] && !seen->store[header + RSP_PROD])
        return "loaded before rsp_prod is out";
    if (access->store && access->at - header < FIRST_SLOT && access->size != INDEX_BYTES)
        return "stored in pieces";
    if (access->at - header < FIRST_SLOT)
        return NULL;
    if (access->store && (seen->store[header + REQ_PROD] || seen->store[header + RSP_PROD]))
        return "stored after its index";
    if (access->load && !seen->load[header + REQ_PROD] && !seen->load[header + RSP_PROD])
        return "loaded before its index";
    return NULL;
}

/* The first byte of an access that is at fault settles it. */
static unsigned judge_access(const struct scenario *scenario, const struct access *access, const struct named *named,
                             struct named *seen) {
    const char *order = out_of_order(access, named, seen);
    if (order)
        return fault(scenario, access, access->at, order);
    for (unsigned at = access->at; at < access->at + access->size; at++) {
        if (access->load && !named->load[at])
            return fault(scenario, access, at, "loaded but not named");
        if (access->load && seen->load[at])
            return fault(scenario, access, at, "loaded twice");
        if (access->store && !named->store[at])
            return fault(scenario, access, at, "stored but not named");
        if (access->store && seen->store[at])
            return fault(scenario, access, at, "stored twice");
        seen->load[at] |= access->load;
        seen->store[at] |= access->store;
    }
    return 0;
}

unsigned judge(const struct scenario *scenario, const struct trace *trace) {
    static struct named named, seen;
    unsigned faults = 0;
    name_all(&named, &scenario->expect);
    memset(&seen, 0, sizeof seen);
    for (unsigned i = 0; i < trace->count; i++)
        faults += judge_access(scenario, &trace->list[i], &named, &seen);
    return faults;
}

static bool is_completed(const struct expect *expect, const uint64_t *answer) {
    return answer[KH_DONE_PORT] == expect->port && answer[KH_DONE_STATUS] == expect->status &&
           answer[KH_DONE_NOTIFY] == expect->notify;
}

static bool is_listed(const struct expect *expect, const uint64_t *answer) {
    if (answer[KH_MANY_PORT] != expect->port || answer[KH_MANY_COUNT] != expect->entries ||
        answer[KH_MANY_NOTIFY] != expect->notify || answer[KH_MANY_NOTIFY + 1] != 0)
        return false;
    for (unsigned i = 0; i < KH_ENTRIES; i++)
        if (answer[KH_MANY_STATUSES + i] != (i < expect->entries ? status_in_list(i) : 0))
            return false;
    return true;
}

static bool is_guest_answer(const struct expect *expect, const uint64_t *answer) {
    if (expect->kind == PUT)
        return answer[KH_PUT_NOTIFY] == expect->notify;
    return answer[KH_COLLECT_FOUND] == (expect->kind == COLLECTED);
}

bool is_expected(const struct scenario *scenario, const struct outcome *outcome) {
    const struct expect *expect = &scenario->expect;
    const uint64_t *answer = outcome->answer;
    if (outcome->refusal != expect->refusal)
        return false;
    if (expect->refusal)
        return true;
    if (expect->kind >= PUT)
        return is_guest_answer(expect, answer);
    if (expect->kind == COMPLETED)
        return is_completed(expect, answer);
    if (expect->kind == LISTED)
        return is_listed(expect, answer);
    if (answer[KH_TURN_KIND] != expect->kind || answer[KH_TURN_PORT] != expect->port)
        return false;
    if (expect->kind == STARTED)
        return answer[KH_TURN_SECURE] == expect->secure;
    return expect->kind != ANSWERED ||
           (answer[KH_TURN_REASON] == expect->reason && answer[KH_TURN_STATUS] == expect->status &&
            answer[KH_TURN_NOTIFY] == expect->notify);
}
