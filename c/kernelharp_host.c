/*
 * kernelharp_host.h. The guests' pages are read and written by aligned volatile words alone; x86-64 has them in the
 * ring's order. The fences are xen_rmb, xen_wmb and xen_mb; with live pages the first two are the machine's own order
 * of loads and of stores.
 */
#include <kernelharp_host.h>

#include "trace.h"

#include <string.h>

#define WORD(at)   ((at) / sizeof(uint32_t))
#define PAGE_WORDS WORD(KH_PAGE_BYTES)

/* ---- a ring where its guest has it */

static bool is_served(const kh_host_ring *ring) {
    return ring->pages > 0 && !ring->broken && !ring->left_out;
}

static uint32_t slot_of(const kh_host_ring *ring, uint32_t index) {
    return index % kh_slots(ring->pages);
}

static size_t slot_word(const kh_host_ring *ring, uint32_t index) {
    return WORD(KH_HEADER_BYTES + kh_slot_bytes(ring->abi) * slot_of(ring, index));
}

/* The header is in the first page. */
static volatile uint32_t *live_word(const kh_host_ring *ring, size_t at) {
    return &ring->live[at / PAGE_WORDS][at % PAGE_WORDS];
}

/* So many bytes, word by word, to the same place of the other side. A slot may end in another page than it begins. */
static void copy_words_in(const kh_host_ring *ring, uint32_t *copy, size_t at, size_t bytes) {
    for (size_t end = at + WORD(bytes); at < end; at++)
        copy[at] = *live_word(ring, at);
}

static void copy_words_out(const kh_host_ring *ring, const uint32_t *copy, size_t at, size_t bytes) {
    for (size_t end = at + WORD(bytes); at < end; at++)
        *live_word(ring, at) = copy[at];
}

/* ---- private copies */

/*
 * A reference of 32 bits has no grant byte. So in the copy segment j of slot s names frame 11 s + j, which has one:
 * what the hook says of the reference. The reference goes into the plan, and the place is free when the request is
 * taken. Requests that have no segments, or a number that the checks refuse, stay as they are.
 */
static void translate(kh_host *host, uint32_t port, uint32_t index) {
    kh_host_ring *ring = &host->rings[port];
    uint32_t *slot = host->copies[port] + slot_word(ring, index);
    uint32_t *segment = slot + WORD(ring->abi == KH_BITS32 ? 20 : 24);
    uint32_t operation = slot[0] & 0xFF, segments = slot[0] >> 8 & 0xFF;
    uint32_t frame = KH_EXTENTS * slot_of(ring, index);
    if (operation > KH_BARRIER || segments > KH_SEGMENTS)
        return;
    for (; segments > 0; segments--, frame++, segment += 2) {
        ring->references[frame] = *segment;
        host->grants[KH_PORT_GRANTS * port + frame] = ring->granted(host->context, port, *segment);
        *segment = frame;
    }
}

static void copy_request_in(kh_host *host, uint32_t port, uint32_t index) {
    kh_host_ring *ring = &host->rings[port];
    copy_words_in(ring, host->copies[port], slot_word(ring, index), kh_slot_bytes(ring->abi));
    if (ring->granted != NULL)
        translate(host, port, index);
}

/* What a turn looks at. */
static void copy_in(kh_host *host, uint32_t port) {
    kh_host_ring *ring = &host->rings[port];
    uint32_t *copy = host->copies[port];
    uint32_t req_prod = *live_word(ring, WORD(KH_REQ_PROD));
    uint32_t waiting = req_prod - ring->req_cons, in_flight = ring->req_cons - ring->rsp_prod;
    __atomic_thread_fence(__ATOMIC_ACQUIRE);
    copy[WORD(KH_REQ_PROD)] = req_prod;
    if (waiting == 0 || waiting > kh_slots(ring->pages) - in_flight) {
        ring->copied = ring->req_cons; /* drawn back, or an overrun: should it wait again, it is copied anew */
    } else if (ring->copied == ring->req_cons) {
        copy_request_in(host, port, ring->req_cons); /* a turn takes no more than one */
        ring->copied++;
    }
    copy_words_in(ring, copy, WORD(KH_RSP_EVENT), sizeof(uint32_t));
}

static void copy_all_in(kh_host *host) {
    for (uint32_t port = 0; host->row == NULL && port < KH_PORTS; port++)
        if (is_served(&host->rings[port]))
            copy_in(host, port);
}

/* What a completion looks at. */
static void copy_rsp_event_in(kh_host *host, uint32_t port) {
    if (host->row == NULL && port < KH_PORTS && host->rings[port].pages > 0)
        copy_words_in(&host->rings[port], host->copies[port], WORD(KH_RSP_EVENT), sizeof(uint32_t));
}

/* The responses from R on, and one rsp_prod for all of them. */
static void copy_responses_out(kh_host *host, uint32_t port, uint32_t count) {
    const kh_host_ring *ring = &host->rings[port];
    const uint32_t *copy = host->copies[port];
    for (uint32_t i = 0; i < count; i++)
        copy_words_out(ring, copy, slot_word(ring, ring->rsp_prod + i), kh_response_bytes(ring->abi));
    __atomic_thread_fence(__ATOMIC_RELEASE);
    copy_words_out(ring, copy, WORD(KH_RSP_PROD), sizeof(uint32_t));
}

static void copy_req_events_out(kh_host *host) {
    for (uint32_t port = 0; host->row == NULL && port < KH_PORTS; port++)
        if (is_served(&host->rings[port]))
            copy_words_out(&host->rings[port], host->copies[port], WORD(KH_REQ_EVENT), sizeof(uint32_t));
}

/* ---- counters */

static void count_status(kh_counters *counters, int32_t status) {
    counters->okay += status == KH_OKAY;
    counters->errors += status == KH_ERROR;
    counters->not_supported += status == KH_NOT_SUPPORTED;
}

/* A guest may discard 2^64 - 1 sectors again and again. */
static void add_sectors(uint64_t *sectors, uint64_t count) {
    *sectors = count < UINT64_MAX - *sectors ? *sectors + count : UINT64_MAX;
}

static void count_plan(kh_counters *counters, const kh_plan *plan) {
    counters->reads += plan->operation == KH_READ;
    counters->writes += plan->operation == KH_WRITE;
    counters->barriers += plan->operation == KH_BARRIER;
    counters->flushes += plan->operation == KH_FLUSH;
    counters->discards += plan->operation == KH_DISCARD;
    if (plan->operation == KH_READ)
        add_sectors(&counters->sectors_read, plan->count);
    else if (plan->operation == KH_DISCARD)
        add_sectors(&counters->sectors_discarded, plan->count);
    else
        add_sectors(&counters->sectors_written, plan->count);
}

static void count_turn(kh_counters *counters, const kh_turned *turned) {
    if (turned->kind == KH_STARTED)
        count_plan(counters, &turned->plan);
    if (turned->kind == KH_ANSWERED) {
        counters->refused[turned->reason - KH_UNKNOWN_OPERATION]++;
        count_status(counters, turned->status);
    }
    counters->overruns += turned->kind == KH_OVERRUN;
}

static void count_refusal(kh_host *host, uint32_t port, uint32_t refusal) {
    if (port < KH_PORTS)
        host->counters[port].completions_refused += refusal != KH_OK;
}

kh_counters kh_host_counters(const kh_host *host, uint32_t port) {
    kh_counters counters;
    memset(&counters, 0, sizeof counters);
    if (port < KH_PORTS) {
        counters = host->counters[port];
        counters.in_flight = host->rings[port].req_cons - host->rings[port].rsp_prod;
    }
    return counters;
}

/* ---- the calls */

bool kh_host_begin(kh_host *host, void *row, uint32_t version, size_t host_bytes) {
    bool fits = version == KH_VERSION && host_bytes == sizeof *host;
    if (!fits || kh_version() != KH_VERSION || kh_memory_words() != KH_MEMORY_WORDS)
        return false;
    memset(host, 0, sizeof *host);
    host->row = (uint8_t *)row;
    return true;
}

static uint8_t *lent_rings(kh_host *host) {
    return host->row != NULL ? host->row : (uint8_t *)host->copies;
}

uint32_t kh_host_open(kh_host *host, uint32_t port, const uint8_t *sheet, size_t sheet_bytes, void *const *pages) {
    if (is_traced(host))
        kh_trace_open(host, port, sheet, sheet_bytes);
    uint32_t refusal = kh_open(&host->memory, port, sheet, sheet_bytes);
    if (is_traced(host))
        kh_trace_reply(host, "open", refusal);
    if (refusal != KH_OK)
        return refusal;
    kh_host_ring *ring = &host->rings[port];
    memset(ring, 0, sizeof *ring);
    memset(host->copies[port], 0, sizeof host->copies[port]); /* else what an earlier guest left would be served */
    ring->abi = kh_read_abi(sheet, sheet_bytes);
    ring->pages = kh_read_pages(sheet, sheet_bytes);
    ring->granted = host->row == NULL ? host->granted : NULL;
    for (uint32_t i = 0; i < ring->pages; i++) {
        void *page = host->row == NULL ? pages[i] : host->row + KH_RING_BYTES * port + KH_PAGE_BYTES * i;
        ring->live[i] = (volatile uint32_t *)page;
    }
    host->counters[port].opens++;
    return KH_OK;
}

/* With every port closed only the place in the ring of ports and old bytes are left. A trace can begin where they go.
 */
static void begin_anew_where_closed(kh_host *host) {
    for (uint32_t port = 0; port < KH_PORTS; port++)
        if (host->rings[port].pages > 0)
            return;
    memset(&host->memory, 0, sizeof host->memory);
    memset(host->copies, 0, sizeof host->copies);
    if (is_traced(host))
        kh_trace_begin(host);
}

uint32_t kh_host_close(kh_host *host, uint32_t port) {
    if (is_traced(host))
        kh_trace_close(host, port);
    uint32_t refusal = kh_close(&host->memory, port);
    if (is_traced(host))
        kh_trace_reply(host, "close", refusal);
    if (refusal != KH_OK)
        return refusal;
    if (host->rings[port].granted != NULL) /* the places of this guest's references grant nothing to the next */
        memset(host->grants + KH_PORT_GRANTS * port, KH_GRANT_NONE, KH_PORT_GRANTS);
    memset(&host->rings[port], 0, sizeof host->rings[port]);
    host->counters[port].closes++;
    begin_anew_where_closed(host);
    return KH_OK;
}

bool kh_host_leave_out(kh_host *host, uint32_t port, bool out) {
    if (host->row != NULL || port >= KH_PORTS || host->rings[port].pages == 0)
        return false;
    kh_host_ring *ring = &host->rings[port];
    ring->left_out = out;
    ring->copied = ring->req_cons; /* let in, all that waits is copied anew */
    host->copies[port][WORD(KH_REQ_PROD)] = ring->req_cons;
    return true;
}

/* So many responses go out. The guest may have asked for an event after the call had looked. True: notify it. */
static bool give_responses(kh_host *host, uint32_t port, uint32_t count, bool said) {
    kh_host_ring *ring = &host->rings[port];
    if (count == 0)
        return false;
    if (host->row == NULL)
        copy_responses_out(host, port, count);
    ring->rsp_prod += count;
    __atomic_thread_fence(__ATOMIC_SEQ_CST);
    bool notify = ring->rsp_prod - *live_word(ring, WORD(KH_RSP_EVENT)) < count || said;
    host->counters[port].notifies += notify;
    return notify;
}

static kh_turned call_turn(kh_host *host) {
    uint64_t answer[KH_TURN_WORDS];
    if (is_traced(host))
        kh_trace_turn(host);
    /* Not refused: the lengths are right. */
    uint32_t returned =
        kh_turn(&host->memory, lent_rings(host), KH_RINGS_BYTES, host->grants, sizeof host->grants, answer);
    kh_turned turned = kh_read_turn(answer);
    kh_meter_turn(&host->meters[turned.port], returned, answer); /* idle has port 0 and raises nothing */
    count_turn(&host->counters[turned.port], &turned);
    if (is_traced(host))
        kh_trace_turned(host, &turned);
    return turned;
}

static kh_turned look(kh_host *host) {
    copy_all_in(host);
    kh_turned turned = call_turn(host);
    kh_host_ring *ring = &host->rings[turned.port];
    if (turned.kind == KH_IDLE)
        copy_req_events_out(host);
    if (turned.kind == KH_STARTED || turned.kind == KH_ANSWERED)
        ring->req_cons++;
    if (turned.kind == KH_ANSWERED)
        turned.notify = give_responses(host, turned.port, 1, turned.notify);
    if (turned.kind == KH_OVERRUN)
        ring->broken = true;
    for (uint32_t i = 0; ring->granted != NULL && i < turned.plan.extent_count; i++)
        turned.plan.extents[i].frame = ring->references[turned.plan.extents[i].frame];
    return turned;
}

kh_turned kh_host_turn(kh_host *host) {
    kh_turned turned = look(host);
    if (turned.kind != KH_IDLE)
        return turned;
    __atomic_thread_fence(__ATOMIC_SEQ_CST); /* a guest that saw the old req_event did not notify */
    return look(host);
}

uint32_t kh_host_complete(kh_host *host, uint32_t port, uint32_t tag, uint32_t serial, int32_t result, bool *notify) {
    uint64_t answer[KH_DONE_WORDS];
    copy_rsp_event_in(host, port);
    if (is_traced(host))
        kh_trace_complete(host, port, tag, serial, result);
    uint32_t refusal = kh_complete(&host->memory, lent_rings(host), KH_RINGS_BYTES, port, tag, serial, result, answer);
    count_refusal(host, port, refusal);
    if (is_traced(host))
        kh_trace_completed(host, refusal, answer);
    if (refusal != KH_OK)
        return refusal;
    kh_completed completed = kh_read_completion(answer);
    kh_meter_completion(&host->meters[port], refusal, answer);
    count_status(&host->counters[port], completed.status);
    *notify = give_responses(host, port, 1, completed.notify);
    return KH_OK;
}

uint32_t kh_host_complete_many(kh_host *host, uint32_t port, const uint64_t *entries, size_t count, bool *notify) {
    uint64_t answer[KH_MANY_WORDS];
    count = count < KH_ENTRIES ? count : KH_ENTRIES + (count > KH_ENTRIES); /* longer ones are refused alike */
    copy_rsp_event_in(host, port);
    if (is_traced(host))
        kh_trace_list(host, port, entries, count);
    uint32_t refusal = kh_complete_many(&host->memory, lent_rings(host), KH_RINGS_BYTES, port, entries,
                                        KH_ENTRY_WORDS * count, answer);
    count_refusal(host, port, refusal);
    if (is_traced(host))
        kh_trace_completed_many(host, refusal, answer);
    if (refusal != KH_OK)
        return refusal;
    kh_completed_many completed = kh_read_many(answer);
    kh_meter_many(&host->meters[port], refusal, answer);
    for (uint32_t i = 0; i < completed.count; i++)
        count_status(&host->counters[port], completed.statuses[i]);
    *notify = give_responses(host, port, completed.count, completed.notify);
    return KH_OK;
}

uint8_t *kh_host_grants(kh_host *host, uint32_t port) {
    return port < KH_PORTS ? host->grants + KH_PORT_GRANTS * port : NULL;
}

kh_meter kh_host_take_meter(kh_host *host, uint32_t port) {
    const kh_meter zeros = {0, 0, 0, 0};
    kh_meter meter = zeros;
    if (port < KH_PORTS) {
        meter = host->meters[port];
        host->meters[port] = zeros;
    }
    return meter;
}
