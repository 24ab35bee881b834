/*
 * The C helper over rings of guests: it leaves what a host leaves that lends plain rings to the calls, and answers
 * alike, whatever guests of both layouts publish in rings of one page and of two.
 *
 *     live copies             private copies; the pages of a ring are no neighbours, nor in order
 *     live pages              live pages
 *     live references         private copies, and references of 32 bits: the other host's guests have small numbers
 *     live trace SEED FILE    the same with the trace on, as long as replay reads it
 *     live lives SEED FILE    traces of private copies, one for each time until every port is closed
 *
 * One thread, in which a guest may ask for an event at the last moment of a completion; the order of two is for
 * racing.c, processes.c and host/tests/wakeup.rs.
 */
#include "any.h"
#include "fenced.h"

#include <kernelharp_host.h>

#define WORD(at) ((at) / sizeof(uint32_t))

enum {
    PAGE_WORDS = KH_PAGE_BYTES / 4,
    SHARE_WORDS = KH_RING_BYTES / 4,
    PLANS = KH_PORTS * KH_TAGS,
    STEPS = 200000,
    TRACE_BYTES = 60000, /* and one step more */
    LIFE_BYTES = 50000,  /* and its end */
    LIVES = 3
};

static kh_host host;
static bool has_row, has_references;
static _Alignas(KH_PAGE_BYTES) uint32_t pages[KH_PORTS * KH_RING_PAGES][PAGE_WORDS]; /* the guests' */

static kh_memory lender;                      /* the host that lends plain rings, and those */
static uint32_t lent[KH_PORTS * SHARE_WORDS]; /* of its guests */
static uint8_t lent_grants[KH_GRANTS_BYTES];

/* What a port's guest is like, by the last opening: closed ports have one too. */
static struct {
    uint32_t pages;
    size_t slot_bytes;
    bool is_open, broken;
    uint32_t published, taken, answered;
    uint32_t references[KH_PORT_GRANTS];     /* for each frame of the other host's guest */
    uint64_t is_reference[SHARE_WORDS / 64]; /* words of the ring, a bit to each */
} guests[KH_PORTS];

static kh_turned plans[PLANS];       /* in flight, or completed before */
static bool busy[KH_PORTS][KH_TAGS]; /* in flight */
static unsigned long came[4], opened[KH_RING_PAGES][2], reshaped, drawn_back, asked, ungranted;
static unsigned long lists[3], lists_notified, lists_refused; /* those done, of none, of one and of more */
static unsigned long asked_late, overtaken;
static uint32_t most[KH_RING_PAGES];                 /* in flight on a port, by its pages */
static kh_meter metered[KH_PORTS], billed[KH_PORTS]; /* by this file; by the helper, taken from time to time */
static kh_counters counted[KH_PORTS];                /* by this file */

static FILE *lines; /* of the trace */
static size_t line_bytes;

/* ---- what both hosts have to have alike */

/* Where a guest's page is. With private copies the second ones come first, and backwards. */
static uint32_t *page_of(uint32_t port, size_t page) {
    if (has_row)
        return pages[KH_RING_PAGES * port + page];
    return pages[page == 0 ? KH_PORTS + port : KH_PORTS - 1 - port];
}

static bool is_reference(uint32_t port, size_t word) {
    return (guests[port].is_reference[word / 64] >> word % 64 & 1) != 0;
}

/* A word of the ring as it is due in the guest's page. */
static uint32_t due_word(uint32_t port, size_t word) {
    uint32_t value = lent[SHARE_WORDS * port + word];
    return is_reference(port, word) ? guests[port].references[value] : value;
}

/* With references word by word, and so not each time: what is wrong in a page stays there for a while. */
static bool same_pages(void) {
    static unsigned long times;
    bool same = true;
    if (has_references && ++times % 16 != 0)
        return true;
    for (uint32_t port = 0; port < KH_PORTS; port++)
        for (size_t page = 0; page < KH_RING_PAGES; page++) {
            const uint32_t *here = page_of(port, page), *there = lent + SHARE_WORDS * port + PAGE_WORDS * page;
            if (!has_references)
                same = same && memcmp(here, there, KH_PAGE_BYTES) == 0;
            else
                for (size_t at = 0; at < PAGE_WORDS; at++)
                    same = same && here[at] == due_word(port, PAGE_WORDS * page + at);
        }
    return same;
}

static void same(const char *what, bool holds) {
    if (!holds || !same_pages()) {
        printf("tests/c/live.c: %s: %s\n", what, holds ? "the pages differ" : "the answers differ");
        exit(1);
    }
}

/* ---- the guests, whose writes reach both rings */

static void guest_writes(uint32_t port, size_t word, uint32_t value) {
    lent[SHARE_WORDS * port + word] = value;
    page_of(port, word / PAGE_WORDS)[word % PAGE_WORDS] = value;
    guests[port].is_reference[word / 64] &= ~(UINT64_C(1) << word % 64);
}

/* The grant that is frame `frame` to the other host's guest. */
static void guest_refers(uint32_t port, size_t word, uint32_t frame) {
    guest_writes(port, word, frame);
    if (has_references) {
        guests[port].is_reference[word / 64] |= UINT64_C(1) << word % 64;
        page_of(port, word / PAGE_WORDS)[word % PAGE_WORDS] = guests[port].references[frame];
    }
}

/* What the guest's references are granted for; it has granted no others. */
static uint8_t granted(void *context, uint32_t port, uint32_t reference) {
    uint32_t frame = 0;
    while (frame < KH_PORT_GRANTS && guests[port].references[frame] != reference)
        frame++;
    asked++;
    CHECK(context == &lender);
    return frame < KH_PORT_GRANTS ? lent_grants[KH_PORT_GRANTS * port + frame] : KH_GRANT_NONE;
}

/*
 * Rubbish at times, else a request that is sound but for its grants and at times its place. In both layouts the
 * segments end the slot, its third word is half of the id, and the start comes right before the segments.
 */
static void guest_requests(uint32_t port, uint32_t index) {
    static const uint32_t operations[] = {KH_READ, KH_READ, KH_WRITE, KH_WRITE, KH_BARRIER, KH_FLUSH, KH_DISCARD};
    size_t words = WORD(guests[port].slot_bytes);
    size_t at = WORD(KH_HEADER_BYTES) + words * (index % (32 * guests[port].pages)), end = at + words;
    uint32_t operation = operations[below(7)], segments = 1 + below(KH_SEGMENTS);
    bool rubbish = one_in(4);
    for (size_t word = at; word < end; word++)
        guest_writes(port, word, rubbish ? (uint32_t)any() : 0);
    guest_writes(port, at + 2, index);
    if (rubbish)
        return;
    if (operation == KH_FLUSH || (operation == KH_BARRIER && one_in(2)))
        segments = 0;
    guest_writes(port, at, operation | segments << 8);
    guest_writes(port, end - 2 * KH_SEGMENTS - 2, below(2100));
    guest_writes(port, end - 2 * KH_SEGMENTS, below(100)); /* of a discard */
    for (size_t i = 0; operation != KH_DISCARD && i < segments; i++) {
        uint32_t first = below(8);
        guest_refers(port, end - 2 * (KH_SEGMENTS - i), below(KH_PORT_GRANTS));
        guest_writes(port, end - 2 * (KH_SEGMENTS - i) + 1, first | (first + below(8 - first)) << 8);
    }
}

static void guest_publishes(uint32_t port, uint32_t req_prod) {
    guests[port].published = req_prod;
    guest_writes(port, WORD(KH_REQ_PROD), req_prod);
}

static void guest_step(uint32_t port) {
    uint32_t more = below(6);
    for (uint32_t i = 0; i < more; i++)
        guest_requests(port, guests[port].published + i);
    guest_publishes(port, guests[port].published + more);
    if (one_in(2))
        guest_writes(port, WORD(KH_RSP_EVENT), guests[port].answered + below(4));
}

/* ---- what a guest does at a fence of the helper */

static struct {
    enum { NOTHING, PUBLISHES, ASKS, OVERTAKES } what; /* once: at the full fence, but the last */
    bool came;
    uint32_t looks;              /* at other ports, until its req_prod is loaded and it overtakes the helper */
    uint32_t port, first, count; /* responses that go out */
    uint32_t rsp_event;          /* asked for */
} late;

/* Whether so many responses are out, and rsp_prod is not yet, or is. */
static bool is_out(bool published) {
    size_t words = WORD(guests[late.port].slot_bytes), response = words == 28 ? 4 : 3;
    bool holds = page_of(late.port, 0)[WORD(KH_RSP_PROD)] == late.first + (published ? late.count : 0);
    for (uint32_t i = 0; i < late.count; i++) {
        size_t at = WORD(KH_HEADER_BYTES) + words * ((late.first + i) % (32 * guests[late.port].pages));
        for (size_t word = at; word < at + response; word++)
            holds = holds &&
                    page_of(late.port, word / PAGE_WORDS)[word % PAGE_WORDS] == lent[SHARE_WORDS * late.port + word];
    }
    return holds;
}

static void publish_late(void) {
    late.came = true;
    guest_requests(late.port, guests[late.port].published);
    guest_publishes(late.port, guests[late.port].published + 1);
}

/* All responses are out before rsp_prod is, and rsp_prod before the second look. The lender has answered already. */
void at_fence(int order) {
    if (late.what == OVERTAKES && !late.came && order == __ATOMIC_ACQUIRE && late.looks-- == 0)
        publish_late();
    if (late.what == NOTHING || late.what == OVERTAKES || late.came || order == __ATOMIC_ACQUIRE)
        return;
    if (late.what == ASKS && !is_out(order == __ATOMIC_SEQ_CST)) {
        printf("tests/c/live.c: responses and rsp_prod are out of order\n");
        exit(1);
    }
    if (order != __ATOMIC_SEQ_CST)
        return;
    if (late.what == PUBLISHES) {
        publish_late();
        return;
    }
    late.came = true;
    guest_writes(late.port, WORD(KH_RSP_EVENT), late.rsp_event);
}

/*
 * The lender has given so many responses. Before the helper has, the guest may ask for an event with one of them, or
 * with a later one. True: notify.
 */
static bool gives(uint32_t port, uint32_t count, bool said, bool before) {
    guests[port].answered += count;
    late.came = false;
    late.what = before && count > 0 && one_in(3) ? ASKS : NOTHING;
    late.port = port;
    late.first = guests[port].answered - count;
    late.count = count;
    late.rsp_event = late.first + below(count + 3);
    bool asks = late.what == ASKS && guests[port].answered - late.rsp_event < count;
    asked_late += asks && !said;
    counted[port].notifies += said || asks;
    return said || asks;
}

static bool was_at_fence(void) {
    bool holds = late.what == NOTHING || late.came;
    late.what = NOTHING;
    return holds;
}

/* ---- counts */

static void count_status(uint32_t port, int32_t status) {
    metered[port].okay += status == KH_OKAY;
    metered[port].error += status == KH_ERROR;
    metered[port].not_supported += status == KH_NOT_SUPPORTED;
}

static void count_started(uint32_t port, const kh_plan *plan) {
    kh_counters *counters = &counted[port];
    uint64_t *const requests[] = {&counters->reads,   &counters->writes, &counters->barriers, &counters->flushes, NULL,
                                  &counters->discards};
    uint64_t *const sectors[] = {&counters->sectors_read,
                                 &counters->sectors_written,
                                 &counters->sectors_written,
                                 &counters->sectors_written,
                                 NULL,
                                 &counters->sectors_discarded};
    ++*requests[plan->operation];
    *sectors[plan->operation] += plan->count;
}

static void check_counters(uint32_t port) {
    kh_counters due = counted[port], seen = kh_host_counters(&host, port);
    for (uint32_t tag = 0; tag < KH_TAGS; tag++)
        due.in_flight += busy[port][tag];
    due.okay = metered[port].okay;
    due.errors = metered[port].error;
    due.not_supported = metered[port].not_supported;
    same("counters", memcmp(&seen, &due, sizeof due) == 0);
}

static void bill(uint32_t port) {
    kh_meter meter = kh_host_take_meter(&host, port);
    billed[port].taken += meter.taken;
    billed[port].okay += meter.okay;
    billed[port].error += meter.error;
    billed[port].not_supported += meter.not_supported;
    check_counters(port);
}

/* ---- each call of both hosts, the lender first */

static bool same_plan(uint32_t port, const kh_plan *here, const kh_plan *there) {
    bool holds = here->tag == there->tag && here->serial == there->serial && here->operation == there->operation &&
                 here->start == there->start && here->count == there->count && here->secure == there->secure &&
                 here->extent_count == there->extent_count;
    for (size_t i = 0; i < there->extent_count; i++) {
        const kh_extent *a = &here->extents[i], *b = &there->extents[i];
        uint32_t frame = has_references ? guests[port].references[b->frame] : b->frame;
        holds = holds && a->frame == frame && a->first == b->first && a->length == b->length && a->sector == b->sector;
    }
    return holds;
}

static kh_turned lent_turn(void) {
    uint64_t answer[KH_TURN_WORDS];
    if (kh_turn(&lender, (uint8_t *)lent, sizeof lent, lent_grants, sizeof lent_grants, answer) != KH_OK)
        exit(1);
    return kh_read_turn(answer);
}

static bool is_served(uint32_t port) {
    return guests[port].is_open && !guests[port].broken;
}

/* A guest whose request comes at the last moment before the sleep. */
static bool publishes_late(void) {
    uint32_t port = below(KH_PORTS);
    late.port = port;
    late.came = false;
    if (!is_served(port) || !one_in(2))
        return false;
    late.what = PUBLISHES;
    return true;
}

/* A guest with room left whose request comes when a turn has loaded its req_prod: the turn is not to see it. */
static bool overtakes(void) {
    uint32_t port = below(KH_PORTS), ahead = guests[port].published - guests[port].answered;
    if (has_row || late.what != NOTHING || !is_served(port) || ahead > 32 * guests[port].pages - 2 || !one_in(4))
        return false;
    late.what = OVERTAKES;
    late.port = port;
    late.came = false;
    late.looks = 0;
    for (uint32_t i = 0; i < port; i++)
        late.looks += is_served(i);
    overtaken++;
    return true;
}

static void note_turn(const kh_turned *turned) {
    uint32_t port = turned->port, *noted = &most[guests[port].pages - 1];
    came[turned->kind]++;
    if (turned->kind == KH_OVERRUN) {
        guests[port].broken = true;
        counted[port].overruns++;
    }
    if (turned->kind != KH_STARTED && turned->kind != KH_ANSWERED)
        return;
    metered[port].taken++;
    guests[port].taken++;
    if (turned->kind == KH_ANSWERED) {
        count_status(port, turned->status);
        counted[port].refused[turned->reason - 21]++;
        ungranted += turned->reason == KH_NOT_GRANTED;
        return;
    }
    count_started(port, &turned->plan);
    plans[KH_TAGS * port + turned->plan.tag] = *turned;
    busy[port][turned->plan.tag] = true;
    if (*noted < guests[port].taken - guests[port].answered)
        *noted = guests[port].taken - guests[port].answered;
}

static void turn_both(void) {
    kh_turned there = lent_turn(), here;
    bool idle = there.kind == KH_IDLE, published = idle && publishes_late();
    note_turn(&there);
    if (there.kind == KH_ANSWERED)
        there.notify = gives(there.port, 1, there.notify, true);
    if (there.kind != KH_OVERRUN && overtakes())
        published = idle;
    here = kh_host_turn(&host);
    bool met = was_at_fence();
    if (published) {
        there = lent_turn();
        note_turn(&there);
        if (there.kind == KH_ANSWERED)
            there.notify = gives(there.port, 1, there.notify, false);
    }
    same("turn", met && here.kind == there.kind && here.port == there.port && here.reason == there.reason &&
                     here.status == there.status && here.notify == there.notify &&
                     same_plan(there.port, &here.plan, &there.plan));
}

static void complete_both(uint32_t port, uint32_t tag, int32_t result) {
    uint64_t answer[KH_DONE_WORDS];
    uint32_t serial = plans[KH_TAGS * port + tag].plan.serial;
    bool notify = false, due = false;
    uint32_t there = kh_complete(&lender, (uint8_t *)lent, sizeof lent, port, tag, serial, result, answer);
    if (there == KH_OK) {
        kh_completed completed = kh_read_completion(answer);
        due = gives(port, 1, completed.notify, true);
        count_status(port, completed.status);
        busy[port][tag] = false;
    }
    uint32_t here = kh_host_complete(&host, port, tag, serial, result, &notify);
    same("complete", was_at_fence() && here == there && notify == due);
    counted[port].completions_refused += there != KH_OK;
}

/* Plans of a port that are in flight; in a list that may be bad some that are not, or one twice. */
static uint32_t write_list(uint32_t port, uint64_t *entries) {
    uint32_t longest = below(one_in(4) ? KH_TAGS + 1 : 8), tag = below(KH_TAGS);
    bool bad = one_in(8);
    uint32_t count = 0;
    for (uint32_t i = 0; i < KH_TAGS && count < longest; i++, tag = (tag + 1) % KH_TAGS) {
        const kh_plan *plan = &plans[KH_TAGS * port + tag].plan;
        if (!busy[port][tag] && !(bad && one_in(16)))
            continue;
        kh_write_entry(entries, count++, tag, plan->serial, kh_expected_result(plan) - (int32_t)below(2));
        tag -= bad && one_in(16);
    }
    return count;
}

static void complete_many_both(uint32_t port) {
    uint64_t entries[KH_ENTRY_WORDS * KH_ENTRIES], answer[KH_MANY_WORDS];
    uint32_t count = write_list(port, entries);
    bool notify = false, due = false;
    uint32_t there =
        kh_complete_many(&lender, (uint8_t *)lent, sizeof lent, port, entries, KH_ENTRY_WORDS * count, answer);
    if (there == KH_OK) {
        kh_completed_many completed = kh_read_many(answer);
        due = gives(port, count, completed.notify, true);
        for (uint32_t i = 0; i < count; i++) {
            count_status(port, completed.statuses[i]);
            busy[port][entries[KH_ENTRY_WORDS * i + KH_ENTRY_TAG]] = false;
        }
    }
    uint32_t here = kh_host_complete_many(&host, port, entries, count, &notify);
    same("complete_many", was_at_fence() && here == there && notify == due);
    counted[port].completions_refused += there != KH_OK;
    lists_refused += there != KH_OK;
    lists[count < 2 ? count : 2] += there == KH_OK;
    lists_notified += notify && count > 1;
}

/* A guest sets its ring up. The second half of its share, which a ring of one page has no part in, is rubbish. */
static void guest_begins(uint32_t port) {
    for (size_t i = 0; i < PAGE_WORDS; i++) {
        guest_writes(port, i, i == WORD(KH_REQ_EVENT) || i == WORD(KH_RSP_EVENT));
        guest_writes(port, PAGE_WORDS + i, (uint32_t)any());
    }
    guests[port].published = guests[port].taken = guests[port].answered = 0;
}

static void open_both(uint32_t port) {
    kh_sheet disk = {.writable = !one_in(8),
                     .barrier = !one_in(4),
                     .flush = !one_in(4),
                     .discard = !one_in(4),
                     .discard_secure = one_in(2),
                     .sector_size = one_in(4) ? 1024 : 512,
                     .sectors = 2008,
                     .abi = one_in(2) ? KH_BITS32 : KH_BITS64,
                     .pages = 1 + below(2)};
    void *live[] = {page_of(port, 0), disk.pages == 1 ? NULL : page_of(port, 1)};
    uint8_t sheet[KH_SHEET_BYTES];
    size_t length = kh_write_sheet(&disk, sheet) - one_in(8); /* at times one that is refused */
    if (!guests[port].is_open)
        guest_begins(port);
    uint32_t here = kh_host_open(&host, port, sheet, length, has_row ? NULL : live);
    same("open", here == kh_open(&lender, port, sheet, length));
    if (here != KH_OK)
        return;
    opened[disk.pages - 1][disk.abi]++;
    counted[port].opens++;
    reshaped += guests[port].slot_bytes != kh_slot_bytes(disk.abi) || guests[port].pages != disk.pages;
    guests[port].slot_bytes = kh_slot_bytes(disk.abi);
    guests[port].pages = disk.pages;
    guests[port].is_open = true;
}

static void close_both(uint32_t port) {
    uint32_t there = kh_close(&lender, port);
    bool all_closed = there == KH_OK;
    same("close", kh_host_close(&host, port) == there);
    if (there == KH_OK) {
        counted[port].closes++;
        guests[port].is_open = guests[port].broken = false;
        guests[port].taken = guests[port].answered = 0;
        for (uint32_t i = 0; i < KH_PORTS; i++)
            all_closed = all_closed && !guests[i].is_open;
    }
    if (all_closed)
        memset(&lender, 0, sizeof lender);
}

/*
 * req_prod moved back, or seen in an overrun and then back at a legal place, with other requests behind it. Both hosts
 * look in between: one that copies has read a waiting request already, and is not to see it rewritten.
 */
static void draw_back(uint32_t port) {
    uint32_t legal = guests[port].published, back = below(3);
    guest_publishes(port, back == 0 ? legal + 1000 : legal - back);
    turn_both();
    if (!is_served(port))
        return;
    for (uint32_t i = back == 0 ? guests[port].taken : legal - back; i != legal; i++)
        guest_requests(port, i);
    guest_publishes(port, legal);
    drawn_back++;
}

static void step(uint32_t port) {
    uint32_t kind = below(64), tag = below(KH_TAGS);
    if (kind == 0)
        open_both(port);
    else if (kind == 1)
        close_both(port);
    else if (kind == 2)
        draw_back(port);
    else if (kind == 3)
        bill(port);
    else if (kind == 4)
        complete_many_both(port);
    else if (kind < 24)
        guest_step(port);
    else if (kind < 44)
        turn_both();
    else
        complete_both(port, tag, kh_expected_result(&plans[KH_TAGS * port + tag].plan) - (int32_t)below(2));
}

/* ---- runs */

/* Each frame of a guest has its grant, and with references a number of 32 bits. */
static void begin(uint64_t seed) {
    static const uint32_t ends[] = {UINT32_MAX, KH_PORT_GRANTS, KH_PORT_GRANTS - 1, 0};
    static const uint8_t grants[] = {2, 2, 2, 2, 2, 2, 2, 2, 2, 2, 2, 2, 2, 2, 1, 1, 1, 0, 3};
    state = seed;
    for (uint32_t port = 0; port < KH_PORTS; port++)
        for (uint32_t frame = 0; frame < KH_PORT_GRANTS; frame++) {
            lent_grants[KH_PORT_GRANTS * port + frame] = grants[below(sizeof grants)];
            guests[port].references[frame] = frame < COUNT_OF(ends) ? ends[frame] : (uint32_t)any();
        }
    if (has_row ? !kh_host_init_pages(&host, pages) : !kh_host_init(&host))
        exit(1);
    host.context = &lender;
    if (has_references)
        host.granted = granted;
    else
        for (uint32_t port = 0; port < KH_PORTS; port++)
            memcpy(kh_host_grants(&host, port), lent_grants + KH_PORT_GRANTS * port, KH_PORT_GRANTS);
    for (uint32_t port = 0; port < KH_PORTS; port++) { /* so that each has a layout from here on, closed or not */
        guests[port].pages = 1;
        guests[port].slot_bytes = KH_SLOT_BYTES;
    }
}

static void check_counts(void) {
    for (uint32_t port = 0; port < KH_PORTS; port++)
        bill(port);
    same("meters", memcmp(billed, metered, sizeof billed) == 0);
    same("hook", (asked > 0) == has_references);
}

/* Whether each case came up that this file is for. */
static bool is_complete(void) {
    bool holds = reshaped > KH_PORTS && most[0] == 32 && most[1] > 32 && drawn_back && ungranted && asked_late &&
                 (overtaken > 0) == !has_row && lists[0] && lists[1] && lists[2] && lists_notified &&
                 lists_notified < lists[2] && lists_refused;
    for (int i = 0; i < 4; i++)
        holds = holds && came[i] && opened[i / 2][i % 2] > KH_PORTS;
    return holds;
}

static int run_steps(void) {
    begin(UINT64_C(0x6B65726E656C6861));
    for (int i = 0; i < STEPS; i++)
        step(below(KH_PORTS));
    check_counts();
    printf(
        "     %d steps: idle %lu, started %lu, answered %lu (no grant %lu), overrun %lu; opened with one page 64-bit "
        "%lu, 32-bit %lu, with two %lu, %lu, in another shape than before %lu; most in flight %u and %u; drawn back "
        "%lu; lists of none %lu, of one %lu, of more %lu and %lu of these notified, refused %lu; asked for at the "
        "last moment %lu; overtaken %lu; asked of the hook %lu\n",
        STEPS, came[KH_IDLE], came[KH_STARTED], came[KH_ANSWERED], ungranted, came[KH_OVERRUN], opened[0][0],
        opened[0][1], opened[1][0], opened[1][1], reshaped, most[0], most[1], drawn_back, lists[0], lists[1], lists[2],
        lists_notified, lists_refused, asked_late, overtaken, asked);
    return is_complete() ? 0 : 1;
}

static void trace(void *context, const char *line) {
    CHECK(context == &lender);
    line_bytes += strlen(line) + 1;
    fprintf(lines, "%s\n", line);
}

static void run_long_life(void) {
    for (uint32_t port = 0; port < KH_PORTS; port++)
        open_both(port);
    while (line_bytes < TRACE_BYTES)
        step(below(KH_PORTS));
}

static void open_surely(uint32_t port) {
    while (!guests[port].is_open)
        open_both(port);
}

static void end(uint32_t port) {
    for (uint32_t tag = 0; tag < KH_TAGS; tag++)
        if (busy[port][tag])
            complete_both(port, tag, 0);
    close_both(port);
}

static void guest_has_one(uint32_t port) {
    guest_requests(port, 0);
    guest_publishes(port, 1);
}

/*
 * Two ports are used, and closed and opened, while a third is open. The turn before the end serves port 1, so that
 * port 2 would be next: but then port 1 is, as in a host that begins. The host's grants stay, and are told anew.
 */
static void run_life(void) {
    line_bytes = 0;
    for (uint32_t port = 0; port < 3; port++)
        open_surely(port);
    guest_has_one(1);
    guest_has_one(2);
    turn_both();
    while (line_bytes < LIFE_BYTES)
        step(1 + below(2));
    end(2);
    end(1);
    open_surely(1);
    guest_has_one(1);
    while (guests[1].taken == 0)
        turn_both();
    end(1);
    end(0);
}

static void run_lives(void) {
    for (uint32_t port = 3; port < KH_PORTS; port++) {
        memset(lent_grants + KH_PORT_GRANTS * port, KH_GRANT_NONE, KH_PORT_GRANTS);
        memset(kh_host_grants(&host, port), KH_GRANT_NONE, KH_PORT_GRANTS);
    }
    for (int life = 0; life < LIVES; life++)
        run_life();
}

static int run_traced(const char *seed, const char *file, bool lives) {
    lines = fopen(file, "w");
    if (lines == NULL)
        return 2;
    begin((uint64_t)atoi(seed));
    host.trace = trace;
    if (lives)
        run_lives();
    else
        run_long_life();
    check_counts();
    return fclose(lines) == 0 ? 0 : 2;
}

int main(int words, char **word) {
    const char *way = words > 1 ? word[1] : "";
    running.name = "live";
    has_row = strcmp(way, "pages") == 0;
    has_references = strcmp(way, "references") == 0 || strcmp(way, "trace") == 0;
    int failed = words > 3 ? run_traced(word[2], word[3], !has_references) : run_steps();
    return failed || running.failures != 0;
}
