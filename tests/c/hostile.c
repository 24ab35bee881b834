/*
 * Any bytes, any lengths and any numbers, in long pseudo-random lists of calls: each returns one of its numbers, a
 * refused one changes nothing, and none reads or writes beside its buffers.
 *
 * No expression below draws twice where C leaves the order open, so that a seed gives one list of calls.
 */
#include "lists.h"
#include "port_words.h"

enum { CALLS = 150000, LAST_NUMBER = 15 };

static const uint64_t seed = UINT64_C(0x6B65726E656C6861);

/* ---- which numbers came */

enum call { CALL_OPEN, CALL_CLOSE, CALL_TURN, CALL_COMPLETE, CALL_LIST, CALL_COUNT };

static const struct {
    const char *name;
    unsigned numbers; /* that it may return, a bit to each */
} calls[CALL_COUNT] = {
    {"open", 1 << 0 | 1 << 2 | 1 << 3 | 1 << 11 | 1 << 12 | 1 << 13 | 1 << 14 | 1 << 15},
    {"close", 1 << 0 | 1 << 2 | 1 << 4 | 1 << 5},
    {"turn", 1 << 0 | 1 << 1},
    {"complete", 1 << 0 | 1 << 1 | 1 << 2 | 1 << 4 | 1 << 6},
    {"list", 1 << 0 | 1 << 1 | 1 << 2 | 1 << 4 | 1 << 6 | 1 << 7},
};

static unsigned long came[CALL_COUNT][LAST_NUMBER + 1];
static unsigned long kinds[KH_OVERRUN + 1];
static unsigned long reasons[KH_UNALIGNED + 1];
static unsigned long responses[COUNT_OF(shapes)];

static void begin_counts(void) {
    state = seed;
    memset(came, 0, sizeof came);
    memset(kinds, 0, sizeof kinds);
    memset(reasons, 0, sizeof reasons);
    memset(responses, 0, sizeof responses);
}

static void count(const host *h, enum call call, uint32_t number) {
    const uint64_t *answer = words(h, TURNED);
    CHECK(number <= LAST_NUMBER && (calls[call].numbers >> number & 1) != 0);
    came[call][number % (LAST_NUMBER + 1)]++;
    if (call == CALL_TURN && number == KH_OK) {
        CHECK(answer[KH_TURN_KIND] <= KH_OVERRUN && answer[KH_TURN_REASON] <= KH_UNALIGNED);
        kinds[answer[KH_TURN_KIND] % COUNT_OF(kinds)]++;
        reasons[answer[KH_TURN_REASON] % COUNT_OF(reasons)]++;
    }
}

static void print_counts(void) {
    printf("     %d calls, seed 0x%llx:", CALLS, (unsigned long long)seed);
    for (int call = 0; call < CALL_COUNT; call++)
        for (unsigned number = 0; number <= LAST_NUMBER; number++)
            if ((calls[call].numbers >> number & 1) != 0)
                printf(" %s %u: %lu,", calls[call].name, number, came[call][number]);
    for (unsigned kind = 0; kind < COUNT_OF(kinds); kind++)
        printf(" kind %u: %lu,", kind, kinds[kind]);
    for (unsigned reason = KH_UNKNOWN_OPERATION; reason < COUNT_OF(reasons); reason++)
        printf(" reason %u: %lu,", reason, reasons[reason]);
    printf(" responses");
    for (size_t s = 0; s < COUNT_OF(shapes); s++)
        printf(", %d-bit, %u pages: %lu", shapes[s].abi == KH_BITS32 ? 32 : 64, shapes[s].pages, responses[s]);
    printf("\n");
}

/* All numbers came, kinds and reasons too but for the one that is withdrawn, and responses in rings of every shape. */
static void end_counts(void) {
    for (int call = 0; call < CALL_COUNT; call++)
        for (unsigned number = 0; number <= LAST_NUMBER; number++)
            CHECK(came[call][number] > 0 || (calls[call].numbers >> number & 1) == 0);
    for (unsigned kind = 0; kind < COUNT_OF(kinds); kind++)
        CHECK(kinds[kind] > 0);
    for (unsigned reason = KH_UNKNOWN_OPERATION; reason < COUNT_OF(reasons); reason++)
        CHECK_EQ(reasons[reason] > 0, reason != WITHDRAWN);
    for (size_t s = 0; s < COUNT_OF(shapes); s++)
        CHECK(responses[s] > 0);
    if (placement != BEFORE_GUARD || running.failures > 0)
        print_counts(); /* the same in both places */
}

/* ---- disks of each sector size: what started of requests with segments, and what was refused with 29 */

enum { SIZES = 4 };

static unsigned long started_on[SIZES], refused_on[SIZES];

static void begin_sizes(void) {
    memset(started_on, 0, sizeof started_on);
    memset(refused_on, 0, sizeof refused_on);
}

/* What started lies on boundaries of its disk's sectors. */
static void check_size(const host *h) {
    kh_turned turned = kh_read_turn(words(h, TURNED));
    uint64_t size = words_of_port(memory_of(h), turned.port)[SECTOR_SIZE] % SIZES;
    uint32_t unit = 1U << size;
    started_on[size] += turned.plan.extent_count > 0;
    refused_on[size] += turned.reason == KH_UNALIGNED;
    for (uint32_t i = 0; i < turned.plan.extent_count; i++) {
        CHECK_EQ(turned.plan.extents[i].first % unit, 0);
        CHECK_EQ(turned.plan.extents[i].length % unit, 0);
        CHECK_EQ(turned.plan.extents[i].sector % unit, 0);
    }
}

static void end_sizes(void) {
    for (unsigned size = 0; size < SIZES; size++) {
        CHECK(started_on[size] > 0);
        CHECK_EQ(refused_on[size] > 0, size > 0);
        if (placement != BEFORE_GUARD || running.failures > 0)
            printf("     %u-byte sectors: %lu started with segments, %lu refused with 29\n", 512U << size,
                   started_on[size], refused_on[size]);
    }
}

/* ---- discards that started: by bit 0 of the flag, and by the disk's discard-secure */

static unsigned long discards[2][2];

/* The mark is there where both are. */
static void check_mark(const host *h) {
    kh_turned turned = kh_read_turn(words(h, TURNED));
    bool asks = slot_of(h, turned.port, turned.plan.serial)[1] % 2 != 0;
    bool can = words_of_port(memory_of(h), turned.port)[SECURE] != 0;
    if (turned.kind != KH_STARTED || turned.plan.operation != KH_DISCARD)
        return;
    CHECK_EQ(turned.plan.secure, asks && can);
    discards[asks][can]++;
}

static void end_marks(void) {
    CHECK(discards[0][0] > 0 && discards[0][1] > 0 && discards[1][0] > 0 && discards[1][1] > 0);
    if (placement != BEFORE_GUARD || running.failures > 0)
        printf("     discards that started: %lu secure, %lu with the flag ignored, %lu without it\n", discards[1][1],
               discards[1][0], discards[0][0] + discards[0][1]);
}

/* ---- how full the rings were, by their pages */

static uint32_t most_in_flight[KH_RING_PAGES + 1];

static void note_in_flight(const host *h) {
    const book *b = &h->books[words(h, TURNED)[KH_TURN_PORT] % KH_PORTS];
    uint32_t in_flight = b->taken - b->answered, *most = &most_in_flight[b->ring.pages];
    if (*most < in_flight)
        *most = in_flight;
}

static void end_in_flight(void) {
    CHECK_EQ(most_in_flight[1], 32);
    CHECK_EQ(most_in_flight[2], 64);
}

/* ---- how long the lists of completions were that were done, by the pages of the ring */

static unsigned long lists_done[KH_RING_PAGES + 1][KH_ENTRIES + 1];

static void note_list(const book *b, size_t count) {
    lists_done[b->ring.pages][count % (KH_ENTRIES + 1)]++;
}

/* Empty ones, short ones, and whole rings. */
static void end_lists(void) {
    for (uint32_t pages = 1; pages <= KH_RING_PAGES; pages++) {
        unsigned long all = 0;
        for (uint32_t count = 0; count <= KH_ENTRIES; count++)
            all += lists_done[pages][count];
        for (uint32_t count = 0; count <= 8; count++)
            CHECK(lists_done[pages][count] > 0);
        CHECK(lists_done[pages][kh_slots(pages)] > 0);
        if (placement != BEFORE_GUARD || running.failures > 0)
            printf("     %u pages: %lu lists done, %lu empty, %lu of one, %lu of the whole ring\n", pages, all,
                   lists_done[pages][0], lists_done[pages][1], lists_done[pages][kh_slots(pages)]);
    }
}

/* ---- arguments */

static uint32_t any_port(void) {
    return one_in(16) ? (uint32_t)any() : below(KH_PORTS + (one_in(8) ? 1 : 0));
}

static int32_t any_result(const started *request) {
    static const int32_t usual[] = {0, -5, -95, 8};
    if (one_in(2))
        return (int32_t)request->expected;
    return one_in(4) ? (int32_t)(uint32_t)any() : usual[below(COUNT_OF(usual))];
}

/* How many words of a list are lent: at times too many for any list, or not whole entries. */
static size_t any_length(const list *l) {
    size_t count = KH_ENTRY_WORDS * l->count;
    if (one_in(24))
        count = KH_ENTRY_WORDS * (KH_ENTRIES - 1 + below(4 * KH_ENTRIES));
    return one_in(24) ? count + 1 + below(2) : count;
}

/* A sheet that ends with digits of any length, as its sectors. */
static sheet any_sectors(void) {
    char nodes[64] = "";
    int end = snprintf(nodes, sizeof nodes, "1:w 4:1 6:%u 7:", 512U << below(SIZES));
    for (uint32_t digits = 1 + below(40); digits > 0; digits--)
        nodes[end++] = (char)('0' + below(10));
    return sheet_of(nodes);
}

/* A good sheet, one with some bytes or its length changed, or rubbish. */
static sheet any_sheet(void) {
    static const char *const good[] = {USUAL_NODES,
                                       ALL_FEATURES,
                                       "1:r 2:1 3:1 4:1 6:512 7:2008",
                                       "1:w 2:1 3:1 4:1 5:0 6:4096 7:2008 8:x86_64-abi 9:0",
                                       "1:w 4:1 5:1 6:1024 7:18446744073709551615",
                                       "1:w 2:1 6:2048 7:2008",
                                       USUAL_NODES " 8:x86_32-abi",
                                       ALL_FEATURES " 8:x86_32-abi",
                                       "1:r 2:1 3:1 4:1 6:512 7:2008 8:x86_32-abi",
                                       "1:w 2:1 3:1 4:1 5:0 6:4096 7:2008 8:x86_32-abi 9:0",
                                       "1:w 4:1 5:1 6:1024 7:18446744073709551615 8:x86_32-abi",
                                       "1:w 2:1 6:2048 7:2008 8:x86_32-abi",
                                       USUAL_NODES " 9:1",
                                       ALL_FEATURES " 9:1",
                                       "1:w 2:1 3:1 4:1 5:0 6:4096 7:2008 8:x86_64-abi 9:1",
                                       USUAL_NODES " 8:x86_32-abi 9:1",
                                       ALL_FEATURES " 8:x86_32-abi 9:1",
                                       "1:w 4:1 5:1 6:1024 7:18446744073709551615 8:x86_32-abi 9:1",
                                       USUAL_NODES " 9:2",
                                       "1:w 6:512",
                                       "1:w 6:513 7:1"};
    sheet s = one_in(4) ? any_sectors() : sheet_of(good[below(COUNT_OF(good))]);
    uint8_t *changed = &s.bytes[below((uint32_t)s.length)];
    if (one_in(3))
        *changed = one_in(2) ? (uint8_t)any() : (uint8_t)below(12);
    if (one_in(12))
        s.length = below(sizeof s.bytes);
    if (one_in(12))
        fill(s.bytes, sizeof s.bytes);
    return s;
}

/* Parts of frames that begin and end on multiples of 1, 2 or 4 sectors. */
static void take_parts(request *r) {
    uint32_t unit = 1U << below(3);
    for (int i = 0; i < KH_EXTENTS; i++) {
        uint32_t first = below(KH_FRAME_SECTORS / unit);
        uint32_t more = below(KH_FRAME_SECTORS / unit - first);
        r->segments[i].first = (uint8_t)(first * unit);
        r->segments[i].last = (uint8_t)((first + more + 1) * unit - 1);
    }
}

static request any_request(void) {
    static const uint8_t operations[] = {0, 1, 2, 3, 5, 5};
    request r = transfer(operations[below(6)], 1, 0);
    r.start = below(256) * 8;
    if (one_in(4))
        take_parts(&r);
    if (!one_in(4))
        r.n = (uint8_t)below(13);
    else if (r.operation == KH_FLUSH)
        r.n = 0;
    if (one_in(8))
        r.operation = (uint8_t)any();
    segment *changed = &r.segments[below(KH_EXTENTS)];
    if (one_in(8))
        changed->frame = below(20);
    if (one_in(8))
        changed->first = (uint8_t)below(10);
    if (one_in(8))
        changed->last = (uint8_t)below(10);
    if (one_in(8))
        r.start = one_in(2) ? any() : below(2100);
    r.sectors = one_in(4) ? any() : below(20);
    if (one_in(2))
        r.sectors >>= below(64);
    return r;
}

/* What a guest may do to its ring between two calls; one that is patient asks for what starts, and seldom breaks it. */
static void guest_writes(const host *h, uint32_t port, bool patient) {
    uint32_t frame = below(20);
    set_index(h, port, KH_REQ_PROD, h->books[port].taken);
    for (uint32_t i = below(4); i > 0; i--)
        post(h, port, patient && !one_in(4) ? transfer(KH_READ, 1, 0) : any_request());
    if (one_in(6))
        fill(slot_of(h, port, (uint32_t)any()), layout_of(h, port)->slot);
    if (one_in(patient ? 2000 : 40))
        set_index(h, port, KH_REQ_PROD, (uint32_t)any());
    if (one_in(patient ? 2000 : 200))
        fill(ring(h, port), KH_RING_BYTES);
    if (one_in(2))
        set_index(h, port, KH_RSP_EVENT, h->books[port].answered + below(3));
    grant(h, port, frame, one_in(4) ? (uint8_t)below(4) : KH_GRANT_READ_WRITE);
}

/* A host zeroes a meter when it likes; near the top, more calls find a number that stays. */
static void host_writes(host *h, uint32_t port) {
    uint64_t from = one_in(2) ? 0 : UINT64_MAX - below(8);
    if (one_in(64))
        set_meter(h, port, (kh_meter){from, from, from, from});
}

/* One buffer has a wrong length for one call, once in a while. */
static bool lend_wrongly(host *h) {
    static const size_t lengths[] = {0,
                                     1,
                                     KH_PAGE_BYTES,
                                     KH_RING_BYTES,
                                     KH_GRANTS_BYTES - 1,
                                     KH_GRANTS_BYTES + 1,
                                     KH_PORTS * KH_PAGE_BYTES,
                                     KH_RINGS_BYTES - 1,
                                     KH_RINGS_BYTES + 1};
    enum area area = one_in(2) ? RINGS : GRANTS;
    if (!one_in(64))
        return false;
    resize(h, area, lengths[below(COUNT_OF(lengths))]);
    fill(h->at[area], h->bytes[area]);
    return true;
}

static void lend_rightly(host *h) {
    if (h->bytes[RINGS] != KH_RINGS_BYTES)
        resize(h, RINGS, KH_RINGS_BYTES);
    if (h->bytes[GRANTS] != KH_GRANTS_BYTES)
        resize(h, GRANTS, KH_GRANTS_BYTES);
}

/* ---- lists of calls from the empty backend, all that is due of each checked by the host */

static void call_open(host *h) {
    sheet s = any_sheet();
    count(h, CALL_OPEN, OPEN(h, any_port(), s.bytes, s.length));
}

/* Counts the response of a call that was done, by the ring that it is in. */
static void count_response(shape ring) {
    for (size_t s = 0; s < COUNT_OF(shapes); s++)
        responses[s] += shapes[s].abi == ring.abi && shapes[s].pages == ring.pages;
}

static void call_turn(host *h) {
    const uint64_t *answer = words(h, TURNED);
    uint32_t number = TURN(h);
    count(h, CALL_TURN, number);
    if (number == KH_OK) {
        check_size(h);
        check_mark(h);
        note_in_flight(h);
    }
    if (number == KH_OK && answer[KH_TURN_KIND] == KH_ANSWERED)
        count_response(h->books[answer[KH_TURN_PORT] % KH_PORTS].ring);
}

static void call_complete(host *h) {
    uint32_t port = any_port();
    uint32_t tag = one_in(16) ? (uint32_t)any() : below(KH_TAGS);
    const book *b = &h->books[port % KH_PORTS];
    if (b->busy != 0 && !one_in(8))
        while (!is_busy(b, tag))
            tag = (tag + 1) % KH_TAGS;
    const started *request = &b->tags[tag % KH_TAGS];
    uint32_t serial = one_in(16) ? (uint32_t)any() : request->serial;
    uint32_t number = COMPLETE(h, port, tag, serial, any_result(request));
    count(h, CALL_COMPLETE, number);
    if (number == KH_OK)
        count_response(b->ring);
}

/* A port whose ring is full, or any. */
static uint32_t full_port(const host *h) {
    for (uint32_t port = 0; port < KH_PORTS; port++) {
        const book *b = &h->books[port];
        if (b->ring.pages > 0 && lowest_free(b) == slots_in(b->ring))
            return port;
    }
    return any_port();
}

/* Some of the busy tags, or all, or none. */
static void call_list(host *h) {
    uint32_t port = full_port(h), most = one_in(3) ? KH_ENTRIES : below(20);
    const book *b = &h->books[port % KH_PORTS];
    list l = any_list(h, port, most);
    size_t length = any_length(&l);
    uint32_t number = COMPLETE_MANY(h, port, l.words, length);
    count(h, CALL_LIST, number);
    if (number != KH_OK)
        return;
    note_list(b, length / KH_ENTRY_WORDS);
    for (size_t i = 0; i < length / KH_ENTRY_WORDS; i++)
        count_response(b->ring);
}

/* Where completions are slow, the rings fill up. */
static void call_any(host *h, bool slow) {
    uint32_t draw = below(100);
    if (draw < 15)
        call_open(h);
    else if (draw < 20)
        count(h, CALL_CLOSE, CLOSE(h, any_port()));
    else if (draw < (slow ? 95 : 60))
        call_turn(h);
    else if (draw < (slow ? 99 : 90))
        call_complete(h);
    else
        call_list(h);
}

static void any_calls_from_the_empty_backend(host *h) {
    begin_counts();
    begin_sizes();
    memset(discards, 0, sizeof discards);
    memset(most_in_flight, 0, sizeof most_in_flight);
    memset(lists_done, 0, sizeof lists_done);
    for (int i = 0; i < CALLS; i++) {
        bool wrong, slow = i / 4096 % 4 == 1;
        guest_writes(h, below(KH_PORTS), slow);
        host_writes(h, below(KH_PORTS));
        wrong = !slow && lend_wrongly(h); /* which empties the rings */
        call_any(h, slow);
        if (wrong)
            lend_rightly(h);
    }
    end_counts();
    end_sizes();
    end_marks();
    end_in_flight();
    end_lists();
}

/* ---- calls on memory of any content, which is some backend too; no books can be kept of it */

/* What a call that was done may have changed in the rings is taken over, so that what it may not shows. */
static void take_over(const host *h, uint32_t port, unsigned at, unsigned bytes) {
    memcpy(h->before[RINGS] + KH_RING_BYTES * port + at, ring(h, port) + at, bytes);
}

/* What the ring of a port is like, by any content of its words (rule 14.3). */
static shape ring_by_words(const host *h, uint32_t port) {
    const uint64_t *kept = words_of_port((kh_memory *)(void *)h->before[MEMORY], port);
    return (shape){kept[LAYOUT] != 0 ? KH_BITS32 : KH_BITS64, (kept[PAGES] & SECOND_PAGE) != 0 ? 2 : 1};
}

/* So many of them. */
static void take_over_responses(const host *h, uint64_t port, uint64_t responses) {
    CHECK(port < KH_PORTS);
    uint32_t k = (uint32_t)port % KH_PORTS;
    shape ring = ring_by_words(h, k);
    for (uint32_t i = 1; i <= responses; i++) {
        take_over(h, k, slot_offset(ring, index_at(h, k, KH_RSP_PROD) - i), layouts[ring.abi].response);
        count_response(ring);
    }
    if (responses > 0)
        take_over(h, k, KH_RSP_PROD, 4);
}

static void turn_on_any_memory(host *h) {
    const uint64_t *answer = words(h, TURNED);
    uint32_t number =
        kh_turn(memory_of(h), h->at[RINGS], h->bytes[RINGS], h->at[GRANTS], h->bytes[GRANTS], words(h, TURNED));
    count(h, CALL_TURN, number);
    if (number == KH_OK && answer[KH_TURN_KIND] == KH_IDLE)
        for (uint32_t port = 0; port < KH_PORTS; port++)
            take_over(h, port, KH_REQ_EVENT, 4);
    if (number == KH_OK && answer[KH_TURN_KIND] == KH_ANSWERED)
        take_over_responses(h, answer[KH_TURN_PORT], 1);
    check_kept(h, number, 1 << MEMORY | 1 << TURNED);
}

static void complete_on_any_memory(host *h) {
    uint32_t tag = below(KH_TAGS + 1);
    uint32_t port = any_port();
    uint32_t serial = one_in(2) ? (uint32_t)any() : below(4);
    uint32_t number = kh_complete(memory_of(h), h->at[RINGS], h->bytes[RINGS], port, tag, serial, (int32_t)below(3) - 1,
                                  words(h, COMPLETED));
    count(h, CALL_COMPLETE, number);
    if (number == KH_OK) {
        CHECK(port < KH_PORTS && tag < slots_in(ring_by_words(h, port % KH_PORTS)));
        take_over_responses(h, words(h, COMPLETED)[KH_DONE_PORT], 1);
    }
    check_kept(h, number, 1 << MEMORY | 1 << COMPLETED);
}

/* Tags that rise, as a rule, and serials that are small, as many of those in memory are. */
static list list_of_any_words(void) {
    uint32_t most = one_in(8) ? KH_ENTRIES : below(4), tag = below(8);
    list l = {.count = 0};
    while (l.count < most) {
        uint32_t serial = below(4);
        add_entry(&l, tag, serial, (int32_t)below(3) - 1);
        tag += one_in(32) ? 0 : 1 + below(24);
    }
    if (l.count > 0 && one_in(6))
        spoil_entry(&l, entry_of(&l, below((uint32_t)l.count)));
    return l;
}

static void list_on_any_memory(host *h) {
    uint32_t port = any_port();
    list l = list_of_any_words();
    size_t length = any_length(&l), bytes = sizeof *l.words * length;
    uint64_t *lent = (uint64_t *)(void *)lend(bytes);
    bool is_judged = h->bytes[RINGS] == KH_RINGS_BYTES && length == KH_ENTRY_WORDS * l.count && port < KH_PORTS &&
                     words_of_port(memory_of(h), port % KH_PORTS)[0] != 0;
    memcpy(lent, l.words, bytes);
    if (is_judged)
        complete_one_by_one(h, port, &l);
    uint32_t number =
        kh_complete_many(memory_of(h), h->at[RINGS], h->bytes[RINGS], port, lent, length, words(h, LISTED));
    count(h, CALL_LIST, number);
    if (is_judged)
        check_as_one_by_one(h, number);
    if (number == KH_OK) {
        CHECK_EQ(words(h, LISTED)[KH_MANY_COUNT], length / KH_ENTRY_WORDS);
        take_over_responses(h, words(h, LISTED)[KH_MANY_PORT], length / KH_ENTRY_WORDS);
    }
    check_kept(h, number, (length > 0 ? 1 << MEMORY : 0) | 1 << LISTED);
    CHECK(memcmp(lent, l.words, bytes) == 0);
    give_back((uint8_t *)lent, bytes);
}

static void open_on_any_memory(host *h) {
    sheet s = any_sheet();
    uint8_t *lent = lend(s.length);
    memcpy(lent, s.bytes, s.length);
    uint32_t number = kh_open(memory_of(h), any_port(), lent, s.length);
    count(h, CALL_OPEN, number);
    check_kept(h, number, 1 << MEMORY);
    give_back(lent, s.length);
}

static void close_on_any_memory(host *h) {
    uint32_t number = kh_close(memory_of(h), any_port());
    count(h, CALL_CLOSE, number);
    check_kept(h, number, 1 << MEMORY);
}

/* Words of any size, many of them small, so that every state and flag comes; half of them stay. */
static void scribble_memory(const host *h) {
    for (int i = 0; i < KH_MEMORY_WORDS; i++)
        if (one_in(2))
            words(h, MEMORY)[i] = one_in(3) ? any() : below(4);
}

static void any_calls_on_any_memory(host *h) {
    static void (*const choices[])(host *) = {open_on_any_memory, close_on_any_memory,    turn_on_any_memory,
                                              turn_on_any_memory, complete_on_any_memory, list_on_any_memory};
    begin_counts();
    for (int i = 0; i < CALLS; i++) {
        bool wrong;
        if (i % 16 == 0)
            scribble_memory(h);
        for (uint32_t port = 0; port < KH_PORTS; port++)
            h->books[port].taken = below(8);
        guest_writes(h, below(KH_PORTS), false);
        wrong = lend_wrongly(h);
        remember(h);
        choices[below(COUNT_OF(choices))](h);
        if (wrong)
            lend_rightly(h);
    }
    end_counts();
}

int main(void) {
    static const test tests[] = {
        TEST(any_calls_from_the_empty_backend),
        TEST(any_calls_on_any_memory),
    };
    return run_tests(tests, COUNT_OF(tests));
}
