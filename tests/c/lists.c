/*
 * Lists of completions (kh_complete_many): each refusal by its number, at every place of a list and in its order; empty
 * lists; statuses, responses and their order; notify on both sides of its line; and lists against their completions one
 * by one. For rings of every shape.
 */
#include "lists.h"
#include "port_words.h"

/*
 * Port 0 open, with its indices at a value and so many transfers in flight, reads and writes of one segment to eleven
 * in turns. Their tags go from 0 on. All that no call has to do with is rubbish.
 */
static void begin_in_flight(host *h, uint32_t first, uint32_t count) {
    BEGIN_AT_INDEX(h, first);
    memset(ring(h, 0) + KH_HEADER_BYTES, 0xEE, KH_RINGS_BYTES - KH_HEADER_BYTES);
    set_index(h, 0, KH_REQ_PROD, first);
    for (uint32_t i = 0; i < count; i++) {
        post(h, 0, transfer(i % 2 == 0 ? KH_READ : KH_WRITE, (uint8_t)(1 + i % KH_EXTENTS), 100 + i));
        CHECK_EQ(SERVE(h, 0), KH_STARTED);
    }
}

/* So many entries of a port: a tag and those that are a step on from it, each with the result that is expected. */
static list list_from(const host *h, uint32_t port, uint32_t tag, uint32_t step, uint32_t count) {
    list l = {.count = 0};
    for (uint32_t i = 0; i < count; i++)
        add_started(&l, h, port, (tag + step * i) % slots_of(h, port));
    return l;
}

/* The tags from 0 on. */
static list list_of(const host *h, uint32_t count) {
    return list_from(h, 0, 0, 1, count);
}

/* ---- 1, 2, 4 and 7 */

static void refusal_01_rings_in_a_list(host *h) {
    static const size_t lengths[] = {
        0, 1, KH_RING_BYTES, KH_PORTS * KH_PAGE_BYTES, KH_RINGS_BYTES - 1, KH_RINGS_BYTES + 1, 2 * KH_RINGS_BYTES};
    for (size_t i = 0; i < COUNT_OF(lengths); i++) {
        list l;
        begin_in_flight(h, 0, 3);
        l = list_of(h, 3);
        resize(h, RINGS, lengths[i]);
        CHECK_EQ(COMPLETE_LIST(h, 0, &l), 1);
        CHECK_EQ(COMPLETE_LIST(h, 8, &l), 1);
        CHECK_EQ(COMPLETE_LIST(h, 1, &l), 1);
        CHECK_EQ(COMPLETE_MANY(h, 0, NULL, 0), 1);
        resize(h, RINGS, KH_RINGS_BYTES);
        CHECK_EQ(COMPLETE_LIST(h, 0, &l), KH_OK);
    }
}

/* One word more or less than whole entries, whatever the entries are. */
static void refusal_01_words_of_no_whole_entries(host *h) {
    list l;
    begin_in_flight(h, 0, slots_in(h->ring));
    l = list_of(h, slots_in(h->ring));
    for (size_t count = 0; count <= KH_ENTRY_WORDS * (KH_ENTRIES + 2); count++) {
        if (count % KH_ENTRY_WORDS == 0)
            continue;
        CHECK_EQ(COMPLETE_MANY(h, 0, l.words, count), 1);
        CHECK_EQ(COMPLETE_MANY(h, 1, l.words, count), 1);
        CHECK_EQ(COMPLETE_MANY(h, 8, l.words, count), 1);
    }
    CHECK_EQ(COMPLETE_LIST(h, 0, &l), KH_OK);
}

/* Lengths that no list has: nothing of it is looked at, and no bit of its length is lost. */
static void refusal_07_greatest_lengths(host *h) {
    static const struct {
        size_t words;
        uint32_t number;
    } lines[] = {{SIZE_MAX, 7},
                 {SIZE_MAX - 1, 1},
                 {SIZE_MAX - 2, 1},
                 {SIZE_MAX - 3, 7},
                 {SIZE_MAX / 2 + 1, 1},
                 {SIZE_MAX / 2 + 2, 7},
                 {KH_ENTRY_WORDS * (UINT64_C(1) << 32), 7},
                 {KH_ENTRY_WORDS * ((UINT64_C(1) << 32) + 1), 7},
                 {KH_ENTRY_WORDS * ((UINT64_C(1) << 31) + 2), 7},
                 {UINT64_C(1) << 32, 1},
                 {KH_ENTRY_WORDS * 65536, 7},
                 {KH_ENTRY_WORDS * 256, 7},
                 {KH_ENTRY_WORDS * 257, 7},
                 {KH_ENTRY_WORDS * 65, 7}};
    uint64_t *nothing = (uint64_t *)(void *)lend(0);
    begin_in_flight(h, 0, 3);
    for (size_t i = 0; i < COUNT_OF(lines); i++) {
        uint32_t due = lines[i].number;
        remember(h);
        CHECK_EQ(
            kh_complete_many(memory_of(h), h->at[RINGS], KH_RINGS_BYTES, 0, nothing, lines[i].words, words(h, LISTED)),
            due);
        CHECK_EQ(
            kh_complete_many(memory_of(h), h->at[RINGS], KH_RINGS_BYTES, 1, nothing, lines[i].words, words(h, LISTED)),
            due == 1 ? 1 : 4);
        CHECK_EQ(
            kh_complete_many(memory_of(h), h->at[RINGS], KH_RINGS_BYTES, 8, nothing, lines[i].words, words(h, LISTED)),
            due == 1 ? 1 : 2);
        check_kept(h, due, 0);
    }
    give_back((uint8_t *)nothing, 0);
}

static void refusal_02_port_above_7_in_a_list(host *h) {
    static const uint32_t ports[] = {8, 9, 255, 256, 65536, UINT32_C(1) << 29, UINT32_C(1) << 31, UINT32_MAX};
    list l;
    begin_in_flight(h, 0, 3);
    l = list_of(h, 3);
    for (size_t i = 0; i < COUNT_OF(ports); i++) {
        CHECK_EQ(COMPLETE_LIST(h, ports[i], &l), 2);
        CHECK_EQ(COMPLETE_MANY(h, ports[i], NULL, 0), 2);
        CHECK_EQ(COMPLETE_MANY(h, ports[i], l.words, KH_ENTRY_WORDS * 65), 2);
    }
    CHECK_EQ(OPEN_NODES(h, 7, USUAL_NODES), KH_OK);
    set_index(h, 7, KH_REQ_PROD, 0);
    post(h, 7, transfer(KH_READ, 1, 0));
    CHECK_EQ(SERVE(h, 7), KH_STARTED);
    l = list_from(h, 7, 0, 1, 1);
    CHECK_EQ(COMPLETE_LIST(h, 7, &l), KH_OK);
}

static void refusal_04_port_closed_in_a_list(host *h) {
    list l = {.count = 0};
    add_entry(&l, 0, 0, 8);
    for (uint32_t port = 0; port < KH_PORTS; port++) {
        CHECK_EQ(COMPLETE_LIST(h, port, &l), 4);
        CHECK_EQ(COMPLETE_MANY(h, port, NULL, 0), 4);
        CHECK_EQ(COMPLETE_MANY(h, port, l.words, KH_ENTRY_WORDS * 65), 4);
        CHECK_EQ(OPEN_NODES(h, port, USUAL_NODES), KH_OK);
        CHECK_EQ(COMPLETE_LIST(h, port, &l), 6);
        CHECK_EQ(COMPLETE_MANY(h, port, NULL, 0), KH_OK);
        CHECK_EQ(CLOSE(h, port), KH_OK);
        CHECK_EQ(COMPLETE_MANY(h, port, NULL, 0), 4);
    }
}

/* 65 and more, the first of them good; each number that is a good one in its lowest bits too. */
static void refusal_07_more_than_64(host *h) {
    static const size_t counts[] = {65, 66, 67, 96, 127, 128, 129, 192, 255, 256, 257, 260, 320};
    uint32_t slots = slots_in(h->ring);
    begin_in_flight(h, 0, slots);
    for (size_t i = 0; i < COUNT_OF(counts); i++) {
        list l = list_of(h, slots);
        for (size_t more = slots; more < counts[i]; more++)
            add_entry(&l, (uint32_t)more, (uint32_t)more, 8);
        CHECK_EQ(COMPLETE_LIST(h, 0, &l), 7);
        l = list_from(h, 0, 0, 1, (uint32_t)counts[i]); /* tags twice, which would be 6 */
        CHECK_EQ(COMPLETE_LIST(h, 0, &l), 7);
    }
    list l = list_of(h, slots);
    CHECK_EQ(COMPLETE_LIST(h, 0, &l), KH_OK);
    CHECK_EQ(kh_read_many(words(h, LISTED)).count, slots);
}

/* 33 to 64 entries have their own tags on a ring of two pages only. */
static void refusal_06_more_than_the_ring(host *h) {
    for (uint32_t count = 32; count <= KH_ENTRIES; count++) {
        list named = {.count = 0}, repeated = {.count = 0};
        begin_in_flight(h, 0, slots_in(h->ring));
        for (uint32_t tag = 0; tag < count; tag++)
            if (tag < slots_in(h->ring))
                add_started(&named, h, 0, tag);
            else
                add_entry(&named, tag, tag, 8);
        repeated = list_from(h, 0, 0, 1, count - 1);
        add_started(&repeated, h, 0, 0);
        CHECK_EQ(COMPLETE_LIST(h, 0, &repeated), 6);
        CHECK_EQ(COMPLETE_LIST(h, 0, &named), count <= (h->ring.pages == 2 ? 64 : 32) ? KH_OK : 6);
    }
}

/* ---- 6 */

/* A word that names nothing in the place of an entry's own; the tag that comes after all busy ones is free. */
typedef struct {
    enum kh_entry_word word;
    uint64_t value;
} fault;

/* The fault of that number, for an entry; false where there are no more. */
static bool nth_fault(const uint64_t *entry, uint64_t free_tag, unsigned n, fault *f) {
    uint64_t tag = entry[KH_ENTRY_TAG], serial = entry[KH_ENTRY_SERIAL];
    const fault all[] = {
        {KH_ENTRY_TAG, free_tag},
        {KH_ENTRY_TAG, free_tag + 1},
        {KH_ENTRY_TAG, free_tag + 2},
        {KH_ENTRY_TAG, 64},
        {KH_ENTRY_TAG, 64 + tag},
        {KH_ENTRY_TAG, 256 + tag},
        {KH_ENTRY_TAG, UINT32_MAX},
        {KH_ENTRY_TAG, (UINT64_C(1) << 32) + tag},
        {KH_ENTRY_TAG, (UINT64_C(1) << 63) + tag},
        {KH_ENTRY_TAG, UINT64_MAX},
        {KH_ENTRY_SERIAL, (uint32_t)(serial + 1)},
        {KH_ENTRY_SERIAL, (uint32_t)(serial - 1)},
        {KH_ENTRY_SERIAL, serial ^ UINT64_C(1) << 31},
        {KH_ENTRY_SERIAL, (UINT64_C(1) << 32) + serial},
        {KH_ENTRY_SERIAL, (UINT64_C(1) << 63) + serial},
        {KH_ENTRY_SERIAL, ~serial},
    };
    if (n < COUNT_OF(all))
        *f = all[n];
    return n < COUNT_OF(all);
}

/* Each fault in each entry of a list, which is then done as it is without. */
static void refuse_at_every_place(host *h, uint32_t first, uint32_t count) {
    uint32_t busy = slots_in(h->ring) - 1;
    fault f;
    begin_in_flight(h, first, busy);
    list l = list_of(h, count);
    for (uint32_t place = 0; place < count; place++)
        for (unsigned n = 0; nth_fault(entry_of(&l, place), busy, n, &f); n++) {
            uint64_t *word = entry_of(&l, place) + f.word, good = *word;
            *word = f.value;
            CHECK_EQ(COMPLETE_LIST(h, 0, &l), 6);
            *word = good;
        }
    CHECK_EQ(COMPLETE_LIST(h, 0, &l), KH_OK);
    CHECK_EQ(COMPLETE_LIST(h, 0, &l), 6);
}

static void refusal_06_at_every_place(host *h) {
    static const uint32_t firsts[] = {0, 1000, UINT32_MAX - 3};
    for (size_t i = 0; i < COUNT_OF(firsts); i++)
        for (uint32_t count = 1; count < slots_in(h->ring); count = 2 * count + 1)
            refuse_at_every_place(h, firsts[i], count);
}

/* One bad entry, the last, and then more of them up to the first. */
static void refusal_06_of_every_entry(host *h) {
    begin_in_flight(h, 0, 9);
    list l = list_of(h, 9);
    for (uint32_t place = 9; place-- > 0;) {
        entry_of(&l, place)[KH_ENTRY_SERIAL] += 9;
        CHECK_EQ(COMPLETE_LIST(h, 0, &l), 6);
    }
}

/* One tag at two places, at every distance; with the same result, and with another. */
static void refusal_06_tag_twice(host *h) {
    uint32_t slots = slots_in(h->ring), counts[] = {2, 3, slots};
    begin_in_flight(h, 7, slots);
    for (size_t i = 0; i < COUNT_OF(counts); i++)
        for (uint32_t second = 1; second < counts[i]; second++)
            for (uint32_t place = 0; place < second; place++) {
                list l = list_from(h, 0, 5, 3, counts[i]);
                memcpy(entry_of(&l, second), entry_of(&l, place), KH_ENTRY_WORDS * sizeof *l.words);
                entry_of(&l, second)[KH_ENTRY_RESULT] -= (second + place) % 2;
                CHECK_EQ(COMPLETE_LIST(h, 0, &l), 6);
            }
    list l = list_of(h, slots);
    CHECK_EQ(COMPLETE_LIST(h, 0, &l), KH_OK);
}

/* One tag at every place. */
static void refusal_06_one_tag_alone(host *h) {
    begin_in_flight(h, 0, 4);
    for (uint32_t count = 2; count <= KH_ENTRIES; count++) {
        list l = list_from(h, 0, 2, 0, count);
        CHECK_EQ(COMPLETE_LIST(h, 0, &l), 6);
    }
    list l = list_from(h, 0, 2, 0, 1);
    CHECK_EQ(COMPLETE_LIST(h, 0, &l), KH_OK);
}

/*
 * Memory with tags 31 to 63 busy, each with its own number as its serial: of a ring of one page only the first of them
 * is a tag. No calls lead there, so the host's books know of that one alone.
 */
static void refusal_06_marks_beyond_the_ring_in_a_list(host *h) {
    list l = {.count = 0};
    BEGIN(h, USUAL_NODES);
    words_of_port(memory_of(h), 0)[BUSY] = h->books[0].busy = UINT64_MAX << 31;
    for (uint32_t tag = 31; tag < KH_TAGS; tag++) {
        words_of_tag(memory_of(h), 0, tag)[TAG_SERIAL] = h->books[0].tags[tag].serial = tag;
        words_of_tag(memory_of(h), 0, tag)[TAG_EXPECTED] = 8;
        h->books[0].tags[tag].expected = 8;
        add_started(&l, h, 0, tag);
    }
    for (size_t i = 1; i < l.count; i++)
        if (h->ring.pages == 1)
            CHECK_EQ(COMPLETE_MANY(h, 0, entry_of(&l, i), KH_ENTRY_WORDS), 6);
    CHECK_EQ(COMPLETE_LIST(h, 0, &l), h->ring.pages == 2 ? KH_OK : 6);
    l.count = 1;
    CHECK_EQ(COMPLETE_LIST(h, 0, &l), h->ring.pages == 2 ? 6 : KH_OK);
}

/* Completions that came before, alone or in a list: 6, unless the names are those of newer requests. */
static void refusal_06_late_lists(host *h) {
    begin_in_flight(h, 0, 4);
    list l = list_of(h, 4), newer;
    CHECK_EQ(COMPLETE(h, 0, 2, 2, -5), KH_OK);
    CHECK_EQ(COMPLETE_LIST(h, 0, &l), 6);
    l.count = 2;
    CHECK_EQ(COMPLETE_LIST(h, 0, &l), KH_OK);
    CHECK_EQ(COMPLETE_LIST(h, 0, &l), 6);
    CHECK_EQ(COMPLETE(h, 0, 0, 0, 8), 6);
    CHECK_EQ(COMPLETE(h, 0, 3, 3, -5), KH_OK);
    REOPEN(h);
    CHECK_EQ(COMPLETE_LIST(h, 0, &l), 6);
    for (uint32_t i = 0; i < 2; i++) {
        post(h, 0, transfer(KH_READ, 1, 0));
        CHECK_EQ(SERVE(h, 0), KH_STARTED);
    }
    newer = list_of(h, 2);
    l.count = newer.count;
    CHECK_EQ(COMPLETE_LIST(h, 0, &l), KH_OK);
    CHECK_EQ(COMPLETE_LIST(h, 0, &newer), 6);
}

/* ---- the order of refusals: each list of faults, and the first of them that is given */

enum {
    RINGS_FAULT = 1,
    WORDS_FAULT = 2,
    ABOVE_7 = 4,
    CLOSED_PORT = 8,
    MORE_THAN_64 = 16,
    BAD_ENTRY = 32,
    ALL_FAULTS = 63
};

static uint32_t first_of(unsigned faults) {
    if ((faults & (RINGS_FAULT | WORDS_FAULT)) != 0)
        return 1;
    if ((faults & ABOVE_7) != 0)
        return 2;
    if ((faults & CLOSED_PORT) != 0)
        return 4;
    return (faults & MORE_THAN_64) != 0 ? 7 : (faults & BAD_ENTRY) != 0 ? 6 : KH_OK;
}

static void refusals_of_a_list_in_order(host *h) {
    for (unsigned faults = 0; faults <= ALL_FAULTS; faults++) {
        begin_in_flight(h, 0, 5);
        list l = list_of(h, 5);
        size_t count = KH_ENTRY_WORDS * ((faults & MORE_THAN_64) != 0 ? 65 : l.count);
        if ((faults & BAD_ENTRY) != 0)
            entry_of(&l, 3)[KH_ENTRY_TAG] = 99;
        if ((faults & RINGS_FAULT) != 0)
            resize(h, RINGS, KH_RINGS_BYTES / 2);
        CHECK_EQ(COMPLETE_MANY(h,
                               (faults & ABOVE_7) != 0       ? 8 + faults
                               : (faults & CLOSED_PORT) != 0 ? 3
                                                             : 0,
                               l.words, count - ((faults & WORDS_FAULT) != 0)),
                 first_of(faults));
    }
}

/* ---- empty lists */

static void check_empty_list(host *h, const uint64_t *entries) {
    uint8_t *rings = h->at[RINGS];
    for (uint32_t event = 0; event < 3; event++) {
        set_index(h, 0, KH_RSP_EVENT, h->books[0].answered + event - 1);
        set_index(h, 0, KH_RSP_PROD, 77 + event);
        CHECK_EQ(COMPLETE_MANY(h, 0, entries, 0), KH_OK);
        if (placement != ON_HEAP)
            forbid(rings, KH_RINGS_BYTES, true);
        CHECK_EQ(kh_complete_many(memory_of(h), rings, KH_RINGS_BYTES, 0, entries, 0, words(h, LISTED)), KH_OK);
        if (placement != ON_HEAP)
            forbid(rings, KH_RINGS_BYTES, false);
        for (unsigned i = 0; i < KH_MANY_WORDS; i++)
            CHECK_EQ(words(h, LISTED)[i], 0);
    }
}

/* No ring byte is touched, whatever rsp_event says, and nothing is left to be done. */
static void empty_lists(host *h) {
    uint64_t *nothing = (uint64_t *)(void *)lend(0);
    begin_in_flight(h, UINT32_MAX, 3);
    check_empty_list(h, NULL);
    check_empty_list(h, nothing);
    set_index(h, 0, KH_REQ_PROD, 99);
    CHECK_EQ(SERVE(h, 0), KH_OVERRUN);
    check_empty_list(h, NULL);
    check_empty_list(h, nothing);
    list l = list_of(h, 3);
    CHECK_EQ(COMPLETE_LIST(h, 0, &l), KH_OK);
    check_empty_list(h, NULL);
    CHECK_EQ(COMPLETE_MANY(h, 1, NULL, 0), 4);
    CHECK_EQ(COMPLETE_MANY(h, 8, NULL, 0), 2);
    give_back((uint8_t *)nothing, 0);
}

/* The port in the answer of an empty list is the one that it is for. */
static void empty_lists_of_every_port(host *h) {
    for (uint32_t port = 0; port < KH_PORTS; port++) {
        CHECK_EQ(OPEN_NODES(h, port, USUAL_NODES), KH_OK);
        CHECK_EQ(COMPLETE_MANY(h, port, NULL, 0), KH_OK);
        CHECK_EQ(words(h, LISTED)[KH_MANY_PORT], port);
    }
}

/* ---- statuses */

/* The status that a word gives to a request, between two that end well. */
static int32_t status_among(host *h, request r, uint64_t result) {
    kh_completed_many completed;
    BEGIN(h, ALL_FEATURES);
    for (uint32_t i = 0; i < 3; i++) {
        post(h, 0, i == 1 ? r : transfer(KH_READ, 1, 0));
        CHECK_EQ(SERVE(h, 0), KH_STARTED);
    }
    list l = list_of(h, 3);
    entry_of(&l, 1)[KH_ENTRY_RESULT] = result;
    CHECK_EQ(COMPLETE_LIST(h, 0, &l), KH_OK);
    completed = kh_read_many(words(h, LISTED));
    CHECK(completed.port == 0 && completed.count == 3);
    CHECK(completed.statuses[0] == KH_OKAY && completed.statuses[2] == KH_OKAY);
    return completed.statuses[1];
}

/* What is expected, -95, and words that have the bits of one of them in their lower or upper half. */
static void check_results(host *h, request r, uint32_t expected) {
    const uint64_t unsupported = (uint64_t)(int64_t)KH_RESULT_NOT_SUPPORTED;
    const uint64_t others[] = {expected + 1,
                               (uint64_t)expected - 1,
                               (uint64_t)-5,
                               INT32_MAX,
                               (uint64_t)(int64_t)INT32_MIN,
                               95,
                               unsupported - 1,
                               unsupported + 1,
                               (uint32_t)KH_RESULT_NOT_SUPPORTED,
                               (UINT64_C(1) << 32) + expected,
                               (UINT64_C(1) << 33) + expected,
                               (UINT64_C(1) << 63) + expected,
                               expected - (UINT64_C(1) << 32),
                               (uint64_t)expected << 32 | 1,
                               unsupported - (UINT64_C(1) << 32),
                               unsupported ^ UINT64_C(1) << 63,
                               UINT64_MAX >> 32,
                               (uint64_t)INT64_MIN,
                               INT64_MAX};
    CHECK_EQ(status_among(h, r, expected), KH_OKAY);
    CHECK_EQ(status_among(h, r, unsupported), KH_NOT_SUPPORTED);
    for (size_t i = 0; i < COUNT_OF(others); i++)
        CHECK_EQ(status_among(h, r, others[i]), KH_ERROR);
}

static void statuses_by_the_whole_word(host *h) {
    check_results(h, transfer(KH_READ, 1, 0), 8);
    check_results(h, transfer(KH_WRITE, 11, 0), 88);
    check_results(h, transfer(KH_BARRIER, 2, 0), 16);
    check_results(h, transfer(KH_BARRIER, 0, 0), 0);
    check_results(h, transfer(KH_FLUSH, 0, 0), 0);
    check_results(h, discard(0, 0, 8), 0);
}

/* ---- responses in list order */

/* A result that has that status. */
static int32_t result_for(const started *request, uint32_t status) {
    return status == 0 ? (int32_t)request->expected : status == 1 ? -5 : KH_RESULT_NOT_SUPPORTED;
}

/* Every tag of the ring in one list, with statuses in turns: in its order they stand in answer and slots. What is in no
 * ring is out of reach. */
static void check_whole_ring(host *h, uint32_t first, uint32_t step) {
    uint32_t slots = slots_in(h->ring);
    list l = {.count = 0};
    begin_in_flight(h, first, slots);
    h->shuts = true;
    for (uint32_t i = 0; i < slots; i++) {
        uint32_t tag = step * (i + 1) % slots;
        add_entry(&l, tag, first + tag, result_for(&h->books[0].tags[tag], (i + step) % 3));
    }
    CHECK_EQ(COMPLETE_LIST(h, 0, &l), KH_OK);
    for (uint32_t i = 0; i < slots; i++) {
        uint32_t tag = step * (i + 1) % slots;
        const uint8_t *slot = slot_of(h, 0, first + i);
        CHECK_EQ(get(slot, 8), FIRST_ID + (uint32_t)(first + tag));
        CHECK_EQ(slot[8], tag % 2 == 0 ? KH_READ : KH_WRITE);
        CHECK_EQ(get(slot + 10, 2), (uint16_t)(0 - (i + step) % 3));
        CHECK_EQ(kh_read_many(words(h, LISTED)).statuses[i], -(int32_t)((i + step) % 3));
    }
    CHECK_EQ(index_at(h, 0, KH_RSP_PROD), first + slots);
}

static void responses_in_list_order(host *h) {
    static const uint32_t steps[] = {1, 63, 5, 31, 37, 33};
    for (size_t i = 0; i < COUNT_OF(steps); i++)
        check_whole_ring(h, (uint32_t)(13 * i), steps[i]);
}

/* The responses pass the ring's end, or 2^32, or both, at one place of the list after the other. */
static void responses_across_the_wrap(host *h) {
    uint32_t slots = slots_in(h->ring);
    for (uint32_t before = 0; before <= slots; before += 3) {
        check_whole_ring(h, 0 - before, 2 * before + 1);
        check_whole_ring(h, 5 * slots - before, 2 * before + 1);
    }
}

/* Lists of every length that follow each other around the ring. */
static void lists_of_every_length(host *h) {
    uint32_t slots = slots_in(h->ring), first = 0 - 3 * slots;
    begin_in_flight(h, first, 0);
    for (uint32_t count = 1; count <= slots; count++) {
        for (uint32_t i = 0; i < count; i++) {
            post(h, 0, transfer(KH_READ, 1, i));
            CHECK_EQ(SERVE(h, 0), KH_STARTED);
        }
        list l = list_from(h, 0, count - 1, slots - 1, count); /* the last tag first */
        CHECK_EQ(COMPLETE_LIST(h, 0, &l), KH_OK);
        CHECK_EQ(get(slot_of(h, 0, first), 8), FIRST_ID + (uint32_t)(first + count - 1));
        first += count;
        CHECK_EQ(index_at(h, 0, KH_RSP_PROD), first);
    }
}

/* rsp_prod is the backend's own number, whatever the page says. */
static void rsp_prod_of_our_own(host *h) {
    static const uint32_t said[] = {0, 3, 4, 77, UINT32_MAX};
    for (size_t i = 0; i < COUNT_OF(said); i++) {
        begin_in_flight(h, 3, 4);
        list l = list_of(h, 4);
        set_index(h, 0, KH_RSP_PROD, said[i]);
        set_index(h, 0, KH_RSP_EVENT, 5);
        CHECK_EQ(COMPLETE_LIST(h, 0, &l), KH_OK);
        CHECK_EQ(index_at(h, 0, KH_RSP_PROD), 7);
        CHECK_EQ(words(h, LISTED)[KH_MANY_NOTIFY], 1);
    }
}

/* What the list freed is free, the lowest first, and what it did not name is in flight. */
static void tags_come_back(host *h) {
    uint32_t slots = slots_in(h->ring), freed[] = {2, slots - 1, 7, 0};
    list l = {.count = 0};
    begin_in_flight(h, 0, slots);
    for (size_t i = 0; i < COUNT_OF(freed); i++)
        add_started(&l, h, 0, freed[i]);
    CHECK_EQ(COMPLETE_LIST(h, 0, &l), KH_OK);
    for (size_t i = 0; i < COUNT_OF(freed); i++) {
        static const uint32_t order[] = {0, 2, 7};
        post(h, 0, transfer(KH_READ, 1, 0));
        CHECK_EQ(SERVE(h, 0), KH_STARTED);
        CHECK_EQ(words(h, TURNED)[KH_TURN_TAG], i < COUNT_OF(order) ? order[i] : slots - 1);
    }
    CHECK_EQ(CLOSE(h, 0), 5);
    l = list_from(h, 0, 1, 5, slots);
    CHECK_EQ(COMPLETE_LIST(h, 0, &l), KH_OK);
    CHECK_EQ(CLOSE(h, 0), KH_OK);
    for (int i = 0; i < KH_MEMORY_WORDS - 1; i++)
        CHECK_EQ(words(h, MEMORY)[i], 0);
}

/* An overrun in between: the port is served no more, and its lists are done as before. */
static void lists_of_a_broken_port(host *h) {
    uint32_t slots = slots_in(h->ring);
    begin_in_flight(h, UINT32_MAX - 5, slots);
    set_index(h, 0, KH_REQ_PROD, 0);
    CHECK_EQ(SERVE(h, 0), KH_OVERRUN);
    for (uint32_t tag = 0; tag < slots; tag += slots / 4) {
        list l = list_from(h, 0, tag, 1, slots / 4);
        set_index(h, 0, KH_RSP_EVENT, h->books[0].answered + (tag == 0 ? 1 : 0));
        CHECK_EQ(COMPLETE_LIST(h, 0, &l), KH_OK);
        CHECK_EQ(words(h, LISTED)[KH_MANY_NOTIFY], tag == 0);
        CHECK_EQ(COMPLETE_LIST(h, 0, &l), 6);
    }
    CHECK_EQ(COMPLETE_MANY(h, 0, NULL, 0), KH_OK);
    CHECK_EQ(CLOSE(h, 0), KH_OK);
}

/* ---- notify */

static void check_notify_at(host *h, uint32_t first, uint32_t count, uint32_t event, bool due) {
    begin_in_flight(h, first, count);
    list l = list_of(h, count);
    set_index(h, 0, KH_RSP_EVENT, event);
    CHECK_EQ(COMPLETE_LIST(h, 0, &l), KH_OK);
    CHECK_EQ(words(h, LISTED)[KH_MANY_NOTIFY], due);
}

/* rsp_event from before the old index to beyond the new one: notify from old + 1 to new. */
static void notify_from_old_plus_1_to_new(host *h) {
    uint32_t slots = slots_in(h->ring);
    const uint32_t firsts[] = {0, 5, UINT32_MAX, 0 - slots / 2, UINT32_C(1) << 31}, counts[] = {1, 2, 7, slots};
    for (size_t i = 0; i < COUNT_OF(firsts); i++)
        for (size_t c = 0; c < COUNT_OF(counts); c++) {
            uint32_t old = firsts[i], new = old + counts[c];
            check_notify_at(h, old, counts[c], old - 1, false);
            check_notify_at(h, old, counts[c], old, false);
            check_notify_at(h, old, counts[c], old + 1, true);
            check_notify_at(h, old, counts[c], old + (counts[c] + 1) / 2, true);
            check_notify_at(h, old, counts[c], new, true);
            check_notify_at(h, old, counts[c], new + 1, false);
            check_notify_at(h, old, counts[c], new + (UINT32_C(1) << 31), false);
            check_notify_at(h, old, counts[c], old + (UINT32_C(1) << 31), false);
            check_notify_at(h, old, counts[c], new + slots, false);
            check_notify_at(h, old, counts[c], old - slots, false);
            check_notify_at(h, old, counts[c], old + 65536, false);
        }
}

/* ---- lists of ports of every shape, in between one another */

static void lists_of_every_port(host *h) {
    h->shuts = true;
    for (uint32_t port = 0; port < KH_PORTS; port++) {
        sheet s = sheet_for(shapes[(port + h->ring.pages + h->ring.abi) % COUNT_OF(shapes)], ALL_FEATURES);
        CHECK_EQ(OPEN(h, port, s.bytes, s.length), KH_OK);
    }
    for (uint32_t round = 1; round < 24; round++) {
        for (uint32_t i = 0; i < round * KH_PORTS; i++)
            post(h, i % KH_PORTS, i % 3 == 0 ? discard(0, i, 1) : transfer(KH_WRITE, 1, i));
        for (uint32_t i = 0; i < round * KH_PORTS; i++)
            CHECK_EQ(SERVE(h, i % KH_PORTS), KH_STARTED);
        for (uint32_t port = 0; port < KH_PORTS; port++) {
            list l = list_from(h, port, round - 1, slots_of(h, port) - 1, round);
            uint32_t other = (port + 1) % KH_PORTS;
            set_index(h, port, KH_RSP_EVENT, h->books[port].answered + 2 * (port % 2));
            if (other > port)
                CHECK_EQ(COMPLETE_MANY(h, other, entry_of(&l, 0), 2), 1);
            CHECK_EQ(COMPLETE_LIST(h, port, &l), KH_OK);
            CHECK_EQ(words(h, LISTED)[KH_MANY_PORT], port);
        }
    }
}

/* ---- a list against its completions, on copies */

static void do_check_list(host *h, const list *l) {
    uint32_t number;
    complete_one_by_one(h, 0, l);
    number = do_complete_list(h, 0, l);
    check_as_one_by_one(h, number);
    if (number == KH_OK)
        CHECK(memcmp(h->at[MEMORY], &one_by_one.memory, sizeof one_by_one.memory) == 0);
}

#define CHECK_LIST(h, l) MADE_HERE(do_check_list(h, l))

/* Every ring byte and every word of memory. */
static void lists_against_one_by_one(host *h) {
    unsigned done = 0, refused = 0;
    state = 9;
    for (uint32_t opening = 0; opening < 12; opening++) {
        begin_in_flight(h, 0 - 40 * opening, 0);
        for (uint32_t step = 0; step < 60; step++) {
            uint32_t more = below(slots_in(h->ring) + 1 - (h->books[0].taken - h->books[0].answered));
            for (; more > 0; more--) {
                post(h, 0, transfer(KH_READ, 1, more));
                CHECK_EQ(SERVE(h, 0), KH_STARTED);
            }
            list l = any_list(h, 0, below(KH_ENTRIES + 1));
            set_index(h, 0, KH_RSP_EVENT, h->books[0].answered + below((uint32_t)l.count + 3) - 1);
            set_index(h, 0, KH_RSP_PROD, (uint32_t)any());
            CHECK_LIST(h, &l);
            done += one_by_one.refused == 0 && l.count > 1;
            refused += one_by_one.refused > 0;
        }
    }
    CHECK(done > 200 && refused > 20);
}

/* ---- a list of one is kh_complete */

/* Its number, and where it is done its answer, memory and rings. */
static void check_list_of_one(host *h, uint32_t port, uint32_t tag, uint32_t serial, int32_t result) {
    static kh_memory memory;
    static uint8_t rings[KH_RINGS_BYTES];
    uint64_t done[KH_DONE_WORDS] = {0};
    list l = {.count = 0};
    const uint64_t *answer = words(h, LISTED);
    add_entry(&l, tag, serial, result);
    memcpy(&memory, h->at[MEMORY], sizeof memory);
    memcpy(rings, h->at[RINGS], sizeof rings);
    CHECK_EQ(COMPLETE_LIST(h, port, &l), kh_complete(&memory, rings, sizeof rings, port, tag, serial, result, done));
    CHECK(memcmp(h->at[MEMORY], &memory, sizeof memory) == 0);
    CHECK(memcmp(h->at[RINGS], rings, sizeof rings) == 0);
    if (answer[KH_MANY_COUNT] == 1) {
        CHECK_EQ(answer[KH_MANY_PORT], done[KH_DONE_PORT]);
        CHECK_EQ(answer[KH_MANY_STATUSES], done[KH_DONE_STATUS]);
        CHECK_EQ(answer[KH_MANY_NOTIFY], done[KH_DONE_NOTIFY]);
    }
}

static void list_of_one(host *h) {
    static const int32_t results[] = {8, 16, -95, -94, -5, 0, INT32_MIN, INT32_MAX};
    for (uint32_t event = 0; event < 3; event++)
        for (size_t i = 0; i < COUNT_OF(results); i++) {
            begin_in_flight(h, UINT32_MAX, 2);
            set_index(h, 0, KH_RSP_EVENT, UINT32_MAX + event);
            check_list_of_one(h, 0, 1, 1, results[i]);
            check_list_of_one(h, 0, 1, UINT32_MAX, results[i]);
            check_list_of_one(h, 0, 2, 1, results[i]);
            check_list_of_one(h, 0, UINT32_MAX, 0, results[i]);
            check_list_of_one(h, 5, 1, 0, results[i]);
            check_list_of_one(h, 8, 1, 0, results[i]);
            check_list_of_one(h, 0, 1, 0, results[i]);
            check_list_of_one(h, 0, 1, 0, results[i]);
            check_list_of_one(h, 0, 0, UINT32_MAX, results[i]);
        }
}

int main(void) {
    static const test tests[] = {
        TEST(refusal_01_rings_in_a_list),
        TEST(refusal_01_words_of_no_whole_entries),
        TEST(refusal_02_port_above_7_in_a_list),
        TEST(refusal_04_port_closed_in_a_list),
        TEST(refusal_07_more_than_64),
        TEST(refusal_07_greatest_lengths),
        TEST(refusal_06_more_than_the_ring),
        TEST(refusal_06_of_every_entry),
        TEST(refusal_06_one_tag_alone),
        TEST(refusal_06_marks_beyond_the_ring_in_a_list),
        TEST(refusal_06_late_lists),
        TEST(refusals_of_a_list_in_order),
        TEST(empty_lists),
        TEST(empty_lists_of_every_port),
        TEST(statuses_by_the_whole_word),
        TEST(responses_in_list_order),
        TEST(responses_across_the_wrap),
        TEST(lists_of_every_length),
        TEST(rsp_prod_of_our_own),
        TEST(tags_come_back),
        TEST(lists_of_a_broken_port),
        TEST(notify_from_old_plus_1_to_new),
        TEST(lists_of_every_port),
        TEST(lists_against_one_by_one),
        TEST(list_of_one),
        TEST(refusal_06_tag_twice),
        TEST(refusal_06_at_every_place),
    };
    return run_in_every_shape(tests, COUNT_OF(tests));
}
