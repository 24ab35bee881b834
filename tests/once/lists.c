#include "lists.h"

#include "place.h"

static const struct taker *taker;
static const struct shape *shape;

uint32_t status_in_list(unsigned i) {
    return i % 3;
}

/* A result that has that status. */
static int32_t result_for(uint32_t status) {
    return status == 0 ? held.due : status == 1 ? held.due - 1 : KH_RESULT_NOT_SUPPORTED;
}

static unsigned slots(void) {
    return PAGE_SLOTS * shape->pages;
}

/* Leaves requests in flight, which have the tags from 0 on, and writes a list of some of them: on odd ports from the
 * first one on, on even ones from the last one back. */
static struct call list_on(const struct place *place, unsigned count) {
    prepare(place, shape, NULL);
    uint32_t serial_of_0 = bench.ports[place->port].taken - place->in_flight;
    for (unsigned i = 0; i < count; i++) {
        uint32_t tag = place->port % 2 ? i : place->in_flight - 1 - i;
        kh_write_entry(bench.entries, i, tag, serial_of_0 + tag, result_for(status_in_list(i)));
    }
    return (struct call){
        .callee = CALL_LIST, .rings_bytes = KH_RINGS_BYTES, .port = place->port, .entry_words = KH_ENTRY_WORDS * count};
}

/* rsp_event is among the indices of the responses, or on either side of them. */
static void hand_over(const char *name, const struct call *call, unsigned count, bool notify) {
    static unsigned turns;
    uint32_t old = bench.ports[call->port].answered;
    struct expect expect = {.kind = LISTED, .port = call->port, .entries = count, .notify = notify};
    turns++;
    store32(rings + header_at(call->port, RSP_EVENT), notify      ? old + 1 + turns % count
                                                      : turns % 2 ? old
                                                                  : old + count + 1);
    taker->hand_over(name, call, &expect);
}

/* ---- lists that are done */

/* The responses begin at the ring's first slot, at its last, and so that the ring ends among them. */
static void complete(const char *name, unsigned count, unsigned others_in_flight, bool broken) {
    const struct place places[] = {{3, 3, count / 2, 0, MIXED},
                                   {0, 0, count + others_in_flight, 0, ALONE},
                                   {7, 2, count + others_in_flight - 1, 0, ALL_OPEN},
                                   {4, 6, 5, 0, ALONE}};
    for (unsigned i = 0; i < 2 * sizeof places / sizeof *places && taker->is_wanted(name); i++) {
        struct place place = places[i / 2];
        place.in_flight = count + others_in_flight;
        place.slot %= slots();
        struct call call = list_on(&place, count);
        if (broken)
            overrun(place.port);
        hand_over(name, &call, count, i % 2 && count > 0);
    }
}

static void complete_from_every_slot(const char *name) {
    enum { COUNT = 3 };
    for (unsigned n = 0; n < slots() && taker->is_wanted(name); n++) {
        struct place place = {n % PORTS, n / 2 % PORTS, 2 * slots() - 1 - n, COUNT + n % 2, (n + 1) % 3};
        struct call call = list_on(&place, COUNT);
        hand_over(name, &call, COUNT, n % 2);
    }
}

static void lists_done(void) {
    complete("list of none", 0, 2, false);
    complete("list of none, port broken", 0, 2, true);
    complete("list of 1", 1, 0, false);
    complete("list of 1, others in flight", 1, 4, false);
    complete("list of 2", 2, 0, false);
    complete("list of 3, others in flight", 3, 2, false);
    complete("list of 3, port broken", 3, 2, true);
    complete("list of 8", 8, 0, false);
    complete("list of 17, others in flight", 17, 9, false);
    complete("list of all slots but one", slots() - 1, 0, false);
    complete("list of all slots but one, all in flight", slots() - 1, 1, false);
    complete("list of all slots", slots(), 0, false);
    complete("list of all slots, port broken", slots(), 0, true);
    complete_from_every_slot("list: from every slot on");
}

/* ---- lists that are refused: each differs in one thing from one that would be done */

static const struct place place = {2, 2, 4, 5, MIXED};

static void refuse(const char *name, uint32_t number, struct call call) {
    struct expect refused = {.kind = LISTED, .refusal = number};
    taker->hand_over(name, &call, &refused);
}

static void refuse_lengths(void) {
    static const size_t bytes[] = {0, PORTS * PAGE_BYTES, KH_RINGS_BYTES - 1, KH_RINGS_BYTES + 1, SIZE_MAX};
    static const size_t words[] = {1, 2, 4, 8, 10, KH_ENTRY_WORDS * KH_ENTRIES + 1, SIZE_MAX - 1};
    static const size_t too_many[] = {KH_ENTRY_WORDS * (KH_ENTRIES + 1), SIZE_MAX};
    struct call call = list_on(&place, 3), other = call;
    for (unsigned i = 0; i < sizeof bytes / sizeof *bytes; i++) {
        other.rings_bytes = bytes[i];
        refuse("list refused 1: rings", 1, other);
    }
    other = call;
    for (unsigned i = 0; i < sizeof words / sizeof *words; i++) {
        other.entry_words = words[i];
        refuse("list refused 1: words", 1, other);
    }
    for (unsigned i = 0; i < sizeof too_many / sizeof *too_many; i++) {
        other.entry_words = too_many[i];
        refuse("list refused 7", 7, other);
    }
}

static void refuse_ports(void) {
    static const struct place alone = {2, 2, 4, 5, ALONE};
    static const uint32_t ports[] = {8, UINT32_MAX};
    struct call call = list_on(&alone, 3);
    for (unsigned i = 0; i < 2; i++) {
        call.port = ports[i];
        refuse("list refused 2", 2, call);
    }
    call.port = 3;
    refuse("list refused 4", 4, call);
    call.entry_words = 0;
    refuse("list refused 4: empty", 4, call);
}

static void refuse_entry(const char *name, unsigned at, enum kh_entry_word word, uint64_t value) {
    struct call call = list_on(&place, 4);
    bench.entries[KH_ENTRY_WORDS * at + word] = value;
    refuse(name, 6, call);
}

static void refuse_entries(void) {
    static const uint64_t tags[] = {5, 31, 32, 63, 64, UINT32_MAX, UINT64_C(1) << 32};
    for (unsigned i = 0; i < sizeof tags / sizeof *tags; i++)
        refuse_entry("list refused 6: first entry", 0, KH_ENTRY_TAG, tags[i]);
    for (unsigned i = 0; i < sizeof tags / sizeof *tags; i++)
        refuse_entry("list refused 6: third entry", 2, KH_ENTRY_TAG, tags[i]);
    for (unsigned i = 0; i < sizeof tags / sizeof *tags; i++)
        refuse_entry("list refused 6: last entry", 3, KH_ENTRY_TAG, tags[i]);
    refuse_entry("list refused 6: serial", 3, KH_ENTRY_SERIAL, 99);
    refuse_entry("list refused 6: serial above 2^32 - 1", 1, KH_ENTRY_SERIAL, UINT64_MAX);
    struct call call = list_on(&place, 4);
    for (unsigned word = 0; word < KH_ENTRY_WORDS; word++)
        bench.entries[KH_ENTRY_WORDS * 3 + word] = bench.entries[word];
    refuse("list refused 6: tag twice", 6, call);
}

void each_list(const struct taker *to, const struct shape *of) {
    taker = to;
    shape = of;
    lists_done();
    refuse_lengths();
    refuse_ports();
    refuse_entries();
}
