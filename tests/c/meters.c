/*
 * Meters, by the numbers of their rules: what each answer raises, through calls and with words that no call leaves;
 * what is at the top; and whose record it is. The host checks after every call that the records are what it counted;
 * here are the numbers by themselves.
 */
#include "any.h"
#include "test.h"

enum { NUMBERS = 4, TAKEN = 0, OKAY, ERROR, NOT_SUPPORTED, NONE };

/* A record by its names, and by the places of its numbers. */
typedef union {
    kh_meter named;
    uint64_t at[NUMBERS];
} record;

_Static_assert(sizeof(record) == sizeof(kh_meter), "four numbers and no more");

static void check_meter(const host *h, uint32_t port, uint64_t taken, uint64_t okay, uint64_t error,
                        uint64_t not_supported) {
    const kh_meter *meter = meter_of(h, port);
    CHECK_EQ(meter->taken, taken);
    CHECK_EQ(meter->okay, okay);
    CHECK_EQ(meter->error, error);
    CHECK_EQ(meter->not_supported, not_supported);
}

/* Starts so many reads on a port. */
static void do_start(host *h, uint32_t port, unsigned reads) {
    for (unsigned i = 0; i < reads; i++) {
        post(h, port, transfer(KH_READ, 1, 0));
        CHECK_EQ(do_serve(h, port), KH_STARTED);
    }
}

#define START(h, port, reads) MADE_HERE(do_start(h, port, reads))

/* ---- what an answer raises */

static void rule_15_04_started(host *h) {
    request all[] = {transfer(KH_READ, 1, 0),    transfer(KH_WRITE, 11, 0), transfer(KH_BARRIER, 1, 0),
                     transfer(KH_BARRIER, 0, 0), transfer(KH_FLUSH, 0, 0),  discard(0, 0, 8),
                     discard(1, 0, 2008)};
    BEGIN(h, ALL_FEATURES);
    for (size_t i = 0; i < COUNT_OF(all); i++) {
        post(h, 0, all[i]);
        CHECK_EQ(SERVE(h, 0), KH_STARTED);
        check_meter(h, 0, i + 1, 0, 0, 0);
    }
}

/* A flag that the disk ignores is not counted as not supported. */
static void rule_15_04_secure_flag_ignored(host *h) {
    BEGIN(h, "1:w 4:1 6:512 7:2008");
    for (uint64_t n = 1; n <= 3; n++) {
        CHECK_EQ(JUDGE(h, discard(1, 0, 8)), 0);
        check_meter(h, 0, n, n, 0, 0);
    }
}

static void rule_15_04_answered(host *h) {
    struct {
        const char *nodes;
        request r;
        uint32_t reason;
    } lines[] = {
        {USUAL_NODES, transfer(4, 1, 0), 21},
        {USUAL_NODES, transfer(KH_FLUSH, 0, 0), 22},
        {"1:w 4:1 6:512 7:2008", discard(1, 2001, 8), 28},
        {"1:r 6:512 7:2008", transfer(KH_WRITE, 1, 0), 24},
        {USUAL_NODES, transfer(KH_READ, 0, 0), 25},
        {USUAL_NODES, transfer(KH_READ, 2, 0), 26},
        {USUAL_NODES, transfer(KH_READ, 1, 0), 27},
        {USUAL_NODES, transfer(KH_READ, 1, 2008), 28},
        {"1:w 6:4096 7:2008", transfer(KH_READ, 1, 1), 29},
    };
    lines[5].r.segments[1].last = 8;
    lines[6].r.segments[0].frame = 16;
    for (size_t i = 0; i < COUNT_OF(lines); i++) {
        bool supported = lines[i].reason > 22;
        BEGIN(h, lines[i].nodes);
        for (uint64_t n = 1; n <= 3; n++) {
            CHECK_EQ(JUDGE(h, lines[i].r), lines[i].reason);
            check_meter(h, 0, n, 0, supported ? n : 0, supported ? 0 : n);
        }
    }
}

static void rule_15_04_completed(host *h) {
    static const struct {
        int32_t result;
        uint64_t okay, error, not_supported; /* from then on */
    } lines[] = {{8, 1, 0, 0}, {-5, 1, 1, 0}, {-95, 1, 1, 1}, {7, 1, 2, 1}, {8, 2, 2, 1}, {-95, 2, 2, 2}};
    BEGIN(h, USUAL_NODES);
    START(h, 0, COUNT_OF(lines));
    for (uint32_t i = 0; i < COUNT_OF(lines); i++) {
        CHECK_EQ(COMPLETE(h, 0, i, i, lines[i].result), KH_OK);
        check_meter(h, 0, COUNT_OF(lines), lines[i].okay, lines[i].error, lines[i].not_supported);
    }
}

/* Each entry by its own status, and no request as taken. */
static void rule_15_04_listed(host *h) {
    static const int32_t results[] = {8, -95, -5, 8, 7, 8, -95};
    list l = {.count = 0};
    BEGIN(h, USUAL_NODES);
    START(h, 0, 20);
    for (uint32_t tag = 0; tag < COUNT_OF(results); tag++)
        add_entry(&l, tag, tag, results[tag]);
    CHECK_EQ(COMPLETE_LIST(h, 0, &l), KH_OK);
    check_meter(h, 0, 20, 3, 2, 2);
    CHECK_EQ(COMPLETE_MANY(h, 0, NULL, 0), KH_OK);
    check_meter(h, 0, 20, 3, 2, 2);
    for (l.count = 0; l.count < 13;)
        add_started(&l, h, 0, (uint32_t)l.count + 7);
    CHECK_EQ(COMPLETE_LIST(h, 0, &l), KH_OK);
    check_meter(h, 0, 20, 16, 2, 2);
}

static void rule_15_04_full_list(host *h) {
    uint32_t slots = slots_in(h->ring);
    list l = {.count = 0};
    BEGIN(h, USUAL_NODES);
    START(h, 0, slots);
    while (l.count < slots)
        add_entry(&l, (uint32_t)l.count, (uint32_t)l.count, l.count < 3 ? -95 : 8);
    CHECK_EQ(COMPLETE_LIST(h, 0, &l), KH_OK);
    check_meter(h, 0, slots, slots - 3, 0, 3);
}

static void rule_15_04_idle(host *h) {
    CHECK_EQ(SERVE(h, 0), KH_IDLE); /* no port open */
    BEGIN(h, USUAL_NODES);
    CHECK_EQ(SERVE(h, 0), KH_IDLE);
    check_meter(h, 0, 0, 0, 0, 0);
    START(h, 0, 1);
    CHECK_EQ(SERVE(h, 0), KH_IDLE);
    check_meter(h, 0, 1, 0, 0, 0);
}

static void rule_15_04_overrun(host *h) {
    BEGIN(h, USUAL_NODES);
    START(h, 0, 2);
    set_index(h, 0, KH_REQ_PROD, slots_of(h, 0) + 1);
    CHECK_EQ(SERVE(h, 0), KH_OVERRUN);
    check_meter(h, 0, 2, 0, 0, 0);
}

/* What names no port, an idle turn or a refusal, goes to any record. */
static void hand_to_each(const host *h, enum area area, uint32_t number) {
    for (uint32_t port = 0; port < KH_PORTS; port++)
        hand_over(h, area, number, port);
}

/* A refused call leaves in the answer's words what the call before it put there, which was handed over then. */
static void refuse_turns(host *h) {
    static const size_t lengths[][2] = {
        {KH_RINGS_BYTES - 1, KH_GRANTS_BYTES}, {KH_RINGS_BYTES, KH_GRANTS_BYTES - 1}, {0, KH_GRANTS_BYTES}, {0, 0}};
    for (size_t i = 0; i < COUNT_OF(lengths); i++) {
        uint32_t number =
            kh_turn(memory_of(h), h->at[RINGS], lengths[i][0], h->at[GRANTS], lengths[i][1], words(h, TURNED));
        CHECK_EQ(number, 1);
        hand_to_each(h, TURNED, number);
    }
}

static void rule_15_04_refused_turn(host *h) {
    BEGIN(h, USUAL_NODES);
    START(h, 0, 1);
    refuse_turns(h);
    check_meter(h, 0, 1, 0, 0, 0);
    CHECK_EQ(JUDGE(h, transfer(KH_READ, 0, 0)), 25);
    refuse_turns(h);
    check_meter(h, 0, 2, 0, 1, 0);
    CHECK_EQ(JUDGE(h, transfer(4, 0, 0)), 21);
    refuse_turns(h);
    check_meter(h, 0, 3, 0, 1, 1);
}

/* The same of completions: each refusal, after one that was done. */
static void refuse_completions(host *h) {
    static const struct {
        size_t rings_bytes;
        uint32_t port, tag, serial, number;
    } lines[] = {
        {KH_RINGS_BYTES - 1, 0, 3, 3, 1}, {0, 0, 3, 3, 1},
        {KH_RINGS_BYTES, 8, 3, 3, 2},     {KH_RINGS_BYTES, UINT32_MAX, 3, 3, 2},
        {KH_RINGS_BYTES, 1, 3, 3, 4},     {KH_RINGS_BYTES, 0, 64, 3, 6},
        {KH_RINGS_BYTES, 0, 4, 3, 6},     {KH_RINGS_BYTES, 0, 3, 4, 6},
    };
    for (size_t i = 0; i < COUNT_OF(lines); i++) {
        uint32_t number = kh_complete(memory_of(h), h->at[RINGS], lines[i].rings_bytes, lines[i].port, lines[i].tag,
                                      lines[i].serial, 8, words(h, COMPLETED));
        CHECK_EQ(number, lines[i].number);
        hand_to_each(h, COMPLETED, number);
    }
}

static void rule_15_04_refused_completion(host *h) {
    static const int32_t results[] = {8, -5, -95};
    BEGIN(h, USUAL_NODES);
    START(h, 0, 4);
    for (uint32_t tag = 0; tag < COUNT_OF(results); tag++) {
        CHECK_EQ(COMPLETE(h, 0, tag, tag, results[tag]), KH_OK);
        refuse_completions(h);
    }
    check_meter(h, 0, 4, 1, 1, 1);
    CHECK_EQ(COMPLETE(h, 0, 3, 3, 8), KH_OK);
    check_meter(h, 0, 4, 2, 1, 1);
}

/* The same of lists: what one that was done left in the words is not counted again. */
static void rule_15_04_refused_list(host *h) {
    list l = {.count = 0};
    BEGIN(h, USUAL_NODES);
    START(h, 0, 4);
    for (uint32_t tag = 0; tag < 3; tag++)
        add_entry(&l, tag, tag, tag == 1 ? -5 : 8);
    CHECK_EQ(COMPLETE_LIST(h, 0, &l), KH_OK);
    for (uint32_t i = 0; i < 5; i++) {
        static const uint32_t ports[] = {0, 8, 1, 0, 0}, numbers[] = {1, 2, 4, 7, 6};
        static const size_t counts[] = {8, 9, 9, KH_ENTRY_WORDS * 65, 9};
        uint32_t number = kh_complete_many(memory_of(h), h->at[RINGS], KH_RINGS_BYTES, ports[i], l.words, counts[i],
                                           words(h, LISTED));
        CHECK_EQ(number, numbers[i]);
        hand_to_each(h, LISTED, number);
    }
    check_meter(h, 0, 4, 2, 1, 0);
}

/* ---- numbers at the top */

/* Each way to be answered, once: 5 taken, 1 okay, 2 error, 2 not supported. */
static void answer_in_all_ways(host *h) {
    REOPEN(h);
    START(h, 0, 3);
    CHECK_EQ(COMPLETE(h, 0, 0, 0, 8), KH_OK);
    CHECK_EQ(COMPLETE(h, 0, 1, 1, -5), KH_OK);
    CHECK_EQ(COMPLETE(h, 0, 2, 2, -95), KH_OK);
    CHECK_EQ(JUDGE(h, transfer(KH_READ, 0, 0)), 25);
    CHECK_EQ(JUDGE(h, transfer(4, 0, 0)), 21);
}

/* Numbers so far below the top where a bit of `high` is set, and small ones elsewhere, raised in all ways. */
static void raise_from(host *h, unsigned high, uint64_t below_top) {
    static const uint64_t by[NUMBERS] = {5, 1, 2, 2};
    record from, due;
    for (unsigned i = 0; i < NUMBERS; i++) {
        bool is_high = (high >> i & 1) != 0;
        from.at[i] = is_high ? UINT64_MAX - below_top : 100 * i;
        due.at[i] = is_high && below_top < by[i] ? UINT64_MAX : from.at[i] + by[i];
    }
    set_meter(h, 0, from.named);
    answer_in_all_ways(h);
    check_meter(h, 0, due.named.taken, due.named.okay, due.named.error, due.named.not_supported);
}

/* A list passes the top with one of its entries and not with another. */
static void rule_15_02_lists_stop_at_the_top(host *h) {
    static const int32_t results[] = {8, -5, -95, 8, -5, 8};
    for (uint64_t below_top = 0; below_top < 5; below_top++) {
        uint64_t from = UINT64_MAX - below_top;
        list l = {.count = 0};
        BEGIN(h, USUAL_NODES);
        START(h, 0, COUNT_OF(results));
        set_meter(h, 0, (kh_meter){7, from, from, from});
        for (uint32_t tag = 0; tag < COUNT_OF(results); tag++)
            add_entry(&l, tag, tag, results[tag]);
        CHECK_EQ(COMPLETE_LIST(h, 0, &l), KH_OK);
        check_meter(h, 0, 7, below_top < 3 ? UINT64_MAX : from + 3, below_top < 2 ? UINT64_MAX : from + 2,
                    below_top < 1 ? UINT64_MAX : from + 1);
    }
}

static void rule_15_02_each_number_stops_at_the_top_by_itself(host *h) {
    BEGIN(h, USUAL_NODES);
    for (unsigned high = 0; high < 1 << NUMBERS; high++)
        for (uint64_t below_top = 0; below_top < 7; below_top++)
            raise_from(h, high, below_top);
}

/* ---- whose record it is, and since when it counts */

/* Port p takes p + 1 requests, one by one with all others, and answers them in its own way. */
static void rule_15_03_ports_apart(host *h) {
    static const int32_t results[] = {8, -5, -95};
    for (uint32_t port = 0; port < KH_PORTS; port++)
        CHECK_EQ(OPEN_NODES(h, port, USUAL_NODES), KH_OK);
    for (uint32_t n = 0; n < KH_PORTS; n++)
        for (uint32_t port = n; port < KH_PORTS; port++)
            post(h, port, transfer(KH_READ, 1, 0));
    for (uint32_t n = 0; n < KH_PORTS; n++)
        for (uint32_t port = n; port < KH_PORTS; port++) {
            CHECK_EQ(SERVE(h, port), KH_STARTED);
            CHECK_EQ(COMPLETE(h, port, 0, n, results[port % 3]), KH_OK);
        }
    for (uint32_t port = 0; port < KH_PORTS; port++)
        check_meter(h, port, port + 1, port % 3 == 0 ? port + 1 : 0, port % 3 == 1 ? port + 1 : 0,
                    port % 3 == 2 ? port + 1 : 0);
}

/* A request that was taken before and is answered after is counted after, as an answer alone. */
static void rule_15_05_zeroed_by_a_store(host *h) {
    BEGIN(h, USUAL_NODES);
    START(h, 0, 3);
    CHECK_EQ(COMPLETE(h, 0, 0, 0, 8), KH_OK);
    set_meter(h, 0, (kh_meter){0, 0, 0, 0});
    CHECK_EQ(SERVE(h, 0), KH_IDLE);
    check_meter(h, 0, 0, 0, 0, 0);
    CHECK_EQ(COMPLETE(h, 0, 1, 1, 8), KH_OK);
    CHECK_EQ(COMPLETE(h, 0, 2, 2, -5), KH_OK);
    check_meter(h, 0, 0, 1, 1, 0);
    START(h, 0, 1);
    check_meter(h, 0, 1, 1, 1, 0);
}

static void rule_15_07_counts_on_over_openings(host *h) {
    BEGIN(h, USUAL_NODES);
    for (uint64_t opening = 1; opening <= 4; opening++) {
        answer_in_all_ways(h);
        check_meter(h, 0, 5 * opening, opening, 2 * opening, 2 * opening);
    }
    CHECK_EQ(CLOSE(h, 0), KH_OK);
    CHECK_EQ(COMPLETE(h, 0, 0, 0, 8), KH_IS_CLOSED);
    check_meter(h, 0, 20, 4, 8, 8);
}

static void rule_15_07_broken_port(host *h) {
    BEGIN(h, USUAL_NODES);
    START(h, 0, 4);
    set_index(h, 0, KH_REQ_PROD, 3);
    CHECK_EQ(SERVE(h, 0), KH_OVERRUN);
    CHECK_EQ(COMPLETE(h, 0, 3, 3, 8), KH_OK);
    CHECK_EQ(COMPLETE(h, 0, 1, 1, -5), KH_OK);
    CHECK_EQ(COMPLETE(h, 0, 0, 0, -95), KH_OK);
    CHECK_EQ(COMPLETE(h, 0, 0, 0, 8), KH_NOT_BUSY);
    CHECK_EQ(COMPLETE(h, 0, 2, 2, 8), KH_OK);
    check_meter(h, 0, 4, 2, 1, 1);
    REOPEN(h);
    START(h, 0, 1);
    check_meter(h, 0, 5, 2, 1, 1);
}

static void rule_15_08_idle_goes_to_any_record(host *h) {
    BEGIN(h, USUAL_NODES);
    START(h, 0, 1);
    CHECK_EQ(SERVE(h, 0), KH_IDLE);
    hand_to_each(h, TURNED, KH_OK);
    check_meter(h, 0, 1, 0, 0, 0);
    for (uint32_t port = 1; port < KH_PORTS; port++)
        check_meter(h, port, 0, 0, 0, 0);
}

static void rule_15_09_begun_elsewhere(host *h) {
    BEGIN(h, USUAL_NODES);
    set_meter(h, 0, (kh_meter){10, 200, 3000, 40000});
    answer_in_all_ways(h);
    check_meter(h, 0, 15, 201, 3002, 40002);
}

/* ---- any words, handed to a record that has nothing beside it */

enum { TIMES = 16 };

static const struct {
    uint64_t word;
    bool takes, answers;
} kinds[] = {
    {0, false, false},
    {1, true, false},
    {2, true, true},
    {3, false, false},
    {4, false, false},
    {5, false, false},
    {UINT64_C(1) << 32, false, false},
    {(UINT64_C(1) << 32) + 1, false, false},
    {(UINT64_C(1) << 32) + 2, false, false},
    {UINT64_MAX, false, false},
};

static const struct {
    uint64_t word;
    unsigned number;
} statuses[] = {
    {0, OKAY},
    {1, ERROR},
    {2, NOT_SUPPORTED},
    {3, NONE},
    {255, NONE},
    {UINT64_C(1) << 32, NONE},
    {(UINT64_C(1) << 32) + 1, NONE},
    {(UINT64_C(1) << 32) + 2, NONE},
    {UINT64_MAX - 1, NONE}, /* -2 and -1 with their sign */
    {UINT64_MAX, NONE},
};

/* Any numbers, some at the top and some next to it. */
static record any_record(void) {
    record any_of;
    for (unsigned i = 0; i < NUMBERS; i++)
        any_of.at[i] = one_in(3) ? UINT64_MAX - below(2) : any();
    return any_of;
}

/* Any words in all answers, but for these in the places that count. The list has one entry. */
static void put_words(const host *h, uint64_t kind, uint64_t status) {
    fill(h->at[TURNED], h->bytes[TURNED]);
    fill(h->at[COMPLETED], h->bytes[COMPLETED]);
    fill(h->at[LISTED], h->bytes[LISTED]);
    words(h, TURNED)[KH_TURN_KIND] = kind;
    words(h, TURNED)[KH_TURN_STATUS] = status;
    words(h, COMPLETED)[KH_DONE_STATUS] = status;
    words(h, LISTED)[KH_MANY_COUNT] = 1;
    words(h, LISTED)[KH_MANY_STATUSES] = status;
}

static void check_raised(const host *h, enum area area, uint32_t returned, record from, record due) {
    record *lent = (record *)(void *)lend(sizeof *lent);
    *lent = from;
    raise_meter(h, area, &lent->named, returned);
    for (unsigned i = 0; i < NUMBERS; i++)
        CHECK_EQ(lent->at[i], due.at[i]);
    give_back((uint8_t *)lent, sizeof *lent);
}

/* A record with some of its numbers raised. */
static record with_raised(record from, bool taken, unsigned number) {
    if (taken)
        raise_number(&from.at[TAKEN]);
    if (number != NONE)
        raise_number(&from.at[number]);
    return from;
}

static void rule_15_11_any_words_of_a_turn(host *h) {
    state = 1;
    for (size_t i = 0; i < TIMES * COUNT_OF(kinds) * COUNT_OF(statuses); i++) {
        size_t kind = i % COUNT_OF(kinds), status = i / COUNT_OF(kinds) % COUNT_OF(statuses);
        record from = any_record();
        put_words(h, kinds[kind].word, statuses[status].word);
        check_raised(h, TURNED, KH_OK, from,
                     with_raised(from, kinds[kind].takes, kinds[kind].answers ? statuses[status].number : NONE));
    }
}

static void rule_15_11_any_words_of_a_completion(host *h) {
    state = 2;
    for (size_t i = 0; i < TIMES * COUNT_OF(statuses); i++) {
        size_t status = i % COUNT_OF(statuses);
        record from = any_record();
        put_words(h, any(), statuses[status].word);
        check_raised(h, COMPLETED, KH_OK, from, with_raised(from, false, statuses[status].number));
    }
}

/* A number of entries, and for how many of them it counts. */
static const struct {
    uint64_t word;
    unsigned entries;
} numbers_of_entries[] = {
    {0, 0},
    {1, 1},
    {2, 2},
    {3, 3},
    {31, 31},
    {63, 63},
    {64, 64},
    {65, 64},
    {66, 64},
    {68, 64},
    {128, 64},
    {255, 64},
    {256, 64},
    {257, 64},
    {UINT64_C(1) << 32, 64},
    {(UINT64_C(1) << 32) + 1, 64},
    {(UINT64_C(1) << 63) + 5, 64},
    {UINT64_MAX, 64},
};

static void rule_15_12_any_words_of_a_list(host *h) {
    state = 5;
    for (size_t i = 0; i < 4 * TIMES * COUNT_OF(numbers_of_entries); i++) {
        size_t line = i % COUNT_OF(numbers_of_entries);
        record from = any_record(), due = from;
        put_words(h, any(), any());
        words(h, LISTED)[KH_MANY_COUNT] = numbers_of_entries[line].word;
        for (unsigned entry = 0; entry < KH_ENTRIES; entry++) {
            size_t status = one_in(2) ? below(3) : below(COUNT_OF(statuses));
            words(h, LISTED)[KH_MANY_STATUSES + entry] = statuses[status].word;
            if (entry < numbers_of_entries[line].entries)
                due = with_raised(due, false, statuses[status].number);
        }
        check_raised(h, LISTED, KH_OK, from, due);
    }
}

/* The status of one entry counts as it stands, at each place. */
static void rule_15_12_every_place_of_a_list(host *h) {
    state = 6;
    for (size_t i = 0; i < KH_ENTRIES * COUNT_OF(statuses); i++) {
        size_t place = i / COUNT_OF(statuses), status = i % COUNT_OF(statuses);
        record from = any_record();
        put_words(h, any(), any());
        words(h, LISTED)[KH_MANY_COUNT] = place + 1;
        for (size_t entry = 0; entry < KH_ENTRIES; entry++)
            words(h, LISTED)[KH_MANY_STATUSES + entry] = entry <= place ? 3 : 0;
        words(h, LISTED)[KH_MANY_STATUSES + place] = statuses[status].word;
        check_raised(h, LISTED, KH_OK, from, with_raised(from, false, statuses[status].number));
    }
}

static void rule_15_10_any_number_returned(host *h) {
    static const uint32_t numbers[] = {1, 2, 6, 7, 255, 256, UINT32_C(1) << 31, UINT32_MAX};
    state = 3;
    for (size_t i = 0; i < COUNT_OF(numbers) * COUNT_OF(kinds) * COUNT_OF(statuses); i++) {
        uint32_t returned = numbers[i % COUNT_OF(numbers)];
        record from = any_record();
        put_words(h, kinds[i / COUNT_OF(numbers) % COUNT_OF(kinds)].word, statuses[i % COUNT_OF(statuses)].word);
        check_raised(h, TURNED, returned, from, from);
        check_raised(h, COMPLETED, returned, from, from);
        check_raised(h, LISTED, returned, from, from);
    }
}

/* A record anywhere in a page of any bytes, as aligned as a word is and no more: all other bytes stay. */
static void rule_15_11_nothing_else_is_written(host *h) {
    size_t bytes = in_pages(1), after;
    uint8_t *page = lend(bytes), *before = lend(bytes);
    state = 4;
    for (size_t at = 0; (after = at + sizeof(kh_meter)) <= bytes; at += sizeof(uint64_t)) {
        fill(page, bytes);
        memcpy(before, page, bytes);
        put_words(h, 1 + below(2), below(3));
        raise_meter(h, TURNED, (kh_meter *)(void *)(page + at), KH_OK);
        raise_meter(h, COMPLETED, (kh_meter *)(void *)(page + at), KH_OK);
        raise_meter(h, LISTED, (kh_meter *)(void *)(page + at), KH_OK);
        CHECK(memcmp(page + at, before + at, sizeof(kh_meter)) != 0);
        CHECK(memcmp(page, before, at) == 0 && memcmp(page + after, before + after, bytes - after) == 0);
    }
    give_back(page, bytes);
    give_back(before, bytes);
}

int main(void) {
    static const test calls[] = {
        TEST(rule_15_02_each_number_stops_at_the_top_by_itself),
        TEST(rule_15_02_lists_stop_at_the_top),
        TEST(rule_15_03_ports_apart),
        TEST(rule_15_04_started),
        TEST(rule_15_04_secure_flag_ignored),
        TEST(rule_15_04_answered),
        TEST(rule_15_04_completed),
        TEST(rule_15_04_listed),
        TEST(rule_15_04_full_list),
        TEST(rule_15_04_idle),
        TEST(rule_15_04_overrun),
        TEST(rule_15_04_refused_turn),
        TEST(rule_15_04_refused_completion),
        TEST(rule_15_04_refused_list),
        TEST(rule_15_05_zeroed_by_a_store),
        TEST(rule_15_07_counts_on_over_openings),
        TEST(rule_15_07_broken_port),
        TEST(rule_15_08_idle_goes_to_any_record),
        TEST(rule_15_09_begun_elsewhere),
    };
    static const test any_words[] = {
        TEST(rule_15_10_any_number_returned),       TEST(rule_15_11_any_words_of_a_turn),
        TEST(rule_15_11_any_words_of_a_completion), TEST(rule_15_12_any_words_of_a_list),
        TEST(rule_15_12_every_place_of_a_list),     TEST(rule_15_11_nothing_else_is_written),
    };
    int failed = run_in_every_shape(calls, COUNT_OF(calls));
    return run_tests(any_words, COUNT_OF(any_words)) | failed;
}
