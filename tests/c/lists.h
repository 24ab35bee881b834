/* Lists of completions by chance, and what comes of their completions made one by one on copies: a list is that. */
#ifndef LISTS_H
#define LISTS_H

#include "any.h"
#include "test.h"

/* An entry's result: the one that is there, or another; some don't fit 32 bits. */
static inline void change_result(uint64_t *entry) {
    static const int64_t results[] = {0, 8, -5, -95, INT32_MIN, INT64_MIN, (INT64_C(1) << 32) + 8};
    if (one_in(3))
        entry[KH_ENTRY_RESULT] = (uint64_t)results[below(COUNT_OF(results))];
}

/* One that names nothing, or what another names, or that is good all the same. */
static inline void spoil_entry(list *l, uint64_t *entry) {
    uint64_t *word = entry + below(KH_ENTRY_RESULT);
    switch (below(4)) {
    case 0:
        memcpy(entry, entry_of(l, below((uint32_t)l->count)), KH_ENTRY_WORDS * sizeof *entry);
        break;
    case 1:
        *word = any();
        break;
    case 2:
        *word += UINT64_C(1) << (16 + below(48));
        break;
    default:
        *word = below(KH_TAGS + 1);
    }
}

/* Busy tags of a port in any order, so many at most; one of the entries may be spoilt. */
static inline list any_list(const host *h, uint32_t port, uint32_t count) {
    const book *b = &h->books[port % KH_PORTS];
    uint32_t tag = below(KH_TAGS), step = 2 * below(KH_TAGS / 2) + 1;
    list l = {.count = 0};
    for (uint32_t i = 0; i < KH_TAGS && l.count < count; i++, tag = (tag + step) % KH_TAGS)
        if (is_busy(b, tag)) {
            add_started(&l, h, port % KH_PORTS, tag);
            change_result(entry_of(&l, l.count - 1));
        }
    if (l.count > 0 && one_in(6))
        spoil_entry(&l, entry_of(&l, below((uint32_t)l.count)));
    return l;
}

/* ---- one by one */

static struct {
    kh_memory memory;
    uint8_t rings[KH_RINGS_BYTES];
    uint64_t statuses[KH_ENTRIES];
    unsigned refused, notified;
} one_by_one;

/* kh_complete of an entry, on the copies. A result that doesn't fit goes as one that nobody expects. */
static inline void complete_entry(uint32_t port, const uint64_t *entry, uint64_t *status) {
    uint64_t done[KH_DONE_WORDS] = {0}, tag = entry[KH_ENTRY_TAG], serial = entry[KH_ENTRY_SERIAL];
    int64_t result = (int64_t)entry[KH_ENTRY_RESULT];
    uint32_t number = KH_NOT_BUSY;
    if (result < INT32_MIN || result > INT32_MAX)
        result = INT32_MIN;
    if (tag <= UINT32_MAX && serial <= UINT32_MAX)
        number = kh_complete(&one_by_one.memory, one_by_one.rings, KH_RINGS_BYTES, port, (uint32_t)tag,
                             (uint32_t)serial, (int32_t)result, done);
    CHECK(number == KH_OK || number == KH_NOT_BUSY);
    one_by_one.refused += number != KH_OK;
    one_by_one.notified += (unsigned)done[KH_DONE_NOTIFY];
    *status = done[KH_DONE_STATUS];
}

/* On copies of memory and rings as they are, of a port that is not closed. */
static inline void complete_one_by_one(const host *h, uint32_t port, const list *l) {
    memcpy(&one_by_one.memory, h->at[MEMORY], sizeof one_by_one.memory);
    memcpy(one_by_one.rings, h->at[RINGS], sizeof one_by_one.rings);
    memset(one_by_one.statuses, 0, sizeof one_by_one.statuses);
    one_by_one.refused = one_by_one.notified = 0;
    for (size_t i = 0; i < l->count; i++)
        complete_entry(port, l->words + KH_ENTRY_WORDS * i, &one_by_one.statuses[i]);
}

/* The list that was called next was refused where one of its completions was, and else left and said what they did all
 * together: of their notifies there is one at most. */
static inline void check_as_one_by_one(const host *h, uint32_t number) {
    const uint64_t *answer = words(h, LISTED);
    CHECK_EQ(number, one_by_one.refused > 0 ? 6 : KH_OK);
    if (number != KH_OK)
        return;
    CHECK(memcmp(h->at[RINGS], one_by_one.rings, sizeof one_by_one.rings) == 0);
    CHECK(memcmp(answer + KH_MANY_STATUSES, one_by_one.statuses, sizeof one_by_one.statuses) == 0);
    CHECK_EQ(answer[KH_MANY_NOTIFY], one_by_one.notified);
}

#endif
