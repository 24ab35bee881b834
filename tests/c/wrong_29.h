/*
 * Reason 29 judged here, by rule 8.29 with one fault in it; the library judges the rest, on disks that it takes for
 * those of 512-byte sectors. Faults of this kind begin with 29_, and 29_without_fault is none: it must pass all tests.
 */
#ifndef WRONG_29_H
#define WRONG_29_H

#include "port_words.h"
#include "wrong.h"

enum { SEGMENT_BYTES = 8, FIRST_AT = 4, LAST_AT = 5 };

static inline bool is_29_judged_here(void) {
    return strncmp(chosen_fault(), "29_", 3) == 0;
}

/* Whether the rule looks at segment i. */
static inline bool is_looked_at(const uint8_t *slot, unsigned i) {
    unsigned n = slot[1];
    if (slot[0] == KH_DISCARD && !wrong("29_of_discards"))
        return false;
    if ((slot[0] == KH_WRITE && wrong("29_not_of_writes")) || (slot[0] == KH_BARRIER && wrong("29_not_of_barriers")))
        return false;
    if (n == 0 || wrong("29_without_segments"))
        return false;
    if (wrong("29_of_the_first_segment"))
        return i == 0;
    if (wrong("29_of_the_last_segment"))
        return i + 1 == n;
    return i < n || wrong("29_behind_the_last");
}

/* What a segment's boundaries are multiples of, on a disk of larger sectors than 512 bytes. */
static inline unsigned unit_of_segments(unsigned unit) {
    if (wrong("29_by_whole_frames"))
        return KH_FRAME_SECTORS;
    if (wrong("29_on_4096_alone") && unit < KH_FRAME_SECTORS)
        return 1;
    return wrong("29_by_half_a_sector") ? unit / 2 : unit;
}

static inline bool is_off(const uint8_t *segment, unsigned unit) {
    unsigned first = segment[FIRST_AT], last = segment[LAST_AT];
    if (first % unit != 0 && !wrong("29_of_lasts"))
        return true;
    return (last + (wrong("29_by_last_itself") ? 0 : 1)) % unit != 0 && !wrong("29_of_firsts");
}

/* A request's count; of one that fails 26, any number. */
static inline uint64_t count_in(const uint8_t *slot, const uint8_t *segments) {
    uint64_t count = 0;
    if (slot[0] == KH_DISCARD)
        memcpy(&count, segments, sizeof count);
    else
        for (unsigned i = 0; i < slot[1] && i < KH_SEGMENTS; i++)
            count += 1U + segments[SEGMENT_BYTES * i + LAST_AT] - segments[SEGMENT_BYTES * i + FIRST_AT];
    return count;
}

/* Whether the rule refuses the request; its start lies right before its segments. A flush or an empty barrier, whose
 * count is 0, it never does. */
static inline bool is_29(const uint8_t *slot, const uint8_t *start_at, unsigned unit) {
    const uint8_t *segments = start_at + 8;
    uint64_t start, count = count_in(slot, segments);
    if (unit == 1 || count == 0)
        return false;
    memcpy(&start, start_at, sizeof start);
    if (start % unit != 0 || count % unit != 0)
        return true;
    for (unsigned i = 0; i < KH_SEGMENTS; i++)
        if (is_looked_at(slot, i) && is_off(segments + SEGMENT_BYTES * i, unit_of_segments(unit)))
            return true;
    return false;
}

/* Whether 29 is looked for, by what the library says without it. */
static inline bool is_29_next(const uint64_t *answer) {
    uint64_t reason = answer[KH_TURN_REASON];
    return answer[KH_TURN_KIND] == KH_STARTED || (reason == 26 && wrong("29_before_26")) ||
           (reason == 27 && wrong("29_before_27")) || (reason == 28 && wrong("29_before_28"));
}

#endif
