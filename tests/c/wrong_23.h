/*
 * A discard's flag judged here, by rules 5.23 and 8.23 with one fault in it; the library judges the rest. Faults of
 * this kind begin with 23_, and 23_without_fault is none: it must pass all tests.
 */
#ifndef WRONG_23_H
#define WRONG_23_H

#include "port_words.h"
#include "wrong.h"

static inline bool is_23_judged_here(void) {
    return strncmp(chosen_fault(), "23_", 3) == 0;
}

/* A discard that asks to be secure, on a disk that ignores it. */
static inline bool is_flag_ignored(const uint8_t *slot, const uint64_t *kept) {
    return slot[0] == KH_DISCARD && (slot[1] & KH_DISCARD_SECURE) != 0 && kept[SECURE] == 0;
}

/* Whether the plan of a slot's request is marked secure; can: the disk's discard-secure is 1. */
static inline bool is_marked(const uint8_t *slot, bool can) {
    uint8_t flag = slot[1];
    if (slot[0] != KH_DISCARD && !wrong("23_mark_of_any_operation"))
        return false;
    if (wrong("23_mark_by_disk_alone"))
        return can;
    if (!can && !wrong("23_mark_by_flag_alone"))
        return false;
    if (wrong("23_mark_by_whole_byte"))
        return flag == KH_DISCARD_SECURE;
    if (wrong("23_mark_by_any_bit"))
        return flag != 0;
    return (flag & (wrong("23_mark_by_bit_1") ? 2 : KH_DISCARD_SECURE)) != 0;
}

/* What the disk of a discard whose flag is ignored is taken for. */
static inline void change_disk(uint64_t *kept, bool starts) {
    if (wrong("23_still_given") || (wrong("23_given_last") && starts))
        kept[DISCARD] = 0; /* 22, with the status that 23 had */
    if (wrong("23_skips_22"))
        kept[DISCARD] = 1;
    if (wrong("23_skips_24"))
        kept[WRITABLE] = 1;
    if (wrong("23_skips_28"))
        kept[SECTORS] = UINT64_MAX;
    if (wrong("23_skips_29"))
        kept[SECTOR_SIZE] = 0;
}

#endif
