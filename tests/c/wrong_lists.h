/*
 * Lists of completions done here, by rules 6.16 to 6.23 with one fault in them; the library completes each of the
 * entries, and raises a meter by each of the statuses. Faults of this kind begin with many_, and many_without_fault is
 * none: it must pass all tests.
 */
#ifndef WRONG_LISTS_H
#define WRONG_LISTS_H

#include "wrong_rings.h"

uint32_t __real_kh_complete_many(kh_memory *memory, uint8_t *rings, size_t rings_bytes, uint32_t port,
                                 const uint64_t *entries, size_t entry_words, uint64_t *answer);
void __real_kh_meter_completion(kh_meter *meter, uint32_t returned, const uint64_t *answer);
void __real_kh_meter_many(kh_meter *meter, uint32_t returned, const uint64_t *answer);

static inline bool are_lists_done_here(void) {
    return strncmp(chosen_fault(), "many_", 5) == 0;
}

/* ---- refusals */

/* How many slots a port's ring has, by its words. */
static inline uint32_t slots_by_words(kh_memory *memory, uint64_t port) {
    return (words_of_port(memory, port)[PAGES] & SECOND_PAGE) != 0 ? KH_TAGS : KH_PAGE_SLOTS;
}

static inline uint64_t tag_seen(const uint64_t *entry) {
    uint64_t tag = entry[KH_ENTRY_TAG];
    if (wrong("many_tag_of_6_bits"))
        return tag % KH_TAGS;
    return wrong("many_tag_of_32_bits") ? (uint32_t)tag : tag;
}

static inline uint64_t serial_seen(const uint64_t *entry) {
    uint64_t serial = entry[KH_ENTRY_SERIAL];
    return wrong("many_serial_of_32_bits") ? (uint32_t)serial : serial;
}

static inline bool names_busy_tag(kh_memory *memory, uint64_t port, const uint64_t *entry) {
    uint64_t tag = tag_seen(entry);
    if (tag >= (wrong("many_tags_to_63") ? KH_TAGS : slots_by_words(memory, port)))
        return false;
    if ((words_of_port(memory, port)[BUSY] >> tag & 1) == 0)
        return false;
    return (uint32_t)words_of_tag(memory, port, tag)[TAG_SERIAL] == serial_seen(entry) || wrong("many_any_serial");
}

/* Whether two entries are seen to name one tag. */
static inline bool is_same_tag(const uint64_t *one, const uint64_t *other) {
    uint64_t tag = tag_seen(one), before = tag_seen(other);
    if (wrong("many_twice_by_32"))
        return tag % 32 == before % 32;
    if (wrong("many_twice_with_the_result"))
        return tag == before && one[KH_ENTRY_RESULT] == other[KH_ENTRY_RESULT];
    return tag == before;
}

static inline bool is_named_before(const uint64_t *entries, size_t i) {
    for (size_t k = 0; k < i; k++) {
        if (wrong("many_twice_unseen") || (wrong("many_twice_next_alone") && k + 1 != i) ||
            (wrong("many_twice_first_alone") && k != 0) || (wrong("many_twice_not_at_ends") && k + 63 == i))
            continue;
        if (is_same_tag(entries + KH_ENTRY_WORDS * i, entries + KH_ENTRY_WORDS * k))
            return true;
    }
    return false;
}

static inline bool is_bad_entry(kh_memory *memory, uint64_t port, const uint64_t *entries, size_t i, size_t count) {
    if ((wrong("many_first_alone") && i > 0) || (wrong("many_last_not_judged") && i > 0 && i + 1 == count))
        return false;
    if (wrong("many_ends_alone") && i > 0 && i + 1 < count)
        return false;
    return !names_busy_tag(memory, port, entries + KH_ENTRY_WORDS * i) || is_named_before(entries, i);
}

static inline bool is_bad_list(kh_memory *memory, uint64_t port, const uint64_t *entries, size_t count) {
    for (size_t i = 0; i < count; i++)
        if (is_bad_entry(memory, port, entries, i, count))
            return true;
    return wrong("many_empty_refused") && count == 0;
}

static inline size_t count_seen(size_t entry_words) {
    size_t count = entry_words / KH_ENTRY_WORDS;
    if (wrong("many_count_of_8_bits"))
        return (uint8_t)count;
    return wrong("many_count_of_32_bits") ? (uint32_t)count : count;
}

static inline bool is_too_long(kh_memory *memory, uint64_t port, size_t count) {
    if (wrong("many_7_by_the_ring") && port < KH_PORTS)
        return count > slots_by_words(memory, port);
    return count > (wrong("many_64_is_7") ? KH_ENTRIES - 1 : KH_ENTRIES);
}

/* 1, 2 and 4. */
static inline uint32_t refusal_of_port(kh_memory *memory, size_t rings_bytes, uint32_t port, size_t entry_words) {
    bool is_whole = entry_words % KH_ENTRY_WORDS == 0 || wrong("many_words_cut");
    if (wrong("many_empty_before_1") && entry_words == 0)
        return KH_OK;
    if (rings_bytes != KH_RINGS_BYTES || (!is_whole && !wrong("many_words_last")))
        return KH_WRONG_LENGTH;
    if (wrong("many_empty_before_2") && entry_words == 0)
        return KH_OK;
    if (port >= KH_PORTS)
        return KH_NO_PORT;
    if (wrong("many_empty_before_4") && entry_words == 0)
        return KH_OK;
    if (words_of_port(memory, port)[0] == 0 || (wrong("many_broken_refused") && !is_open(memory, port)))
        return KH_IS_CLOSED;
    return is_whole ? KH_OK : KH_WRONG_LENGTH;
}

static inline uint32_t refusal_of_list(kh_memory *memory, size_t rings_bytes, uint32_t port, const uint64_t *entries,
                                       size_t entry_words) {
    size_t count = count_seen(entry_words);
    bool is_long = is_too_long(memory, port, count);
    uint32_t number = refusal_of_port(memory, rings_bytes, port, entry_words);
    if (is_long && (wrong("many_7_before_1") || (wrong("many_7_before_2") && number != KH_WRONG_LENGTH) ||
                    (wrong("many_7_before_4") && number == KH_IS_CLOSED)))
        return KH_TOO_MANY;
    if (number != KH_OK)
        return number;
    if (is_long && !wrong("many_7_after_6"))
        return wrong("many_65_is_6") ? KH_NOT_BUSY : KH_TOO_MANY;
    if (is_bad_list(memory, port, entries, is_long ? KH_ENTRIES : count))
        return KH_NOT_BUSY;
    return is_long ? KH_TOO_MANY : KH_OK;
}

/* ---- what is done */

/* The place of the entry that is answered as number i. */
static inline size_t nth_answered(const uint64_t *entries, size_t i, size_t count) {
    if (wrong("many_backwards"))
        return count - 1 - i;
    for (size_t at = 0; wrong("many_by_tag") && at < count; at++) {
        size_t lower = 0;
        for (size_t k = 0; k < count; k++)
            lower += tag_seen(entries + KH_ENTRY_WORDS * k) < tag_seen(entries + KH_ENTRY_WORDS * at);
        if (lower == i)
            return at;
    }
    return i;
}

/* A result that doesn't fit goes as one that nobody expects. */
static inline int32_t result_seen(const uint64_t *entry) {
    int64_t result = (int64_t)entry[KH_ENTRY_RESULT];
    if ((result < INT32_MIN || result > INT32_MAX) && !wrong("many_result_of_32_bits"))
        return INT32_MIN;
    return (int32_t)(uint32_t)result;
}

static inline bool is_notified(uint32_t old, uint32_t new, uint32_t event) {
    if (wrong("many_notify_at_new_alone"))
        return event == new;
    if (wrong("many_notify_at_first_alone"))
        return event == old + 1 && new != old;
    if (wrong("many_notify_from_old"))
        return new - event <= new - old;
    if (wrong("many_notify_below_new"))
        return event != new &&new - event < new - old;
    if (wrong("many_notify_without_wrap"))
        return old < event && event <= new;
    if (wrong("many_notify_signed"))
        return (int32_t)(new - event) < (int32_t)(new - old);
    return new - event < new - old;
}

static inline void meet_empty_list(kh_memory *memory, uint8_t *rings, uint32_t port, uint64_t *answer) {
    uint32_t old = (uint32_t)words_of_port(memory, port)[PRODUCED];
    if (wrong("many_empty_publishes"))
        set_index(rings, port, KH_RSP_PROD, old);
    if (wrong("many_empty_notifies"))
        answer[KH_MANY_NOTIFY] = index_at(rings, port, KH_RSP_EVENT) == old;
    if (wrong("many_empty_looks"))
        (void)*(volatile uint8_t *)(share_of(rings, port) + KH_RSP_EVENT);
}

/* Each entry by the library; the answer's words are its statuses and whether to notify. */
static inline void complete_entries(kh_memory *memory, uint8_t *rings, uint32_t port, const uint64_t *entries,
                                    size_t count, uint64_t *answer) {
    uint32_t rsp_prod = index_at(rings, port, KH_RSP_PROD), old = (uint32_t)words_of_port(memory, port)[PRODUCED];
    for (size_t i = 0; i < count; i++) {
        size_t at = nth_answered(entries, i, count);
        const uint64_t *entry = entries + KH_ENTRY_WORDS * at;
        uint64_t done[KH_DONE_WORDS] = {0};
        __real_kh_complete(memory, rings, KH_RINGS_BYTES, port, (uint32_t)tag_seen(entry), (uint32_t)serial_seen(entry),
                           result_seen(entry), done);
        answer[KH_MANY_STATUSES + at] = done[KH_DONE_STATUS];
    }
    answer[KH_MANY_NOTIFY] =
        is_notified(wrong("many_notify_by_page") ? rsp_prod : old, (uint32_t)words_of_port(memory, port)[PRODUCED],
                    index_at(rings, port, KH_RSP_EVENT));
    if (wrong("many_rsp_prod_of_page"))
        set_index(rings, port, KH_RSP_PROD, rsp_prod + (uint32_t)count);
    if (wrong("many_rsp_prod_raised_by_1"))
        set_index(rings, port, KH_RSP_PROD, old + 1);
}

static inline void spoil_list_answer(uint64_t *answer, size_t count) {
    uint64_t *statuses = answer + KH_MANY_STATUSES;
    if (wrong("many_notify_never"))
        answer[KH_MANY_NOTIFY] = 0;
    if (wrong("many_notify_always"))
        answer[KH_MANY_NOTIFY] = 1;
    if (wrong("many_word_3"))
        answer[KH_MANY_NOTIFY + 1] = 1;
    if (wrong("many_count_left_out"))
        answer[KH_MANY_COUNT] = 0;
    if (wrong("many_port_0"))
        answer[KH_MANY_PORT] = 0;
    if (wrong("many_last_status_left_out") && count > 0)
        statuses[count - 1] = 0;
    if (wrong("many_status_behind_the_last") && count < KH_ENTRIES)
        statuses[count] = 1;
    for (size_t i = 0; wrong("many_statuses_backwards") && i < count / 2; i++) {
        uint64_t first = statuses[i];
        statuses[i] = statuses[count - 1 - i];
        statuses[count - 1 - i] = first;
    }
    for (size_t i = 1; wrong("many_first_status_for_all") && i < count; i++)
        statuses[i] = statuses[0];
}

/* Of the response to the last entry, and of its tag. */
static inline void spoil_last_entry(kh_memory *memory, uint8_t *rings, uint32_t port, const uint64_t *entry) {
    uint8_t *slot = last_response(rings, port);
    if (wrong("many_padding_left"))
        slot[9] ^= 1;
    if (wrong("many_rest_of_slot"))
        slot[kh_response_bytes(abis[port])] ^= 1;
    if (wrong("many_as_64_bit"))
        pad_response(rings, port);
    if (wrong("many_last_not_written"))
        memset(slot, 0xEE, kh_response_bytes(abis[port]));
    if (wrong("many_next_port"))
        share_of(rings, (port + 1) % KH_PORTS)[KH_RSP_PROD] ^= 1;
    if (wrong("many_second_half") && pages_of(port) == 1)
        share_of(rings, port)[KH_PAGE_BYTES + KH_HEADER_BYTES] ^= 1;
    if (wrong("many_tag_kept"))
        words_of_tag(memory, port, tag_seen(entry))[TAG_ID] = 1;
    if (wrong("many_mark_kept"))
        words_of_port(memory, port)[BUSY] |= UINT64_C(1) << tag_seen(entry);
    if (wrong("many_r_raised_too_far"))
        words_of_port(memory, port)[PRODUCED]++;
}

static inline uint32_t complete_list_here(kh_memory *memory, uint8_t *rings, size_t rings_bytes, uint32_t port,
                                          const uint64_t *entries, size_t entry_words, uint64_t *answer) {
    uint32_t number = refusal_of_list(memory, rings_bytes, port, entries, entry_words);
    size_t count = count_seen(entry_words);
    uint64_t done[KH_MANY_WORDS] = {port, count, 0, 0};
    if (number == KH_NOT_BUSY && count <= KH_ENTRIES && wrong("many_bad_left_out"))
        number = KH_OK;
    if (number == KH_NOT_BUSY && count <= KH_ENTRIES && wrong("many_done_until_the_bad")) {
        complete_entries(memory, rings, port, entries, count, done);
        return number;
    }
    if (number != KH_OK && wrong("many_refused_writes"))
        answer[KH_MANY_PORT] = port;
    if (number != KH_OK)
        return number;
    if (count > 0)
        complete_entries(memory, rings, port, entries, count, done);
    else if (port < KH_PORTS && rings_bytes == KH_RINGS_BYTES)
        meet_empty_list(memory, rings, port, done);
    spoil_list_answer(done, count);
    memcpy(answer, done, sizeof *answer * (wrong("many_rest_left") ? KH_MANY_STATUSES + count : KH_MANY_WORDS));
    if (count > 0)
        spoil_last_entry(memory, rings, port, entries + KH_ENTRY_WORDS * (count - 1));
    return KH_OK;
}

/* ---- meters */

static inline uint64_t entries_metered(uint64_t count) {
    uint64_t most = wrong("many_meter_63_at_most") ? KH_ENTRIES - 1 : KH_ENTRIES;
    if (wrong("many_meter_count_of_32_bits"))
        count = (uint32_t)count;
    if (wrong("many_meter_count_of_8_bits"))
        count = (uint8_t)count;
    if (wrong("many_meter_first_alone") && count > 1)
        return 1;
    if (wrong("many_meter_all_places"))
        return KH_ENTRIES;
    if (wrong("many_meter_none_above_64") && count > KH_ENTRIES)
        return 0;
    return count < most ? count : most;
}

static inline void meter_list_here(kh_meter *meter, uint32_t returned, const uint64_t *answer) {
    kh_meter before = *meter;
    uint64_t count = entries_metered(answer[KH_MANY_COUNT]);
    if (wrong("many_meter_refused_counts"))
        returned = KH_OK;
    if (wrong("many_meter_returned_of_8_bits"))
        returned = (uint8_t)returned;
    for (uint64_t i = 0; i < count; i++) {
        uint64_t done[KH_DONE_WORDS] = {0, answer[KH_MANY_STATUSES + i], 0, 0};
        if (wrong("many_meter_from_word_3"))
            done[KH_DONE_STATUS] = answer[KH_MANY_STATUSES + i - 1];
        if (wrong("many_meter_status_of_32_bits"))
            done[KH_DONE_STATUS] = (uint32_t)done[KH_DONE_STATUS];
        if (wrong("many_meter_other_is_error") && done[KH_DONE_STATUS] > 2)
            done[KH_DONE_STATUS] = 1;
        __real_kh_meter_completion(meter, returned, done);
    }
    if (wrong("many_meter_takes") && returned == KH_OK && meter->taken < UINT64_MAX)
        meter->taken += 1;
    if (wrong("many_meter_stops_together") && (meter->okay == UINT64_MAX || meter->error == UINT64_MAX))
        meter->not_supported = before.not_supported;
}

#endif
