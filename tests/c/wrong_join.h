/*
 * Joining done anew, by rules 17.1 to 17.16 with one fault in it. Faults of this kind begin with join_, and
 * join_without_fault is none: it must pass all tests.
 */
#ifndef WRONG_JOIN_H
#define WRONG_JOIN_H

#include "wrong.h"

typedef uint32_t join_call(const uint64_t *extents, size_t extent_words, uint64_t pieces,
                           const uint64_t *machine_frames, size_t frame_count, kh_run *runs, size_t run_count,
                           uint64_t *answer);
join_call __real_kh_join_extents, __wrap_kh_join_extents;

/* One extent with its machine frame. */
typedef struct {
    uint64_t frame, first, length, sector;
} part;

static inline part part_at(const uint64_t *extents, const uint64_t *machine_frames, uint64_t i) {
    const uint64_t *words = extents + KH_EXTENT_WORDS * i;
    part p = {machine_frames[i], words[KH_EXTENT_FIRST], words[KH_EXTENT_LENGTH], words[KH_EXTENT_SECTOR]};
    if (wrong("join_own_frames"))
        p.frame = words[KH_EXTENT_FRAME];
    if (wrong("join_frames_of_32_bits"))
        p.frame = (uint32_t)p.frame;
    return p;
}

/* ---- refusals */

static inline bool is_too_much(size_t extent_words, uint64_t pieces) {
    uint64_t places = extent_words / KH_EXTENT_WORDS;
    if (wrong("join_places_rounded_up"))
        places = (extent_words + 3) / KH_EXTENT_WORDS;
    if (wrong("join_pieces_of_32_bits"))
        return (uint32_t)pieces > places;
    if (wrong("join_pieces_times_4"))
        return KH_EXTENT_WORDS * pieces > extent_words;
    if (wrong("join_places_of_a_turn"))
        return pieces > places || pieces > KH_EXTENTS;
    return pieces > places + wrong("join_one_extent_more");
}

static inline bool is_out_of_frame(const uint64_t *extent) {
    uint64_t first = extent[KH_EXTENT_FIRST], length = extent[KH_EXTENT_LENGTH];
    uint64_t most = wrong("join_sector_8_taken") ? 9 : KH_FRAME_SECTORS;
    if (wrong("join_first_and_length_wrap"))
        return first + length > most;
    if (wrong("join_sector_7_refused"))
        most--;
    return first > most || length > most - first;
}

static inline bool is_past_the_disk(const uint64_t *extent) {
    uint64_t sector = extent[KH_EXTENT_SECTOR], length = extent[KH_EXTENT_LENGTH], end = sector + length;
    if (wrong("join_disk_wraps"))
        return false;
    if (wrong("join_2_64_taken"))
        return end < sector && end != 0;
    if (wrong("join_last_end_refused") && end == UINT64_MAX)
        return true;
    return end < sector;
}

static inline bool is_elsewhere(const uint64_t *extent) {
    const uint64_t *before = extent - KH_EXTENT_WORDS;
    uint64_t due = before[KH_EXTENT_SECTOR] + before[KH_EXTENT_LENGTH], sector = extent[KH_EXTENT_SECTOR];
    if (wrong("join_disk_goes_up"))
        return sector < due;
    return wrong("join_disk_of_32_bits") ? (uint32_t)sector != (uint32_t)due : sector != due;
}

static inline bool is_bad_extent(const uint64_t *extents, uint64_t i, uint64_t pieces) {
    const uint64_t *extent = extents + KH_EXTENT_WORDS * i;
    bool is_empty = extent[KH_EXTENT_LENGTH] == 0 && !wrong("join_empty_taken");
    bool is_left_out = (wrong("join_first_not_judged") && i == 0) ||
                       (wrong("join_last_not_judged") && i + 1 == pieces) ||
                       (wrong("join_ends_alone_judged") && i > 0 && i + 1 < pieces);
    if (is_left_out)
        return false;
    if (is_empty || is_out_of_frame(extent) || is_past_the_disk(extent))
        return true;
    return i > 0 && is_elsewhere(extent) && !wrong("join_disk_not_judged");
}

static inline uint32_t refusal_of_extents(const uint64_t *extents, size_t extent_words, uint64_t pieces,
                                          size_t frame_count) {
    uint64_t judged = wrong("join_all_places_judged") ? extent_words / KH_EXTENT_WORDS : pieces;
    bool is_short = frame_count < pieces;
    if (wrong("join_8_before_10") && is_short)
        return KH_TOO_FEW_FRAMES;
    if (is_too_much(extent_words, pieces))
        return KH_NO_PLAN;
    for (uint64_t i = 0; i < judged; i++) {
        if (wrong("join_8_in_turn") && i >= frame_count)
            return KH_TOO_FEW_FRAMES;
        if (is_bad_extent(extents, i, judged))
            return KH_NO_PLAN;
    }
    if (wrong("join_8_by_places") && frame_count < extent_words / KH_EXTENT_WORDS)
        return KH_TOO_FEW_FRAMES;
    return is_short && !wrong("join_8_not_given") ? KH_TOO_FEW_FRAMES : KH_OK;
}

/* ---- runs */

static inline bool is_in_next_frame(part one, part next) {
    uint64_t end = one.first + one.length;
    if (wrong("join_never_to_the_next") || (one.frame == UINT64_MAX && !wrong("join_frames_wrap")))
        return false;
    if (wrong("join_to_any_frame"))
        return end == KH_FRAME_SECTORS && next.first == 0 && next.frame != one.frame;
    if (wrong("join_to_the_same_frame") && next.frame == one.frame)
        return end == KH_FRAME_SECTORS && next.first == 0;
    if (next.frame != one.frame + 1)
        return wrong("join_to_the_frame_before") && next.frame + 1 == one.frame && end == 8 && next.first == 0;
    return (end == KH_FRAME_SECTORS || wrong("join_from_any_sector")) &&
           (next.first == 0 || wrong("join_to_any_sector"));
}

static inline bool is_neighbour(part one, part next) {
    uint64_t end = one.first + one.length;
    if (wrong("join_all") || is_in_next_frame(one, next))
        return true;
    if (one.frame != next.frame)
        return wrong("join_sectors_alone") && end == next.first;
    if (wrong("join_overlapping"))
        return one.first <= next.first && next.first <= end;
    return end + wrong("join_one_apart") == next.first && !wrong("join_never_in_a_frame");
}

/* Whether extent i goes on with the run that has so many sectors. */
static inline bool goes_on(const uint64_t *extents, const uint64_t *machine_frames, uint64_t i, uint64_t length) {
    if (i == 0 || (wrong("join_two_frames_at_most") && length > KH_FRAME_SECTORS))
        return false;
    if (wrong("join_88_sectors_at_most") && length >= KH_EXTENTS * KH_FRAME_SECTORS)
        return false;
    return is_neighbour(part_at(extents, machine_frames, i - 1), part_at(extents, machine_frames, i));
}

static inline kh_run begun_run(part p) {
    kh_run run = {p.frame, p.first, p.length, p.sector};
    if (wrong("join_disk_sector_first"))
        run = (kh_run){p.sector, p.frame, p.first, p.length};
    return run;
}

static inline void extend_run(kh_run *run, part p) {
    run->length += wrong("join_length_of_the_first") ? 0 : p.length;
    if (wrong("join_frame_of_the_last"))
        run->frame = p.frame;
    if (wrong("join_first_of_the_last"))
        run->first = p.first;
    if (wrong("join_sector_of_the_last"))
        run->sector = p.sector;
}

/* The number of runs; so many of them as there are records for are written. */
static inline uint64_t write_runs(const uint64_t *extents, uint64_t pieces, const uint64_t *machine_frames,
                                  kh_run *runs, size_t run_count) {
    uint64_t count = 0, length = 0;
    for (uint64_t i = 0; i < pieces; i++) {
        part p = part_at(extents, machine_frames, i);
        bool is_next = goes_on(extents, machine_frames, i, length);
        length = is_next ? length + p.length : p.length;
        count += !is_next;
        if (count <= run_count && is_next)
            extend_run(&runs[count - 1], p);
        if (count <= run_count && !is_next)
            runs[count - 1] = begun_run(p);
    }
    return count;
}

static inline void store_again(const uint64_t *words, size_t count) {
    if (count > 0)
        *(volatile uint64_t *)(uintptr_t)words = words[0];
}

static inline void touch_lent(const uint64_t *extents, size_t extent_words, const uint64_t *machine_frames,
                              size_t frame_count, kh_run *runs, size_t run_count, uint64_t *answer) {
    peek("join_before_extents", "join_after_extents", extents, 8 * extent_words);
    peek("join_before_frames", "join_after_frames", machine_frames, 8 * frame_count);
    peek("join_before_runs", "join_after_runs", runs, sizeof *runs * run_count);
    peek("join_before_answer", "join_after_answer", answer, 8 * KH_JOIN_WORDS);
    if (wrong("join_stores_to_extents"))
        store_again(extents, extent_words);
    if (wrong("join_stores_to_frames"))
        store_again(machine_frames, frame_count);
}

/* What 9 is judged by: no record is written. */
static inline uint64_t records_needed(const uint64_t *extents, uint64_t pieces, const uint64_t *machine_frames) {
    return wrong("join_9_by_extents") ? pieces : write_runs(extents, pieces, machine_frames, NULL, 0);
}

static inline uint32_t join_here(const uint64_t *extents, size_t extent_words, uint64_t pieces,
                                 const uint64_t *machine_frames, size_t frame_count, kh_run *runs, size_t run_count,
                                 uint64_t *answer) {
    uint32_t number = refusal_of_extents(extents, extent_words, pieces, frame_count);
    uint64_t count;
    if (wrong("join_pieces_of_32_bits"))
        pieces = (uint32_t)pieces;
    if (wrong("join_9_before_8") && number == KH_TOO_FEW_FRAMES &&
        records_needed(extents, frame_count, machine_frames) > run_count)
        return KH_TOO_FEW_RUNS;
    if (wrong("join_none_refused") && pieces == 0 && frame_count == 0)
        return KH_TOO_FEW_FRAMES;
    if (number != KH_OK) {
        if (wrong("join_refused_answers"))
            *answer = 0;
        return number;
    }
    if (!wrong("join_9_not_given") && records_needed(extents, pieces, machine_frames) > run_count) {
        if (wrong("join_refused_writes"))
            write_runs(extents, pieces, machine_frames, runs, run_count);
        return KH_TOO_FEW_RUNS;
    }
    count = write_runs(extents, pieces, machine_frames, runs, run_count);
    if (wrong("join_rest_cleared") && count < run_count)
        memset(runs + count, 0, sizeof *runs * (run_count - count));
    *answer = wrong("join_answers_extents") ? pieces : count + (wrong("join_none_is_one") && count == 0);
    return KH_OK;
}

uint32_t __wrap_kh_join_extents(const uint64_t *extents, size_t extent_words, uint64_t pieces,
                                const uint64_t *machine_frames, size_t frame_count, kh_run *runs, size_t run_count,
                                uint64_t *answer) {
    bool is_here = strncmp(chosen_fault(), "join_", 5) == 0;
    uint32_t number = (is_here ? join_here : __real_kh_join_extents)(extents, extent_words, pieces, machine_frames,
                                                                     frame_count, runs, run_count, answer);
    touch_lent(extents, extent_words, machine_frames, frame_count, runs, run_count, answer);
    return number;
}

#endif
