/*
 * Joining, with all that is due of it by section 17 of docs/RULES.md: the number, the answer, every record, and what is
 * left alone. What joins is told here by the numbers of machine sectors, 8 to a frame, in more than 64 bits.
 */
#ifndef JOINING_H
#define JOINING_H

#include "test.h"

/* ---- what is lent */

enum { MOST_PLACES = 2000, SHELF_BYTES = 65536 };

/* What a joining is asked for. */
typedef struct {
    size_t extent_words;
    uint64_t pieces;
    size_t frame_count, run_count;
    uint64_t extents[KH_EXTENT_WORDS * (MOST_PLACES + 1)];
    uint64_t frames[MOST_PLACES + 1];
} joint;

enum lent { EXTENTS, FRAMES, RUNS, JOINED, LENT };

/* Pages to lend from, so that a call with other lengths costs no mapping: a buffer lies at the end that its placement
   is about. */
static uint8_t *shelves[LENT];

static inline uint64_t *take(enum lent which, size_t bytes) {
    if (placement == ON_HEAP)
        return (uint64_t *)(void *)lend(bytes);
    if (shelves[which] == NULL)
        shelves[which] = lend(SHELF_BYTES);
    return (uint64_t *)(void *)(shelves[which] + (placement == BEFORE_GUARD ? SHELF_BYTES - bytes : 0));
}

static inline void put_back(uint64_t *taken) {
    if (placement == ON_HEAP)
        free(taken);
}

/* Extents and machine frames are only read. To have that forbidden in one of the places is enough. */
static inline void lock(bool locked) {
    for (int which = EXTENTS; placement == AFTER_GUARD && which <= FRAMES; which++)
        allow_writes(shelves[which], SHELF_BYTES, !locked);
}

/* ---- what is due */

__extension__ typedef unsigned __int128 machine_sector;

static inline const uint64_t *extent_at(const joint *j, uint64_t i) {
    return j->extents + KH_EXTENT_WORDS * i;
}

static inline machine_sector begin_of(const joint *j, uint64_t i) {
    return (machine_sector)j->frames[i] * 8 + extent_at(j, i)[KH_EXTENT_FIRST];
}

static inline bool is_joined(const joint *j, uint64_t i) {
    return i > 0 && begin_of(j, i - 1) + extent_at(j, i - 1)[KH_EXTENT_LENGTH] == begin_of(j, i);
}

static inline bool is_plan(const joint *j) {
    if (j->pieces > j->extent_words / KH_EXTENT_WORDS)
        return false;
    for (uint64_t i = 0; i < j->pieces; i++) {
        const uint64_t *extent = extent_at(j, i), *before = extent_at(j, i > 0 ? i - 1 : 0);
        uint64_t first = extent[KH_EXTENT_FIRST], length = extent[KH_EXTENT_LENGTH], sector = extent[KH_EXTENT_SECTOR];
        if (first > 7 || length < 1 || length > 8 - first || sector > UINT64_MAX - length)
            return false;
        if (i > 0 && sector != before[KH_EXTENT_SECTOR] + before[KH_EXTENT_LENGTH])
            return false;
    }
    return true;
}

static inline uint64_t runs_due(const joint *j) {
    uint64_t count = 0;
    for (uint64_t i = 0; i < j->pieces; i++)
        count += !is_joined(j, i);
    return count;
}

/* The number that is due; where that is 0, the records and the answer as they are then. */
static inline uint32_t expect_join(const joint *j, kh_run *runs, uint64_t *answer) {
    if (!is_plan(j))
        return 10;
    if (j->frame_count < j->pieces)
        return 8;
    if (j->run_count < runs_due(j))
        return 9;
    *answer = 0;
    for (uint64_t i = 0; i < j->pieces; i++) {
        const uint64_t *extent = extent_at(j, i);
        if (!is_joined(j, i))
            runs[(*answer)++] = (kh_run){j->frames[i], extent[KH_EXTENT_FIRST], 0, extent[KH_EXTENT_SECTOR]};
        runs[*answer - 1].length += extent[KH_EXTENT_LENGTH];
    }
    return KH_OK;
}

/* ---- sector by sector (rules 17.17 to 17.19) */

/* What is left of the run at hand, and where that begins. */
typedef struct {
    const kh_run *next, *end;
    kh_run rest;
} walk;

/* The next sector of the runs is this one. No run goes on behind the last frame. */
static inline void meet_sector(walk *w, uint64_t frame, uint64_t sector, uint64_t disk) {
    kh_run *rest = &w->rest;
    if (rest->length == 0 && w->next < w->end)
        *rest = *w->next++;
    CHECK(rest->length > 0 && rest->frame == frame && rest->first == sector && rest->sector == disk);
    rest->length -= rest->length > 0;
    rest->sector++;
    rest->first = (rest->first + 1) % 8;
    if (rest->first == 0) {
        CHECK(rest->frame < UINT64_MAX || rest->length == 0);
        rest->frame++;
    }
}

/* The runs have the extents' sectors, each once and in order, and no two neighbours could be one. */
static inline void check_cover(const joint *j, const kh_run *runs, uint64_t count) {
    walk w = {runs, runs + count, {0, 0, 0, 0}};
    for (uint64_t i = 0; i < j->pieces; i++)
        for (uint64_t k = 0; k < extent_at(j, i)[KH_EXTENT_LENGTH]; k++)
            meet_sector(&w, j->frames[i], extent_at(j, i)[KH_EXTENT_FIRST] + k, extent_at(j, i)[KH_EXTENT_SECTOR] + k);
    CHECK(w.next == w.end && w.rest.length == 0);
    for (uint64_t r = 1; r < count; r++) {
        CHECK((machine_sector)runs[r - 1].frame * 8 + runs[r - 1].first + runs[r - 1].length !=
              (machine_sector)runs[r].frame * 8 + runs[r].first);
        CHECK_EQ(runs[r].sector, runs[r - 1].sector + runs[r - 1].length);
    }
}

/* ---- the call */

static kh_run joined_runs[MOST_PLACES + 1]; /* as the last call left them, records behind the runs as they were */
static uint64_t joined;                     /* its answer */

static inline uint64_t *take_copy(enum lent which, const void *from, size_t bytes) {
    uint64_t *taken = take(which, bytes);
    memcpy(taken, from, bytes);
    return taken;
}

static inline void check_left(const char *what, const uint64_t *taken, const void *due, size_t bytes) {
    if (memcmp(taken, due, bytes) != 0) {
        report(__FILE__, __LINE__, what);
        printf(": differ\n");
    }
    put_back((uint64_t *)(uintptr_t)taken);
}

static inline uint32_t do_join(const joint *j) {
    static kh_run runs[MOST_PLACES + 1];
    size_t extent_bytes = 8 * j->extent_words, frame_bytes = 8 * j->frame_count,
           run_bytes = sizeof *runs * j->run_count;
    uint64_t *lent[LENT], answer, due, number;
    memset(runs, 0xA5, run_bytes);
    memset(&answer, 0xA5, sizeof answer);
    lent[EXTENTS] = take_copy(EXTENTS, j->extents, extent_bytes);
    lent[FRAMES] = take_copy(FRAMES, j->frames, frame_bytes);
    lent[RUNS] = take_copy(RUNS, runs, run_bytes);
    lent[JOINED] = take_copy(JOINED, &answer, sizeof answer);
    due = expect_join(j, runs, &answer);
    lock(true); /* a length of 0 goes with a null pointer */
    number = kh_join_extents(extent_bytes > 0 ? lent[EXTENTS] : NULL, j->extent_words, j->pieces,
                             frame_bytes > 0 ? lent[FRAMES] : NULL, j->frame_count,
                             run_bytes > 0 ? (kh_run *)(void *)lent[RUNS] : NULL, j->run_count, lent[JOINED]);
    lock(false);
    CHECK_EQ(number, due);
    joined = *lent[JOINED];
    memcpy(joined_runs, lent[RUNS], run_bytes);
    if (number == KH_OK && due == KH_OK && joined == answer)
        check_cover(j, joined_runs, joined);
    check_left("extents", lent[EXTENTS], j->extents, extent_bytes);
    check_left("machine frames", lent[FRAMES], j->frames, frame_bytes);
    check_left("records", lent[RUNS], runs, run_bytes);
    check_left("answer", lent[JOINED], &answer, sizeof answer);
    return (uint32_t)number;
}

#define JOIN(j) MADE_HERE(do_join(j))

/* ---- what is asked for */

#define FIRST_SECTOR UINT64_C(1000)

/* So many places, machine frames and records, and no extent yet. Records of a grown list are enough for any runs. */
static inline void begin_joint(joint *j, size_t places) {
    j->extent_words = KH_EXTENT_WORDS * places;
    j->pieces = 0;
    j->frame_count = j->run_count = places;
}

/* Where the next extent has to begin on the disk. */
static inline uint64_t next_sector(const joint *j) {
    const uint64_t *last = extent_at(j, j->pieces > 0 ? j->pieces - 1 : 0);
    return j->pieces == 0 ? FIRST_SECTOR : last[KH_EXTENT_SECTOR] + last[KH_EXTENT_LENGTH];
}

static inline void set_extent(joint *j, uint64_t i, uint64_t first, uint64_t length, uint64_t sector) {
    uint64_t *extent = j->extents + KH_EXTENT_WORDS * i;
    extent[KH_EXTENT_FRAME] = 5; /* says nothing of the machine frame */
    extent[KH_EXTENT_FIRST] = first;
    extent[KH_EXTENT_LENGTH] = length;
    extent[KH_EXTENT_SECTOR] = sector;
}

/* One extent more, which goes on where the disk has come to. */
static inline void add_extent(joint *j, uint64_t frame, uint64_t first, uint64_t length) {
    set_extent(j, j->pieces, first, length, next_sector(j));
    j->frames[j->pieces++] = frame;
}

#endif
